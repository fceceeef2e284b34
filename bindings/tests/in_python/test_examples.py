"""The examples of the documentation, run in the folder of the dumps that they name."""

from __future__ import annotations

import contextlib
import doctest
import importlib
import os
import pkgutil
import unittest

import mdmp


class Examples(unittest.TestCase):
    """Each docstring's."""

    def test_examples(self) -> None:
        found = [module.name for module in pkgutil.iter_modules(mdmp.__path__)]
        names = ["mdmp"] + [f"mdmp.{name}" for name in found if name != "__main__"]
        tried = 0
        with contextlib.chdir(os.environ["MDMP_STORED"]):
            for name in names:
                result = doctest.testmod(importlib.import_module(name))
                self.assertEqual(result.failed, 0, name)
                tried += result.attempted
        self.assertGreater(tried, 20)
