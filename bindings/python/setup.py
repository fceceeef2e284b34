"""The wheel holds the shared library, which is of one platform but of no Python's: any Python 3 may load it."""

from setuptools import Distribution, setup
from wheel.bdist_wheel import bdist_wheel


class OfPlatform(Distribution):
    """What is installed beside modules that were compiled."""

    def has_ext_modules(self):
        return True


class Wheel(bdist_wheel):
    """A wheel of this platform for any Python 3."""

    def get_tag(self):
        return "py3", "none", super().get_tag()[2]


setup(distclass=OfPlatform, cmdclass={"bdist_wheel": Wheel})
