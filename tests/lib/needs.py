"""What a script asks for before it begins, and how it ends if something is not there."""

from __future__ import annotations

import os
import subprocess
import sys
from pathlib import Path
from typing import NoReturn

TOP = Path(__file__).resolve().parent.parent.parent
DATA = TOP / "crates/mdmp_samples/data"
SAMPLES = TOP / "tests/samples"


def stop(why: str) -> NoReturn:
    """Ends the script: a line has its name and says why."""
    script = Path(sys.argv[0]).resolve()
    name = script.relative_to(TOP) if script.is_relative_to(TOP) else script.name
    sys.exit(f"{name}: {why}")


def stored_dumps() -> list[Path]:
    """The dumps of both folders, which docs/samples.md describes. No two have one name."""
    return [*sorted(DATA.glob("*.dmp")), *sorted(SAMPLES.glob("*.dmp"))]


def need(*packages: str) -> None:
    """Ends the script if one of these Debian packages is missing: a line says which."""
    if subprocess.call([TOP / "tests/setup", "--need", *packages]):
        sys.exit(1)


def program(word: str | None = None) -> Path:
    """The program of this word, or, without one, where its crate is built. Ends the script if it is not there."""
    path = Path(word or TOP / "crates/mdmp/out/mdmp").absolute()
    if not os.access(path, os.X_OK):
        stop(f"no program {path}: build it by (cd crates/mdmp && rt run -- --version)")
    return path


def first_word() -> str | None:
    """The first word that the script is given."""
    return sys.argv[1] if len(sys.argv) > 1 else None


def use_package(folder: Path) -> None:
    """Lets this script, and those that it starts, import the Python package and the scripts of bench. The library is the one that
    MDMP_LIBRARY names, or it is built in the folder.
    """
    if "MDMP_LIBRARY" not in os.environ:
        subprocess.run([TOP / "bindings/build", folder / "built"], check=True)
        os.environ["MDMP_LIBRARY"] = str(folder / "built/libmdmp.so")
    places = [str(TOP / "bindings/python"), str(TOP / "bench")]
    os.environ["PYTHONPATH"] = ":".join(places + os.environ.get("PYTHONPATH", "").split(":"))
    sys.path[:0] = places
