"""The harness of tests/fuzzing, and the library compiled anew from its LLVM module."""

from __future__ import annotations

import os
import re
import subprocess
from collections.abc import Iterator
from pathlib import Path

from .needs import TOP, stop, stored_dumps

FOLDER = TOP / "tests/fuzzing"
CORPUS = FOLDER / "corpus"
IN_C = TOP / "bindings/tests/in_c"
WARNINGS = "-Wall -Wextra -Wpedantic -Werror".split()
# The oracle of refused allocations sees what the library asks for.
WRAPPED = ["-Wl,--wrap=malloc,--wrap=realloc,--wrap=free"]
INCLUDED = [f"-I{TOP / 'include'}", f"-I{IN_C}", f"-I{FOLDER}"]
MAIN = FOLDER / "harness.c"
ORACLES = sorted({*FOLDER.glob("*.c")} - {MAIN, FOLDER / "edges.c"}) + [IN_C / name for name in ("support.c", "fillers.c", "heap.c", "texts.c")]


def compiler() -> str:
    """The C compiler of the system."""
    return os.environ.get("CC", "cc")


def kit() -> Path:
    """The folder of the toolchain."""
    try:
        page = subprocess.run(["rt", "doc"], stdout=subprocess.PIPE, check=True, text=True).stdout
    except (OSError, subprocess.CalledProcessError):
        stop("no toolchain: rt is not found")
    return Path(page.strip()).parent


def heap() -> Path:
    """What the library calls for memory."""
    return kit() / "c/liblibc_c.a"


def module() -> Path:
    """The LLVM module that the library is compiled from: MDMP_MODULE, or what bindings/archive keeps."""
    path = Path(os.environ.get("MDMP_MODULE", TOP / "crates/mdmp_c/out/libmdmp_c.bc")).absolute()
    if not path.is_file():
        stop(f"no module {path}: bindings/archive builds it")
    return path


def corpus() -> list[Path]:
    """The files that the harness runs over: those of the corpus, and the samples."""
    return [*sorted(CORPUS.iterdir()), *stored_dumps()]


def run(*words: str | Path, env: dict[str, str] | None = None) -> None:
    """Runs a command; ends the script if it fails, and prints what it wrote."""
    done = subprocess.run([*map(str, words)], stdout=subprocess.PIPE, stderr=subprocess.STDOUT, text=True, errors="replace", env=env)
    if done.returncode:
        stop(f"status {done.returncode} of {' '.join(map(str, words[:3]))} ..\n{done.stdout[-4000:]}")


def compile_module(out: Path, *flags: str, is_checked: bool = False) -> Path:
    """Compiles the module into an object. With `is_checked` AddressSanitizer looks at its functions."""
    clang = kit() / "toolchain/bin/clang"
    given = module()
    if is_checked:
        text = out.with_suffix(".ll")
        run(clang, "--no-default-config", "-S", "-emit-llvm", "-x", "ir", given, "-o", text)
        # Functions that are defined have a probe of the stack; those that are only declared have none.
        checked = re.sub(r'^(attributes #\d+ = \{) (?=.*"probe-stack")', r"\1 sanitize_address ", text.read_text("latin-1"), flags=re.M)
        text.write_text(checked, "latin-1")
        given = text
    run(clang, "--no-default-config", "-fPIC", "-ffunction-sections", "-fdata-sections", *flags, "-c", "-x", "ir", given, "-o", out)
    return out


def build(out: Path, *objects: Path, flags: tuple[str, ...] = ()) -> Path:
    """Builds the harness over an object or an archive of the library."""
    run(compiler(), "-std=c11", "-O1", "-g", *WARNINGS, *INCLUDED, *flags, MAIN, *ORACLES, *objects, *WRAPPED, "-o", out)
    return out


def shares(paths: list[Path], count: int) -> Iterator[list[Path]]:
    """The files in so many shares."""
    for start in range(count):
        if paths[start::count]:
            yield paths[start::count]


def run_over(program: Path, paths: list[Path], env: dict[str, str] | None = None) -> None:
    """Runs a program over files, on all processors. Ends the script if one of them fails, and says which file it was."""
    running = [
        (share, subprocess.Popen([program, *share], stdout=subprocess.DEVNULL, stderr=subprocess.PIPE, env=env))
        for share in shares(paths, os.cpu_count() or 1)
    ]
    failed = []
    for share, process in running:
        said = process.communicate()[1]
        if process.returncode:
            failed.append((share, process.returncode, said))
    for share, status, said in failed:
        culprit = next((path for path in share if subprocess.run([program, path], capture_output=True, env=env).returncode), None)
        names = culprit or f"{len(share)} files, and over none of them alone"
        stop(f"status {status} over {names}\n{said.decode(errors='replace')[-4000:]}")
