"""Runs of the program, and what comes of each: for tests/command."""

from __future__ import annotations

import re
import shlex
import subprocess
from ast import literal_eval
from collections.abc import Sequence
from dataclasses import dataclass, field
from pathlib import Path
from subprocess import DEVNULL, PIPE, CompletedProcess
from typing import IO

from .needs import first_word, program, stop

PROGRAM = program(first_word())
Words = Sequence[str | bytes]
OF_THE_LOADER = re.compile(r'^(execve|access)\(|\([0-9]+, ""|"/(etc/ld\.so|lib|usr/lib)[^"]*", O_RDONLY\|O_CLOEXEC\)')
CALL = re.compile(r'([a-z0-9]+)\((?:AT_FDCWD, )?"([^"]*)"(?:, ([A-Z_|]+))?')


@dataclass
class Line:
    """A command line, and what comes of it."""

    words: Words
    status: int = 0
    out: bytes = b""
    err: bytes = b""
    made: dict[str, str] = field(default_factory=dict)
    first: str = "mdmp"


class Runs:
    """The runs of the program in a folder."""

    def __init__(self, folder: Path) -> None:
        self.folder = folder
        self.passed = 0

    def same(self, name: str, wanted: object, found: object) -> None:
        """Compares what is wanted with what was found."""
        if wanted != found:
            stop(f"{name}: {str(found)[:2000]}\nwanted: {str(wanted)[:2000]}")
        self.passed += 1

    def kept(self, name: str, wanted: dict[str, bytes]) -> None:
        """Compares the files of the folder with these."""
        found = contents(self.folder)
        self.same(name, [], sorted(file for file in {*wanted, *found} if wanted.get(file) != found.get(file)))

    def run(self, line: Line, out: int | IO[bytes] = PIPE, err: int | IO[bytes] = PIPE) -> CompletedProcess[bytes]:
        """Runs a command line to two outputs. Standard input is `/dev/null`."""
        words: list[str | bytes] = [line.first, *line.words]
        return subprocess.run(words, executable=PROGRAM, cwd=self.folder, stdin=DEVNULL, stdout=out, stderr=err, check=False)

    def reads(self, name: str, line: Line, given: bytes | int) -> None:
        """Compares the exit status and both outputs of a command line that is given these bytes by a pipe, or this file."""
        words: list[str | bytes] = [line.first, *line.words]
        with subprocess.Popen(words, executable=PROGRAM, cwd=self.folder, stdin=given if isinstance(given, int) else PIPE, stdout=PIPE, stderr=PIPE) as run:
            out, err = run.communicate(given if isinstance(given, bytes) else None)
        self.same(f"{name}: {shlex.join(map(str, line.words))}", (line.status, line.out, line.err), (run.returncode, out, err))

    def output(self, *words: str) -> bytes:
        """What the program prints."""
        return self.run(Line(words)).stdout

    def ends(self, line: Line, name: str = "") -> None:
        """Compares the exit status and both outputs of a command line."""
        done = self.run(line)
        wanted = (line.status, line.out, line.err)
        self.same(name or shlex.join(map(str, line.words)), wanted, (done.returncode, done.stdout, done.stderr))

    def fails(self, line: Line) -> None:
        """Compares how a command line ends if an output that has something is a full disk."""
        with open("/dev/full", "wb") as full:
            if line.out:
                done = self.run(line, out=full)
                told = self.summaries_failed(line) or b"mdmp: output failed\n"
                self.same(f"{line.words} to a full disk", (3, told), (done.returncode, done.stderr))
            if line.err and not line.made:
                done = self.run(line, err=full)
                self.same(f"{line.words} with a full disk", (line.status, line.out), (done.returncode, done.stdout))

    def summaries_failed(self, line: Line) -> bytes:
        """What summaries tell if the output fails: of each file with a summary that, and of the others what they told."""
        told = iter(line.err.splitlines(keepends=True))
        names = [str(word) for word in line.words if line.words[0] == "summary" and str(word).endswith(".dmp")]
        printed = [re.search(rf'(^|"file":"){re.escape(name)}[:"]'.encode(), line.out, re.M) for name in names]
        return b"".join(f"mdmp: {name}: output failed\n".encode() if out else next(told) for name, out in zip(names, printed))

    def files(self, name: str, wanted: list[str], *words: str) -> None:
        """Compares the calls that name a file, in order, but for those of the loader: the call, the file, how it is opened."""
        trace = self.folder / "trace"
        traced: list[str | Path] = ["strace", "-f", "-qq", "-o", trace, "-e", "trace=%file", PROGRAM, *words]
        subprocess.run(traced, cwd=self.folder, stdin=DEVNULL, capture_output=True, check=False)
        lines = [re.sub(r"^[0-9]+ +", "", line) for line in trace.read_text(encoding="utf-8").splitlines()]
        calls = [CALL.match(line) for line in lines if not OF_THE_LOADER.search(line)]
        self.same(name, wanted, [" ".join(part for part in call.groups() if part) if call else "?" for call in calls])
        trace.unlink()


def lines_of(text: str, seen: dict[str, bytes]) -> list[Line]:
    """The command lines of a file. `seen` is what each prints that was read so far."""
    lines: list[Line] = []
    for row in text.split("\n"):
        if not row or row.startswith("#"):
            continue
        mark, _, rest = row.partition(" ")
        if mark == "$":
            lines.append(Line(shlex.split(rest)[1:]))
        elif mark == "|":
            lines[-1].out += f"{rest}\n".encode()
        elif row[0] in "'\"":
            lines[-1].out += f"{literal_eval(row)}\n".encode()
        elif mark == "~":
            lines[-1].out = seen[rest]
        elif mark == "!":
            lines[-1].err += f"{rest}\n".encode()
        elif mark == "!~":
            lines[-1].err = seen[rest]
        elif mark == "+":
            name, _, same = rest.partition(" ")
            lines[-1].made[name] = same
        elif mark == "=":
            lines[-1].status = int(rest)
        else:
            stop(f"no line of a block: {row}")
        seen[shlex.join(["mdmp", *map(str, lines[-1].words)])] = lines[-1].out
    return lines


def contents(folder: Path) -> dict[str, bytes]:
    """The files of a folder."""
    return {path.name: path.read_bytes() for path in folder.iterdir()}
