"""What the scripts share that make files of the repository, or stretches of files: bindings/generate, docs/generate and tests/comparisons."""

from __future__ import annotations

import os
import sys

from .needs import TOP


class Mistake(Exception):
    """Something in the repository that a script can't make anything of."""


def read(name: str) -> str:
    """The text of a file; of one that is not there, none."""
    path = TOP / name
    return path.read_text(encoding="utf-8") if path.exists() else ""


def asked_to_check(usage: str | None) -> bool:
    """Whether the script is given --check. Other words end it with its usage."""
    if sys.argv[1:] not in ([], ["--check"]):
        print(usage, file=sys.stderr)
        sys.exit(2)
    return bool(sys.argv[1:])


def write(source: str, files: dict[str, str], is_check: bool) -> bool:
    """Writes the files that are not as they would be made of a source, or names them. Whether all are as they would be made."""
    differing = [name for name, text in files.items() if read(name) != text]
    for name in differing:
        if is_check:
            script = os.path.relpath(sys.argv[0], TOP)
            print(f"{name} is not what is made of {source}: run {script}", file=sys.stderr)
        else:
            (TOP / name).parent.mkdir(parents=True, exist_ok=True)
            (TOP / name).write_text(files[name], encoding="utf-8")
            print(f"{name} written")
    return not differing


class Stretches:
    """Files with stretches that are made anew."""

    def __init__(self) -> None:
        self.texts: dict[str, str] = {}

    def text(self, name: str) -> str:
        """A file as it is made so far."""
        return self.texts.get(name) or read(name)

    def put(self, name: str, before: str, after: str, made: str) -> None:
        """Puts what is made between two texts, the first of which the file has once, or before the end of the file."""
        text = self.text(name)
        if text.count(before) != 1:
            raise Mistake(f"{name} has {text.count(before)} times, and not once: {before!r}")
        start = text.index(before) + len(before)
        end = text.find(after, start) if after else len(text)
        if end < 0:
            raise Mistake(f"{name} does not have {after!r} after {before!r}")
        self.texts[name] = text[:start] + made + text[end:]


def filled(words: list[str], between: str, width: int, line_start: str, line_end: str = "") -> list[str]:
    """Words on lines of at most so many letters, each line as long as it can be."""
    lines: list[str] = []
    for word in words:
        if lines and len(lines[-1]) + len(between) + len(word) + len(line_end) <= width:
            lines[-1] += between + word
        else:
            lines.append(line_start + word)
    return [line + line_end for line in lines]
