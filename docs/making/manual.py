"""Stretches of man/mdmp.1: the printed lines, as docs/reference/lines.md has them, and what the parts of records are called."""

from __future__ import annotations

import re

from lib.generated import Mistake, Stretches

from . import lines

PAGE = "man/mdmp.1"
BLOCK = re.compile(r"(?<=^\.Bd -literal -offset indent\n).*?(?=^\.Ed$)", re.M | re.S)


def put_manual(files: Stretches) -> None:
    told = iter(re.findall(r"^```text\n(.*?)^```$", lines.lines_text(), re.M | re.S))
    text = BLOCK.sub(lambda block: next(told, ""), files.text(PAGE))
    if [*told] or "" in BLOCK.findall(text):
        raise Mistake(f"{PAGE} does not have as many blocks of lines as docs/reference/lines.md")
    files.texts[PAGE] = text
    *first, before, last = lines.part_names()
    named = "".join(f".Ql {name} ,\n" for name in first) + f".Ql {before}\nor\n.Ql {last} :\n"
    files.put(PAGE, ".Ql <what>\nis\n", ".Bd", named)
