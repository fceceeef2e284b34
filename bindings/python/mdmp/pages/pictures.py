"""The two pictures of a page, and the table of overlaps."""

from __future__ import annotations

from typing import Callable, NamedTuple

from . import places, tables, text
from .ladder import Ladder, draw
from .places import ADDRESS_KINDS, FILE_KINDS, Run, Span
from .reading import Reading
from .runs import Kinds, joined, runs

# The most things and the most overlaps that are drawn: there is space for their names.
_MOST = 44
_MOST_OVER = 10
_IN_KEY = {"ranges": "ranges whose bytes the file has"}


class Picture(NamedTuple):
    """A picture, its words, and the words of the key for each kind in the picture."""

    svg: str
    about: str
    kinds: list[tuple[str, str]]


def _key(found: list[Run], kinds: Kinds, is_over: bool, is_gap: bool) -> list[tuple[str, str]]:
    used = {run.kind for run in found}
    key = [
        (kind, words[2] if kind not in ("header", "directory") else words[1])
        for kind, words in kinds.items()
        if kind in used
    ]
    key = [(kind, _IN_KEY.get(words, words)) for kind, words in key]
    return key + ([("over", "more than one thing")] if is_over else []) + ([("gap", "nothing")] if is_gap else [])


def _counted(spans: list[Span], kinds: Kinds) -> str:
    count = dict.fromkeys(kinds, 0)
    for span in spans:
        count[span.kind] += 1
    return ", ".join(text.of(number, kinds[kind][1], kinds[kind][2]) for kind, number in count.items() if number)


def _over_words(over: list[tuple[int, int]]) -> str:
    if not over:
        return "Nothing lies over anything else."
    size = sum(end - start for start, end in over)
    return f"More than one thing lies on {text.of(size, 'byte')}, in {text.of(len(over), 'stretch', 'stretches')}."


def of_file(reading: Reading, spans: list[Span]) -> Picture:
    """The file from its first byte to its last, and what its numbers say about bytes after the end."""
    over = places.over_another(places.within(spans, reading.size))  # no byte lies after the end
    gaps = places.gaps(spans, reading.size)
    found = runs(spans, _MOST, FILE_KINDS, lambda span: places.label_in_file(reading, span))
    size = sum(end - start for start, end in gaps)
    about = [f"{text.in_units(reading.size)}: {_counted(spans, FILE_KINDS)}.", _over_words(over)]
    if gaps:
        about.append(f"Of {text.of(size, 'byte')}, in {text.of(len(gaps), 'stretch', 'stretches')}, nothing is said.")
    behind = sum(span.end > reading.size for span in spans)
    if behind:
        about.append(f"{text.of(behind, 'thing')} would end behind the file's end.")
    words = " ".join(about) + places.not_drawn(reading)
    ladder = Ladder(
        key="file",
        title="The file, from its first byte to its last",
        about=words,
        columns=3,
        kinds=FILE_KINDS,
        runs=found,
        place=str,
        tail=lambda run: f"{run.end - run.start}@{run.start}",
        over=joined(over, _MOST_OVER),
        gaps=gaps,
        marks=[(reading.size, "end of the file", "end")],
        strip=reading.size,
    )
    return Picture(draw(ladder), words, _key(found, FILE_KINDS, bool(over), bool(gaps)))


def of_memory(reading: Reading) -> Picture:
    """The memory of the process: modules, stacks, and the ranges whose bytes the file has."""
    spans, beyond = places.in_memory(reading)
    # ranges contain stacks, and may contain bytes of modules: only modules should not overlap
    over = places.over_another([span for span in spans if span.kind == "module"])
    found = runs(spans, _MOST, ADDRESS_KINDS, lambda span: places.label_in_memory(reading, span))
    marks = [(reading.crash.address, "crash", "crash")] if reading.crash else []
    told = _over_words(over).replace("thing", "module") if over else "No module lies over another."
    words = f"{_counted(spans, ADDRESS_KINDS)}. {told}{places.not_drawn(reading)}" if spans else ""
    if beyond:
        words += f" Left out: {text.of(beyond, 'thing')} whose size passes the last address."
    ladder = Ladder(
        key="memory",
        title="Memory of the process, from low addresses to high",
        about=words,
        columns=3,
        kinds=ADDRESS_KINDS,
        runs=found,
        place=text.short_address,
        tail=lambda run: text.about(run.end - run.start),
        over=joined(over, _MOST_OVER),
        over_columns=1,
        marks=marks,
    )
    return Picture(draw(ladder), words.strip(), _key(found, ADDRESS_KINDS, bool(over), bool(found)))


def over_table(reading: Reading, spans: list[Span]) -> tables.Table:
    """The overlaps in the file."""
    found = list(places.pairs(places.within(spans, reading.size), reading.most + 1))
    label: Callable[[Span], str] = lambda span: places.label_in_file(reading, span)
    rows = []
    for first, second in found[: reading.most]:
        size = min(first.end, second.end) - second.start
        rows.append(tables.Row([label(first), label(second), text.grouped(second.start), text.grouped(size)], "bad"))
    columns = [
        tables.Column("What"),
        tables.Column("What lies over it"),
        tables.Column("From", "number"),
        tables.Column("Bytes", "number"),
    ]
    table = tables.Table(
        "over", "What lies over what", columns, rows, len(rows), empty="Nothing in the file lies over anything else."
    )
    if len(found) > reading.most:
        table.note = f"These are the first {text.grouped(reading.most)}, in the order of the file: there are more."
    return table
