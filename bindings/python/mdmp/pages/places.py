"""The things in the file and in the memory of the dumped process, and their places."""

from __future__ import annotations

from typing import Any, Iterator, NamedTuple

from .. import _structures
from .._records import Extent, NameState
from . import names, text
from .reading import Listing, Reading

# The most rows that are drawn, of all lists together.
DRAWN = 20_000
_END = 1 << 64  # of addresses


class Span(NamedTuple):
    """Bytes from a start to an end, the kind of thing that is there, and its number among that kind."""

    start: int
    end: int
    kind: str
    which: int


class Run(NamedTuple):
    """Spans of one kind that are drawn as one, and their label."""

    start: int
    end: int
    kind: str
    things: int
    label: str


# The kinds of things in the file, each with the column in which it is drawn and its words.
FILE_KINDS = {
    "header": (0, "header", "headers"),
    "directory": (0, "directory", "directories"),
    "stream": (0, "stream", "streams"),
    "stack": (1, "stack of a thread", "stacks of threads"),
    "context": (1, "set of registers", "sets of registers"),
    "codeview": (1, "CodeView record", "CodeView records"),
    "misc": (1, "misc record", "misc records"),
    "range": (1, "range of memory", "ranges of memory"),
    "name": (2, "name", "names"),
}
# Other parts have their own word.
FILE_KINDS |= {word: (1, word, f"{word}s") for table in _structures.TABLES.values() for _, word in table.places if word not in FILE_KINDS}
ADDRESS_KINDS = {
    "module": (0, "module", "modules"),
    "unloaded": (0, "unloaded module", "unloaded modules"),
    "stack": (1, "stack of a thread", "stacks of threads"),
    "range": (2, "range", "ranges"),
}


# Plain numbers, which are compared many times.
_THERE, _INSIDE, _NO_NAME = frozenset(map(int, (Extent.INSIDE, Extent.OUTSIDE))), int(Extent.INSIDE), int(NameState.NONE)


def _lists(reading: Reading) -> dict[str, Listing]:
    """The lists whose rows are drawn, with their words."""
    # modules that were unloaded are named after modules
    kinds = sorted(_structures.TABLES.items(), key=lambda one: one[0] not in ("threads", "modules", "unloaded"))
    drawn = [(name, table) for name, table in kinds if table.names or table.places or name == "ranges"]
    return {"entries": reading.streams} | {table.words: reading.tables[name] for name, table in drawn}


def most_drawn(reading: Reading) -> int:
    """The most rows of a list that are drawn. Together they are at most DRAWN, and the longest lists are cut first."""
    left = DRAWN
    counts = sorted(map(len, _lists(reading).values()))
    for at, count in enumerate(counts):
        share = left // (len(counts) - at)
        if count > share:
            return share
        left -= count
    return DRAWN


def _parts(listing: Listing, part: str, kind: str, most: int) -> Iterator[Span]:
    """The parts of this name of the first records."""
    members = listing.members(f"{part}.size", f"{part}.rva", f"{part}.extent", most=most)
    for which, (size, rva, extent) in enumerate(members):
        if extent in _THERE:
            yield Span(rva, rva + size, kind, which)


def _names(listing: Listing, name: str, most: int) -> Iterator[Span]:
    """The names of the first records."""
    for rva, size, state in listing.members(f"{name}.rva", f"{name}.size", f"{name}.state", most=most):
        if state != _NO_NAME:
            yield Span(rva, rva + 4 + size, "name", rva)


def in_file(reading: Reading) -> Iterator[Span]:
    """The things in the file and their places by the file's own numbers, also after its end."""
    header = reading.header
    if header is None:
        return
    yield Span(0, 32, "header", 0)
    if header.number_of_streams:
        at = header.stream_directory_rva
        yield Span(at, at + 12 * header.number_of_streams, "directory", 0)
    most = most_drawn(reading)
    for entry, stream_type, size, rva in reading.streams.members("entry", "stream_type", "size", "rva", most=most):
        if stream_type and size:
            yield Span(rva, rva + size, "stream", entry)
    for kind, table in _structures.TABLES.items():
        for part, word in table.places:
            for span in _parts(reading.tables[kind], part, word, most):
                yield span._replace(which=-1) if kind == "exceptions" else span
        for name in table.names:
            yield from _names(reading.tables[kind], name, most)
    ranges = reading.ranges.members("size", "offset", "offset_high", "extent", most=most)
    for at, (size, lower, upper, extent) in enumerate(ranges):
        if extent in _THERE and size:
            offset = lower | upper << 64
            yield Span(offset, offset + size, "range", at)


def _addresses(rows: Iterator[tuple[int, ...]], kind: str) -> Iterator[Span]:
    """The addresses of the first records: for each its first address and how many there are."""
    for which, (first, count) in enumerate(rows):
        yield Span(first, first + count, kind, which)


def _things(reading: Reading) -> Iterator[Span]:
    """The things in memory by the numbers of the file, also if they pass the last address."""
    most = most_drawn(reading)
    image = ("base_of_image", "size_of_image")
    yield from _addresses(reading.modules.members(*image, most=most), "module")
    yield from _addresses(reading.unloaded.members(*image, most=most), "unloaded")
    yield from _addresses(reading.threads.members("stack_start", "stack.size", most=most), "stack")
    for at, (start, size, extent) in enumerate(reading.ranges.members("start", "size", "extent", most=most)):
        if extent == _INSIDE:
            yield Span(start, start + size, "range", at)


def in_memory(reading: Reading) -> tuple[list[Span], int]:
    """The things in memory and their addresses; and how many things pass the last address, which are left out: their
    numbers cannot be true."""
    spans = list(_things(reading))
    within_memory = [span for span in spans if span.end <= _END]
    return within_memory, len(spans) - len(within_memory)


def not_drawn(reading: Reading) -> str:
    """A sentence that names the lists of which only the first records are drawn."""
    most = most_drawn(reading)
    told = [f"{text.grouped(len(rows))} {name}" for name, rows in _lists(reading).items() if len(rows) > most]
    return f" Of {', '.join(told)} the first {text.grouped(most)} are drawn." if told else ""


def label_in_file(reading: Reading, span: Span) -> str:
    """What a span of the file is."""
    if span.kind in ("header", "directory"):
        return span.kind
    if span.kind == "stream":
        return f"{span.which}: {names.stream_type(next_raw(reading.streams, span.which).stream_type)}"
    if span.kind == "name":
        return f"name “{_name_text(reading, span)}”"
    if span.kind in ("stack", "context"):
        word = "stack" if span.kind == "stack" else "registers"
        return f"{word} of {_thread(reading, span.which)}" if span.which >= 0 else "registers as it crashed"
    return f"{FILE_KINDS[span.kind][1]} {span.which}"


def label_in_memory(reading: Reading, span: Span) -> str:
    """What a span of memory is."""
    if span.kind in ("module", "unloaded"):
        listing = reading.modules if span.kind == "module" else reading.unloaded
        name = listing.record(span.which).name
        return ("unloaded " if span.kind == "unloaded" else "") + (
            text.visible(text.last_part(name)[:200]) if name else f"module {span.which}"
        )
    if span.kind == "stack":
        return _thread(reading, span.which)
    return f"range {span.which}"


def _thread(reading: Reading, which: int) -> str:
    """The name of a thread, or its id."""
    thread_id = next_raw(reading.threads, which).thread_id
    name = reading._thread_name(thread_id)
    return text.visible(name[:200]) if name else str(thread_id)


def next_raw(listing: Any, at: int) -> Any:
    """The raw record at a place of a listing."""
    return listing.items[at]


def _name_text(reading: Reading, span: Span) -> str:
    state = NameState.GIVEN if span.end - span.start - 4 <= reading.dump._limits.name else NameState.LONG
    name = reading.dump._name_at(_structures.NamePlace(rva=span.which, size=span.end - span.start - 4, state=state))
    return "too long" if name is None else text.visible(text.last_part(name)[:200])


# ---- overlaps


def within(spans: list[Span], end: int) -> list[Span]:
    """The parts of spans that lie before an end."""
    return [span if span.end <= end else span._replace(end=end) for span in spans if span.start < end]


def over_another(spans: list[Span]) -> list[tuple[int, int]]:
    """The stretches that more than one thing has, in order. Things at exactly one place count as one."""
    stretches: list[tuple[int, int]] = []
    place, reached = (-1, -1), 0  # `reached` is the greatest end before a span: the bytes up to it have a thing already
    for start, end, _, _ in sorted(spans):
        if place == (start, end):
            continue
        place = (start, end)
        stop = min(end, reached)
        if stop > start:
            if stretches and stretches[-1][1] >= start:
                stretches[-1] = (stretches[-1][0], max(stop, stretches[-1][1]))
            else:
                stretches.append((start, stop))
        reached = max(reached, end)
    return stretches


def gaps(spans: list[Span], end: int) -> list[tuple[int, int]]:
    """The stretches of the file that no thing has."""
    found, reached = [], 0
    for span in sorted(spans):
        if span.start >= end:
            break
        if span.start > reached:
            found.append((reached, span.start))
        reached = max(reached, span.end)
    if reached < end:
        found.append((reached, end))
    return found


def pairs(spans: list[Span], most: int) -> Iterator[tuple[Span, Span]]:
    """The first pairs of spans that overlap, without those at exactly one place."""
    active: list[Span] = []
    others: list[Span] = []
    given = 0
    place = (-1, -1)
    for span in sorted(spans):
        if place != (span.start, span.end):
            place = (span.start, span.end)
            active = others = [other for other in active if other.end > span.start][-64:]
        else:  # thousands may be at one place, and soon all active spans are there
            active = active[-64:]
            if others:
                others = [other for other in active if (other.start, other.end) != place]
        for other in others:
            yield other, span
            given += 1
            if given >= most:
                return
        active = [*active, span]
