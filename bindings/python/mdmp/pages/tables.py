"""The tables of a page. Each has its first rows, and says how many it leaves out. A column without a word is left out."""

from __future__ import annotations

from dataclasses import dataclass, field
from itertools import islice
from typing import NamedTuple

from .._fault import Fault
from .._records import Extent, Module, Place, SymbolKind
from ..names import StreamType
from . import names, text
from .reading import Listing, Reading


def left_out(left: int, count: int, what: str) -> str:
    """How many rows a table leaves out, in a sentence."""
    return f"Left out of this table: {text.grouped(left)} of {text.grouped(count)} {what}." if left > 0 else ""


def used_columns(count: int, rows: list[list[str]]) -> list[int]:
    """Which of so many columns have a word in a row. Without rows, all count."""
    return [at for at in range(count) if not rows or any(cells[at] for cells in rows)]


class Column(NamedTuple):
    """A column: its heading, and whether its cells are numbers, addresses, words, or words on one line."""

    title: str
    kind: str = "words"


class Row(NamedTuple):
    """The cells of a row, and its mark: "bad", "crash" or none."""

    cells: list[str]
    mark: str = ""


@dataclass
class Table:
    """A table. `count` is how many rows there would be, `fault` the error that ends the list, `note` a remark. `what` are
    the rows. The page shows `SHOWN` rows, and the others when somebody asks for them."""

    key: str
    title: str
    columns: list[Column]
    rows: list[Row]
    count: int
    fault: str = ""
    note: str = ""
    empty: str = ""
    what: str = field(default="rows")

    def __post_init__(self) -> None:
        used = used_columns(len(self.columns), [row.cells for row in self.rows])
        if len(used) < len(self.columns):
            self.columns = [self.columns[at] for at in used]
            self.rows = [Row([row.cells[at] for at in used], row.mark) for row in self.rows]

    @property
    def left_out(self) -> str:
        """How many rows are not in the page, in a sentence."""
        return left_out(self.count - len(self.rows), self.count, self.what)

    @property
    def show_all(self) -> str:
        """What the control says that shows the rows after the first ones; nothing if there are none."""
        if len(self.rows) <= SHOWN:
            return ""
        every = "all" if self.count <= len(self.rows) else "the first"
        return f"Show {every} {text.grouped(len(self.rows))} {self.what}"


# How many rows a table shows at first. The style of a page has this number too.
SHOWN = 20
ADDRESSES = 1 << 64
NUMBER, ADDRESS, WORDS = "number", "address", "words"


def told(fault: Fault | None) -> str:
    """The message of the command for an error."""
    return str(fault) if fault else ""


def place(found: Place) -> str:
    """The place of a part, as the command prints it."""
    if found.extent == Extent.EMPTY:
        return "empty"
    if found.extent == Extent.ABSENT:
        return f"absent {found.size}"
    return f"{'inside' if found.extent == Extent.INSIDE else 'outside'} {found.size}@{found.rva}"


def debug_id(module: Module) -> str:
    """The debug id of a module; without one, the kind of its CodeView record, or nothing if there is no record."""
    if module.ids.debug_id:
        return module.ids.debug_id
    symbols = module.symbols
    if symbols is None:
        return ""
    return f"of another kind: {symbols.signature.hex()}" if symbols.kind == SymbolKind.OTHER else "too short"


def verdicts(reading: Reading) -> Table:
    """Each entry of the directory, with its first error. If the table leaves entries out, bad ones go last."""
    count = min(reading.verdict_count, len(reading.streams))
    shown = list(islice(reading.bad_entries(), reading.most)) if count > reading.most and reading.bad_count else []
    bad = set(shown)
    for at in range(count):
        if len(shown) >= reading.most:
            break
        if at not in bad:
            shown.append(at)
    rows = []
    for at in sorted(shown):
        stream, fault = reading.streams.record(at), reading.verdict(at)
        words = told(fault) or ("unused" if stream.stream_type == StreamType.UnusedStream else "good")
        cells = [
            str(at),
            names.stream_type(stream.stream_type),
            text.grouped(stream.rva),
            text.grouped(stream.size),
            words,
        ]
        rows.append(Row(cells, "bad" if fault else ""))
    columns = [
        Column("Entry", NUMBER),
        Column("Stream", WORDS),
        Column("Offset", NUMBER),
        Column("Bytes", NUMBER),
        Column("Verdict"),
    ]
    return Table(
        "verdicts",
        "Directory",
        columns,
        rows,
        len(reading.streams),
        empty="The directory has no entries.",
        what="entries",
    )


def size_of(base: int, size: int) -> str:
    """The size of a module or a region, or nothing if it would end after the last address."""
    return "" if base + size > ADDRESSES else text.grouped(size)


def _with_first(first: list[int], count: int, most: int) -> list[int]:
    """The numbers of the rows that are shown: some first, and then the others in their order."""
    shown = first[:most]
    is_first = set(shown)
    for at in range(min(count, most)):
        if len(shown) == most:
            break
        if at not in is_first:
            shown.append(at)
    return shown


def threads(reading: Reading) -> Table:
    """The threads. The one that crashed is the first."""
    crashed = reading.crash.thread_id if reading.crash else None
    ids = [thread_id for (thread_id,) in reading.threads.members("thread_id")]
    first = [at for at, thread_id in enumerate(ids) if thread_id == crashed]
    rows = []
    for row in map(reading.threads.record, _with_first(first, len(ids), reading.most)):
        is_crashed = row.thread_id == crashed
        classes = [names.told(row.priority_class), names.told(row.priority)]
        cells = [
            str(row.index),
            str(row.thread_id),
            text.name(row.name) if row.name is not None else "",
            "crashed" if is_crashed else "",
            names.told(row.suspend_count),
            " / ".join(word or "0" for word in classes) if any(classes) else "",
            text.address(row.teb) if names.told(row.teb, 64) else "",
            text.address(row.stack_start) if names.told(row.stack_start, 64) else "",
            place(row.stack),
            place(row.context),
        ]
        rows.append(Row(cells, "crash" if is_crashed else ""))
    columns = [
        Column("Number", NUMBER),
        Column("Thread id", NUMBER),
        Column("Name"),
        Column("What"),
        Column("Suspended", NUMBER),
        Column("Class / priority", NUMBER),
        Column("Teb", ADDRESS),
        Column("Stack from", ADDRESS),
        Column("Stack in the file", "one-line"),
        Column("Registers in the file", "one-line"),
    ]
    return list_table("threads", "Threads", columns, rows, reading.threads, "The file lists no threads.", "threads")


def _crashed_module(reading: Reading) -> tuple[int | None, str]:
    """The number of the module that has the address of the crash, or that is below it, and the word for it."""
    crash = reading.crash
    if crash is None:
        return None, ""
    at = reading.holder(crash.address)
    if at is None and crash.near and crash.near.offset <= names.MOST_OF_IMAGE:
        base = crash.near.module.base_of_image
        bases = (number for number, (other,) in enumerate(reading.modules.members("base_of_image")) if other == base)
        return next(bases, None), "near the crash"
    return at, "crashed"


def modules(reading: Reading) -> Table:
    """The modules. The one that crashed, or the one near the crash, is the first."""
    rows = []
    crashed, mark = _crashed_module(reading)
    for at in _with_first([] if crashed is None else [crashed], len(reading.modules), reading.most):
        row = reading.modules.record(at)
        symbols = row.symbols
        file = text.name(symbols.name.decode("utf-8", "replace")) if symbols and symbols.kind == SymbolKind.RSDS else ""
        marks = [mark] * (at == crashed) + ["program"] * (at == 0)
        cells = [
            str(row.index),
            text.name(row.name),
            ", ".join(marks),
            text.address(row.base_of_image),
            size_of(row.base_of_image, row.size_of_image),
            names.version(row.file_version),
            names.version(row.product_version) if row.product_version != row.file_version else "",
            debug_id(row),
            file,
        ]
        rows.append(Row(cells, "crash" if at == crashed else ""))
    columns = [
        Column("Number", NUMBER),
        Column("Name"),
        Column("What"),
        Column("Base", ADDRESS),
        Column("Bytes", NUMBER),
        Column("Version", "one-line"),
        Column("Product version", "one-line"),
        Column("Debug id", ADDRESS),
        Column("Symbol file"),
    ]
    return list_table("modules", "Modules", columns, rows, reading.modules, "The file lists no modules.", "modules")


def exceptions(reading: Reading) -> Table:
    """All exceptions."""
    system = reading.summary.system if reading.summary else None
    platform, architecture = (system.platform_id, system.processor_architecture) if system else (None, None)
    rows = []
    for row in reading.exceptions.records(reading.most):
        at = reading.holder(row.exception_address)
        cells = [
            str(row.entry),
            names.exception(row.exception_code, row.exception_flags, platform, architecture),
            str(row.thread_id),
            text.address(row.exception_address),
            "" if at is None else text.name(reading.modules.record(at).name),
        ]
        rows.append(Row(cells))
    columns = [
        Column("Entry", NUMBER),
        Column("Exception"),
        Column("Thread id", NUMBER),
        Column("Address", ADDRESS),
        Column("Module"),
    ]
    return list_table("exceptions", "Exceptions", columns, rows, reading.exceptions, "", "exceptions")


def unloaded(reading: Reading) -> Table:
    rows = [
        Row([str(row.index), text.name(row.name), text.address(row.base_of_image), size_of(row.base_of_image, row.size_of_image)])
        for row in reading.unloaded.records(reading.most)
    ]
    columns = [Column("Number", NUMBER), Column("Name"), Column("Base", ADDRESS), Column("Bytes", NUMBER)]
    return list_table("unloaded", "Unloaded modules", columns, rows, reading.unloaded, "The file lists none.", "modules")


def list_table(
    key: str, title: str, columns: list[Column], rows: list[Row], listing: Listing, empty: str, what: str
) -> Table:
    return Table(key, title, columns, rows, listing.count, told(listing.fault), "", empty, what)


def of_process(reading: Reading) -> list[Table]:
    """The tables of what ran: threads and modules, and exceptions if there are others than the crash."""
    made = [exceptions(reading)] if len(reading.exceptions) > (1 if reading.crash else 0) else []
    made += [threads(reading), modules(reading)]
    gone = unloaded(reading)
    return made + ([gone] if gone.rows or gone.fault else [])
