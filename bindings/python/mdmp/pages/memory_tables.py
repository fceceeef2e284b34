"""The tables of memory: by protection, regions and ranges."""

from __future__ import annotations

import struct

from .._records import Extent
from . import names, text
from .reading import Reading
from .tables import ADDRESS, ADDRESSES, NUMBER, Column, Row, Table, list_table, size_of

# State, protection and type of a region.
_KIND = struct.Struct("=III")


def protections(reading: Reading) -> Table:
    """Memory by state, protection and type."""
    found: dict[bytes, list[int]] = {}  # for each kind its bytes, and how many regions
    beyond = 0
    for base, size, kind in reading.regions.members("base_address", "region_size", "state:memory_type"):
        if base + size > ADDRESSES:
            beyond += 1
            continue
        counted = found.get(kind)
        if counted is None:
            found[kind] = [size, 1]
        else:
            counted[0] += size
            counted[1] += 1
    kinds = [(-size, _KIND.unpack(kind), count) for kind, (size, count) in found.items()]
    rows = []
    for size, (state, protect, memory_type), count in sorted(kinds)[: reading.most]:
        words = [names.state(state), names.protection(protect), names.memory_type(memory_type)]
        rows.append(Row([*words, text.grouped(count), text.grouped(-size)]))
    columns = [
        Column("State"),
        Column("Protection"),
        Column("Type"),
        Column("Regions", NUMBER),
        Column("Bytes", NUMBER),
    ]
    table = list_table(
        "protections",
        "Memory by protection",
        columns,
        rows,
        reading.regions,
        "The file lists no regions of memory.",
        "kinds",
    )
    table.count = len(found)
    if beyond:
        table.note = f"Without {text.of(beyond, 'region')} whose size passes the last address."
    return table


def regions(reading: Reading) -> Table:
    rows = []
    for row in reading.regions.records(reading.most):
        words = [names.state(row.state), names.protection(row.protect), names.memory_type(row.memory_type)]
        rows.append(Row([str(row.index), text.address(row.base_address), size_of(row.base_address, row.region_size), *words]))
    columns = [
        Column("Number", NUMBER),
        Column("Base", ADDRESS),
        Column("Bytes", NUMBER),
        Column("State"),
        Column("Protection"),
        Column("Type"),
    ]
    return list_table(
        "regions",
        "Regions of memory",
        columns,
        rows,
        reading.regions,
        "The file lists no regions of memory.",
        "regions",
    )


def ranges(reading: Reading) -> Table:
    """The ranges of memory whose bytes the file may have."""
    rows = []
    for row in reading.ranges.records(reading.most):
        words = row.extent.name.lower()
        cells = [
            str(row.index),
            str(row.entry),
            text.address(row.start),
            size_of(row.start, row.size),
            text.grouped(row.offset),
            words,
        ]
        rows.append(Row(cells, "bad" if row.extent == Extent.OUTSIDE else ""))
    inside = int(Extent.INSIDE)
    held = sum(size for size, extent in reading.ranges.members("size", "extent") if extent == inside)
    columns = [
        Column("Number", NUMBER),
        Column("Entry", NUMBER),
        Column("From", ADDRESS),
        Column("Bytes", NUMBER),
        Column("Offset", NUMBER),
        Column("In the file"),
    ]
    table = list_table(
        "ranges",
        "Ranges of memory",
        columns,
        rows,
        reading.ranges,
        "The file holds no memory of the process.",
        "ranges",
    )
    if held > reading.size:
        table.note = "Some ranges share bytes of the file."
    elif len(reading.ranges):
        table.note = f"The file has {text.in_units(held)} of {text.of(len(reading.ranges), 'range')}."
    return table


def of_memory(reading: Reading) -> list[Table]:
    """The tables of memory."""
    return [protections(reading), regions(reading), ranges(reading)]
