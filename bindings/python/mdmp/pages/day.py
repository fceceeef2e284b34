"""Makes a page of many dumps: their crashes in groups, and the bad files."""

from __future__ import annotations

import datetime
import os
import urllib.parse
from concurrent.futures import ProcessPoolExecutor
from concurrent.futures.process import BrokenProcessPool
from dataclasses import dataclass
from typing import Callable, NamedTuple, Optional, TypeVar

from .. import _dump
from . import counting, making, output, tables, text, times
from .counting import Counted, Place
from .reading import BUDGET, page_limits
from .tables import Column

_NUMBER = "number"
_Key = TypeVar("_Key")


class Example(NamedTuple):
    """A dump of a group: its path below the folder, and the link to its page, if there is one."""

    path: str
    link: str = ""


@dataclass
class Row:
    """A row of a section. `share` is the part of the whole in percent, and None if the section has no counts."""

    cells: list[str]
    examples: list[Example]
    count: str = ""
    share: Optional[float] = None
    seen: tuple[str, str] = ("", "")


@dataclass
class Section:
    """A section of the page. The columns are those of the cells; a column without a word is left out."""

    key: str
    title: str
    about: str
    columns: list[Column]
    rows: list[Row]
    left_out: str = ""
    is_counted: bool = True

    def __post_init__(self) -> None:
        used = tables.used_columns(len(self.columns), [row.cells for row in self.rows])
        self.columns = [self.columns[at] for at in used]
        for row in self.rows:
            row.cells = [row.cells[at] for at in used]

    @property
    def titles(self) -> list[str]:
        """The titles of all columns."""
        counts = ["Dumps", "Share", "First seen", "Last seen"] if self.is_counted else []
        return [*(column.title for column in self.columns), *counts, "For example"]

    @property
    def show_all(self) -> str:
        """What the control says that shows the rows after the first ones."""
        return f"Show all {text.grouped(len(self.rows))} rows" if len(self.rows) > tables.SHOWN else ""


def _time(seconds: Optional[int]) -> str:
    if seconds is None:
        return ""
    return f"{datetime.datetime.fromtimestamp(seconds, datetime.timezone.utc):%Y-%m-%d %H:%M}"


def _code_words(code: int, name: Optional[str]) -> str:
    return f"{code:#010x} {name}" if name else f"{code:#010x}"


def _module(name: Optional[str]) -> str:
    return "no module" if name is None else text.shortened(name) if name else "a module without a name"


def _place_cells(place: Place) -> list[str]:
    what = _code_words(place.code, place.name)
    if place.offset is None:
        return [what, "no module"]
    return [what, f"{'near ' if place.is_near else ''}{_module(place.module)}+{place.offset:#x}"]


class Day:
    """The page of the counts of a folder."""

    def __init__(self, counted: Counted, folder: str, most: int) -> None:
        self.counted, self.folder, self.most = counted, folder, most
        self.links: dict[str, str] = {}

    def examples(self) -> list[str]:
        """The dumps that the page names, in order."""
        counted = self.counted
        named = set(sorted(counted.bad)[: self.most])
        for paths in (
            self._named(counted.places),
            self._named(counted.codes),
            self._named(counted.builds),
            self._named(counted.verdicts),
        ):
            named.update(paths)
        return sorted(named)

    def _named(self, groups: dict[_Key, counting.Group]) -> set[str]:
        return {path for _, group in self._ordered(groups)[: self.most] for path in group.paths}

    @staticmethod
    def _ordered(groups: dict[_Key, counting.Group]) -> list[tuple[_Key, counting.Group]]:
        return sorted(groups.items(), key=lambda item: (-item[1].count, str(item[0])))

    def _example(self, path: str) -> Example:
        return Example(text.shortened(os.path.relpath(path, self.folder)), self.links.get(path, ""))

    def _section(
        self,
        key: str,
        title: str,
        about: str,
        columns: list[Column],
        groups: dict[_Key, counting.Group],
        cells: Callable[[_Key], list[str]],
    ) -> Section:
        ordered = self._ordered(groups)
        whole = sum(group.count for group in groups.values())
        rows = [
            Row(
                cells(name),
                [self._example(path) for path in group.paths],
                text.grouped(group.count),
                100 * group.count / whole,
                (_time(group.first), _time(group.last)),
            )
            for name, group in ordered[: self.most]
        ]
        left_out = tables.left_out(len(ordered) - len(rows), len(ordered), "groups")
        return Section(key, title, about, columns, rows, left_out)

    def sections(self) -> list[Section]:
        """The sections of the page."""
        counted = self.counted
        return [
            self._section(
                "places",
                "By code, module and offset",
                "Each dump with a crash, by the code and the address that ran.",
                [Column("What", "long"), Column("Where")],
                counted.places,
                _place_cells,
            ),
            self._section(
                "builds",
                "By build",
                "Each dump with a crash, by the build of the module that crashed.",
                [Column("Module"), Column("Version", "whole"), Column("Debug id or code id", "whole address")],
                counted.builds,
                lambda build: [_module(build.module), build.version, build.id],
            ),
            self._section(
                "codes",
                "By code",
                "Each dump with a crash, by the code of its exception.",
                [Column("What")],
                counted.codes,
                lambda code: [_code_words(code.code, code.name)],
            ),
            self._section(
                "verdicts",
                "By health of the file",
                "Each dump, by the first error that is found in it.",
                [Column("Health")],
                counted.verdicts,
                lambda verdict: [verdict],
            ),
        ]

    def bad_section(self) -> Section:
        """The bad files."""
        paths = sorted(self.counted.bad)[: self.most]
        rows = [Row([self.counted.bad[path]], [self._example(path)]) for path in paths]
        left_out = tables.left_out(self.counted.bad_count - len(rows), self.counted.bad_count, "bad files")
        about = "The first error of each."
        return Section("bad", "Bad files", about, [Column("Error")], rows, left_out, is_counted=False)

    def sentence(self) -> str:
        """How many dumps there are, and how good they are."""
        counted = self.counted
        good, lost = counted.count_of(counting.GOOD), counted.count_of(counting.OUTSIDE)
        outside = f", {text.grouped(lost)} with parts outside the file" if lost else ""
        return f"{text.of(counted.dumps, 'dump')}: {text.grouped(good)} good{outside}, {text.grouped(counted.bad_count)} bad."

    def page(self) -> str:
        """The page."""
        counted, sections, bad = self.counted, self.sections(), self.bad_section()
        columns = {section.key: section.titles for section in [*sections, bad]}
        groups = text.of(len(counted.places), "group")
        without = text.of(counted.dumps - counted.crashes, "dump")
        values = {
            "name": text.shortened(os.path.basename(os.path.abspath(self.folder)) or self.folder),
            "badge": self.sentence(),
            "kind": "bad" if counted.bad_count else "outside" if counted.count_of(counting.OUTSIDE) else "good",
            "about": f"{text.of(counted.crashes, 'crash', 'crashes')} in {groups}; {without} without a crash.",
            "times": times.draw(counted),
            "sections": sections,
            "bad": bad,
        }
        return making.rendered("day.html", columns, values)


def make_page(path: str, page: str, most: int, budget: int) -> str:
    """Makes the page of a dump of the day, and returns its path, or an empty string if there is none."""
    try:
        size = os.stat(path).st_size
        with _dump.open(path, limits=page_limits(budget)) as dump:
            made, _ = making.page_of(dump, os.path.basename(path), size, most)
        output.replace(page, made)
    except (OSError, ValueError, MemoryError):
        return ""
    return page


def make_pages(
    day: Day, folder: str, out: str, workers: int, budget: int = BUDGET, told: Callable[[int], None] = lambda _: None
) -> None:
    """Makes the pages of the dumps that the day's page names, and links to them."""
    os.makedirs(folder, exist_ok=True)
    beside = os.path.dirname(os.path.abspath(out))
    with ProcessPoolExecutor(workers) as pool:
        running = []
        for number, path in enumerate(day.examples(), 1):
            name = "".join(
                letter if letter.isascii() and (letter.isalnum() or letter in "-_.") else "_"
                for letter in os.path.basename(path)
            )
            page = os.path.join(folder, f"{number:05}-{name[:80]}.html")
            try:
                running.append((path, pool.submit(make_page, path, page, day.most, budget)))
            except BrokenProcessPool:
                break  # a process died: the rest gets no pages
        for path, future in running:
            try:
                page = future.result()
            except BrokenProcessPool:
                page = ""
            if page:
                day.links[path] = urllib.parse.quote(os.path.relpath(page, beside))
            told(1)
