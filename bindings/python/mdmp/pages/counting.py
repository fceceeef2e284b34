"""Counts the crashes of many dumps, in several processes. Memory grows with the groups, not with the dumps."""

from __future__ import annotations

import os
from collections import Counter
from concurrent.futures import FIRST_COMPLETED, Future, ProcessPoolExecutor, wait
from concurrent.futures.process import BrokenProcessPool
from dataclasses import dataclass, field
from typing import Callable, Iterator, NamedTuple, Optional, TypeVar

from .. import _dump
from .._fault import Fault, LimitReached, OutputLimit
from .._summary import Crash, Summary
from .._summary_lines import file_part
from ..names import exception_name
from . import names
from .crash import code_id, nearest
from .reading import BUDGET, page_limits

ENDINGS = (".dmp", ".mdmp")
# The most bad files that are listed: the first by name.
LISTED = 500
# The most dumps of a group that are named: the first by path.
EXAMPLES = 5
HOUR, DAY = 3600, 24 * 3600
# If the crashes are of more hours, they are counted by day alone: times that are no facts would fill the memory.
MOST_HOURS = 100
GOOD, OUTSIDE = "good", "parts outside the file"
_CHUNK = 50
Key = TypeVar("Key")


class Place(NamedTuple):
    """The key of a crash: the code and its name, the file name of a module, and the offset of the address that ran. If
    `is_near`, no module has the address, and the module is the one below it. Without a module, the offset is None."""

    code: int
    name: Optional[str]
    module: Optional[str]
    offset: Optional[int]
    is_near: bool = False


class Build(NamedTuple):
    """The key of a build: the file name of the module that crashed, its version, and its debug id; its code id if it has no
    debug id."""

    module: Optional[str]
    version: str
    id: str


class Code(NamedTuple):
    """The key of an exception code, with its name on the platform."""

    code: int
    name: Optional[str]


@dataclass
class Group:
    """How many dumps there are, the first ones by path, and the first and the last time that is set."""

    count: int = 0
    paths: list[str] = field(default_factory=list)
    first: Optional[int] = None
    last: Optional[int] = None

    def add(self, other: Group) -> None:
        """Adds other dumps."""
        self.count += other.count
        self.paths = sorted(self.paths + other.paths)[:EXAMPLES]
        firsts = [time for time in (self.first, other.first) if time is not None]
        lasts = [time for time in (self.last, other.last) if time is not None]
        self.first, self.last = min(firsts, default=None), max(lasts, default=None)


@dataclass
class Counted:
    """The counts of some dumps. Each dump is in one group of `verdicts`, and with a crash in one group of `places`,
    `codes` and `builds`. `hours` and `days` count crashes by the number of the hour or of the day since 1970; `hours` is
    empty if there are too many, and `has_hours` False."""

    dumps: int = 0
    places: dict[Place, Group] = field(default_factory=dict)
    codes: dict[Code, Group] = field(default_factory=dict)
    builds: dict[Build, Group] = field(default_factory=dict)
    verdicts: dict[str, Group] = field(default_factory=dict)
    hours: Counter[int] = field(default_factory=Counter)
    has_hours: bool = True
    days: Counter[int] = field(default_factory=Counter)
    bad: dict[str, str] = field(default_factory=dict)

    def count_of(self, verdict: str) -> int:
        """How many dumps have this result."""
        return self.verdicts[verdict].count if verdict in self.verdicts else 0

    @property
    def crashes(self) -> int:
        """How many dumps have a crash."""
        return sum(group.count for group in self.places.values())

    @property
    def bad_count(self) -> int:
        """How many dumps have an error."""
        return self.dumps - self.count_of(GOOD) - self.count_of(OUTSIDE)

    def judge(self, path: str, verdict: str, words: str = "", time: Optional[int] = None) -> None:
        """Adds the result of checking a dump, and what is wrong with it."""
        self.dumps += 1
        _add(self.verdicts, verdict, Group(1, [path], time, time))
        if words:
            self.bad[path] = words

    def add(self, other: Counted) -> None:
        """Adds the counts of other dumps."""
        self.dumps += other.dumps
        _add_all(self.places, other.places)
        _add_all(self.codes, other.codes)
        _add_all(self.builds, other.builds)
        _add_all(self.verdicts, other.verdicts)
        self.days.update(other.days)
        self.hours.update(other.hours)
        self.has_hours = self.has_hours and other.has_hours and len(self.hours) <= MOST_HOURS
        if not self.has_hours:
            self.hours.clear()
        self.bad.update(other.bad)
        if len(self.bad) > 2 * LISTED:
            self.bad = dict(sorted(self.bad.items())[:LISTED])


def _add(groups: dict[Key, Group], key: Key, group: Group) -> None:
    if key not in groups:
        groups[key] = Group()
    groups[key].add(group)


def _add_all(groups: dict[Key, Group], others: dict[Key, Group]) -> None:
    for key, group in others.items():
        _add(groups, key, group)


def _words_of(fault: Fault) -> str:
    if isinstance(fault, OutputLimit):
        return "output limit"
    return fault.kind.name.lower().replace("_", " ")


def _place(crash: Crash, code: Code) -> Place:
    """Where a crash was."""
    found = nearest(crash)
    if found is None:
        return Place(*code, None, None)
    name = file_part(found.module.name or "")
    return Place(*code, name, found.offset, crash.module is None)


def _build(crash: Crash) -> Build:
    """The build of the module that crashed."""
    found = nearest(crash)
    if found is None:
        return Build(None, "", "")
    module = found.module
    name = file_part(module.name or "")
    return Build(name, names.version(module.file_version), module.ids.debug_id or code_id(module))


def _code(crash: Crash, summary: Summary) -> Code:
    """The code, and its name without that of the flags."""
    number = crash.exception.exception_code
    if summary.system is None:
        return Code(number, None)
    return Code(number, exception_name(summary.system.platform_id, number))


def _count_one(counted: Counted, path: str, budget: int) -> None:
    with _dump.open(path, limits=page_limits(budget)) as dump:
        try:
            summary = dump.summary
        except LimitReached as reached:
            counted.judge(path, "limits", f"the file has more than the limits allow: {reached}")
            return
        except Fault as fault:
            counted.judge(path, _words_of(fault), str(fault))
            return
    seconds = summary.header.time_date_stamp
    time = seconds if names.is_time(seconds) else None
    error = summary.first_error
    if error:
        counted.judge(path, _words_of(error), str(error), time)
    else:
        counted.judge(path, OUTSIDE if summary.parts_outside else GOOD, "", time)
    if summary.crash is None:
        return
    group, code = Group(1, [path], time, time), _code(summary.crash, summary)
    _add(counted.codes, code, group)
    _add(counted.places, _place(summary.crash, code), group)
    _add(counted.builds, _build(summary.crash), group)
    if time is not None:
        counted.hours, counted.days = Counter([time // HOUR]), Counter([time // DAY])


def count(paths: list[str], budget: int = BUDGET) -> Counted:
    """The counts of some dumps, made in one process. A file that cannot be read counts as bad."""
    counted = Counted()
    for path in paths:
        one = Counted()
        try:
            _count_one(one, path, budget)
            counted.add(one)
        except MemoryError:
            counted.judge(path, "out of memory", "out of memory")
        except Fault as fault:
            counted.judge(path, "changed as it was read", f"it changed as it was read: {fault}")
        except (OSError, ValueError) as error:
            counted.judge(path, "cannot be opened", f"cannot be opened: {getattr(error, 'strerror', None) or error}")
    return counted


def dumps_in(folder: str) -> Iterator[str]:
    """The dumps in a folder and in the folders below it. Only plain files are opened."""
    waiting = [folder]
    while waiting:
        try:
            entries = os.scandir(waiting.pop())
        except OSError:
            continue  # the folder was removed, or may not be read
        for entry in entries:
            try:
                is_folder = entry.is_dir(follow_symlinks=False)
                is_dump = not is_folder and entry.name.lower().endswith(ENDINGS) and entry.is_file()
            except OSError:
                continue  # a link to itself
            if is_folder:
                waiting.append(entry.path)
            elif is_dump:
                yield entry.path


def _chunks(paths: Iterator[str]) -> Iterator[list[str]]:
    chunk: list[str] = []
    for path in paths:
        chunk.append(path)
        if len(chunk) == _CHUNK:
            yield chunk
            chunk = []
    if chunk:
        yield chunk


class _Crew:
    """Processes that count. If one dies, its files are counted again, each in a process of its own."""

    def __init__(self, workers: int, budget: int, told: Callable[[int], None]) -> None:
        self._workers, self._budget, self._told = workers, budget, told
        self._pool = ProcessPoolExecutor(workers)
        self._running: dict[Future[Counted], list[str]] = {}
        self.counted = Counted()
        self._again: list[str] = []

    def give(self, chunk: list[str]) -> None:
        while len(self._running) >= 3 * self._workers:
            self._take()
        try:
            self._running[self._pool.submit(count, chunk, self._budget)] = chunk
        except BrokenProcessPool:
            self._begin_anew([chunk])

    def _take(self) -> None:
        done, _ = wait(self._running, return_when=FIRST_COMPLETED)
        for future in done:
            chunk = self._running.pop(future, None)
            if chunk is None:
                continue
            try:
                self.counted.add(future.result())
                self._told(len(chunk))
            except BrokenProcessPool:
                self._begin_anew([chunk])
                return

    def _begin_anew(self, chunks: list[list[str]]) -> None:
        for future, chunk in self._running.items():
            is_done = future.done() and future.exception() is None
            if is_done:
                self.counted.add(future.result())
                self._told(len(chunk))
            else:
                chunks.append(chunk)
        self._running = {}
        self._again += [path for chunk in chunks for path in chunk]
        self._pool.shutdown(wait=False)
        self._pool = ProcessPoolExecutor(self._workers)

    def end(self) -> Counted:
        while self._running:
            self._take()
        self._pool.shutdown()
        for path in self._again:
            with ProcessPoolExecutor(1) as alone:
                try:
                    self.counted.add(alone.submit(count, [path], self._budget).result())
                except BrokenProcessPool:
                    self.counted.judge(path, "its reader died", "the process that read it died")
            self._told(1)
        return self.counted


def count_all(folder: str, workers: int, budget: int = BUDGET, told: Callable[[int], None] = lambda _: None) -> Counted:
    """The counts of all dumps of a folder, by `workers` processes. `told` gets the number of each further count."""
    crew = _Crew(workers, budget, told)
    for chunk in _chunks(dumps_in(folder)):
        crew.give(chunk)
    counted = crew.end()
    counted.bad = dict(sorted(counted.bad.items())[:LISTED])
    return counted
