"""The command lines for pages: python -m mdmp page FILE -o FILE.html, and python -m mdmp day FOLDER -o FILE.html

The exit status is the command's:

0  success
1  an error in the file; the page shows what precedes it
2  bad command line
3  out of memory, a package is missing, a file cannot be opened or written, or a limit is reached; after a limit, the
   page shows a first part

`day` counts bad files, and its status is 0.
"""

from __future__ import annotations

import argparse
import os
import sys
from typing import Any, Callable

from .. import _dump
from . import crash, making, output, reading

_OUT = "the page; - is standard output"


class Trouble(Exception):
    """A message, and the exit status."""

    def __init__(self, line: str, status: int) -> None:
        super().__init__(line)
        self.status = status


def number(words: str) -> int:
    """A number of the command line, above 0."""
    if not words.isascii() or not words.isdigit() or int(words) == 0:
        raise argparse.ArgumentTypeError(f"{words} is no number above 0")
    return int(words)


def write(out: str, page: str) -> None:
    """Writes a page to where the command line wants it."""
    try:
        output.write(out, page)
    except OSError as error:
        raise Trouble(f"cannot write {out}: {error.strerror}", 3) from None


def page(arguments: argparse.Namespace) -> tuple[str, int]:
    """Makes the page of a dump. Returns what is wrong with the dump, and the exit status."""
    making.check()
    try:
        if output.is_one_of(arguments.out, [arguments.file]):
            raise Trouble("the page would take the place of the dump", 2)
        size = os.stat(arguments.file).st_size
        with _dump.open(arguments.file, limits=reading.page_limits(arguments.budget)) as dump:
            made, read = making.page_of(dump, os.path.basename(arguments.file), size, arguments.rows)
    except (OSError, ValueError):
        raise Trouble(f"cannot open {arguments.file}", 3) from None
    write(arguments.out, made)
    badge = crash.badge(read)
    status = {"good": 0, "outside": 0, "bad": 1, "long": 3}[badge.kind]
    return badge.words if status else "", status


class Progress:
    """A bar on a terminal if tqdm is installed, else nothing."""

    def __init__(self, what: str, total: Callable[[], int]) -> None:
        self._bar: Any = None
        if not sys.stderr.isatty():
            return
        try:
            from tqdm import tqdm
        except ImportError:
            return
        tqdm.monitor_interval = 0  # it would start a thread before the processes
        self._bar = tqdm(total=total(), desc=what, unit="dump", leave=False)

    def told(self, count: int) -> None:
        """Adds so many to those that are done."""
        if self._bar is not None:
            self._bar.update(count)

    def end(self) -> None:
        if self._bar is not None:
            self._bar.close()


def day(arguments: argparse.Namespace) -> tuple[str, int]:
    """Makes the page of many dumps."""
    from . import counting  # pages of one dump need no processes
    from . import day as day_page

    making.check()
    try:
        os.scandir(arguments.folder).close()
    except OSError:
        raise Trouble(f"cannot open {arguments.folder}", 3) from None
    if output.is_one_of(arguments.out, counting.dumps_in(arguments.folder)):
        raise Trouble("the page would take the place of a dump", 2)
    progress = Progress("dumps", lambda: sum(1 for _ in counting.dumps_in(arguments.folder)))
    counted = counting.count_all(arguments.folder, arguments.workers, arguments.budget, progress.told)
    progress.end()
    made = day_page.Day(counted, arguments.folder, arguments.rows)
    if arguments.pages:
        progress = Progress("pages", lambda: len(made.examples()))
        try:
            day_page.make_pages(
                made, arguments.pages, arguments.out, arguments.workers, arguments.budget, progress.told
            )
        except OSError as error:
            raise Trouble(f"cannot write {arguments.pages}: {error.strerror}", 3) from None
        progress.end()
    write(arguments.out, made.page())
    return "", 0


def _with_limits(command: argparse.ArgumentParser, file: str) -> None:
    """Adds the options of both commands that bound a page."""
    command.add_argument("--rows", type=number, default=500, help="the most rows that a table shows (500)")
    command.add_argument(
        "--budget",
        type=number,
        default=reading.BUDGET,
        help=f"the most bytes that are read for each list of {file}",
    )


def parser() -> argparse.ArgumentParser:
    """The command lines of both commands."""
    words = argparse.ArgumentParser(prog="python -m mdmp", description="Makes HTML pages of dumps.")
    commands = words.add_subparsers(dest="command", required=True)
    one = commands.add_parser(
        "page", help="makes a page of a dump", description="Makes an HTML page of a dump, in one file."
    )
    one.add_argument("file", metavar="FILE", help="the dump")
    one.add_argument("-o", "--out", required=True, metavar="FILE.html", help=_OUT)
    _with_limits(one, "the file")
    one.set_defaults(run=page)
    many = commands.add_parser(
        "day",
        help="makes a page of many dumps",
        description="Makes an HTML page of all dumps in a folder and in the folders below it.",
    )
    many.add_argument("folder", metavar="FOLDER", help="the folder of the dumps: *.dmp and *.mdmp")
    many.add_argument("-o", "--out", required=True, metavar="FILE.html", help=_OUT)
    many.add_argument(
        "--workers",
        type=number,
        default=len(os.sched_getaffinity(0)),
        help="the number of processes that read dumps (as many as cores)",
    )
    many.add_argument(
        "--pages",
        metavar="FOLDER",
        help="also write a page of each dump that the page names to this folder, and link to it",
    )
    _with_limits(many, "a file")
    many.set_defaults(run=day)
    return words


def main() -> int:
    """Does what the command line says, and returns the exit status."""
    arguments = parser().parse_args()
    told, status = "", 0
    try:
        told, status = arguments.run(arguments)
    except Trouble as trouble:
        told, status = str(trouble), trouble.status
    except making.NoJinja as missing:
        told, status = str(missing), 3
    except MemoryError:
        told, status = "out of memory", 3
    if told:
        print(f"mdmp: {told}", file=sys.stderr)
    return status
