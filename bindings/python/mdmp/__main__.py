"""The commands of `mdmp` in Python: python -m mdmp COMMAND .., or python -m mdmp FILE, which is `list FILE`

summary FILE..            prints what crashed and where, and whether each file is good
list FILE                 prints the header, the directory and the records
check FILE                prints the result of checking each entry
hex FILE ADDRESS LENGTH   prints memory of the dumped process
copy IN OUT TYPE..        copies the streams of some types into a new file
page FILE -o OUT          makes an HTML page of a dump
day FOLDER -o OUT         makes an HTML page of many dumps

A file with the name of a command is `./list`. Words, options and output are those of `mdmp`, with the limits of
`--untrusted`; --window, --name, --budget, --memory and --aside set others. The exit status is the command's:

0  success
1  an error in the file
2  bad command line
3  out of memory, output error, a limit is reached, or a file that cannot be opened or created
"""

from __future__ import annotations

import argparse
import os
import sys
from dataclasses import replace
from typing import Any, Callable, Iterator

import mdmp
from mdmp import _summary_lines, names

_PROGRAM = "python -m mdmp"
_ADDRESSES = 1 << 64
_LONGEST = 1 << 20
_LINE = 16
_DIGITS = {10: 20, 16: 16}  # the most that a number has
# The types that `copy` takes by name. Numbers from 65,536 on have no names.
_OF_RECORDS = {
    "threads": names.StreamType.ThreadListStream,
    "modules": names.StreamType.ModuleListStream,
    "memory": names.StreamType.MemoryListStream,
    "exception": names.StreamType.ExceptionStream,
    "system": names.StreamType.SystemInfoStream,
    "memory64": names.StreamType.Memory64ListStream,
    "unloaded": names.StreamType.UnloadedModuleListStream,
    "regions": names.StreamType.MemoryInfoListStream,
    "threadnames": names.StreamType.ThreadNamesStream,
}
_COMMANDS = ("summary", "list", "check", "hex", "copy", "page", "day")
# `page` and `day` have a parser of their own, which needs the modules of pages.
_OF_PAGES = {"page": "makes an HTML page of a dump", "day": "makes an HTML page of many dumps"}


def _number(words: str, base: int = 10) -> int:
    digits = words.removeprefix("0x") if base == 16 else words
    if not (digits.isascii() and digits.isalnum()) or len(digits) > _DIGITS[base]:
        raise ValueError
    return int(digits, base)


def _size(words: str) -> int:
    """A number of bytes."""
    return _number(words)


def _address(words: str) -> int:
    """An address of the dumped process: 0x and hexadecimal digits, or a decimal number."""
    number = _number(words, 16 if words.startswith("0x") else 10)
    if number >= _ADDRESSES:
        raise ValueError
    return number


def _length(words: str) -> int:
    """How many bytes `hex` prints."""
    number = _number(words)
    if number > _LONGEST:
        raise ValueError
    return number


def _type(words: str) -> int:
    """A type of stream, by its number or by a name."""
    if words in _OF_RECORDS:
        return _OF_RECORDS[words]
    if words in names.StreamType.__members__:
        return names.StreamType[words]
    return _number(words)


# What argparse calls a word that it rejects.
_size.__name__, _address.__name__, _length.__name__, _type.__name__ = "number", "ADDRESS", "LENGTH", "TYPE"


class _BadEntries(Exception):
    """Entries are bad, as the line says: the exit status says it too, and no message does."""


def _write(text: Callable[[], str]) -> None:
    """Writes a text, also if an error ends it."""
    try:
        sys.stdout.write(text())
    except mdmp.Fault as fault:
        sys.stdout.write(fault.partial or "")
        raise


def _summary(dump: mdmp.Dump, arguments: argparse.Namespace) -> None:
    # The name of a file may have bytes that are no UTF-8.
    file = os.fsencode(arguments.file).decode("utf-8", "replace")
    sys.stdout.write(_summary_lines.line(dump, file) if arguments.json else _summary_lines.lines(dump, file))
    if dump.summary.bad_entries:
        raise _BadEntries


def _list(dump: mdmp.Dump, arguments: argparse.Namespace) -> None:
    if arguments.json:
        _write(lambda: dump.list_json(pdb=arguments.pdb))
    else:
        dump.write_list(sys.stdout, pdb=arguments.pdb)


def _check(dump: mdmp.Dump, arguments: argparse.Namespace) -> None:
    text = dump.check_json if arguments.json else dump.check
    _write(lambda: text(parts=arguments.parts))


def _hex_lines(address: int, cells: mdmp.Cells) -> Iterator[str]:
    for at in range(0, len(cells.data), _LINE):
        pairs = zip(cells.data[at : at + _LINE], cells.known[at : at + _LINE])
        shown = " ".join(f"{byte:02x}" if is_known else "??" for byte, is_known in pairs)
        yield f"{address + at:#018x}: {shown}\n"


def _hex(dump: mdmp.Dump, arguments: argparse.Namespace) -> None:
    sys.stdout.writelines(_hex_lines(arguments.address, dump.memory.read(arguments.address, arguments.length)))


def _copy(dump: mdmp.Dump, arguments: argparse.Namespace) -> None:
    dump.write_copy(arguments.out, *arguments.types, limits=dump.limits)


def run(arguments: argparse.Namespace) -> None:
    """Does what the command line says."""
    given = {name: getattr(arguments, name, None) for name in ("window", "name", "budget", "memory", "aside")}
    limits = replace(mdmp.Limits.untrusted(), **{name: most for name, most in given.items() if most is not None})
    with mdmp.open(arguments.file, limits=limits) as dump:
        arguments.run(dump, arguments)


def _told_of(error: OSError, arguments: argparse.Namespace) -> str:
    if error.filename is None:
        return "output failed"
    out = getattr(arguments, "out", None)
    return f"cannot create {out}" if error.filename == out else f"cannot open {arguments.file}"


def status_of(arguments: argparse.Namespace) -> int:
    """Prints the output and the error, and returns the exit status."""
    try:
        try:
            run(arguments)
        finally:
            sys.stdout.flush()
        return 0
    except mdmp.Fault as fault:
        told, status = str(fault), 3 if isinstance(fault, mdmp.LimitReached) else 1
    except _BadEntries:
        return 1
    except ValueError as error:
        told, status = str(error), 2
    except MemoryError:
        told, status = "out of memory", 3
    except OSError as error:
        told, status = _told_of(error, arguments), 3
        if error.filename is None:
            # The rest of the output cannot be written, and Python would try again when it ends.
            os.dup2(os.open(os.devnull, os.O_WRONLY), sys.stdout.fileno())
    # With many files, the message names the file.
    named = f"{arguments.file}: " if arguments.run is _summary and not told.startswith("cannot open") else ""
    print(f"mdmp: {named}{told}", file=sys.stderr)
    return status


def summary_status(arguments: argparse.Namespace) -> int:
    """Prints the summary of each file, and returns the greatest exit status."""
    files, status = arguments.file, 0
    for arguments.file in files:
        status = max(status, status_of(arguments))
    return status


def _command(commands: Any, run: Callable[[mdmp.Dump, argparse.Namespace], None], name: str, about: str) -> Any:
    """The parser of a command, with the options of all commands."""
    said = f"{about[0].upper()}{about[1:]}."
    words = commands.add_parser(name, prog=f"{_PROGRAM} {name}", help=about, description=said, allow_abbrev=False)
    words.set_defaults(run=run)
    most = mdmp.Limits.untrusted()
    if name == "summary":
        words.add_argument("file", nargs="+", metavar="FILE", help="the minidumps to read")
    else:
        words.add_argument("file", metavar="IN" if name == "copy" else "FILE", help="the minidump to read")
    limits = words.add_argument_group("limits, which are those for files from strangers")
    for option, help_text, number in (
        ("--window", "the size of the buffer for records, in bytes", most.window),
        ("--name", "the longest name that is read, in bytes", most.name),
        ("--budget", "the most bytes of the file that are read", most.budget),
        ("--memory", "the most bytes of memory for what is read", most.memory),
    ):
        limits.add_argument(option, type=_size, metavar="N", help=f"{help_text} ({number})")
    limits.add_argument("--untrusted", action="store_true", help="these limits, which are there in any case")
    return words


def parser() -> argparse.ArgumentParser:
    """The command line."""
    words = argparse.ArgumentParser(
        prog=_PROGRAM,
        usage=f"{_PROGRAM} COMMAND .. | FILE",
        description="Reads Windows minidumps. A FILE alone is listed. 'COMMAND --help' prints the help of a command.",
        allow_abbrev=False,
    )
    words.add_argument("-V", "--version", action="version", version=f"mdmp {mdmp.__version__}")
    commands = words.add_subparsers(title="commands", metavar="COMMAND", required=True)
    summed = _command(commands, _summary, "summary", "prints what crashed and where, and whether a file is good")
    listed = _command(commands, _list, "list", "lists the header, the directory and the records")
    checked = _command(commands, _check, "check", "checks each entry of the directory")
    summed.add_argument("--json", action="store_true", help="print the summary of each file as a JSON object")
    for each in (listed, checked):
        each.add_argument("--json", action="store_true", help="print each line as a JSON object")
    checked.add_argument("--parts", action="store_true", help="print each part of a record that lies outside the file")
    listed.add_argument("--pdb", action="store_true", help="print the symbol file of each module too")
    listed.add_argument("--aside", type=_size, metavar="N", help="the most bytes of CodeView records for --pdb")
    printed = _command(commands, _hex, "hex", "prints memory of the dumped process")
    printed.add_argument("address", type=_address, metavar="ADDRESS", help="the first address, as 0x7ffe0000")
    printed.add_argument("length", type=_length, metavar="LENGTH", help=f"how many bytes, up to {_LONGEST}")
    copied = _command(commands, _copy, "copy", "copies the streams of some types into a new file")
    copied.add_argument("out", metavar="OUT", help="the file to create; it must not exist")
    copied.add_argument("types", type=_type, nargs="+", metavar="TYPE", help="a type by its number or name, as modules")
    for name, about in _OF_PAGES.items():
        commands.add_parser(name, help=about)
    return words


def main() -> int:
    given = sys.argv[1:]
    if given[:1] and given[0] in _OF_PAGES:
        from mdmp.pages import command

        return command.main()
    if not given:
        parser().print_help(sys.stderr)
        return 2
    if given[0] not in (*_COMMANDS, "-h", "--help", "-V", "--version"):
        given = ["list", *given]
    arguments = parser().parse_args(given)
    return summary_status(arguments) if arguments.run is _summary else status_of(arguments)


if __name__ == "__main__":
    sys.exit(main())
