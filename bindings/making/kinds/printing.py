"""What mdmp_print says of each kind: which function prints its item, and the definitions of its line and its object."""

from __future__ import annotations

from lib.generated import Stretches

from .naming import each_item, initial, item_paths, printed
from .places import put_all_uses, put_arms, put_used
from .table import Kinds

CRATE = "crates/mdmp_print"
SOURCE, RECORDS = f"{CRATE}/src/item.rt", f"{CRATE}/src/records.rt"
LINES, OBJECTS = f"{CRATE}/specs/ItemLines.antt", f"{CRATE}/specs/JsonLines.antt"


def put_print(files: Stretches, kinds: Kinds) -> None:
    """All of it."""
    put_code(files, kinds)
    put_definitions(files, kinds)


def put_code(files: Stretches, kinds: Kinds) -> None:
    """The arms of `print_kind`. The functions that these call are written by hand: what they import is made."""
    items = each_item(kinds)
    names, words = ["Stream", *[kind.item for kind in items]], ["stream", *map(printed, items)]
    arms = [f"        Item::{name}(item) => print_{word}(form, &item, out)," for name, word in zip(names, words)]
    put_arms(files, SOURCE, "    match item ", "    ", arms)
    put_used(files, SOURCE, "use crate::records", [f"print_{word}" for word in words])
    put_used(files, RECORDS, "use mdmp_lister", [f"{name}Item" for name in names])
    lines = sorted(["entry_line", *[f"{word}_line" for word in words[1:]]])
    files.put(RECORDS, "specs.ItemLines.{", "}", ", ".join(lines))
    files.put(RECORDS, "specs.JsonLines.{", "}", ", ".join(sorted(f"{word}_members" for word in words)))


def put_definitions(files: Stretches, kinds: Kinds) -> None:
    lines = objects = ""
    items = each_item(kinds)
    for kind in items:
        item, word = initial(printed(kind)), printed(kind)
        lines += f"\nitem_line (items.{kind.item} {item}) = {word}_line {item}"
        objects += f"\nitem_object (items.{kind.item} {item}) = object ({word}_members {item})"
    put_last_lines(files, LINES, "\nitem_line (items.Stream s) = entry_line s", lines)
    put_last_lines(files, OBJECTS, "\nitem_object (items.Stream s) = object (stream_members s)", objects)
    before, after = "declared.item.StreamItem.{StreamItem}\n", "use Rattle.mdmp_lister.specs.declared.item.Item."
    for name in (LINES, OBJECTS):
        put_all_uses(files, name, before, after, item_paths(items))


def put_last_lines(files: Stretches, name: str, before: str, lines: str) -> None:
    """Puts the lines of a definition behind its first, up to an empty line or the end of the file."""
    is_last = "\n\n" not in files.text(name).partition(before)[2]
    files.put(name, before, "" if is_last else "\n\n", f"{lines}\n" if is_last else lines)
