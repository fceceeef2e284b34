"""docs/reference/lines.md and line.schema.json: what `list`, `check` and `hex` print, and the error lines."""

from __future__ import annotations

import json
import re
import tomllib
from dataclasses import dataclass
from typing import Any

from lib.generated import Mistake

from .definitions import CRATES, ROOT, Clause, Expression, definitions, found, items, text_of
from .objects import SPECS, Line, Object, fault_object, lines, part_forms, Scope
from .sources import all_structures

TABLE = ROOT / "docs/reference/lines.toml"
TOOL_SPECS = CRATES / "mdmp_engines/specs"


@dataclass(frozen=True)
class Row:
    """What lines.toml says of a key."""

    unit: str
    says: str
    when: str


# ---- text


FORMS = {
    "extent_text": "<part>",
    "name_text": "<name>",
    "information_text": "[ <x16>]*",
    "guid_text": "<guid>",
    "digits_text": "<8 digits>",
    "escaped_bytes": "<bytes>",
    "cut_text": "[ cut]",
    "kind_words": "<words>",
    "part_words": "<what>",
    "address_text": "<x16>:",
}


class Form:
    """The form of a line, by the definition of its text."""

    def __init__(self, specs: str, entry: str = "<entry>") -> None:
        paths = [SPECS / f"{specs}.antt", TOOL_SPECS / f"{specs}.antt"]
        self.specs = {name: one for path in paths if path.exists() for name, one in definitions(path).items()}
        self.entry = entry

    def of(self, name: str, clause: int = 0) -> str:
        return self.clause(self.specs[name].clauses[clause])

    def clause(self, clause: Clause) -> str:
        return self.told(clause.expression)

    def told(self, expression: Expression) -> str:
        parts = [self.part(one) for one in self.flat(expression)]
        text = "".join(parts).removesuffix("\n").replace("0x<x16>", "<x16>")
        return re.sub(r"<n>(?:\.<n>){3}", "<a>.<b>.<c>.<d>", text).replace("<n>.<n>.<n>", "<major>.<minor>.<build>")

    def flat(self, expression: Expression) -> list[Expression]:
        """The pieces of a text: those of a list that it joins, or of another definition."""
        if isinstance(expression, tuple) and expression[0] == "apply" and expression[1] == "concat":
            return [piece for one in items(expression[2]) for piece in self.flat(one)]
        if isinstance(expression, tuple) and expression[0] in ("∷", "++"):
            return [piece for one in items(expression) for piece in self.flat(one)]
        if isinstance(expression, tuple) and expression[0] == "apply" and expression[1] in self.specs:
            inner = self.specs[expression[1]].clauses
            if len(inner) == 1 and expression[1] not in FORMS:
                return [piece for one in items(inner[0].expression) for piece in self.flat(one)]
        return [expression]

    def part(self, piece: Expression) -> str:
        if isinstance(piece, str):
            raise Mistake(f"no piece of a line: {piece}")
        if piece[0] == "text":
            return text_of(piece)
        head, last = piece[1], piece[-1]
        if head == "decimal":
            if str(last).endswith(".index") or last == "k":
                return "<k>"
            return self.entry if str(last).endswith(".entry") or last == "e" else "<n>"
        if head == "hex":
            return "<x16>" if piece[2] == "16" else f"<{piece[2]} digits>"
        if head == "item_text":
            return "<item>"
        if head in FORMS:
            return FORMS[head]
        raise Mistake(f"no piece of a line: {piece!r}")


def list_forms() -> list[str]:
    form = Form("ItemLines")
    kinds = [clause.expression[1] for clause in form.specs["item_line"].clauses]
    return [Form("Lines").of("dump_line"), *[form.of(name) for name in kinds]]


def pdb_forms() -> list[str]:
    form = Form("PdbLines")
    return [form.clause(clause) for clause in form.specs["pdb_line"].clauses]


def part_names() -> list[str]:
    """What the parts of records are called."""
    return [text_of(clause.expression) for clause in Form("PartLines").specs["part_words"].clauses]


def parts_text() -> str:
    """These names as code."""
    *others, last = [f"`{name}`" for name in part_names()]
    return f"{', '.join(others)} or {last}"


def hex_form() -> str:
    form = Form("HexText")
    none, byte = (form.clause(clause) for clause in form.specs["cell_text"].clauses)
    return f"{FORMS['address_text']}{byte}{byte}{none} .."


# ---- error lines


# Texts that more than one kind of error has: they are told once.
SHARED = {"source_text", "budget_text", "memory_text", "memory_limit_text"}


@dataclass(frozen=True)
class Message:
    form: str
    status: int


def messages() -> list[Message]:
    """The error lines, in the order of the page, with their exit statuses."""
    form = Form("Faults", "<e>")
    form.specs |= Form("FaultWords").specs | Form("PartLines").specs
    status = {clause.patterns.strip("()").split(" ")[0]: int(clause.body) for clause in form.specs["own_status"].clauses}
    made: list[Message] = []

    def add(variant: str, *texts: str) -> None:
        made.extend(Message(text, status[f"tool.{variant}"]) for text in texts)

    opening = [clause for clause in form.specs["opening_text"].clauses if clause.body.split(" ")[0] not in SHARED]
    add("Opening", *[form.clause(clause) for clause in opening])
    words = [text_of(clause.expression) for clause in form.specs["kind_words"].clauses if clause.body != "[]"]
    fault = form.of("list_fault_text")
    for kind in words:
        add("List", fault.replace("<words>", kind).replace("<item>", " item <k>" if "name" in kind else ""))
    add("Reading", form.of("part_text"), form.of("long_name_text"))
    add("Layout", *[form.clause(clause) for clause in form.specs["layout_text"].clauses])
    add("Source", *[form.clause(clause) for clause in form.specs["source_text"].clauses])
    add("Out", form.of("output_text"))
    add("Budget", form.of("budget_text"))
    add("CopyBudget", form.of("copy_budget_text"))
    add("MemoryLimit", form.of("memory_limit_text"))
    add("AsideLimit", form.of("aside_limit_text"))
    add("Memory", form.of("memory_text"))
    add("NotCopied", form.of("not_copied_text"))
    made.append(Message(Form("CheckText").of("bad_text"), status["tool.List"]))
    return [*made, *messages_of_code()]


PIECES_OF_A_BAD_WORD = {"place_name place": "<place>", "shown word": "<word>", "expected_text place": "<words>"}


def messages_of_code() -> list[Message]:
    """Those that no definition of a fault has: of names and of words."""
    code = (CRATES / "mdmp_tool/src/words.rt").read_text(encoding="utf-8")
    name = int(found(r"(?s)fn refuse_name.+?\n    \};\n    (\d)\n", code, "line of a name in words.rt")[1])
    bad, status = found(r'print_error\(err, b"([\w ]+)"\);\n\s+(\d)\n', code, "line of bad words in words.rt").groups()
    names = re.findall(r'refuse_name\(b"([\w ]+)", \w+, err\)', code)
    told = (CRATES / "mdmp_tool/specs/BadWordText.antt").read_text(encoding="utf-8")
    parts = found(r"bad_word_text place word =\n\s+concat \((.+)\n", told, "text of a bad word in BadWordText.antt")[1]
    pieces = [re.sub('^codes "(.*)"$', r"\1", piece) for piece in parts.split(" ∷ ")]
    word = "".join(PIECES_OF_A_BAD_WORD.get(piece, piece) for piece in pieces)
    return [*[Message(f"{why}<name>", name) for why in dict.fromkeys(names)], Message(word, int(status)), Message(bad, int(status))]


# ---- the table


class Table:
    """lines.toml, compared with what the definitions have."""

    def __init__(self) -> None:
        with open(TABLE, "rb") as file:
            data = tomllib.load(file)
        self.lines = {entry["name"]: (entry["of"], rows(entry)) for entry in data["line"]}
        self.objects = {entry["name"]: rows(entry) for entry in data["object"]}
        self.messages = {entry["form"]: entry["says"].replace("{parts}", parts_text()) for entry in data["message"]}

    def compare(self, printed: list[Line], told: list[Message]) -> None:
        same("the lines", list(self.lines), [line.name for line in printed])
        for line in printed:
            compare_keys(line.name, line.objects, self.lines[line.name][1])
        compare_keys("part", part_object(), self.objects["part"])
        compare_keys("fault", fault_object(), self.objects["fault"])
        same("the messages", list(self.messages), [message.form for message in told])


def rows(entry: dict[str, Any]) -> dict[str, Row]:
    return {name: Row(unit, says, when) for name, unit, says, when in entry["keys"]}


def same(what: str, here: list[str], there: list[str]) -> None:
    if sorted(here) != sorted(there):
        lacking, extra = sorted(set(there) - set(here)), sorted(set(here) - set(there))
        raise Mistake(f"docs/reference/lines.toml: {what}: {lacking} are not there, and {extra} are in no definition")


def compare_keys(name: str, objects: Object, table: dict[str, Row]) -> None:
    keys = objects.keys()
    same(f"the keys of {name}", list(table), [key.name for key in keys])
    for key in keys:
        if bool(table[key.name].when) == key.is_required:
            raise Mistake(f"docs/reference/lines.toml: {name}.{key.name} is {'always' if key.is_required else 'not always'} there")


def part_object() -> Object:
    structures = all_structures()
    scope = Scope(structures, {"x": structures["StreamItem"]})
    member = ("apply", "part_members", "of_number", "", "x.location.size", "x.location.rva")
    return Object(part_forms(scope, member))


# ---- the schema


def description(source: str, row: Row) -> str:
    """What a key is, in one line."""
    first = ": ".join(word for word in (source, row.says) if word)
    return f"{first} ({row.unit})" if first and row.unit else first or row.unit


def schema_text() -> str:
    printed, table = lines(), Table()
    table.compare(printed, messages())
    defs = {}
    for line in printed:
        of, says = table.lines[line.name]
        sources = {key.name: key.source for key in line.objects.keys()}
        words = {name: plain(description(sources[name], row)) for name, row in says.items()}
        defs[line.name] = {"description": plain(of), **line.objects.schema(words)}
    schema = {
        "$schema": "https://json-schema.org/draft/2020-12/schema",
        "title": "A line of `mdmp list --json` or `mdmp check --json`",
        "$comment": "Made by docs/generate. A later version may have more keys, and more values of `line`.",
        "oneOf": [{"$ref": f"#/$defs/{line.name}"} for line in printed],
        "$defs": defs,
    }
    return pretty(schema, "") + "\n"


def pretty(value: object, indent: str) -> str:
    """A value of JSON. What fits on a line stands on one."""
    short = json.dumps(value, ensure_ascii=False)
    if len(indent) + len(short) <= 120 or not isinstance(value, (dict, list)):
        return short
    inner = indent + "  "
    if isinstance(value, dict):
        members = [f"{json.dumps(key)}: {pretty(one, inner)}" for key, one in value.items()]
    else:
        members = [pretty(one, inner) for one in value]
    first, last = ("{", "}") if isinstance(value, dict) else ("[", "]")
    return f"{first}\n{inner}" + f",\n{inner}".join(members) + f"\n{indent}{last}"


def plain(text: str) -> str:
    """A text without its links."""
    return re.sub(r"\[([^\]]*)\]\([^)]*\)", r"\1", text)


# ---- the page


def block(forms: list[str]) -> str:
    return "```text\n" + "\n".join(forms) + "\n```"


def key_table(objects: Object, table: dict[str, Row]) -> str:
    made = ["| key | type | unit | field | there if |", "|---|---|---|---|---|"]
    for key in objects.keys():
        row = table[key.name]
        field = ": ".join(word for word in (key.source, row.says) if word)
        made.append(f"| `{key.name}` | {key.words} | {row.unit} | {field} | {row.when} |")
    return "\n".join(made)


def heading(line: Line) -> str:
    """The structures whose fields a line has, as links."""
    if line.structure is None or line.name == "range":
        return ""
    names = line.structure.in_header
    return f" Fields of [{names[0]}](structures.md#{names[0].lower()})." if names else ""


def lines_text() -> str:
    printed, table, told = lines(), Table(), messages()
    table.compare(printed, told)
    parts = [INTRO.strip("\n"), block(list_forms()), PLACEHOLDERS.strip("\n"), block(pdb_forms()), PDB.strip("\n")]
    verdicts = block([Form("VerdictLines", "<e>").of("judged_text"), "<fault>"])
    parts += [verdicts, LOST.strip("\n"), block([Form("PartLines", "<e>").of("part_text")])]
    parts += [CHECK.strip("\n").format(parts=parts_text()), block([hex_form()]), HEX.strip("\n"), OBJECTS.strip("\n")]
    for line in printed:
        of, says = table.lines[line.name]
        parts.append(f"### `{line.name}`\n\n{of}{heading(line)}\n\n{key_table(line.objects, says)}")
    parts += [f"{PARTS.strip()}\n\n{key_table(part_object(), table.objects['part'])}", NAMES.strip("\n"), IDS.strip("\n")]
    parts += [f"{FAULTS.strip()}\n\n{key_table(fault_object(), table.objects['fault'])}", ERRORS.strip("\n")]
    parts.append(block([message.form for message in told]))
    listed = ["| error line | status | meaning |", "|---|---|---|"]
    listed += [f"| `{message.form}` | {message.status} | {table.messages[message.form]} |" for message in told]
    return "\n\n".join([*parts, MEANINGS.strip("\n"), "\n".join(listed)]) + "\n"


INTRO = """
# Printed lines

This page has every line that the commands print, as text and as JSON, except the lines of [summary](../format.md#a-summary).
`docs/generate` makes it from the definitions in [crates/mdmp_print/specs](../../crates/mdmp_print/specs) and from [lines.toml](lines.toml).
[format.md](../format.md) has the rules, and [cli.md](../cli.md) has the commands.

## Text

Each line ends with a newline. `list` prints these lines:
"""

PLACEHOLDERS = """
| in a line | is |
|---|---|
| `<n>` | a decimal number |
| `<entry>`, `<e>` | the number of the directory entry, from 0 |
| `<k>` | the index of the record in its stream, from 0, also for a stream of one record |
| `<x16>` | `0x` and 16 hexadecimal digits |
| `<4 digits>`, `<8 digits>`, `<2 digits>` | so many hexadecimal digits |
| `<part>` | `empty`, `absent <size>`, `inside <size>@<offset>` or `outside <size>@<offset>` |
| `<name>` | `none`, `long <length>`, or the [escaped](../format.md#names) units in double quotes |
| `[ <x16>]*` | the parameters of the exception, at most 15 |

Hexadecimal digits are of lower case. The fields are those of the [JSON objects](#json) with the same words.

With `--pdb`, one of these lines follows the line of a module whose CodeView record lies inside the file:
"""

PDB = """
- The first line is for a record that begins with `RSDS`. `<guid>` has 8, 4, 4, 4 and 12 digits with hyphens between them.
- `<bytes>` is the [escaped](../format.md#codeview-records) name of the PDB. ` cut` follows a name that no zero byte ends.
- The second line is for another record: its first four bytes, in the order of the file, and its size.
- The third line is for a record with too few bytes, with its size.

`check` prints one of these lines for each entry. `<fault>` is the [error line](#error-lines) of the entry without `mdmp: `.
"""

LOST = """
With `--parts`, one of these lines comes before the line of an entry for each part of its records that lies outside the file:
"""

CHECK = """
`<what>` is {parts}.

`hex` prints 16 bytes per line. The last line has the bytes that are left, and LENGTH 0 prints nothing. `??` is a byte that no memory list has.
"""

HEX = """
`copy` prints nothing.
"""

OBJECTS = """
## JSON

With `--json`, `list` and `check` print each line as one JSON object (RFC 8259) in UTF-8, followed by a newline.
The order of lines is that of the text. Error lines stay text.
[line.schema.json](line.schema.json) is a JSON Schema (draft 2020-12) of each line, and [tests/schema](../../tests/schema) compares the program with it.

- Keys come in the order of the tables, which is also that of the schema. Only `debug_id` of a `pdb` of the kind `other` is the last key.
  Outside of strings there are no blanks.
- In a string, `\\` comes before `"` and `\\`. A character below U+0020 is `\\b`, `\\t`, `\\n`, `\\f` or `\\r`, else `\\u` and 4 digits of lower case.
  Every other character stands for itself.
- A later version may print more keys, and more values of `line`. Ignore what you do not know. The schema is strict, and describes this version only.
- The type of a number depends on its field, never on its value. It is a JSON number if the field has at most 32 bits. So are `entry` and `index`.
  A wider field is a string of decimal digits, and so are the size and offset of a range and the numbers of an error.
- An *offset* counts bytes from the start of the file. An *address* is one of the dumped process.
- A column that is empty under "there if" means: always.
"""

PARTS = """
### Parts

A part is an object that says where the bytes of a part are. [format.md](../format.md#parts-of-records) defines the classes.
"""

NAMES = """
### Names

| value of a name | meaning |
|---|---|
| null | The record has no name: the RVA is 0. |
| `{"long":n}` | The name has n bytes, over `--name`. It was not read. |
| string | the name. U+FFFD is in the place of each surrogate without its other half. |

The name of a PDB is a string: its bytes as UTF-8. U+FFFD is in the place of bytes that are not UTF-8.
If they begin a character, one U+FFFD replaces as many of them as can begin one. Any other byte has one of its own.
If U+FFFD replaced something, `"lossy":true` follows the string. Otherwise there is no `lossy`.
"""

IDS = """
### Ids of modules

Symbol servers find a module's file by its `code_id`, and its debug information by its `debug_id`. `%08X%x` is what C's `printf` makes of two numbers.

| id | of | is |
|---|---|---|
| `code_id` of `module` | a PE file | `%08X%x` of TimeDateStamp and SizeOfImage, null if TimeDateStamp is 0 |
| `debug_id` of `pdb` | a record that begins with `RSDS` | the 32 digits of the GUID and the age in hexadecimal, in upper case |
| `build_id` of `pdb` | a record that begins with the bytes `4c 45 70 42`, of an ELF file | the bytes after these four, at most 20, in lower case. Breakpad's code id |
| `debug_id` of `pdb` | such a record | as Breakpad makes it: the first 16 bytes of the build id, or zeros after a shorter one, as a GUID, and the age 0 |
| `debug_id` of `pdb` | a record of PDB 2.0, which begins with `NB10` and has at least 16 bytes | `%08X%x` of its time and its age |
"""

FAULTS = """
### Errors of entries

`fault` of `check` is null if the entry has no error. Otherwise it is an object:
"""

ERRORS = """
## Error lines

An error that ends a command is one line on standard error: `mdmp: ` and one of these lines.
Errors that the parser of the command line finds begin with `error: ` instead.
[format.md](../format.md#the-order-of-refusals) says which error comes first.
"""

MEANINGS = """
"Status" is the exit status of the command. Without a command's name, more than one command prints the line.
"""
