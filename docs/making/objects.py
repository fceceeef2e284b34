"""The objects of JSON that `list` and `check` print, by JsonLines.antt and PartLines.antt of crates/mdmp_print/specs."""

from __future__ import annotations

import re
from dataclasses import dataclass, field, replace
from typing import Any

from lib.generated import Mistake

from .definitions import CRATES, Clause, Expression, definitions, items, text_of
from .sources import Structure, all_structures

SPECS = CRATES / "mdmp_print/specs"

# A stream has fewer than 2^32 bytes and each of its records has some, so the index of a record has 32 bits.
INDEX_BITS = 32
NUMBER = "(0|[1-9][0-9]{0,%d})"
DIGITS = {16: 4, 32: 9, 64: 19, 128: 38}  # how many decimal digits follow the first one, at most


@dataclass(frozen=True)
class Key:
    """A member of an object."""

    name: str
    words: str  # its type, for the page
    schema: dict[str, Any]
    source: str = ""  # the field of minidumpapiset.h
    is_required: bool = True
    goes_with: str = ""  # the key that has to be a string beside it


@dataclass(frozen=True)
class Object:
    """An object: its members, for each of the forms that it can have."""

    variants: list[list[Key]]

    def keys(self) -> list[Key]:
        """All members, each once. One that a variant lacks is not required."""
        found: dict[str, Key] = {}
        for variant in self.variants:
            for key in variant:
                old = found.get(key.name, key)
                found[key.name] = replace(old, schema={**old.schema}) if old.schema == key.schema else either(old, key)
        everywhere = [{key.name for key in variant if key.is_required} for variant in self.variants]
        return [replace(key, is_required=all(key.name in names for names in everywhere)) for key in found.values()]

    def schema(self, says: dict[str, str]) -> dict[str, Any]:
        forms = [form_schema(variant, says) for variant in self.variants]
        return forms[0] if len(forms) == 1 else {"oneOf": forms}


def either(one: Key, other: Key) -> Key:
    """A member that is told in two ways: both are constants, or texts of different digits."""
    if "pattern" in one.schema and "pattern" in other.schema:
        return replace(one, words=f"{one.words}, or {other.words}", schema={"anyOf": [one.schema, other.schema]})
    values = list(dict.fromkeys([*one.schema.get("enum", [one.schema.get("const")]), other.schema.get("const")]))
    if None in values:
        raise Mistake(f"{one.name} has two types")
    return replace(one, words=", ".join(f"`{value}`" for value in values), schema={"enum": values})


def form_schema(keys: list[Key], says: dict[str, str]) -> dict[str, Any]:
    made = {
        "type": "object",
        "properties": {key.name: {**key.schema, **described(says.get(key.name, ""))} for key in keys},
        "required": [key.name for key in keys if key.is_required],
        "additionalProperties": False,
    }
    beside = {key.name: {"properties": {key.goes_with: {"type": "string"}}} for key in keys if key.goes_with}
    return {**made, "dependentSchemas": beside} if beside else made


def described(text: str) -> dict[str, Any]:
    return {"description": text} if text else {}


# ---- types


def number(bits: int, least: int = 0) -> tuple[str, dict[str, Any]]:
    return f"number, {bits} bits", {"type": "integer", "minimum": least, "maximum": 2**bits - 1}


def wide(bits: int, least: int = 0) -> tuple[str, dict[str, Any]]:
    digits = NUMBER % DIGITS[bits] if least == 0 else "[1-9][0-9]{0,%d}" % DIGITS[bits]
    return f"decimal string, {bits} bits", {"type": "string", "pattern": f"^{digits}$"}


def hexadecimal(digits: int) -> tuple[str, dict[str, Any]]:
    return f"`0x` and {digits} digits", {"type": "string", "pattern": f"^0x[0-9a-f]{{{digits}}}$"}


GUID = {"type": "string", "pattern": "^[0-9a-f]{8}-[0-9a-f]{4}-[0-9a-f]{4}-[0-9a-f]{4}-[0-9a-f]{12}$"}
DEBUG_ID = {"type": "string", "pattern": "^[0-9A-F]{32}(0|[1-9A-F][0-9A-F]{0,7})$"}
STAMP_ID = {"type": "string", "pattern": "^[0-9A-F]{8}(0|[1-9a-f][0-9a-f]{0,7})$"}
BUILD_ID = {"type": "string", "pattern": "^([0-9a-f]{2}){0,20}$"}
STREAM_NAME = {"type": "string", "pattern": "^[A-Z_a-z][0-9A-Z_a-z]*$"}
SIGNATURE = {"type": "string", "pattern": "^[0-9a-f]{8}$"}
STAMP_WORDS = "9 to 16 digits as of `%08X%x`"
# What a text is that may be null, by the definition of it.
TEXTS = {"pe_id_of": (STAMP_WORDS, STAMP_ID), "stream_name": ("name of a constant", STREAM_NAME)}
# The definitions whose texts are some words, and the files that have them.
WORDS = {"kind_words": "FaultWords.antt", "part_words": "PartLines.antt"}
LOSSY = Key("lossy", "`true`", {"const": True}, is_required=False)


def constant(word: str) -> tuple[str, dict[str, Any]]:
    return f"`{word}`", {"const": word}


# ---- what an expression is of


@dataclass(frozen=True)
class Value:
    bits: int
    source: str


@dataclass(frozen=True)
class Scope:
    """The names of a clause: an item or a header, or the fields of a CodeView record."""

    structures: dict[str, Structure]
    names: dict[str, Structure]

    def value(self, expression: Expression) -> Value:
        if isinstance(expression, tuple) and expression[0] in ("/", "%"):
            inner = self.value(expression[1])
            return Value(16, inner.source)
        first, *path = str(expression).split(".")
        if first not in self.names:
            return Value(32, "")  # a part of a pattern: the number of an entry or a module, an age, a size
        structure, kind, source = self.names[first], "", []
        for step in path:
            found = structure.fields[step]
            kind = found.kind
            words = re.findall(r"^`((?:dw)?[A-Z]\w*)`", found.doc)
            if step not in ("fields", "entry", "index"):
                source += words
            structure = self.structures.get(kind, structure)
        bits = INDEX_BITS if path == ["index"] else int(kind[1:]) if kind[:1] == "u" and kind[1:].isdigit() else 0
        return Value(bits, ".".join(source))


def version(scope: Scope, expression: Expression) -> tuple[str, dict[str, Any], str]:
    """A version: numbers with points between them."""
    parts, sources = "", []
    for part in items(expression):
        if part == "point":
            parts += "\\."
            continue
        value = scope.value(part[2])
        parts += NUMBER % DIGITS[value.bits]
        if value.source not in sources:
            sources.append(value.source)
    short = [source.split(".")[-1] if at else source for at, source in enumerate(sources)]
    return "numbers with points", {"type": "string", "pattern": f"^{parts}$"}, ", ".join(short)


def part_forms(scope: Scope, member: tuple[Any, ...]) -> list[list[Key]]:
    """The members of a part, for each of its classes, by the clauses of `part_members`."""
    _, _, of, _, size, offset = member
    make = number if of == "of_number" else wide
    forms = []
    for clause in definitions(SPECS / "Json.antt")["part_members"].clauses:
        keys = []
        for one in items(clause.expression):
            name = text_of(one[2])
            if one[1] == "of_text":
                keys.append(Key(name, *constant(text_of(one[3]))))
            else:
                bits = scope.value(size if name == "size" else offset).bits
                keys.append(Key(name, *make(bits, 1 if name == "size" else 0)))
        forms.append(keys)
    return forms


def named(words: str, schema: dict[str, Any], source: str, name: str) -> list[Key]:
    """A text, and whether the text is not what was read."""
    return [Key(name, words, schema, source), replace(LOSSY, goes_with=name)]


def keyed(scope: Scope, structure: Structure | None, member: tuple[Any, ...]) -> list[Key]:
    """A member that is a key and tokens."""
    name, tokens = text_of(member[1][2]), member[2]
    first = tokens[1] if tokens[0] == "apply" else tokens[1][1] if isinstance(tokens[1], tuple) else tokens[1]
    if first == "name_value":
        long = {"type": "object", "properties": {"long": number(32)[1]}, "required": ["long"], "additionalProperties": False}
        schema = {"oneOf": [{"type": "null"}, {"type": "string"}, long]}
        source = structure.fields["name"].doc.split("`")[1] if structure else ""
        return named("[name](#names)", schema, source, name)
    if first == "text_or_null":
        of, schema = TEXTS[tokens[2][1]]
        return [Key(name, f"{of}, or null", {"oneOf": [{"type": "null"}, schema]})]
    if first == "bytes_value":
        return named("[bytes](#names)", {"type": "string"}, "", name)
    if first == "boolean":
        return [Key(name, "`true` or `false`", {"type": "boolean"})]
    if first == "begin_array":
        source = scope.value(items(tokens)[1][3]).source
        return [Key(name, "array of `0x` and 16 digits", {"type": "array", "items": hexadecimal(16)[1], "maxItems": 15}, source)]
    if first == "fault_value":
        return [Key(name, "null, or an [object](#errors-of-entries)", {"oneOf": [{"type": "null"}, fault_object().schema({})]})]
    raise Mistake(f"no member: {member!r}")


def told(scope: Scope, structure: Structure | None, member: tuple[Any, ...]) -> list[list[Key]]:
    """The forms of one member of a list of members: most have one form, of one key."""
    if member[0] == "∷":
        return [keyed(scope, structure, member)]
    head = member[1]
    if head == "part_members":
        return part_forms(scope, member)
    if head == "other_ids":
        clauses = definitions(SPECS / "JsonLines.antt")["other_ids"].clauses
        return [form for clause in clauses for form in object_of(scope, structure, clause.expression).variants]
    name = text_of(member[2])
    if head == "line_of":
        return [[Key("line", *constant(name))]]
    if head == "of_object":
        inner = object_of(scope, structure, member[3])
        parts = [one for one in items(member[3]) if one[1] == "part_members"]
        source = scope.value(parts[0][4].rpartition(".")[0]).source
        words = "[part](#parts)" if len(inner.variants[0]) == 1 else "`start`, `0x` and 16 digits, and a [part](#parts)"
        return [[Key(name, words, inner.schema({}), source)]]
    if head == "of_number":
        value = scope.value(member[3])
        return [[Key(name, *number(value.bits), value.source)]]
    if head == "of_wide":
        value = scope.value(member[3])
        return [[Key(name, *wide(value.bits), value.source)]]
    if head == "of_hex":
        return [[Key(name, *hexadecimal(int(member[3])), scope.value(member[4]).source)]]
    if head == "of_text":
        return [[of_text(scope, name, member[3])]]
    raise Mistake(f"no member: {member!r}")


def of_text(scope: Scope, name: str, expression: Expression) -> Key:
    if expression[0] == "text":
        return Key(name, *constant(text_of(expression)))
    head = expression[1]
    if head == "concat":
        return Key(name, *version(scope, expression[2]))
    if head == "guid_text":
        return Key(name, "GUID, digits of lower case", GUID)
    if head == "debug_id":
        return Key(name, "33 to 40 digits of upper case", DEBUG_ID)
    if head == "build_debug_id":
        return Key(name, "33 digits of upper case", DEBUG_ID)
    if head == "stamp_id":
        return Key(name, STAMP_WORDS, STAMP_ID)
    if head == "build_id_text":
        return Key(name, "at most 40 hexadecimal digits", BUILD_ID)
    if head == "digits_text":
        return Key(name, "8 hexadecimal digits", SIGNATURE)
    if head in WORDS:
        words = [clause.expression for clause in definitions(SPECS / WORDS[head])[head].clauses]
        return Key(name, "words", {"enum": [text_of(one) for one in words if one != "[]"]})
    raise Mistake(f"no text of {name}: {expression!r}")


def object_of(scope: Scope, structure: Structure | None, expression: Expression) -> Object:
    variants: list[list[Key]] = [[]]
    for member in items(expression):
        if isinstance(member, str):
            raise Mistake(f"no member: {member}")
        forms = told(scope, structure, member)
        variants = [[*before, *form] for before in variants for form in forms]
    return Object(variants)


def fault_object() -> Object:
    """The object of the fault of an entry, by the last clause of `fault_value`."""
    structures = all_structures()
    scope = Scope(structures, {"f": structures["ListFault"]})
    expression = definitions(SPECS / "JsonLines.antt")["fault_value"].clauses[-1].expression
    keys: list[Key] = []
    for member in items(expression[2]):
        if isinstance(member, str):
            raise Mistake(f"no member: {member}")
        if member[1] == "record_member":
            optional = items(definitions(SPECS / "JsonLines.antt")["record_member"].clauses[-1].expression)[0]
            keys.append(replace(Key(text_of(optional[2]), *wide(64)), is_required=False))
        else:
            keys += told(scope, None, member)[0]
    return Object([keys])


@dataclass
class Line:
    """A kind of line: its word, and what its object is."""

    name: str
    structure: Structure | None
    objects: Object = field(default_factory=lambda: Object([]))


def lines() -> list[Line]:
    structures = all_structures()
    made: dict[str, Line] = {}
    found_in = [definitions(SPECS / file) for file in ("JsonLines.antt", "PartLines.antt")]
    for name, definition in [pair for one in found_in for pair in one.items()]:
        if not name.endswith("_members"):
            continue
        structure = structures.get(definition.kind.split(" →")[0])
        for clause in definition.clauses:
            found = line_of_clause(structures, structure, clause)
            old = made.setdefault(found.name, found)
            if old is not found:
                old.objects = Object([*old.objects.variants, *found.objects.variants])
    return list(made.values())


def line_of_clause(structures: dict[str, Structure], structure: Structure | None, clause: Clause) -> Line:
    names = {clause.patterns: structure} if structure else {}
    made = object_of(Scope(structures, names), structure, clause.expression)
    return Line(made.variants[0][0].schema["const"], structure, made)
