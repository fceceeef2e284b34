"""What scripts share that read lines of JSON: names as Python decodes them, and lines with one change."""

from __future__ import annotations

import json
from collections.abc import Callable, Iterable, Iterator
from typing import Any

# The keys and the numbers that lead to a value.
Keys = tuple[str | int, ...]


def decoded(text: bytes, encoding: str) -> tuple[str, bool]:
    """The text of these bytes, and whether it has U+FFFD in the place of bytes that are no text."""
    try:
        return text.decode(encoding), False
    except UnicodeDecodeError:
        return text.decode(encoding, "replace"), True


def object_of(line: str) -> Any:
    """The value of a line of JSON. A ValueError, if it is not JSON, has a key twice, or a number with a sign."""
    return json.loads(line, object_pairs_hook=unique, parse_int=natural)


def unique(members: list[tuple[str, Any]]) -> dict[str, Any]:
    made = dict(members)
    if len(made) != len(members):
        raise ValueError("a key stands there twice")
    return made


def natural(digits: str) -> int:
    if digits.startswith("-"):
        raise ValueError("a number has a sign")
    return int(digits)


def nodes(value: Any, keys: Keys = ()) -> Iterator[tuple[Keys, Any]]:
    """Each key of an object with its value, those of inner objects too."""
    inner: Any = value.items() if isinstance(value, dict) else enumerate(value) if isinstance(value, list) else ()
    for key, one in inner:
        yield (*keys, key), one
        yield from nodes(one, (*keys, key))


def one_of_each(values: Iterable[dict[str, Any]]) -> list[dict[str, Any]]:
    """An object of each set of keys, types and classes."""
    found: dict[Any, dict[str, Any]] = {}
    for value in values:
        shape = tuple((keys, type(one), one if keys[-1] in ("line", "class", "kind") else "") for keys, one in nodes(value))
        found.setdefault(shape, value)
    return list(found.values())


def changes(value: dict[str, Any]) -> Iterator[tuple[str, Keys, dict[str, Any]]]:
    """The object with one key, one value or one type changed, in each place: what is changed, where, and the object."""
    for keys, one in nodes(value):
        if isinstance(keys[-1], str):
            yield "the key", keys, with_change(value, keys, renamed)
            yield "no key", keys, with_change(value, keys, lambda inside, key: inside.pop(key))
        if isinstance(one, str):
            yield "the value", keys, with_change(value, keys, set_to(one + "x"))
            if one:
                yield "an empty value", keys, with_change(value, keys, set_to(""))
        if isinstance(one, int) and not isinstance(one, bool):
            yield "a value below 0", keys, with_change(value, keys, set_to(-1))
            yield "a greater value", keys, with_change(value, keys, set_to(2**32))
        if isinstance(one, dict):
            yield "a key more", (*keys, "more"), with_change(value, (*keys, "more"), set_to(1))
        yield "the type", keys, with_change(value, keys, set_to(other_type(one)))
        yield "an array", keys, with_change(value, keys, set_to([[]]))
    yield "a key more", ("more",), {**value, "more": 1}


def with_change(value: dict[str, Any], keys: Keys, change: Callable[[Any, Any], Any]) -> dict[str, Any]:
    made: dict[str, Any] = json.loads(json.dumps(value))
    inside: Any = made
    for step in keys[:-1]:
        inside = inside[step]
    change(inside, keys[-1])
    return made


def renamed(inside: dict[str, Any], key: str) -> None:
    inside[key + "x"] = inside.pop(key)


def set_to(value: Any) -> Callable[[Any, Any], Any]:
    def change(inside: Any, key: Any) -> None:
        inside[key] = value

    return change


def other_type(value: Any) -> Any:
    if isinstance(value, bool):
        return "true" if value else 0
    if isinstance(value, int):
        return str(value)
    return 1
