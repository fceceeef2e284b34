"""How names are spelled, in code, in definitions and in sentences."""

from __future__ import annotations

import re

# The words that antt reserves, and those of `if◌then◌else◌`. As names they stand between « and ».
RESERVED = frozenset(
    "data record deriving module where use mod pub package open as unfoldable abbrev axiom unfold unfolding ruleset mutual infix".split()
    + "infixl infixr elim let in do Type coe fcoe tcoe hcom com if then else".split()
)


def camel(name: str) -> str:
    """The name of a module, or of a structure of the header, as a type or a file of definitions has it."""
    return "".join(word.capitalize() for word in name.removeprefix("mdmp_").split("_"))


def snake(name: str) -> str:
    """The name of a type, as a function has it."""
    return re.sub(r"(?<=[a-z0-9])(?=[A-Z])", "_", name).lower()


def marked(name: str) -> str:
    """A name in a definition or a proof. Behind a dot it needs no mark."""
    return f"«{name}»" if name in RESERVED else name


def joined(words: list[str]) -> str:
    """Words of a sentence: `a, b and c`."""
    return " and ".join([", ".join(words[:-1]), words[-1]] if words[1:] else words)


def uncapitalized(text: str) -> str:
    """A sentence inside another."""
    return text[0].lower() + text[1:]


def with_article(article: str, text: str) -> str:
    """A sentence that begins with another article than its own."""
    return re.sub("^(A|An|The) ", f"{article} ", text)
