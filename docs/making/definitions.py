"""Reads definitions of crates/*/specs: an expression is a nested tuple.

Only what these pages need is read: applications, numbers, texts, `∷`, `++`, sums, quotients and records of fields.
"""

from __future__ import annotations

import re
from dataclasses import dataclass
from pathlib import Path
from typing import Any

from lib.generated import Mistake

ROOT = Path(__file__).resolve().parent.parent.parent
CRATES = ROOT / "crates"

# An expression: a name or a number, or ("text", ..), ("apply", head, ..), or (operator, left, right).
Expression = str | tuple[Any, ...]

TOKEN = re.compile(r'\s+|(?P<text>"(?:[^"\\]|\\.)*")|(?P<word>[\w.⟦⟧-]*[\w])|(?P<sign>\[\]|\+\+|[∷()+*/%-])')
OPERATORS = {"∷": 1, "++": 1, "+": 2, "-": 2, "*": 3, "/": 3, "%": 3}
ESCAPES = {"\\n": "\n", '\\"': '"', "\\\\": "\\"}


def found(pattern: str, text: str, what: str) -> re.Match[str]:
    """Where a pattern fits first. If it does not, this is missing."""
    match = re.search(pattern, text, re.M)
    if match is None:
        raise Mistake(f"there is no {what}")
    return match


def tokens(text: str) -> list[str]:
    made, at = [], 0
    while at < len(text):
        match = TOKEN.match(text, at)
        if not match:
            raise Mistake(f"no expression: {text[at:at + 40]!r}")
        if match.lastgroup:
            made.append(match[0])
        at = match.end()
    return made


class Parser:
    """A list of tokens, read from the left."""

    def __init__(self, text: str) -> None:
        self.tokens = tokens(text)
        self.at = 0

    def peek(self) -> str:
        return self.tokens[self.at] if self.at < len(self.tokens) else ""

    def take(self) -> str:
        token = self.peek()
        self.at += 1
        return token

    def atom(self) -> Expression:
        token = self.take()
        if token == "(":
            inner = self.operation(1)
            if self.take() != ")":
                raise Mistake(f"a parenthesis is not closed in {' '.join(self.tokens)[:60]!r}")
            return inner
        if token.startswith('"'):
            return ("text", re.sub(r"\\.", lambda part: ESCAPES[part[0]], token[1:-1]))
        return token

    def application(self) -> Expression:
        parts = [self.atom()]
        while self.peek() and self.peek() not in OPERATORS and self.peek() != ")":
            parts.append(self.atom())
        if parts[0] == "codes":
            return parts[1]
        return parts[0] if len(parts) == 1 else ("apply", *parts)

    def operation(self, level: int) -> Expression:
        if level > 3:
            return self.application()
        left = self.operation(level + 1)
        while OPERATORS.get(self.peek()) == level:
            sign = self.take()
            # A list is built from the right, and a sum from the left.
            left = (sign, left, self.operation(level if level == 1 else level + 1))
        return left


def parse(text: str) -> Expression:
    parser = Parser(text)
    made = parser.operation(1)
    if parser.peek():
        raise Mistake(f"behind an expression: {parser.peek()!r}")
    return made


@dataclass(frozen=True)
class Clause:
    """One equation of a definition: what its arguments look like, and its body."""

    patterns: str
    body: str

    @property
    def expression(self) -> Expression:
        return parse(self.body)


@dataclass(frozen=True)
class Definition:
    name: str
    kind: str  # its type, as it stands there
    clauses: list[Clause]


def definitions(path: Path) -> dict[str, Definition]:
    """The definitions of a file, by their names."""
    lines = [line for line in path.read_text(encoding="utf-8").split("\n") if not line.strip().startswith("--")]
    text = "\n".join(lines)
    made = {}
    for name, kind, rest in re.findall(r"^(?:abbrev|unfoldable) (?:pub )?([\w-]+) : (.*)\n((?:.+\n)+)", text, re.M):
        parts = re.split(rf"^{re.escape(name)}(?= |$)", rest, flags=re.M)[1:]
        clauses = []
        for part in parts:
            patterns, _, body = part.partition("=")
            clauses.append(Clause(patterns.strip(), body.strip()))
        made[name] = Definition(name, kind, clauses)
    return made


def items(expression: Expression) -> list[Expression]:
    """The members of a list that is built by `∷` and `++`."""
    if expression == "[]":
        return []
    if isinstance(expression, tuple) and expression[0] == "∷":
        return [expression[1], *items(expression[2])]
    if isinstance(expression, tuple) and expression[0] == "++":
        return [*items(expression[1]), *items(expression[2])]
    return [expression]


def text_of(expression: Expression) -> str:
    """The text that an expression is."""
    if isinstance(expression, tuple) and expression[0] == "text":
        return str(expression[1])
    raise Mistake(f"no text: {expression!r}")
