"""The answers of the functions of mdmp_dump that go by the records of a stream: those with the macro by_records."""

from __future__ import annotations

from collections.abc import Callable
from dataclasses import dataclass

from lib.generated import Stretches

from .dump_proofs import PROOFS
from .table import Kind, Kinds


@dataclass(frozen=True)
class Case:
    """The arm of a kind. The macro has those of lists first."""

    kind: Kind
    end: str  # of the goals of what it calls: none in the first arm of a list, and the first of a single record

    @property
    def is_kind(self) -> str:
        return f"c.in-{self.kind.stream}.is"

    @property
    def records(self) -> str:
        return f"c.as_slice-records{self.end}.ensures"

    @property
    def length(self) -> str:
        return f"length-map c.in-{self.kind.stream}.list"

    def returned(self, proof: str) -> str:
        return f"\npub returns-in-{self.kind.stream} : goal.returns-in-{self.kind.stream}\nreturns-in-{self.kind.stream} g c = {proof}\n"


def cases_of(kinds: list[Kind]) -> list[Case]:
    """The arms of lists, or of single records."""
    return [Case(kind, "" if kind is kinds[0] else f"-in-{kind.stream}") for kind in kinds]


def fit(case: Case) -> str:
    """That the numbers of a stream fit."""
    if case.kind.is_list:
        return case.returned(f"rw ({case.is_kind}, ← {case.records}) c.all_fit{case.end}.ensures")
    return case.returned(f"rw {case.is_kind} c.fits{case.end}.ensures")


def parts_size(case: Case) -> str:
    """The size of its parts."""
    if case.kind.is_list:
        told = f"rw (c.is_memory64{case.end}.ensures, {case.records}) at c.all_taken{case.end}.ensures"
    else:
        told = f"rw c.is_memory64-in-{case.kind.stream}.ensures at c.one_taken{case.end}.ensures"
    return case.returned(f"rw {case.is_kind} ({told})")


def record_count(case: Case) -> str:
    """How many records it has."""
    if case.kind.is_list:
        return case.returned(f"rw ({case.is_kind}, {case.records}) (sym ({case.length} _))")
    return case.returned(f"rw {case.is_kind} refl")


def of_record(call: str) -> Callable[[Case], str]:
    """What this call tells of a record, in an arm."""

    def told(case: Case) -> str:
        if not case.kind.is_list:
            first = f"let first : c.args.index ≡ 0 = omega (arith, rw {case.is_kind} at c.requires) in"
            return case.returned(f"{first} rw ({case.is_kind}, first) c.{call}{case.end}.ensures")
        goal = f"{call}_at-requires{case.end}"
        within = f"rw {case.records} (rw ({case.is_kind}, {case.length}) at c.requires)"
        required = f"\npub {goal} : goal.{goal}\n{goal} g c = {within}\n"
        return required + case.returned(f"rw {case.is_kind} (rw {case.records} at c.{call}_at{case.end}.ensures)")

    return told


def put_cases(files: Stretches, kinds: Kinds) -> None:
    """All of them."""
    functions = {
        "proof_hints/StreamFitting/fits": fit,
        "value_view/parts_size": parts_size,
        "value_view/record_count": record_count,
        "value_view/record_fields": of_record("fields"),
        "value_view/record_part": of_record("part"),
    }
    cases = cases_of(kinds.lists) + cases_of(kinds.singles)
    for name, told in functions.items():
        files.put(f"{PROOFS}/{name}/Answers.antt", ".Goals as goal\n", "", "".join(map(told, cases)))
