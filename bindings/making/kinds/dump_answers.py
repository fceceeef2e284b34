"""The answers of the proof that a stream of each kind is read: those of the arms of `read_stream` in mdmp_dump."""

from __future__ import annotations

from dataclasses import dataclass

from lib.generated import Stretches

from .naming import is_name, record_path, records_name, value_paths
from .places import put_all_uses
from .table import Kind, Kinds

ANSWERS = "crates/mdmp_dump/proofs/read/read_stream/Answers.antt"
READS = "reads_any _ _ _ _ _ (reads_done [] _ _ _ _ _"


@dataclass(frozen=True)
class Arm:
    """The arm of a kind."""

    kind: Kind
    is_first: bool  # that calls what it does: goals of later ones have the type in their names

    @property
    def call(self) -> str:
        return self.named("rows" if self.kind.is_list else "single")

    @property
    def done(self) -> str:
        return f"in_ok-{records_name(self.kind)}-in-{self.kind.type}"

    @property
    def refused(self) -> str:
        return f"in_err-{records_name(self.kind)}-in-{self.kind.type}"

    @property
    def fault(self) -> str:
        return f"    let fault = c.{self.refused}.field-0.0 in\n"

    @property
    def refused_by(self) -> str:
        residual = f"c.from_residual-{self.refused}"
        return f"refused_by {residual}.result fault {residual}.ensures.1"

    def named(self, call: str) -> str:
        return call if self.is_first else f"{call}-in-{self.kind.type}"


def arms_of(kinds: list[Kind]) -> list[Arm]:
    """The arms of lists, or of single records."""
    return [Arm(kind, kind is kinds[0]) for kind in kinds]


def answer(name: str, proof: str) -> str:
    """The answer to a goal: a proof on its line, or on lines below."""
    return f"pub {name} : goal.{name}\n{name} g c ={proof}\n"


def returned(case: str, clause: str, proof: str) -> str:
    """The answer that what an arm returns keeps to a clause."""
    return answer(f"returns-{case}-clause-{clause}", proof)


# ---- the clause of_file


def reads_of(arm: Arm) -> str:
    """What an arm reads, for the laws of all arms."""
    kind = arm.kind
    given = f"c.args.reader.now c.{arm.call}.new.self c.args.item {kind.type} c.in-{kind.type}.is"
    return f"{given} (λ size e at. refl) kinds.{kind.stream} refl\n    {has_records(kind)}"


def has_records(kind: Kind) -> str:
    """What it has read."""
    place = f"({is_name(kind)} F at.rva)" if kind.is_behind else f"(λ k. {is_name(kind)} F)"
    place = place if kind.value else f"(λ k o row. {kind.module}_at F o ≡ row)"
    has = f"HasRecords F at kinds.{kind.stream} {place}"
    return f"(λ F at. {has})" if kind.is_list else f"(λ F at row. (one : _) × ((row ≡ Some one) × {has} (one ∷ [])))"


def single_of_file(kind: Kind, of_file: str) -> str:
    """The clause of the call that reads a single record."""
    taken = "F limit x xs known left kind current"
    return f"(λ {taken}. {of_file} {taken} (one_single F x kinds.{kind.stream} refl))"


def list_read(arm: Arm) -> str:
    stream, records = arm.kind.stream, f"r.{records_name(arm.kind)}"
    stands = f"(streams.{stream} {records}, (refl, record {{ type_is = type; stands = has }}))"
    proof = (
        f"\n    let r = c.{arm.done} in\n"
        f"    stream_read {reads_of(arm)} {records} _ r.next (λ F e type has. {stands})\n"
        "    r.ensures.of_file"
    )
    return returned(arm.done, "of_file", proof)


def list_refused(arm: Arm) -> str:
    proof = (
        f"\n{arm.fault}"
        f"    rw ({arm.refused_by})\n"
        f"    (stream_refused {reads_of(arm)} fault c.{arm.refused}.ensures.of_file)"
    )
    return returned(arm.refused, "of_file", proof)


def single_read(arm: Arm) -> str:
    stream, mapped = f"streams.{arm.kind.stream} has.0", f"c.{arm.named('map')}"
    proof = (
        f"\n    let r = c.{arm.done} in\n"
        f"    stream_read {reads_of(arm)} r.{records_name(arm.kind)} _ r.next\n"
        "    (λ F e type has.\n"
        f"    let cases = rw has.1.0 at {mapped}.ensures.cases in\n"
        f"    let same : {mapped}.result ≡ Some ({stream}) = search rules in\n"
        f"    ({stream}, (same, record {{ type_is = type; stands = has.1.1 }})))\n"
        f"    {single_of_file(arm.kind, 'r.ensures.of_file')}"
    )
    return returned(arm.done, "of_file", proof)


def single_refused(arm: Arm) -> str:
    proof = (
        f"\n{arm.fault}"
        f"    let is = {arm.refused_by} in\n"
        f"    rw is (stream_refused {reads_of(arm)} fault\n"
        f"    {single_of_file(arm.kind, f'c.{arm.refused}.ensures.of_file')})"
    )
    return returned(arm.refused, "of_file", proof)


# ---- the other clauses


def fetched(arm: Arm) -> list[str]:
    """What was fetched, and that the reader goes on."""
    sources = f"c.args.reader.now.lister.source c.{arm.call}.new.self.lister.source"
    refused = f"\n{arm.fault}    rw ({arm.refused_by}) (Fetches_as fault {sources} c.{arm.refused}.ensures.step.fetches)"
    residual = f"c.from_residual-{arm.refused}"
    return [
        returned(arm.refused, "fetches", refused),
        returned(arm.refused, "going", f" IfOk-from_err {residual}.result _ {residual}.ensures.0"),
        returned(arm.done, "fetches", f" Fetches_only _ {sources} c.{arm.done}.ensures.step.fetches.fetches"),
        returned(arm.done, "going", f" c.{arm.done}.ensures.step.going"),
    ]


def kept(arm: Arm) -> list[str]:
    refused = f"\n{arm.fault}    rw ({arm.refused_by}) (keeps_any _ fault c.args.reader.now _ c.{arm.refused}.ensures.step.keeps)"
    return [returned(arm.refused, "keeps", refused), returned(arm.done, "keeps", f" c.{arm.done}.ensures.step.keeps")]


def turn_refused(arm: Arm) -> str:
    reads = f"(reads_any _ [] _ _ _ (reads_as [] fault _ _ c.{arm.refused}.ensures.step.reads))"
    return returned(arm.refused, "reads", f"\n{arm.fault}    rw ({arm.refused_by}) {reads}")


def turn_done(arm: Arm) -> str:
    return returned(arm.done, "reads", f" {READS} c.{arm.done}.ensures.step.reads)")


# ---- all of them


def put_answers(files: Stretches, kinds: Kinds) -> None:
    """The answers of the arms, each behind that of the arm of an unused entry."""
    lists, singles = arms_of(kinds.lists), arms_of(kinds.singles)
    arms = sorted(lists + singles, key=lambda arm: arm.kind.type)
    with_values, bare = [arm for arm in lists if arm.kind.value], [arm for arm in lists if not arm.kind.value]
    put_definitions(files, kinds)
    read = [list_read(arm) for arm in with_values] + [make(arm) for arm in singles for make in (single_read, single_refused)]
    put_between(files, "read_stream.Goals as goal\n", "pub returns-in_ok-next-in-0-clause-of_file", read)
    going = "c.in_ok-next-in-0.ensures.going\n"
    told = [one for arm in arms for one in fetched(arm)] + [list_refused(arm) for arm in with_values]
    put_between(files, going, "pub behind-requires", told)
    required = [answer(requires(arm), " c.requires") for arm in lists + singles]
    put_between(files, "\nbehind-requires g c = c.requires\n", "pub read_raw-requires", required)
    read = [make(arm) for arm in bare for make in (list_read, list_refused)]
    put_between(files, "read_raw-requires g c = c.requires\n", "pub returns-in_err-next-in-0-clause-keeps", read)
    keeps = [one for arm in arms for one in kept(arm)]
    put_between(files, " = c.in_ok-next-in-0.ensures.keeps\n", "pub returns-in_err-next-in-0-clause-reads", keeps)
    refused = [turn_refused(arm) for arm in arms]
    put_between(files, "c.in_err-next-in-0.ensures.reads))\n", "pub returns-in_ok-next-in-0-clause-reads", refused)
    put_between(files, f"{READS} c.in_ok-next-in-0.ensures.reads)\n", "", [turn_done(arm) for arm in arms])


def requires(arm: Arm) -> str:
    """The goal that a call may be made."""
    return arm.named(f"{'rows' if arm.kind.is_list else 'single'}-requires")


def put_between(files: Stretches, before: str, after: str, answers: list[str]) -> None:
    """Puts answers between two others, with a blank line before each."""
    files.put(ANSWERS, before, after, "".join(f"\n{one}" for one in answers) + ("\n" if after else ""))


def put_definitions(files: Stretches, kinds: Kinds) -> None:
    """Where the definitions are: of lists, and then of single records."""
    start, end = "use Rattle.mdmp_dump.specs.LaysOut.{HasRecords}\n", "use Rattle.mdmp_dump.proofs.Streams."
    some = [[kind for kind in one if kind.value] for one in (kinds.lists, kinds.singles)]
    paths = [path for one in some for path in sorted(value_paths(one, is_name))]
    put_all_uses(files, ANSWERS, start, end, paths)
    records = sorted(record_path(kind, "at") for kind in kinds.without_values)
    put_all_uses(files, ANSWERS, "Stream.TheVariants as streams\n", start, records)
