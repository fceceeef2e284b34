"""The values that records are read into: a file of mdmp_dump for each kind, its definitions, its proofs, and its hints for the prover."""

from __future__ import annotations

from . import forms, proof_hints, value_proofs, value_source, value_specs
from .members import shapes_of
from .table import Kinds

CRATE, WRITER = "crates/mdmp_dump", "crates/mdmp_writer"


def crate_files(kinds: Kinds) -> dict[str, str]:
    """The text of each file that is made."""
    shapes = shapes_of(kinds)
    files = {f"{CRATE}/src/proof_hints/values.rt": proof_hints.hints_text(shapes)}
    for shape in shapes:
        files[f"{CRATE}/src/{shape.name}.rt"] = value_source.source_text(shape)
        files[f"{CRATE}/specs/{shape.camel}.antt"] = value_specs.definitions_text(shape)
        if shape.kind.value:
            files[f"{CRATE}/proofs/Unique/{shape.camel}.antt"] = value_proofs.unique_text(shape)
            files[f"{CRATE}/proofs/Within/{shape.camel}.antt"] = value_proofs.within_text(shape)
            files[f"{CRATE}/proofs/{shape.name}/{shape.value}Row/of/Answers.antt"] = value_proofs.answers_text(shape)
        if forms.is_made(shape):
            files[f"{WRITER}/proofs/Forms/{shape.camel}.antt"] = forms.proof_text(shape)
    return files
