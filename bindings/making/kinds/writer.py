"""What the proofs of mdmp_writer say of the streams of each kind: each is read of its block again."""

from __future__ import annotations

from lib.generated import Stretches

from ..spelling import snake
from .naming import proof_paths, stream_of
from .places import USE, line_each, put_modules, put_uses
from .table import Kind, Kinds

PROOFS = "crates/mdmp_writer/proofs"


def read_name(kind: Kind) -> str:
    """The proof that a stream of the kind is read again."""
    return f"{snake(kind.stream)}_read"


def put_writer(files: Stretches, kinds: Kinds) -> None:
    """All of it."""

    def known(kind: Kind) -> str:
        return f"  stream_known {stream_of(kind)} = tt"

    def is_read(kind: Kind) -> str:
        return f"  stream_read {stream_of(kind)} fits = {read_name(kind)} {'xs' if kind.is_list else 'x'} fits"

    start = "  stream_known streams.Unused = refl\n"
    files.put(f"{PROOFS}/Blocks.antt", start, "  stream_known (streams.Raw", line_each(kinds.by_type, known))
    put_modules(files, f"{PROOFS}/Forms.antt", kinds.by_type)
    name, start = f"{PROOFS}/Streams.antt", "  stream_read streams.Unused fits = unused_read\n"
    files.put(name, start, "  stream_read (streams.Raw", line_each(kinds.by_type, is_read))
    proofs = proof_paths(kinds.by_type, "mdmp_writer.proofs.Forms", read_name)
    put_uses(files, name, f"{USE}mdmp_writer.proofs.Placing.{{length-padding}}", "\nmodule _", proofs)
