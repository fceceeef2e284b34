"""The numbers of the kinds of faults, and of the parts of records, as constants of Rattle."""

from __future__ import annotations

from .interface import MADE, Enum, Interface

# The enums, and what their constants begin with there.
ENUMS = {"mdmp_fault_kind": "MDMP_FAULT_", "mdmp_part": "MDMP_"}


def constants_of(enum: Enum, prefix: str) -> str:
    return "".join(
        f"\npub(crate) const {name.removeprefix(prefix)}: u32 = {number};\n" for name, number, _ in enum.values if number != 0
    )


def numbers_text(interface: Interface) -> str:
    """The text of the file that has these constants."""
    head = (
        "//! The numbers of the kinds of faults, and of the parts of records. include/mdmp.h says what each means.\n"
        f"// {MADE}\n"
    )
    return head + "".join(constants_of(interface.enums[name], prefix) for name, prefix in ENUMS.items())
