"""Stretches of man/mdmp.3: the calls with their arguments, and the names of those that give records."""

from __future__ import annotations

from lib.generated import Stretches

from .header import parameters
from .interface import Call, Interface

PAGE = "man/mdmp.3"


def call_text(call: Call) -> str:
    words = [word for argument in call.arguments for word in parameters(argument)]
    if not words:
        return f".Ft uint32_t\n.Fn {call.name} void\n"
    return f".Ft uint32_t\n.Fo {call.name}\n" + "".join(f'.Fa "{word}"\n' for word in words) + ".Fc\n"


def put_manual(files: Stretches, interface: Interface) -> None:
    files.put(PAGE, ".In mdmp.h\n", ".Sh", "".join(map(call_text, interface.calls)))
    tables = " , ".join(f"Fn {table.call}" for _, table in interface.tables)
    files.put(PAGE, "writes it.\n.It ", "\nReturn the records of one kind", tables)
