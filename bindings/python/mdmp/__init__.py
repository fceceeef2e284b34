"""Windows minidump files, read by a proved library.

>>> import mdmp
>>> with mdmp.open("crashpad-one.dmp") as dump:
...     for exception in dump.exceptions:
...         print(hex(exception.exception_code), "in thread", exception.thread_id)
...     for module in dump.modules:
...         print(hex(module.base_of_image), module.name)
0xb in thread 22570
0x55c6e269d000 /usr/sample/cpad
0x7fcaa7954000 linux-vdso.so.1
0x7fcaa775e000 libc.so.6
0x7fcaa7956000 ld-linux-x86-64.so.2

`open` maps a file, and `Dump` takes its bytes. An error in the file raises `Fault`, and its `partial` has what precedes
the error. A dump begins with the limits for files from strangers, `Limits.untrusted()`. If a limit is reached,
`LimitReached` is raised; `limits=None` lifts all limits. Wrong limits or types raise ValueError. If memory runs out,
MemoryError is raised. `python -m mdmp` has the commands of `mdmp`, with the limits of `--untrusted`.
"""

from ._buffer import Bytes
from ._dump import Dump, Where, open
from ._fault import Fault, LimitReached, OutputLimit
from ._ids import ModuleIds
from ._library import library as _library
from ._limits import Limits
from ._memory import Cells, Memory
from ._parts import SymbolFile, Version
from ._records import (
    Access,
    Counts,
    ExceptionRecord,
    Extent,
    FaultKind,
    Header,
    IdKind,
    Module,
    NamePlace,
    NameState,
    Part,
    Place,
    Range,
    Region,
    Registers,
    Status,
    Stream,
    SummaryModule,
    SymbolKind,
    System,
    Thread,
    ThreadName,
    UnloadedModule,
)
from ._summary import Crash, PlaceInModule, Reached, Summary, SummarySystem

__all__ = [
    "Access",
    "Bytes",
    "Cells",
    "Counts",
    "Crash",
    "Dump",
    "ExceptionRecord",
    "Extent",
    "Fault",
    "FaultKind",
    "Header",
    "IdKind",
    "LimitReached",
    "Limits",
    "Memory",
    "Module",
    "ModuleIds",
    "NamePlace",
    "NameState",
    "OutputLimit",
    "Part",
    "Place",
    "PlaceInModule",
    "Range",
    "Reached",
    "Region",
    "Registers",
    "Status",
    "Stream",
    "Summary",
    "SummaryModule",
    "SummarySystem",
    "SymbolFile",
    "SymbolKind",
    "System",
    "Thread",
    "ThreadName",
    "UnloadedModule",
    "Version",
    "Where",
    "__version__",
    "open",
]

_number = int(_library.mdmp_version())
__version__ = f"{_number >> 16}.{_number >> 8 & 0xFF}.{_number & 0xFF}"
