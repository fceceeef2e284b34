"""Small dumps of a crash, for each processor and platform: the corpus of tests/fuzz is made of them too."""

from __future__ import annotations

from collections.abc import Iterator

from .minidumps import File, counted, exception, module, system, thread_name

ARCHITECTURES = (0, 5, 9, 10, 12, 0x8003, 77)
# A platform, and the codes of its two exceptions: mostly one that is passed over, and one that is a crash.
PLATFORMS = (
    (2, (0x80000003, 0xC0000005)),
    (2, (0x80000004, 0x80000003)),
    (3, (0xC0000006, 0xC0000005)),
    (0x8201, (19, 11)),
    (0x8201, (0xFFFFFFFF, 28)),
    (0x8203, (7, 4)),
    (0x8101, (1, 2)),
    (0x8102, (6, 1)),
    (0x8202, (1, 1)),
)
CONTEXT = bytes(range(16, 256)) + bytes(range(64))


def crash(architecture: int, platform: int, codes: tuple[int, int], access: int, length: int) -> bytes:
    """A system, two modules, the name of a thread, and two exceptions with a context of this length."""
    file = File(3 + len(codes))
    name = file.name("a\U0001F600.dll")
    context = file.placed(CONTEXT[:length])
    address = int.from_bytes(CONTEXT[248:256], "little")
    modules = [module(address - 16, access * 8 + 4, name=name), module(address - 64, 8, 1, 2, name)]
    file.stream(7, system(architecture, platform_id=platform))
    file.stream(4, counted(modules))
    file.stream(24, counted([thread_name(8, name), thread_name(7, name)]))
    for code in codes:
        record = exception(7, 0, code, 1, 0, address, access % 3 + 1, 0, [access, 0x1234, 3], context)
        file.stream(6, record)
    return file.bytes()


def crash_dumps() -> Iterator[bytes]:
    """A dump for each processor, platform and access."""
    for architecture in ARCHITECTURES:
        for platform, codes in PLATFORMS:
            for access, length in ((0, 304), (1, 272), (8, 256), (2, 100)):
                yield crash(architecture, platform, codes, access, length)
