"""The small files that the command lines of tests/command_lines read."""

from __future__ import annotations

from .minidumps import codeview, header, numbers, string, system, units


def dump(streams: int, *after: int, directory: int = 32) -> bytes:
    """A header that counts so many streams, and numbers of four bytes after it: first those of the directory."""
    return header(streams, directory) + numbers(*after)


def module(size: int, record: bytes) -> bytes:
    """A module whose CodeView record has this size, and these bytes after it, at 156."""
    return dump(1, 4, 112, 44, 1, *[0] * 19, size, 156, *[0] * 6) + record


def rsds(age: int, name: bytes) -> bytes:
    """A CodeView record of the kind RSDS."""
    return codeview(bytes.fromhex("33221100554477668899aabbccddeeff"), age, name + b"\0")


def name(*given: int) -> bytes:
    """A name of these units after its length."""
    return string(units(*given))


# A system, with the name of its service pack at 100.
SYSTEM = dump(1, 7, 56, 44) + system(9, 6, 3, 4, 1, 6, 1, 7601, 2, 100, 256)
SYSTEM += name(*b"Service Pack 1") + bytes(4)

# The parts of a crash: the thread up to the size of its stack, its stack and its context, the exception up to the
# size of its context, and its context.
THREAD = [1, 7, 0, 32, 0, 0x5000, 0, 0x7000, 0, 4]
PARTS = [0x4B415453, 0x04030201, 0x0605]
EXCEPTION = [7, 0, 0xC0000005, 0, 0, 0, 0x401000, 0, 2, 0, 1, 0, 16, 0, *[0] * 26, 4]
REGISTERS = 0xDDCCBBAA

# Six names. The first has a quote, a backslash and controls. Then come halves of surrogates, a pair and U+2028; U+FFFD
# and the first and last units of the ranges that are escaped; halves before and after a pair; nothing; and 14 bytes.
NAMES = [
    name(0x22, 0x5C, 0x01, 0x0A),
    name(0xD800, 0x61, 0xDC00, 0xD83D, 0xDE00, 0x2028),
    name(0xFFFD, 0x7F, 0x1F, 0x80),
    name(0xD83D, 0xD83D, 0xDE00, 0xD83D),
    name(),
    name(*[0] * 7) + bytes(2),
]
# A thread of each name: its number, and where its name is.
THREADS = [1, 132, 0, 2, 144, 0, 3, 160, 0, 4, 172, 0, 5, 184, 0, 6, 188, 0, 7, 0, 0]

SMALL_DUMPS = {
    "system.dmp": SYSTEM,
    # The system without its last bytes.
    "cut.dmp": SYSTEM[:99],
    "short.dmp": bytes(31),
    # Headers without streams.
    "empty.dmp": dump(0, directory=0xFFFFFFFF),
    "header.dmp": dump(0),
    "unknown.dmp": dump(0, directory=0),
    # A system, a module whose name lies outside the file, and a comment that does.
    "faulty.dmp": dump(3, 7, 56, 68, 4, 112, 124, 10, 5, 236, *[0] * 14, 1, *[0] * 5, 0xFFFFFFFF, *[0] * 21),
    # 64-bit memory: two ranges, the second outside the file; and one that reaches past the last address.
    "wide.dmp": dump(1, 9, 48, 44, 2, 0, 92, 0, 0x1000, 0, 4, 0, 0x2000, 0, 4, 0) + b"ABCDEF",
    "last.dmp": dump(1, 9, 32, 44, 1, 0, 76, 0, 0xFFFFFFF8, 0xFFFFFFFF, 16, 0) + bytes(range(16)),
    # A memory list of two ranges that counts three.
    "count.dmp": dump(1, 5, 36, 44, 3, 0x1000, 0, 4, 80, 0x1002, 0, 4, 84) + b"ABCDwxyz",
    # A list of one thread that is a byte too short.
    "threads.dmp": dump(1, 3, 51, 44, 1, *[0] * 12),
    "module.dmp": module(30, rsds(1, b"a.pdb")),
    # CodeView records: a name that is no UTF-8, one of PDB 2.0, and a part of one.
    "lossy.dmp": module(30, rsds(0xABCDEF, b'"\xffa\xe2\x82')),
    "other.dmp": module(16, b"NB10" + numbers(0, 0x0A5B7C9D, 0x1F)),
    "brief.dmp": module(3, b"RSD"),
    # A module with a size, a time and a version of its product, and a build id that is a byte too long.
    "build.dmp": dump(1, 4, 112, 44, 1, 0, 0, 0x1A000, 0, 0x5F3759DF, *[0] * 5, 0xA0001, 0x4A610002, *[0] * 7, 25, 156, *[0] * 6)
    + b"LEpB"
    + bytes(range(1, 22)),
    "names.dmp": dump(1, 24, 88, 44, 7, *THREADS) + b"".join(NAMES),
    # A system with its name, a crash, no modules, no ranges of memory, and a stream of four bytes.
    "six.dmp": dump(6, 7, 56, 104, 3, 52, 196, 4, 4, 260, 6, 168, 264, 5, 4, 436, 12, 4, 440)
    + system(9, 6, 3, 4, 1, 6, 1, 7601, 2, 160, 256)
    + name(*b"Service Pack 1")
    + bytes(4)
    + numbers(*THREAD, 248, 6, 252, *PARTS, 0)
    + numbers(*EXCEPTION, 432, REGISTERS, 0, 0x04030201),
    # The crash alone, as it is copied.
    "crash.dmp": dump(2, 3, 52, 56, 6, 168, 120, *THREAD, 108, 6, 112, *PARTS, *EXCEPTION, 288, REGISTERS),
    "there.dmp": b"there",
}
