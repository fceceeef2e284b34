"""What the benchmarks share: the program, the dumps that they make, times, and what a process holds and asks of the system."""

import os
import subprocess
import sys
import time

ROOT = os.path.dirname(os.path.dirname(os.path.abspath(__file__)))
sys.path.insert(1, os.path.join(ROOT, "tests"))
from lib import needs  # noqa: E402
from lib.minidumps import FRONT_SIZE, MEMORY, MEMORY64, RANGE_SIZE, REGIONS  # noqa: E402
from lib.minidumps import counted, file_of_modules, front, memory64, memory_range, region, regions, utf16  # noqa: E402
from lib.needs import first_word, need as need, stop as stop  # noqa: E402

RUNS = 9
MIB = 1 << 20
STRACE = "/usr/bin/strace"
TIME = "/usr/bin/time"
MOST_OF_CAT = 1.2  # of the time of cat that a copy takes
MOST_MIB = 2.0  # that a process of the program has resident


def program():
    """The program to be timed: the first word, or where its crate is built."""
    return str(needs.program(first_word()))


def built_reference(folder):
    """The program of bench/reference.c, built into a folder."""
    path = os.path.join(folder, "reference")
    subprocess.run([os.environ.get("CC", "cc"), "-O3", "-o", path, os.path.join(ROOT, "bench/reference.c")], check=True)
    return path


def write_stream(path, stream_type, stream):
    """A dump of one stream."""
    with open(path, "wb") as file:
        file.write(front(stream_type, len(stream)) + stream)


def write_regions(path, count):
    """So many regions of memory (MINIDUMP_MEMORY_INFO_LIST), of 48 bytes each."""
    write_stream(path, REGIONS, regions([region(k << 12, k << 12, 4, 0, 4096, 0x1000, 2, 0x20000) for k in range(count)]))


def module_name(number):
    """The name of a module: 41 to 71 units, 56 on average."""
    folder = "packages_of_programs_and_libraries"[: 3 + number % 31]
    return f"C:\\Windows\\System32\\{folder}\\module_{number:06}.dll"


def write_modules(path, count):
    """So many modules (MINIDUMP_MODULE_LIST), each with a name and a CodeView record of its own."""
    names = [utf16(module_name(k)) for k in range(count)]
    with open(path, "wb") as file:
        file.write(file_of_modules(names, [f"module_{k:06}.pdb".encode() for k in range(count)]))


def ranges_from(place, ranges):
    """The records of ranges whose bytes follow one another from a place on."""
    records = []
    for start, length in ranges:
        records.append(memory_range(start, (length, place)))
        place += length
    return records


def write_ranges(path, ranges):
    """Ranges of memory (MINIDUMP_MEMORY_LIST), each a first address and a length, and their bytes after the list."""
    size = 4 + RANGE_SIZE * len(ranges)
    with open(path, "wb") as file:
        file.write(front(MEMORY, size) + counted(ranges_from(FRONT_SIZE + size, ranges)))
        file.write(bytes(i % 251 for i in range(sum(length for _, length in ranges))))


def write_hole(path, ranges):
    """Ranges of memory (MINIDUMP_MEMORY64_LIST), each a first address and a length, whose bytes are a hole."""
    size = 16 + RANGE_SIZE * len(ranges)
    with open(path, "wb") as file:
        file.write(front(MEMORY64, size) + memory64(FRONT_SIZE + size, ranges))
        file.truncate(FRONT_SIZE + size + sum(length for _, length in ranges))


def made(line, out, is_synced):
    """A shell that makes a copy by this line, and waits, if asked to, until it is on the disk."""
    return ["sh", "-c", line + (f" && sync {out}" if is_synced else "")]


def copied(mdmp, path, out, stream_type, is_synced=False, options=()):
    """A copy by `copy`, with these options."""
    return made(" ".join([mdmp, "copy", *options, path, out, str(stream_type)]), out, is_synced)


def passed(path, out, is_synced=False):
    """A copy by `cat`."""
    return made(f"cat {path} > {out}", out, is_synced)


def read_and_written(path, out, is_synced=False):
    """A copy by `dd`, which reads and writes 64 KiB at a time, as `copy` does."""
    return made(f"dd if={path} of={out} bs=64k status=none", out, is_synced)


def remove(paths):
    """Removes those of these files that are there, and waits until the disk has nothing left to do."""
    for path in paths:
        if os.path.exists(path):
            os.remove(path)
    os.sync()


def best_times(commands, runs=RUNS, copies=()):
    """The least time, in seconds, of each of these processes as a whole, with its output dropped. They run in turn, so
    that what else the machine does meets all of them; these copies are removed before each."""
    best = [float("inf")] * len(commands)
    for _ in range(runs):
        for k, words in enumerate(commands):
            if copies:
                remove(copies)
            start = time.perf_counter()
            subprocess.run(words, stdout=subprocess.DEVNULL, check=True)
            best[k] = min(best[k], time.perf_counter() - start)
    return best


def best_time(words):
    """The least time, in seconds, of a whole process whose output is dropped."""
    return best_times([words])[0]


def resident(words):
    """The most KiB that a process has resident."""
    done = subprocess.run([TIME, "-f", "%M", *words], stdout=subprocess.DEVNULL, stderr=subprocess.PIPE, check=True)
    return int(done.stderr.split()[-1])


def system_calls(words):
    """How many calls of the system a process makes."""
    done = subprocess.run([STRACE, "-f", "-c", *words], stdout=subprocess.DEVNULL, stderr=subprocess.PIPE, check=True)
    total = [line.split() for line in done.stderr.decode().splitlines() if line.endswith(" total")]
    return int(total[0][3])
