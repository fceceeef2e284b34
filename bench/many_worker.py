"""What a worker does with dumps: counts crashes by their code, and the module and offset of the address that ran."""

from collections import Counter

import mdmp

IMAGE = 1 << 32  # no image of a module is as large


def place_of(crash):
    """The file name of the module of a crash and the offset, or None twice. If no module has the address, it is the module
    below it."""
    found = crash.module or crash.near
    if found is None or found.offset >= IMAGE:
        return None, None
    return (found.module.name or "").replace("\\", "/").rpartition("/")[2], found.offset


def crashes_in(paths):
    """The crashes of some dumps, and how many of these are bad, whose crash may be missing."""
    crashes, bad = Counter(), 0
    for path in paths:
        with mdmp.open(path) as dump:
            try:
                summary = dump.summary
            except mdmp.Fault:
                bad += 1
                continue
        bad += summary.bad_entries > 0
        if summary.crash:
            crashes[(summary.crash.exception.exception_code, *place_of(summary.crash))] += 1
    return crashes, bad


def joined(answers):
    """The crashes and the bad dumps of all workers."""
    crashes, bad = Counter(), 0
    for some, few in answers:
        crashes.update(some)
        bad += few
    return crashes, bad
