"""Profiles that the checks make: gmon.out files of both forms, as docs/FORMATS.md has them.

Counters are numbers or their bytes, an arc is a call site, a callee and a count, and pairs are addresses
with their executions, or the bytes of these. A file of the GNU form is GNU and then any records."""

import array
import itertools
import struct

from elf_files import words_of

RATE = 100
GNU = b"gmon" + struct.pack("<I12x", 1)
UNIT = b"seconds" + bytes(8) + b"s"


def counters_of(counters):
    """Counters as bytes."""
    return counters if isinstance(counters, bytes) else array.array("H", counters).tobytes()


def bsd(low, high, counters, arcs=(), rate=RATE):
    """A file of the 4.4BSD form."""
    counters = counters_of(counters)
    head = struct.pack("<5I12x", low, high, 32 + len(counters), 0x51879, rate)
    return b"".join((head, counters, words_of(itertools.chain.from_iterable(arcs))))


def gnu_hist(low, high, counters, rate=RATE):
    """The record of a histogram."""
    counters = counters_of(counters)
    return struct.pack("<B4I", 0, low, high, len(counters) // 2, rate) + UNIT + counters


def gnu_arcs(arcs):
    """A record for each arc."""
    pack = struct.Struct("<B3I").pack
    return b"".join(pack(1, *arc) for arc in arcs)


def gnu_blocks(pairs):
    """The record of executions."""
    pairs = pairs if isinstance(pairs, bytes) else words_of(itertools.chain.from_iterable(pairs))
    return struct.pack("<BI", 2, len(pairs) // 8) + pairs
