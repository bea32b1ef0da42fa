"""What a profile holds."""

import bisect
import collections
import struct

from rvgprof_doctor.asking import asked
from rvgprof_tools.running import Refused, operand

FULL = 65_535               # what a counter holds at most


class Profile:
    """The records of a profile: counters, each with its width, arcs by call site and callee, and executions."""

    def __init__(self, name, show):
        self.name, self.ranges = name, set()
        self.counters, self.widths = collections.Counter(), {}
        self.arcs, self.executions = collections.Counter(), collections.Counter()
        width = 0
        for line in show.splitlines():
            words = line.split()
            if words[0] in (b"bsd", b"hist"):
                low, high, number = int(words[2], 16), int(words[4], 16), int(words[6])
                self.ranges.add((low, high))
                width = (high - low) / number if number else 0
            elif words[0] == b"count":
                self.counters[int(words[1], 16)] += int(words[2])
                self.widths[int(words[1], 16)] = width
            elif words[0] == b"arc":
                self.arcs[int(words[1], 16), int(words[2], 16)] += int(words[3])
            elif words[0] == b"block":
                self.executions[int(words[1], 16)] += int(words[2])

    def samples(self):
        """The samples that its counters have."""
        return sum(self.counters.values())

    def full(self):
        """The addresses of its full counters. A sum splits a counter over records of so many samples."""
        return sorted(address for address, count in self.counters.items() if count and count % FULL == 0)

    def sites_are_exact(self):
        """Whether call sites are return addresses, and not all first ones of slots of eight bytes or more."""
        low = min((low for low, _ in self.ranges), default=0)
        return any((site - low) % 8 for site, _ in self.arcs)


def shown(name):
    """The profile in a file."""
    try:
        return Profile(name, asked("show", operand(name)))
    except (IndexError, ValueError) as error:
        raise Refused(f"what rvgprof shows of {name} isn't understood") from error


def shares_of(program, profile):
    """The samples of each name. A counter's are shared out evenly over its bytes, as in a report."""
    shares = collections.Counter()
    for address, count in profile.counters.items():
        width = profile.widths[address]
        place = max(0, bisect.bisect_right(program.lows, address) - 1)
        for function in program.functions[place:]:
            if function.low >= address + width:
                break
            part = min(function.high, address + width) - max(function.low, address)
            if part > 0:
                shares[function.name] += count * part / width
    return shares


def rounded_texts(program):
    """The ranges that a profile of a program may have: rounded to counters and slots of 4 to 32 bytes."""
    for size in (4, 8, 16, 32):
        yield program.low // size * size, -(-program.high // size) * size


def entries_of(low, high):
    """How many arcs a profile of this range may have."""
    return min(65_534, max(50, (high - low) * 2 // 100)) - 1


def looks_like_profile(content):
    """Whether bytes begin as a gmon.out file does, of 32 or 64 bits."""
    return content[:4] == b"gmon" or content[12:16] == b"\x79\x18\5\0" or content[20:24] == b"\x79\x18\5\0"


def is_of_64_bits(content):
    """Whether a gmon.out file's header has addresses of eight bytes."""
    if content[:4] != b"gmon":
        return content[20:24] == b"\x79\x18\5\0"
    if len(content) < 45 or content[20]:
        return False
    low, high, number = struct.unpack_from("<QQI", content, 21)
    return low < high and number <= high - low < 1 << 32
