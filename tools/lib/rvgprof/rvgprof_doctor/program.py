"""What a program's file holds."""

import bisect
import re
import struct

from rvgprof_doctor.instructions import base_of, calls, constant_of, jump_of, register_of
from rvgprof_tools.functions import functions_of
from rvgprof_tools.running import Refused, readable



def segments_of(content):
    """The segments of a file that rvgprof reads: virtual and physical address, bytes of the file, bytes of memory."""
    segments = []
    place, = struct.unpack_from("<I", content, 28)
    for number in range(struct.unpack_from("<H", content, 44)[0]):
        kind, offset, virtual, physical, in_file, in_memory = struct.unpack_from("<6I", content, place + 32 * number)
        if kind == 1 and in_memory > 0:
            segments.append((virtual, physical, content[offset:offset + min(in_file, in_memory)], in_memory))
    return segments


class Program:
    """A program that rvgprof reads: its segments, its text, its hooks and its functions."""

    def __init__(self, content, syms):
        head = re.match(rb"text (\w{8}) (\w{8}) entry (\w{8}) mcount (\w{8}|-) moncontrol (\w{8}|-)\n", syms)
        if not head:
            raise Refused("what rvgprof prints of the program isn't understood")
        self.low, self.high, self.entry = (int(head[place], 16) for place in (1, 2, 3))
        self.mcount, self.moncontrol = (None if head[place] == b"-" else int(head[place], 16) for place in (4, 5))
        self.functions = functions_of(syms)
        self.lows = [function.low for function in self.functions]
        # Where no such function is left, what -g says of sources may have it.
        self.names_switch = re.search(rb"(?<![\w.$])moncontrol\0", content) is not None
        try:
            self.segments = segments_of(content)
        except struct.error as error:
            raise Refused("the program changes while it is looked at") from error

    def bytes_at(self, address, count):
        """Bytes that are loaded at an address, or nothing where not all are."""
        for virtual, _, content, _ in reversed(self.segments):
            if virtual <= address and address + count <= virtual + len(content):
                return content[address - virtual:address - virtual + count]
        return None

    def word(self, address):
        """The word at an address, 0 where none is loaded."""
        found = self.bytes_at(address, 4)
        return int.from_bytes(found, "little") if found else 0

    def words(self):
        """All addresses of the text that are loaded, with their words."""
        for virtual, _, content, _ in self.segments:
            first = max(virtual, self.low) + 3 & ~3
            last = min(virtual + len(content), self.high) - 3
            for address in range(first, last, 4):
                yield address, int.from_bytes(content[address - virtual:address - virtual + 4], "little")

    def at(self, address):
        """The function at an address, or none."""
        place = bisect.bisect_right(self.lows, address) - 1
        return self.functions[place] if place >= 0 and address < self.functions[place].high else None

    def name(self, address):
        """The name of the function at an address."""
        function = self.at(address)
        return readable(function.name) if function else "no function"

    def place(self, address):
        """An address by its function."""
        function = self.at(address)
        return f"{readable(function.name)}+{address - function.low}" if function else "no function"

    def begins_at(self, address):
        """Whether a function begins at an address."""
        function = self.at(address)
        return function is not None and function.low == address


def target_of(program, address):
    """Where the call at an address goes, or nothing where that stands in a register."""
    word = program.word(address)
    if word & 0x7F == 0x6F:
        return address + jump_of(word) & 0xFFFFFFFF
    before = program.word(address - 4)
    if before & 0x7F == 0x17 and register_of(before) == base_of(word):
        return address - 4 + (before & 0xFFFFF000) + constant_of(word) & 0xFFFFFFFF
    return None


def is_behind_call(program, address, target=None):
    """Whether a call, of a target where one is told, stands in front of an address."""
    if not calls(program.word(address - 4)):
        return False
    goes = target_of(program, address - 4)
    return target is None or goes is None or goes == target


def value_before(program, address, register):
    """What a register was set to by the instructions in front of an address, or nothing where they don't tell it."""
    more = 0
    for place in range(address - 4, address - 4 * 17, -4):
        if register == 0:
            return more & 0xFFFFFFFF
        word = program.word(place)
        opcode = word & 0x7F
        if word == 0 or opcode in (0x6F, 0x67):
            return None
        if register_of(word) != register:
            continue
        if opcode == 0x37:
            return (word & 0xFFFFF000) + more & 0xFFFFFFFF
        if word & 0x707F != 0x13:
            return None
        more, register = more + constant_of(word), base_of(word)
    return None


def made_addresses(program):
    """The addresses that instructions jump to, or make of the upper and the lower part."""
    upper = {}
    for address, word in program.words():
        opcode, base = word & 0x7F, base_of(word)
        if opcode == 0x6F:
            yield address + jump_of(word) & 0xFFFFFFFF
        elif word & 0x707F in (0x13, 0x67) and base in upper:
            yield upper[base] + constant_of(word) & 0xFFFFFFFF
        upper.pop(register_of(word), None)
        if opcode in (0x17, 0x37):
            upper[register_of(word)] = (word & 0xFFFFF000) + (address if opcode == 0x17 else 0)


def is_referred_to(program, target):
    """Whether an instruction jumps to an address or makes it, or a loaded word is it."""
    if any(struct.pack("<I", target) in content for _, _, content, _ in program.segments):
        return True
    return target in made_addresses(program)
