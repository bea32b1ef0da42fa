"""Programs that the checks make, as ELF files."""

import array
import struct

from encoding import NOP

LOW = 0x10000
FIELDS = {
    "class_": (4, "B"), "order": (5, "B"), "kind": (16, "H"), "machine": (18, "H"), "flags": (36, "I"),
    "headers": (44, "H"), "sections": (48, "H"),
}


def words_of(numbers):
    """Numbers as four bytes each."""
    return array.array("I", numbers).tobytes()


def elf(text, symbols, segments=(), entry=None, memory=None, low=LOW, physical=None):
    """A program of this text, with functions as names and addresses, and more segments: addresses and bytes, and where they
    are told, load address and size. The text's segment may have more memory than the text takes."""
    strings, table, at = [b"\0"], [bytes(16)], 1
    for name, addr in symbols:
        table.append(struct.pack("<IIIBBH", at, addr, 0, 0x12, 0, 1))
        strings.append(name + b"\0")
        at += len(name) + 1
    return elf_of(text, b"".join(table), b"".join(strings), segments, entry, memory, low, physical)


def elf_of(text, table, strings, segments=(), entry=None, memory=None, low=LOW, physical=None):
    """A program of this text, symbol table and strings, and more segments."""
    count = 1 + len(segments)
    front = 52 + 32 * count
    behind = front + len(text) + len(table)
    at = behind + len(strings)
    headers = struct.pack("<8I", 1, front, low, low if physical is None else physical, len(text), memory or len(text), 7, 4)
    for addr, data, *more in segments:
        loaded, size = more or (addr, len(data))
        headers += struct.pack("<8I", 1, at, addr, loaded, len(data), size, 4, 1)
        at += len(data)
    head = b"\x7fELF\1\1\1" + bytes(9)
    head += struct.pack("<HHIIIIIHHHHHH", 2, 243, 1, low if entry is None else entry, 52, at, 0, 52, 32, count, 40, 4, 0)
    sections = bytes(40) + struct.pack("<10I", 0, 1, 6, low, front, len(text), 0, 0, 4, 0)
    sections += struct.pack("<10I", 0, 2, 0, 0, front + len(text), len(table), 3, 1, 4, 16)
    sections += struct.pack("<10I", 0, 3, 0, 0, behind, len(strings), 0, 0, 1, 0)
    return b"".join((head, headers, text, table, strings, *(data for _, data, *_ in segments), sections))


def changed(content, **fields):
    """A program with other values in fields of its header."""
    content = bytearray(content)
    for name, value in fields.items():
        place, width = FIELDS[name]
        struct.pack_into("<" + width, content, place, value)
    return bytes(content)
