"""The functions of a program: where they lie, what their instructions cost, and their calls by call site."""

import bisect
import collections
import re

from .running import Refused, asked, readable

ROW = re.compile(rb"([0-9a-f]{8}) (\d+) ")
ARC = re.compile(rb"^arc ([0-9a-f]{8}) ([0-9a-f]{8}) (\d+)$", re.M)


class Function:
    """A function: its name and where it lies, its cells (address, time and executions), its calls by site and callee as
    `mcount` counted them, and the executions of its `jal` instructions that link, by site and target."""

    def __init__(self, name, low, high):
        self.name, self.low, self.high = name, low, high
        self.cells = []
        self.calls, self.jumps = collections.Counter(), {}

    def own(self):
        """Its own costs."""
        return [sum(costs) for costs in zip(*(cell[1] for cell in self.cells))] or [0, 0]


def functions_of(syms):
    """The functions that `syms` prints. Each reaches up to the next one, whose address so tells where a name ends."""
    functions = []
    at = syms.index(b"\n") + 1
    while at < len(syms):
        found = ROW.match(syms, at)
        if not found:
            raise Refused(f"what rvgprof prints of functions isn't understood: {readable(syms[at:at + 40])}")
        low, high = int(found[1], 16), int(found[1], 16) + int(found[2])
        end = syms.find(b"\n%08x " % high, found.end())
        end = len(syms) - 1 if end < 0 else end
        functions.append(Function(syms[found.end():end], low, high))
        at = end + 1
    return functions


def target_of(address, word):
    """Where a `jal` that links in ra or t0 goes to, or nothing (RISC-V manual, "RV32I Base Integer Instruction Set", J-type)."""
    if word & 0x7F != 0x6F or word >> 7 & 31 not in (1, 5):
        return None
    offset = (word >> 31 << 20) | (word & 0xFF000) | (word >> 20 & 1) << 11 | (word >> 20 & 0x7FE)
    return address + offset - (offset >> 20 << 21) & 0xFFFFFFFF


def add_cells(functions, listing):
    """Adds to each function the cells and jumps that `annotate` lists of it after a line with its name."""
    at = len(b"annotated listing\n")
    for function in functions:
        at += len(function.name) + 2
        for _ in range(function.low // 4, (function.high + 3) // 4):
            end = listing.index(b"\n", at)
            address, executions, grains, word = listing[at:end].split()[:4]
            address, executions = int(address, 16), int(executions)
            function.cells.append((address, (int(grains), executions)))
            target = target_of(address, int(word, 16)) if executions else None
            if target is not None:
                function.jumps[address, target] = executions
            at = end + 1


def owner_among(functions):
    """What finds the place of the function that an address lies in."""
    lows = [function.low for function in functions]

    def owner(address):
        place = bisect.bisect_right(lows, address) - 1
        return place if place >= 0 and address < functions[place].high else None

    return owner


def add_calls(functions, shown):
    """Adds the arcs that `show` prints to the functions that they lie in: the address of the call, and the callee's place."""
    owner = owner_among(functions)
    for found in ARC.finditer(shown):
        site, target, count = int(found[1], 16), int(found[2], 16), int(found[3])
        caller, callee = owner(site), owner(target)
        if caller is not None and callee is not None and count:
            functions[caller].calls[max(site - 4, functions[caller].low), callee] += count


def profiled(elf, profiles):
    """The functions of a program with what its profiles say of them."""
    functions = functions_of(asked("syms", elf))
    add_cells(functions, asked("annotate", elf, *profiles))
    for profile in profiles:
        add_calls(functions, asked("show", profile))
    return functions


class Merged:
    """The functions of one name, which stacks don't tell apart: their lowest address, executions, and calls by callee's
    name and site."""

    def __init__(self):
        self.low, self.executions = None, []
        self.calls, self.jumps = collections.defaultdict(collections.Counter), collections.defaultdict(collections.Counter)

    def known_sites(self, callee):
        """The sites of calls to a callee, and how many: those that `mcount` counted, or else those that jump to it."""
        return sorted(self.calls.get(callee, {}).items()) or sorted(self.jumps.get(callee, {}).items())


def by_name(functions):
    """The functions by name."""
    merged, owner = collections.defaultdict(Merged), owner_among(functions)
    for function in functions:
        into = merged[function.name]
        into.low = function.low if into.low is None else into.low
        into.executions += [(at, count) for at, (_, count) in function.cells if count]
        for (site, callee), count in function.calls.items():
            into.calls[functions[callee].name][site] += count
        for (site, target), count in function.jumps.items():
            callee = owner(target)
            if callee is not None:
                into.jumps[functions[callee].name][site] += count
    return merged
