"""An interpreter of RV32IM programs with the profiling runtime, and all that is said of a run.

It was written from docs/MACHINE.md, docs/FORMATS.md and the RISC-V manual, and shares nothing with the crates. What a
program file or words are refused for isn't here. tools/checks/second-opinion compares it with the built program.
"""

import collections
import itertools
import struct

from profiles import GNU, bsd, gnu_arcs, gnu_blocks, gnu_hist

MASK = 0xFFFFFFFF
STACK, STACKS = 262_144, 2_097_152
RA, SP, A0, A1, A2, A7 = 1, 2, 10, 11, 12, 17
UNUSED = 32     # where a write to x0 goes
MOST_CALLS = 128
DEFAULTS = {"every": 1000, "budget": 100_000_000, "ram": 64, "harts": 1, "quantum": 1, "seed": 0, "rate": 100, "hist": 2, "hash": 2}


# Programs

Program = collections.namedtuple("Program", "entry segments low high symbols hooks")


def read_elf(data):
    """The segments, text, symbols and hooks of an ELF32 file that isn't refused."""
    entry, phoff, shoff = struct.unpack_from("<3I", data, 24)
    phnum, _, shnum = struct.unpack_from("<3H", data, 44)
    headers = [struct.unpack_from("<8I", data, phoff + 32 * i) for i in range(phnum)]
    segments = [(vaddr, memsz, data[at:at + min(filesz, memsz)]) for kind, at, vaddr, _, filesz, memsz, _, _ in headers if kind == 1 and memsz]
    sections = [struct.unpack_from("<10I", data, shoff + 40 * i) for i in range(shnum)]
    code = {i: (s[3], s[3] + s[5]) for i, s in enumerate(sections) if s[2] & 6 == 6 and s[1] != 8 and s[5]}
    symbols, hooks = symbols_in(data, sections, code)
    return Program(entry, segments, min(low for low, _ in code.values()), max(high for _, high in code.values()), symbols, hooks)


def symbols_in(data, sections, code):
    """The kept symbols, as addresses and names in ascending order, and the addresses of hooks by name."""
    table = next((s for s in sections if s[1] == 2), None)
    kept, hooks = {}, {}
    for number in range(1, table[5] // 16 if table else 0):
        name_at, value, _, info, _, section = struct.unpack_from("<IIIBBH", data, table[4] + 16 * number)
        binding, kind = info >> 4, info & 15
        low, high = code.get(section, (1, 0))
        if not (low <= value < high and (kind == 2 or kind == 0 and binding in (1, 2))):
            continue
        start = sections[table[6]][4] + name_at
        name = data[start:data.index(0, start)][:4095]
        if name:
            hooks.setdefault(name, value)
            rank = ({1: 0, 2: 1}.get(binding, 2), kind != 2, name, number)
            kept[value] = min(kept.get(value, rank), rank)
    return sorted((value, rank[2]) for value, rank in kept.items()), hooks


def owner_of(program, addr):
    """The number of the function that an address lies in, or -1."""
    if not addr < program.high:
        return -1
    return sum(low <= addr for low, _ in program.symbols) - 1


# The runtime

class Runtime:
    """Counters and chains of arcs; an arc is its callee, its count and the number of its entry."""

    def __init__(self, program, options):
        step = 2 * max(options["hist"], options["hash"])
        self.low, self.high = program.low // step * step, -(-program.high // step) * step
        self.bucket, self.slot = 2 * options["hist"], 2 * options["hash"]
        self.counters = [0] * ((self.high - self.low) // self.bucket)
        self.chains = [[] for _ in range((self.high - self.low) // self.slot)]
        self.entries = min(max(2 * (self.high - self.low) // 100, 50), 65_534)
        self.given = self.samples = self.lost = 0
        self.is_on, self.is_error = True, False
        self.entering = None    # the hart, the call and the looks that are left

    def tick(self, pc):
        """Counts a sample, and tells whether it counts."""
        if not (self.is_on and self.low <= pc < self.high):
            return False
        at = (pc - self.low) // self.bucket
        self.counters[at] = min(self.counters[at] + 1, 65_535)
        self.samples += 1
        return True

    def enter(self, hart, site, callee):
        """Whether the call is entered, and not lost or ignored."""
        if self.entering:
            self.lost += 1
            return False
        if self.is_error or not self.is_on or not self.low <= site < self.high:
            return False
        chain = self.chains[(site - self.low) // self.slot]
        places = [place for place, arc in enumerate(chain, 1) if arc[0] == callee]
        self.entering = [hart, chain, callee, places[0] if places else max(1, len(chain))]
        return True

    def look(self):
        """Looks at one arc, and tells whether the call is counted."""
        self.entering[3] -= 1
        if self.entering[3]:
            return False
        _, chain, callee, _ = self.entering
        self.entering = None
        arc = next((arc for arc in chain if arc[0] == callee), None)
        if arc:
            chain.remove(arc)
        elif self.given + 1 == self.entries:
            self.is_error = True
            return True
        else:
            self.given += 1
            arc = [callee, 0, self.given]
        arc[1] += 1
        chain.insert(0, arc)
        return True

    def arcs(self):
        return [(self.low + self.slot * i, arc[0], arc[1]) for i, chain in enumerate(self.chains) for arc in chain]

    def image(self):
        """The block: entries, counters and slots. The link of entry 0, which is no arc, is the number of the last one asked for."""
        entries, slots = [(0, 0, 0)] * self.entries, [0] * len(self.chains)
        entries[0] = (0, 0, self.given + self.is_error)
        for slot, chain in enumerate(self.chains):
            slots[slot] = chain[0][2] if chain else 0
            for arc, behind in itertools.zip_longest(chain, chain[1:], fillvalue=(0, 0, 0)):
                entries[arc[2]] = (arc[0], arc[1], behind[2])
        return b"".join(struct.pack("<IIHxx", *entry) for entry in entries) + struct.pack(f"<{len(self.counters) + len(slots)}H", *self.counters, *slots)


# Instructions

class Trap(Exception):
    """An instruction that changes nothing and ends the run."""


def signed(n, bits=32):
    return n - (1 << bits) if n >> bits - 1 & 1 else n


def quotient(a, b):
    return -1 if b == 0 else abs(a) // abs(b) * (1 if (a < 0) == (b < 0) else -1)


def rest(a, b):
    return a if b == 0 else a - b * quotient(a, b)


ALU = {
    (0, 0): lambda a, b: a + b,
    (32, 0): lambda a, b: a - b,
    (0, 1): lambda a, b: a << (b & 31),
    (0, 2): lambda a, b: signed(a) < signed(b),
    (0, 3): lambda a, b: a < b,
    (0, 4): lambda a, b: a ^ b,
    (0, 5): lambda a, b: a >> (b & 31),
    (32, 5): lambda a, b: signed(a) >> (b & 31),
    (0, 6): lambda a, b: a | b,
    (0, 7): lambda a, b: a & b,
    (1, 0): lambda a, b: a * b,
    (1, 1): lambda a, b: signed(a) * signed(b) >> 32,
    (1, 2): lambda a, b: signed(a) * b >> 32,
    (1, 3): lambda a, b: a * b >> 32,
    (1, 4): lambda a, b: quotient(signed(a), signed(b)),
    (1, 5): quotient,
    (1, 6): lambda a, b: rest(signed(a), signed(b)),
    (1, 7): rest,
}
BRANCHES = {
    0: lambda a, b: a == b,
    1: lambda a, b: a != b,
    4: lambda a, b: signed(a) < signed(b),
    5: lambda a, b: signed(a) >= signed(b),
    6: lambda a, b: a < b,
    7: lambda a, b: a >= b,
}


def landing(target):
    if target & 2:
        raise Trap("jump-misaligned")
    return target


def bits(word, high, low):
    return word >> low & (1 << high - low + 1) - 1


def computing(rd, f, rs1, rs2, constant):
    """What puts f of a register, and of another one or a constant, into rd."""
    def register(hart):
        x = hart.x
        x[rd] = f(x[rs1], x[rs2]) & MASK
        return hart.pc + 4

    def immediate(hart):
        x = hart.x
        x[rd] = f(x[rs1], constant) & MASK
        return hart.pc + 4

    return register if constant is None else immediate


def jumping(word, rd, rs1, offset):
    """jalr where there is a register, else jal."""
    def step(hart):
        target = landing((hart.x[rs1] + offset & MASK & ~1) if word & 8 == 0 else hart.pc + offset & MASK)
        hart.x[rd] = hart.pc + 4
        if rd == RA:
            hart.call(hart.pc + 4)
        elif rd == UNUSED and word & 8 == 0 and rs1 == RA:
            hart.back(target)
        return target

    return step


def accessing(machine, rd, rs1, offset, width, is_signed):
    """A load into rd."""
    def step(hart):
        at = machine.place(hart.x[rs1] + offset & MASK, width, "load")
        value = int.from_bytes(machine.memory[at:at + width], "little", signed=is_signed)
        hart.x[rd] = value & MASK
        return hart.pc + 4

    return step


def storing(machine, rs1, rs2, offset, width):
    def step(hart):
        at = machine.place(hart.x[rs1] + offset & MASK, width, "store")
        machine.memory[at:at + width] = (hart.x[rs2] & (1 << 8 * width) - 1).to_bytes(width, "little")
        return hart.pc + 4

    return step


def branching(holds, rs1, rs2, offset):
    def step(hart):
        return landing(hart.pc + offset & MASK) if holds(hart.x[rs1], hart.x[rs2]) else hart.pc + 4

    return step


def trapping(kind):
    def step(_):
        raise Trap(kind)

    return step


def step_of(machine, word):
    """What executes a word: it changes a hart, and gives its next pc."""
    opcode, funct3, funct7 = word & 127, bits(word, 14, 12), word >> 25
    rd, rs1, rs2 = bits(word, 11, 7) or UNUSED, bits(word, 19, 15), bits(word, 24, 20)
    constant = signed(word >> 20, 12)
    if opcode == 0x33 and (funct7, funct3) in ALU:
        return computing(rd, ALU[funct7, funct3], rs1, rs2, None)
    if opcode == 0x13 and funct3 in (1, 5):
        if (funct7, funct3) in ALU and funct7 != 1:
            return computing(rd, ALU[funct7, funct3], rs1, 0, rs2)
    elif opcode == 0x13:
        return computing(rd, ALU[0, funct3], rs1, 0, constant & MASK)
    elif opcode == 0x37:
        return computing(rd, ALU[0, 0], 0, 0, word & ~0xFFF)
    elif opcode == 0x17:
        return lambda hart: (hart.x.__setitem__(rd, hart.pc + (word & ~0xFFF) & MASK), hart.pc + 4)[1]
    elif opcode == 0x6F:
        offset = word >> 31 << 20 | bits(word, 19, 12) << 12 | bits(word, 20, 20) << 11 | bits(word, 30, 21) << 1
        return jumping(word, rd, 0, signed(offset, 21))
    elif opcode == 0x67 and funct3 == 0:
        return jumping(word, rd, rs1, constant)
    elif opcode == 0x63 and funct3 in BRANCHES:
        offset = word >> 31 << 12 | bits(word, 7, 7) << 11 | bits(word, 30, 25) << 5 | bits(word, 11, 8) << 1
        return branching(BRANCHES[funct3], rs1, rs2, signed(offset, 13))
    elif opcode == 0x03 and funct3 in (0, 1, 2, 4, 5):
        return accessing(machine, rd, rs1, constant, 1 << (funct3 & 3), funct3 < 4)
    elif opcode == 0x23 and funct3 in (0, 1, 2):
        return storing(machine, rs1, rs2, signed(funct7 << 5 | bits(word, 11, 7), 12), 1 << funct3)
    elif opcode == 0x0F and funct3 in (0, 1):
        return lambda hart: hart.pc + 4
    elif word == 0x73:
        return machine.environment
    return trapping("breakpoint" if word == 0x100073 else "illegal")


# Runs

class Hart:
    """Registers, and the return addresses of calls, of which so many had no room."""

    def __init__(self, pc, number, harts, stack):
        self.x = [0] * 33
        self.x[SP], self.x[A0], self.x[A1] = stack - 16, number, harts
        self.pc, self.calls, self.unkept = pc, [], 0

    def call(self, behind):
        if len(self.calls) == MOST_CALLS:
            self.unkept += 1
        else:
            self.calls.append(behind)

    def back(self, target):
        if self.unkept:
            self.unkept -= 1
            return
        if target in self.calls:
            while self.calls.pop() != target:
                pass


def schedule_of(harts, quantum, seed):
    """The hart of each turn."""
    if not seed:
        yield from (h for h in itertools.cycle(range(harts)) for _ in range(quantum))
    while True:
        seed ^= seed << 13 & (1 << 64) - 1
        seed ^= seed >> 7
        seed ^= seed << 17 & (1 << 64) - 1
        yield seed % harts


class Machine:
    """A run of a program, from its start to its end."""

    def __init__(self, program, words):
        given = words.split()
        self.options = {**DEFAULTS, **{name[2:]: int(value) for name, value in zip(given[::2], given[1::2])}}
        self.program, self.runtime = program, Runtime(program, self.options)
        self.mcount, self.moncontrol = program.hooks.get(b"_mcount"), program.hooks.get(b"moncontrol")
        self.base = min((low for low, _, _ in program.segments), default=0) // 4096 * 4096
        self.memory = bytearray(self.options["ram"] << 20)
        self.end = self.base + len(self.memory)
        for low, _, content in program.segments:
            self.memory[low - self.base:low - self.base + len(content)] = content
        self.least = self.limit = -(-max((low + size for low, size, _ in program.segments), default=0) // 16) * 16
        harts = self.options["harts"]
        self.harts = [Hart(program.entry, h, harts, self.end - STACK * h) for h in range(harts)]
        self.retired, self.executed, self.stacks = 0, collections.Counter(), collections.Counter()
        self.printed, self.ended, self.steps = {1: bytearray(), 2: bytearray()}, None, {}
        for h in schedule_of(harts, self.options["quantum"], self.options["seed"]):
            self.turn(h)
            if self.ended:
                break
        while self.runtime.entering:
            self.runtime.look()

    def place(self, addr, width, kind):
        """Where an access lies in memory."""
        if addr % width:
            raise Trap(f"{kind}-misaligned")
        if not self.base <= addr <= self.end - width:
            raise Trap(f"{kind}-outside")
        return addr - self.base

    def environment(self, hart):
        """An ecall, by a7."""
        a0, a1, a2, a7 = (hart.x[r] for r in (A0, A1, A2, A7))
        if a7 == 93:
            self.ended = f"exit {a0}"
        elif a7 == 64:
            hart.x[A0] = self.write(a0, a1, a2) & MASK
        elif a7 == 214:
            self.limit = a0 if self.least <= a0 <= self.end - STACKS else self.limit
            hart.x[A0] = self.limit
        else:
            hart.x[A0] = -38 & MASK
        return hart.pc + 4

    def write(self, descriptor, at, size):
        if descriptor not in (1, 2):
            return -9
        if size and not self.base <= at <= self.end - size:
            return -14
        self.printed[descriptor] += self.memory[at - self.base:at - self.base + size] if size else b""
        return size

    def turn(self, h):
        hart, runtime = self.harts[h], self.runtime
        if runtime.entering and runtime.entering[0] == h:
            if runtime.look():
                self.leave_hook(hart)
            return
        pc = hart.pc
        try:
            next_pc = self.fetch(pc)(hart)
        except Trap as trap:
            self.ended = f"trap {trap} at {pc:08x}"
            return
        self.retired += 1
        self.executed[pc] += 1
        hart.pc = next_pc
        if self.ended:
            return
        if self.retired % self.options["every"] == 0 and runtime.tick(next_pc):
            self.stacks[(*hart.calls, next_pc)] += 1
        if next_pc == self.mcount or next_pc == self.moncontrol:
            self.arrive(h, hart)
        if not self.ended and self.retired == self.options["budget"]:
            self.ended = "budget"

    def fetch(self, pc):
        at = pc - self.base
        if not 0 <= at <= len(self.memory) - 4:
            raise Trap("fetch-outside")
        word = int.from_bytes(self.memory[at:at + 4], "little")
        step = self.steps.get(word)
        if not step:
            step = self.steps[word] = step_of(self, word)
        return step

    def arrive(self, h, hart):
        """A hook is served."""
        if hart.pc != self.mcount:
            self.runtime.is_on = hart.x[A0] != 0
        elif self.runtime.enter(h, hart.x[A0], hart.x[RA]):
            return
        self.leave_hook(hart)

    def leave_hook(self, hart):
        target = hart.x[RA] & ~1
        if target & 2:
            self.ended = f"trap jump-misaligned at {hart.pc:08x}"
        else:
            hart.back(target)
            hart.pc = target

    # What is said of it

    def end_line(self):
        r = self.runtime
        calls, state = sum(arc[2] for arc in r.arcs()), "error" if r.is_error else "on" if r.is_on else "off"
        return f"rvgprof: {self.ended} after {self.retired} instructions: {r.samples} samples, {calls} calls, {r.lost} lost, arcs {state}\n".encode()

    def bsd_file(self):
        r = self.runtime
        return bsd(r.low, r.high, r.counters, r.arcs(), self.options["rate"])

    def gnu_file(self, has_blocks):
        r = self.runtime
        pairs = sorted(pair for pair in self.executed.items() if r.low <= pair[0] < r.high)
        blocks = gnu_blocks(pairs) if has_blocks and pairs else b""
        return GNU + gnu_hist(r.low, r.high, r.counters, self.options["rate"]) + gnu_arcs(r.arcs()) + blocks

    def stack_functions(self):
        """Each stack as numbers of functions, -1 for none, with its samples."""
        owner = {addr: owner_of(self.program, addr) for addr in {r - 4 for stack in self.stacks for r in stack[:-1]} | {stack[-1] for stack in self.stacks}}
        folded = collections.Counter()
        for stack, samples in self.stacks.items():
            if owner[stack[-1]] >= 0:
                folded[(*(owner[r - 4] for r in stack[:-1]), owner[stack[-1]])] += samples
        return folded

    def folded_text(self):
        names = [name for _, name in self.program.symbols] + [b"[unknown]"]
        return b"".join(b"%s %d\n" % (b";".join(names[f] for f in stack), n) for stack, n in sorted(self.stack_functions().items()))

    def inclusive_text(self):
        totals = collections.Counter()
        for stack, samples in self.stack_functions().items():
            for function in set(stack) - {-1}:
                totals[function] += samples
        return b"".join(b"%s %d\n" % (self.program.symbols[f][1], n) for f, n in sorted(totals.items()))

    def listing_columns(self):
        """Address, executions, grains and word of each whole cell, of a program whose symbols lie at multiples of 4."""
        r, rows = self.runtime, []
        for addr in range(self.program.symbols[0][0], self.program.high, 4):
            word = int.from_bytes(self.memory[addr - self.base:addr - self.base + 4], "little")
            rows.append(f"{addr:08x} {self.executed[addr]} {r.counters[(addr - r.low) // 4] * 1_000_000} {word:08x}".encode())
        return b"\n".join(rows)
