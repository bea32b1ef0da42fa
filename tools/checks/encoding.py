"""Instructions of RV32IM as words, for programs that the checks make."""

RA, SP, T0, T1, S0, S1, A0, A1, A2, A5, A7 = 1, 2, 5, 6, 8, 9, 10, 11, 12, 15, 17
LUI, AUIPC, LOAD, CONSTANT = 0x37, 0x17, 0x03, 0x13
NOP, RET, ECALL, EBREAK, FENCES = 0x13, 0x8067, 0x73, 0x100073, (0x0FF0000F, 0x100F)


def bits(value, high, low):
    return value >> low & (1 << high - low + 1) - 1


def r_type(funct7, funct3, rd, rs1, rs2):
    return funct7 << 25 | rs2 << 20 | rs1 << 15 | funct3 << 12 | rd << 7 | 0x33


def i_type(opcode, funct3, rd, rs1, constant):
    return (constant & 0xFFF) << 20 | rs1 << 15 | funct3 << 12 | rd << 7 | opcode


def addi(rd, rs1, constant=0):
    return i_type(CONSTANT, 0, rd, rs1, constant)


def jalr(rd, rs1, constant=0):
    return i_type(0x67, 0, rd, rs1, constant)


def store(funct3, rs2, offset, rs1):
    return bits(offset, 11, 5) << 25 | rs2 << 20 | rs1 << 15 | funct3 << 12 | bits(offset, 4, 0) << 7 | 0x23


def upper(opcode, rd, value):
    return value & ~0xFFF | rd << 7 | opcode


def jal(rd, here, there):
    """A jump by the numbers of words."""
    offset = 4 * (there - here)
    fields = bits(offset, 20, 20) << 31 | bits(offset, 10, 1) << 21 | bits(offset, 11, 11) << 20 | bits(offset, 19, 12) << 12
    return fields | rd << 7 | 0x6F


def branch(funct3, rs1, rs2, words):
    """A branch over so many words, back or on."""
    offset = 4 * words
    fields = bits(offset, 12, 12) << 31 | bits(offset, 10, 5) << 25 | bits(offset, 4, 1) << 8 | bits(offset, 11, 11) << 7
    return fields | rs2 << 20 | rs1 << 15 | funct3 << 12 | 0x63
