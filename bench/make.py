#!/usr/bin/env python3
"""make.py > records.fsq

Writes the show that bench/run measures: 1,000 records, so many of each group of document 01, in one fixed shuffled order. Its records are
accepted by our encoder and by the Rust with equal bytes, so AAM and AAD, which end in A0 there, are left out, and so are the forms of document 02, No. 1, at
which it panics; TEST carries its immediate in both operands, as the Rust takes the first's.

The length of each record is put together from the SDM's form: prefix, opcode, ModRM, the displacement that mode and r/m ask for, immediate. The offsets
follow from the lengths, and near branches go to the start of a record within their reach."""
import pathlib
import sys

sys.path.insert(0, str(pathlib.Path(__file__).resolve().parent.parent / 'tools'))
from operations import (
    BYTE, FAR, HEADER, IMM, MARK, MEM, NEAR, OPERAND, OPERATIONS, PREFIXES, RECORD, REG, SEG, SHORT, WORD, NO_KIND as NONE, UNSPECIFIED as ANY, version_of)

ORIGIN = 256


class Numbers:
    """splitmix64: the same numbers under every version of Python."""

    def __init__(self, seed):
        self.state = seed

    def below(self, n):
        self.state = (self.state + 0x9E3779B97F4A7C15) % 2**64
        z = self.state
        z = (z ^ z >> 30) * 0xBF58476D1CE4E5B9 % 2**64
        z = (z ^ z >> 27) * 0x94D049BB133111EB % 2**64
        return (z ^ z >> 31) % n

    def one_of(self, them):
        return them[self.below(len(them))]

    def shuffle(self, them):
        for i in range(len(them) - 1, 0, -1):
            j = self.below(i + 1)
            them[i], them[j] = them[j], them[i]


random = Numbers(0x3013CB28B6008086)


# An operand: kind, size, prefix, displacement size, jump kind, mode, r/m, immediate, displacement.
def imm(value, jump=NONE, segment=0):
    return [IMM, ANY, 0, ANY, jump, 0, 0, value, segment]


def reg(size, n):
    return [REG, size, 0, ANY, NONE, 3, n, 0, 0]


def seg(n):
    return [SEG, WORD, 0, ANY, NONE, 3, n, 0, 0]


def mem(size, mode, rm, displacement=0, prefix=0):
    length = WORD if mode == 2 or (mode, rm) == (0, 6) else BYTE if mode == 1 else ANY
    return [MEM, size, prefix, length, NONE, mode, rm, 0, displacement]


def any_reg(size):
    return reg(size, random.below(8))


def any_mem(size):
    """Any base and mode; a prefix before one in four."""
    mode, rm = random.below(3), random.below(8)
    displacement = 0
    if mode == 1:
        displacement = random.below(256) - 128
    elif mode == 2 or rm == 6:
        displacement = random.below(65536)
    return mem(size, mode, rm, displacement, random.one_of(PREFIXES) if random.below(4) == 0 else 0)


def any_rm(size):
    return any_reg(size) if random.below(2) else any_mem(size)


def address(size, prefix=0):
    return mem(size, 0, 6, random.below(65536), prefix)


def value(size):
    return imm(random.below(65536 if size == WORD else 256))


def behind(rm):
    """Prefix, ModRM and displacement of an r/m operand."""
    return (rm[2] != 0) + 1 + {ANY: 0, BYTE: 1, WORD: 2}[rm[3]]


# Each group gives a record's operation, operands and length. `turn` counts the records of the group, so that its operations and shapes take turns.
def arithmetic(turn):
    operation = ['ADD', 'OR', 'ADC', 'SBB', 'AND', 'SUB', 'XOR', 'CMP'][turn % 8]
    shape, size = turn // 8 % 6, random.one_of([BYTE, WORD])
    if shape == 0:
        return operation, [any_reg(size), any_reg(size)], 2
    if shape == 1:
        rm = any_mem(size)
        return operation, [any_reg(size), rm], 1 + behind(rm)
    if shape == 2:
        rm = any_mem(random.one_of([ANY, size]))
        return operation, [rm, any_reg(size)], 1 + behind(rm)
    if shape == 3:  # the accumulator: AL ib; AX iw from 128 on, where 83 is not chosen
        number = random.below(256) if size == BYTE else 128 + random.below(65536 - 128)
        return operation, [reg(size, 0), imm(number)], 1 + size
    rm = reg(size, 1 + random.below(7)) if shape == 4 else any_mem(size)
    if size == WORD and random.below(2):  # 83: an immediate byte, 0 to 127
        return operation, [rm, imm(random.below(128))], 1 + behind(rm) + 1
    number = random.below(256) if size == BYTE else 128 + random.below(65536 - 128)
    return operation, [rm, imm(number)], 1 + behind(rm) + size


def not_group(turn):
    rm = any_rm(random.one_of([BYTE, WORD]))
    return ['NOT', 'NEG', 'MUL', 'IMUL', 'DIV', 'IDIV'][turn % 6], [rm], 1 + behind(rm)


def inc_dec(turn):
    operation = ['INC', 'DEC'][turn % 2]
    if turn // 2 % 2:
        return operation, [any_reg(WORD)], 1
    rm = random.one_of([any_reg(BYTE), any_mem(BYTE), any_mem(WORD)])
    return operation, [rm], 1 + behind(rm)


def mov(turn):
    shape, size = turn % 9, random.one_of([BYTE, WORD])
    prefix = random.one_of([0, 0x26])
    if shape == 0:
        return 'MOV', [any_reg(size), any_reg(size)], 2
    if shape == 1:
        rm = mem(size, 1, random.below(8), random.below(256) - 128)
        return 'MOV', [any_reg(size), rm], 1 + behind(rm)
    if shape == 2:
        rm = mem(ANY, 2, random.below(8), random.below(65536), random.one_of(PREFIXES))
        return 'MOV', [rm, any_reg(size)], 1 + behind(rm)
    if shape == 3:  # A0, A1: prefix, opcode, address
        return 'MOV', [reg(size, 0), address(size, prefix)], (prefix != 0) + 3
    if shape == 4:  # A2, A3
        return 'MOV', [address(size, prefix), reg(size, 0)], (prefix != 0) + 3
    if shape in (5, 6):
        return 'MOV', [any_reg(size), value(size)], 1 + size
    if shape == 7:
        rm = any_mem(size)
        return 'MOV', [rm, value(size)], 1 + behind(rm) + size
    rm = any_rm(WORD)
    if turn % 2:
        return 'MOV', [rm, seg(random.below(4))], 1 + behind(rm)
    return 'MOV', [seg(random.one_of([0, 2, 3])), rm], 1 + behind(rm)


def xchg(turn):
    if turn % 4 == 0:  # 90 + register
        pair = [reg(WORD, 0), any_reg(WORD)]
        return 'XCHG', pair if turn % 8 else pair[::-1], 1
    size = random.one_of([BYTE, WORD])
    if turn % 4 == 1:
        return 'XCHG', [reg(size, 1 + random.below(7)), reg(size, 1 + random.below(7))], 2
    rm = any_mem(size)
    pair = [any_reg(size), rm]
    return 'XCHG', pair if turn % 4 == 2 else pair[::-1], 1 + behind(rm)


def test(_):
    number = random.below(256)
    al = reg(BYTE, 0)
    al[7] = number
    return 'TEST', [al, imm(number)], 2


def push_pop(turn):
    operation = ['PUSH', 'POP'][turn % 2]
    if turn // 2 % 3:
        return operation, [any_reg(WORD)], 1
    return operation, [seg(random.one_of([0, 1, 2, 3] if operation == 'PUSH' else [0, 2, 3]))], 1


def lea_les_lds(turn):
    rm = any_mem(WORD)
    return ['LEA', 'LES', 'LDS'][turn % 3], [any_reg(WORD), rm], 1 + behind(rm)


def shifts(turn):
    size = random.one_of([BYTE, WORD])
    rm = any_rm(size)
    # The sizes of a shift and its count are compared by neither side for CL.
    return ['ROL', 'ROR', 'RCL', 'RCR', 'SHL', 'SHR', 'SAR'][turn % 7], [rm, imm(1) if turn % 2 else reg(BYTE, 1)], 1 + behind(rm)


def call_jmp(turn):
    operation = ['CALL', 'JMP'][turn % 2]
    shape = turn // 2 % 4
    if shape < 2:
        return operation, [imm(None, random.one_of([NONE, NEAR]))], 3
    if shape == 2 and operation == 'JMP':
        return operation, [imm(random.below(65536), FAR, random.below(65536))], 5
    rm = any_rm(WORD)
    return operation, [rm], 1 + behind(rm)


CONDITIONAL = 'JO JNO JB JNB JE JNE JBE JNBE JS JNS JP JNP JL JNL JLE JNLE LOOPNZ LOOPZ LOOP JCXZ'.split()


def conditional(turn):
    return CONDITIONAL[turn % 20], [imm(None, random.one_of([NONE, SHORT]))], 2


def interrupt(_):
    return 'INT', [value(BYTE)], 2


def xlatb(turn):
    prefix = random.one_of(PREFIXES) if turn % 2 else 0
    return 'XLATB', [mem(WORD, 0, 7, 0, prefix)], (prefix != 0) + 1


def in_out(turn):
    pair = [reg(random.one_of([BYTE, WORD]), 0), reg(WORD, 2) if turn // 2 % 2 else value(BYTE)]
    return ('IN', pair, 1 + (turn // 2 % 2 == 0)) if turn % 2 else ('OUT', pair[::-1], 1 + (turn // 2 % 2 == 0))


SINGLE = """RET DAA DAS AAA AAS NOP CBW CWD INT3 INTO IRET SALC HLT CMC CLC STC CLI STI CLD STD PUSHF POPF SAHF LAHF MOVSB CMPSB STOSB LODSB SCASB
MOVSW CMPSW STOSW LODSW SCASW LOCK REPNE REP""".split()


def single(turn):
    return SINGLE[turn % len(SINGLE)], [], 1


GROUPS = [(arithmetic, 180), (not_group, 60), (inc_dec, 60), (mov, 180), (xchg, 40), (test, 20), (push_pop, 80), (lea_les_lds, 40), (shifts, 60),
          (call_jmp, 60), (conditional, 80), (interrupt, 10), (xlatb, 10), (in_out, 60), (single, 60)]


def pack(place, operation, operands):
    # Spans as an assembler's source would give them.
    start = 24 * place
    spans = [(start + 6, start + 12), (start + 13, start + 20)]
    both = (operands + [imm(0), imm(0)])[:2]
    head = RECORD.pack(OPERATIONS.index(operation), len(operands), start, start + 22)
    return head + b''.join(OPERAND.pack(*operand, *span) for operand, span in zip(both, spans))


def main():
    records = [group(turn) for group, count in GROUPS for turn in range(count)]
    random.shuffle(records)
    starts, at = [], ORIGIN
    for _, _, length in records:
        starts.append(at)
        at += length
    for (operation, operands, length), offset in zip(records, starts):
        for operand in operands:
            if operand[7] is None:
                near = length == 3
                operand[7] = random.one_of([start for start in starts if near or -128 <= start - (offset + length) <= 127])
    sys.stdout.buffer.write(MARK + HEADER.pack(version_of(len(records)), ORIGIN, len(records)))
    for place, (operation, operands, _) in enumerate(records):
        sys.stdout.buffer.write(pack(place, operation, operands))


main()
