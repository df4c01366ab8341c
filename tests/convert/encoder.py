"""Document 01's encoder with document 02's Nos. 1, 2 and 4, for records without a repeat: the forms in the papers' groups and their order, and the questions. It is written from the papers, and
has to give the Rust's stored answers (convert.py)."""
import pathlib
import sys
import typing

sys.path.insert(0, str(pathlib.Path(__file__).resolve().parent.parent.parent / 'tools'))
from operations import BYTE, FAR, IMM, MEM, NEAR, NO_KIND, OPERAND, OPERATIONS, PREFIXES, RECORD, REG, SEG, SHORT, UNSPECIFIED, WORD


class Refused(Exception):
    def __init__(self, number, record=None):
        super().__init__(number, record)
        self.number, self.record = number, record


class Operand(typing.NamedTuple):
    kind: int
    size: int
    prefix: int
    displacement_size: int
    jump: int
    mode: int
    rm: int
    imm: int
    displacement: int
    start: int
    end: int


class Record(typing.NamedTuple):
    operation: str
    count: int
    span: tuple
    first: Operand
    second: Operand


def unpacked(record):
    """Of 56 bytes whose codes are known."""
    operation, count, *span = RECORD.unpack_from(record)
    return Record(OPERATIONS[operation], count, tuple(span), *(Operand(*OPERAND.unpack_from(record, RECORD.size + at)) for at in (0, OPERAND.size)))


ARITHMETIC = 'ADD OR ADC SBB AND SUB XOR CMP'.split()
NOT_GROUP = 'NOT NEG MUL IMUL DIV IDIV'.split()
SHIFTS = 'ROL ROR RCL RCR SHL SHR - SAR'.split()
CONDITIONS = 'JO JNO JB JNB JE JNE JBE JNBE JS JNS JP JNP JL JNL JLE JNLE'.split()
LOOPS = 'LOOPNZ LOOPZ LOOP JCXZ'.split()
WHOLE = {'LEA': 0x8D, 'LES': 0xC4, 'LDS': 0xC5}
ALONE = {
    'DAA': '27', 'DAS': '2F', 'AAA': '37', 'AAS': '3F', 'NOP': '90', 'CBW': '98', 'CWD': '99', 'WAIT': '9B', 'PUSHF': '9C', 'POPF': '9D', 'SAHF': '9E', 'LAHF': '9F', 'MOVSB': 'A4', 'MOVSW': 'A5',
    'CMPSB': 'A6', 'CMPSW': 'A7', 'STOSB': 'AA', 'STOSW': 'AB', 'LODSB': 'AC', 'LODSW': 'AD', 'SCASB': 'AE', 'SCASW': 'AF', 'INT3': 'CC', 'INTO': 'CE', 'IRET': 'CF', 'AAM': 'D40A', 'AAD': 'D50A',
    'SALC': 'D6', 'LOCK': 'F0', 'REPNE': 'F2', 'REP': 'F3', 'HLT': 'F4', 'CMC': 'F5', 'CLC': 'F8', 'STC': 'F9', 'CLI': 'FA', 'STI': 'FB', 'CLD': 'FC', 'STD': 'FD'}
DATA = {BYTE: (-128, 255, 1), WORD: (-32768, 65535, 2)}
# where either operand's size counts for both
PAIRED = [*ARITHMETIC, 'MOV', 'TEST', 'XCHG']


def is_within(displacement, size):
    return {UNSPECIFIED: displacement == 0, BYTE: -128 <= displacement <= 127, WORD: -32768 <= displacement <= 65535}[size]


def is_well_formed(o):
    if o.kind == IMM:
        return (o.prefix, o.mode, o.rm, o.displacement_size) == (0, 0, 0, UNSPECIFIED)
    if o.kind in (REG, SEG):
        return (o.mode, o.prefix, o.displacement, o.displacement_size) == (3, 0, 0, UNSPECIFIED) and (o.rm <= 7 if o.kind == REG else o.rm <= 3 and o.size == WORD)
    if o.mode > 2 or o.rm > 7 or o.prefix not in (0, *PREFIXES):
        return False
    size = {0: WORD if o.rm == 6 else UNSPECIFIED, 1: BYTE, 2: WORD}[o.mode]
    return o.displacement_size == size and is_within(o.displacement, size)


def little(value, length):
    return (value % 256**length).to_bytes(length, 'little')


def ask(answer, number):
    if not answer:
        raise Refused(number)


def in_range(value, low, high):
    ask(low <= value <= high, 5)


def data(value, size):
    low, high, length = DATA[size]
    in_range(value, low, high)
    return little(value, length)


def mod_rm(opcode, reg, o):
    """Prefix, opcode, ModRM and displacement of a register or memory."""
    length = {UNSPECIFIED: 0, BYTE: 1, WORD: 2}[o.displacement_size]
    return bytes([o.prefix] if o.kind == MEM and o.prefix else []) + bytes([opcode, o.mode << 6 | reg << 3 | o.rm]) + little(o.displacement, length)


def is_direct(o):
    return o.kind == MEM and (o.mode, o.rm) == (0, 6)


def paired_size(first, second):
    sizes = {first.size, second.size} - {UNSPECIFIED}
    ask(sizes, 2)
    ask(len(sizes) == 1, 3)
    return sizes.pop()


def registers_and_memory(base, size, first, second):
    """Of two registers the second stands in reg."""
    word = size == WORD
    if second.kind == REG and first.kind in (REG, MEM):
        return mod_rm(base + word, second.rm, first)
    if first.kind == REG and second.kind == MEM:
        return mod_rm(base + 2 + word, first.rm, second)
    raise Refused(1)


def arithmetic(number, size, first, second):
    base, word = 8 * number, size == WORD
    if second.kind != IMM or first.kind not in (REG, MEM):
        return registers_and_memory(base, size, first, second)
    if word and -128 <= second.imm <= 127:
        return mod_rm(0x83, number, first) + little(second.imm, 1)
    if first.kind == REG and first.rm == 0:
        return bytes([base + 4 + word]) + data(second.imm, size)
    return mod_rm(0x80 + word, number, first) + data(second.imm, size)


def move(size, first, second):
    word = size == WORD
    for opcode, register, memory in ((0xA0, first, second), (0xA2, second, first)):
        if register.kind == REG and register.rm == 0 and is_direct(memory):
            in_range(memory.displacement, 0, 65535)
            return bytes([memory.prefix] if memory.prefix else []) + bytes([opcode + word]) + little(memory.displacement, 2)
    if second.kind == IMM and first.kind == REG:
        return bytes([(0xB8 if word else 0xB0) + first.rm]) + data(second.imm, size)
    if second.kind == IMM and first.kind == MEM:
        return mod_rm(0xC6 + word, 0, first) + data(second.imm, size)
    if second.kind == SEG and first.kind in (REG, MEM):
        return mod_rm(0x8C, second.rm, first)
    if first.kind == SEG and second.kind in (REG, MEM):
        ask(first.rm != 1, 1)
        return mod_rm(0x8E, first.rm, second)
    return registers_and_memory(0x88, size, first, second)


def exchange(size, first, second):
    if first.kind == REG and second.kind == REG:
        if size == WORD and 0 in (first.rm, second.rm):
            return bytes([0x90 + first.rm + second.rm])
        return mod_rm(0x86 + (size == WORD), first.rm, second)
    register, memory = (first, second) if first.kind == REG else (second, first)
    ask((register.kind, memory.kind) == (REG, MEM), 1)
    return mod_rm(0x86 + (size == WORD), register.rm, memory)


def test(size, first, second):
    word = size == WORD
    if second.kind == IMM and first.kind in (REG, MEM):
        opcode = bytes([0xA8 + word]) if first.kind == REG and first.rm == 0 else mod_rm(0xF6 + word, 0, first)
        return opcode + data(second.imm, size)
    # no first and second between a register and memory
    register, other = (first, second) if (first.kind, second.kind) == (REG, MEM) else (second, first)
    ask(register.kind == REG and other.kind in (REG, MEM), 1)
    return mod_rm(0x84 + word, register.rm, other)


def push_or_pop(is_pop, o):
    if is_pop:
        ask(o.size == WORD, 4)
        ask(o.kind != IMM, 4)
    if o.kind == SEG:
        ask(not (is_pop and o.rm == 1), 1)
        return bytes([6 + is_pop + 8 * o.rm])
    ask(o.kind in (REG, MEM) and o.size == WORD, 1)
    if o.kind == REG:
        return bytes([(0x58 if is_pop else 0x50) + o.rm])
    return mod_rm(0x8F, 0, o) if is_pop else mod_rm(0xFF, 6, o)


def shift(number, first, second):
    ask(first.size != UNSPECIFIED, 2)
    ask(first.kind in (REG, MEM), 1)
    word = first.size == WORD
    if second.kind == IMM and second.imm == 1:
        return mod_rm(0xD0 + word, number, first)
    ask((second.kind, second.rm, second.size) == (REG, 1, BYTE), 1)
    return mod_rm(0xD2 + word, number, first)


def distance_byte(opcode, target, offset):
    distance = target - (offset + 2)
    ask(-128 <= distance <= 127, 6)
    return bytes([opcode]) + little(distance, 1)


def call_or_jump(is_jump, o, offset):
    if o.kind == IMM and is_jump:
        in_range(o.imm, 0, 65535)
        if o.jump == SHORT:
            return distance_byte(0xEB, o.imm, offset)
        if o.jump == FAR:
            in_range(o.displacement, 0, 65535)
            return bytes([0xEA]) + little(o.imm, 2) + little(o.displacement, 2)
    if o.kind == IMM:
        ask(o.jump in (NO_KIND, NEAR), 1)
        in_range(o.imm, 0, 65535)
        return bytes([0xE9 if is_jump else 0xE8]) + little(o.imm - (offset + 3), 2)
    ask(o.kind in (REG, MEM) and o.size != BYTE, 1)
    if o.jump in (NO_KIND, NEAR):
        return mod_rm(0xFF, 4 if is_jump else 2, o)
    ask(not is_jump and o.kind == MEM and o.jump == FAR, 1)
    return mod_rm(0xFF, 3, o)


def port(base, accumulator, other):
    ask((accumulator.kind, accumulator.rm) == (REG, 0) and accumulator.size != UNSPECIFIED, 1)
    word = accumulator.size == WORD
    if other.kind == IMM:
        in_range(other.imm, 0, 255)
        return bytes([base + word, other.imm])
    ask((other.kind, other.rm, other.size) == (REG, 2, WORD), 1)
    return bytes([base + 8 + word])


def encode(record, offset):
    """The bytes of a record at an offset; or Refused, with the number alone."""
    operation, first, second = record.operation, record.first, record.second
    ask(record.count <= 2, 8)
    ask(is_well_formed(first) and is_well_formed(second), 8)
    ask(operation not in ('INT1', 'ESC'), 7)
    if operation in ALONE:
        return bytes.fromhex(ALONE[operation])
    if operation in PAIRED:
        size = paired_size(first, second)
        if operation in ARITHMETIC:
            return arithmetic(ARITHMETIC.index(operation), size, first, second)
        return {'MOV': move, 'TEST': test, 'XCHG': exchange}[operation](size, first, second)
    if operation in NOT_GROUP:
        ask(first.size != UNSPECIFIED, 2)
        ask(first.kind in (REG, MEM), 1)
        return mod_rm(0xF6 + (first.size == WORD), 2 + NOT_GROUP.index(operation), first)
    if operation in ('INC', 'DEC'):
        ask(first.size != UNSPECIFIED, 4)
        ask(first.kind in (REG, MEM), 1)
        if (first.kind, first.size) == (REG, WORD):
            return bytes([(0x40 if operation == 'INC' else 0x48) + first.rm])
        return mod_rm(0xFE + (first.size == WORD), operation == 'DEC', first)
    if operation in ('PUSH', 'POP'):
        return push_or_pop(operation == 'POP', first)
    if operation in WHOLE:
        ask((first.kind, first.size, second.kind) == (REG, WORD, MEM), 1)
        return mod_rm(WHOLE[operation], first.rm, second)
    if operation in SHIFTS:
        return shift(SHIFTS.index(operation), first, second)
    if operation in CONDITIONS or operation in LOOPS:
        ask(first.kind == IMM and first.jump in (NO_KIND, SHORT), 1)
        opcode = 0x70 + CONDITIONS.index(operation) if operation in CONDITIONS else 0xE0 + LOOPS.index(operation)
        return distance_byte(opcode, first.imm, offset)
    if operation in ('CALL', 'JMP'):
        return call_or_jump(operation == 'JMP', first, offset)
    if operation == 'INT':
        ask(first.kind == IMM, 1)
        in_range(first.imm, 0, 255)
        return bytes([0xCD, first.imm])
    if operation == 'RET':
        if record.count == 0:
            return bytes([0xC3])
        ask(first.kind == IMM, 1)
        in_range(first.imm, 0, 65535)
        return bytes([0xC2]) + little(first.imm, 2)
    if operation == 'XLATB':
        ask(first.size == WORD, 4)
        ask((first.kind, first.mode, first.rm) == (MEM, 0, 7), 1)
        return bytes([first.prefix] if first.prefix else []) + bytes([0xD7])
    if operation == 'IN':
        return port(0xE4, first, second)
    return port(0xE6, second, first)
