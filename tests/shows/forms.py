"""The text that fsqform has to print, from the text that fsqlist has to print and the show file (document 02, Nos. 3 and 11). The rows are the SDM's opcode column and the
limits those of documents 01 and 02, written out by opcode: nothing here is taken from our encoder, reader or definitions."""
import pathlib
import sys

sys.path.insert(0, str(pathlib.Path(__file__).resolve().parent.parent.parent / 'tools'))
from operations import (
    BYTE, FIRST, HEADER, IMM, MARK, MEM, OPERAND, OPERATIONS, PREFIXES, REG, REPEAT, REPEATS, REPEAT_VERSION, SECOND, SEG, UNSPECIFIED, WORD)

KIND_NAMES = {IMM: 'Imm', REG: 'Reg', SEG: 'Seg', MEM: 'Mem'}
SIZE_NAMES = {UNSPECIFIED: 'Unspecified', BYTE: 'Byte', WORD: 'Word'}
NO_LIMITS, SIGNED_BYTE, DATA_BYTE, DATA_WORD, NUMBER, ADDRESS = '-', '-128..127', '-128..255', '-32768..65535', '0..255', '0..65535'
# opcodes; the /n of the opcode column, where it has them; how many operands are used; limits
ROWS = [
    ('00-03 08-0B 10-13 18-1B 20-23 28-2B 30-33 38-3B', '', 2, NO_LIMITS),  # ADD to CMP, /r
    ('04 0C 14 1C 24 2C 34 3C', '', 2, DATA_BYTE),
    ('05 0D 15 1D 25 2D 35 3D', '', 2, DATA_WORD),
    ('06 0E 16 1E 07 17 1F', '', 1, NO_LIMITS),  # PUSH, POP of a segment register
    ('27 2F 37 3F', '', 0, NO_LIMITS),
    ('40-5F', '', 1, NO_LIMITS),
    ('70-7F E0-E3', '', 1, NO_LIMITS),  # what is asked of their target is the distance
    ('80', '0-7', 2, DATA_BYTE),
    ('81', '0-7', 2, DATA_WORD),
    ('83', '0-7', 2, SIGNED_BYTE),
    ('84-8B', '', 2, NO_LIMITS),
    ('8C-8E', '', 2, NO_LIMITS),  # the reg field is an operand
    ('8F', '0', 1, NO_LIMITS),
    ('90', '', 0, NO_LIMITS),  # as XCHG: below
    ('91-97', '', 2, NO_LIMITS),
    ('98-99 9B-9F', '', 0, NO_LIMITS),
    ('A0-A3', '', 2, NO_LIMITS),  # an address is no immediate
    ('A4-A7 AA-AF', '', 0, NO_LIMITS),
    ('A8', '', 2, DATA_BYTE),
    ('A9', '', 2, DATA_WORD),
    ('B0-B7', '', 2, DATA_BYTE),
    ('B8-BF', '', 2, DATA_WORD),
    ('C2', '', 1, ADDRESS),
    ('C3', '', 0, NO_LIMITS),
    ('C4-C5', '', 2, NO_LIMITS),
    ('C6', '0', 2, DATA_BYTE),
    ('C7', '0', 2, DATA_WORD),
    ('CC CE-CF', '', 0, NO_LIMITS),
    ('CD', '', 1, NUMBER),
    ('D0-D3', '0-5 7', 2, NO_LIMITS),
    ('D4-D6', '', 0, NO_LIMITS),
    ('D7', '', 1, NO_LIMITS),
    ('E4-E7', '', 2, NUMBER),
    ('E8-EB', '', 1, ADDRESS),
    ('EC-EF', '', 2, NO_LIMITS),
    ('F0 F2-F5 F8-FD', '', 0, NO_LIMITS),
    ('F6', '0', 2, DATA_BYTE),  # TEST
    ('F7', '0', 2, DATA_WORD),
    ('F6-F7', '2-7', 1, NO_LIMITS),
    ('FE', '0-1', 1, NO_LIMITS),
    ('FF', '0-4 6', 1, NO_LIMITS),
]
# the question of documents 01 and 02 that gives a refusal; 4 is below
QUESTIONS = {8: 1, 23: 1, 7: 2, 2: 3, 3: 4, 1: 5, 5: 6, 6: 7}
POP, XCHG = OPERATIONS.index('POP'), OPERATIONS.index('XCHG')


def numbers(text):
    for part in text.split():
        low, _, high = part.partition('-')
        yield from range(int(low, 16), int(high or low, 16) + 1)


TABLE = {(opcode, digit): (used, limits)
    for opcodes, digits, used, limits in ROWS for opcode in numbers(opcodes) for digit in (numbers(digits) if digits else [None])}


def record(packed, k):
    """The record's fields where 56 bytes have them, and its repeat, or 0."""
    version, *_ = HEADER.unpack_from(packed, len(MARK))
    has_repeat = version == REPEAT_VERSION
    length = SECOND + OPERAND.size + has_repeat
    own = packed[len(MARK) + HEADER.size + length * k:][:length]
    return (own[:REPEAT] + own[REPEAT + 1:], own[REPEAT]) if has_repeat else (own, 0)


def behind_prefixes(written):
    """The bytes from the opcode on. F2 or F3 is one by itself where nothing follows it."""
    is_before = written[0] in PREFIXES or written[0] in REPEATS.values() and len(written) > 1
    return written[1:] if is_before else written


def head(written):
    """Opcode and /n of the bytes, the key of the table."""
    written = behind_prefixes(written)
    return (written[0], None) if (written[0], None) in TABLE else (written[0], written[1] // 8 % 8)


def form(written, record):
    opcode, digit = head(written)
    used, limits = TABLE[opcode, digit]
    if opcode == 0x90 and record[0] == XCHG:
        used = 2
    operands = [f'{KIND_NAMES[record[at]]}:{SIZE_NAMES[record[at + 1]]}' for at in (FIRST, SECOND)[:used]]
    return ' '.join(['form', f'{opcode:02X}', *([] if digit is None else [f'/{digit}']), *operands, limits])


def question(number, record):
    # POP of an immediate is asked for its size first: one that states Word has no form, the others fail in question 3, as all else that 4 is given for.
    is_5 = (record[0], *record[FIRST:FIRST + 2]) == (POP, IMM, WORD)
    return f'question {5 if number == 4 and is_5 else 3 if number == 4 else QUESTIONS[number]}'


def text(packed, listing, stated=()):
    """stated has the lines of records that are written out by hand, by the record's number: the derived line must be the same."""
    first, *rest = listing.splitlines()
    if first.startswith('refused'):
        _, number, k = first.split()
        below = {} if int(number) in range(12, 16) else {int(k): question(int(number), record(packed, int(k))[0])}
        lines = [first, *below.values()]
    else:
        below = {k: form(bytes.fromhex(line.split()[2]), record(packed, k)[0]) for k, line in enumerate(rest)}
        lines = [first, *(part for k, line in enumerate(rest) for part in (line, below[k]))]
    for k, line in dict(stated).items():
        assert below.get(k) == line, (k, line, below.get(k))
    return '\n'.join(lines) + '\n'
