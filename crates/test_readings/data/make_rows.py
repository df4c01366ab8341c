#!/usr/bin/env python3
"""Writes the rows of test_readings to standard output: make_rows.py > ../stdin (needs ndisasm, of nasm 2.16).

After a heading a row is a string of up to 8 bytes, the instruction in words, where the answer comes from, and then in hexadecimal the string's length and what has to be read
of it at offset 0100: the answer (0: an instruction, or document 01's number 10 or 11), length, operation (002's number), width (0 none, 1 byte, 2 word),
the form's opcode, extension (0 none, 1 +r, 2 + segment, 3 /r, 4 /n, 5 0A) and digit, then each operand: kind (0 none, 1 register,
2 segment register, 3 memory, 4 immediate, 5 near, 6 far, 7 the constant 1), number or base, value low and high, segment.

Where the values come from: operation, width, operands and length from ndisasm's text; the form from the opcode column of the Intel SDM
(FORMS below); LOCK, REP and REPNE, which ndisasm takes for prefixes, and the refusals from documents 01 and 02. XCHG's operands are put in the
order that makes the same instructions equal (register first, the lower first; AX,AX is NOP), and so is TEST's register before its memory, while its
two registers keep their order. A far CALL through memory has no width, a near one is a word."""
import pathlib, re, subprocess, sys, tempfile

sys.path.insert(0, str(pathlib.Path(__file__).resolve().parents[3] / 'tools'))
from operations import OPERATIONS

# ndisasm's names where they are not 002's
NAMES = dict(jz='JE', jnz='JNE', jc='JB', jnc='JNB', jna='JBE', ja='JNBE', jpe='JP', jpo='JNP', jnl='JNL', jng='JLE', jg='JNLE',
    loope='LOOPZ', loopne='LOOPNZ', retn='RET', ret='RET')
BYTES = 'al cl dl bl ah ch dh bh'.split()
WORDS = 'ax cx dx bx sp bp si di'.split()
SEGMENTS = 'es cs ss ds'.split()
BASES = {'bx+si': 0, 'bx+di': 1, 'bp+si': 2, 'bp+di': 3, 'si': 4, 'di': 5, 'bp': 6, 'bx': 7, '': 8}

# the opcode column: (first bytes, extension, digits, bytes of immediate behind the ModRM byte or the opcode)
NONE, PLUS_R, PLUS_S, SLASH_R, DIGIT, SECOND = range(6)
FORMS = []
for b in range(0, 0x40, 8):
    FORMS += [((b, b + 1, b + 2, b + 3), SLASH_R, (), 0), ((b + 4,), NONE, (), 1), ((b + 5,), NONE, (), 2)]
FORMS += [((0x80,), DIGIT, range(8), 1), ((0x81,), DIGIT, range(8), 2), ((0x83,), DIGIT, range(8), 1)]
FORMS += [((0x86, 0x87, 0x88, 0x89, 0x8A, 0x8B, 0x8C, 0x8D, 0x8E, 0xC4, 0xC5), SLASH_R, (), 0)]
FORMS += [((0xC6,), DIGIT, (0,), 1), ((0xC7,), DIGIT, (0,), 2), ((0xD0, 0xD1, 0xD2, 0xD3), DIGIT, (0, 1, 2, 3, 4, 5, 7), 0)]
FORMS += [((0xF6, 0xF7), DIGIT, range(2, 8), 0), ((0xFE,), DIGIT, (0, 1), 0), ((0xFF,), DIGIT, (0, 1, 2, 4), 0)]
FORMS += [(range(0x40, 0x60), PLUS_R, (), 0), (range(0x90, 0x98), PLUS_R, (), 0), (range(0xB0, 0xB8), PLUS_R, (), 1), (range(0xB8, 0xC0), PLUS_R, (), 2)]
FORMS += [((0x06, 0x0E, 0x16, 0x1E, 0x07, 0x17, 0x1F), PLUS_S, (), 0), (range(0xA0, 0xA4), NONE, (), 2), ((0xA8, 0xCD), NONE, (), 1)]
FORMS += [(range(0x70, 0x80), NONE, (), 1), (range(0xE0, 0xE8), NONE, (), 1), ((0xE8, 0xE9), NONE, (), 2), ((0xEA,), NONE, (), 4)]
FORMS += [((0xD4, 0xD5), SECOND, (), 0), (range(0xEC, 0xF0), NONE, (), 0), ((0xD7,), NONE, (), 0)]
FORMS += [((0x27, 0x2F, 0x37, 0x3F, 0x98, 0x99, 0x9C, 0x9D, 0x9E, 0x9F, 0xA4, 0xA5, 0xA6, 0xA7, 0xAA, 0xAB, 0xAC, 0xAD, 0xAE, 0xAF, 0xC3, 0xCC, 0xCE, 0xCF, 0xD6,
    0xF0, 0xF2, 0xF3, 0xF4, 0xF5, 0xF8, 0xF9, 0xFA, 0xFB, 0xFC, 0xFD), NONE, (), 0)]
# document 02, No. 1: TEST, PUSH and POP of memory, RET with a word, CALL through far memory, JMP short, WAIT
FORMS += [((0x84, 0x85), SLASH_R, (), 0), ((0xA9,), NONE, (), 2), ((0xF6,), DIGIT, (0,), 1), ((0xF7,), DIGIT, (0,), 2), ((0x8F,), DIGIT, (0,), 0)]
FORMS += [((0xFF,), DIGIT, (3, 6), 0), ((0xC2,), NONE, (), 2), ((0xEB,), NONE, (), 1), ((0x9B,), NONE, (), 0)]

# the digits that a first byte has, by all of its forms; 8C takes no segment register above 3, and 8E never CS
DIGITS = {c: {n for firsts, _, digits, _ in FORMS if c in firsts for n in digits} for c in range(256)} | {0x8C: range(4), 0x8E: (0, 2, 3)}
# memory only
NO_MODE_3 = [(c, n) for c in (0x8D, 0xC4, 0xC5) for n in range(8)] + [(0xFF, 3)]

def operand(text, override):
    """kind, number or base, value low, value high, segment; and the width that the operand shows"""
    t = text.strip()
    width = 0
    for word, w in (('byte ', 1), ('word ', 2), ('short ', 0), ('near ', 0), ('far ', 0)):
        if t.startswith(word): t, width = t[len(word):], w
    if t in BYTES: return (1, BYTES.index(t), 0, 0, 0), 1
    if t in WORDS: return (1, WORDS.index(t), 0, 0, 0), 2
    if t in SEGMENTS: return (2, SEGMENTS.index(t), 0, 0, 0), 2
    if t.startswith('['):
        t = t[1:-1]
        m = re.match(r'(es|cs|ss|ds):', t)
        if m: override, t = m[1], t[3:]
        m = re.fullmatch(r'([a-z+]*?)([+-]?0x[0-9a-f]+)?', t)
        base, value = m[1], int(m[2] or '0', 16) % 65536
        segment = override or ('ss' if 'bp' in base else 'ds')
        return (3, BASES[base], value % 256, value // 256, SEGMENTS.index(segment)), width
    if ':' in t:
        segment, value = (int(x, 16) for x in t.split(':'))
        return (6, segment % 256, value % 256, value // 256, segment // 256), 0
    value = int(t, 16) % 65536
    return (4, 0, value % 256, value // 256, 0), width

def disassembled(string):
    with tempfile.NamedTemporaryFile() as f:
        f.write(bytes(string)); f.flush()
        line = subprocess.run(['ndisasm', '-b', '16', '-o', '0x100', f.name], capture_output=True, text=True).stdout.split('\n')[0]
    _, code, text = line.split(None, 2)
    override = None
    m = re.match(r'(es|cs|ss|ds) (.*)', text)
    if m: override, text = m[1], m[2]
    name, _, rest = text.partition(' ')
    operation = NAMES.get(name, name.upper())
    if operation in ('JMP', 'CALL') and rest.startswith('word '): rest = rest[5:]
    texts = rest.split(',') if rest else []
    found = [operand(t, override) for t in texts]
    width = next((w for o, w in found if w), 0)
    ops = [o for o, w in found]
    if operation[0] == 'J' or operation in ('CALL', 'LOOP', 'LOOPZ', 'LOOPNZ'):
        if ops[0][0] == 4: ops[0], width = (5,) + ops[0][1:], 0
        elif ops[0][0] == 6 or rest.startswith('far '): width = 0
        else: width = 2
    if operation in ('ROL', 'ROR', 'RCL', 'RCR', 'SHL', 'SHR', 'SAR'):
        width = found[0][1]
        if ops[1][0] == 4: ops[1] = (7, 0, 0, 0, 0)
    if operation in ('IN', 'OUT'): width = found[0][1] if operation == 'IN' else found[1][1]
    if operation == 'INT': width = 0
    if operation in ('LEA', 'LES', 'LDS'): width = 2
    if operation == 'XLATB': ops, width = [(3, 7, 0, 0, SEGMENTS.index(override or 'ds'))], 1
    if operation in ('AAM', 'AAD'): ops, width = [], 0
    if operation == 'XCHG':
        ops.sort(key=lambda o: (o[0] != 1, o[1]))
        if width == 2 and ops[0] == ops[1] == (1, 0, 0, 0, 0): operation, ops, width = 'NOP', [], 0
    if operation == 'TEST' and [o[0] for o in ops] == [3, 1]: ops.reverse()
    ops += [(0, 0, 0, 0, 0)] * (2 - len(ops))
    return len(code) // 2, OPERATIONS.index(operation), width, ops, f'{override + " " if override else ""}{text}'

ROWS = {}

def row(string, words, source, expected):
    """Each string once."""
    assert ROWS.setdefault(bytes(string), (words, source, expected))[2] == expected, string

def refused(string, number): row(string, {10: 'no instruction', 11: 'not complete'}[number], 'document 01', [number] + [0] * 16)

def whole(string, form):
    if len(string) == 1 and string[0] in (0xF0, 0xF2, 0xF3):
        words, source = {0xF0: 'LOCK', 0xF2: 'REPNE', 0xF3: 'REP'}[string[0]], 'document 01'
        length, operation, width, ops = 1, OPERATIONS.index(words), 0, [(0, 0, 0, 0, 0)] * 2
    else:
        length, operation, width, ops, words = disassembled(string)
        source = 'ndisasm'
    assert length == len(string), string
    expected = [0, length, operation, width, *form, *ops[0], *ops[1]]
    row(string, words, source, expected)
    # of some, and of each single byte: a byte behind it is not looked at. Without its last byte none is complete
    if len(string) == 1 or len(string) < 8 and sum(string) % 4 == 0: row(string + [0x82], f'{words}, and 82', source, expected)
    if len(string) > 1: refused(string[:-1], 11)

def values(n, seed): return [(0x85 + 0x37 * (seed + i)) % 256 for i in range(n)]

def line(string, words, source, numbers):
    assert len(words) <= 47, words
    print(f'{string:24}{words:48}{source:12}{numbers:53}')

def main():
    count = 0
    for firsts, extension, digits, immediate in FORMS:
        for c in firsts:
            form = [{PLUS_R: c // 8 * 8, PLUS_S: c % 8}.get(extension, c), extension]
            if extension in (NONE, PLUS_R, PLUS_S):
                string = [c] + values(immediate, c)
                whole(string, form + [0])
                if c in (0xA0, 0xA1, 0xA2, 0xA3, 0xD7):
                    for p in (0x26, 0x2E, 0x36, 0x3E): whole([p] + string, form + [0])
                else: refused([0x2E] + string, 10)
            elif extension == SECOND:
                whole([c, 0x0A], form + [0])
                for x in (0x00, 0x0B, 0xA0): refused([c, x], 10)
            else:
                for n in range(8):
                    if n not in (DIGITS[c] or range(8)):
                        for mode in range(4): refused([c, 64 * mode + 8 * n + 1, 0, 0, 0, 0], 10)
                        continue
                    if extension == DIGIT and n not in digits: continue
                    if extension == SLASH_R and c not in (0x8C, 0x8E) and n not in (c % 8, 3): continue
                    for mode in range(4):
                        for rm in (range(8) if c == 0x8B and n == 3 else {(c + n + 2 * mode) % 8, 6 if mode == n % 4 else 3}):
                            x = 64 * mode + 8 * n + rm
                            displacement = [2 if rm == 6 else 0, 1, 2, 0][mode]
                            string = [c, x] + values(displacement + immediate, c + x)
                            if mode == 3 and (c, n) in NO_MODE_3: refused(string, 10); continue
                            whole(string, form + [n if extension == DIGIT else 0])
                            count += 1
                            p = (0x26, 0x2E, 0x36, 0x3E)[count % 4]
                            if mode == 3: refused([p] + string, 10)
                            elif mode < 3 and rm == 6: whole([p] + string, form + [n if extension == DIGIT else 0])
    # the limits of RET's word, of TEST's and of a short distance
    for c in (0xA9, 0xC2):
        for x in (0, 255): whole([c, x, x], [c, NONE, 0])
    for x in (0x00, 0x7F, 0x80, 0xFE): whole([0xEB, x], [0xEB, NONE, 0])
    # a prefix and a first byte: memory may follow, or not
    for c in (0x84, 0x85, 0x8F, 0xF6, 0xF7, 0xFF): refused([0x26, c], 11)
    for c in (0x9B, 0xA9, 0xC2, 0xEB): refused([0x26, c], 10)
    refused([0x26, 0xFF, 0xDF], 10)
    # first bytes that the table does not have, and no bytes
    for c in [0x0F, *range(0x60, 0x70), 0x82, 0x9A, 0xC0, 0xC1, 0xC8, 0xC9, 0xCA, 0xCB, *range(0xD8, 0xE0), 0xF1]: refused([c], 10)
    for p in (0x26, 0x2E, 0x36, 0x3E):
        refused([p], 11)
        refused([p, p], 10)
    refused([], 11)
    line('string', 'instruction', 'from', 'n  no length, operation, width, form, operands')
    for string, (words, source, expected) in ROWS.items():
        line(string.hex(' ').upper(), words, source, bytes([len(string), *expected]).hex(' ').upper())

main()
