#!/usr/bin/env python3
"""make.py DIR writes every show of this folder, and the cases of the gate, to DIR: NAME.fsq, the show file, NAME.out, what fsqlist has to print, and NAME.forms,
what fsqform has to print.
make.py --long N NAME [VERSION] writes NAME.fsq, a show of N records, of the version that N has or of version 3, and NAME.image, the image that it has to give.
make.py --assemble compares the bytes of this folder's shows, and of the long ones, with those of GNU as and of NASM.

A show stands as text in NAME.txt, a line for each record: the instruction, a bar, and its bytes or 'refused N'. A second bar and fsqform's line may follow.
'far', 'near' or 'short' before an operand is its jump kind, REP or REPNE before another operation its repeat. The listing is made from the lengths of those bytes
alone. Before the records may stand 'origin N', 'version N' (else it is 1; the records of version 3 are written with their repeat), 'count N' (where it is not the
records'), 'bytes 56' or 'bytes 57' (where a record's are not the version's) and 'mark BYTES'; 'field NAME N' behind a record sets a byte of it, 'answer' gives its
answer again, 'cut N' leaves N bytes of the file, 'more N' adds N zeros. 'refused N -' behind the records is the answer of the whole file. Numbers are decimal."""
import pathlib
import re
import subprocess
import sys
import tempfile

HERE = pathlib.Path(__file__).resolve().parent
ROOT = HERE.parent.parent
sys.path.insert(0, str(ROOT / 'tools'))
import forms
from operations import (
    BASES, BYTE, BYTE_REGISTERS, FAR, FIRST, HEADER, IMM, KINDS, JUMPS, MARK, MEM, NEAR, NO_KIND, OPERAND, OPERATIONS, RECORD, REG, SECOND, SEG, SEGMENTS, SHORT,
    REPEAT, REPEATS, REPEAT_VERSION, SIZES, TEXT_RECORDS, UNSPECIFIED, WORD, WORD_REGISTERS, version_of, with_repeat)

STORED = {name: ROOT / f'crates/test_vectors/data/{name}.txt' for name in ('bench_sheet', 'sample')}
FIRST_BRANCH, LAST_BRANCH = OPERATIONS.index('CALL'), OPERATIONS.index('JCXZ')
SAID_SIZES = {'': UNSPECIFIED, 'byte': BYTE, 'word': WORD}
SAID_JUMPS = {'': NO_KIND, 'far': FAR, 'near': NEAR, 'short': SHORT}
PLAIN_BYTES = SECOND + OPERAND.size
REPEATED_BYTES = PLAIN_BYTES + 1
# by their places in 56 bytes; the repeat, which those do not have, is set by itself
FIELDS = {'operation': 0, 'count': 1}
for number, start in (('1', FIRST), ('2', SECOND)):
    for place, name in enumerate(['kind', 'size', 'prefix', 'displacement-size', 'jump', 'mode', 'rm']):
        FIELDS[name + number] = start + place


def operand(text):
    kind, size, prefix, disp_size, mode, rm, imm, disp = IMM, UNSPECIFIED, 0, UNSPECIFIED, 0, 0, 0, 0
    jump, text = re.fullmatch(r'(far|near|short)? ?(.*)', text).groups(default='')
    memory = re.fullmatch(r'(byte|word)? ?\[(.*)\]', text)
    if text in BYTE_REGISTERS:
        kind, size, mode, rm = REG, BYTE, 3, BYTE_REGISTERS.index(text)
    elif text in WORD_REGISTERS:
        kind, size, mode, rm = REG, WORD, 3, WORD_REGISTERS.index(text)
    elif text in SEGMENTS:
        kind, size, mode, rm = SEG, WORD, 3, SEGMENTS.index(text)
    elif memory:
        kind, size = MEM, SAID_SIZES[memory[1] or '']
        base, disp = re.fullmatch(r'([A-Z]{2}(?:\+[A-Z]{2})?)?\+?(\d*)', memory[2]).groups()
        disp = int(disp or 0)
        if not base:
            mode, rm, disp_size = 0, 6, WORD
        else:
            rm = BASES.index(base)
            mode, disp_size = (0, UNSPECIFIED) if disp == 0 and base != 'BP' else (1, BYTE) if disp < 128 else (2, WORD)
    else:
        imm = int(text)
    return OPERAND.pack(kind, size, prefix, disp_size, SAID_JUMPS[jump], mode, rm, imm, disp, 0, 0)


def bytes_of(version):
    return REPEATED_BYTES if version == REPEAT_VERSION else PLAIN_BYTES


def record(text):
    """Its 56 bytes, and its repeat or 0."""
    operation, _, rest = text.partition(' ')
    repeat = 0
    if operation in REPEATS and rest:
        repeat = REPEATS[operation]
        operation, _, rest = rest.partition(' ')
    operands = [operand(o.strip()) for o in rest.split(',')] if rest else []
    unused = operand('0')
    return bytearray(RECORD.pack(OPERATIONS.index(operation), len(operands), 0, 0) + b''.join((operands + [unused] * 2)[:2])), repeat


def show(text):
    """The file, its listing and its text with forms."""
    mark, version, origin, count, each, records, repeats, answers, below, cut, more = MARK, 1, 0, None, None, [], [], [], {}, None, 0

    def answer(said):
        said, _, line = (part.strip() for part in said.partition('|'))
        answers.append(said)
        if line:
            below[len(records) - 1] = line

    for line in text.splitlines():
        line = line.split('#')[0].strip()
        words = line.split()
        if not line:
            continue
        if '|' in line and words[0] != 'answer':
            instruction, _, said = line.partition('|')
            packed, repeat = record(instruction.strip())
            records.append(packed)
            repeats.append(repeat)
            answer(said)
        elif words[0] == 'record':  # a record's own bytes, 56 or with its repeat 57, then its answer
            own = bytearray.fromhex(words[1])
            repeats.append(own.pop(REPEAT) if len(own) == REPEATED_BYTES else 0)
            records.append(own)
            answer(' '.join(words[2:]))
        elif words[:2] == ['field', 'repeat']:
            repeats[-1] = int(words[2])
        elif words[0] == 'field':
            records[-1][FIELDS[words[1]]] = int(words[2])
        elif words[0] == 'answer':
            answers.pop()
            answer(line[len('answer'):])
        elif words[0] == 'mark':
            mark = bytes.fromhex(''.join(words[1:]))
        elif words[0] == 'version':
            version = int(words[1])
        elif words[0] == 'origin':
            origin = int(words[1])
        elif words[0] == 'count':
            count = int(words[1])
        elif words[0] == 'bytes':
            each = int(words[1])
        elif words[0] == 'cut':
            cut = int(words[1])
        elif words[0] == 'more':
            more = int(words[1])
        elif words[0] == 'refused':
            answers = [line]
            break
        else:
            raise ValueError(line)
    if (each or bytes_of(version)) == REPEATED_BYTES:
        records = [with_repeat(own, repeat) for own, repeat in zip(records, repeats)]
    else:
        assert not any(repeats), 'a repeat needs version 3'
    packed = mark + HEADER.pack(version, origin, len(records) if count is None else count) + b''.join(records) + bytes(more)
    refusal = text_refusal(answers)
    if refusal:
        return packed[:cut], refusal, forms.text(packed, refusal, below)
    lines, offset = [f'FSQ {version} {origin:04X} {len(records)}'], origin
    for said in answers:
        written = bytes.fromhex(said)
        lines.append(f'{offset:04X} {len(written)} {written.hex().upper()}')
        offset = (offset + len(written)) % 65536
    listing = '\n'.join(lines) + '\n'
    return packed[:cut], listing, forms.text(packed, listing, below)


def text_refusal(answers):
    """The line of the first refused record, 15 before the others; 'refused N -' stands for the whole file."""
    told = [(int(a.split()[1]), k, a) for k, a in enumerate(answers) if a.startswith('refused')]
    if not told:
        return None
    number, k, answer = min(told, key=lambda t: (t[0] != 15, t[1]))
    return f'{answer}\n' if answer.endswith('-') else f'refused {number} {k}\n'


# ---- document 02, No. 11: the ten string operations and the SDM's bytes of them
STRINGS = {'MOVSB': 'A4', 'MOVSW': 'A5', 'CMPSB': 'A6', 'CMPSW': 'A7', 'SCASB': 'AE', 'SCASW': 'AF', 'LODSB': 'AC', 'LODSW': 'AD', 'STOSB': 'AA', 'STOSW': 'AB'}
# each behind F2 and F3
REPEATED = [f'{name} {operation} | {repeat:02X} {opcode} | form {opcode} -' for operation, opcode in STRINGS.items() for name, repeat in REPEATS.items()]


def repeated_strings():
    return {bytes.fromhex(line.split('|')[1]) for line in REPEATED}


# ---- a long show (document 02, No. 5). By its origin the offsets wrap at 65,536 before record 600.
LONG_ORIGIN = 64000


def word(n):
    return f'{n % 256:02X} {n // 256 % 256:02X}'


def long_show(count, version=None):
    """The lines of so many records, each but LOOP with its own number in it: wait and shoot as a cue of No. 9 does, count, store, call and jump. The bytes are those of the
    SDM's B9, E2, B0, E6, 83 /0 and 81 /0, C7 /0, E8 and 74; the distances document 01's, of CALL modulo 65,536 and of LOOP and JE not wrapped. In version 3 each ninth is a
    string operation with a repeat."""
    version = version or version_of(count)
    yield f'version {version}'
    yield f'origin {LONG_ORIGIN}'
    offset = LONG_ORIGIN
    for k in range(count):
        low, distance = f'{k % 256:02X}', k % 256 - 128
        repeated = [part.strip() for part in REPEATED[k % len(REPEATED)].split('|')[:2]]
        instruction, written = [
            (f'MOV CX,{k}', f'B9 {word(k)}'),
            (f'LOOP {offset}', 'E2 FE'),
            (f'MOV AL,{k % 256}', f'B0 {low}'),
            (f'OUT {k % 256},AL', f'E6 {low}'),
            (f'ADD BX,{k}', f'83 C3 {low}' if k < 128 else f'81 C3 {word(k)}'),
            (f'MOV word [BX+4660],{k}', f'C7 87 34 12 {word(k)}'),
            (f'CALL {k}', f'E8 {word(k - (offset + 3))}'),
            (f'JE {offset + 2 + distance}', f'74 {distance % 256:02X}'),
            *([repeated] if version == REPEAT_VERSION else [])][k % (9 if version == REPEAT_VERSION else 8)]
        yield f'{instruction} | {written}'
        offset = (offset + len(bytes.fromhex(written))) % 65536


# ---- the cases of the gate. Bytes and refusals are those of document 01 (bench sheet, questions, code list) and of document 02, Nos. 1, 2, 4, 5 and 11, unless
# another source is named.
AAM = 'AAM | D4 0A'
MOV = 'MOV AX,4660 | B8 34 12'
REFUSED = {
    1: ['PUSH AL | refused 1'],
    2: ['NOT [BX] | refused 2'],
    3: ['MOV AX,BL | refused 3'],
    4: ['POP 5 | refused 4'],
    5: ['MOV byte [BX],300 | refused 5'],
    6: ['JE 60000 | refused 6'],
    7: ['INT1 | refused 7'],
    8: [AAM, 'field count 3', 'answer refused 8'],
    15: [AAM, f'field operation {len(OPERATIONS)}', 'answer refused 15'],
}
REPEAT_99 = ['MOVSB | refused 23', 'field repeat 99']
# the first number that is no code
UNKNOWN = {'operation': len(OPERATIONS)} | {name + operand: len(codes) for operand in '12' for name, codes in (
    ('kind', KINDS), ('size', SIZES), ('displacement-size', SIZES), ('jump', JUMPS))}
# what document 02, Nos. 1, 2 and 4, turn away
ADDED_REFUSED = ['TEST BL,300 | refused 5', 'TEST AX,65536 | refused 5', 'TEST [BX],5 | refused 2', 'TEST AX,CL | refused 3', 'TEST AX,DS | refused 1',
    'PUSH byte [BX] | refused 1', 'PUSH [BX] | refused 1', 'POP byte [BX] | refused 4', 'POP [BX] | refused 4', 'RET -1 | refused 5', 'RET 65536 | refused 5',
    'RET AX | refused 1', 'RET word [BX] | refused 1', 'CALL far byte [BX] | refused 1', 'CALL far AX | refused 1', 'JMP short 30000 | refused 6',
    'JMP short -1 | refused 5', 'JMP short 65536 | refused 5', 'JMP short [BX] | refused 1', 'ESC | refused 7', 'ADD BX,70000 | refused 5', 'SUB word [BX],-32769 | refused 5', 'ADD BL,-129 | refused 5', 'MOV BX,-32769 | refused 5', 'INT -1 | refused 5', 'IN AL,-1 | refused 5', 'OUT -1,AL | refused 5',
    'CALL -1 | refused 5', 'SHL AL,-1 | refused 1']
# the SDM's 83 /0 to /7
NEGATIVE = ['ADD BX,-1 | 83 C3 FF', 'OR CX,-2 | 83 C9 FE', 'ADC word [BX],-128 | 83 17 80', 'SBB DX,-3 | 83 DA FD', 'AND word [BX+SI+2],-16 | 83 60 02 F0',
    'SUB word [1536],-1 | 83 2E 00 06 FF', 'XOR AX,-1 | 83 F0 FF', 'CMP AX,-128 | 83 F8 80', 'ADD AX,65535 | 05 FF FF', 'CMP word [BX],65535 | 81 3F FF FF']
# the SDM's 04, 05, 80, 81, A8, A9, B0 to BF, C6, C7, F6 and F7
DATA = ['MOV AL,-1 | B0 FF', 'MOV AL,255 | B0 FF', 'MOV BX,-2 | BB FE FF', 'MOV byte [BX],-1 | C6 07 FF', 'ADD AL,-1 | 04 FF', 'ADD AX,-129 | 05 7F FF', 'SUB BL,-128 | 80 EB 80',
    'CMP word [BX],-32768 | 81 3F 00 80', 'TEST AL,-2 | A8 FE', 'TEST AX,-2 | A9 FE FF', 'TEST CL,-128 | F6 C1 80', 'TEST word [BX],-3 | F7 07 FD FF']

# ---- fsqform's lines by hand: document 02, No. 3, and the SDM's opcode column for each group of operations
FORMS = [
    'ADD BX,5 | 83 C3 05 | form 83 /0 Reg:Word Imm:Unspecified -128..127',
    'CMP word [BX],-1 | 83 3F FF | form 83 /7 Mem:Word Imm:Unspecified -128..127',
    'ADD AX,200 | 05 C8 00 | form 05 Reg:Word Imm:Unspecified -32768..65535',
    'AND AL,15 | 24 0F | form 24 Reg:Byte Imm:Unspecified -128..255',
    'ADD BX,200 | 81 C3 C8 00 | form 81 /0 Reg:Word Imm:Unspecified -32768..65535',
    'SUB byte [BX],5 | 80 2F 05 | form 80 /5 Mem:Byte Imm:Unspecified -128..255',
    'ADD [BX],5 | 83 07 05 | form 83 /0 Mem:Unspecified Imm:Word -128..127', 'field size2 2',
    'ADD AX,BX | 01 D8 | form 01 Reg:Word Reg:Word -',
    'XOR CX,[BX] | 33 0F | form 33 Reg:Word Mem:Unspecified -',
    'OR [BX],CL | 08 0F | form 08 Mem:Unspecified Reg:Byte -',
    'NOT BL | F6 D3 | form F6 /2 Reg:Byte -',
    'IDIV word [BX] | F7 3F | form F7 /7 Mem:Word -',
    'INC BX | 43 | form 43 Reg:Word -',
    'INC BL | FE C3 | form FE /0 Reg:Byte -',
    'DEC word [BX] | FF 0F | form FF /1 Mem:Word -',
    # MOV: the register is a part of the opcode, a prefix is none, 8C and 8E have no /n, A0 to A3 no immediate
    'MOV BX,4660 | BB 34 12 | form BB Reg:Word Imm:Unspecified -32768..65535',
    'MOV BL,5 | B3 05 | form B3 Reg:Byte Imm:Unspecified -128..255',
    'MOV byte [BX],5 | C6 07 05 | form C6 /0 Mem:Byte Imm:Unspecified -128..255',
    'MOV [BX],5 | C7 07 05 00 | form C7 /0 Mem:Unspecified Imm:Word -32768..65535', 'field size2 2',
    'MOV BX,[SI] | 8B 1C | form 8B Reg:Word Mem:Unspecified -',
    'MOV [SI],BX | 89 1C | form 89 Mem:Unspecified Reg:Word -',
    'MOV BX,[SI] | 26 8B 1C | form 8B Reg:Word Mem:Unspecified -', 'field prefix2 38',
    'MOV word [SI],5 | 3E C7 04 05 00 | form C7 /0 Mem:Word Imm:Unspecified -32768..65535', 'field prefix1 62',
    'MOV AX,DS | 8C D8 | form 8C Reg:Word Seg:Word -',
    'MOV DS,AX | 8E D8 | form 8E Seg:Word Reg:Word -',
    'MOV ES,[BX] | 2E 8E 07 | form 8E Seg:Word Mem:Unspecified -', 'field prefix2 46',
    'MOV AL,[4660] | A0 34 12 | form A0 Reg:Byte Mem:Unspecified -',
    'MOV AX,[4660] | A1 34 12 | form A1 Reg:Word Mem:Unspecified -',
    'MOV [4660],AL | A2 34 12 | form A2 Mem:Unspecified Reg:Byte -',
    'MOV word [4660],AX | A3 34 12 | form A3 Mem:Word Reg:Word -',
    'MOV AL,[4660] | 26 A0 34 12 | form A0 Reg:Byte Mem:Unspecified -', 'field prefix2 38',
    'MOV AX,[4660] | 2E A1 34 12 | form A1 Reg:Word Mem:Unspecified -', 'field prefix2 46',
    'MOV [4660],AL | 36 A2 34 12 | form A2 Mem:Unspecified Reg:Byte -', 'field prefix1 54',
    'MOV [4660],AX | 3E A3 34 12 | form A3 Mem:Unspecified Reg:Word -', 'field prefix1 62',
    # XCHG and TEST: the record's order
    'XCHG AX,CX | 91 | form 91 Reg:Word Reg:Word -',
    'XCHG CX,AX | 91 | form 91 Reg:Word Reg:Word -',
    'XCHG AX,CX | 91 | form 91 Reg:Word Reg:Unspecified -', 'field size2 0',
    'XCHG AX,CX | 91 | form 91 Reg:Unspecified Reg:Word -', 'field size1 0',
    'XCHG CX,AX | 91 | form 91 Reg:Word Reg:Unspecified -', 'field size2 0',
    'XCHG CX,AX | 91 | form 91 Reg:Unspecified Reg:Word -', 'field size1 0',
    'XCHG CX,BX | 87 CB | form 87 Reg:Word Reg:Word -',
    'XCHG CL,[BX] | 86 0F | form 86 Reg:Byte Mem:Unspecified -',
    'XCHG [BX],CL | 86 0F | form 86 Mem:Unspecified Reg:Byte -',
    'XCHG [BX],CX | 26 87 0F | form 87 Mem:Unspecified Reg:Word -', 'field prefix1 38',
    'XCHG AX,AX | 90 | form 90 Reg:Word Reg:Word -',
    'NOP | 90 | form 90 -',
    'NOP AX,AX | 90 | form 90 -',
    'TEST CL,[BX] | 84 0F | form 84 Reg:Byte Mem:Unspecified -',
    'TEST [BX],CL | 84 0F | form 84 Mem:Unspecified Reg:Byte -',
    'TEST AX,BX | 85 D8 | form 85 Reg:Word Reg:Word -',
    'TEST AL,5 | A8 05 | form A8 Reg:Byte Imm:Unspecified -128..255',
    'TEST AX,5 | A9 05 00 | form A9 Reg:Word Imm:Unspecified -32768..65535',
    'TEST BL,5 | F6 C3 05 | form F6 /0 Reg:Byte Imm:Unspecified -128..255',
    'TEST word [BX],5 | F7 07 05 00 | form F7 /0 Mem:Word Imm:Unspecified -32768..65535',
    'PUSH BX | 53 | form 53 Reg:Word -',
    'PUSH DS | 1E | form 1E Seg:Word -',
    'PUSH word [BX] | FF 37 | form FF /6 Mem:Word -',
    'POP BX | 5B | form 5B Reg:Word -',
    'POP DS | 1F | form 1F Seg:Word -',
    'POP word [BX] | 8F 07 | form 8F /0 Mem:Word -',
    'LEA BX,[SI] | 8D 1C | form 8D Reg:Word Mem:Unspecified -',
    'LEA AX,byte [BX] | 8D 07 | form 8D Reg:Word Mem:Byte -',
    'LES BX,[SI] | C4 1C | form C4 Reg:Word Mem:Unspecified -',
    'LDS BX,[SI] | C5 1C | form C5 Reg:Word Mem:Unspecified -',
    # a shift's 1 or CL is an operand, as stated, and has no limits
    'SHL AX,1 | D1 E0 | form D1 /4 Reg:Word Imm:Unspecified -',
    'SHL AX,1 | D1 E0 | form D1 /4 Reg:Word Imm:Byte -', 'field size2 1',
    'ROL BL,1 | D0 C3 | form D0 /0 Reg:Byte Imm:Unspecified -',
    'RCR BX,CL | D3 DB | form D3 /3 Reg:Word Reg:Byte -',
    'SAR byte [BX],CL | D2 3F | form D2 /7 Mem:Byte Reg:Byte -',
    # a port is an immediate
    'IN AL,64 | E4 40 | form E4 Reg:Byte Imm:Unspecified 0..255',
    'IN AX,64 | E5 40 | form E5 Reg:Word Imm:Unspecified 0..255',
    'OUT 64,AL | E6 40 | form E6 Imm:Unspecified Reg:Byte 0..255',
    'OUT 64,AX | E7 40 | form E7 Imm:Unspecified Reg:Word 0..255',
    'IN AL,DX | EC | form EC Reg:Byte Reg:Word -',
    'IN AX,DX | ED | form ED Reg:Word Reg:Word -',
    'OUT DX,AL | EE | form EE Reg:Word Reg:Byte -',
    'OUT DX,AX | EF | form EF Reg:Word Reg:Word -',
    'AAM | D4 0A | form D4 -',
    'AAM AX,BX | D4 0A | form D4 -',
    'AAD | D5 0A | form D5 -',
    'XLATB word [BX] | D7 | form D7 Mem:Word -',
    'XLATB word [BX] | 26 D7 | form D7 Mem:Word -', 'field prefix1 38',
    # the count is looked at for RET only
    'INT 33 | CD 21 | form CD Imm:Unspecified 0..255',
    'INT | CD 00 | form CD Imm:Unspecified 0..255',
    'ADD BX,5 | 83 C3 05 | form 83 /0 Reg:Word Imm:Unspecified -128..127', 'field count 0',
    'RET | C3 | form C3 -',
    'RET 5 | C3 | form C3 -', 'field count 0',
    'RET 5 | C2 05 00 | form C2 Imm:Unspecified 0..65535',
    'RET | C2 00 00 | form C2 Imm:Unspecified 0..65535', 'field count 2',
    'INT3 | CC | form CC -',
    'INTO | CE | form CE -',
    'IRET | CF | form CF -',
    'MOVSB | A4 | form A4 -',
    'LOCK | F0 | form F0 -',
    'REP | F3 | form F3 -',
    'WAIT | 9B | form 9B -',
    'CBW | 98 | form 98 -',
    'PUSHF | 9C | form 9C -',
    'DAA | 27 | form 27 -',
    'CLI | FA | form FA -',
    'SALC | D6 | form D6 -',
]
# from offset 0
BRANCHES = [
    'CALL 5 | E8 02 00 | form E8 Imm:Unspecified 0..65535',
    'CALL near 5 | E8 FF FF | form E8 Imm:Unspecified 0..65535',
    'JMP 5 | E9 FC FF | form E9 Imm:Unspecified 0..65535',
    'JMP short 5 | EB FA | form EB Imm:Unspecified 0..65535',
    'JMP far 4660 | EA 34 12 00 00 | form EA Imm:Unspecified 0..65535',
    'CALL AX | FF D0 | form FF /2 Reg:Word -',
    'CALL word [BX] | FF 17 | form FF /2 Mem:Word -',
    'CALL far [BX] | FF 1F | form FF /3 Mem:Unspecified -',
    'JMP AX | FF E0 | form FF /4 Reg:Word -',
    'JMP near [BX] | FF 27 | form FF /4 Mem:Unspecified -',
    'JE 5 | 74 E9 | form 74 Imm:Unspecified -',
    'JNS short 5 | 79 E7 | form 79 Imm:Unspecified -',
    'LOOPNZ 5 | E0 E5 | form E0 Imm:Unspecified -',
    'LOOPZ 5 | E1 E3 | form E1 Imm:Unspecified -',
    'LOOP 5 | E2 E1 | form E2 Imm:Unspecified -',
    'JCXZ 5 | E3 DF | form E3 Imm:Unspecified -',
]
# the refusals of each question, by document 01's page of questions and document 02, No. 3; behind the instruction fields of its record
QUESTIONS = {
    1: {8: ['AAM; count 3', 'MOV AX,BX; mode1 2', 'MOV AX,BX; prefix2 38', 'AAM; kind2 1', 'PUSH AX; rm1 8']},
    2: {7: ['INT1', 'ESC']},
    3: {
        2: ['ADD [BX],5', 'CMP [BX],5', 'MOV [BX],5', 'TEST [BX],5', 'XCHG [BX],CX; size2 0', 'NOT [BX]', 'IDIV [BX]', 'SHL [BX],1', 'RCR [BX],CL'],
        4: ['INC [BX]', 'DEC [BX]', 'INC 5', 'POP 5', 'POP 5; size1 1', 'POP [BX]', 'POP byte [BX]', 'POP AL', 'POP BX; size1 0', 'XLATB [BX]', 'XLATB byte [BX]', 'XLATB'],
    },
    4: {3: ['ADD AX,BL', 'MOV AX,BL', 'MOV AL,5; size2 2', 'MOV DS,AL', 'TEST AX,CL', 'XCHG AX,CL', 'SUB byte [BX],AX']},
    5: {
        1: ['POP CS', 'PUSH AL', 'PUSH BX; size1 0', 'PUSH [BX]', 'PUSH 5', 'MOV CS,AX', 'MOV 5,AX', 'ADD DS,AX', 'TEST AX,DS', 'XCHG AX,5', 'INC 5; size1 2', 'NOT 5; size1 1',
            'SHL BX,2', 'SHL AX,CL; size2 0', 'XLATB word [SI]', 'XLATB AX', 'CALL far 65536', 'CALL far 5', 'CALL short 5', 'CALL far AX', 'JMP far AX', 'JMP short [BX]',
            'JMP byte [BX]', 'JE near 5', 'JE AX', 'LOOP far 5', 'IN AX,BX', 'IN AL,5; size1 0', 'OUT DL,AL', 'LEA AX,BX', 'LEA AL,[BX]', 'LDS BX,SI', 'RET AX', 'INT AX'],
        4: ['POP 5; size1 2'],
    },
    6: {5: ['JMP 65536', 'JMP -1', 'JMP near 65536', 'JMP far 65536', 'JMP short 65536', 'CALL 65536', 'CALL -1', 'MOV AL,256', 'MOV byte [BX],300', 'MOV BX,65536', 'ADD BX,70000',
        'ADD AL,-129', 'SUB word [BX],-32769', 'TEST BL,300', 'TEST AX,65536', 'IN AL,256', 'OUT -1,AL', 'INT 256', 'RET 65536']},
    7: {6: ['JE 60000', 'JNS short 60000', 'LOOP 60000', 'JCXZ 60000', 'JMP short 30000']},
}
# the first question of two that a record fails
FIRST_OF_TWO = {
    (1, 2): {8: ['INT1; count 3']},
    (1, 3): {8: ['NOT [BX]; count 3']},
    (1, 4): {8: ['MOV AX,BL; count 3']},
    (1, 5): {8: ['PUSH AL; count 3']},
    (1, 6): {8: ['MOV AL,300; count 3', 'JMP 65536; count 3']},
    (1, 7): {8: ['JE 60000; count 3']},
    (3, 5): {2: ['MOV [BX],[SI]', 'NOT 5', 'SHL [BX],2'], 4: ['POP 5', 'INC 5', 'XLATB [SI]']},
    (3, 6): {2: ['ADD [BX],70000', 'TEST [BX],70000']},
    (4, 5): {3: ['MOV BL,DS', 'XCHG AX,5; size2 1']},
    (4, 6): {3: ['MOV AL,70000; size2 2']},
    (5, 6): {1: ['CALL far 65536', 'SHL AX,300', 'PUSH 70000']},
    (5, 7): {1: ['JE near 60000']},
    (6, 7): {5: ['JMP short 65536', 'JMP short -1']},
}


# the same of version 3: 8 before 23 and 23 before every other (No. 11); a repeat of 99, or F3 (243) or F2 (242) on another operation
REPEAT_FIRST_OF_TWO = {
    (1, 2): {23: ['ESC; repeat 243', 'ESC; repeat 242', 'INT1; repeat 243', 'INT1; repeat 99']},
    (1, 3): {23: ['NOT [BX]; repeat 243', 'ADD [BX],5; repeat 99', 'POP 5; repeat 242', 'INC [BX]; repeat 243', 'SHL [BX],1; repeat 1', 'XLATB; repeat 243']},
    (1, 4): {23: ['MOV AX,BL; repeat 243', 'TEST AX,CL; repeat 99']},
    (1, 5): {23: ['PUSH AL; repeat 243', 'RET AX; repeat 255', 'POP 5; size1 2; repeat 242']},
    (1, 6): {23: ['MOV byte [BX],300; repeat 243', 'JMP 65536; repeat 99', 'INT 256; repeat 242']},
    (1, 7): {23: ['JE 60000; repeat 243', 'LOOP 60000; repeat 99', 'JMP short 30000; repeat 242']},
    # of question 1 itself: the count, the first operand, the second, then the repeat
    (1, 1): {8: ['MOVSB; count 3; repeat 99', 'MOVSB; count 255; repeat 1', 'NOP; count 3; repeat 243', 'MOVSB; mode1 2; repeat 99', 'MOVSB; prefix1 38; repeat 244', 'CALL 5; rm1 1; repeat 243',
        'MOVSB; kind2 1; repeat 99', 'MOV AX,BX; mode2 2; repeat 242', 'LOCK; prefix2 38; repeat 243', 'ESC; count 3; repeat 243', 'REP; rm2 1; repeat 242',
        # a repeat that is one
        'MOVSB; count 3; repeat 243', 'STOSW; mode1 2; repeat 242', 'SCASB; kind2 1; repeat 242']},
}


def failing(question, refusals, version=1):
    """A show for each record that the question refuses."""
    for number, records in refusals.items():
        for instruction, *fields in (line.split('; ') for line in records):
            yield [f'version {version}', 'origin 256', MOV, f'{instruction} | refused {number} | question {question}', *(f'field {field}' for field in fields), AAM]


def stored(name):
    """The rows of the bench sheet (the documents' answers) or of the sample (the Rust's, or document 02's): record, is it a branch, offset, and its answer."""
    heading, *rows = STORED[name].read_text().splitlines()
    at, no, written, behind, record = (heading.index(f' {column} ') + 1 for column in ('at', 'no', 'bytes', 'length', 'record'))
    for row in rows:
        packed, offset, number = row[record:], int(row[at:no], 16), int(row[no:written], 16)
        is_branch = FIRST_BRANCH <= int(packed[:2], 16) <= LAST_BRANCH
        yield packed, is_branch, offset, f'refused {number}' if number else row[written:behind].replace(' ', '')


def cases():
    yield 'document-01', ['origin 256', MOV, AAM, 'LOOP 256 | E2 F9']
    for number, bad in REFUSED.items():
        yield f'refused-{number}-first', ['origin 256', *bad, MOV, AAM]
        yield f'refused-{number}-middle', ['origin 256', MOV, *bad, AAM]
        yield f'refused-{number}-last', ['origin 256', MOV, AAM, *bad]
    yield 'negative', ['origin 256', *NEGATIVE]
    yield 'negative-data', ['origin 256', *DATA]
    for k, bad in enumerate(ADDED_REFUSED):
        yield f'added-refused-{k}', ['origin 65533', MOV, bad, AAM]
    yield 'the-first-refused', [MOV, *REFUSED[5], *REFUSED[7]]
    yield 'codes-before-records', [*REFUSED[5], AAM, *REFUSED[15]]
    for field, code in UNKNOWN.items():
        yield f'unknown-{field}', [MOV, AAM, f'field {field} {code}', 'answer refused 15', AAM]
        yield f'unknown-{field}-255', [MOV, AAM, f'field {field} 255', 'answer refused 15']
    yield 'record-9', [AAM] * 9 + REFUSED[7]
    yield 'record-10', [AAM] * 10 + REFUSED[7]
    yield 'record-100', [AAM] * 100 + REFUSED[7] + [AAM]
    yield 'record-999', [AAM] * 999 + REFUSED[7]
    for place in range(3):
        mark = bytearray(MARK)
        mark[place] ^= 0x20
        yield f'mark-{place}', [f'mark {mark.hex()}', AAM, 'refused 12 -']
    for length in range(3):
        yield f'bytes-{length}', [f'cut {length}', 'refused 12 -']
    for length in range(3, 9):
        yield f'bytes-{length}', [f'cut {length}', 'refused 14 -']
    yield 'mark-before-length', ['mark 46 53 50', 'cut 4', 'refused 12 -']
    yield 'mark-before-version', ['mark 46 53 50', 'version 4', 'refused 12 -']
    yield 'mark-before-length-of-3', ['mark 46 53 50', 'version 3', 'bytes 56', AAM, 'refused 12 -']
    yield 'mark-before-count', ['mark 46 53 50', 'version 2', *[AAM] * 1001, 'refused 12 -']
    for version in (3, 4):
        yield f'nine-bytes-before-version-{version}', [f'version {version}', 'cut 8', 'refused 14 -']
    yield 'the-first-unknown', [MOV, *REFUSED[15], *REFUSED[15]]
    for version in (0, 4, 5, 257, 258, 259, 768, 65535):
        for each in (56, 57):
            yield f'version-{version}-bytes-{each}', [f'version {version}', f'bytes {each}', AAM, 'refused 13 -']
        # 1,171 records are more than the programs read
        for count in (0, 1001, 1171):
            yield f'version-{version}-count-{count}', [f'version {version}', *[AAM] * count, 'refused 13 -']
    yield 'version-before-count', ['version 4', 'count 2', AAM, 'refused 13 -']
    yield 'version-before-repeat', ['version 4', 'bytes 57', *REPEAT_99, 'refused 13 -']
    # No. 5: on the wrong side of its version, and above it what the loader takes and these programs do not
    yield 'version-2', ['version 2', AAM, 'refused 14 -']
    for count in (0, 999, 1000, 1001, 1170, 1171, 3200, 8000, 8001):
        yield f'version-2-count-{count}', ['version 2', *[AAM] * count, 'refused 14 -']
    for name, lines in (('unknown-code', [*[AAM] * 1000, *REFUSED[15]]), ('unknown-first', [*REFUSED[15], *[AAM] * 1000]), ('refused-record', [*[AAM] * 1000, *REFUSED[7]]),
            ('count-too-high', ['count 1002', *[AAM] * 1001]), ('one-byte-more', ['more 1', *[AAM] * 1001]), ('header-alone', ['count 8000'])):
        yield f'version-2-{name}', ['version 2', *lines, 'refused 14 -']
    for count in (1000, 1001, 3200, 8000):
        yield f'long-{count}', [*long_show(count), *['refused 14 -'] * (count > TEXT_RECORDS)]
        yield f'version-3-long-{count}', [*long_show(count, REPEAT_VERSION), *['refused 14 -'] * (count > TEXT_RECORDS)]
    yield from repeat_cases()
    for count in (1001, 8000, 8001):
        yield f'count-{count}', [*[AAM] * count, 'refused 14 -']
    yield 'count-65535', ['count 65535', AAM, 'refused 14 -']
    yield 'count-too-low', ['count 1', AAM, AAM, 'refused 14 -']
    yield 'count-too-high', ['count 3', AAM, AAM, 'refused 14 -']
    yield 'one-byte-less', ['cut 64', AAM, 'refused 14 -']
    yield 'one-byte-more', ['more 1', AAM, 'refused 14 -']
    yield 'longest-and-one-byte', [*[AAM] * 1000, 'more 1', 'refused 14 -']
    yield 'longer-than-any-buffer', [AAM, 'more 1000000', 'refused 14 -']
    yield 'nothing', ['cut 0', 'refused 12 -']
    yield 'no-records', ['origin 65535']
    yield 'one-record', ['origin 65535', AAM]
    # of the sample the instructions that are no branches: their bytes do not depend on the offset
    plain = [f'record {packed} {answer}' for packed, is_branch, _, answer in stored('sample') if not is_branch and 'refused' not in answer]
    yield 'records-140', ['origin 4660', *plain[:140]]
    yield 'records-1000', ['origin 64000', *plain[-1000:]]
    yield 'wrap', ['origin 65531', AAM, 'JMP 0 | E9 00 00', 'JE 129 | 74 7F']
    yield 'wrap-to-65536', ['origin 65534', 'JE 65536 | 74 00', 'JE 129 | 74 7F']
    yield 'wrap-not-to-0', ['origin 65534', 'JE 0 | refused 6']
    # immediate - (offset + 3) modulo 65,536, and immediate - (offset + 2) not wrapped
    yield 'wrap-call', ['origin 65534', 'CALL 5 | E8 04 00', AAM]
    yield 'wrap-loop', ['origin 65535', 'LOOP 65535 | E2 FE', 'LOOP 1 | E2 FE']
    # JMP short asks for its range first, and then for its distance, not wrapped
    yield 'wrap-short', ['origin 65534', 'JMP short 65535 | EB FF', 'JMP short 0 | EB FE']
    yield 'wrap-short-not-to-0', ['origin 65534', 'JMP short 0 | refused 6']
    yield 'wrap-short-not-to-65536', ['origin 65534', 'JMP short 65536 | refused 5']
    yield 'forms', ['origin 256', *FORMS]
    yield 'forms-branches', BRANCHES
    # the longest text that a show can have
    yield 'forms-longest', ['ADD word [BX+4660],4660 | 26 81 87 34 12 34 12 | form 81 /0 Mem:Word Imm:Unspecified -32768..65535', 'field prefix1 38'] * 1000
    for question, refusals in QUESTIONS.items():
        for k, lines in enumerate(failing(question, refusals)):
            yield f'question-{question}-{k}', lines
    for (question, later), refusals in FIRST_OF_TWO.items():
        for k, lines in enumerate(failing(question, refusals)):
            yield f'question-{question}-not-{later}-{k}', lines
    # the stored records, each at its own offset
    for name in STORED:
        for k, (packed, _, offset, answer) in enumerate(stored(name)):
            version = REPEAT_VERSION if len(packed) == 2 * REPEATED_BYTES else 1
            yield f'{name}-{k}', [f'version {version}', f'origin {offset}', f'record {packed} {answer}']


def repeat_cases():
    """No. 11: version 3 and the repeat."""
    def of_3(name, *lines):
        return f'version-3-{name}', ['version 3', *lines]

    # Repeat 0: as version 1 has it.
    yield of_3('document-01', 'origin 256', MOV, AAM, 'LOOP 256 | E2 F9')
    yield of_3('forms', 'origin 256', *FORMS)
    yield of_3('forms-branches', *BRANCHES)
    yield of_3('negative', 'origin 256', *NEGATIVE, *DATA)
    yield of_3('forms-longest', *['ADD word [BX+4660],4660 | 26 81 87 34 12 34 12', 'field prefix1 38'] * 1000)
    for k, (packed, _, offset, answer) in enumerate(stored('bench_sheet')):
        if len(packed) == 2 * PLAIN_BYTES:
            yield of_3(f'bench-sheet-{k}', f'origin {offset}', f'record {packed} {answer}')
    # Each operation with each repeat, and without one.
    yield of_3('repeated', 'origin 256', *REPEATED, *(f'{operation} | {opcode} | form {opcode} -' for operation, opcode in STRINGS.items()))
    for line in REPEATED:
        yield of_3(line.split('|')[0].strip().replace(' ', '-').lower(), 'origin 65535', line, AAM)
    yield of_3('all-repeated', *[REPEATED[k % len(REPEATED)] for k in range(1000)])
    # An operand that is not used, and the count, say nothing.
    yield of_3('repeated-operands', 'REP MOVSB AX,BX | F3 A4 | form A4 -', 'REPNE SCASW 5 | F2 AF | form AF -', 'REP STOSB [BX] | F3 AA | form AA -', 'field prefix1 38')
    # Records beside each other stay two, and a branch counts the repeat.
    yield 'rep-then-movsb', ['REP | F3 | form F3 -', 'MOVSB | A4 | form A4 -', 'REPNE | F2', 'SCASB | AE', 'LOOP 0 | E2 FA']
    yield of_3('rep-then-movsb', 'REP | F3 | form F3 -', 'MOVSB | A4 | form A4 -', 'REP MOVSB | F3 A4', 'REP | F3', 'REP MOVSB | F3 A4', 'REPNE | F2', 'LOOP 2 | E2 F8')
    yield of_3('repeat-wraps', 'origin 65534', 'REP MOVSW | F3 A5', 'JMP 65534 | E9 FB FF', 'REPNE CMPSB | F2 A6', 'LOOP 3 | E2 FC', 'JE 5 | 74 FC')

    # 23: each other value, each other operation; in a file never 15.
    def refused(name, instruction, repeat):
        return of_3(f'repeat-{repeat}-{name}', 'origin 256', MOV, f'{instruction} | refused 23 | question 1', f'field repeat {repeat}', AAM)

    for repeat in range(256):
        if repeat not in (0, *REPEATS.values()):
            yield refused('movsb', 'MOVSB', repeat)
    for repeat in (1, 99, 0xF0, 0xF1, 0xF4, 0xFF):
        for operation in ('STOSW', 'CMPSW', 'NOP', 'REP', 'LOCK'):
            yield refused(operation.lower(), operation, repeat)
    for operation in OPERATIONS:
        if operation not in STRINGS:
            for repeat in REPEATS.values():
                yield refused(operation.lower(), operation, repeat)
    for instruction in ('MOV AX,4660', 'CALL 256', 'MOV AX,[BX]', 'XLATB word [BX]', 'ADD BX,5', 'JMP short 256', 'PUSH DS', 'INT 33', 'OUT DX,AL'):
        yield refused(instruction.lower().replace(' ', '-'), instruction, REPEATS['REP'])
    for place, lines in (('first', [*REPEAT_99, MOV, AAM]), ('last', [MOV, AAM, *REPEAT_99])):
        yield of_3(f'refused-23-{place}', 'origin 256', *lines)
    yield of_3('record-999', *[AAM] * 999, *REPEAT_99)

    # The first of two: of the questions of a record, of two records, and 15 before both.
    for (question, later), refusals in REPEAT_FIRST_OF_TWO.items():
        for k, lines in enumerate(failing(question, refusals, REPEAT_VERSION)):
            yield f'question-{question}-not-{later}-repeat-{k}', lines
    bad = REFUSED | {23: REPEAT_99}
    for one, other in ((23, 7), (7, 23), (23, 8), (8, 23), (23, 1), (5, 23)):
        yield of_3(f'{one}-then-{other}', AAM, *bad[one], *bad[other])
    yield of_3('the-first-of-two-repeats', AAM, *REPEAT_99, 'LOCK | refused 23', 'field repeat 243')
    for field, code in UNKNOWN.items():
        for name, number, lines in (('', code, ['MOVSB | refused 15']), ('-255', 255, ['MOVSB | refused 15']), ('-with-23', code, ['MOVSB | refused 15', 'field repeat 99']),
                ('-repeated', code, ['REP MOVSB | refused 15'])):
            yield of_3(f'unknown-{field}{name}', MOV, *lines, f'field {field} {number}', AAM)
    yield of_3('codes-before-an-earlier-23', *REPEAT_99, AAM, *REFUSED[15])
    yield of_3('codes-before-a-later-23', *REFUSED[15], AAM, *REPEAT_99)
    yield of_3('codes-before-records', *REFUSED[5], AAM, *REFUSED[15])
    for number, lines in REFUSED.items():
        yield of_3(f'refused-{number}-middle', 'origin 256', MOV, *lines, AAM)

    # Counts and lengths; above 1,000 these programs answer 14, whatever the records are. 1,149 records are the most that the programs read.
    yield of_3('no-records', 'origin 65535')
    yield of_3('one-record', 'origin 65535', AAM)
    for count in (1001, 1149, 1150, 3200, 8000, 8001):
        yield of_3(f'count-{count}', *['REP MOVSB | F3 A4'] * count, 'refused 14 -')
    for name, lines in (('unknown-code', [*[AAM] * 1000, *REFUSED[15]]), ('unknown-first', [*REFUSED[15], *[AAM] * 1000]), ('refused-record', [*REPEAT_99, *[AAM] * 1000]),
            ('count-too-high', ['count 1002', *[AAM] * 1001]), ('one-byte-more', ['more 1', *[AAM] * 1001]), ('header-alone', ['count 8000']), ('count-65535', ['count 65535', AAM])):
        yield of_3(f'above-1000-{name}', *lines, 'refused 14 -')
    for count in (0, 1, 2, 1000):
        length = len(MARK) + HEADER.size + REPEATED_BYTES * count
        if count:
            yield of_3(f'one-byte-less-of-{count}', f'cut {length - 1}', *[AAM] * count, 'refused 14 -')
            yield of_3(f'record-of-56-of-{count}', 'bytes 56', *[AAM] * count, 'refused 14 -')
            yield f'record-of-57-of-{count}', ['bytes 57', *[AAM] * count, 'refused 14 -']
        yield of_3(f'one-byte-more-of-{count}', 'more 1', *[AAM] * count, 'refused 14 -')
        yield of_3(f'count-too-high-of-{count}', f'count {count + 1}', *[AAM] * count, 'refused 14 -')
    yield of_3('count-too-low', 'count 1', AAM, AAM, 'refused 14 -')
    yield 'version-2-record-of-57', ['version 2', 'bytes 57', *[AAM] * 1001, 'refused 14 -']
    # 57 records of 56 bytes are as long as 56 of 57
    yield 'as-long-as-version-3', [AAM] * 57
    yield of_3('as-long-as-version-1', *[AAM] * 56)
    yield of_3('length-before-codes', 'more 1', *REFUSED[15], 'refused 14 -')
    yield of_3('length-before-records', 'more 1', *REPEAT_99, 'refused 14 -')


def stated(source):
    """The offset, the instruction and the bytes of each line."""
    offset = 0
    for line in source.splitlines():
        line = line.split('#')[0].strip()
        if line.startswith('origin'):
            offset = int(line.split()[1])
        elif '|' in line and 'refused' not in line:
            instruction, answer = (part.strip() for part in line.split('|')[:2])
            yield offset, instruction, bytes.fromhex(answer)
            offset = (offset + len(bytes.fromhex(answer))) % 65536


def by_as(lines):
    """GNU as's bytes. A branch's target is a label where the stated lengths put it; JMP without a kind is asked for in its long form."""
    text = '.code16\n.intel_syntax noprefix\n.text\n'
    for offset, instruction, _ in lines:
        operation, _, rest = instruction.partition(' ')
        if FIRST_BRANCH <= OPERATIONS.index(operation) <= LAST_BRANCH and operation != 'RET':
            instruction = re.sub(r'\b(\d+)$', r'at\1', instruction)
            instruction = re.sub(r'^JMP (at)', r'{disp16} JMP \1', instruction).replace('CALL far', 'LCALL')
        instruction = re.sub(r'\[(\d+)\]', r'ds:[\1]', re.sub(r'\b(byte|word) \[', r'\1 ptr [', instruction))
        text += f'at{offset}: {instruction}\n'
    with tempfile.TemporaryDirectory() as folder:
        path = pathlib.Path(folder)
        (path / 'a.s').write_text(text)
        subprocess.run(['as', '--32', '-o', path / 'a.o', path / 'a.s'], check=True)
        subprocess.run(['objcopy', '-O', 'binary', '-j', '.text', path / 'a.o', path / 'a.bin'], check=True)
        return (path / 'a.bin').read_bytes()


def by_nasm(lines):
    """NASM's bytes; JMP without a kind is asked for as near, and the conditional jumps as short. A target is said by its way from the instruction, as an offset wraps and $ does not."""
    text = 'cpu 8086\nbits 16\n'
    for offset, instruction, _ in lines:
        instruction = re.sub(r'^(CALL|J\w+|LOOP\w*)( short)? (-?\d+)$', lambda m: f'{m[1]}{m[2] or ""} $+({(int(m[3]) - offset + 32768) % 65536 - 32768})', instruction)
        text += re.sub(r'^(J\w+) \$', r'\1 short $', re.sub(r'^JMP \$', 'JMP near $', instruction)) + '\n'
    with tempfile.TemporaryDirectory() as folder:
        path = pathlib.Path(folder)
        (path / 'a.asm').write_text(text)
        subprocess.run(['nasm', '-f', 'bin', '-o', path / 'a.bin', path / 'a.asm'], check=True)
        return (path / 'a.bin').read_bytes()


def folder_sources():
    return {path.stem: path.read_text() for path in sorted(HERE.glob('*.txt'))}


def shows():
    """Name, file, listing and text with forms of each."""
    sources = folder_sources()
    for name, lines in cases():
        assert name not in sources, name
        sources[name] = '\n'.join(lines)
    for name, source in sources.items():
        yield name, *show(source)
    # bench/'s thousand, whose listing has the Rust's bytes
    packed, listing = (ROOT / 'bench/records.fsq').read_bytes(), (ROOT / 'bench/records.txt').read_text()
    yield 'bench', packed, listing, forms.text(packed, listing)


def image(source):
    return b''.join(written for _, _, written in stated(source))


def main():
    if sys.argv[1] == '--long':
        count, name = int(sys.argv[2]), sys.argv[3]
        source = '\n'.join(long_show(count, *map(int, sys.argv[4:])))
        pathlib.Path(f'{name}.fsq').write_bytes(show(source)[0])
        pathlib.Path(f'{name}.image').write_bytes(image(source))
        return
    if sys.argv[1] == '--assemble':
        # A branch of the long show goes to no label, which as needs.
        sources = [(name, source, [('as', by_as), ('nasm', by_nasm)]) for name, source in folder_sources().items()]
        long = [(name, '\n'.join(long_show(8000, version)), [('nasm', by_nasm)]) for name, version in (('long', None), ('long of version 3', REPEAT_VERSION))]
        for name, source, assemblers in [*sources, *long]:
            lines, written = list(stated(source)), image(source)
            for assembler, assembled in assemblers:
                made = assembled(lines)
                print(name, f'as stated by {assembler}' if made == written else f'differs from {assembler}:\n{made.hex()}\n{written.hex()}')
        return
    folder = pathlib.Path(sys.argv[1])
    for name, packed, listing, with_forms in shows():
        (folder / f'{name}.fsq').write_bytes(packed)
        (folder / f'{name}.out').write_text(listing)
        (folder / f'{name}.forms').write_text(with_forms)


if __name__ == '__main__':
    main()
