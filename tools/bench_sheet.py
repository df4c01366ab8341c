#!/usr/bin/env python3
"""bench_sheet.py > crates/test_vectors/data/bench_sheet.txt
bench_sheet.py lists > crates/test_vectors/data/lists.txt
bench_sheet.py sample < SAMPLE > crates/test_vectors/data/sample.txt     (needs nasm 2.16)

Writes the rows that the program `test_vectors` runs. For the encoder: the bench sheet's rows, the example of 'Show file', and the sentences of
document 01 and of document 02, Nos. 1, 2 and 4, that give a record's bytes or refusal; the expected values are those documents' and the SDM's, and a row's name tells
the sentence. For the lister: the bench sheet's lists, marked 01, lists that those tell of, marked 02, and lists put together by hand from the SDM's opcode tables.

The sample is the Rust's answers as tests/differential/run writes them. Where a request of document 02 answers otherwise, the row gets the request's refusal or NASM's bytes, and
says so: No. 1 where the Rust panics at `todo!`, for which 7 stands there; Nos. 2 and 4 where it refuses a data immediate with 5. All other rows pass through unchanged."""
import pathlib
import subprocess
import sys
import tempfile

import operations
from operations import BYTE, FAR, IMM, MEM, NEAR, OPERAND, OPERATIONS, REG, SEG, SHORT, WORD, NO_KIND as NONE, UNSPECIFIED as ANY

# the spans differ, so that a refusal with the wrong one is seen
INSTRUCTION, FIRST, SECOND = (1, 20), (5, 8), (10, 13)


def operand(kind, size=ANY, rm=0, mode=0, prefix=0, imm=0, disp=0, disp_size=ANY, jump=NONE):
    return kind, size, prefix, disp_size, jump, mode, rm, imm, disp


def imm(value, jump=NONE, segment=0):
    return operand(IMM, imm=value, jump=jump, disp=segment)


def reg(size, n, jump=NONE):
    return operand(REG, size, n, 3, jump=jump)


def seg(n):
    return operand(SEG, WORD, n, 3)


def mem(size, mode, rm, disp=0, prefix=0, jump=NONE):
    length = WORD if mode == 2 or (mode, rm) == (0, 6) else BYTE if mode == 1 else ANY
    return operand(MEM, size, rm, mode, prefix, disp=disp, disp_size=length, jump=jump)


AL, CL = reg(BYTE, 0), reg(BYTE, 1)
AX, CX, BX, DX = reg(WORD, 0), reg(WORD, 1), reg(WORD, 3), reg(WORD, 2)
AT_BX = lambda size: mem(size, 0, 7)


def record(operation, operands, count=None):
    first = operands[0] if operands else imm(0)
    second = operands[1] if len(operands) > 1 else imm(0)
    head = operations.RECORD.pack(OPERATIONS.index(operation), len(operands) if count is None else count, *INSTRUCTION)
    return head + OPERAND.pack(*first, *FIRST) + OPERAND.pack(*second, *SECOND)


# Where the rows that follow come from.
SOURCE = ''


def source(name):
    global SOURCE
    SOURCE = name


def printed(columns):
    print(' '.join(text.ljust(width) for text, width in columns))


# The columns, as the program has them.
HEAD = 62, 24, 4, 2
BYTES, FIELDS, COUNT, ENTRY, RECORD = 21, 8, 2, 24, 112


ANSWER = [('bytes', BYTES), *((text, FIELDS) for text in ('length', 'span', '', 'value', 'low', 'high')), ('record', RECORD)]


def heading(*rest):
    printed([*zip(('instruction', 'from', 'at', 'no'), HEAD), *rest])


def head(name, packed, offset, number):
    """A name may say the document itself."""
    mark, _, rest = name.rpartition(': ')
    assert len(packed) == 56 and len(rest) <= HEAD[0] and len(SOURCE) <= HEAD[1], name
    return [*zip((rest, f'document {mark}' if mark else SOURCE, f'{offset:04X}', f'{number:02X}'), HEAD)]


def spaced(string):
    return string.hex(' ').upper()


def row(name, packed, offset, number, length=0, span=(0, 0), values=(0, 0, 0), written=b''):
    fields = (length, *span, *(v % 2**32 for v in values))
    printed([*head(name, packed, offset, number), (spaced(written), BYTES), *((f'{n:08X}', FIELDS) for n in fields), (packed.hex().upper(), RECORD)])


def gives(name, operation, operands, text, offset=0, **more):
    written = bytes.fromhex(text)
    row(name, record(operation, operands, **more), offset, 0, len(written), written=written)


def refused(name, operation, operands, number, span, values=(0, 0, 0), offset=0, **more):
    row(name, record(operation, operands, **more), offset, number, span=span, values=values)


def list_row(name, packed, offset, number, strings):
    strings = sorted(strings, key=lambda t: (len(t), t))
    assert len(strings) <= 12 and len(set(strings)) == len(strings), name
    entries = [f'{len(t):02X} {spaced(t)}' for t in strings] + [''] * (12 - len(strings))
    printed([*head(name, packed, offset, number), (f'{len(strings):02X}', COUNT), (' '.join(e.ljust(ENTRY - 1) for e in entries), 12 * ENTRY - 1), (packed.hex().upper(), RECORD)])


def lists(name, operation, operands, *texts, offset=0):
    list_row(name, record(operation, operands), offset, 0, [bytes.fromhex(t) for t in texts])


def in_memory(prefix, texts):
    """The strings of each text 'opcode reg rm displacement | immediate': where the displacement is 0 with modes 0, 1 and 2, where it is a signed byte with modes 1
    and 2, else with mode 2; [BP] has no mode 0. Each without and with the prefix of the default segment, or only with the prefix of another."""
    for text in texts:
        head, _, tail = text.partition('|')
        opcode, reg, rm, disp = head.split()
        reg, rm, disp = int(reg), int(rm), int(disp)
        modes = ([0] if disp == 0 and rm != 6 else []) + ([1] if -128 <= disp <= 127 else []) + [2]
        for mode in modes:
            shown = (disp % 65536).to_bytes(2, 'little')[:mode]
            string = bytes.fromhex(opcode) + bytes([mode * 64 + reg * 8 + rm]) + shown + bytes.fromhex(tail)
            default = 0x36 if rm in (2, 3, 6) else 0x3E
            if prefix in (0, default):
                yield string
            yield bytes([prefix or default]) + string


def lists_memory(name, operation, operands, *texts, prefix=0):
    list_row(name, record(operation, operands), 0, 0, list(in_memory(prefix, texts)))


def the_lists():
    heading(('n', COUNT), ('entries: length and bytes', 12 * ENTRY - 1), ('record', RECORD))
    source('01, Bench sheet')
    lists('ADD AX,5', 'ADD', [AX, imm(5)], '05 05 00', '83 C0 05', '81 C0 05 00')
    lists('Word ADD [BX],5, twelve', 'ADD', [AT_BX(WORD), imm(5)], '83 07 05', '3E 83 07 05', '83 47 00 05', '3E 83 47 00 05', '83 87 00 00 05', '3E 83 87 00 00 05',
          '81 07 05 00', '3E 81 07 05 00', '81 47 00 05 00', '3E 81 47 00 05 00', '81 87 00 00 05 00', '3E 81 87 00 00 05 00')
    lists('XCHG CX,CX', 'XCHG', [CX, CX], '87 C9')

    source('SDM, opcode tables')
    lists('ADD AX,200', 'ADD', [AX, imm(200)], '05 C8 00', '81 C0 C8 00')
    lists('02: ADD AX,-1', 'ADD', [AX, imm(-1)], '05 FF FF', '83 C0 FF', '81 C0 FF FF')
    lists('02: ADD AX,65535, the same', 'ADD', [AX, imm(65535)], '05 FF FF', '83 C0 FF', '81 C0 FF FF')
    lists('02: MOV AL,255', 'MOV', [AL, imm(255)], 'B0 FF', 'C6 C0 FF')
    lists('02: MOV AL,-1, the same', 'MOV', [AL, imm(-1)], 'B0 FF', 'C6 C0 FF')
    lists('02: MOV AX,65535', 'MOV', [AX, imm(65535)], 'B8 FF FF', 'C7 C0 FF FF')
    lists('02: MOV AX,-1, the same', 'MOV', [AX, imm(-1)], 'B8 FF FF', 'C7 C0 FF FF')
    lists('CMP AX,65535', 'CMP', [AX, imm(65535)], '3D FF FF', '83 F8 FF', '81 F8 FF FF')
    lists('ADD BX,5', 'ADD', [BX, imm(5)], '83 C3 05', '81 C3 05 00')
    lists('ADD AL,200', 'ADD', [AL, imm(200)], '04 C8', '80 C0 C8')
    lists('SUB AX,BX', 'SUB', [AX, BX], '29 D8', '2B C3')
    lists_memory('XOR [BX],CL', 'XOR', [AT_BX(BYTE), CL], '30 1 7 0')
    lists_memory('AND BX,[BP+SI-2]', 'AND', [BX, mem(WORD, 1, 2, -2)], '23 3 2 -2')
    lists('NOT AX', 'NOT', [AX], 'F7 D0')
    lists_memory('NEG byte [DI]', 'NEG', [mem(BYTE, 0, 5)], 'F6 3 5 0')
    lists('INC AX', 'INC', [AX], '40', 'FF C0')
    lists('DEC CL', 'DEC', [CL], 'FE C9')
    lists_memory('DEC word [BX]', 'DEC', [AT_BX(WORD)], 'FF 1 7 0')
    lists('MOV AX,4660', 'MOV', [AX, imm(4660)], 'B8 34 12', 'C7 C0 34 12')
    lists('MOV CL,5', 'MOV', [CL, imm(5)], 'B1 05', 'C6 C1 05')
    lists('MOV AX,BX', 'MOV', [AX, BX], '89 D8', '8B C3')
    lists('MOV AX,[4660]', 'MOV', [AX, mem(WORD, 0, 6, 4660)], 'A1 34 12', '3E A1 34 12', '8B 06 34 12', '3E 8B 06 34 12')
    lists('MOV [4660],AL', 'MOV', [mem(BYTE, 0, 6, 4660), AL], 'A2 34 12', '3E A2 34 12', '88 06 34 12', '3E 88 06 34 12')
    lists('MOV ES:[4660],AX', 'MOV', [mem(WORD, 0, 6, 4660, 0x26), AX], '26 A3 34 12', '26 89 06 34 12')
    lists('MOV CX,[4660]', 'MOV', [CX, mem(WORD, 0, 6, 4660)], '8B 0E 34 12', '3E 8B 0E 34 12')
    lists_memory('MOV AL,[BP]', 'MOV', [AL, mem(BYTE, 1, 6)], '8A 0 6 0')
    lists_memory('MOV AL,[BX+200]', 'MOV', [AL, mem(BYTE, 2, 7, 200)], '8A 0 7 200')
    lists_memory('MOV CS:[BX],AL', 'MOV', [mem(BYTE, 0, 7, 0, 0x2E), AL], '88 0 7 0', prefix=0x2E)
    lists_memory('MOV byte [SI+1],255', 'MOV', [mem(BYTE, 1, 4, 1), imm(255)], 'C6 0 4 1|FF')
    lists('MOV DS,AX', 'MOV', [seg(3), AX], '8E D8')
    lists('MOV AX,CS', 'MOV', [AX, seg(1)], '8C C8')
    lists('02: TEST AL,5', 'TEST', [AL, imm(5)], 'A8 05', 'F6 C0 05')
    lists('02: TEST AX,5', 'TEST', [AX, imm(5)], 'A9 05 00', 'F7 C0 05 00')
    lists('TEST BX,5', 'TEST', [BX, imm(5)], 'F7 C3 05 00')
    lists('TEST CL,255', 'TEST', [CL, imm(255)], 'F6 C1 FF')
    lists('02: TEST AX,BX keeps its order', 'TEST', [AX, BX], '85 D8')
    lists('02: TEST BX,AX keeps its order', 'TEST', [BX, AX], '85 C3')
    lists('TEST CL,CL', 'TEST', [CL, CL], '84 C9')
    lists_memory('02: TEST [BX],CL', 'TEST', [AT_BX(BYTE), CL], '84 1 7 0')
    lists_memory('02: TEST CL,[BX], the same', 'TEST', [CL, AT_BX(ANY)], '84 1 7 0')
    lists_memory('TEST BX,[BP+SI-2]', 'TEST', [BX, mem(WORD, 1, 2, -2)], '85 3 2 -2')
    lists_memory('TEST CS:[BX],BX', 'TEST', [mem(WORD, 0, 7, 0, 0x2E), BX], '85 3 7 0', prefix=0x2E)
    lists_memory('TEST byte [BX],5', 'TEST', [AT_BX(BYTE), imm(5)], 'F6 0 7 0|05')
    lists_memory('TEST word [BP+200],4660', 'TEST', [mem(WORD, 2, 6, 200), imm(4660)], 'F7 0 6 200|34 12')
    lists('XCHG BX,AX', 'XCHG', [BX, AX], '93', '87 C3', '87 D8')
    lists('XCHG CL,AL', 'XCHG', [CL, AL], '86 C1', '86 C8')
    lists('XCHG AX,AX is NOP', 'XCHG', [AX, AX], '90', '87 C0')
    lists('NOP', 'NOP', [], '90', '87 C0')
    lists_memory('XCHG [SI],BX', 'XCHG', [mem(WORD, 0, 4), BX], '87 3 4 0')
    lists('02: PUSH AX', 'PUSH', [AX], '50', 'FF F0')
    lists('PUSH CS', 'PUSH', [seg(1)], '0E')
    lists_memory('PUSH word [BX]', 'PUSH', [AT_BX(WORD)], 'FF 6 7 0')
    lists('PUSH word [4660]', 'PUSH', [mem(WORD, 0, 6, 4660)], 'FF 36 34 12', '3E FF 36 34 12')
    lists('POP AX', 'POP', [AX], '58', '8F C0')
    lists('POP CX', 'POP', [CX], '59', '8F C1')
    lists_memory('POP word [BX]', 'POP', [AT_BX(WORD)], '8F 0 7 0')
    lists_memory('POP word ES:[SI+1]', 'POP', [mem(WORD, 1, 4, 1, 0x26)], '8F 0 4 1', prefix=0x26)
    lists_memory('LEA AX,[BX+SI]', 'LEA', [AX, mem(WORD, 0, 0)], '8D 0 0 0')
    lists_memory('LES BX,[DI]', 'LES', [BX, mem(WORD, 0, 5)], 'C4 3 5 0')
    lists('SHL AX,1', 'SHL', [AX, imm(1)], 'D1 E0')
    lists_memory('SAR byte [BX],CL', 'SAR', [AT_BX(BYTE), CL], 'D2 7 7 0')
    lists('CALL at 0 to 100', 'CALL', [imm(100)], 'E8 61 00')
    lists_memory('CALL [BX]', 'CALL', [AT_BX(WORD)], 'FF 2 7 0')
    lists_memory('CALL [BX], Far, is another', 'CALL', [mem(WORD, 0, 7, jump=FAR)], 'FF 3 7 0')
    lists_memory('CALL [BP+SI+200], Far, no size', 'CALL', [mem(ANY, 2, 2, 200, jump=FAR)], 'FF 3 2 200')
    # E9 from the third byte behind, EB from the second, both modulo 65,536
    lists('02: JMP at 0 to 100', 'JMP', [imm(100)], 'EB 62', 'E9 61 00')
    lists('02: JMP at 0 to 100, Near', 'JMP', [imm(100, NEAR)], 'EB 62', 'E9 61 00')
    lists('02: JMP at 0 to 100, Short', 'JMP', [imm(100, SHORT)], 'EB 62', 'E9 61 00')
    lists('JMP at 0 to 129', 'JMP', [imm(129)], 'EB 7F', 'E9 7E 00')
    lists('JMP at 0 to 130', 'JMP', [imm(130)], 'E9 7F 00')
    lists('JMP at 256 to 130', 'JMP', [imm(130)], 'EB 80', 'E9 7F FF', offset=256)
    lists('JMP at 256 to 129', 'JMP', [imm(129)], 'E9 7E FF', offset=256)
    lists('JMP at 65533 to 0', 'JMP', [imm(0)], 'EB 01', 'E9 00 00', offset=65533)
    lists('02: JMP at 65534 to 0', 'JMP', [imm(0)], 'EB 00', 'E9 FF FF', offset=65534)
    lists('JMP at 0 to 65535', 'JMP', [imm(65535)], 'EB FD', 'E9 FC FF')
    lists_memory('JMP [BX]', 'JMP', [AT_BX(WORD)], 'FF 4 7 0')
    lists('JMP Far', 'JMP', [imm(4660, FAR, 22136)], 'EA 34 12 78 56')
    lists('JE at 256 to 130', 'JE', [imm(130)], '74 80', offset=256)
    lists('LOOP at 261 to 256', 'LOOP', [imm(256)], 'E2 F9', offset=261)
    lists('INT 33', 'INT', [imm(33)], 'CD 21')
    lists('AAM', 'AAM', [], 'D4 0A')
    lists('AAD', 'AAD', [], 'D5 0A')
    lists('XLATB', 'XLATB', [mem(WORD, 0, 7)], 'D7', '3E D7')
    lists('XLATB in ES', 'XLATB', [mem(WORD, 0, 7, 0, 0x26)], '26 D7')
    lists('IN AX,5', 'IN', [AX, imm(5)], 'E5 05')
    lists('IN AL,DX', 'IN', [AL, DX], 'EC')
    lists('OUT 16,AL', 'OUT', [imm(16), AL], 'E6 10')
    lists('RET', 'RET', [], 'C3')
    lists('RET 4', 'RET', [imm(4)], 'C2 04 00')
    lists('02: RET 0 is not RET', 'RET', [imm(0)], 'C2 00 00')
    lists('WAIT', 'WAIT', [], '9B')
    lists('CLC', 'CLC', [], 'F8')
    lists('REP', 'REP', [], 'F3')

    source('01, Lists')
    list_row('MOV byte [BX],300 is 5', record('MOV', [AT_BX(BYTE), imm(300)]), 0, 5, [])
    list_row('count 3 is 8', record('AAM', [], 3), 0, 8, [])
    list_row('02: INT1 is 7', record('INT1', []), 0, 7, [])
    list_row('02: JMP at 65534 to 0, Short, is 6', record('JMP', [imm(0, SHORT)]), 65534, 6, [])


def the_bench_sheet():
    heading(*ANSWER)
    source('01, Bench sheet')
    gives('MOV AX,4660', 'MOV', [AX, imm(4660)], 'B8 34 12')
    gives('AAM', 'AAM', [], 'D4 0A')
    gives('TEST AL,5', 'TEST', [AL, imm(5)], 'A8 05')
    gives('ADD AX,5', 'ADD', [AX, imm(5)], '83 C0 05')
    gives('02: ADD AX,-1', 'ADD', [AX, imm(-1)], '83 C0 FF')
    gives('ADD BX,200', 'ADD', [BX, imm(200)], '81 C3 C8 00')
    gives('Word ADD [BX],5', 'ADD', [AT_BX(WORD), imm(5)], '83 07 05')
    gives('XCHG CL,AL', 'XCHG', [CL, AL], '86 C8')
    gives('XCHG CX,CX', 'XCHG', [CX, CX], '87 C9')
    gives('JE at 0 to 129', 'JE', [imm(129)], '74 7F')
    refused('JE at 0 to 130', 'JE', [imm(130)], 6, FIRST, (128, 0, 0))
    gives('JE at 256 to 130', 'JE', [imm(130)], '74 80', 256)
    refused('JE at 256 to 129', 'JE', [imm(129)], 6, FIRST, (-129, 0, 0), 256)
    gives('JE at 65534 to 65536', 'JE', [imm(65536)], '74 00', 65534)
    refused('JE at 65534 to 0', 'JE', [imm(0)], 6, FIRST, (-65536, 0, 0), 65534)
    gives('JMP at 65533 to 0', 'JMP', [imm(0)], 'E9 00 00', 65533)
    gives('MOV AL,[BP]', 'MOV', [AL, mem(BYTE, 1, 6)], '8A 46 00')
    gives('MOV byte [BX],255', 'MOV', [AT_BX(BYTE), imm(255)], 'C6 07 FF')
    refused('MOV byte [BX],300', 'MOV', [AT_BX(BYTE), imm(300)], 5, SECOND, (300, -128, 255))

    source('01, Show file')
    gives('MOV AX,4660 at 256', 'MOV', [AX, imm(4660)], 'B8 34 12', 256)
    gives('AAM at 259', 'AAM', [], 'D4 0A', 259)
    gives('LOOP at 261 to 256', 'LOOP', [imm(256)], 'E2 F9', 261)

    source('01, DIFFERENCES')
    gives('AAD', 'AAD', [], 'D5 0A')
    gives('TEST AL,5 by the second', 'TEST', [operand(REG, BYTE, 0, 3, imm=9), imm(5)], 'A8 05')
    refused('TEST AL,256 by the second', 'TEST', [AL, imm(256)], 5, SECOND, (256, -128, 255))
    refused('POP CS', 'POP', [seg(1)], 1, INSTRUCTION)
    refused('CALL AX, Far', 'CALL', [reg(WORD, 0, FAR)], 1, INSTRUCTION)
    refused('CALL AX, Short', 'CALL', [reg(WORD, 0, SHORT)], 1, INSTRUCTION)
    refused('CALL [BX], Short', 'CALL', [mem(WORD, 0, 7, jump=SHORT)], 1, INSTRUCTION)
    refused('CALL AL', 'CALL', [AL], 1, INSTRUCTION)
    refused('JMP byte [BX]', 'JMP', [AT_BX(BYTE)], 1, INSTRUCTION)
    gives('MOV byte [BX],-128', 'MOV', [AT_BX(BYTE), imm(-128)], 'C6 07 80')
    refused('MOV byte [BX],-129', 'MOV', [AT_BX(BYTE), imm(-129)], 5, SECOND, (-129, -128, 255))
    gives('MOV word [BX],65535', 'MOV', [AT_BX(WORD), imm(65535)], 'C7 07 FF FF')
    gives('MOV word [BX],-32768', 'MOV', [AT_BX(WORD), imm(-32768)], 'C7 07 00 80')
    refused('MOV word [BX],65536', 'MOV', [AT_BX(WORD), imm(65536)], 5, SECOND, (65536, -32768, 65535))
    refused('IN AL,256', 'IN', [AL, imm(256)], 5, SECOND, (256, 0, 255))
    refused('OUT -1,AX', 'OUT', [imm(-1), AX], 5, FIRST, (-1, 0, 255))
    refused('PUSH AL', 'PUSH', [AL], 1, FIRST)
    refused('IN with no size', 'IN', [reg(ANY, 0), imm(5)], 1, INSTRUCTION)
    refused('OUT DL,AL', 'OUT', [reg(BYTE, 2), AL], 1, INSTRUCTION)

    source('01, Code list, Operand')
    gives('ADD AX,127', 'ADD', [AX, imm(127)], '83 C0 7F')
    gives('ADD AX,128', 'ADD', [AX, imm(128)], '05 80 00')
    gives('CMP AL,200', 'CMP', [AL, imm(200)], '3C C8')
    gives('MOV AX,[4660]', 'MOV', [AX, mem(WORD, 0, 6, 4660)], 'A1 34 12')
    gives('MOV AL,ES:[4660]', 'MOV', [AL, mem(BYTE, 0, 6, 4660, 0x26)], '26 A0 34 12')
    refused('MOV AX,[-1]', 'MOV', [AX, mem(WORD, 0, 6, -1)], 5, SECOND, (-1, 0, 65535))
    gives('MOV DS,AX', 'MOV', [seg(3), AX], '8E D8')
    refused('MOV CS,AX', 'MOV', [seg(1), AX], 1, INSTRUCTION)
    gives('XCHG BX,AX', 'XCHG', [BX, AX], '93')
    gives('default prefix stays', 'MOV', [AL, mem(BYTE, 0, 7, 0, 0x3E)], '3E 8A 07')
    gives('unused prefix is not written', 'NOT', [AX, mem(BYTE, 0, 7, 0, 0x26)], 'F7 D0')
    gives('XLATB', 'XLATB', [mem(WORD, 0, 7)], 'D7')
    gives('RET', 'RET', [], 'C3')
    gives('JMP Far', 'JMP', [imm(4660, FAR, 22136)], 'EA 34 12 78 56')
    gives('SHL AX,1', 'SHL', [AX, imm(1)], 'D1 E0')
    gives('SAR byte [BX],CL', 'SAR', [AT_BX(BYTE), CL], 'D2 3F')
    gives('IN AX,DX', 'IN', [AX, DX], 'ED')

    source('01, Questions')
    refused('count 3', 'AAM', [], 8, INSTRUCTION, count=3)
    refused('first operand, mode 2', 'AAM', [operand(REG, WORD, 0, 2)], 8, FIRST)
    refused('second operand, prefix 1', 'AAM', [AX, operand(IMM, prefix=1)], 8, SECOND)
    refused('INT1', 'INT1', [], 7, INSTRUCTION)
    refused('ESC', 'ESC', [], 7, INSTRUCTION)
    refused('NOT with no size', 'NOT', [mem(ANY, 0, 7)], 2, INSTRUCTION)
    refused('INC with no size', 'INC', [mem(ANY, 0, 7)], 4, FIRST)
    refused('ADD AX,CL', 'ADD', [AX, CL], 3, INSTRUCTION)
    refused('POP 5', 'POP', [operand(IMM, WORD, imm=5)], 4, FIRST)
    refused('JMP 65536, Short', 'JMP', [imm(65536, SHORT)], 5, FIRST, (65536, 0, 65535))

    source('02, No. 1')
    BL = reg(BYTE, 3)
    gives('TEST AX,BX, the second in reg', 'TEST', [AX, BX], '85 D8')
    gives('TEST BX,AX', 'TEST', [BX, AX], '85 C3')
    gives('TEST CL,AL', 'TEST', [CL, AL], '84 C1')
    gives('TEST [BX],CL', 'TEST', [AT_BX(BYTE), CL], '84 0F')
    gives('TEST CL,[BX], the same', 'TEST', [CL, AT_BX(BYTE)], '84 0F')
    gives('TEST [BX],CX, unstated', 'TEST', [AT_BX(ANY), CX], '85 0F')
    gives('TEST CX,[BX], unstated', 'TEST', [CX, AT_BX(ANY)], '85 0F')
    gives('TEST ES:[BP+SI-2],DX', 'TEST', [mem(WORD, 1, 2, -2, 0x26), DX], '26 85 52 FE')
    gives('TEST DX,ES:[BP+SI-2]', 'TEST', [DX, mem(WORD, 1, 2, -2, 0x26)], '26 85 52 FE')
    gives('TEST AL,255', 'TEST', [AL, imm(255)], 'A8 FF')
    gives('TEST AX,5', 'TEST', [AX, imm(5)], 'A9 05 00')
    gives('TEST AX,65535', 'TEST', [AX, imm(65535)], 'A9 FF FF')
    gives('TEST BL,5', 'TEST', [BL, imm(5)], 'F6 C3 05')
    gives('TEST BX,5 has no 83', 'TEST', [BX, imm(5)], 'F7 C3 05 00')
    gives('TEST byte [BX],255', 'TEST', [AT_BX(BYTE), imm(255)], 'F6 07 FF')
    gives('TEST word [BX],65535', 'TEST', [AT_BX(WORD), imm(65535)], 'F7 07 FF FF')
    gives('TEST word CS:[4660],22136', 'TEST', [mem(WORD, 0, 6, 4660, 0x2E), imm(22136)], '2E F7 06 34 12 78 56')
    source('02, No. 4')
    refused('TEST BL,300', 'TEST', [BL, imm(300)], 5, SECOND, (300, -128, 255))
    gives('TEST BL,-1', 'TEST', [BL, imm(-1)], 'F6 C3 FF')
    gives('TEST byte [BX],-1', 'TEST', [AT_BX(BYTE), imm(-1)], 'F6 07 FF')
    refused('TEST byte [BX],256', 'TEST', [AT_BX(BYTE), imm(256)], 5, SECOND, (256, -128, 255))
    gives('TEST AX,-1', 'TEST', [AX, imm(-1)], 'A9 FF FF')
    refused('TEST AX,65536', 'TEST', [AX, imm(65536)], 5, SECOND, (65536, -32768, 65535))
    refused('TEST BX,65536', 'TEST', [BX, imm(65536)], 5, SECOND, (65536, -32768, 65535))
    gives('TEST word [BX],-1', 'TEST', [AT_BX(WORD), imm(-1)], 'F7 07 FF FF')
    refused('TEST [BX],5, unstated', 'TEST', [AT_BX(ANY), imm(5)], 2, INSTRUCTION)
    refused('TEST AX,CL', 'TEST', [AX, CL], 3, INSTRUCTION)
    refused('TEST CL,word [BX]', 'TEST', [CL, AT_BX(WORD)], 3, INSTRUCTION)
    refused('TEST [BX],[BX]', 'TEST', [AT_BX(WORD), AT_BX(WORD)], 1, INSTRUCTION)
    refused('TEST 5,AX', 'TEST', [imm(5), AX], 1, INSTRUCTION)
    refused('TEST DS,AX', 'TEST', [seg(3), AX], 1, INSTRUCTION)
    refused('TEST AX,DS', 'TEST', [AX, seg(3)], 1, INSTRUCTION)

    # PUSH and POP of memory: of a stated Word
    source('02, No. 1')
    gives('PUSH AX', 'PUSH', [AX], '50')
    gives('PUSH word [BX]', 'PUSH', [AT_BX(WORD)], 'FF 37')
    gives('PUSH word ES:[BP+200]', 'PUSH', [mem(WORD, 2, 6, 200, 0x26)], '26 FF B6 C8 00')
    refused('PUSH byte [BX]', 'PUSH', [AT_BX(BYTE)], 1, FIRST)
    refused('PUSH [BX], unstated', 'PUSH', [AT_BX(ANY)], 1, FIRST)
    gives('POP AX', 'POP', [AX], '58')
    gives('POP word [BX]', 'POP', [AT_BX(WORD)], '8F 07')
    gives('POP word SS:[4660]', 'POP', [mem(WORD, 0, 6, 4660, 0x36)], '36 8F 06 34 12')
    refused('POP byte [BX]', 'POP', [AT_BX(BYTE)], 4, FIRST)
    refused('POP [BX], unstated', 'POP', [AT_BX(ANY)], 4, FIRST)

    # RET with a word, at count 1 or 2; at 0 the operands are not looked at
    gives('RET 5', 'RET', [imm(5)], 'C2 05 00')
    gives('RET 0 is not RET', 'RET', [imm(0)], 'C2 00 00')
    gives('RET 65535', 'RET', [imm(65535)], 'C2 FF FF')
    gives('RET 4660, count 2', 'RET', [imm(4660), AX], 'C2 34 12')
    gives('RET 5, count 0', 'RET', [imm(5)], 'C3', count=0)
    gives('RET AX, count 0', 'RET', [AX], 'C3', count=0)
    refused('RET -1', 'RET', [imm(-1)], 5, FIRST, (-1, 0, 65535))
    refused('RET 65536', 'RET', [imm(65536)], 5, FIRST, (65536, 0, 65535))
    refused('RET 65536, count 2', 'RET', [imm(65536), AX], 5, FIRST, (65536, 0, 65535))
    refused('RET AX', 'RET', [AX], 1, INSTRUCTION)
    refused('RET DS', 'RET', [seg(3)], 1, INSTRUCTION)
    refused('RET word [BX]', 'RET', [AT_BX(WORD)], 1, INSTRUCTION)
    refused('RET AX,5', 'RET', [AX, imm(5)], 1, INSTRUCTION)

    # CALL through memory that holds a far target
    gives('CALL word [BX], Far', 'CALL', [mem(WORD, 0, 7, jump=FAR)], 'FF 1F')
    gives('CALL [BX], Far, unstated', 'CALL', [mem(ANY, 0, 7, jump=FAR)], 'FF 1F')
    gives('CALL ES:[4660], Far', 'CALL', [mem(ANY, 0, 6, 4660, 0x26, FAR)], '26 FF 1E 34 12')
    gives('CALL word [BX]', 'CALL', [AT_BX(WORD)], 'FF 17')
    gives('CALL word [BX], Near', 'CALL', [mem(WORD, 0, 7, jump=NEAR)], 'FF 17')
    refused('CALL byte [BX], Far', 'CALL', [mem(BYTE, 0, 7, jump=FAR)], 1, INSTRUCTION)
    refused('CALL 5, Far', 'CALL', [imm(5, FAR)], 1, INSTRUCTION)

    # JMP Short: its range, then the distance as of Jcc; without a kind and with Near E9
    gives('JMP at 0 to 129, Short', 'JMP', [imm(129, SHORT)], 'EB 7F')
    refused('JMP at 0 to 130, Short', 'JMP', [imm(130, SHORT)], 6, FIRST, (128, 0, 0))
    gives('JMP at 256 to 130, Short', 'JMP', [imm(130, SHORT)], 'EB 80', 256)
    refused('JMP at 256 to 129, Short', 'JMP', [imm(129, SHORT)], 6, FIRST, (-129, 0, 0), 256)
    gives('JMP at 65534 to 65535, Short', 'JMP', [imm(65535, SHORT)], 'EB FF', 65534)
    refused('JMP at 65534 to 0, Short', 'JMP', [imm(0, SHORT)], 6, FIRST, (-65536, 0, 0), 65534)
    refused('JMP at 0 to 65535, Short', 'JMP', [imm(65535, SHORT)], 6, FIRST, (65533, 0, 0))
    for offset in (0, 256, 65534):
        refused(f'JMP at {offset} to -1, Short', 'JMP', [imm(-1, SHORT)], 5, FIRST, (-1, 0, 65535), offset)
        refused(f'JMP at {offset} to 65536, Short', 'JMP', [imm(65536, SHORT)], 5, FIRST, (65536, 0, 65535), offset)
    gives('JMP at 0 to 5', 'JMP', [imm(5)], 'E9 02 00')
    gives('JMP at 0 to 5, Near', 'JMP', [imm(5, NEAR)], 'E9 02 00')
    refused('JMP [BX], Short', 'JMP', [mem(WORD, 0, 7, jump=SHORT)], 1, FIRST)
    refused('JMP [BX], Far', 'JMP', [mem(WORD, 0, 7, jump=FAR)], 1, FIRST)

    gives('WAIT', 'WAIT', [], '9B')
    gives('WAIT 5', 'WAIT', [imm(5)], '9B')

    # the SDM's 83 /0 to /7
    source('02, No. 2')
    for operation, register, memory in (('ADD', 'C3', '07'), ('OR', 'CB', '0F'), ('ADC', 'D3', '17'), ('SBB', 'DB', '1F'), ('AND', 'E3', '27'),
                                        ('SUB', 'EB', '2F'), ('XOR', 'F3', '37'), ('CMP', 'FB', '3F')):
        source('02, No. 2')
        gives(f'{operation} BX,-1', operation, [BX, imm(-1)], f'83 {register} FF')
        gives(f'{operation} BX,-128', operation, [BX, imm(-128)], f'83 {register} 80')
        # 81 and 80
        source('02, No. 4')
        gives(f'{operation} BX,-129', operation, [BX, imm(-129)], f'81 {register} 7F FF')
        gives(f'{operation} word [BX],-1', operation, [AT_BX(WORD), imm(-1)], f'83 {memory} FF')
        gives(f'{operation} word [BX],-129', operation, [AT_BX(WORD), imm(-129)], f'81 {memory} 7F FF')
        gives(f'{operation} BL,-1', operation, [reg(BYTE, 3), imm(-1)], f'80 {register} FF')
        gives(f'{operation} byte [BX],-1', operation, [AT_BX(BYTE), imm(-1)], f'80 {memory} FF')
        refused(f'{operation} BL,-129', operation, [reg(BYTE, 3), imm(-129)], 5, SECOND, (-129, -128, 255))
        refused(f'{operation} BX,70000', operation, [BX, imm(70000)], 5, SECOND, (70000, -32768, 65535))
    source('02, No. 2')
    gives('ADD AX,-128', 'ADD', [AX, imm(-128)], '83 C0 80')
    gives('ADD AX,-129', 'ADD', [AX, imm(-129)], '05 7F FF')
    gives('ADD AX,65535 is not 83', 'ADD', [AX, imm(65535)], '05 FF FF')
    gives('ADD BX,65535 is not 83', 'ADD', [BX, imm(65535)], '81 C3 FF FF')
    gives('ADD BX,65408 is not 83', 'ADD', [BX, imm(65408)], '81 C3 80 FF')
    gives('ADD word CS:[BP+SI-2],-3', 'ADD', [mem(WORD, 1, 2, -2, 0x2E), imm(-3)], '2E 83 42 FE FD')
    refused('ADD AX,65536', 'ADD', [AX, imm(65536)], 5, SECOND, (65536, -32768, 65535))

    # one range for data immediates
    source('02, No. 4')
    gives('MOV AL,-1', 'MOV', [AL, imm(-1)], 'B0 FF')
    gives('MOV AL,-128', 'MOV', [AL, imm(-128)], 'B0 80')
    refused('MOV AL,-129', 'MOV', [AL, imm(-129)], 5, SECOND, (-129, -128, 255))
    refused('MOV AL,256', 'MOV', [AL, imm(256)], 5, SECOND, (256, -128, 255))
    gives('MOV AX,-1', 'MOV', [AX, imm(-1)], 'B8 FF FF')
    gives('MOV BX,-32768', 'MOV', [BX, imm(-32768)], 'BB 00 80')
    refused('MOV BX,-32769', 'MOV', [BX, imm(-32769)], 5, SECOND, (-32769, -32768, 65535))
    refused('MOV BX,65536', 'MOV', [BX, imm(65536)], 5, SECOND, (65536, -32768, 65535))
    gives('ADD AL,-1', 'ADD', [AL, imm(-1)], '04 FF')
    gives('ADD AL,-128', 'ADD', [AL, imm(-128)], '04 80')
    gives('ADD AX,-32768', 'ADD', [AX, imm(-32768)], '05 00 80')
    refused('ADD AX,-32769', 'ADD', [AX, imm(-32769)], 5, SECOND, (-32769, -32768, 65535))
    refused('ADD AX,70000', 'ADD', [AX, imm(70000)], 5, SECOND, (70000, -32768, 65535))
    gives('TEST AL,-128', 'TEST', [AL, imm(-128)], 'A8 80')
    refused('TEST AL,-129', 'TEST', [AL, imm(-129)], 5, SECOND, (-129, -128, 255))
    gives('TEST AX,-32768', 'TEST', [AX, imm(-32768)], 'A9 00 80')
    refused('TEST word [BX],-32769', 'TEST', [AT_BX(WORD), imm(-32769)], 5, SECOND, (-32769, -32768, 65535))
    # what keeps its range
    refused('INT -1', 'INT', [imm(-1)], 5, FIRST, (-1, 0, 255))
    refused('INT 256', 'INT', [imm(256)], 5, FIRST, (256, 0, 255))
    refused('IN AL,-1', 'IN', [AL, imm(-1)], 5, SECOND, (-1, 0, 255))
    refused('OUT -1,AL', 'OUT', [imm(-1), AL], 5, FIRST, (-1, 0, 255))
    refused('MOV AL,[-1]', 'MOV', [AL, mem(BYTE, 0, 6, -1)], 5, SECOND, (-1, 0, 65535))
    refused('MOV [-1],AX', 'MOV', [mem(WORD, 0, 6, -1), AX], 5, FIRST, (-1, 0, 65535))
    refused('CALL -1', 'CALL', [imm(-1)], 5, FIRST, (-1, 0, 65535))
    refused('JMP -1', 'JMP', [imm(-1)], 5, FIRST, (-1, 0, 65535))
    refused('JMP 0 in segment -1, Far', 'JMP', [imm(0, FAR, -1)], 5, FIRST, (-1, 0, 65535))
    refused('SHL AL,-1', 'SHL', [AL, imm(-1)], 1, INSTRUCTION)


# ---- the sample
NAMES = {BYTE: 'al cl dl bl ah ch dh bh'.split(), WORD: 'ax cx dx bx sp bp si di'.split()}
BASES = 'bx+si bx+di bp+si bp+di si di bp bx'.split()
SIZES = {ANY: '', BYTE: 'byte ', WORD: 'word '}
EIGHT = 'ADD OR ADC SBB AND SUB XOR CMP'.split()
PREFIXES = {0: '', 0x26: 'es ', 0x2E: 'cs ', 0x36: 'ss ', 0x3E: 'ds '}


def text_of(o, size):
    """An operand as NASM writes it, in its own mode."""
    kind, _, _, disp_size, _, mode, rm, value, disp = o
    if kind == REG:
        return NAMES[size][rm]
    if kind == MEM:
        base = '' if (mode, rm) == (0, 6) else BASES[rm]
        return f'{SIZES[size]}[{SIZES[disp_size]}{base}{f"{disp:+}" if disp_size else ""}]'
    return str(value)


def words(operation, count, operands):
    """A record in words, also one that NASM does not take: r3 is a register of no stated size. The encoder looks at operands that the count leaves out."""
    def one(o):
        kind, size, prefix, disp_size, jump, mode, rm, value, disp = o
        along = {NONE: '', FAR: 'far ', NEAR: 'near ', SHORT: 'short '}[jump]
        if kind == REG:
            return along + (NAMES[size][rm].upper() if size else f'r{rm}')
        if kind == SEG:
            return along + 'ES CS SS DS'.split()[rm]
        if kind == MEM:
            base = [] if (mode, rm) == (0, 6) else [BASES[rm].upper()]
            shown = [str(disp)] if (mode, rm) == (0, 6) else [f'{disp:+}'] if disp_size else []
            segment = PREFIXES[prefix].strip().upper()
            return f'{along}{SIZES[size]}{segment}{":" if segment else ""}[{"".join(base + shown)}]'
        return along + (f'{disp}:' if jump == FAR else '') + SIZES[size] + str(value)
    used = max(count, *(i + 1 if any(o) else 0 for i, o in enumerate(operands)))
    return f'{operation} {",".join(map(one, operands[:used]))}'.strip() + (f', count {count}' if count != used else '')


def assembled(text, offset):
    with tempfile.TemporaryDirectory() as folder:
        source, out = pathlib.Path(folder, 'a.asm'), pathlib.Path(folder, 'a.bin')
        source.write_text(f'cpu 8086\nbits 16\norg {offset}\n{text}\n')
        subprocess.run(['nasm', '-f', 'bin', '-o', out, source], check=True)
        return out.read_bytes()


def by_request(operation, offset, spans, first, second):
    """What a request answers to a record on which 000 panics (No. 1) or refuses a data immediate with 5 (Nos. 2 and 4): number, span and values, or NASM's bytes."""
    instruction, at_first, at_second = spans
    size = first[1] or second[1]
    value, distance, highest = first[7], first[7] - (offset + 2), 256**size - 1
    if operation == 'RET' and first[0] != IMM or operation == 'CALL' and first[1] == BYTE:
        return dict(number=1, span=instruction)
    if operation in ('RET', 'JMP') and not 0 <= value <= 65535:
        return dict(number=5, span=at_first, values=(value, 0, 65535))
    lowest = -128 if size == BYTE else -32768
    if operation in ('TEST', 'MOV', *EIGHT) and second[0] == IMM and not lowest <= second[7] <= highest:
        return dict(number=5, span=at_second, values=(second[7], lowest, highest))
    if operation == 'JMP' and not -128 <= distance <= 127:
        return dict(number=6, span=at_first, values=(distance, 0, 0))
    text = {
        'TEST': lambda: f'{text_of(first, size)},{text_of(second, size)}',
        'PUSH': lambda: text_of(first, WORD),
        'POP': lambda: text_of(first, WORD),
        'RET': lambda: text_of(first, ANY),
        'CALL': lambda: f'far {text_of(first, ANY)}',
        'JMP': lambda: f'short {text_of(first, ANY)}',
        'WAIT': lambda: '',
        'MOV': lambda: f'{text_of(first, size)},{text_of(second, size)}',
    }.get(operation, lambda: f'{text_of(first, size)},strict {"byte" if size == BYTE or second[7] >= -128 else "word"} {second[7]}')()
    prefix = next((o[2] for o in (first, second) if o[0] == MEM), 0) if '[' in text else 0
    written = assembled(f'{PREFIXES[prefix]}{operation} {text}', offset)
    return dict(number=0, length=len(written), written=written)


def the_sample():
    heading(*ANSWER)
    for line in sys.stdin.read().splitlines():
        packed, offset, number, *fields, written = line.split()
        packed, offset, number = bytes.fromhex(packed), int(offset, 16), int(number, 16)
        number_of_operation, count, *span = operations.RECORD.unpack_from(packed)
        operation = OPERATIONS[number_of_operation]
        *first, a, b = OPERAND.unpack_from(packed, operations.FIRST)
        *second, c, d = OPERAND.unpack_from(packed, operations.SECOND)
        spans = tuple(span), (a, b), (c, d)
        name = words(operation, count, [first, second])
        if number == 7 and operation not in ('INT1', 'ESC'):
            request = 1
        elif number == 5 and operation in EIGHT and WORD in (first[1], second[1]) and -128 <= second[7] < 0:
            request = 2
        elif number == 5 and second[0] == IMM and (operation in EIGHT or operation == 'MOV' and first[0] == REG):
            request = 4
        else:
            source('the Rust')
            length, *span, value, low, high = (int(n, 16) for n in fields)
            row(name, packed, offset, number, length, span, (value, low, high), bytes.fromhex(written)[:length])
            continue
        source(f'02, No. {request}')
        row(name, packed, offset, **by_request(operation, offset, spans, first, second))


{'lists': the_lists, 'sample': the_sample}.get(''.join(sys.argv[1:]), the_bench_sheet)()
