#!/usr/bin/env python3
"""short.py writes what fsqshort has to print: every string of one or two bytes that ndisasm reads, whole, as one instruction, less what documents 01 and 02 exclude, and with LOCK, REPNE,
REP and WAIT, which ndisasm joins to what follows. Our own reader is not asked. short.py rows writes the numbers of that list that are proved of the definitions,
crates/short_list/proofs/ByNdisasm.antt.

Each string stands in sixteen bytes of its own, with NOPs behind it, so that ndisasm has one input and begins each string anew."""
import re
import subprocess
import sys

STRINGS = [bytes([a]) for a in range(256)] + [bytes([a, b]) for a in range(256) for b in range(256)]
ROOM = 16
PREFIXES = (0x26, 0x2E, 0x36, 0x3E)
ALONE = (0xF0, 0xF2, 0xF3, 0x9B)  # LOCK, REPNE, REP, WAIT
# what F2 and F3 belong to, and how ndisasm says so
REPEATED = [f'{name}{size}' for name in ('movs', 'cmps', 'scas', 'lods', 'stos') for size in 'bw']
REPEATS = {0xF2: ('repne',), 0xF3: ('rep', 'repe')}


def readings():
    """The length and the text of the instruction that ndisasm reads at the front of each string."""
    joined = b''.join(s.ljust(ROOM, b'\x90') for s in STRINGS)
    out = subprocess.run(['ndisasm', '-b', '16', '-'], input=joined, capture_output=True, check=True).stdout.decode()
    found, at = {}, None
    for line in out.splitlines():
        head = re.match(r'([0-9A-F]{8})  ([0-9A-F]+) +(.*)', line)
        if head:
            at = int(head[1], 16)
            found[at] = (len(head[2]) // 2, head[3])
        else:
            found[at] = (found[at][0] + len(line.strip().lstrip('-')) // 2, found[at][1])
    return [found[ROOM * k] for k in range(len(STRINGS))]


def excluded(s, text):
    """What the documents say of a string that ndisasm reads, whole, as this text: why it is none here, or nothing."""
    c, x = s[0], s[1] if len(s) > 1 else 0
    n, mode = x >> 3 & 7, x >> 6
    if c in PREFIXES:
        return 'a segment prefix only before a memory operand or D7' if s[1:] != b'\xD7' else None
    if c in ALONE:
        repeat, _, operation = text.partition(' ')
        if repeat in REPEATS.get(c, ()) and operation in REPEATED:
            return None
        return 'LOCK and WAIT are instructions by themselves, REPNE and REP before anything but a string operation'
    if c in range(0x64, 0x68):
        return 'no form has this first byte: a later prefix'
    if c == 0x0F or c in range(0x60, 0x64) or c in range(0x68, 0x70) or c in (0xC0, 0xC1, 0xC8, 0xC9):
        return 'no form has this first byte: a later opcode'
    if c in range(0xD8, 0xE0):
        return 'ESC'
    if c == 0xF1:
        return 'INT1'
    if c in (0x9A, 0xCA, 0xCB) or (c == 0xFF and n == 5):
        return 'no far form but FF /3'
    if c == 0x82:
        return '82'
    if c in range(0xD0, 0xD4) and n == 6 or c in (0xF6, 0xF7) and n == 1 or c == 0xFE and n > 1 or c == 0xFF and n == 7 or c in (0xC6, 0xC7, 0x8F) and n:
        return 'an unused /n'
    if c in (0x8C, 0x8E) and n > 3:
        return '8C and 8E with /4 to /7'
    if c == 0x8E and n == 1:
        return 'never into CS'
    if (c in (0x8D, 0xC4, 0xC5) or c == 0xFF and n == 3) and mode == 3:
        return 'mode 3'
    if c in (0xD4, 0xD5) and x != 0x0A:
        return 'D4 and D5 with another second byte'
    return None


def short():
    for s, (length, text) in zip(STRINGS, readings()):
        if s in [bytes([c]) for c in ALONE] or length == len(s) and not text.startswith('db ') and not excluded(s, text):
            yield s


ROWS = """\
-- What ndisasm reads of the strings of one and two bytes: tests/short/short.py rows writes this file.
-- Definitions only.
use mathlib.Core.List.{{List, [], ◌∷◌}}
use Prim.Native.Nat.{{ℕ}}

-- the strings of one byte
abbrev pub ones : List ℕ
ones =
{ones}

-- how many strings of two bytes begin with each byte
abbrev pub twos : List ℕ
twos =
{twos}
"""


def chain(numbers):
    """A list in antt, sixteen numbers a line."""
    lines = [' ∷ '.join(numbers[n:n + 16]) for n in range(0, len(numbers), 16)]
    return '    ' + '\n    ∷ '.join([*lines, '[]'])


def main():
    found = list(short())
    if sys.argv[1:] == ['rows']:
        begun = [s[0] for s in found if len(s) == 2]
        sys.stdout.write(ROWS.format(ones=chain([f'0x{s[0]:02X}' for s in found if len(s) == 1]), twos=chain([str(begun.count(c)) for c in range(256)])))
    else:
        print('\n'.join([*(s.hex().upper() for s in found), str(len(found))]))


if __name__ == '__main__':
    main()
