#!/usr/bin/python3
"""emulate.py PROGRAM [COMPILER]: fsqrun beside Unicorn, the processor of QEMU, on images of a fixed seed, and beside texts worked out by hand from the manual and document 02, No. 10; with
fsqcue as COMPILER also sheets of cues, compiled by it and run.

Unicorn carries the instructions out and shows the ports; which instructions a run knows is said here again, from request No. 10.
"""
import random
import subprocess
import sys

from unicorn import UC_ARCH_X86, UC_HOOK_CODE, UC_HOOK_INSN, UC_MODE_16, Uc
from unicorn.x86_const import UC_X86_INS_OUT

REACH = 65536
PAIRS = 32768
IMAGES = 4000


def length_at(image, at):
    """The length of the instruction that a run knows at an offset, or 0."""
    code = image[at : at + 4]
    if not code:
        return 0
    if 0xB0 <= code[0] <= 0xB7 or code[0] in (0xE2, 0xE6, 0xEB):
        n = 2
    elif 0xB8 <= code[0] <= 0xBF or code[0] == 0xE9:
        n = 3
    elif code[0] in (0xC6, 0xC7) and len(code) > 1 and code[1] & 0xF8 == 0xC0:
        n = 3 if code[0] == 0xC6 else 4
    else:
        n = 1 if code[0] == 0xF4 else 0
    return n if n <= len(code) else 0


def text_of(pairs, end):
    """What is printed of a run: the pairs only where it halts."""
    lines = [f'{p:02X} {v:02X}' for p, v in pairs] if end.startswith('halted') else []
    return '\n'.join([*lines, end, ''])


class Run:
    def __init__(self, image, budget):
        self.image, self.budget = image[:REACH], budget
        self.count, self.pairs, self.end = 0, [], None
        machine = Uc(UC_ARCH_X86, UC_MODE_16)
        machine.mem_map(0, 2 * REACH)
        machine.mem_write(0, self.image)
        machine.hook_add(UC_HOOK_CODE, self.step)
        machine.hook_add(UC_HOOK_INSN, self.out, None, 1, 0, UC_X86_INS_OUT)
        machine.emu_start(0, 2 * REACH)
        assert self.end, 'the emulator stopped by itself'

    def stop(self, machine, end):
        self.end = end
        machine.emu_stop()

    def step(self, machine, at, _size, _):
        if self.end:
            return
        if self.count == self.budget:
            return self.stop(machine, 'refused 22')
        if not length_at(self.image, at):
            return self.stop(machine, 'refused 21')
        if self.image[at] == 0xE6 and len(self.pairs) == PAIRS:
            return self.stop(machine, 'refused 9')
        self.count += 1
        if self.image[at] == 0xF4:
            self.stop(machine, f'halted {self.count}')

    def out(self, _machine, port, _size, value, _):
        self.pairs.append((port, value & 0xFF))


def image_of(rng):
    """Instructions that a run knows, now and then another, with jumps that stay among them."""
    parts, places = [], [0]
    for _ in range(rng.randint(1, 40)):
        kind = rng.choice(['byte', 'word', 'byte', 'out', 'out', 'loop', 'jump', 'near', 'c6', 'c7', 'halt', 'count'] + ['other'] * (rng.random() < 0.1))
        byte = lambda: rng.randrange(256)
        if kind == 'byte':
            part = [0xB0 + rng.randrange(8), byte()]
        elif kind == 'word':
            part = [0xB8 + rng.randrange(8), byte(), byte()]
        elif kind == 'count':
            part = [0xB9, rng.randrange(6), 0]
        elif kind == 'out':
            part = [0xE6, byte()]
        elif kind == 'c6':
            part = [0xC6, 0xC0 + rng.randrange(8), byte()]
        elif kind == 'c7':
            part = [0xC7, 0xC0 + rng.randrange(8), byte(), byte()]
        elif kind == 'halt':
            part = [0xF4] if rng.random() < 0.3 else [0xE6, byte()]
        elif kind == 'other':
            part = [rng.choice([0x90, 0xEE, 0xE7, 0xE0, 0xE1, 0xE3, 0x88, 0xCD, 0xFE]), byte()]
        else:
            part = [{'loop': 0xE2, 'jump': 0xEB, 'near': 0xE9}[kind], None] + [None] * (kind == 'near')
        parts.append(part)
        places.append(places[-1] + len(part))
    parts.append([0xF4])
    image = b''
    for i, part in enumerate(parts):
        if None in part:
            low = 0 if part[0] == 0xE2 or rng.random() < 0.2 else i + 1
            near = [p for p in places[low:] if -128 <= p - places[i + 1] <= 127]
            d = rng.choice(near or [places[i + 1]]) - places[i + 1]
            part = [part[0]] + list((d & 0xFFFF).to_bytes(2, 'little')[: len(part) - 1])
        image += bytes(part)
    if rng.random() < 0.1:
        image = image[:-1]
    return image


def hexes(text):
    return bytes.fromhex(text)


def whole(front, end):
    """An image of 65,536 bytes, zeros but for its front and its end."""
    return hexes(front) + bytes(REACH - len(hexes(front)) - len(hexes(end))) + hexes(end)


def code_of(cues):
    """Document 02, No. 9: MOV CX,delay; LOOP to itself; MOV AL,mask; OUT port,AL for each cue, and HLT."""
    return b''.join(bytes([0xB9, delay & 255, delay >> 8, 0xE2, 0xFE, 0xB0, mask, 0xE6, port]) for delay, port, mask in cues) + b'\xF4'


def budget_of(cues):
    return sum(delay + 3 for delay, _, _ in cues) + 1


def told(cues):
    return text_of([(port, mask) for _, port, mask in cues], f'halted {budget_of(cues)}')


LONGEST = [(65535, k, 255 - k) for k in range(200)]

# An image, a budget and the text, by the manual.
BY_HAND = [
    ('nothing to run', b'', 1, 'refused 21\n'),
    ('no budget', b'', 0, 'refused 22\n'),
    ('no budget, before the instruction is asked', hexes('90'), 0, 'refused 22\n'),
    ('no budget for HLT', hexes('F4'), 0, 'refused 22\n'),
    ('HLT is counted', hexes('F4'), 1, 'halted 1\n'),
    ('the last step of the budget', hexes('B007F4'), 2, 'halted 2\n'),
    ('and one less', hexes('B007F4'), 1, 'refused 22\n'),
    ('22 before 21', hexes('B00790'), 1, 'refused 22\n'),
    ('21 in the budget', hexes('B00790'), 2, 'refused 21\n'),
    ('B0 as the last byte', hexes('B0'), 9, 'refused 21\n'),
    ('B8 with one byte of two', hexes('B812'), 9, 'refused 21\n'),
    ('C6 without its immediate', hexes('C6C0'), 9, 'refused 21\n'),
    ('C7 with one byte of two', hexes('C7C034'), 9, 'refused 21\n'),
    ('E9 with one byte of two', hexes('E900'), 9, 'refused 21\n'),
    ('EB alone', hexes('EB'), 9, 'refused 21\n'),
    ('E2 alone', hexes('E2'), 9, 'refused 21\n'),
    ('E6 alone', hexes('E6'), 9, 'refused 21\n'),
    ('AH is the high half of AX, and not SP', hexes('B412B034E601B81278E602F4'), 9, '01 34\n02 12\nhalted 6\n'),
    ('AH leaves AL', hexes('B83412B456E602F4'), 9, '02 34\nhalted 4\n'),
    ('AL leaves AH, and OUT has AL', hexes('B83412B078E602F4'), 9, '02 78\nhalted 4\n'),
    ('SP is not AX', hexes('BC3412E602F4'), 9, '02 00\nhalted 3\n'),
    ('CH is the high half of CX', hexes('B501B101E2FEF4'), 999, 'halted 260\n'),
    ('C6 and C7 as B0 and B8', hexes('C6C007E601C7C03412E602F4'), 9, '01 07\n02 34\nhalted 5\n'),
    ('C6 of memory is another instruction', hexes('C60707F4'), 9, 'refused 21\n'),
    ('also of an address', hexes('C606000007F4'), 9, 'refused 21\n'),
    ('C6 /1 is none', hexes('C6C807F4'), 9, 'refused 21\n'),
    ('the port first', hexes('B001E610B002E620F4'), 9, '10 01\n20 02\nhalted 5\n'),
    ('OUT from AX is another instruction', hexes('E701F4'), 9, 'refused 21\n'),
    ('OUT to DX is another instruction', hexes('EEF4'), 9, 'refused 21\n'),
    ('LOOPNZ is another instruction', hexes('E000F4'), 9, 'refused 21\n'),
    ('LOOPZ is another instruction', hexes('E100F4'), 9, 'refused 21\n'),
    ('JCXZ is another instruction', hexes('E300F4'), 9, 'refused 21\n'),
    ('CALL is another instruction', hexes('E80000F4'), 9, 'refused 21\n'),
    ('far JMP is another instruction', hexes('EA05000000F4'), 9, 'refused 21\n'),
    ('JMP through a register is another instruction', hexes('FFE0F4'), 9, 'refused 21\n'),
    ('a prefix before MOV is no instruction', hexes('26B007F4'), 9, 'refused 21\n'),
    ('REP is another instruction', hexes('F3F4'), 9, 'refused 21\n'),
    ('the pairs before a refusal are not told', hexes('E601E60290'), 9, 'refused 21\n'),
    ('nor those before 22', hexes('E601E602EBFE'), 9, 'refused 22\n'),
    ('LOOP with CX 1 goes on', hexes('B90100E2FEF4'), 9, 'halted 3\n'),
    ('LOOP with CX 2 jumps once', hexes('B90200E2FEF4'), 9, 'halted 4\n'),
    ('LOOP with CX 0 goes 65,536 rounds', hexes('E2FEF4'), 65537, 'halted 65537\n'),
    ('and not one more', hexes('E2FEF4'), 65536, 'refused 22\n'),
    ('32,768 pairs', hexes('B90080E610E2FCF4'), 1000000, '10 00\n' * 32768 + 'halted 65538\n'),
    ('and one more', hexes('B90180E610E2FCF4'), 1000000, 'refused 9\n'),
    ('21 before 9', hexes('B90080E610E2FC90'), 1000000, 'refused 21\n'),
    ('22 before 9', hexes('B90180E610E2FCF4'), 65537, 'refused 22\n'),
    ('no room, before the budget ends', hexes('B90180E610E2FCF4'), 65538, 'refused 9\n'),
    # JMP to FFFE, where MOV AL,07 stands, and on at 0
    ('the offset wraps between two instructions', whole('E610E611EBF8F4', 'B007'), 6, 'refused 22\n'),
    ('and goes on at 0, and not at 1', whole('EBFCF4', 'B007'), 3, 'refused 22\n'),
    ('JMP across the wrap, near', whole('E9FAFFF4', 'E90300'), 9, 'halted 3\n'),
    ('JMP across the wrap, short', whole('E9FAFFF4', 'EB0400'), 9, 'halted 3\n'),
    ('JMP back across the start', whole('EBFD', 'F4'), 9, 'halted 2\n'),
    ('LOOP across the wrap', whole('B90200E2F8E605F4', 'B007F4'), 9, 'halted 4\n'),
    ('HLT as the last byte of 65,536', whole('E9FCFF', 'F4'), 9, 'halted 2\n'),
    # JMP to FFF6, JMP to FFFF, where B0 stands; behind its immediate the offset would be 1, where HLT stands
    ('an instruction does not wrap', whole('EBF4', 'EB0700000000000000B0'), 9, 'refused 21\n'),
    ('nor does it reach past 65,536 bytes', whole('EBF4', 'EB0700000000000000B0') + hexes('07F4'), 9, 'refused 21\n'),
    ('but it ends with the last of them', whole('EBF4', 'EB06000000000000B007'), 9, 'refused 22\n'),
    ('JMP over 300 bytes', hexes('E92C01') + bytes(300) + hexes('F4'), 9, 'halted 2\n'),
    ('JMP over 32,768 bytes and back', hexes('E90080F4') + bytes(32767) + hexes('E9FD7F'), 9, 'halted 3\n'),
    ('later bytes are not looked at', whole('B007E610F4', '') + hexes('90') * 100000, 9, '10 07\nhalted 3\n'),
    ('behind the image nothing stands', hexes('E9FCFF'), 9, 'refused 21\n'),
    ('every delay and port', code_of([(300, 0, 0), (1, 255, 255), (256, 0x61, 0x80)]), 567, '00 00\nFF FF\n61 80\nhalted 567\n'),
    ('no cue', code_of([]), 1, 'halted 1\n'),
    ('200 cues of the longest delay', code_of(LONGEST), 13107601, told(LONGEST)),
    ('and one step less', code_of(LONGEST), 13107600, 'refused 22\n'),
]


def emulated():
    """Images of a fixed seed with Unicorn's text."""
    rng = random.Random(10)
    for _ in range(IMAGES):
        image, budget = image_of(rng), rng.choice([0, 1, 5, 50, 3000])
        run = Run(image, budget)
        yield image.hex(), image, budget, text_of(run.pairs, run.end)


def printed(program, image, budget):
    r = subprocess.run([program, str(budget)], input=image, capture_output=True)
    assert not r.stderr, r.stderr
    return r.stdout.decode()


def sheets(program, compiler):
    """Sheets of cues at random, compiled and run with the budget of document 02, No. 10, and by Unicorn; and with one step less."""
    rng = random.Random(9)
    for n in [0, 1, 2, 3, 5, 8, 13, 21, 34, 55, 89, 144, 200]:
        cues = [(rng.randint(1, 20) if rng.random() < 0.9 else rng.randint(1, 3000), rng.randrange(256), rng.randrange(256)) for _ in range(n)]
        sheet = b''.join(bytes([delay & 255, delay >> 8, port, mask]) for delay, port, mask in cues)
        image = subprocess.run([compiler], input=sheet, capture_output=True).stdout
        run = Run(image, budget_of(cues))
        yield image == code_of(cues) and printed(program, image, budget_of(cues)) == told(cues) == text_of(run.pairs, run.end)
        yield printed(program, image, budget_of(cues) - 1) == 'refused 22\n'


def main():
    program, *compiler = sys.argv[1:]
    faults, ends = 0, {}
    for name, image, budget, text in BY_HAND:
        got = printed(program, image, budget)
        if got != text:
            faults += 1
            print(f'run: {name}: {got[-40:]!r} and not {text[-40:]!r}')
    for name, image, budget, text in emulated():
        end = 'halted' if 'halted' in text else text.strip()
        ends[end] = ends.get(end, 0) + 1
        got = printed(program, image, budget)
        if got != text:
            faults += 1
            print(f'run: {name} {budget}: {got!r} and not {text!r}')
    compiled = [fine for command in compiler for fine in sheets(program, command)]
    if not all(compiled):
        faults += compiled.count(False)
        print('run: sheets of cues do not halt on the last step, or with other pairs')
    told_ends = ', '.join(f'{end} {n}' for end, n in sorted(ends.items()))
    print(f'run: {len(BY_HAND)} by hand, {IMAGES} beside Unicorn ({told_ends}), {len(compiled)} of sheets, {faults} failed')
    return faults > 0


if __name__ == '__main__':
    sys.exit(main())
