"""Shows with labels in the place of targets, for the small processor of shifts.py. NASM assembles each twice: with `cpu 186` as it is, and with `cpu 8086` and each shift by n as n shifts by 1. Its
labels give the records' old starts, the file's targets and those of the written file, and its images what runs before and afterwards."""
import pathlib
import random
import re
import subprocess
import tempfile

import shows

BRANCH = re.compile(r'(CALL|JMP|J\w+|LOOP\w*)(?: (near|short))? ([a-z]\w*)')
COUNTED = re.compile(r'((?:ROL|ROR|RCL|RCR|SHL|SHR|SAR) .*),(\d+)')


class OutOfRange(Exception):
    pass


class Labelled:
    def __init__(self, name, origin, text):
        self.name, self.origin, self.lines, labels = name, origin, [], {}
        for line in text.strip().splitlines():
            label, instruction = re.fullmatch(r'\s*(?:([a-z]\w*):)?\s*(.*?)\s*', line).groups()
            labels[label] = len(self.lines)
            if instruction:
                self.lines.append(instruction)
        self.labels = labels
        self.branches = {k: BRANCH.fullmatch(line) for k, line in enumerate(self.lines) if BRANCH.fullmatch(line)}

    def times(self, k):
        counted = COUNTED.fullmatch(self.lines[k])
        return int(counted[2]) if counted else 1

    def assembled(self, cpu):
        """The image, and where each record and the end stand, not wrapped."""
        text = f'cpu {cpu}\nbits 16\norg {self.origin}\n'
        for k, line in enumerate(self.lines):
            if k in self.branches:
                operation, kind, label = self.branches[k].groups()
                kind = kind or ('near' if operation == 'JMP' else 'short' if operation.startswith('J') and operation != 'JCXZ' else '')
                line = f'{operation} {kind} at{self.labels[label]}'
            elif cpu == '8086' and self.times(k) > 1:
                line = f'times {self.times(k)} {COUNTED.fullmatch(line)[1]},1'
            text += f'at{k}: {line}\n'
        text += f'at{len(self.lines)}:\n' + 'dd ' + ', '.join(f'at{k}' for k in range(len(self.lines) + 1)) + '\n'
        with tempfile.TemporaryDirectory() as folder:
            path = pathlib.Path(folder)
            (path / 'a.asm').write_text(text)
            end = subprocess.run(['nasm', '-w-all', '-f', 'bin', '-o', path / 'a.bin', path / 'a.asm'], capture_output=True, text=True)
            if end.returncode and 'short jump is out of range' in end.stderr:
                raise OutOfRange
            assert not end.returncode, (self.name, end.stderr)
            whole = (path / 'a.bin').read_bytes()
        table = 4 * (len(self.lines) + 1)
        return whole[:-table], [int.from_bytes(whole[at:at + 4], 'little') for at in range(len(whole) - table, len(whole), 4)]

    def file(self, starts, others=None):
        """The records with targets by these starts, where the branches stand; or those of the written file, whose targets stand at others. A near target is taken modulo 65,536, a short one as far from
        its branch as it is, and moved as its label is."""
        packed = []
        for k, line in enumerate(self.lines):
            times = 1 if others is None else self.times(k)
            if k in self.branches:
                operation, kind, label = self.branches[k].groups()
                place, wraps = self.labels[label], operation in ('CALL', 'JMP') and kind != 'short'
                target = starts[place] if wraps else starts[k] % 65536 + starts[place] - starts[k]
                moved = 0 if others is None else others[place] - starts[place]
                target = (target + moved) % 65536 if wraps else target + moved
                line = f'{operation} {kind} {target}' if kind else f'{operation} {target}'
            elif times > 1:
                line = f'{COUNTED.fullmatch(line)[1]},1'
            packed += [shows.record(line)] * times
        return shows.file(self.origin, packed)


WRITTEN_OUT = [
    ('scale', 256, """
                MOV CX,5
                MOV AX,4660
        again:  SHL AX,3
                ROR BL,4
                RCL BL,9
                OUT 64,AL
                LOOP again
                CALL low
                OUT 65,AL
                JMP end
        low:    SHR AX,5
                RET
        end:    HLT
    """),
    # both ways over shifts, to a shift, and to the end, which is behind HLT
    ('table', 1024, """
                MOV BX,512
                MOV word [BX],33025
                MOV CX,4
        each:   ROL word [BX],5
                JNB even
                SAR byte [ES:BX+1],3
                RCR word [BX],17
        even:   RCR byte [BX+300],2
                DEC CX
                JE done
                JMP short each
        done:   SHL word [512],7
                MOV AX,[BX]
                OUT 3,AL
                JCXZ last
                JMP near behind
        last:   CALL word_
                HLT
        word_:  ROR AX,8
                OUT 4,AL
                RET
        behind:
    """),
    # across the wrap: near branches both ways over it
    ('wrap', 65520, """
                JMP over
        back:   SHL BX,4
                RCL BX,3
                CMP BX,5
                CALL out_
                HLT
        over:   MOV AX,43981
                ROR AX,11
                STC
                RCR AL,3
                OUT 9,AL
                MOV BX,7
                JMP back
        out_:   MOV AX,BX
                SHR AX,2
                OUT 10,AL
                RET
    """),
    ('carry', 0, """
                MOV AX,32769
                SHL AX,2
                ADC AX,0
                MOV BX,AX
                SAR AX,31
                RCL BX,31
                JB high
                INC BX
        high:   ROL BX,31
                RCR BX,16
                ADC BX,0
                MOV AX,BX
                OUT 1,AL
                HLT
    """),
]


def at_random(number):
    """A text that ends: branches go forward, LOOPs have a count of their own, subroutines stand behind HLT."""
    some = random.Random(number)
    lines, fresh = [], iter(range(1000))
    words, bytes_ = 'AX BX DX SI DI BP'.split(), 'AL BL DL AH BH DH'.split()
    memory = ['[BX]', '[BX+4]', '[512]', '[ES:600]', '[BP+SI+300]', '[DI]']

    def plain():
        count = some.choice((1, 2, 3, some.randrange(2, 32), some.randrange(2, 32)))
        return some.choice((
            f'MOV {some.choice(words)},{some.randrange(65536)}', f'MOV {some.choice(bytes_)},{some.randrange(256)}',
            f'{some.choice(shows.SHIFTS)} {some.choice(words)},{count}', f'{some.choice(shows.SHIFTS)} {some.choice(words)},{count}', f'{some.choice(shows.SHIFTS)} {some.choice(bytes_)},{count}',
            f'{some.choice(shows.SHIFTS)} {some.choice(("byte", "word"))} {some.choice(memory)},{count}', f'{some.choice(shows.SHIFTS)} {some.choice(words)},CL',
            f'{some.choice(("ADD", "ADC", "SUB", "CMP"))} {some.choice(words[1:])},{some.randrange(128)}', f'{some.choice(("INC", "DEC"))} {some.choice(words)}', f'OUT {some.randrange(256)},AL',
            some.choice(('STC', 'CLC', 'CMC', 'STC', 'CLC')), f'MOV {some.choice(("byte", "word"))} {some.choice(memory)},{some.randrange(128)}'))

    def block(calls):
        kind, label = some.randrange(6), f'l{next(fresh)}'
        body = [plain() for _ in range(some.randrange(1, 5))]
        if kind == 0:
            lines.extend([f'MOV CX,{some.randrange(1, 6)}', f'{label}: {body[0]}', *body[1:], f'LOOP {label}'])
        elif kind == 1:
            lines.extend([f'{some.choice(("JB", "JNB", "JE", "JNE", "JMP short", "JMP", "JMP near"))} {label}', *body, f'{label}: {plain()}'])
        elif kind == 2 and calls:
            lines.append(f'CALL {some.choice(calls)}')
        else:
            lines.extend(body)

    calls = [f'sub{n}' for n in range(some.randrange(3))]
    for _ in range(some.randrange(2, 7)):
        block(calls)
    lines.append(some.choice(('HLT', 'HLT', 'JMP end', 'JMP short end')))
    for call in calls:
        lines.append(f'{call}: {plain()}')
        block([])
        lines.append('RET')
    lines.append('end: HLT')
    return Labelled(f'random {number}', some.choice((0, 256, 4096, 65536 - some.randrange(1, 90), 65536 - some.randrange(1, 40))), '\n'.join(lines))


def written_out():
    return [Labelled(*one) for one in WRITTEN_OUT]
