#!/usr/bin/env python3
"""convert.py [PROGRAM] runs fsq186, or another program of its kind, over the files of shows.py and labelled.py: what it writes or says beside the answers by hand, those of answers.py, NASM's images and
runs on the processor of shifts.py; then what it says of a failed read or write. The gate's tests/checks/convert."""
import collections
import itertools
import os
import pathlib
import subprocess
import sys
import tempfile

import labelled
import shifts
import shows
from answers import HEADER_BYTES, RECORD_BYTES, Paper, line
from encoder import Refused, encode, unpacked
from operations import HEADER, MARK, PREFIXES

ROOT = shows.ROOT
PROGRAM = pathlib.Path(sys.argv[1]) if sys.argv[1:] else ROOT / 'target/bin/fsq186'
LISTER = ROOT / 'target/bin/fsqlist'
USAGE = b'usage: fsq186 < SHOW.fsq > CONVERTED.fsq\n'
RANDOM_SHOWS, LARGER_SHOWS, DAMAGED, RANDOM_TEXTS = 300, 20, 500, 150


def run(stdin, stdout=subprocess.PIPE, closed=None, arguments=()):
    close = None if closed is None else lambda: os.close(closed)
    return subprocess.run([PROGRAM, *arguments], stdin=stdin, stdout=stdout, stderr=subprocess.PIPE, preexec_fn=close)


def outcome(end):
    """What a program wrote, or the line that it said; or what is wrong with both."""
    said = end.stderr.decode('latin-1')
    if end.returncode or bool(end.stdout) == bool(said) or said.count('\n') != (not end.stdout):
        return f'status {end.returncode}, {len(end.stdout)} bytes written, said {said[:200]!r}'
    return end.stdout or said.removesuffix('\n')


def ran(file):
    return outcome(subprocess.run([PROGRAM], input=file, capture_output=True))


def listed(file):
    """The image of a file by fsqlist; or what it prints instead."""
    printed = subprocess.run([LISTER], input=file, capture_output=True).stdout.decode()
    first, *rest = printed.splitlines()
    return b''.join(bytes.fromhex(one.split()[2]) for one in rest) if first.startswith('FSQ 1 ') else first


def answered(paper, file):
    try:
        return paper.converted(file)
    except Refused as refused:
        return line(refused)


def told(answer):
    if isinstance(answer, str):
        return answer
    _, origin, count = HEADER.unpack_from(answer, len(MARK))
    return f'a file of {len(answer)} bytes, {count} records at {origin}'


def first_difference(one, other):
    if isinstance(one, str) or isinstance(other, str) or len(one) != len(other):
        return ''
    at = next(n for n, (a, b) in enumerate(zip(one, other)) if a != b)
    return f', differing in byte {at}' + (f', record {(at - HEADER_BYTES) // RECORD_BYTES} byte {(at - HEADER_BYTES) % RECORD_BYTES}' if at >= HEADER_BYTES else '')


def faults_of_encoder():
    """encoder.py beside the stored answers, the Rust's and the papers'."""
    for name in shows.make.STORED:
        for packed, _, offset, expected in shows.make.stored(name):
            if len(packed) != 2 * RECORD_BYTES:
                continue
            try:
                found = encode(unpacked(bytes.fromhex(packed)), offset).hex().upper()
            except Refused as refused:
                found = f'refused {refused.number}'
            if found != expected:
                yield f'encoder.py answers {found} to {packed} at {offset}: {expected} is stored'


def faults_of_answers(cases, met):
    """Cases with their answers: the program, answers.py and, of a written file, fsqlist."""
    paper = Paper()
    for name, file, expected in cases:
        found, by_paper = ran(file), answered(paper, file)
        if found != expected:
            yield f'{name[:150]}: expected {told(expected)}, found {told(found)}{first_difference(expected, found)}'
        if by_paper != expected:
            yield f'{name[:150]}: expected {told(expected)}, answers.py has {told(by_paper)}{first_difference(expected, by_paper)}'
        elif not isinstance(expected, str) and listed(expected) != paper.image:
            yield f'{name[:150]}: fsqlist prints another image of the written file'
        met[expected.split()[1] if isinstance(expected, str) else 'written'] += 1


def at_random():
    """Files with answers.py's own answer."""
    paper = Paper()
    small = [shows.at_random(paper, number, 12) for number in range(RANDOM_SHOWS)]
    files = [*((f'random {n}', file) for n, file in enumerate(small)),
        *((f'random of many {n}', shows.at_random(paper, n, 120)) for n in range(LARGER_SHOWS)),
        *((f'damaged {n}', shows.damaged(n, small[n % len(small)])) for n in range(DAMAGED)),
        *((f'large {n}', file) for n, file in enumerate(shows.large(paper)))]
    for name, file in files:
        yield name, file, answered(paper, file)


def faults_of_copies():
    """Each of the seven, at both widths, by each count, of a register and of memory: what is written, run step by step beside the one shift."""
    places = {8: ('BL', 'byte [ES:BX+4]'), 16: ('DX', 'word [600]')}
    for name, size, count in itertools.product(shows.SHIFTS, (8, 16), range(2, 32)):
        place = places[size][count % 2]
        written = ran(shows.show(256, f'{name} {place},{count}'))
        one = shows.record(f'{name} {place},1')
        if isinstance(written, str):
            yield f'{name} {place},{count}: {written}'
            continue
        records = [written[at:at + RECORD_BYTES] for at in range(HEADER_BYTES, len(written), RECORD_BYTES)]
        if set(records) != {one}:
            yield f'{name} {place},{count} is not written as {name} {place},1'
        yield from shifts.faults_of_copies(name, size, count, len(records))


def by_one(shift):
    """The bytes of a 186's shift by a count as those of a shift by 1."""
    at = shift[0] in PREFIXES
    return shift[:at] + bytes([shift[at] + 0x10]) + shift[at + 1:-1]


def faults_of_targets(text, old, new):
    """Where each branch of a text goes to: a shift by a count, which has become copies, or the same opcode, or the end."""
    (old_image, starts), (new_image, others) = old, new
    for k, branch in text.branches.items():
        place = text.labels[branch[3]]
        if place == len(text.lines):
            same = others[place] - others[0] == len(new_image)
        else:
            was, now = old_image[starts[place] - starts[0]:starts[place + 1] - starts[0]], new_image[others[place] - others[0]:]
            same = now.startswith(by_one(was)) if text.times(place) > 1 else now[0] == was[0]
        if not same:
            yield f'{text.name}: at the target of record {k} stands another instruction'


def faults_of_images(texts, counts):
    """The file that NASM's labels give, converted, beside the file that its other labels give; fsqlist's image of it beside NASM's, and both images run."""
    for text in texts:
        old = old_image, starts = text.assembled('186')
        try:
            before = shifts.Machine(old_image, text.origin).run()
        except shifts.Undefined:
            continue
        file, paper = text.file(starts), Paper()
        found, expected = ran(file), answered(paper, file)
        if found != expected:
            yield f'{text.name}: {told(found)}, expected {told(expected)}{first_difference(expected, found)}'
        if paper.refusal:
            # JMP short over the wrap
            counts['refused'] += 1
            continue
        if paper.starts != [start % 65536 for start in starts]:
            yield f'{text.name}: the old starts are {paper.starts}, by NASM {starts}'
        try:
            new = new_image, others = text.assembled('8086')
        except labelled.OutOfRange:
            counts['out of range'] += 1
            if not told(expected).startswith('refused 6 '):
                yield f'{text.name}: NASM says that a jump is too long, answers.py {told(expected)}'
            continue
        if isinstance(expected, str):
            # a short branch has come to lie over the wrap
            counts['refused'] += 1
            continue
        by_nasm = text.file(starts, others)
        if expected != by_nasm:
            yield f'{text.name}: {told(expected)}, NASM\'s labels give {told(by_nasm)}{first_difference(by_nasm, expected)}'
        if listed(expected) != new_image:
            yield f'{text.name}: fsqlist\'s image is not that of NASM'
        yield from faults_of_targets(text, old, new)
        after = shifts.Machine(new_image, text.origin).run()
        counts['run'] += 1
        if shifts.difference(before, after):
            yield f'{text.name}: {", ".join(shifts.difference(before, after))} differ when the images are run'


def faults_of_streams():
    """A write that fails, a read that fails and an argument are said on standard error, and after the last two nothing is written; input in pieces, and more of it than a pipe holds."""
    file = shows.show(256, 'SHL AX,3; JE 259; HLT')
    with tempfile.TemporaryFile() as good, tempfile.TemporaryFile() as refused:
        good.write(file)
        refused.write(shows.show(256, 'SHL AX,40'))
        full, folder = os.open('/dev/full', os.O_WRONLY), os.open(ROOT / 'tests', os.O_RDONLY)
        for what, output in (('a full output', {'stdout': full}), ('a closed output', {'stdout': None, 'closed': 1})):
            good.seek(0)
            said = run(good, **output).stderr
            if not said.startswith(b'standard output: ') or said.count(b'\n') != 1:
                yield f'{what} is not said once: {said[:200]}'
            refused.seek(0)
            said = run(refused, **output).stderr
            if said != b'refused 24 0\n':
                yield f'with {what} a refusal is {said[:200]}'
        for what, end in (('a folder', run(folder)), ('a closed input', run(None, closed=0))):
            if end.stdout or not end.stderr.startswith(b'standard input: ') or end.stderr.count(b'\n') != 1:
                yield f'{what} is not said, or something is written: {end.stderr[:200]}'
        for arguments in (('show.fsq',), ('',), ('a', 'b')):
            good.seek(0)
            end = run(good, arguments=arguments)
            if end.stdout or end.stderr != USAGE:
                yield f'the arguments {arguments} are taken, or not said: {end.stderr[:200]}'
        # the first read gives half of it, the second fails
        inside, outside = os.pipe2(os.O_NONBLOCK)
        os.write(outside, file[:100])
        end = run(inside)
        if end.stdout or not end.stderr.startswith(b'standard input: '):
            yield f'a later read that fails is not said: {end.stderr[:200]}'
        good.seek(0)
        end = run(good)
        if end.stdout != ran(file):
            yield 'by a file another one is written than by a pipe'
    with subprocess.Popen([PROGRAM], stdin=subprocess.PIPE, stdout=subprocess.PIPE, bufsize=0) as program:
        for at in range(len(file)):
            program.stdin.write(file[at:at + 1])
        program.stdin.close()
        if program.stdout.read() != ran(file):
            yield 'byte by byte another file is written'


def by_hand():
    yield from shows.settled()
    yield from shows.ordered()
    yield from shows.headed()


def main():
    for program in (PROGRAM, LISTER):
        if not os.access(program, os.X_OK):
            sys.exit(f'convert: {program} is not here')
    met, drawn, counts = collections.Counter(), collections.Counter(), collections.Counter()
    texts = itertools.chain(labelled.written_out(), map(labelled.at_random, range(RANDOM_TEXTS)))
    faults = [*faults_of_encoder(), *shifts.faults_of_rows(), *faults_of_answers(by_hand(), met), *faults_of_answers(at_random(), drawn), *faults_of_copies(), *faults_of_images(texts, counts),
        *faults_of_streams()]
    wanted = {'written', *map(str, (*range(1, 9), *range(12, 16), 24, 25))}
    if set(met) != wanted:
        faults.append(f'by hand there is {sorted(met)}')
    if drawn['written'] < 100 or counts['run'] < 50:
        faults.append(f'{drawn["written"]} files at random are written and {counts["run"]} texts run: too few')
    for fault in faults[:20]:
        print(f'convert: {fault}')
    print(f'convert: {sum(met.values())} files by hand, {sum(drawn.values())} at random ({drawn["written"]} written), {counts["run"]} texts by NASM run before and afterwards, '
          f'{7 * 2 * 30} shifts step by step, {len(faults)} failed')
    sys.exit(bool(faults))


if __name__ == '__main__':
    main()
