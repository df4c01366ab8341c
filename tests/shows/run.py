#!/usr/bin/env python3
"""run.py runs fsqlist and fsqform over every show of make.py, their whole output beside the expected text, and each show file of this folder beside its text.
The gate's tests/checks/shows."""
import collections
import os
import re
import subprocess
import sys
import tempfile

import forms
import make

PROGRAMS = [make.ROOT / 'target/bin' / name for name in ('fsqlist', 'fsqform')]
# every refusal of a record with every question that can give it
GROUNDS = {(8, 1), (23, 1), (7, 2), (2, 3), (4, 3), (3, 4), (1, 5), (4, 5), (5, 6), (6, 7)}


def run(program, stdin, stdout=subprocess.PIPE, closed=None, arguments=()):
    close = None if closed is None else lambda: os.close(closed)
    return subprocess.run([program, *arguments], stdin=stdin, stdout=stdout, stderr=subprocess.PIPE, preexec_fn=close)


def ran(program, packed):
    with tempfile.TemporaryFile() as file:
        file.write(packed)
        file.seek(0)
        return run(program, file)


def by_pipe(program, packed):
    """The input comes in pieces."""
    return subprocess.run([program], input=packed, stdout=subprocess.PIPE).stdout


def difference(expected, printed):
    rows = zip(expected.splitlines() + ['(end)'], printed.splitlines() + ['(end)'])
    return next((f'expected {one!r}, printed {other!r}' for one, other in rows if one != other), f'expected {len(expected)} bytes, printed {len(printed)}')


def faults_of_shows(shows):
    for name, packed, *expected in shows:
        for program, text in zip(PROGRAMS, expected):
            end = ran(program, packed)
            if end.returncode or end.stderr:
                yield f'{name}: {program.name} ended with status {end.returncode}, said {end.stderr}'
            printed = end.stdout.decode('latin-1')
            if printed != text:
                yield f'{name}: {program.name}: {difference(text, printed)}'


def faults_of_coverage(shows):
    """What no show asks for."""
    heads, grounds, repeats = set(), set(), set()
    for _, _, listing, with_forms in shows:
        first, *rest = listing.splitlines()
        written = [bytes.fromhex(line.split()[2]) for line in rest]
        heads |= {forms.head(one) for one in written}
        repeats |= {one for one in written if one[0] in forms.REPEATS.values() and len(one) > 1}
        asked = re.fullmatch(r'refused (\d+) \d+\nquestion (\d)\n', with_forms)
        if asked:
            grounds.add(tuple(map(int, asked.groups())))
    yield from (f'no show has opcode and /n {opcode:02X} {digit}' for opcode, digit in forms.TABLE.keys() - heads)
    yield from (f'no show has {one.hex().upper()}, or it is no string operation with a repeat' for one in repeats ^ make.repeated_strings())
    yield from (f'refusal {number} by question {question} is not met, or does not exist' for number, question in grounds ^ GROUNDS)


def faults_of_files():
    for path in sorted(make.HERE.glob('*.fsq')):
        if path.read_bytes() != make.show(path.with_suffix('.txt').read_text())[0]:
            yield f'{path.name} is not the show of its text'


def faults_of_streams(shows):
    """A write that fails, a read that fails and an argument are said on standard error, and after the last two nothing is printed."""
    show, full, folder = (os.open(path, how) for path, how in ((make.HERE / 'document.fsq', os.O_RDONLY), ('/dev/full', os.O_WRONLY), (make.HERE, os.O_RDONLY)))
    for program in PROGRAMS:
        for what, output in (('a full output', {'stdout': full}), ('a closed output', {'stdout': None, 'closed': 1})):
            os.lseek(show, 0, os.SEEK_SET)
            if not run(program, show, **output).stderr.startswith(b'standard output: '):
                yield f'{program.name}: {what} is not said'
        for what, end in (('a folder', run(program, folder)), ('a closed input', run(program, None, closed=0))):
            if end.stdout or not end.stderr.startswith(b'standard input: '):
                yield f'{program.name}: {what} is not said, or something is printed'
        os.lseek(show, 0, os.SEEK_SET)
        end = run(program, show, arguments=('document.fsq',))
        if end.stdout or end.stderr.decode() != f'usage: {program.name} < SHOW.fsq\n':
            yield f'{program.name}: an argument is taken, or not said'
    # the longest text, and the longest file: more than a program reads
    for name, packed, *texts in (max(shows, key=lambda show: len(show[3])), max(shows, key=lambda show: len(show[1]))):
        for program, text in zip(PROGRAMS, texts):
            if by_pipe(program, packed) != text.encode():
                yield f'{program.name}: {name} by a pipe is not what is expected'


def main():
    for program in PROGRAMS:
        if not os.access(program, os.X_OK):
            sys.exit(f'shows: {program.relative_to(make.ROOT)} is not here')
    shows = list(make.shows())
    faults = [*faults_of_shows(shows), *faults_of_coverage(shows), *faults_of_files(), *faults_of_streams(shows)]
    for fault in faults:
        print(f'shows: {fault}')
    lines = collections.Counter(line.split()[0] for *_, text in shows for line in text.splitlines())
    print(f'shows: {len(shows)} shows by fsqlist and by fsqform, {lines["form"]} forms, {lines["question"]} questions, {len(faults)} failed')
    sys.exit(bool(faults))


if __name__ == '__main__':
    main()
