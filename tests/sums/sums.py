#!/usr/bin/env python3
"""sums.py runs fsqsum over all of texts.py as one input, and compares each line with the answer that document 02, No. 6, gives; then the cases of lines, and what it says of a failed read or
write. The gate's tests/checks/sums."""
import collections
import contextlib
import os
import pathlib
import resource
import subprocess
import sys
import tempfile
import threading

import answers
import texts

ROOT = pathlib.Path(__file__).resolve().parent.parent.parent
PROGRAM = ROOT / 'target/bin/fsqsum'
# The longest line that is answered (REFERENCE 12).
MOST = 65536
# Its two buffers take 128 KiB of the stack. Whatever a text is, the rest has to be enough.
STACK = 256 * 1024


def small():
    resource.setrlimit(resource.RLIMIT_STACK, (STACK, STACK))


def run(stdin, stdout=subprocess.PIPE, closed=None, arguments=()):
    def before():
        small()
        if closed is not None:
            os.close(closed)

    return subprocess.run([PROGRAM, *arguments], stdin=stdin, stdout=stdout, stderr=subprocess.PIPE, env={}, preexec_fn=before)


def ran(given):
    with tempfile.TemporaryFile() as file:
        file.write(given)
        file.seek(0)
        return run(file)


def by_pipe(given, size):
    """The input in pieces of so many bytes."""
    with subprocess.Popen([PROGRAM], stdin=subprocess.PIPE, stdout=subprocess.PIPE, bufsize=0, env={}, preexec_fn=small) as program:
        def feed():
            with contextlib.suppress(BrokenPipeError), program.stdin:
                for at in range(0, len(given), size):
                    program.stdin.write(given[at:at + size])

        feeder = threading.Thread(target=feed)
        feeder.start()
        printed = program.stdout.read()
        feeder.join()
        return printed


def faults_of_texts(lines, expected):
    """Each line of the one input, by a file."""
    end = ran(b'\n'.join(lines) + b'\n')
    if end.returncode or end.stderr:
        yield f'ended with status {end.returncode}, said {end.stderr[:200]}'
    printed = end.stdout.decode('latin-1').split('\n')
    if len(printed) != len(lines) + 1 or printed[-1]:
        yield f'{len(lines)} lines got {len(printed) - 1} answers'
    yield from (f'{text!r}: expected {answer!r}, printed {other!r}' for text, answer, other in zip(lines, expected, printed) if answer != other)


def faults_of_opinions(by_text, opinions):
    """The two sources of what is expected have to agree, and with what stands in texts.py by hand."""
    yield from (f'{text!r}: answers.py has {by_text[text]!r}, Python {other!r}' for text, other in opinions.items() if other != by_text[text])
    if 10 * len(opinions) < 9 * len(by_text):
        yield f'Python has an opinion on {len(opinions)} texts: too few'
    for text, answer in texts.SETTLED.items():
        if by_text[text.encode('latin-1')] != answer:
            yield f'{text!r}: settled as {answer!r}, answers.py has {by_text[text.encode("latin-1")]!r}'


def too_long(*numbers):
    return ''.join(f'line {number} is too long\n' for number in numbers)


def padded(length, text='7'):
    """A text of so many bytes with the value of a short one."""
    return '0' * (length - len(text)) + text


# name: input, standard output, standard error
LINES = {
    'empty-input': ('', '', ''),
    'an-empty-line': ('\n', 'refused 16\n', ''),
    'two-empty-lines': ('\n\n', 'refused 16\nrefused 16\n', ''),
    'no-last-line-feed': ('1\n2', '1\n2\n', ''),
    'one-line-without-it': ('3*(40+2)-1', '125\n', ''),
    'an-empty-line-behind': ('1\n\n', '1\nrefused 16\n', ''),
    'an-empty-line-before': ('\n1\n', 'refused 16\n1\n', ''),
    'carriage-returns': ('1\r\n2\r\n3', 'refused 16\nrefused 16\n3\n', ''),
    'zeros': ('\0\n1\0\n\x001\n1+\x002\n4\n', 'refused 16\nrefused 16\nrefused 16\nrefused 16\n4\n', ''),
    'a-zero-at-the-end': ('4\0', 'refused 16\n', ''),
    'longest-value': ('-2147483648\n2147483647\n-1\n0\n', '-2147483648\n2147483647\n-1\n0\n', ''),
    'one-less': (padded(MOST - 1) + '\n8\n', '7\n8\n', ''),
    'the-longest': (padded(MOST) + '\n8\n', '7\n8\n', ''),
    'one-more': (padded(MOST + 1) + '\n8\n', 'too long\n8\n', too_long(1)),
    'one-less-at-the-end': ('8\n' + padded(MOST - 1), '8\n7\n', ''),
    'the-longest-at-the-end': ('8\n' + padded(MOST), '8\n7\n', ''),
    'one-more-at-the-end': ('8\n' + padded(MOST + 1), '8\ntoo long\n', too_long(2)),
    'one-more-alone': (padded(MOST + 1), 'too long\n', too_long(1)),
    'too-long-in-the-middle': (f'1\n2\n{padded(MOST + 1)}\n4\n5\n', '1\n2\ntoo long\n4\n5\n', too_long(3)),
    'two-that-are-too-long': (f'{padded(MOST + 1)}\n{padded(2 * MOST)}\n3\n{padded(5 * MOST + 3)}', 'too long\ntoo long\n3\ntoo long\n', too_long(1, 2, 4)),
    # what was kept of the long line is no part of the next
    'shorter-behind-too-long': (f'{padded(MOST + 1)}\n\n+\n1\n{padded(MOST)}\n', 'too long\nrefused 16\nrefused 16\n1\n7\n', too_long(1)),
    'too-long-and-no-text': ('x' * (MOST + 1) + '\nx\n', 'too long\nrefused 16\n', too_long(1)),
    # the longest lines, one of each kind
    'terms': ('1' + '+1' * 32767 + '\n', '32768\n', ''),
    'differences': ('0' + '-2' * 32767 + '\n', '-65534\n', ''),
    'factors': ('7' + '*-1' * 21845 + '\n', '-7\n', ''),
    'minus-signs': ('-' * 65535 + '1\n' + '-' * 65534 + '1\n' + '-' * 65536 + '\n', '-1\n1\nrefused 16\n', ''),
    'digits': ('9' * 65536 + '\n' + '-' + '0' * 65534 + '9\n', 'refused 18\n-9\n', ''),
    'brackets': ('(' * 32767 + '1' + ')' * 32767 + '\n' + '(' * 32768 + '1' + ')' * 32767 + '\n', 'refused 17\nrefused 16\n', ''),
    'opened': ('(' * 65536 + '\n' + ')' * 65536 + '\n' + '-(' * 32768 + '\n', 'refused 16\nrefused 16\nrefused 16\n', ''),
    'brackets-side-by-side': (texts.deep(16, '1') + ('+' + texts.deep(16, '1')) * 1926 + '\n', '1927\n', ''),
    'terms-16-deep': (texts.deep(16, '1' + '-1' * 32751) + '\n', '-32750\n', ''),
    'a-refusal-at-the-end': ('1+' * 32766 + '1/0\n' + '1+' * 32767 + '1)\n' + '1+' * 32767 + '+\n', 'refused 18\nrefused 16\nrefused 16\n', ''),
}


def faults_of_lines():
    for name, (given, out, said) in LINES.items():
        end = ran(given.encode('latin-1'))
        if end.returncode or (end.stdout.decode(), end.stderr.decode()) != (out, said):
            yield f'{name}: status {end.returncode}, printed {end.stdout[:200]}, said {end.stderr[:200]}; expected {out[:200]!r}, {said!r}'


def faults_of_streams(lines, expected):
    """A write that fails, a read that fails and an argument are said on standard error, once, and after the last two nothing is printed."""
    full, folder = os.open('/dev/full', os.O_WRONLY), os.open(ROOT / 'tests', os.O_RDONLY)
    for what, output in (('a full output', {'stdout': full}), ('a closed output', {'stdout': None, 'closed': 1})):
        for name, given in (('a value', b'1\n2\n3\n'), ('a last line', b'1'), ('a long input', b'1\n' * 100_000), ('a line that is too long', b'0' * (MOST + 1) + b'\n')):
            with tempfile.TemporaryFile() as file:
                file.write(given)
                file.seek(0)
                said = run(file, **output).stderr.replace(b'line 1 is too long\n', b'')
            if not said.startswith(b'standard output: ') or said.count(b'\n') != 1:
                yield f'{what} is not said once of {name}: {said[:200]}'
    for what, end in (('a folder', run(folder)), ('a closed input', run(None, closed=0))):
        if end.stdout or not end.stderr.startswith(b'standard input: ') or end.stderr.count(b'\n') != 1:
            yield f'{what} is not said, or something is printed: {end.stderr[:200]}'
    # a read that fails behind the first: the lines before it are answered, and the one that it cuts is not
    inside, outside = os.pipe2(os.O_NONBLOCK)
    os.write(outside, b'1\n2\n3')
    end = run(inside)
    if end.stdout != b'1\n2\n' or not end.stderr.startswith(b'standard input: ') or end.stderr.count(b'\n') != 1:
        yield f'a later read that fails is not said: {end.stdout}, {end.stderr[:200]}'
    with tempfile.TemporaryFile() as file:
        file.write(b'1\n')
        for arguments in (('1+1',), ('',), ('a', 'b')):
            file.seek(0)
            end = run(file, arguments=arguments)
            if end.stdout or end.stderr != b'usage: fsqsum < TEXTS\n':
                yield f'the arguments {arguments} are taken, or not said: {end.stdout}, {end.stderr}'
    # in pieces that end within a line, and as it comes
    given, text = b'\n'.join(lines), '\n'.join(expected) + '\n'
    for size in (4093, len(given)):
        if by_pipe(given, size).decode() != text:
            yield f'by a pipe, in pieces of {size} bytes, the answers are others'
    short = b'1\n-7/2\n\n' + b'0' * 100 + b'\n3*(40+2)-1'
    if by_pipe(short, 1) != b'1\n-3\nrefused 16\n0\n125\n':
        yield 'by a pipe, byte by byte, the answers are others'


def main():
    if not os.access(PROGRAM, os.X_OK):
        sys.exit(f'sums: {PROGRAM.relative_to(ROOT)} is not here')
    # a text with a line feed is two lines
    lines = b'\n'.join(texts.texts()).split(b'\n')
    paper = answers.Paper()
    by_text = {line: paper.answer(line) for line in lines}
    expected = [by_text[line] for line in lines]
    opinions = {text: other for text, other in ((text, answers.opinion(text)) for text in by_text) if other is not None}
    faults = [*faults_of_opinions(by_text, opinions), *faults_of_texts(lines, expected), *faults_of_lines(), *faults_of_streams(lines, expected)]
    kinds = collections.Counter(answer if answer.startswith('refused') else 'values' for answer in expected)
    counts = [(kind, kinds[kind]) for kind in ('values', answers.NO_TEXT, answers.TOO_DEEP, answers.OUTSIDE)]
    faults += [f'{kind}: {count} texts are too few' for kind, count in counts if count < 100]
    for fault in faults[:20]:
        print(f'sums: {fault}')
    print(f'sums: {len(lines)} lines by fsqsum, {", ".join(f"{count} {kind}" for kind, count in counts)}; of {len(by_text)} texts Python has {len(opinions)} too; '
          f'{len(LINES)} cases of lines; {len(faults)} failed')
    sys.exit(bool(faults))


if __name__ == '__main__':
    main()
