#!/usr/bin/env python3
"""cues.py runs fsqcue over lists of cues. An image is compared with NASM's bytes for the text that document 02, No. 9, gives for the cues, and with ndisasm's reading of it; a refusal with the number that the
request has for the input. Then what it says of a failed read or write and of an argument. The gate's tests/checks/cue."""
import os
import pathlib
import random
import subprocess
import sys
import tempfile
import time

ROOT = pathlib.Path(__file__).resolve().parent.parent.parent
PROGRAM = ROOT / 'target/bin/fsqcue'
EDGES = (1, 2, 255, 256, 257, 0x1234, 32767, 32768, 65534, 65535)
BYTES = (0, 1, 127, 128, 254, 255)
# Of an input that is longer than this the front is read (REFERENCE 14).
READ = 65536
LENGTH, DELAY = 'refused 19\n', 'refused 20\n'


def given(cues):
    """The input: delay, low byte first, port, mask."""
    return b''.join(delay.to_bytes(2, 'little') + bytes((port, mask)) for delay, port, mask in cues)


def text(cues):
    """The instructions of the request, as NASM has them."""
    return [line for delay, port, mask in cues for line in (f'mov cx,{delay}', 'loop $', f'mov al,{mask}', f'out {port},al')] + ['hlt']


def assembled(cues):
    """NASM's bytes, from origin 0."""
    with tempfile.TemporaryDirectory() as room:
        source, out = pathlib.Path(room, 'cues.asm'), pathlib.Path(room, 'cues.bin')
        source.write_text('\n'.join(['bits 16', 'org 0', *text(cues), '']))
        subprocess.run(['nasm', '-f', 'bin', source, '-o', out], check=True)
        return out.read_bytes()


def read(image):
    """What ndisasm reads at the image's bytes, each instruction with its offset."""
    out = subprocess.run(['ndisasm', '-b', '16', '-'], input=image, capture_output=True, check=True).stdout.decode()
    return [(int(line.split()[0], 16), ' '.join(line.split()[2:])) for line in out.splitlines()]


def reading(cues):
    """The same, by the request: 3, 2, 2 and 2 bytes a cue, LOOP to itself."""
    told, at = [], 0
    for delay, port, mask in cues:
        told += [(at, f'mov cx,0x{delay:x}'), (at + 3, f'loop 0x{at + 3:x}'), (at + 5, f'mov al,0x{mask:x}'), (at + 7, f'out 0x{port:x},al')]
        at += 9
    return told + [(at, 'hlt')]


def lists():
    """Lists that compile, each with its name."""
    chance = random.Random(9)
    cue = lambda: (chance.choice((chance.choice(EDGES), chance.randint(1, 65535))), chance.randint(0, 255), chance.randint(0, 255))
    yield 'no cue', []
    yield 'one cue', [(0x1234, 0x61, 0x80)]
    yield 'two cues', [(10, 0x61, 1), (0x1234, 0x62, 0x80)]
    yield from ((f'a delay of {delay}', [(delay, 0x61, 0x80)]) for delay in EDGES)
    yield from ((f'port {port}, mask {mask}', [(1, port, mask)]) for port in BYTES for mask in BYTES)
    yield from ((f'{count} cues', [cue() for _ in range(count)]) for count in (3, 7, 28, 29, 139, 140, 141, 199, 200))
    yield '200 alike', [(1, 0, 0)] * 200
    yield from ((f'list {n}', [cue() for _ in range(chance.randint(0, 200))]) for n in range(40))


def refusals():
    """Inputs that are refused, each with its name and what is said. 19 is asked before 20, and nothing of the cues then."""
    fine, zero = given([(1, 2, 3)]), bytes(4)
    for length in (1, 2, 3, 5, 6, 7, 9, 797, 798, 799, 801, 802, 803):
        yield f'{length} bytes', (fine * 201)[:length], LENGTH
        yield f'{length} zeros', bytes(length), LENGTH
    for count in (201, 202, 203, 256, 1000, READ // 4 - 1, READ // 4, READ // 4 + 1, 100_000):
        yield f'{count} cues', fine * count, LENGTH
        yield f'{count} without a delay', zero * count, LENGTH
    # around what is read: the front of a longer input is still too long
    for more in (1, 2, 3):
        yield f'{more} bytes more than is read', bytes(READ + more), LENGTH
        yield f'{more} bytes less', (fine * (READ // 4))[:READ - more], LENGTH
    yield '200 cues and the first of another', fine * 200 + b'\0', LENGTH
    for count in (1, 2, 140, 200):
        yield f'{4 * count} zeros', zero * count, DELAY
        for at in sorted({0, count // 2, count - 1}):
            cues = [(1, 2, 3)] * count
            cues[at] = (0, 255, 255)
            yield f'cue {at} of {count} without a delay', given(cues), DELAY


def cases():
    """name: the input, standard output and standard error"""
    found = {name: (given(cues), assembled(cues), b'') for name, cues in lists()}
    for name, bytes_given, said in refusals():
        found[f'refused: {name}'] = bytes_given, b'', said.encode()
    return found


def run(stdin, stdout=subprocess.PIPE, closed=None, arguments=()):
    return subprocess.run([PROGRAM, *arguments], stdin=stdin, stdout=stdout, stderr=subprocess.PIPE, env={}, preexec_fn=None if closed is None else lambda: os.close(closed))


def ran(bytes_given, **how):
    with tempfile.TemporaryFile() as file:
        file.write(bytes_given)
        file.seek(0)
        return run(file, **how)


def by_pipe(bytes_given, size):
    """The input in pieces of so many bytes."""
    with subprocess.Popen([PROGRAM], stdin=subprocess.PIPE, stdout=subprocess.PIPE, stderr=subprocess.PIPE, bufsize=0, env={}) as program:
        for at in range(0, len(bytes_given), size):
            program.stdin.write(bytes_given[at:at + size])
            time.sleep(0.001)
        program.stdin.close()
        return program.stdout.read(), program.stderr.read()


def faults_of(found):
    for name, (bytes_given, out, said) in found.items():
        end = ran(bytes_given)
        if end.returncode or (end.stdout, end.stderr) != (out, said):
            yield f'{name}: status {end.returncode}, printed {end.stdout[:40].hex(" ")} ({len(end.stdout)}), said {end.stderr}; expected {out[:40].hex(" ")} ({len(out)}), {said}'
    for name, cues in lists():
        if read(found[name][1]) != reading(cues):
            yield f'{name}: ndisasm does not read the cues\' instructions'


def faults_of_streams(found):
    """A write or read that fails and an argument are said on standard error, and after the last two nothing is printed."""
    cues, image, _ = found['two cues']
    full, folder = os.open('/dev/full', os.O_WRONLY), os.open(ROOT / 'tests', os.O_RDONLY)
    for what, output in (('a full output', {'stdout': full}), ('a closed output', {'stdout': None, 'closed': 1})):
        for bytes_given in (b'', cues, found['200 alike'][0]):
            said = ran(bytes_given, **output).stderr
            if not said.startswith(b'standard output: ') or said.count(b'\n') != 1:
                yield f'{what} is not said: {said[:200]}'
        if ran(bytes(4), **output).stderr != DELAY.encode():
            yield f'{what}: a refusal is not said'
    for what, end in (('a folder', run(folder)), ('a closed input', run(None, closed=0))):
        if end.stdout or not end.stderr.startswith(b'standard input: ') or end.stderr.count(b'\n') != 1:
            yield f'{what} is not said, or something is printed: {end.stderr[:200]}'
    inside, outside = os.pipe2(os.O_NONBLOCK)
    os.write(outside, cues)
    end = run(inside)
    if end.stdout or not end.stderr.startswith(b'standard input: ') or end.stderr.count(b'\n') != 1:
        yield f'a later read that fails is not said: {end.stdout}, {end.stderr[:200]}'
    for arguments in (('cues',), ('',), ('a', 'b')):
        end = ran(cues, arguments=arguments)
        if end.stdout or end.stderr != b'usage: fsqcue < CUES > IMAGE\n':
            yield f'the arguments {arguments} are taken, or not said: {end.stdout}, {end.stderr}'
    for name, size in (('two cues', 1), ('140 cues', 3), ('200 cues', 799), ('refused: 201 cues', 800), ('refused: 200 cues and the first of another', 800)):
        if by_pipe(found[name][0], size) != found[name][1:]:
            yield f'{name}: by a pipe, in pieces of {size} bytes, the answer is another'


def main():
    if not os.access(PROGRAM, os.X_OK):
        sys.exit(f'cue: {PROGRAM.relative_to(ROOT)} is not here')
    found = cases()
    faults = [*faults_of(found), *faults_of_streams(found)]
    for fault in faults[:20]:
        print(f'cue: {fault}')
    said = [said.decode() for _, _, said in found.values()]
    print(f'cue: {said.count("")} lists with NASM\'s bytes and ndisasm\'s reading, {said.count(LENGTH)} refused 19, {said.count(DELAY)} refused 20; {len(faults)} failed')
    sys.exit(bool(faults))


if __name__ == '__main__':
    main()
