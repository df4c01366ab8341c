#!/usr/bin/env python3
"""tools/short_proofs.py [--list] [-k NAME]... [CRATE | FILE]...

Shortens answer files (proofs/**/Answers.antt): takes out the answers of goals that the check proves by itself, and the file where it proves all of them. Each file is tried in a copy of its crate, over
the libraries that rt has built: without the file, then with the answers of the goals that stayed open, with half of the search's counts (--margin), so that what stays out is proved with room to
spare. A file that is not proved so is left as it is. An answer with a remark above it stays, and so does the one of -k NAME (repeatable). --list only says what could go.
Run rt tidy afterwards, which drops the imports that nothing uses any more, and rt check. A try takes as long as a check of the function and of what it calls."""
import os
import re
import shutil
import subprocess
import sys
import tempfile
from concurrent.futures import ThreadPoolExecutor
from pathlib import Path

import crates

ANSWER = re.compile(r'pub (\S+) : goal\.')
# what a check says of a goal that it does not prove
OPEN = re.compile(r'(?:it is not proved .*? \(|did not prove )(`[^`]+`(?:, `[^`]+`)*(?: and `[^`]+`)?)')


def blocks(text):
    """The parts of a file between blank lines that begin a definition, with the remarks above it; the first is the head with its imports."""
    parts = re.split(r'\n\n(?=\S)', text.rstrip('\n'))
    return parts


def name_of(block):
    found = next((m for line in block.split('\n') if (m := ANSWER.match(line))), None)
    return found[1] if found else None


def has_remark(block):
    return any(re.match(r'--(?! src/)', line) for line in block.split('\n'))


def names(text, word):
    return re.search(rf'(?<![\w«-]){re.escape(word)}(?![\w»-])', text) is not None


def with_answers(text, kept):
    """The file with the answers of these goals alone, and with what they name of the file's own; None where no answer is left."""
    head, *rest = blocks(text)
    own = {block: name_of(block) for block in rest}
    if name_of(head):
        # no imports
        own, head = {head: name_of(head)} | own, None
    stay = {block for block, name in own.items() if name in kept or name and has_remark(block)}
    if not stay:
        return None
    helpers = {block: re.split(r'[\s:]+', re.sub(r'(?m)^--.*\n', '', block).removeprefix('abbrev ').removeprefix('pub '), 1)[0] for block, name in own.items() if name is None}
    while True:
        more = {block for block, word in helpers.items() if block not in stay and any(names(one, word) for one in stay)}
        if not more:
            break
        stay |= more
    return '\n\n'.join(([head] if head else []) + [block for block in own if block in stay]) + '\n'


class Crate:
    """A copy of a crate, in which one file at a time is another."""

    def __init__(self, name, room):
        self.name, self.room = name, Path(room) / name
        for part in ('src', 'specs', 'proofs'):
            if (crates.folder(name) / part).is_dir():
                shutil.copytree(crates.folder(name) / part, self.room / part)

    def open_goals(self, path, text):
        """The goals of the file's function that a check leaves open with this text in the file's place, or None where it proves the function; ['?'] where it says something else."""
        file = self.room / path
        was = file.read_text()
        try:
            file.unlink() if text is None else file.write_text(text)
            function = '::'.join(Path(path).parent.parts[1:])
            only = [] if '+' in function else ['--only', function]
            words = [crates.rattle(), 'check', crates.root_file(self.name), *crates.words(self.name), '--jobs', '1', '--margin', *only]
            run = subprocess.run(words, cwd=self.room, stdout=subprocess.PIPE, stderr=subprocess.STDOUT, text=True, errors='replace')
        finally:
            file.write_text(was)
        if run.returncode == 0:
            return None
        return sorted({name for found in OPEN.findall(run.stdout) for name in re.findall(r'`([^`]+)`', found)}) or ['?']


def shortened(crate, path, keep):
    """The file's text with the answers that it needs, 'gone' where it needs none, or None where nothing can go."""
    text = (crate.room / path).read_text()
    every = {name_of(block) for block in blocks(text)} - {None}
    kept = every & keep
    for _ in range(4):
        new = with_answers(text, kept)
        left = crate.open_goals(path, new)
        if left is None:
            return 'gone' if new is None else new if new != text else None
        more = (set(left) & every) - kept
        if not more:
            return None
        kept |= more
    return None


def of_crate(name, files, keep, listing):
    with tempfile.TemporaryDirectory() as room:
        crate = Crate(name, room)
        for path in files:
            new = shortened(crate, path, keep)
            if new is None:
                continue
            file = crates.folder(name) / path
            was = file.read_text()
            lines = 0 if new == 'gone' else new.count('\n')
            print(f'{name}/{path}: {was.count(chr(10))} to {lines} lines{" (needless)" if new == "gone" else ""}', flush=True)
            if not listing:
                file.unlink() if new == 'gone' else file.write_text(new)


def main():
    words, keep, listing, asked = sys.argv[1:], set(), False, {}
    while words:
        word = words.pop(0)
        if word == '-k':
            keep.add(words.pop(0))
        elif word == '--list':
            listing = True
        elif word in crates.names():
            found = sorted((crates.folder(word) / 'proofs').rglob('Answers.antt'))
            asked.setdefault(word, []).extend(str(it.relative_to(crates.folder(word))) for it in found)
        else:
            file = Path(word).resolve()
            try:
                name, *path = file.relative_to(crates.ROOT / 'crates').parts
            except ValueError:
                name = None
            if name not in crates.names() or not file.is_file():
                sys.exit(f'short_proofs: {word} is no crate and no file of one')
            asked.setdefault(name, []).append('/'.join(path))
    for name in asked:
        lacks = crates.unbuilt(name)
        if lacks:
            sys.exit(f'short_proofs: {name}: its library {lacks[0]} is not built (rt check in crates/{name})')
    with ThreadPoolExecutor(os.cpu_count()) as pool:
        list(pool.map(lambda it: of_crate(*it, keep, listing), asked.items()))


main()
