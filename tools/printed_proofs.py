#!/usr/bin/env python3
"""rt check 2>&1 | ../../tools/printed_proofs.py [-f]      in a crate's folder

Writes the proof files that a check prints ('help: write ./proofs/F/Answers.antt with these lines', or Invariants.antt), which list a function's open goals with a hole for each. A file that is there
stays, unless -f is given: a function that got an arm needs the list anew, and the answers of the old one are put into it by hand (git show HEAD:./FILE).
For one function `rt check --start F` writes the same files, and adds to one that is there what it lacks."""
import pathlib, re, sys

force = '-f' in sys.argv[1:]
path, lines = None, []


def keep():
    if path is None:
        return
    file = pathlib.Path(path)
    if file.exists() and not force:
        print(f'{path} is there')
        return
    file.parent.mkdir(parents=True, exist_ok=True)
    file.write_text('\n'.join(lines).strip('\n') + '\n')
    print(f'{path} is written')


for line in sys.stdin:
    line = line.rstrip('\n')
    begun = re.match(r'help: write (?:\./)?(proofs/\S+\.antt) with these lines', line)
    if begun:
        keep()
        path, lines = begun[1], []
    elif path is not None and (line.startswith('    ') or not line.strip()):
        lines.append(line[4:])
    else:
        keep()
        path = None
keep()
