#!/usr/bin/env python3
"""port_lines.py [--write]: looks that docs/PORT-OTHER.md names each item where it stands: its line in the Rust, by tests/rust_lines.txt, and its crate or file here. Every function of
encoder/mod.rs and encoder/gen.rs must have a row. Where the Rust's sources are here (MRC_SRC, else ../shared/docs/src), rust_lines.txt is compared with them too;
--write writes it from them."""
import os, pathlib, re, sys

ROOT = pathlib.Path(__file__).resolve().parent.parent
RUST = pathlib.Path(os.environ.get('MRC_SRC', ROOT.parent / 'shared/docs/src')) / 'crates/mrc_compiler/src'
STORED = ROOT / 'tests/rust_lines.txt'
FILES = 'encoder/mod.rs', 'encoder/gen.rs', 'ast.rs', 'operations.rs'
WHOLE = FILES[:2]
wrong = []


def rust_lines():
    """File, line and words of each line that declares something, or names it in a macro's call."""
    for file in FILES:
        for n, line in enumerate((RUST / file).read_text().split('\n'), 1):
            if re.match(r'\s*(pub )?(const )?(fn|enum|struct|impl|type|const)\b|value_ops!', line):
                yield ' '.join([file, str(n), *re.findall(r'[A-Za-z_]\w*', line)])


def sources(crate):
    return '\n'.join(p.read_text() for p in (ROOT / 'crates' / crate / 'src').rglob('*.rt'))


def is_here(place, name, before):
    """The place's file or crate, which has the item; `the same` is the row's before."""
    named = re.search(r'`([a-z0-9_]+)(?:(/[\w/.]+)|::([\w:]+))?`', place)
    if place.startswith('nothing') or place.startswith('`u8`'):
        return before
    if not place.startswith('the same') and named:
        crate, path, inner = named.groups()
        before = (ROOT / 'crates' / (crate + path)).read_text() if path else sources(crate)
        name = inner.split('::')[-1] if inner else name
    if before is None or not re.search(rf'\b{re.escape(name)}\b', before):
        wrong.append(f'{name} is not in {place}')
    return before


def main():
    if '--write' in sys.argv[1:]:
        STORED.write_text('\n'.join(rust_lines()) + '\n')
    stored = STORED.read_text().split('\n')[:-1]
    if RUST.is_dir() and stored != list(rust_lines()):
        wrong.append("tests/rust_lines.txt is not the Rust's: tools/port_lines.py --write")
    words = {(f, int(n)): set(w) for f, n, *w in (line.split() for line in stored)}
    file, before, rows = None, None, {f: [] for f in FILES}
    for line in (ROOT / 'docs/PORT-OTHER.md').read_text().split('\n'):
        section = re.match(r'## (\S+\.rs) ', line)
        file = section[1] if section else file
        row = re.match(r'\| (\d+) \| (.*?) \| (.*) \|$', line)
        if not row:
            continue
        number, place = int(row[1]), row[3]
        names = [n.split('::')[-1] for n in re.findall(r'`([\w: ]+)', row[2])]
        first = names[0].split()[0] if names else ''
        if first and first not in words.get((file, number), ()):
            wrong.append(f'{file}:{number} has no {first}')
        rows[file] += names
        before = is_here(place, first, before)
    for file in WHOLE:
        functions = {w[w.index('fn') + 1] for f, n, *w in (line.split() for line in stored) if f == file and 'fn' in w and len(w) > w.index('fn') + 1}
        wrong.extend(f'{file}: {f} has no row' for f in sorted(functions - set(rows[file]) - {'fmt', 'is_name', 'require_name'}))
    for what in wrong:
        print(f'port: {what}')
    beside = "beside the Rust's sources" if RUST.is_dir() else "by the stored lines of the Rust, whose sources are not here"
    print(f'port: {sum(map(len, rows.values()))} items of docs/PORT-OTHER.md, {beside}: {len(wrong)} do not stand where it says')
    sys.exit(1 if wrong else None)


main()
