"""What crates.txt says of the crates, and where the kit lies: for the scripts that call the kit's `rattle` themselves."""
import functools
import os
import pathlib
import subprocess
import sys

ROOT = pathlib.Path(__file__).resolve().parent.parent


@functools.lru_cache(maxsize=None)
def kit():
    """The kit's folder: that of the page which `rt doc` names."""
    try:
        return pathlib.Path(subprocess.run(['rt', 'doc'], stdout=subprocess.PIPE, text=True, check=True).stdout.strip()).parent
    except FileNotFoundError:
        sys.exit(f'{pathlib.Path(sys.argv[0]).name}: the command rt is not here')


@functools.lru_cache(maxsize=None)
def listed():
    """The lines of crates.txt: for each crate the words before its colon and its libraries."""
    lines = (line.split('#')[0] for line in (ROOT / 'crates.txt').read_text().splitlines())
    parts = (line.partition(':') for line in lines if ':' in line)
    return {head.split()[0]: (head.split()[1:], tail.split()) for head, _, tail in parts}


def names():
    return list(listed())


def folder(name):
    return ROOT / 'crates' / name


def is_program(name):
    return (folder(name) / 'src/main.rt').exists()


def is_static(name):
    return 'staticlib' in listed()[name][0]


def root_file(name):
    return 'src/main.rt' if is_program(name) else 'src/lib.rt'


def libraries(name):
    """The repository's libraries that the crate uses, and those below them, each once."""
    found = [it for it in listed()[name][1] if it in listed()]
    for it in found:
        found += [below for below in listed()[it][1] if below in listed() and below not in found]
    return found


def rlib(name):
    """Where rt leaves a library that it has built."""
    return folder(name) / 'out/rlib' / f'{name}.rlib'


def files(*folders):
    """The files below these folders, but for what rt makes (out/)."""
    for top in folders:
        for at, inner, found in os.walk(top):
            inner[:] = sorted(it for it in inner if it != 'out')
            yield from (pathlib.Path(at) / it for it in sorted(found))


def unbuilt(name):
    """The libraries below the crate that are not here, built."""
    return [it for it in libraries(name) if not (rlib(it) / 'format').exists()]


def outdated(name):
    """The libraries below the crate that may be built from older files than those that stand here."""
    newest = lambda it: max((file.stat().st_mtime for file in files(folder(it))), default=0)
    return [it for it in libraries(name) if rlib(it).stat().st_mtime < newest(it)]


def words(name):
    """The words for `rattle check` or `rattle build` of the crate, over the libraries that rt has built: name, libraries and logic."""
    given = ['--crate-name', name, '--extern', f'std={kit()}/rlibs/std.rlib', '-L', f'dependency={kit()}/rlibs']
    for it in listed()[name][1]:
        given += ['--extern', f'{it}={rlib(it) if it in listed() else kit() / "rlibs" / (it + ".rlib")}']
    for it in libraries(name):
        given += ['-L', f'dependency={rlib(it).parent}']
    if is_static(name):
        given += ['--crate-type', 'staticlib']
    return given + ['--antt-project', f'{kit()}/rattle/logic/antt-project.json', '--logic-built', f'{kit()}/logic_built']


def rattle():
    return str(kit() / 'bin/rattle')
