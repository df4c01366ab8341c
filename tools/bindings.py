#!/usr/bin/env python3
"""bindings.py > library/rust/src/bindings.rs

The library's functions and numbers for Rust, from library/include/fsq.h, where they are declared: the crate and every driver in Rust use this one file."""
import pathlib, re, sys

HEADER = pathlib.Path(__file__).resolve().parent.parent / 'library/include/fsq.h'
WIDTH = 140
TYPES = {'uint8_t': 'u8', 'uint16_t': 'u16', 'uint32_t': 'u32', 'size_t': 'usize', 'const uint8_t *': '*const u8', 'uint8_t *': '*mut u8'}
# What is no byte of a record, reading or answer: a length or an offset is an index, a limit a field of a show file's header.
NUMBERS = {'limit': 'u16'} | dict.fromkeys('length report run_result header cue_field record operand reading read_operand'.split(), 'usize')


def parameter(text):
    kind, name = re.fullmatch(r'(.*[ *])(\w+)', text).groups()
    return f'{name}: {TYPES[kind.strip()]}'


def functions(header):
    """Every function that the header declares, as Rust declares it."""
    for answer, name, parameters in re.findall(r'^(\w+) (fsq_\w+)\(([^)]*)\);', header, re.M):
        taken = [parameter(' '.join(p.split())) for p in parameters.split(',')]
        line = f'    pub fn {name}({", ".join(taken)}) -> {TYPES[answer]};'
        # as rustfmt would have it
        yield line if len(line) <= WIDTH else f'    pub fn {name}(\n' + ''.join(f'        {p},\n' for p in taken) + f'    ) -> {TYPES[answer]};'


def enums(header):
    """The enumerators of every enum of the header, with their values."""
    found = {}
    for enum, body in re.findall(r'^enum fsq_(\w+) \{([^}]*)\};', re.sub(r'/\*.*?\*/', '', header, flags=re.S), re.M):
        values, following = {}, 0
        for name, value in re.findall(r'FSQ_(\w+)(?: = (\w+))?', body):
            if value:
                following = int(value, 0) if value[0].isdigit() else values[value.removeprefix('FSQ_')]
            values[name], following = following, following + 1
        # Every comma is between two of them: nothing of the body is passed over.
        assert len(values) == len(body.split(',')), enum
        found[enum] = values
    return found


def constants(header):
    for enum, values in enums(header).items():
        if enum != 'operation':
            yield f'\n// enum fsq_{enum}'
            for name, value in values.items():
                # TOLD_ are version 1's names of the same
                if not name.startswith('TOLD_'):
                    yield f'pub const FSQ_{name}: {NUMBERS.get(enum, "u8")} = {value};'
    yield ''
    for name, value in re.findall(r'^#define FSQ_(NO_RECORD) (\d+)u$', header, re.M):
        yield f'pub const FSQ_{name}: u32 = {value};'


def operations(header):
    line = ' ' * 11
    for name in enums(header)['operation']:
        if len(line) + 1 + len(name) > WIDTH:
            yield line
            line = ' ' * 11
        line += ' ' + name
    yield line


def main():
    header = HEADER.read_text()
    lines = list(functions(header))
    if not lines:
        sys.exit('bindings: the header declares nothing')
    print('//! The functions and numbers of library/include/fsq.h. tools/bindings.py writes this file.\n')
    print('#![allow(dead_code, unused_macros, unused_imports)] // a driver may use some of them\n')
    print('extern "C" {')
    print('\n'.join(lines))
    print('}')
    print('\n'.join(constants(header)))
    print('\n/// The operations in the order of their numbers, handed to the macro named.')
    print('macro_rules! operations {\n    ($use:ident) => {\n        $use! {')
    print('\n'.join(operations(header)))
    print('        }\n    };\n}\npub(crate) use operations;')


if __name__ == '__main__':
    main()
