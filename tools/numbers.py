#!/usr/bin/env python3
"""numbers.py: the numbers that C, Rust and the scripts share with the Rattle source, compared with it. Ends with 1 where one differs or is missing.

The Rattle source is what is proved. Beside it stand the header, from which tools/bindings.py writes the numbers of the Rust crate and of every driver in
Rust; the names and types of the crate; tools/operations.py, from which the scripts that write test data have theirs; and docs/REFERENCE.md. Each part says
how many numbers it has, so that a pattern that no longer meets its text is noticed."""
import pathlib
import re
import sys

import bindings
import operations as scripts

ROOT = pathlib.Path(__file__).resolve().parent.parent
OPERATIONS, REFUSALS, VERSIONS = 99, 25, 3
failures = []


def wrong(text):
    failures.append(text)


class Text:
    """A file without its comments, or a part of it."""

    def __init__(self, path, text=None):
        self.path = path
        self.text = re.sub(r'//.*|/\*.*?\*/', lambda m: '' if m[0].startswith('//') else ' ', (ROOT / path).read_text(), flags=re.S if path.endswith('.h') else 0) \
            if text is None else text

    def part(self, begin, end='\n}'):
        """What stands between a line and the end of its block."""
        found = re.search(begin + r'(.*?)' + end, self.text, re.S)
        if found is None:
            wrong(f'{self.path}: nothing is `{begin}`')
        return Text(self.path, found[1] if found else '')

    def all(self, pattern, count):
        found = re.findall(pattern, self.text)
        if len(found) != count:
            wrong(f'{self.path}: {len(found)} and not {count} of `{pattern}`')
        return found

    def one(self, pattern):
        return next(iter(self.all(pattern, 1)), None)

    def number(self, pattern):
        found = self.one(pattern)
        return None if found is None else int(found, 0)

    def numbers(self, pattern, count, name=lambda name: name):
        """Names by a pattern of a name and a number."""
        return {name(n): int(v, 0) for n, v in self.all(pattern, count)}

    def order(self, pattern, count, name=lambda name: name):
        return {name(n): k for k, n in enumerate(self.all(pattern, count))}


def snake(name):
    """InvalidOperands as INVALID_OPERANDS, NotASum as NOT_A_SUM."""
    return re.sub(r'(?<=[a-z])(?=[A-Z])|(?<=[A-Z])(?=[A-Z][a-z])', '_', name).upper()


def compare(what, place, given, expected, prefix=''):
    """Every name with its number, in a place, as the source has it; none more and none less."""
    if not given:
        wrong(f'{what}: {place} has none')
        return len(expected)
    for name in sorted(given.keys() | expected.keys()):
        if given.get(name) != expected.get(name):
            told = [f'{table[name]}' if name in table else 'none' for table in (given, expected)]
            wrong(f'{what} {prefix}{name}: {place} has {told[0]}, the source {told[1]}')
    return len(expected)


def source():
    """The numbers of the Rattle source, by the enums of the header. Where the source has one twice, both are compared."""
    code = {name: Text(f'crates/{path}.rt') for name, path in dict(
        operations='mrc_compiler/src/operations', data='mrc_compiler/src/encoder/mod', ast='mrc_compiler/src/ast', record='show_record/src/lib', file='show_file/src/lib',
        report='foreign_report/src/lib', read='foreign/src/read', encode='foreign/src/encode', load='foreign/src/load', operands='x86/src/operands', reader='reader/src/lib',
        slots='read_slots/src/lib', run='encode_run/src/lib', lister='lister/src/lib', entries='list_entries/src/lib', form='text_form/src/lib', ground='encode_form/src/lib',
        text='show_text/src/lib', x86='x86/src/lib', evaluate='foreign/src/evaluate', sum='sum_evaluate/src/lib', sums='sum_spec/src/lib', answer='sum_text/src/lib',
        program='fsqsum/src/main', cues='cue_compile/src/lib', cue='foreign/src/cue', compiler='fsqcue/src/main',
        desk='desk_run/src/lib', result='foreign/src/run', desk_text='desk_text/src/lib', simulator='fsqrun/src/main',
        convert='convert_spec/src/lib', converted='foreign/src/convert', converter='show_convert/src/lib', fsq186='fsq186/src/main').items()}
    sums = Text('crates/sum_spec/specs/Sums.antt')
    s = {}

    def twice(what, text, given, expected):
        compare(what, text.path, given, expected)

    # Operations.
    text = code['operations']
    s['operation'] = text.part(r'pub enum Operation \{').order(r'(\w+),', OPERATIONS)
    twice('operation', text, text.part(r'static OPERATIONS: \[Operation; \d+\] = \[', r'\];').order(r'Operation::(\w+),', OPERATIONS), s['operation'])
    twice('operation', text, {'count': text.number(r'static OPERATIONS: \[Operation; (\d+)\]')}, {'count': len(s['operation'])})
    known = code['record'].number(r'bytes\[OPERATION\] < (\d+)')
    twice('operation', code['record'], {'count': known}, {'count': len(s['operation'])})

    # Kinds, sizes and jump kinds, and that their readers say which codes of an operand are known. A jump kind's code is one more than its variant's place: 0 is none.
    for enum, rattle, count, reader, fields in (('kind', 'OperandKind', 4, 'kind_of', ['KIND']), ('size', 'OperandSize', 3, 'size_of', ['SIZE', 'DISPLACEMENT_SIZE']), ('jump', 'JumpKind', 4, 'jump_kind_of', ['JUMP_KIND'])):
        none = {'NO_KIND': code['record'].number(r'(\d+) => Some\(None\),')} if enum == 'jump' else {}
        variant, past = (rf'Some\(Some\({rattle}::(\w+)\)\)', 1) if none else (rf'Some\({rattle}::(\w+)\)', 0)
        s[enum] = none | {snake(n): int(v) for v, n in code['record'].all(rf'(\d+) => {variant},', count - past)}
        places = code['data'].part(rf'pub enum {rattle} \{{').order(r'(\w+),', count - past, snake)
        twice(enum, code['data'], none | {name: place + past for name, place in places.items()}, s[enum])
        for field in fields:
            code['record'].one(rf'{reader}\(bytes\[at \+ {field}\]\)\s*\.is_some\(\)')
    code['operands'].one(r'pub fn size_number\(size: OperandSize\) -> u8\s*ensures [^\n]*\s*\{\s*(size as u8)\s*\}')

    # Refusals: the encoder's, the loader's, the reader's, the evaluator's, the cue compiler's, the desk's, the converter's; then where they cross.
    s['answer'] = {'DONE': 0}
    s['answer'] |= code['file'].numbers(r'EncodeError::(\w+)\([_, ]*\) => (\d+),', 10, snake)
    s['answer'] |= code['x86'].numbers(r'ReadError::(\w+) => (\d+),', 2, snake)
    s['answer'] |= code['file'].numbers(r'LoadError::(\w+)(?:\(_\))? => (\d+),', 4, snake)
    # The evaluator's are one function of its error, which the library and the text of fsqsum call.
    named = lambda n: {'NoText': 'NOT_A_SUM', 'OutOfRange': 'VALUE_OUT_OF_RANGE'}.get(n, snake(n))
    s['answer'] |= sums.numbers(r'\nnumber_of E\.(\w+) = (\d+)', 3, named)
    summed = code['sums'].numbers(r'SumError::(\w+) => (\d+),', 3, named)
    twice('refusal', code['sums'], summed, {name: s['answer'].get(name) for name in summed})
    code['answer'].one(r'push_refused\(line, usize::from\(error\.number\(\)\)\)')
    # The cue compiler's are one function of its error, which the library and fsqcue call; a short image has the encoder's number.
    compiled = code['cues'].numbers(r'CueError::(\w+) => (\d+),', 3, lambda n: {'WrongLength': 'NOT_A_CUE_LIST', 'ImageTooShort': 'SLICE_TOO_SHORT'}.get(n, snake(n)))
    s['answer'] = compiled | s['answer']
    twice('refusal', code['cues'], compiled, {name: s['answer'].get(name) for name in compiled})
    # So are the desk's, which the library and the text of fsqrun call.
    ran = code['desk'].numbers(r'RunError::(\w+) => (\d+),', 3, lambda n: {'LogTooShort': 'SLICE_TOO_SHORT'}.get(n, snake(n)))
    s['answer'] = ran | s['answer']
    twice('refusal', code['desk'], ran, {name: s['answer'].get(name) for name in ran})
    # The converter's, by which fsq186 says them; the library has them in code.
    converted = code['convert'].numbers(r'ConvertError::(\w+)(?:\(_\))? => (\d+),', 3, snake)
    s['answer'] = converted | s['answer']
    twice('refusal', code['convert'], converted, {name: s['answer'].get(name) for name in converted})
    if sorted(s['answer'].values()) != list(range(REFUSALS + 1)):
        wrong(f'the refusals are not 1 to {REFUSALS}, each once')
    if len(s['answer']) != REFUSALS + 1:
        wrong(f'the source has {len(s["answer"]) - 1} and not {REFUSALS} refusals')
    crossing = code['report'].numbers(r'EncodeError::(\w+)\(span\) => response_span\((\d+), span\)', 8, snake)
    crossing |= code['report'].numbers(r'EncodeError::(\w+)\(span, .*\) => Response \{\s*number: (\d+),', 2, snake)
    crossing |= code['load'].numbers(r'LoadError::(\w+)(?:\(k\))? => (?:of_record\()?response_alone\((\d+)\)', 4, snake)
    code['evaluate'].one(r'Err\(error\) => response_alone\(error\.number\(\)\)')
    code['cue'].one(r'Err\(error\) => response_alone\(error\.number\(\)\)')
    code['compiler'].one(r'eprintln!\(rt; "refused \{\}", error\.number\(\)\)')
    code['result'].one(r'Err\(error\) => \{\s*write_result\(0, 0, out\);\s*error\.number\(\)')
    code['desk_text'].one(r'push_decimal\(word, error\.number\(\) as usize\)')
    crossing = compiled | ran | summed | crossing
    converted = code['converted'].numbers(r'ConvertError::(\w+)(?:\(k\))? => (?:of_record\()?response_alone\((\d+)\)', 3, snake)
    twice('refusal', code['converted'], converted, {name: s['answer'].get(name) for name in converted})
    crossing = converted | crossing
    code['read'].one(r'Err\(error\) => (error\.number\(\)),')
    crossing |= code['x86'].numbers(r'ReadError::(\w+) => (\d+),', 2, snake)
    twice('refusal', Text('crates/foreign', ''), {'DONE': 0} | crossing, s['answer'])
    record = dict(zip(('UNKNOWN_CODE', 'WRONG_LENGTH'), map(int, code['encode'].part(r'pub fn record_number\(').one(r'\}\s*return (\d+);\s*\}\s*(\d+)$') or ())))
    twice('refusal', code['encode'], record, {name: s['answer'].get(name) for name in record})

    # The question of a refusal; 4's goes by the record.
    s['question'] = code['ground'].part(r'pub fn question_of\(').numbers(r'EncodeError::(\w+)\([_, ]*\) => (\d),', 9, snake)

    # A record and its operands.
    values = {}
    for name, value in code['record'].all(r'const (\w+): usize = (.*);', 19):
        values[name] = sum(int(part) if part.isdigit() else values[part] for part in value.split(' + '))
    names = dict(KIND='KIND', SIZE='SIZE', PREFIX='PREFIX', DISPLACEMENT_SIZE='DISPLACEMENT_SIZE', JUMP='JUMP_KIND', MODE='MODE', RM='RM', IMMEDIATE='IMM', DISPLACEMENT='DISPLACEMENT',
        OPERAND_SPAN_START='OPERAND_SPAN')
    after = code['record'].number(r'end: u32_at\(bytes, at \+ (\d+)\)')
    s['operand'] = {f'{name}_AT': values.get(rattle) for name, rattle in names.items()} | {'OPERAND_SPAN_END_AT': values['OPERAND_SPAN'] + after}
    s['record'] = {f'{name}_AT': values.get(name) for name in ('OPERATION', 'COUNT', 'REPEAT', 'FIRST', 'SECOND')}
    s['record'] |= {'SPAN_START_AT': values['SPAN'], 'SPAN_END_AT': values['SPAN'] + after}
    # The header says that what stands behind the repeat stands a byte further, and is first of it the span.
    twice('record', code['record'], {'REPEAT': values['REPEAT'], 'LONG_RECORD_LENGTH': values['LONG_RECORD_LENGTH']}, {'REPEAT': values['SPAN'], 'LONG_RECORD_LENGTH': values['RECORD_LENGTH'] + 1})
    s['repeat'] = dict(zip(('REPEAT_REPNE', 'REPEAT_REP'), (int(v, 0) for v in code['x86'].part(r'pub fn is_repeat\(').one(r'matches!\(b, (0x\w\w) \| (0x\w\w)\)') or ()))) | {'REPEAT_NONE': 0}

    # The header of a file, its limits, and all lengths.
    text = code['file']
    s['header'] = {f'{name.upper()}_AT': at for name, at in text.numbers(r'let (\w+) = u16_at\(file, (\d+)\);', 3, lambda n: f'HEADER_{n}').items()} | {'HEADER_MARK_AT': 0}
    s['mark'] = (text.one(r'starts_with\(b"(\w{3})"\)') or '').encode()
    entries, string = code['lister'].number(r'let mut keys: \[Option<u64>; (\d+)\]'), code['run'].number(r'pub bytes: \[u8; (\d+)\]')
    entry, most = code['entries'].number(r'put_entry\(&mut out\[(\d+) \* n\.\.\], key\)'), text.number(r'const MOST_RECORDS: u16 = (\d+);')
    s['version'] = {int(n): (int(fewest), int(highest)) for n, fewest, highest in text.part(r'fn counts_of\(').all(r'(\d+) => \((\d+), (\d+)\),', VERSIONS)}
    repeat = text.part(r'fn record_length\(').number(r'if version == (\d+) \{\s*show_record::LONG_RECORD_LENGTH')
    short, long = sorted(s['version'].keys() - {repeat})
    s['limit'] = {'MOST_RECORDS': most, 'SHORT_RECORDS': s['version'][short][1], 'MOST_ENTRIES': entries, 'FILE_VERSION': short, 'LONG_VERSION': long, 'REPEAT_VERSION': repeat,
        'MOST_DEPTH': sums.number(r'\nmost_depth = (\d+)')}
    twice('limit', code['sum'], {'MOST_DEPTH': code['sum'].number(r'const MOST_DEPTH: usize = (\d+);')}, {'MOST_DEPTH': s['limit']['MOST_DEPTH']})
    limits = Text('crates/cue_compile/specs/Cues.antt')
    cues = code['cues'].numbers(r'const (\w+): usize = (\d+);', 4)
    s['limit']['MOST_CUES'] = cues.get('MOST_CUES')
    twice('limit', limits, {'MOST_CUES': limits.number(r'\nmost_cues = (\d+)')}, {'MOST_CUES': s['limit']['MOST_CUES']})
    # A cue's fields where they are read; its delay has the two bytes at its front.
    s['cue_field'] = code['cues'].numbers(r'(port|mask): bytes\[(\d)\],', 2, lambda n: f'CUE_{n.upper()}_AT')
    s['cue_field'] |= {'CUE_DELAY_AT': 0 if code['cues'].one(r'delay: u16::from_le_bytes\(\[bytes\[0\], bytes\[1\]\]\),') else None}
    # Without repeats a count is of one version: so the header says both by SHORT_RECORDS, which is the text programs' limit too.
    twice('version', text, s['version'], {short: (0, s['limit']['SHORT_RECORDS']), long: (s['limit']['SHORT_RECORDS'] + 1, most), repeat: (0, most)})
    s['record bytes'] = {version: values['LONG_RECORD_LENGTH' if version == repeat else 'RECORD_LENGTH'] for version in s['version']}
    s['text'] = code['text'].numbers(r'const (TEXT_RECORDS|MOST_TEXT|MOST_FORMS): \w+ = (\d+);', 3)
    twice('text', code['text'], {'TEXT_RECORDS': s['text'].get('TEXT_RECORDS')}, {'TEXT_RECORDS': s['limit']['SHORT_RECORDS']})
    s['text']['MOST_ANSWER'] = code['answer'].number(r'pub const MOST_ANSWER: usize = (\d+);')
    twice('text', code['program'], {'MOST_ANSWER': code['program'].number(r'let mut out = \[0; (\d+)\];')}, {'MOST_ANSWER': s['text']['MOST_ANSWER']})
    header = text.number(r'const HEADER_LENGTH: usize = (\d+);')
    # The words of a reading are written in two places: off the bytes, and by the reader.
    reading = sorted(map(int, code['read'].all(r'if out\.len\(\) < (\d+) ', 2))) or [None]
    twice('length', code['read'], {'READING_LENGTH': reading[0]}, {'READING_LENGTH': reading[-1]})
    s['length'] = {'RECORD_LENGTH': values['RECORD_LENGTH'], 'REPEAT_RECORD_LENGTH': values['LONG_RECORD_LENGTH'], 'OPERAND_LENGTH': values['OPERAND_LENGTH'], 'HEADER_LENGTH': header,
        'REPORT_LENGTH': code['report'].number(r'if report\.len\(\) < (\d+) '), 'READING_LENGTH': reading[0],
        'LIST_LENGTH': code['lister'].number(r'if out\.len\(\) < (\d+) '), 'ENTRY_LENGTH': entry, 'STRING_LENGTH': string, 'IMAGE_LENGTH': string * most,
        'FILE_LENGTH': header + values['LONG_RECORD_LENGTH'] * most, 'FORM_LENGTH': code['form'].number(r'pub const MOST_LINE: usize = (\d+);')}
    s['length'] |= {'CUE_LENGTH': cues['CUE_LENGTH'], 'CUE_CODE_LENGTH': cues['CUE_CODE'], 'CUE_IMAGE_LENGTH': code['compiler'].number(r'let mut image = \[0; (\d+)\];')}
    twice('length', code['compiler'], {'CUE_IMAGE_LENGTH': s['length']['CUE_IMAGE_LENGTH']}, {'CUE_IMAGE_LENGTH': cues['CUE_CODE'] * cues['MOST_CUES'] + cues['HALT_CODE']})
    # A run's result: two numbers of eight bytes; what a run reaches, and the log of fsqrun, with the text of a full one.
    s['length'] |= {'RUN_RESULT_LENGTH': code['result'].number(r'if out\.len\(\) < (\d+) '), 'REACH_LENGTH': code['desk'].number(r'const REACH: usize = (\d+);')}
    log = code['desk_text'].number(r'if (\d+) < room ')
    each, last = map(int, code['desk_text'].one(r'if out\.len\(\) < (\d+) \* room \+ (\d+) ') or (0, 0))
    twice('length', code['simulator'], {'text': code['simulator'].number(r'let mut out = \[0; (\d+)\];')}, {'text': each * log + last})
    twice('length', code['simulator'], {'pairs': code['simulator'].number(r'The log holds (\d+) pairs')}, {'pairs': log // 2})
    # The longest file that is written, of version 1, by fsq186's slice and the converter's own lengths.
    s['length']['CONVERTED_LENGTH'] = code['fsq186'].number(r'let mut out = \[0; (\d+)\];')
    lengths = code['converter'].numbers(r'const (HEADER_LENGTH|RECORD_LENGTH): usize = (\d+);', 2)
    twice('length', code['converter'], lengths, {name: s['length'][name] for name in lengths})
    twice('length', code['fsq186'], {'CONVERTED_LENGTH': s['length']['CONVERTED_LENGTH']}, {'CONVERTED_LENGTH': header + values['RECORD_LENGTH'] * s['limit']['SHORT_RECORDS']})
    twice('limit', code['converter'], {'SHORT_RECORDS': code['converter'].number(r'if (\d+) < c ')}, {'SHORT_RECORDS': s['limit']['SHORT_RECORDS']})
    places = code['converter'].numbers(r'const (FIRST|SECOND)_IMM: usize = (\d+);', 2)
    twice('operand', code['converter'], places, {name: s['record'][f'{name}_AT'] + s['operand']['IMMEDIATE_AT'] for name in places})
    twice('length', code['lister'], {'LIST_LENGTH': s['length']['LIST_LENGTH']}, {'LIST_LENGTH': entry * entries})
    at, high = (code['result'].number(rf'put_{name}\(out, (\d+), ') for name in ('three', 'u32'))
    s['run_result'] = {'RUN_COUNT_AT': at, 'RUN_LOG_LENGTH_AT': high - 4}

    # The report: three numbers of four bytes at a place.
    def threes(text, names):
        found = {}
        for at, three in text.all(r'put_three\(\w+, (\d+), (.*)\)', 2):
            found |= {name: int(at) + 4 * k for k, name in enumerate(three.split(', '))}
        if found.keys() != names.keys():
            wrong(f'{text.path}: put_three writes {", ".join(found)}')
        return {new: found.get(old) for old, new in names.items()}

    report = {'response.length': 'LENGTH', 'span.start': 'SPAN_START', 'span.end': 'SPAN_END', 'value': 'VALUE', 'low': 'LOW', 'high': 'HIGH'}
    written = threes(code['report'].part(r'pub fn write_report\('), report) | {'RECORD': code['report'].number(r'put_u32\(report, (\d+), response\.record\)')}
    s['report'] = {f'REPORT_{name}_AT': at for name, at in written.items()} | {f'TOLD_{name}_AT': at for name, at in written.items()}
    s['define'] = {'NO_RECORD': code['report'].number(r'const NO_RECORD: u32 = (\d+);')}

    # A reading: numbers of four bytes, each put together from its low byte up.
    text = code['read']
    words = threes(text.part(r'fn write_read\('), dict(head='head', digit='EXTENSION', a='FIRST', b='first values', c='SECOND', d='second values'))
    head = text.one(r'\((\w) % 256\) as u32 \+ 256 \* \((\w+) as u32 \+ 256 \* \((\w+) as u32 \+ 256 \* \((\w+) as u32\)\)\)')
    if head != ('n', 'number', 'size', 'opcode'):
        wrong(f'{text.path}: the head of a reading is {head}')
    s['reading'] = {f'READ_{name}_AT': words['head'] + k for k, name in enumerate(('LENGTH', 'OPERATION', 'WIDTH', 'OPCODE'))}
    s['reading'] |= {f'READ_{name}_AT': words[name] for name in ('EXTENSION', 'FIRST', 'SECOND')}
    beside = text.number(r'number as u32 \+ (256) \* \(repeat as u32\)')
    s['reading']['READ_REPEAT_AT'] = words['EXTENSION'] + (beside or 1).bit_length() // 8
    fields = text.one(r'operand_type\.(\w+) as u32 \+ 256 \* \(operand_type\.(\w+) as u32 \+ 256 \* \((\w+) as u32\)\)') or ()
    s['read_operand'] = {f'READ_{name.upper()}_AT': k for k, name in enumerate(fields)}
    far = text.number(r'wrapping_add_u16\(displacement, value\) as u32 \+ (65536) \* \(far as u32\)')
    value = words['first values'] - words['FIRST']
    s['read_operand'] |= {'READ_VALUE_AT': value, 'READ_FAR_SEGMENT_AT': value + (far or 1).bit_length() // 8}
    kinds = code['operands'].numbers(r'pub const (\w+): u8 = (\d+);', 8)
    s['read_kind'] = {f'READ_{"NONE" if name == "NO_OPERAND" else name}': value for name, value in kinds.items()}
    s['extension'] = text.numbers(r'Extension::(\w+) => (\d+),', 5, lambda n: 'EXTENSION_' + {'ModRm': 'MODRM', 'Second0A': '0A'}.get(n, snake(n)))
    s['extension']['EXTENSION_DIGIT'] = text.number(r'Extension::Digit\(n\) => std::num::wrapping_add_u8\((\d+), n\)')

    # Registers, segments and bases: those of a word are 8 more in the header's enum, where a record has them modulo 8.
    text = code['ast']
    # Each is the place of its variant: `encoding` is `self as u8`.
    text.all(r'self as u8\n', 4)
    s['register'] = text.part(r'pub enum ByteRegister \{').order(r'(\w+),', 8, str.upper)
    s['register'] |= {name: 8 + value for name, value in text.part(r'pub enum WordRegister \{').order(r'(\w+),', 8, str.upper).items()}
    s['segment'] = text.part(r'pub enum Segment \{').order(r'(\w+),', 4)
    twice('segment', code['read'], code['read'].numbers(r'Segment::(\w+) => (\d+),', 4), s['segment'])
    s['base'] = text.part(r'pub enum IndirectEncoding \{').order(r'(\w+),', 8, lambda n: 'BASE_' + snake(n))
    s['base']['BASE_NONE'] = code['slots'].number(r'Operand::Memory\((\d+), word_at')
    s['prefix'] = code['data'].number(r'(0x\w\w) \+ seg\.encoding\(\) \* 8')
    return s


def header(s):
    """The enums of the header, and what its inline functions have of them."""
    place = 'library/include/fsq.h'
    enums = bindings.enums((ROOT / place).read_text())
    count = 0
    for enum in sorted(enums.keys() | s.keys() - {'mark', 'define', 'prefix', 'question', 'version', 'record bytes', 'text'}):
        count += compare(enum, place, enums.get(enum, {}), s.get(enum, {}), 'FSQ_')
    text = Text(place)
    compare('define', place, text.numbers(r'#define FSQ_(NO_RECORD) (\d+)u', 1), s['define'], 'FSQ_')
    for function, enum in (('refusal', 'answer'), ('operation', 'operation')):
        names = text.part(rf'fsq_{function}_name\(.*?\) \{{', '};').order(r'"(\w+)"', len(s[enum]) + 1)
        # in the order of the numbers, and behind them what has none
        compare(f'{function} name', place, names, {name: k for k, name in enumerate([*sorted(s[enum], key=s[enum].get), 'UNKNOWN'])})
        count += len(names)
    count += len(text.part(r'fsq_refusal_sentence\(.*?\) \{', '};').all(r'"(?:[^"\\]|\\.)*"', REFUSALS + 2))
    mark = bytes(int(v, 0) for v in text.all(r'file\[FSQ_HEADER_MARK_AT(?: \+ \d)?\] = (0x\w\w);', 3))
    compare('mark', place, {'bytes': mark}, {'bytes': s['mark']})
    compare('prefix', place, {'ES': text.number(r'\((0x\w\w)u \+ 8u \* \(\(unsigned\) segment & 3u\)\)')}, {'ES': s['prefix']})
    return count + 5


def crate(s):
    """bindings.rs is written from the header; here are the names that the crate gives to its numbers."""
    place = 'library/rust/src/'
    count = 0
    text = Text(place + 'refusal.rs')
    for pattern in (r'Reason::(\w+)(?: \{ \.\. \})? => FSQ_(\w+),', r'FSQ_(\w+) => Reason::(\w+)'):
        for pair in text.all(pattern, REFUSALS):
            reason, number = sorted(pair, key=str.isupper)
            count += 1
            if snake(reason) != number:
                wrong(f'refusal {number}: {text.path} has it for {reason}')
    count += compare('question', text.path, text.part(r'fn question_of\(').numbers(r'FSQ_(\w+) => (\d),', 9), s['question'])
    text = Text(place + 'operand.rs')
    for enum, type, count_of, name in (('register', 'Register', 16, str), ('segment', 'Segment', 4, str), ('base', 'Base', 8, lambda n: f'BASE_{n}')):
        given = text.part(rf'pub enum {type} \{{').order(r'(\w+),', count_of, name)
        count += compare(enum, text.path, given, {n: v for n, v in s[enum].items() if n != 'BASE_NONE'})
    # and their lists, by which a number is named
    for enum, type, count_of, pattern in (('register', 'Register', 16, r'\b([A-D][LHX]|[SB]P|[SD]I)\b'), ('segment', 'Segment', 4, r'Segment::(\w+)'), ('base', 'Base', 8, r'Base::(\w+)')):
        given = text.part(rf'const ALL: \[{type}; {count_of}\] = ', r'\n\n').order(pattern, count_of, lambda n: f'BASE_{n}' if enum == 'base' else n)
        count += compare(enum, f'{text.path} (ALL)', given, {n: v for n, v in s[enum].items() if n != 'BASE_NONE'})
    names = text.part(r"fn text\(self\) -> &'static str \{", r'\}').order(r'"(\S+)"', 8, lambda n: 'BASE_' + n.replace('+', '_'))
    count += compare('base', f'{text.path} (text)', names, {n: v for n, v in s['base'].items() if n != 'BASE_NONE'})
    compare('prefix', text.path, {'ES': text.number(r'(0x\w\w) \+ 8 \* self as u8')}, {'ES': s['prefix']})
    for variant, number in Text(place + 'instruction.rs').part(r'pub enum Repeat \{').all(r'(\w+) = FSQ_(\w+),', 2):
        count += 1
        if f'REPEAT_{variant.upper()}' != number:
            wrong(f'repeat {number}: {place}instruction.rs has it for {variant}')
    for type, variants in (('Size', 'Byte Word'), ('Jump', 'Far Near Short'), ('Kind', 'Immediate Register Segment Memory')):
        for variant, number in text.part(rf'enum {type} \{{').all(r'(\w+) = FSQ_(\w+),', len(variants.split())):
            count += 1
            if not variant.upper().startswith(number):
                wrong(f'{type.lower()} {number}: {text.path} has it for {variant}')
    return count + 1


def python(s):
    place = 'tools/operations.py'
    count = compare('operation', place, {name: k for k, name in enumerate(scripts.OPERATIONS)}, s['operation'])
    for enum in ('kind', 'size', 'jump'):
        count += compare(enum, place, {name: getattr(scripts, name, None) for name in s[enum]}, s[enum])
    registers = {name: k for k, name in enumerate(scripts.BYTE_REGISTERS + scripts.WORD_REGISTERS)}
    count += compare('register', place, registers, s['register'])
    count += compare('segment', place, {name: k for k, name in enumerate(scripts.SEGMENTS)}, s['segment'])
    bases = {'BASE_' + name.replace('+', '_'): k for k, name in enumerate(scripts.BASES)}
    count += compare('base', place, bases | {'BASE_NONE': s['base']['BASE_NONE']}, s['base'])
    count += compare('prefix', place, dict(zip(scripts.SEGMENTS, scripts.PREFIXES)), {name: s['prefix'] + 8 * k for name, k in s['segment'].items()})
    # Where a field stands: the sizes of those before it.
    def places(layout):
        at, found = 0, []
        for code in layout.format.lstrip('<'):
            found.append(at)
            at += {'B': 1, 'H': 2, 'i': 4, 'I': 4}[code]
        return found

    operand = dict(zip(sorted(s['operand'], key=s['operand'].get), places(scripts.OPERAND)))
    record = dict(zip(('OPERATION_AT', 'COUNT_AT', 'SPAN_START_AT', 'SPAN_END_AT'), places(scripts.RECORD))) | {'FIRST_AT': scripts.FIRST, 'SECOND_AT': scripts.SECOND, 'REPEAT_AT': scripts.REPEAT}
    head = {f'HEADER_{name}_AT': len(scripts.MARK) + at for name, at in zip(('VERSION', 'ORIGIN', 'COUNT'), places(scripts.HEADER))} | {'HEADER_MARK_AT': 0}
    for enum, given in (('operand', operand), ('record', record), ('header', head)):
        count += compare(enum, place, given, s[enum])
    lengths = {'HEADER_LENGTH': len(scripts.MARK) + scripts.HEADER.size, 'OPERAND_LENGTH': scripts.OPERAND.size, 'RECORD_LENGTH': scripts.SECOND + scripts.OPERAND.size}
    lengths['REPEAT_RECORD_LENGTH'] = len(scripts.with_repeat(bytes(lengths['RECORD_LENGTH']), 0))
    count += compare('length', place, lengths, {name: s['length'][name] for name in lengths})
    count += compare('version', place, scripts.VERSIONS, s['version'])
    count += compare('limit', place, {'REPEAT_VERSION': scripts.REPEAT_VERSION}, {'REPEAT_VERSION': s['limit']['REPEAT_VERSION']})
    count += compare('repeat', place, {f'REPEAT_{name}': value for name, value in scripts.REPEATS.items()} | {'REPEAT_NONE': 0}, s['repeat'])
    count += compare('text', place, {'TEXT_RECORDS': scripts.TEXT_RECORDS}, {'TEXT_RECORDS': s['text']['TEXT_RECORDS']})
    return count + compare('mark', place, {'bytes': scripts.MARK}, {'bytes': s['mark']})


def reference(s):
    """The tables of docs/REFERENCE.md: the refusals, the versions of a file, and the codes of a record; and the limits of the texts."""
    place = 'docs/REFERENCE.md'
    text = Text(place, (ROOT / place).read_text())
    rows = {name: int(number) for number, name in text.all(r'\n\| (\d+) \| ([A-Z_]+) \|', REFUSALS)}
    count = compare('refusal', place, rows | {'DONE': 0}, s['answer'])
    said = lambda number: int(number.replace(',', ''))
    rows = text.all(r'\n\| (\d+) \| ([\d,]+) to ([\d,]+) \| (\d+) \|', VERSIONS)
    count += compare('version', place, {int(version): (said(fewest), said(most)) for version, fewest, most, _ in rows}, s['version'])
    count += compare('record bytes', place, {int(version): int(length) for version, _, _, length in rows}, s['record bytes'])
    texts = text.one(r'(?s)a count of more than ([\d,]+) is refused with 14 here.*slice of at least ([\d,]+) and ([\d,]+) bytes')
    texts = (*(texts or ()), text.one(r'`sum_text::write_answer`, which takes a slice of at least ([\d,]+) bytes') or '0')
    count += compare('text', place, dict(zip(('TEXT_RECORDS', 'MOST_TEXT', 'MOST_FORMS', 'MOST_ANSWER'), map(said, texts))), s['text'])
    count += compare('limit', place, {'MOST_DEPTH': text.number(r'\n\| Is it at most (\d+) brackets deep\? \|')}, {'MOST_DEPTH': s['limit']['MOST_DEPTH']})
    cues = text.one(r'\n\| Is the length a multiple of (\d+), and are there at most (\d+) cues\? \|') or (0, 0)
    count += compare('cues', place, dict(zip(('CUE_LENGTH', 'MOST_CUES'), map(int, cues))), {'CUE_LENGTH': s['length']['CUE_LENGTH'], 'MOST_CUES': s['limit']['MOST_CUES']})
    runs = text.one(r'the first ([\d,]+) bytes of an image')
    result = text.one(r'\*\*The result\*\*, (\d+) bytes, of `fsq_run`: at (\d+) .*? at (\d+) ') or (0, 0, 0)
    given = {'REACH_LENGTH': said(runs or '0')} | dict(zip(('RUN_RESULT_LENGTH', 'RUN_COUNT_AT', 'RUN_LOG_LENGTH_AT'), map(int, result)))
    count += compare('run', place, given, {name: (s['length'] | s['run_result'])[name] for name in given})
    for enum, begin, names in (('kind', r'\| kind: ', r'\b(Imm|Reg|Seg|Mem) (\d)'), ('size', 'displacement size: ', r'\b(Unspecified|Byte|Word) (\d)'),
            ('jump', r'\| jump kind: ', r'\b(none|Far|Near|Short) (\d)')):
        given = text.part(begin, r' \|').numbers(names, len(s[enum]), lambda n: 'NO_KIND' if n == 'none' else n.upper())
        count += compare(enum, place, given, s[enum])
    return count


def lists():
    """No other file has a list of the operations or declares the library's functions for Rust."""
    one = {r'\bXLATB\W+(?:\w+\W+){0,2}LEA\W+(?:\w+\W+){0,2}LDS\b': ['library/include/fsq.h', 'library/rust/src/bindings.rs', 'tools/operations.py'],
        # test_plain's function is none of the library's
        r'\bfn fsq_(?!plain\b)\w+\([^)]*\) -> u8;': ['library/rust/src/bindings.rs']}
    files = [path for folder in ('bench', 'library', 'tests', 'tools') for path in (ROOT / folder).rglob('*') if path.suffix in ('.c', '.h', '.py', '.rs')]
    for pattern, places in one.items():
        found = sorted(str(path.relative_to(ROOT)) for path in files if re.search(pattern, path.read_text()))
        if found != places:
            wrong(f'`{pattern}` is in {", ".join(found)}, and should be in {", ".join(places)}')


def main():
    try:
        s = source()
    except (KeyError, TypeError, ValueError):
        # What a pattern does not meet is missed further on.
        if not failures:
            raise
    if not failures:
        counts = header(s), crate(s), python(s), reference(s)
        lists()
    for failure in failures:
        print(f'numbers: {failure}')
    if failures:
        sys.exit(1)
    print(f'numbers: {len(s["operation"])} operations, {len(s["answer"]) - 1} refusals and the rest as the Rattle source has them: header {counts[0]}, crate {counts[1]}, '
          f'tools/operations.py {counts[2]}, REFERENCE {counts[3]}')


if __name__ == '__main__':
    main()
