"""The shows that convert.py tries. A show is a text of records with '; ' between them, as 'SHL AX,3; JE 65536 with count=2': instructions as in tests/shows, with a segment before a base
([ES:BX]), '3*' before a record for so many of it, and fields behind `with`. SETTLED and ORDERED have their answers by hand, from document 02, No. 12; LABELLED has labels in the place of
targets, so that NASM gives both images; the others have answers.py's."""
import itertools
import pathlib
import random
import re
import struct
import sys

ROOT = pathlib.Path(__file__).resolve().parent.parent.parent
sys.path.insert(0, str(ROOT / 'tests/shows'))
import make
from operations import FIRST, HEADER, MARK, OPERATIONS, PREFIXES, SECOND, SEGMENTS

SHIFTS = 'ROL ROR RCL RCR SHL SHR SAR'.split()
# fields of more than a byte, beside make.py's
NUMBERS = {'span': (2, 'I'), 'end': (6, 'I')}
for _operand, _at in (('1', FIRST), ('2', SECOND)):
    NUMBERS |= {f'imm{_operand}': (_at + 7, 'i'), f'displacement{_operand}': (_at + 11, 'i'), f'span{_operand}': (_at + 15, 'I'), f'end{_operand}': (_at + 19, 'I')}


def record(text):
    """The 56 bytes of a record."""
    instruction, _, fields = text.partition(' with ')
    operands = instruction.partition(' ')[2].split(',')
    prefixes = [re.search(r'\[(ES|CS|SS|DS):', operand) for operand in operands]
    packed, _ = make.record(re.sub(r'\[(ES|CS|SS|DS):', '[', instruction))
    for at, prefix in zip((FIRST, SECOND), prefixes):
        if prefix:
            packed[at + 2] = PREFIXES[SEGMENTS.index(prefix[1])]
    for field in fields.split():
        name, value = field.split('=')
        if name in NUMBERS:
            at, kind = NUMBERS[name]
            struct.pack_into(f'<{kind}', packed, at, int(value))
        else:
            packed[make.FIELDS[name]] = int(value)
    return bytes(packed)


def records(text):
    for part in text.split('; ') if text else []:
        times, one = re.fullmatch(r'(?:(\d+)\*)?(.*)', part).groups()
        yield from [record(one)] * int(times or 1)


def file(origin, packed, version=1, count=None):
    packed = list(packed)
    return MARK + HEADER.pack(version, origin, len(packed) if count is None else count) + b''.join(packed)


def show(origin, text):
    return file(origin, records(text))


# ---- by hand. Origin, show, and the written show or the refusal. SHL AX,n is three bytes (C1 E0 n), each copy two; by 1 it is two and stays. HLT is one byte, JE two, CALL and JMP three.
SETTLED = [
    # copies
    (0, '', ''),
    (65535, '', ''),
    (256, 'HLT', 'HLT'),
    (256, 'SHL AX,1', 'SHL AX,1'),
    (256, 'SHL AX,2', '2*SHL AX,1'),
    (256, 'SHL AX,3', '3*SHL AX,1'),
    (256, 'SHL AX,31', '31*SHL AX,1'),
    *((256, f'{name} BL,7', f'7*{name} BL,1') for name in SHIFTS),
    *((256, f'{name} word [ES:BX+4],9', f'9*{name} word [ES:BX+4],1') for name in SHIFTS),
    (256, 'RCL BL,10; RCR AX,18; ROL BL,8; ROR AX,16', '10*RCL BL,1; 18*RCR AX,1; 8*ROL BL,1; 16*ROR AX,1'),
    (256, 'SHL AX,2; SHL AX,1; SHL BL,3; HLT; ROR word [512],2', '2*SHL AX,1; SHL AX,1; 3*SHL BL,1; HLT; 2*ROR word [512],1'),
    # what is no count: CL's field, an immediate of another operation, a field of the first operand
    (256, 'SHL AX,CL; JE 258', 'SHL AX,CL; JE 258'),
    (256, 'SHL AX,CL with imm2=5; JE 258', 'SHL AX,CL with imm2=5; JE 258'),
    (256, 'RCR BX,CL with imm2=40; SHL AX,2; JE 261', 'RCR BX,CL with imm2=40; 2*SHL AX,1; JE 262'),
    (256, 'SHL AX,2 with imm1=9', '2*SHL AX,1 with imm1=9'),
    (256, 'ADD BX,5; MOV AX,3; OUT 64,AL; INT 33; RET 2', 'ADD BX,5; MOV AX,3; OUT 64,AL; INT 33; RET 2'),
    # all else is copied: spans, the operand count, a stated size, free fields, operands that are not used
    (256, 'SHL AX,3 with span=7 end=4294967295 span1=1 end1=2 span2=3 end2=4', '3*SHL AX,1 with span=7 end=4294967295 span1=1 end1=2 span2=3 end2=4'),
    (256, 'SHL AX,3 with count=0 size2=1 jump1=3 jump2=1 displacement2=-5', '3*SHL AX,1 with count=0 size2=1 jump1=3 jump2=1 displacement2=-5'),
    (256, 'SHL AX,2; JE 259 with span=5 size1=2 displacement1=77 imm2=259 count=0', '2*SHL AX,1; JE 260 with span=5 size1=2 displacement1=77 imm2=259 count=0'),
    (256, 'SHL AX,2; HLT with imm1=259 imm2=2; MOV AX,BX with imm1=259 imm2=259', '2*SHL AX,1; HLT with imm1=259 imm2=2; MOV AX,BX with imm1=259 imm2=259'),
    # EA, FF and data are no targets
    (256, 'SHL AX,2; JMP far 259 with displacement1=4096', '2*SHL AX,1; JMP far 259 with displacement1=4096'),
    (256, 'SHL AX,2; CALL AX with imm1=259; JMP word [BX] with imm1=259; CALL far [BX] with imm1=257', '2*SHL AX,1; CALL AX with imm1=259; JMP word [BX] with imm1=259; CALL far [BX] with imm1=257'),
    (256, 'SHL AX,2; MOV AX,259; MOV AX,[259]; RET 259', '2*SHL AX,1; MOV AX,259; MOV AX,[259]; RET 259'),
    # the target's gain: at the shift, behind it, the end; not that of the branch
    (256, 'SHL AX,3; JE 256', '3*SHL AX,1; JE 256'),
    (256, 'SHL AX,3; JE 259', '3*SHL AX,1; JE 262'),
    (256, 'SHL AX,3; JE 261', '3*SHL AX,1; JE 264'),
    (256, 'JE 258; SHL AX,3', 'JE 258; 3*SHL AX,1'),
    (256, 'JE 261; SHL AX,3', 'JE 264; 3*SHL AX,1'),
    (256, 'JE 261; SHL AX,3; HLT', 'JE 264; 3*SHL AX,1; HLT'),
    (256, 'HLT; SHL AX,2; SHL AX,2; JE 257; JE 260; JE 256', 'HLT; 4*SHL AX,1; JE 257; JE 261; JE 256'),
    (256, 'SHL AX,1; JE 258; JE 256', 'SHL AX,1; JE 258; JE 256'),
    # prefix, opcode, ModRM, displacement and one byte: 3, 4, 5, 6
    (256, 'SHL byte [BX],2; JE 259', '2*SHL byte [BX],1; JE 260'),
    (256, 'SHL byte [BX+4],2; JE 260', '2*SHL byte [BX+4],1; JE 262'),
    (256, 'SHL byte [BX+300],2; JE 261', '2*SHL byte [BX+300],1; JE 264'),
    (256, 'SHL byte [512],2; JE 261', '2*SHL byte [512],1; JE 264'),
    (256, 'SHL byte [ES:512],2; JE 262', '2*SHL byte [ES:512],1; JE 266'),
    (256, 'SHL byte [DS:BX],31; JE 260', '31*SHL byte [DS:BX],1; JE 349'),
    # every branch
    *((256, f'SHL AX,2; {name} 259', f'2*SHL AX,1; {name} 260') for name in 'JO JNO JB JNB JE JNE JBE JNBE JS JNS JP JNP JL JNL JLE JNLE LOOPNZ LOOPZ LOOP JCXZ CALL JMP'.split()),
    *((256, f'SHL AX,2; {name} 259', f'2*SHL AX,1; {name} 260') for name in ('JE short', 'LOOP short', 'CALL near', 'JMP near', 'JMP short')),
    # across the wrap: a start at 0 and an end at 0; E8 and E9 modulo 65,536, the others as they are
    (65531, 'SHL AX,2; HLT; HLT; CALL 65535', '2*SHL AX,1; HLT; HLT; CALL 0'),
    (65531, 'SHL AX,2; HLT; HLT; JMP 65535', '2*SHL AX,1; HLT; HLT; JMP 0'),
    (65531, 'SHL AX,2; HLT; HLT; JMP 0', '2*SHL AX,1; HLT; HLT; JMP 1'),
    (65530, 'CALL 0; SHL AX,2', 'CALL 1; 2*SHL AX,1'),
    (65530, 'SHL AX,2; HLT; HLT; HLT; JE -1', '2*SHL AX,1; HLT; HLT; HLT; JE 0'),
    (65530, 'SHL AX,2; HLT; HLT; HLT; JE -6', '2*SHL AX,1; HLT; HLT; HLT; JE -6'),
    (65531, 'SHL AX,2; JE 65536', '2*SHL AX,1; JE 65537'),
    (65531, 'SHL AX,3; JE 65536', 'refused 6 3'),
    (65529, 'SHL AX,2; JMP short 65535; HLT; HLT', 'refused 5 2'),
    (65529, 'SHL AX,2; JMP short 65534; HLT; HLT', '2*SHL AX,1; JMP short 65535; 2*HLT'),
    # a branch moves over the wrap and its target, as an immediate, does not
    (65532, 'SHL AX,2; JE 65539; HLT; HLT', 'refused 6 2'),
    (65531, 'SHL AX,2; JE 65538; HLT; HLT', '2*SHL AX,1; JE 65539; HLT; HLT'),
    # the loader's refusal of the written file has that file's record, 6 of a branch that has become too long
    (0, 'JE 129; 42*SHL AX,2; HLT', 'refused 6 0'),
    (0, 'JE 128; 42*SHL AX,2; HLT', 'refused 6 0'),
    (0, 'JE 127; 42*SHL AX,2; HLT', 'refused 25 0'),
    (0, 'JE 95; 31*SHL AX,2', 'JE 126; 62*SHL AX,1'),
    (0, 'HLT; JE 99; 32*SHL AX,2', 'refused 6 1'),
    (0, '31*SHL AX,2; JE 0', '62*SHL AX,1; JE 0'),
    (0, '32*SHL AX,2; JE 0', 'refused 6 64'),
    (0, '42*SHL AX,2; JE 0', 'refused 6 84'),
    # 24: below 1 and above 31, whatever else the record is
    (256, 'SHL AX,0', 'refused 24 0'),
    (256, 'SHL AX,32', 'refused 24 0'),
    (256, 'SHL AX,-1', 'refused 24 0'),
    (256, 'SHL AX,255', 'refused 24 0'),
    (256, 'SHL AX,257', 'refused 24 0'),
    (256, 'SHL AX,65537', 'refused 24 0'),
    (256, 'SHL AX,2147483647', 'refused 24 0'),
    (256, 'SHL AX,-2147483648', 'refused 24 0'),
    *((256, f'{name} AX,{count}', 'refused 24 0') for name in SHIFTS for count in (0, 32)),
    (256, 'SHL AX', 'refused 24 0'),
    (256, 'SHL AX,40 with count=3', 'refused 24 0'),
    (256, 'SHL AX,2 with count=3', 'refused 8 0'),
    (256, 'SHL [BX],40', 'refused 24 0'),
    (256, 'SHL [BX],2', 'refused 2 0'),
    (256, 'SHL AX,40 with mode1=2', 'refused 24 0'),
    (256, 'SHL AX,2 with mode1=2', 'refused 8 0'),
    (256, 'SHL AX,40 with mode2=1', 'refused 24 0'),
    (256, 'SHL AX,2 with mode2=1', 'refused 8 0'),
    (256, 'SHL DS,40', 'refused 24 0'),
    (256, 'SHL DS,2', 'refused 1 0'),
    (256, 'SHL 5,2', 'refused 2 0'),
    (256, 'SHL AX,BX with imm2=40', 'refused 1 0'),
    (256, 'SHL AX,CX with imm2=1', 'refused 1 0'),
    (256, 'HLT with imm2=40; NOT AX with imm2=40; JE 256 with imm2=40', 'HLT with imm2=40; NOT AX with imm2=40; JE 256 with imm2=40'),
    # 25: inside an old shift, where copies will stand, behind the end, before the origin
    (256, 'SHL AX,3; JE 257', 'refused 25 1'),
    (256, 'SHL AX,3; JE 258', 'refused 25 1'),
    (256, 'SHL AX,3; JE 260', 'refused 25 1'),
    (256, 'SHL AX,3; JE 262', 'refused 25 1'),
    (256, 'SHL AX,3; JE 255', 'refused 25 1'),
    (256, 'JE 260; SHL AX,3', 'refused 25 0'),
    (256, 'JE 259; SHL AX,3', 'refused 25 0'),
    (256, 'SHL AX,1; JE 257', 'refused 25 1'),
    (256, 'MOV AX,5; JE 258', 'refused 25 1'),
    (256, 'CALL 0', 'refused 25 0'),
    (0, 'CALL 65535', 'refused 25 0'),
    (0, 'CALL 0', 'CALL 0'),
    (0, 'JE -65534', 'refused 6 0'),
    (65534, 'JE 65536', 'JE 65536'),
    (65534, 'LOOP 65536', 'LOOP 65536'),
    (65534, 'JCXZ 65536', 'JCXZ 65536'),
    (65534, 'JMP short 65536', 'refused 5 0'),
    (65534, 'JE 65535', 'refused 25 0'),
    (65534, 'JMP 1', 'JMP 1'),
    (65534, 'JMP 0', 'refused 25 0'),
    # the records' own, at their old starts: JE is asked where it stood, not where it will stand
    (0, 'JE 130; 127*HLT', 'refused 6 0'),
    (0, '42*SHL AX,2; HLT; JE 1', 'refused 25 43'),
    (0, '42*SHL AX,2; HLT; JE 0', 'refused 6 43'),
    (0, '42*SHL AX,1; 43*HLT; JE 0', 'refused 6 85'),
    # above 1,000 records
    (0, '1000*HLT', '1000*HLT'),
    (0, '32*SHL AX,31; 8*HLT', '992*SHL AX,1; 8*HLT'),
    (0, '32*SHL AX,31; 9*HLT', 'refused 14 -'),
    (0, '998*HLT; SHL AX,2', '998*HLT; 2*SHL AX,1'),
    (0, '999*HLT; SHL AX,2', 'refused 14 -'),
    (0, 'SHL AX,2; 999*HLT', 'refused 14 -'),
    (0, '1000*SHL AX,31', 'refused 14 -'),
    (0, '999*SHL word [ES:512],31; JMP 5994', 'refused 14 -'),
    (0, '999*SHL word [ES:512],31; JMP 5993', 'refused 25 999'),
    (0, '998*SHL AX,31; INT1; HLT', 'refused 7 998'),
    (0, '999*SHL AX,31; SHL AX,32', 'refused 24 999'),
    # 14 before the written file's records
    (0, 'JE 128; 42*SHL AX,2; 957*HLT', 'refused 14 -'),
    (65531, 'SHL AX,3; JE 65536; 996*HLT', 'refused 6 3'),
    (65531, 'SHL AX,3; JE 65536; 997*HLT', 'refused 14 -'),
]


def settled():
    for origin, text, answer in SETTLED:
        yield f'{origin}: {text}', show(origin, text), answer if answer.startswith('refused') else show(origin, answer)


# ---- the order of the questions about records: each with records that it turns away and the number. `own` is the record's own start; 600 is the origin
ORDERED = {
    'codes': [('HLT with operation=99', 15), ('HLT with kind1=4', 15), ('SHL AX,40 with size1=3', 15), ('AAM with displacement-size2=3', 15), ('JE 9 with jump2=4', 15)],
    'counts': [('SHL AX,0', 24), ('ROR BL,32', 24), ('SHL [BX],40', 24), ('RCL AX', 24), ('SAR AX,99 with count=3', 24)],
    'own': [('PUSH AL', 1), ('SHL [BX],2', 2), ('MOV AX,BL', 3), ('POP 5', 4), ('MOV byte [BX],300', 5), ('JE 60000', 6), ('INT1', 7), ('AAM with count=3', 8), ('SHL DS,5', 1), ('JMP 65536', 5)],
    'targets': [('JE own+1', 25), ('CALL own+2', 25), ('JMP short own+1', 25), ('LOOP own+1', 25), ('JMP own+1', 25), ('JCXZ 599', 25)],
}
# first, middle, last of five; the others are HLT, a byte each
PLACES = (0, 2, 4)


def with_causes(causes, origin=600):
    """Five records, those at the causes' places turned away; a start is that of a record behind HLTs alone."""
    texts = ['HLT'] * 5
    for place, (text, _) in causes.items():
        texts[place] = re.sub(r'own\+(\d)', lambda m: str(origin + place + int(m[1])), text)
    return '; '.join(texts)


def ordered():
    """Each cause alone and each two, of one question and of two, at each place: the earlier question's is the answer, of one question the first record's."""
    def case(causes, first):
        text = with_causes(causes)
        yield f'600: {text}', show(600, text), f'refused {causes[first][1]} {first}'

    for records in ORDERED.values():
        for place, cause in itertools.product(PLACES, records):
            yield from case({place: cause}, place)
    for earlier, later in itertools.combinations_with_replacement(ORDERED, 2):
        pairs = zip(itertools.cycle(ORDERED[earlier]), itertools.cycle(ORDERED[later]), range(max(len(ORDERED[earlier]), len(ORDERED[later]))))
        for (one, other, _), (a, b) in itertools.product(pairs, itertools.permutations(PLACES, 2)):
            yield from case({a: one, b: other}, min(a, b) if earlier == later else a)


# ---- files by hand: mark, nine bytes, version, count and length, each before the next and before what the records say
def headed():
    shift, long = record('SHL AX,3'), record('HLT')
    counted, unknown = record('SHL AX,40'), record('HLT with operation=99')
    good = file(256, [shift, long])
    yield 'nothing', b'', 'refused 12 -'
    yield 'two bytes of the mark', good[:2], 'refused 12 -'
    for place in range(3):
        yield f'another mark in byte {place}', good[:place] + bytes([good[place] ^ 32]) + good[place + 1:], 'refused 12 -'
        yield f'another mark in byte {place} of version 2', b'FSQ'[:place] + b'x' + b'FSQ'[place + 1:] + file(0, [long], version=2)[3:], 'refused 12 -'
    for length in range(3, 9):
        yield f'{length} bytes', good[:length], 'refused 14 -'
        yield f'{length} bytes of version 2', file(0, [long], version=2)[:length], 'refused 14 -'
    for version in (0, 2, 3, 4, 255, 256, 257, 65535):
        yield f'version {version}', file(256, [shift, long], version=version), 'refused 13 -'
        yield f'version {version}, empty', file(256, [], version=version), 'refused 13 -'
        yield f'version {version}, a byte too long', file(256, [shift], version=version) + b'\0', 'refused 13 -'
        yield f'version {version}, count 9', file(256, [shift], version=version, count=9), 'refused 13 -'
        yield f'version {version}, an unknown code', file(256, [unknown], version=version), 'refused 13 -'
        yield f'version {version}, count 40', file(256, [counted], version=version), 'refused 13 -'
    for version in (2, 3):
        for count in (1001, 8000):
            each = long if version == 2 else long[:2] + b'\0' + long[2:]
            yield f'version {version} with {count} records', file(256, [each] * count, version=version), 'refused 13 -'
    yield 'version 3 with a record of 57 bytes', file(256, [shift[:2] + b'\0' + shift[2:]], version=3), 'refused 13 -'
    yield 'version 1 with a record of 57 bytes', file(256, [shift[:2] + b'\0' + shift[2:]]), 'refused 14 -'
    for count in (1001, 1170, 1171, 8000):
        yield f'{count} records', file(256, [long] * count), 'refused 14 -'
    for count in (0, 1, 3, 256, 1001, 65535):
        yield f'count {count} of 2', file(256, [shift, long], count=count), 'refused 14 -'
    for records, what in (([shift, long], 'two records'), ([unknown], 'an unknown code'), ([counted], 'count 40'), ([record('INT1')], 'INT1'), ([record('JE 600')], 'a stray target'), ([], 'none')):
        yield f'a byte too many behind {what}', file(256, records) + b'\0', 'refused 14 -'
        yield f'a byte too few of {what}', file(256, records)[:-1], 'refused 14 -'
        yield f'a record too many behind {what}', file(256, [*records, long], count=len(records)), 'refused 14 -'
    yield 'two records', good, file(256, [*[record('SHL AX,1')] * 3, long])


# ---- at random, with what answers.py says of them
ROWS = [bytes.fromhex(packed) for name in make.STORED for packed, is_branch, _, answer in make.stored(name) if len(packed) == 112 and not is_branch and not answer.startswith('refused')]
DESTINATIONS = ['AX', 'BL', 'DI', 'CH', 'byte [BX]', 'word [512]', 'byte [ES:BP+SI+4]', 'word [SS:DI+300]', 'word [BX+SI]', 'byte [CS:600]']
BRANCHES = ['JE', 'JNLE', 'LOOP', 'LOOPNZ', 'JCXZ', 'JMP short', 'JMP', 'JMP near', 'CALL', 'CALL near', 'JNE short']


def shift_at_random(some, counts=range(1, 32)):
    return f'{some.choice(SHIFTS)} {some.choice(DESTINATIONS)},{some.choice((2, 2, 3, 4, some.choice(counts)))}'


def laid_out(paper, origin, packed):
    paper.origin, paper.records = origin, packed
    paper.laid_out()
    return paper.starts


def at_random(paper, number, most):
    """Shows of stored records, shifts and branches, each branch to a start, the end, or beside one; the starts are answers.py's, as a branch's length does not depend on its target."""
    some = random.Random(number)
    origin = some.choice((0, 256, 65500, 65535, 65536 - some.randrange(200), some.randrange(65536)))
    length = some.randrange(1, most)
    texts = [some.choice((None, 'shift', 'shift', some.choice(BRANCHES))) for _ in range(length)]
    packed = [record(shift_at_random(some)) if text == 'shift' else record(f'{text} 0') if text else some.choice(ROWS) for text in texts]
    lengths = {'JMP': 3, 'JMP near': 3, 'CALL': 3, 'CALL near': 3}
    # a branch is laid out by a near one of its own length
    plain = [record('AAM') if text in BRANCHES and lengths.get(text, 2) == 2 else own for text, own in zip(texts, packed)]
    starts = laid_out(paper, origin, plain)
    for k, text in enumerate(texts):
        if text not in BRANCHES:
            continue
        near = lengths.get(text, 2) == 3
        place = some.randrange(length + 1) if near else max(0, min(length, k + some.randrange(-12, 13)))
        target = starts[place] + (some.choice((1, -1, 2)) if some.randrange(8 * most) == 0 else 0)
        if not near and text != 'JMP short':
            # as the distance goes, which is not wrapped
            target = starts[k] + (target - starts[k] + 32768) % 65536 - 32768
        packed[k] = record(f'{text} {target % 65536 if near or text == "JMP short" else target}')
    return file(origin, packed)


def damaged(number, packed):
    """A file with a byte altered, removed or added, cut, or with a record doubled, left out or moved."""
    some = random.Random(number)
    at = some.randrange(len(packed))
    k = some.randrange((len(packed) - 9) // 56 or 1)
    one = packed[9 + 56 * k:65 + 56 * k]
    return some.choice((
        packed[:at] + bytes([some.randrange(256)]) + packed[at + 1:],
        packed[:at] + bytes([packed[at] ^ 1 << some.randrange(8)]) + packed[at + 1:],
        packed[:9 + 56 * k] + one[:40] + struct.pack('<i', some.choice((0, 1, 2, 31, 32, -1, some.randrange(-2**31, 2**31)))) + one[44:] + packed[65 + 56 * k:],
        packed[:9 + 56 * k] + one[:17] + struct.pack('<i', some.choice((0, 1, -1, 65536, some.randrange(65536), some.randrange(-2**31, 2**31)))) + one[21:] + packed[65 + 56 * k:],
        packed[:9 + 56 * k] + bytes([some.randrange(99)]) + one[1:] + packed[65 + 56 * k:],
        packed[:at] + packed[at + 1:], packed[:at], packed + bytes([some.randrange(256)]),
        packed[:9 + 56 * k] + packed[65 + 56 * k:], packed + one,
        # a record moved or left out, the count with it
        packed[:9] + one + packed[9:9 + 56 * k] + packed[65 + 56 * k:],
        packed[:7] + struct.pack('<H', (len(packed) - 9) // 56 - 1) + packed[9:9 + 56 * k] + packed[65 + 56 * k:] if len(packed) > 65 else packed[:9],
        packed[:5] + struct.pack('<H', some.choice((0, 65535, some.randrange(65536)))) + packed[7:]))


# calls and jumps, and shifts by their counts: to 1,000 records written, or one more
LARGE = [(1000, {}), (1, {1: 999}), (200, {2: 400}), (201, {2: 400}), (10, {3: 330}), (11, {3: 330}), (500, {5: 100}), (501, {5: 100}), (101, {31: 29}), (102, {31: 29})]


def large(paper):
    """Shows of many records, with near branches over most of them."""
    for number, (branches, shifts) in enumerate(LARGE):
        some = random.Random(number)
        texts = [some.choice(('CALL 0', 'JMP 0')) for _ in range(branches)]
        texts += [f'{some.choice(SHIFTS)} {some.choice(DESTINATIONS)},{count}' for count, times in shifts.items() for _ in range(times)]
        some.shuffle(texts)
        origin = some.randrange(65536)
        starts = laid_out(paper, origin, [record(text) for text in texts])
        yield file(origin, [record(text.replace(' 0', f' {some.choice(starts)}') if text.endswith(' 0') else text) for text in texts])
