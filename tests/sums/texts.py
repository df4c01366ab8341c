"""The texts that sums.py tries. SETTLED has its answers by hand: document 02, No. 6, and REFERENCE 12."""
import itertools
import random

LIMIT = 2**31


def deep(depth, text, opening='(', closing=')'):
    return opening * depth + text + closing * depth


SETTLED = {
    '3*(40+2)-1': '125',
    '-2147483648': '-2147483648',
    '1-2147483648': 'refused 18',
    # a number is a value on the way; leading zeros are digits
    '2147483647': '2147483647',
    '2147483648': 'refused 18',
    '2147483648-1': 'refused 18',
    '-2147483649': 'refused 18',
    '0': '0',
    '-0': '0',
    '007': '7',
    # a minus directly before digits is taken with them, and no other
    '-(2147483648)': 'refused 18',
    '--2147483648': 'refused 18',
    '---2147483648': 'refused 18',
    '--2147483647': '2147483647',
    '(-2147483648)': '-2147483648',
    '1*-2147483648': '-2147483648',
    '-1--2147483648': '2147483647',
    # 16 before 17 before 18
    deep(16, '1'): '1',
    deep(16, '1/0'): 'refused 18',
    deep(17, '1'): 'refused 17',
    deep(17, '1/0'): 'refused 17',
    deep(17, '2147483648'): 'refused 17',
    '1/0+' + deep(17, '1'): 'refused 17',
    '(' * 17 + '1' + ')' * 16: 'refused 16',
    '(' * 16 + '1' + ')' * 17: 'refused 16',
    '1/0)': 'refused 16',
    '2147483648+': 'refused 16',
    # a minus is no bracket, and brackets side by side are not one within the other
    '-' * 17 + '1': '-1',
    deep(16, '1', '-('): '1',
    deep(17, '1', '-('): 'refused 17',
    deep(16, '1') + '+' + deep(16, '2'): '3',
    # no texts
    **dict.fromkeys(['', '+1', '1++1', '2(3)', '()', ' ', '1 +1', '1+ 1', ' 1', '1 ', '1\r', '\t1', '-', '1-', '--', '(', ')', '(1', '1)', '(1)(2)', '(1)2', '1*/2', '1**2', '1//2', '0x10',
        '1.5', '1e3', '1_000', 'x', '\0', '1\0'], 'refused 16'),
    # texts
    '1+-1': '0',
    '1--1': '2',
    '1---1': '0',
    '-(-5)': '5',
    '((1))+(2)': '3',
    # the binding, and equals from the left
    '2+3*4': '14',
    '2*3+4': '10',
    '10-6/2': '7',
    '-2*-3': '6',
    '-2+3': '1',
    '-(2+3)': '-5',
    '7-4-2': '1',
    '7-4+2': '5',
    '8/4*2': '4',
    '8*4/2': '16',
    '16/4/2': '2',
    # cut toward zero
    '7/2': '3',
    '-7/2': '-3',
    '7/-2': '-3',
    '-7/-2': '3',
    '-(7/2)': '-3',
    '1/2': '0',
    '-1/2': '0',
    # a value outside on the way, and a zero divisor
    '2147483647+1-1': 'refused 18',
    '0*(1/0)': 'refused 18',
    '0/0': 'refused 18',
    '1/(2-2)': 'refused 18',
    '0/5': '0',
    '-2147483648/-1': 'refused 18',
    '-2147483648*-1': 'refused 18',
    '-2147483648/1': '-2147483648',
    '-2147483648-1': 'refused 18',
    '-2147483647-1': '-2147483648',
    '46340*46340': '2147395600',
    '46341*46341': 'refused 18',
    '65536*65536': 'refused 18',
    '65536*-32768': '-2147483648',
    '65536*32768': 'refused 18',
    '00000000000000000000002147483647': '2147483647',
    '99999999999999999999': 'refused 18',
    # modulo 2^32 and 2^64 these would be 0 and 1
    '4294967296': 'refused 18',
    '4294967297': 'refused 18',
    '18446744073709551616': 'refused 18',
    '18446744073709551617': 'refused 18',
}


def exhaustive():
    """Every text of some bytes: to 4 of eight, to 5 of five, 6 and 7 of four."""
    for alphabet, lengths in (('02+-*/()', range(5)), ('1-/()', range(6)), ('1-()', range(6, 8))):
        for length in lengths:
            yield from map(''.join, itertools.product(alphabet, repeat=length))


def numbers():
    """Around the limits, with minus signs, brackets and zeros before them."""
    around = sorted({size + off for size in (0, 10, LIMIT // 10, LIMIT, 2 * LIMIT, 10 * LIMIT, 2**63, 2**64, 10**30) for off in range(-3, 4) if size + off >= 0})
    for number in around:
        for before in ('', '0', '000', '0' * 30):
            for signs in range(5):
                yield '-' * signs + before + str(number)
        for opening in ('(', '-(', '(-', '--(', '-(-', '(--', '0-', '0--', '0+-', '1*', '1*-', '-1*', '0-(', '0+(-', '1/', '1/-'):
            yield opening + str(number) + ')' * opening.count('(')


def pairs():
    """Each operator on values around the limits."""
    values = [0, 1, 2, 3, 7, 10, 46340, 46341, 65535, 65536, LIMIT // 2, LIMIT - 2, LIMIT - 1]
    values = [*map(str, values), *(f'-{value}' for value in values), f'-{LIMIT}']
    for left, operator, right in itertools.product(values, '+-*/', values):
        yield f'{left}{operator}{right}'


def threes():
    """Each two operators, with brackets on either side and minus signs at each place."""
    for first, second in itertools.product('+-*/', repeat=2):
        for a, b, c in itertools.product(('7', '-7', '--3'), ('2', '-3', '(2)'), ('5', '-2', '-(4)')):
            yield f'{a}{first}{b}{second}{c}'
            yield f'({a}{first}{b}){second}{c}'
            yield f'{a}{first}({b}{second}{c})'
            yield f'-({a}{first}{b}{second}{c})'


def depths():
    """15 to 18 deep at each place of a text, and a bracket too many or too few."""
    for depth in (1, 2, 15, 16, 17, 18, 30):
        for inner in ('1', '-1', '1+1', '2*3-4', '1/0', '2147483648', '-2147483648', '', '+', '1+'):
            for opening, closing in (('(', ')'), ('-(', ')'), ('--(', ')'), ('1+(', ')'), ('1-(', ')'), ('2*(', ')'), ('(', '+1)'), ('(', '*1)'), ('(1)*(', ')')):
                yield deep(depth, inner, opening, closing)
        for text in (deep(depth, '1'), deep(depth, '1', '-('), deep(depth, '1', '2-(')):
            yield from (text + ')', '(' + text, text[:-1], text[1:], text + text, f'{text}+{text}', f'{text}*{deep(16, "2")}', f'{deep(17, "2")}-{text}', f'({text})-({text})')


def signs():
    """Rows of minus signs."""
    for row in (*range(1, 41), 99, 100, 255, 256, 257):
        for text in ('1', '0', '2147483647', '2147483648', '(1)', '(2147483647)', '(2147483648)', '(-2147483648)', '', ')', '1-', '+1'):
            yield '-' * row + text
            yield '5' + '-' * row + text


def valid(random_of, depth, sizes):
    """A text at random, its brackets at most so deep."""
    def number():
        kind = random_of.randrange(10)
        if kind < 6:
            return str(random_of.randrange(sizes))
        if kind < 8:
            return '0' * random_of.randrange(1, 4) + str(random_of.randrange(10))
        return str(random_of.choice((0, 1, LIMIT - 2, LIMIT - 1, LIMIT, LIMIT + 1, 65536)) if sizes > 1000 else random_of.randrange(1, 4))

    def factor(depth):
        sign = '-' * random_of.choice((0, 0, 0, 0, 0, 1, 1, 2, 3))
        return sign + (f'({total(depth - 1)})' if depth > 0 and random_of.randrange(5) < 2 else number())

    def total(depth):
        text = factor(depth)
        for _ in range(random_of.choice((0, 0, 1, 1, 2, 3))):
            text += random_of.choice('++--**/') + factor(depth)
        return text

    return total(depth)


def damaged(random_of, text):
    """A text with one byte missing, doubled, exchanged with the next, replaced or added, or cut."""
    if not text:
        return text
    at = random_of.randrange(len(text))
    front, byte, rest = text[:at], text[at], text[at + 1:]
    other = random_of.choice('0123456789+-*/()  ,.x')
    return random_of.choice((front + rest, front + byte + byte + rest, front + rest[:1] + byte + rest[1:], front + other + rest, front + other + byte + rest, front, byte + rest, text + other))


def at_random():
    random_of = random.Random(6)
    for n in range(8000):
        text = valid(random_of, n % 19, (4, 10, 100, 3000, 100_000)[n % 5])
        if len(text) < 900:
            yield text
            yield damaged(random_of, text)


def cut():
    """A few texts from each byte and to each byte, and without each byte."""
    for text in ('3*(40+2)-1', '-(-(7/2)--3)*(1+(2-(3*(4/5))))', '1-2147483648+(-2147483648)', deep(17, '12+3'), deep(16, '1', '-(')):
        for at in range(len(text)):
            yield from (text[:at], text[at:], text[:at] + text[at + 1:])


def every_byte():
    """Every byte value before, in, behind and in place of a text's bytes; the line feed makes two lines of it."""
    for text in ('1', '12+3', '3*(40+2)-1', '(-1)'):
        for byte in map(chr, range(256)):
            for at in range(len(text) + 1):
                yield text[:at] + byte + text[at:]
            for at in range(len(text)):
                yield text[:at] + byte + text[at + 1:]
    yield from map(chr, range(256))


def texts():
    """All of them, as bytes."""
    for source in (SETTLED, exhaustive(), numbers(), pairs(), threes(), depths(), signs(), at_random(), cut(), every_byte()):
        yield from (text.encode('latin-1') for text in source)
