"""The seven shifts and rotates of the SDM, by a count and written out bit by bit, and a small processor over them that runs the old image and the new one. A flag that the SDM leaves undefined is
None, and nothing may use it. The overflow flag is left out."""
import pathlib
import re

ROOT = pathlib.Path(__file__).resolve().parent.parent.parent
ROWS = ROOT / 'crates/shift_copies/proofs/Rows.antt'
NAMES = 'ROL ROR RCL RCR SHL SHR - SAR'.split()
SIZES = {8: 'byte', 16: 'word'}


def by_one(name, size, value, carry):
    """One step on the bits, the lowest first."""
    bits = [value >> n & 1 for n in range(size)]
    low, high = bits[0], bits[-1]
    bits, carry = {
        'ROL': ([high, *bits[:-1]], high),
        'ROR': ([*bits[1:], low], low),
        'RCL': ([carry, *bits[:-1]], high),
        'RCR': ([*bits[1:], carry], low),
        'SHL': ([0, *bits[:-1]], high),
        'SHR': ([*bits[1:], 0], low),
        'SAR': ([*bits[1:], high], low),
    }[name]
    return sum(bit << n for n, bit in enumerate(bits)), carry


def by_count(name, size, count, value, carry):
    """By 1 to 31, on the number: rotates take the count modulo the size, and through the carry modulo 9 or 17; SHL and SHR by the size or more leave the carry undefined."""
    assert 1 <= count <= 31
    if name in ('ROL', 'ROR'):
        left = (count if name == 'ROL' else -count) % size
        value = (value << left | value >> (size - left)) & 2**size - 1
        return value, value & 1 if name == 'ROL' else value >> size - 1
    if name in ('RCL', 'RCR'):
        left, whole = (count if name == 'RCL' else -count) % (size + 1), carry << size | value
        whole = (whole << left | whole >> (size + 1 - left)) & 2**(size + 1) - 1
        return whole & 2**size - 1, whole >> size
    if name == 'SHL':
        return (value << count) & 2**size - 1, value >> (size - count) & 1 if count < size else None
    if name == 'SHR':
        return value >> count, value >> (count - 1) & 1 if count < size else None
    signed = value - (value >> size - 1 << size)
    return signed >> count & 2**size - 1, signed >> (count - 1) & 1


def rows():
    """A processor's answers: operation, size, count; destination and carry before and behind."""
    for name, size, *numbers in re.findall(r'row ([a-z]{3}) (byte|word) (\d+) (\d+) (\d+) (\d+) (\d+)', ROWS.read_text()):
        yield name.upper(), 8 if size == 'byte' else 16, *map(int, numbers)


def faults_of_rows():
    """The model beside the processor."""
    met = set()
    for name, size, count, value, carry, new, new_carry in rows():
        met.add((name, size, count))
        found = by_count(name, size, count, value, carry)
        if found not in ((new, new_carry), (new, None)):
            yield f'{name} {SIZES[size]} {value},{carry} by {count}: a processor gives {new},{new_carry}, the model {found}'
        if count == 1 and by_one(name, size, value, carry) != (new, new_carry):
            yield f'{name} {SIZES[size]} {value},{carry} by one step is not what a processor gives'
    if len(met) != 7 * 2 * 31:
        yield f'a processor was asked for {len(met)} operations, sizes and counts'


def values(size):
    """Some at each edge, and one at random for each bit."""
    top = 2**size
    return sorted({0, 1, 2, 3, top // 2 - 1, top // 2, top // 2 + 1, top - 2, top - 1, 0x5A5A % top, 0xA5A5 % top, 0x1234 % top, 0xC3E1 % top, *(1 << n for n in range(size))})


def faults_of_copies(name, size, count, copies):
    """So many steps by one beside one shift by the count."""
    for value in values(size):
        for carry in (0, 1):
            new, new_carry = by_count(name, size, count, value, carry)
            found, found_carry = value, carry
            for _ in range(copies):
                found, found_carry = by_one(name, size, found, found_carry)
            if found != new or new_carry not in (None, found_carry):
                yield f'{name} {SIZES[size]} {value},{carry} by {count}: {new},{new_carry}, the copies give {found},{found_carry}'


class Undefined(Exception):
    """A flag is used that the SDM leaves open."""


class Machine:
    """Registers, memory, carry and zero flag, the stack (where a CALL came from is kept beside it) and what OUT put out. It runs an image at its origin to HLT, at most so many steps."""
    conditions = {0x72: lambda s: s.flag('carry') == 1, 0x73: lambda s: s.flag('carry') == 0, 0x74: lambda s: s.flag('zero') == 1, 0x75: lambda s: s.flag('zero') == 0}

    def __init__(self, image, origin):
        self.image, self.origin, self.ip = image, origin, origin
        self.words, self.memory, self.carry, self.zero = [0] * 8, {}, 0, 0
        self.stack, self.returns, self.out = [], [], []

    def flag(self, name):
        if getattr(self, name) is None:
            raise Undefined
        return getattr(self, name)

    def fetch(self, length=1, signed=False):
        at = (self.ip - self.origin) % 65536
        assert at + length <= len(self.image), 'ran out of the image'
        self.ip = (self.ip + length) % 65536
        return int.from_bytes(self.image[at:at + length], 'little', signed=signed)

    def register(self, number, size):
        return self.words[number] if size == 16 else self.words[number % 4] >> 8 * (number // 4) & 255

    def set_register(self, number, size, value):
        if size == 16:
            self.words[number] = value % 65536
        else:
            at = 8 * (number // 4)
            self.words[number % 4] = self.words[number % 4] & ~(255 << at) | value % 256 << at

    def operand(self, size, prefix):
        """The /n, and how the operand is read and written."""
        mod_rm = self.fetch()
        mode, digit, rm = mod_rm >> 6, mod_rm >> 3 & 7, mod_rm & 7
        if mode == 3:
            return digit, lambda: self.register(rm, size), lambda value: self.set_register(rm, size, value)
        bases = [] if (mode, rm) == (0, 6) else [(3, 6), (3, 7), (5, 6), (5, 7), (6,), (7,), (5,), (3,)][rm]
        length = 2 if mode == 2 or not bases else mode
        address = (sum(self.words[base] for base in bases) + (self.fetch(length, signed=True) if length else 0)) % 65536
        segment = {0x26: 'ES', 0x2E: 'CS', 0x36: 'SS', 0x3E: 'DS', None: 'SS' if 5 in bases else 'DS'}[prefix]
        places = [(segment, (address + n) % 65536) for n in range(size // 8)]

        def write(value):
            for n, place in enumerate(places):
                self.memory[place] = value >> 8 * n & 255
        return digit, lambda: sum(self.memory.get(place, 0) << 8 * n for n, place in enumerate(places)), write

    def shift(self, opcode, prefix):
        size = 16 if opcode & 1 else 8
        digit, read, write = self.operand(size, prefix)
        count = {0xC0: self.fetch, 0xD0: lambda: 1, 0xD2: lambda: self.register(1, 8)}[opcode & ~1]() & 31
        if not count:
            return
        name = NAMES[digit]
        # D0 and D1 by the step, so that copies and count are computed in two ways
        if opcode & ~1 == 0xD0:
            value, self.carry = by_one(name, size, read(), self.carry if name not in ('RCL', 'RCR') else self.flag('carry'))
        else:
            value, self.carry = by_count(name, size, count, read(), self.carry if name not in ('RCL', 'RCR') else self.flag('carry'))
        write(value)
        if name in ('SHL', 'SHR', 'SAR'):
            self.zero = int(value == 0)

    def arithmetic(self, size, digit, left, right):
        """ADD, ADC, SUB, CMP."""
        right += self.flag('carry') if digit == 2 else 0
        value = left + right if digit in (0, 2) else left - right
        assert digit in (0, 2, 5, 7)
        self.carry, self.zero = int(not 0 <= value < 2**size), int(value % 2**size == 0)
        return left if digit == 7 else value % 2**size

    def step(self):
        """One instruction; is it another than HLT?"""
        opcode = self.fetch()
        prefix = opcode if opcode in (0x26, 0x2E, 0x36, 0x3E) else None
        if prefix:
            opcode = self.fetch()
        if opcode in (0xC0, 0xC1, 0xD0, 0xD1, 0xD2, 0xD3):
            self.shift(opcode, prefix)
        elif 0xB0 <= opcode <= 0xBF:
            size = 16 if opcode & 8 else 8
            self.set_register(opcode & 7, size, self.fetch(size // 8))
        elif opcode in (0xC6, 0xC7):
            size = 16 if opcode & 1 else 8
            _, _, write = self.operand(size, prefix)
            write(self.fetch(size // 8))
        elif opcode in (0x88, 0x89, 0x8A, 0x8B):
            size = 16 if opcode & 1 else 8
            number, read, write = self.operand(size, prefix)
            if opcode & 2:
                self.set_register(number, size, read())
            else:
                write(self.register(number, size))
        elif opcode in (0x80, 0x81, 0x83):
            size = 16 if opcode & 1 else 8
            digit, read, write = self.operand(size, prefix)
            right = self.fetch(signed=True) % 65536 if opcode == 0x83 else self.fetch(size // 8)
            write(self.arithmetic(size, digit, read(), right))
        elif 0x40 <= opcode <= 0x4F:
            value = (self.words[opcode & 7] + (1 if opcode < 0x48 else -1)) % 65536
            self.words[opcode & 7], self.zero = value, int(value == 0)
        elif 0x50 <= opcode <= 0x57:
            self.stack.append(self.words[opcode & 7])
        elif 0x58 <= opcode <= 0x5F:
            self.words[opcode & 7] = self.stack.pop()
        elif opcode in self.conditions or opcode in (0xE2, 0xE3, 0xEB):
            distance = self.fetch(signed=True)
            if opcode == 0xE2:
                self.words[1] = (self.words[1] - 1) % 65536
            taken = self.conditions[opcode](self) if opcode in self.conditions else {0xE2: self.words[1] != 0, 0xE3: self.words[1] == 0, 0xEB: True}[opcode]
            self.ip = (self.ip + distance * taken) % 65536
        elif opcode in (0xE8, 0xE9):
            distance = self.fetch(2)
            if opcode == 0xE8:
                self.stack.append('return')
                self.returns.append(self.ip)
            self.ip = (self.ip + distance) % 65536
        elif opcode == 0xC3:
            assert self.stack.pop() == 'return'
            self.ip = self.returns.pop()
        elif opcode == 0xE6:
            self.out.append((self.fetch(), self.words[0] & 255))
        elif opcode in (0xF8, 0xF9):
            self.carry = opcode & 1
        elif opcode == 0xF5:
            self.carry = 1 - self.flag('carry')
        else:
            assert opcode == 0xF4, f'{opcode:02X} is not run'
            return False
        return True

    def run(self, budget=100_000):
        """What can be seen of it at HLT."""
        for _ in range(budget):
            if not self.step():
                memory = {place: value for place, value in self.memory.items() if value}
                return {'registers': self.words, 'memory': memory, 'carry': self.carry, 'zero': self.zero, 'out': self.out, 'stack': self.stack}
        raise AssertionError('HLT is not reached')


def difference(old, new):
    """What differs at the end; a carry that was undefined may be anything."""
    return [name for name in old if old[name] != new[name] and not (name == 'carry' and old[name] is None)]
