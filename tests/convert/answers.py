"""What fsq186 has to answer: document 02, No. 12, in its sentences' order, over encoder.py. A part stands by itself where broken makes it wrong."""
import encoder
from encoder import Refused, encode, unpacked
from operations import FIRST, HEADER, IMM, JUMPS, KINDS, MARK, OPERAND, OPERATIONS, SECOND, SIZES

RECORD_BYTES = SECOND + OPERAND.size
HEADER_BYTES = len(MARK) + HEADER.size
SHIFTS = [operation for operation in encoder.SHIFTS if operation != '-']
IMM_AT = 7
NEAR, SHORT = (0xE8, 0xE9), (*range(0x70, 0x80), *range(0xE0, 0xE4), 0xEB)


def with_imm(record, operand, value):
    """The record with another immediate in its operand at 10 or 33."""
    at = operand + IMM_AT
    return record[:at] + (value % 2**32).to_bytes(4, 'little') + record[at + 4:]


class Paper:
    most_records = 1000
    counts = range(1, 32)
    shifts = SHIFTS
    near, short = NEAR, SHORT
    # the questions about records, in their order
    order = ('codes', 'taken', 'own', 'targets', 'loaded', 'fits')

    def converted(self, file, size=None):
        """The written file; or Refused, with a record or none. Into a slice of so many bytes, or one that holds it."""
        self.file, self.size = file, size
        self.origin, self.records = self.opened(file)
        for question in self.order:
            getattr(self, question)()
        return self.written

    # ---- the file itself
    def versions(self):
        return (1,)

    def opened(self, file):
        if file[:len(MARK)] != MARK:
            raise Refused(12)
        if len(file) < HEADER_BYTES:
            raise Refused(14)
        version, origin, count = HEADER.unpack_from(file, len(MARK))
        if version not in self.versions():
            raise Refused(13)
        if count > self.most_records or len(file) != HEADER_BYTES + RECORD_BYTES * count:
            raise Refused(14)
        return origin, [file[at:at + RECORD_BYTES] for at in range(HEADER_BYTES, len(file), RECORD_BYTES)]

    def codes(self):
        self.codes_of(self.records)

    def codes_of(self, records):
        for k, record in enumerate(records):
            pairs = [(record[0], OPERATIONS), *((record[at + place], codes) for at in (FIRST, SECOND) for place, codes in ((0, KINDS), (1, SIZES), (3, SIZES), (4, JUMPS)))]
            if any(value >= len(codes) for value, codes in pairs):
                raise Refused(15, k)

    # ---- shifts with an immediate count
    def is_counted(self, record):
        its = unpacked(record)
        return its.operation in self.shifts and its.second.kind == IMM

    def count(self, record):
        return unpacked(record).second.imm if self.is_counted(record) else 1

    def by_one(self, record):
        return with_imm(record, SECOND, 1) if self.is_counted(record) else record

    def copies(self, record):
        return self.count(record)

    def counts_taken(self, record):
        return self.count(record) in self.counts

    def taken(self):
        for k, record in enumerate(self.records):
            if not self.counts_taken(record):
                raise Refused(24, k)

    # ---- where the records stood
    def old_length(self, record, written):
        return len(written) + (self.count(record) > 1)

    def laid_out(self):
        """Each record's bytes at its old start, its count read as 1, and the old starts with the end. What is refused has no bytes, and is kept as the first refusal."""
        at, self.starts, self.bytes, self.refusal = self.origin, [], [], None
        for k, record in enumerate(self.records):
            self.starts.append(at % 65536)
            written = b''
            try:
                written = encode(unpacked(self.by_one(record)), at % 65536)
            except Refused as refused:
                self.refusal = self.refusal or Refused(refused.number, k)
            self.bytes.append(written)
            at += self.old_length(record, written)
        self.starts.append(at % 65536)
        self.gains = [0]
        for record, written in zip(self.records, self.bytes):
            self.gains.append(self.gains[-1] + self.copies(record) * len(written) - self.old_length(record, written))

    def own(self):
        self.laid_out()
        if self.refusal:
            raise self.refusal

    # ---- targets
    def opcode(self, k):
        return self.bytes[k][0] if self.bytes[k] else None

    def is_branch(self, k):
        return self.opcode(k) in self.near or self.opcode(k) in self.short

    def place(self, k):
        """The record, or the end, at the target of record k."""
        target = self.target(unpacked(self.records[k]).first.imm)
        return self.starts.index(target) if target in self.starts else None

    def target(self, imm):
        return imm % 65536

    def targets(self):
        for k in range(len(self.records)):
            if self.is_branch(k) and self.place(k) is None:
                raise Refused(25, k)

    def gain(self, k):
        return self.gains[self.place(k)]

    def moved(self, k):
        imm = unpacked(self.records[k]).first.imm + self.gain(k)
        return imm % 65536 if self.opcode(k) in self.near else imm

    # ---- the written file
    def new_record(self, k):
        return with_imm(self.records[k], FIRST, self.moved(k)) if self.is_branch(k) else self.by_one(self.records[k])

    def new_records(self):
        return [self.new_record(k) for k, record in enumerate(self.records) for _ in range(self.copies(record))]

    def new_file(self):
        records = self.new_records()
        return MARK + HEADER.pack(1, self.origin, len(records)) + b''.join(records)

    def loaded(self):
        """The loader's questions of the written file, into an image that holds it."""
        self.written = self.new_file()
        self.load()

    def load(self):
        origin, records = self.opened(self.written)
        self.codes_of(records)
        self.image = b''
        for k, record in enumerate(records):
            try:
                self.image += encode(unpacked(record), (origin + len(self.image)) % 65536)
            except Refused as refused:
                raise Refused(refused.number, k) from None

    def fits(self):
        if self.size is not None and len(self.written) > self.size:
            raise Refused(9)


def line(refused):
    """As fsq186 says it."""
    return f'refused {refused.number} {"-" if refused.record is None else refused.record}'
