"""The show file's numbers (REFERENCE 8): the one list of the scripts that write test data. The operations are 002's, in its order, from which a show file
has their numbers; they are not read from mrc_compiler, so that a wrong order there is noticed (tools/numbers.py)."""
import struct

OPERATIONS = """MOV PUSH POP XCHG IN OUT XLATB LEA LDS LES LAHF SAHF PUSHF POPF ADD ADC INC AAA DAA SUB SBB DEC NEG CMP AAS DAS MUL IMUL AAM DIV
IDIV AAD CBW CWD NOT SHL SHR SAR ROL ROR RCL RCR AND TEST OR XOR REP REPNE MOVSB MOVSW CMPSB CMPSW SCASB SCASW LODSB LODSW STOSB STOSW CALL JMP
RET JE JL JLE JB JBE JP JO JS JNE JNL JNLE JNB JNBE JNP JNO JNS LOOP LOOPZ LOOPNZ JCXZ INT INT1 INT3 INTO IRET CLC CMC STC CLD STD CLI STI HLT
WAIT ESC LOCK NOP SALC""".split()
KINDS = IMM, REG, SEG, MEM = range(4)
SIZES = UNSPECIFIED, BYTE, WORD = range(3)
JUMPS = NO_KIND, FAR, NEAR, SHORT = range(4)
BYTE_REGISTERS = 'AL CL DL BL AH CH DH BH'.split()
WORD_REGISTERS = 'AX CX DX BX SP BP SI DI'.split()
SEGMENTS = 'ES CS SS DS'.split()
PREFIXES = [0x26, 0x2E, 0x36, 0x3E]
BASES = 'BX+SI BX+DI BP+SI BP+DI SI DI BP BX'.split()
REPEATS = {'REPNE': 0xF2, 'REP': 0xF3}

MARK = b'FSQ'
# The versions of a file, each with the fewest and the most of its records, and the one whose records have a repeat; fsqlist and fsqform print no show of more
# than TEXT_RECORDS.
VERSIONS = {1: (0, 1000), 2: (1001, 8000), 3: (0, 8000)}
REPEAT_VERSION = 3
TEXT_RECORDS = 1000
# Behind the mark: version, origin, count.
HEADER = struct.Struct('<HHH')
# Operation, operand count, span; then each of two operands.
RECORD = struct.Struct('<BBII')
# Kind, size, prefix, displacement size, jump kind, mode, r/m, immediate, displacement, span.
OPERAND = struct.Struct('<BBBBBBBiiII')
FIRST, SECOND = RECORD.size, RECORD.size + OPERAND.size
# Where a record of version 3 has its repeat, a byte, behind which the other fields follow.
REPEAT = 2


def version_of(count):
    """The version that a file of so many records without repeats has; the last one above all of them, so that it is its count that is refused."""
    without = [version for version in VERSIONS if version != REPEAT_VERSION]
    return next((version for version in without if count <= VERSIONS[version][1]), without[-1])


def with_repeat(record, repeat):
    """A record of version 3, from one without a repeat."""
    return record[:REPEAT] + bytes([repeat]) + record[REPEAT:]
