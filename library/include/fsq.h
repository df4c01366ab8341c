/* The 8086 encoder for show files, as C (from C99) and C++ (from C++11) call it: libfsq.a, for x86-64 Linux. tools/staticlib writes it to
 * target/staticlib, where libforeign.a is the same archive under the name of the crate that its functions are from. `make -C library install` and
 * library/CMakeLists.txt install header, library and fsq.pc, its pkg-config file.
 *
 * This header has, in this order: the numbers and offsets; the functions of the library; and over them inline functions, which a program
 * needs no offsets for: operands (fsq_reg, fsq_mem, ..), records (fsq_none, fsq_one, fsq_two), records with a repeat (fsq_with_repeat), calls whose
 * answer is the length (fsq_encode_at, fsq_shortest_at, fsq_list_at, fsq_form_at, fsq_read_at, fsq_load_show, fsq_check_show, fsq_compile_cues, fsq_convert_show),
 * the value of a sum (fsq_evaluate_text), a run on the desk (fsq_run_image), fields, names, and the writing of a show file (fsq_write_show).
 * library/examples/one.c, show.c, check.c, cues.c, desk.c and convert.c use them.
 *
 * The library's functions work on slices that the caller lends: an address and a length. For all of them:
 * - A slice of any length is safe. One of length 0 may have any address that is not null.
 * - No two slices of one call may overlap.
 * - Nothing is written behind what is said here, and on a refusal nothing but the report, or the result of a run.
 * - Nothing is allocated, nothing is kept between calls, and several threads may call at once.
 * - The answer is FSQ_DONE or the refusal's number. Numbers of more than one byte are little-endian.
 */
#ifndef FSQ_H
#define FSQ_H

#include <stddef.h>
#include <stdint.h>

/* The version of this header. Another major one may take a name away, another minor one adds some or raises a limit. */
#define FSQ_VERSION_MAJOR 2
#define FSQ_VERSION_MINOR 9

#ifdef __cplusplus
extern "C" {
#endif

/* The answer of every function. A refusal's span is the one that the record gives to the operand or to the instruction. */
enum fsq_answer {
    FSQ_DONE = 0,                         /* Nothing is refused. */
    FSQ_INVALID_OPERANDS = 1,             /* No form of the operation takes these operands. */
    FSQ_OPERAND_SIZE_NOT_SPECIFIED = 2,   /* No operand states whether a byte or a word is meant. */
    FSQ_OPERAND_SIZES_DO_NOT_MATCH = 3,   /* One operand is a byte and the other a word. */
    FSQ_INVALID_OPERAND_SIZE = 4,         /* The operation does not take an operand of this size, or none is stated. */
    FSQ_IMMEDIATE_OUT_OF_RANGE = 5,       /* An immediate, address, port or segment is outside low to high; value has it. */
    FSQ_RELATIVE_JUMP_OUT_OF_RANGE = 6,   /* The target is too far for a short jump; value has the distance. */
    FSQ_NOT_SUPPORTED = 7,                /* The encoder does not have this instruction: INT1 or ESC. */
    FSQ_NOT_WELL_FORMED = 8,              /* The operand count is above 2, or an operand's fields contradict each other. */
    FSQ_SLICE_TOO_SHORT = 9,              /* The lent slice is too short for what is to be written. */
    FSQ_NOT_AN_INSTRUCTION = 10,          /* No instruction begins with these bytes, whatever follows them. */
    FSQ_NOT_COMPLETE = 11,                /* The bytes are the front of an instruction, and more are needed. */
    FSQ_NO_MARK = 12,                     /* The file does not begin with "FSQ". */
    FSQ_WRONG_VERSION = 13,               /* The file's version is not 1, 2 or 3; of fsq_convert, not 1. */
    FSQ_WRONG_LENGTH = 14,                /* The file is not as long as its count says, its version does not take this count, or a record has not 56 or 57 bytes; of fsq_convert also
                                             that the written file would have more than 1,000 records. */
    FSQ_UNKNOWN_CODE = 15,                /* A record has an operation, kind, size or jump kind that does not exist. */
    FSQ_NOT_A_SUM = 16,                   /* The text is not a sum, as fsq_evaluate has it. */
    FSQ_TOO_DEEP = 17,                    /* The sum is more than 16 brackets deep. */
    FSQ_VALUE_OUT_OF_RANGE = 18,          /* A value on the way is outside -2,147,483,648 to 2,147,483,647, or a divisor is 0. */
    FSQ_NOT_A_CUE_LIST = 19,              /* The length is not a multiple of 4, or there are more than 200 cues. */
    FSQ_NO_DELAY = 20,                    /* A cue has a delay of 0. */
    FSQ_NOT_CARRIED_OUT = 21,             /* The next bytes inside the image are no instruction, or one that a run does not carry out. */
    FSQ_BUDGET_SPENT = 22,                /* The whole budget is carried out, and HLT was not met. */
    FSQ_INVALID_REPEAT = 23,              /* The repeat is not 0, F2 or F3 (hexadecimal), or the operation is no string operation and has one. */
    FSQ_SHIFT_COUNT_OUT_OF_RANGE = 24,    /* A shift or rotate of a show to convert has an immediate count outside 1 to 31. */
    FSQ_NO_RECORD_AT_TARGET = 25          /* A branch goes to where no record starts, or stood in a show to convert, and not to the end of the show. */
};

/* Lengths in bytes. */
enum fsq_length {
    FSQ_RECORD_LENGTH = 56,         /* a record of a show file of version 1 or 2 */
    FSQ_REPEAT_RECORD_LENGTH = 57,  /* a record with a repeat: of a show file of version 3 */
    FSQ_REPORT_LENGTH = 28,         /* a report */
    FSQ_STRING_LENGTH = 7,          /* the longest instruction: a slice of so many bytes takes every one */
    FSQ_READING_LENGTH = 24,        /* a read instruction */
    FSQ_ENTRY_LENGTH = 8,           /* an entry of a list */
    FSQ_LIST_LENGTH = 96,           /* the longest list: twelve entries */
    FSQ_FORM_LENGTH = 64,           /* the line of a form: a slice of so many bytes takes every one */
    FSQ_RUN_RESULT_LENGTH = 16,     /* the result of a run */
    FSQ_REACH_LENGTH = 65536,       /* what a run reaches of an image: its later bytes are not looked at */
    FSQ_HEADER_LENGTH = 9,          /* what stands before the records of a show file */
    FSQ_OPERAND_LENGTH = 23,        /* an operand of a record */
    FSQ_IMAGE_LENGTH = 56000,       /* the longest image: a slice of so many bytes takes every one */
    FSQ_FILE_LENGTH = 456009,       /* the longest show file, of version 3 */
    FSQ_CONVERTED_LENGTH = 56009,   /* the longest file that fsq_convert writes, of version 1: a slice of so many bytes takes every one */
    FSQ_CUE_LENGTH = 4,             /* a cue */
    FSQ_CUE_CODE_LENGTH = 9,        /* the four instructions of a cue; behind the last cue's stands HLT, one byte */
    FSQ_CUE_IMAGE_LENGTH = 1801     /* the image of 200 cues: a slice of so many bytes takes every one of cues */
};

/* Limits, and the versions of a show file: one in which a record has a repeat is of version 3, and of the others the count decides. */
enum fsq_limit {
    FSQ_MOST_RECORDS = 8000,   /* of a show file */
    FSQ_SHORT_RECORDS = 1000,  /* the most of a file of version 1, and of one that fsqlist and fsqform print */
    FSQ_MOST_ENTRIES = 12,     /* of a list */
    FSQ_MOST_DEPTH = 16,       /* brackets of a sum, one within the other */
    FSQ_MOST_CUES = 200,       /* of a list */
    FSQ_FILE_VERSION = 1,      /* up to FSQ_SHORT_RECORDS records of 56 bytes */
    FSQ_LONG_VERSION = 2,      /* above FSQ_SHORT_RECORDS, of 56 bytes */
    FSQ_REPEAT_VERSION = 3     /* any number to FSQ_MOST_RECORDS, of 57 bytes; all repeats may be 0 */
};

/* The record in a report that names none. */
#define FSQ_NO_RECORD 4294967295u

/* Where the fields of a report stand. A field that the answer does not give is 0. */
enum fsq_report {
    FSQ_REPORT_LENGTH_AT = 0,       /* u32: the length or count that the function answers */
    FSQ_REPORT_SPAN_START_AT = 4,   /* u32: the span of a refusal from 1 to 9, or 23 */
    FSQ_REPORT_SPAN_END_AT = 8,     /* u32 */
    FSQ_REPORT_VALUE_AT = 12,       /* i32: the value of a refusal 5, the distance of a refusal 6; of fsq_evaluate the sum's value */
    FSQ_REPORT_LOW_AT = 16,         /* i32: the limits of a refusal 5 */
    FSQ_REPORT_HIGH_AT = 20,        /* i32 */
    FSQ_REPORT_RECORD_AT = 24,      /* u32: the record, from 0, that fsq_load, fsq_check or fsq_convert refuses, else FSQ_NO_RECORD */
    /* The same, as version 1 named them. */
    FSQ_TOLD_LENGTH_AT = FSQ_REPORT_LENGTH_AT, FSQ_TOLD_SPAN_START_AT = FSQ_REPORT_SPAN_START_AT, FSQ_TOLD_SPAN_END_AT = FSQ_REPORT_SPAN_END_AT,
    FSQ_TOLD_VALUE_AT = FSQ_REPORT_VALUE_AT, FSQ_TOLD_LOW_AT = FSQ_REPORT_LOW_AT, FSQ_TOLD_HIGH_AT = FSQ_REPORT_HIGH_AT,
    FSQ_TOLD_RECORD_AT = FSQ_REPORT_RECORD_AT
};

/* Where the fields of a run's result stand. Both are 0 where the run is refused. */
enum fsq_run_result {
    FSQ_RUN_COUNT_AT = 0,           /* u64: the instructions carried out, HLT among them */
    FSQ_RUN_LOG_LENGTH_AT = 8       /* u64: the bytes of the log's pairs, two a pair */
};

/* Where the fields of a show file's header stand. Record k, from 0, stands at 9 + 56 * k, in version 3 at 9 + 57 * k. */
enum fsq_header {
    FSQ_HEADER_MARK_AT = 0,      /* 3 bytes: 46 53 51 (hexadecimal), "FSQ" */
    FSQ_HEADER_VERSION_AT = 3,   /* u16: FSQ_FILE_VERSION, FSQ_LONG_VERSION above FSQ_SHORT_RECORDS, or FSQ_REPEAT_VERSION */
    FSQ_HEADER_ORIGIN_AT = 5,    /* u16: the offset of the first record */
    FSQ_HEADER_COUNT_AT = 7      /* u16: records, 0 to 1,000 of version 1, 1,001 to 8,000 of version 2, 0 to 8,000 of version 3 */
};

/* Where the fields of a cue stand: switch a port to a mask after a delay. */
enum fsq_cue_field {
    FSQ_CUE_DELAY_AT = 0,    /* u16: how often LOOP is carried out, 1 to 65,535 */
    FSQ_CUE_PORT_AT = 2,     /* u8: where the mask goes */
    FSQ_CUE_MASK_AT = 3      /* u8 */
};

/* Where the fields of a record of 56 bytes stand. Its two operands stand at 10 and 33; an operand that the instruction does not have is all zeros.
 * A record of 57 bytes has its repeat behind the count, and what stands here behind it a byte further: the span at 3 and 7, the operands at 11 and 34. */
enum fsq_record {
    FSQ_OPERATION_AT = 0,      /* u8: enum fsq_operation */
    FSQ_COUNT_AT = 1,          /* u8: operands, 0 to 2 */
    FSQ_REPEAT_AT = 2,         /* u8: enum fsq_repeat, in a record of 57 bytes alone */
    FSQ_SPAN_START_AT = 2,     /* u32: where the instruction stands in the source; a refusal gives it back */
    FSQ_SPAN_END_AT = 6,       /* u32 */
    FSQ_FIRST_AT = 10,         /* the first operand, 23 bytes */
    FSQ_SECOND_AT = 33         /* the second */
};

/* Where the fields of an operand stand, from its first byte.
 *
 * An operand is well formed, and not refused with FSQ_NOT_WELL_FORMED, where its fields are these; what is not named here is free:
 *                       FSQ_IMM       FSQ_REG       FSQ_SEG       FSQ_MEM
 *   prefix              0             0             0             0, 26, 2E, 36 or 3E (hexadecimal)
 *   mode                0             3             3             0, 1 or 2
 *   r/m                 0             0 to 7        0 to 3        0 to 7
 *   displacement size   unspecified   unspecified   unspecified   mode 0 unspecified, but word with r/m 6; mode 1 byte; mode 2 word
 *   displacement        free          0             0             unspecified 0, byte -128 to 127, word -32,768 to 65,535
 *   size                free          free          word          free
 * Both operands of a record are asked, also one that the operation does not use. The inline functions below make no other operands.
 */
enum fsq_operand {
    FSQ_KIND_AT = 0,                 /* u8: enum fsq_kind */
    FSQ_SIZE_AT = 1,                 /* u8: enum fsq_size, the size of the value */
    FSQ_PREFIX_AT = 2,               /* u8: the segment prefix of memory, 26, 2E, 36 or 3E (hexadecimal), or 0 */
    FSQ_DISPLACEMENT_SIZE_AT = 3,    /* u8: enum fsq_size */
    FSQ_JUMP_AT = 4,                 /* u8: enum fsq_jump */
    FSQ_MODE_AT = 5,                 /* u8: ModRM's mod, 3 for a register, 0 to 2 for memory, 0 for an immediate */
    FSQ_RM_AT = 6,                   /* u8: the register's number, or ModRM's r/m for memory, or 0 */
    FSQ_IMMEDIATE_AT = 7,            /* i32: an immediate; a branch's target */
    FSQ_DISPLACEMENT_AT = 11,        /* i32: of memory; a far target's segment */
    FSQ_OPERAND_SPAN_START_AT = 15,  /* u32 */
    FSQ_OPERAND_SPAN_END_AT = 19     /* u32 */
};

enum fsq_kind { FSQ_IMM = 0, FSQ_REG = 1, FSQ_SEG = 2, FSQ_MEM = 3 };
enum fsq_size { FSQ_UNSPECIFIED = 0, FSQ_BYTE = 1, FSQ_WORD = 2 };
/* How far a branch goes. JMP without a kind is written as a near one; CALL of kind FSQ_FAR takes its target's offset and segment from memory. */
enum fsq_jump { FSQ_NO_KIND = 0, FSQ_FAR = 1, FSQ_NEAR = 2, FSQ_SHORT = 3 };
/* What is written before a string operation, MOVSB to STOSW: its byte. The operations FSQ_REPNE and FSQ_REP are the same bytes as instructions by themselves. */
enum fsq_repeat { FSQ_REPEAT_NONE = 0, FSQ_REPEAT_REPNE = 0xF2, FSQ_REPEAT_REP = 0xF3 };

/* Where the fields of a read instruction stand. Its two operands stand at 8 and 16. */
enum fsq_reading {
    FSQ_READ_LENGTH_AT = 0,      /* u8: bytes of the instruction */
    FSQ_READ_OPERATION_AT = 1,   /* u8: enum fsq_operation */
    FSQ_READ_WIDTH_AT = 2,       /* u8: enum fsq_size, FSQ_UNSPECIFIED where the form has none, as a far CALL through memory */
    FSQ_READ_OPCODE_AT = 3,      /* u8: the form's opcode, without the register of a +r or +s */
    FSQ_READ_EXTENSION_AT = 4,   /* u8: enum fsq_extension; 8 + n for /n */
    FSQ_READ_REPEAT_AT = 5,      /* u8: enum fsq_repeat */
    FSQ_READ_FIRST_AT = 8,       /* the first operand, 8 bytes */
    FSQ_READ_SECOND_AT = 16      /* the second */
};

/* Where the fields of a read operand stand, from its first byte. */
enum fsq_read_operand {
    FSQ_READ_KIND_AT = 0,           /* u8: enum fsq_read_kind */
    FSQ_READ_NUMBER_AT = 1,         /* u8: the register's number; of memory the base as r/m counts it, 8 for an address alone */
    FSQ_READ_SEGMENT_AT = 2,        /* u8: the segment in effect of memory, 0 ES, 1 CS, 2 SS, 3 DS */
    FSQ_READ_VALUE_AT = 4,          /* u16: displacement, immediate, or the target's offset */
    FSQ_READ_FAR_SEGMENT_AT = 6     /* u16: a far target's segment */
};

enum fsq_read_kind {
    FSQ_READ_NONE = 0, FSQ_READ_REGISTER = 1, FSQ_READ_SEGMENT_REGISTER = 2, FSQ_READ_MEMORY = 3, FSQ_READ_IMMEDIATE = 4,
    FSQ_READ_NEAR = 5, FSQ_READ_FAR = 6, FSQ_READ_ONE = 7 /* a shift's count of 1 */
};

enum fsq_extension {
    FSQ_EXTENSION_NONE = 0, FSQ_EXTENSION_PLUS_REGISTER = 1, FSQ_EXTENSION_PLUS_SEGMENT = 2, FSQ_EXTENSION_MODRM = 3,
    FSQ_EXTENSION_0A = 4, /* AAM and AAD: a second byte 0A */
    FSQ_EXTENSION_DIGIT = 8 /* /0; /n is 8 + n, to 15 */
};

/* The registers. Those of a byte are 0 to 7 and those of a word 8 to 15; the number in a record or a reading is the value modulo 8. */
enum fsq_register {
    FSQ_AL = 0, FSQ_CL, FSQ_DL, FSQ_BL, FSQ_AH, FSQ_CH, FSQ_DH, FSQ_BH, FSQ_AX, FSQ_CX, FSQ_DX, FSQ_BX, FSQ_SP, FSQ_BP, FSQ_SI, FSQ_DI
};

/* The segment registers, by their numbers. */
enum fsq_segment { FSQ_ES = 0, FSQ_CS, FSQ_SS, FSQ_DS };

/* What memory is addressed by: r/m, or for an address alone FSQ_BASE_NONE, as in a read operand's number. */
enum fsq_base {
    FSQ_BASE_BX_SI = 0, FSQ_BASE_BX_DI, FSQ_BASE_BP_SI, FSQ_BASE_BP_DI, FSQ_BASE_SI, FSQ_BASE_DI, FSQ_BASE_BP, FSQ_BASE_BX, FSQ_BASE_NONE
};

/* The operations, numbered from 0. */
enum fsq_operation {
    FSQ_MOV = 0, FSQ_PUSH, FSQ_POP, FSQ_XCHG, FSQ_IN, FSQ_OUT, FSQ_XLATB, FSQ_LEA, FSQ_LDS, FSQ_LES, FSQ_LAHF, FSQ_SAHF,
    FSQ_PUSHF, FSQ_POPF, FSQ_ADD, FSQ_ADC, FSQ_INC, FSQ_AAA, FSQ_DAA, FSQ_SUB, FSQ_SBB, FSQ_DEC, FSQ_NEG, FSQ_CMP,
    FSQ_AAS, FSQ_DAS, FSQ_MUL, FSQ_IMUL, FSQ_AAM, FSQ_DIV, FSQ_IDIV, FSQ_AAD, FSQ_CBW, FSQ_CWD, FSQ_NOT, FSQ_SHL,
    FSQ_SHR, FSQ_SAR, FSQ_ROL, FSQ_ROR, FSQ_RCL, FSQ_RCR, FSQ_AND, FSQ_TEST, FSQ_OR, FSQ_XOR, FSQ_REP, FSQ_REPNE,
    FSQ_MOVSB, FSQ_MOVSW, FSQ_CMPSB, FSQ_CMPSW, FSQ_SCASB, FSQ_SCASW, FSQ_LODSB, FSQ_LODSW, FSQ_STOSB, FSQ_STOSW,
    FSQ_CALL, FSQ_JMP, FSQ_RET, FSQ_JE, FSQ_JL, FSQ_JLE, FSQ_JB, FSQ_JBE, FSQ_JP, FSQ_JO, FSQ_JS, FSQ_JNE, FSQ_JNL,
    FSQ_JNLE, FSQ_JNB, FSQ_JNBE, FSQ_JNP, FSQ_JNO, FSQ_JNS, FSQ_LOOP, FSQ_LOOPZ, FSQ_LOOPNZ, FSQ_JCXZ, FSQ_INT,
    FSQ_INT1, FSQ_INT3, FSQ_INTO, FSQ_IRET, FSQ_CLC, FSQ_CMC, FSQ_STC, FSQ_CLD, FSQ_STD, FSQ_CLI, FSQ_STI, FSQ_HLT,
    FSQ_WAIT, FSQ_ESC, FSQ_LOCK, FSQ_NOP, FSQ_SALC
};

/* Encodes a record at an offset.
 *   record, record_len   the record: 56 bytes, or 57 with a repeat
 *   offset               where its bytes are to stand in the segment
 *   out, out_len         gets the bytes at its front; its later bytes stay
 *   report, report_len   gets the report where it has 28 bytes, else stays as it is; its length is the number of bytes, 1 to 7
 *   answers              FSQ_DONE; FSQ_WRONG_LENGTH where record_len is not 56 or 57, then FSQ_UNKNOWN_CODE, then 1 to 8 or FSQ_INVALID_REPEAT of the
 *                        record, then FSQ_SLICE_TOO_SHORT
 */
uint8_t fsq_encode(const uint8_t *record, size_t record_len, uint16_t offset, uint8_t *out, size_t out_len, uint8_t *report,
                   size_t report_len);

/* Encodes a record at an offset by the first string that fsq_list gives for it: none that is the same instruction there is shorter, and of the same
 * length none is lower by its first differing byte. Two records that are the same instruction get the same bytes.
 *   record, record_len   the record, as of fsq_encode
 *   offset               where its bytes are to stand in the segment
 *   out, out_len         gets the bytes at its front; its later bytes stay
 *   report, report_len   as of fsq_encode
 *   answers              FSQ_DONE, or as fsq_encode refuses, and the same records wherever out_len is 7 or more; FSQ_SLICE_TOO_SHORT where out_len is
 *                        below the length of what it would write
 */
uint8_t fsq_shortest(const uint8_t *record, size_t record_len, uint16_t offset, uint8_t *out, size_t out_len, uint8_t *report,
                     size_t report_len);

/* Lists all strings of bytes that are, at an offset, the same instruction as a record's: none missing, and none beside them.
 *   record, record_len   the record, as of fsq_encode
 *   offset               where the strings are to stand in the segment
 *   out, out_len         gets, where it has 96 bytes, the entries from its front, 8 bytes each: a string's length, its bytes, zeros; shorter
 *                        strings first, equal lengths by their first differing byte. Its later bytes stay
 *   report, report_len   gets the report where it has 28 bytes, else stays as it is; its length is the number of entries, 1 to 12
 *   answers              FSQ_DONE, or as fsq_encode refuses; FSQ_SLICE_TOO_SHORT where out_len is below 96
 */
uint8_t fsq_list(const uint8_t *record, size_t record_len, uint16_t offset, uint8_t *out, size_t out_len, uint8_t *report,
                 size_t report_len);

/* Tells by which form a record is written at an offset, or which question refuses it, as the line that fsqform prints under the record's.
 *   record, record_len   the record, as of fsq_encode
 *   offset               where its bytes are to stand in the segment
 *   out, out_len         gets, where it has 64 bytes, the line in ASCII with its line feed at its front; its later bytes stay.
 *                        `form 83 /0 Reg:Word Imm:Unspecified -128..127`: the opcode as written, its digit where it has one, kind and stated size of
 *                        each operand that the form uses, and the limits of the immediate, or `-` where there are none.
 *                        `question 6` where the record is refused: the first of the questions 1 to 7 (docs/REFERENCE.md, 5) whose answer is no
 *   report, report_len   gets the report where it has 28 bytes, else stays as it is; its length is that of the line, with its line feed
 *   answers              FSQ_DONE, also where the record is refused; FSQ_WRONG_LENGTH and FSQ_UNKNOWN_CODE as fsq_encode, then
 *                        FSQ_SLICE_TOO_SHORT where out_len is below 64
 */
uint8_t fsq_form(const uint8_t *record, size_t record_len, uint16_t offset, uint8_t *out, size_t out_len, uint8_t *report,
                 size_t report_len);

/* Reads one instruction at the front of some bytes; what follows it is not looked at, but for the byte behind F2 or F3 (hexadecimal): before a string
 * operation they are its repeat, else an instruction of one byte.
 *   bytes, bytes_len     the bytes
 *   offset               where they stand in the segment: near targets are answered for it
 *   out, out_len         gets the read instruction at its front where it has 24 bytes, else stays as it is; its later bytes stay
 *   answers              FSQ_DONE, FSQ_NOT_AN_INSTRUCTION or FSQ_NOT_COMPLETE
 */
uint8_t fsq_read(const uint8_t *bytes, size_t bytes_len, uint16_t offset, uint8_t *out, size_t out_len);

/* Loads a show file: the bytes of its records, one after the other from its origin on.
 * The file: "FSQ", version u16, origin u16, count u16, then so many records. A file of version 1 has 0 to 1,000, one of version 2 1,001 to 8,000, of 56
 * bytes each; one of version 3 has 0 to 8,000, of 57 bytes each.
 *   file, file_len       the whole file
 *   image, image_len     gets the records' bytes at its front; its later bytes stay
 *   report, report_len   gets the report where it has 28 bytes, else stays as it is; its length is that of the image, 0 to 56,000
 *   answers              FSQ_DONE; FSQ_NO_MARK, FSQ_WRONG_VERSION or FSQ_WRONG_LENGTH of the file; FSQ_UNKNOWN_CODE of the first record that has
 *                        one; 1 to 8 or FSQ_INVALID_REPEAT of the first record that is refused; FSQ_SLICE_TOO_SHORT of the first record that the image
 *                        does not hold
 */
uint8_t fsq_load(const uint8_t *file, size_t file_len, uint8_t *image, size_t image_len, uint8_t *report, size_t report_len);

/* Evaluates a sum, as delays are written: `3*(40+2)-1` is 125.
 * The text: decimal numbers, + - * /, unary minus and brackets, at most 16 of them one within the other; no blanks. Unary minus binds
 * closest, then * and /, then + and -, equals from the left. A division cuts toward zero. Every value on the way, also a number, is
 * -2,147,483,648 to 2,147,483,647; a minus directly before digits is taken with them.
 *   text, text_len       the text in ASCII, with no line feed and no 0 behind it
 *   report, report_len   gets the report where it has 28 bytes, else stays as it is; its value is the sum's, and its length 0
 *   answers              FSQ_DONE; FSQ_NOT_A_SUM, then FSQ_TOO_DEEP, then FSQ_VALUE_OUT_OF_RANGE, each without a span (docs/REFERENCE.md, 12)
 */
uint8_t fsq_evaluate(const uint8_t *text, size_t text_len, uint8_t *report, size_t report_len);

/* Compiles cues to the image of a field module, from origin 0: for each cue MOV CX,delay; LOOP to itself; MOV AL,mask; OUT port,AL; and HLT at the end.
 *   cues, cues_len       the cues, 0 to 200, of 4 bytes each: delay u16, port, mask
 *   image, image_len     gets the program at its front, 9 bytes a cue and 1; its later bytes stay
 *   report, report_len   gets the report where it has 28 bytes, else stays as it is; its length is that of the program, 1 to 1,801
 *   answers              FSQ_DONE; FSQ_NOT_A_CUE_LIST where cues_len is not a multiple of 4 or above 800, then FSQ_NO_DELAY where a delay is 0, then
 *                        FSQ_SLICE_TOO_SHORT, each without a span (docs/REFERENCE.md, 14)
 */
uint8_t fsq_cue(const uint8_t *cues, size_t cues_len, uint8_t *image, size_t image_len, uint8_t *report, size_t report_len);

/* Runs an image on the desk, from offset 0 on, with all registers 0: the instructions at the offset, one by one, as the 8086 carries them out. Those are
 * MOV of an immediate to a register (B0 to BF, and C6 and C7 where the ModRM byte names a register), LOOP (E2), JMP (E9, EB), OUT of AL to an immediate
 * port (E6) and HLT (F4). Between two instructions the offset wraps at 65,536; an instruction lies whole inside the image.
 *   image, image_len     the image; of a longer one the first 65,536 bytes
 *   budget               how many instructions are carried out at most, HLT among them. An image of fsq_cue halts on the last one of the sum of (delay + 3),
 *                        plus 1
 *   log, log_len         gets, where the run halts, a pair for each OUT from its front, its port and AL; its later bytes stay. On a refusal all of them stay
 *   out, out_len         gets the result where it has 16 bytes, else stays as it is: the instructions carried out and the length of the pairs, or zeros
 *   answers              FSQ_DONE; else, asked before each instruction and in this order, FSQ_BUDGET_SPENT where the budget is carried out,
 *                        FSQ_NOT_CARRIED_OUT where no such instruction is next, FSQ_SLICE_TOO_SHORT where it is OUT and no two bytes of the log are left
 */
uint8_t fsq_run(const uint8_t *image, size_t image_len, uint32_t budget, uint8_t *log, size_t log_len, uint8_t *out, size_t out_len);

/* Checks the targets of a show: every near one, those of Jcc, E0 to E3, E8, E9 and EB, modulo 65,536, has to be the start of a record or the end of the show.
 *   file, file_len       the file, as fsq_load's, of any count that it takes
 *   report, report_len   gets the report where it has 28 bytes, else stays as it is. Its length is that of the image, as of fsq_load, its record the refused one.
 *                        Of FSQ_NO_RECORD_AT_TARGET its record is the first whose target is neither, its value the target, 0 to 65,535, and its length the
 *                        record that the target falls into, FSQ_NO_RECORD where no record has a byte there
 *   answers              FSQ_DONE; else what fsq_load refuses the file with, but for FSQ_SLICE_TOO_SHORT, as no image is written; then FSQ_NO_RECORD_AT_TARGET
 */
uint8_t fsq_check(const uint8_t *file, size_t file_len, uint8_t *report, size_t report_len);

/* Converts a show from a 186 module, whose shifts and rotates may have an immediate count, to a show that the 8086 runs: a count of 2 to 31 becomes that many
 * records with count 1, and each Jcc, E0 to E3, E8, E9 and EB goes to where its old target then stands; all else is copied.
 *   file, file_len       the file, of version 1. Its records stood one behind the other from its origin on, a shift by 2 to 31 with a byte more, its count
 *   out, out_len         gets the written file at its front, of version 1 and the same origin; its later bytes stay. On a refusal all of them stay
 *   report, report_len   gets the report where it has 28 bytes, else stays as it is. Its length is that of the written file, 9 to 56,009. Its record is
 *                        - of FILE for FSQ_UNKNOWN_CODE, FSQ_SHIFT_COUNT_OUT_OF_RANGE, FSQ_NO_RECORD_AT_TARGET and what the encoder refuses a record with
 *                          where it stood;
 *                        - of the WRITTEN file, in which each copy counts, for what the loader refuses there: FSQ_RELATIVE_JUMP_OUT_OF_RANGE and
 *                          FSQ_IMMEDIATE_OUT_OF_RANGE of a short branch that the copies have made too long, or moved over 65,535
 *   answers              FSQ_DONE; else, asked in this order: FSQ_NO_MARK, FSQ_WRONG_LENGTH, FSQ_WRONG_VERSION (also of versions 2 and 3), FSQ_WRONG_LENGTH,
 *                        FSQ_UNKNOWN_CODE, FSQ_SHIFT_COUNT_OUT_OF_RANGE, what the encoder refuses the first record with where it stood, its count read as
 *                        1, FSQ_NO_RECORD_AT_TARGET, FSQ_WRONG_LENGTH of more than 1,000 records to write, what the loader refuses the written file with,
 *                        FSQ_SLICE_TOO_SHORT, which has no span and no record (docs/REFERENCE.md, 16)
 */
uint8_t fsq_convert(const uint8_t *file, size_t file_len, uint8_t *out, size_t out_len, uint8_t *report, size_t report_len);

/* The inline functions.
 *
 * They stand over the library's functions and are compiled with the program that includes this header. They allocate nothing and keep nothing.
 * Where one answers an int, it is a length or a count, 0 or more, or a refusal's number made negative, -1 to -25:
 *
 *     int length = fsq_encode_at(&record, offset, out, sizeof out, &report);
 *     if (length < 0)
 *         puts(fsq_refusal_sentence(length));
 *
 * - A pointer that is null is an empty slice, whatever length comes with it, and a slice of length 0 may have any address.
 * - No two of the slices, records, lists, readings and reports of one call may overlap.
 * - A report may be null where it is not wanted.
 * - The value of a sum may be negative: fsq_evaluate_text answers 0 and has the value beside it. So does fsq_run_image, whose log may be longer than an int.
 */

/* An operand, a record, a report, a read instruction, a list, a cue and a run's result: their bytes, as the offsets above name them. A report cannot be too short, and a
 * list has the number of its entries beside them. A line is a string of C. A record with a repeat is a type of its own, so that it cannot be taken
 * for one without. */
typedef struct fsq_operand_t { uint8_t bytes[FSQ_OPERAND_LENGTH]; } fsq_operand_t;
typedef struct fsq_record_t { uint8_t bytes[FSQ_RECORD_LENGTH]; } fsq_record_t;
typedef struct fsq_repeat_record_t { uint8_t bytes[FSQ_REPEAT_RECORD_LENGTH]; } fsq_repeat_record_t;
typedef struct fsq_report_t { uint8_t bytes[FSQ_REPORT_LENGTH]; } fsq_report_t;
typedef struct fsq_reading_t { uint8_t bytes[FSQ_READING_LENGTH]; } fsq_reading_t;
typedef struct fsq_list_t { uint8_t bytes[FSQ_LIST_LENGTH], count; } fsq_list_t;
typedef struct fsq_line_t { char text[FSQ_FORM_LENGTH]; } fsq_line_t;
typedef struct fsq_cue_t { uint8_t bytes[FSQ_CUE_LENGTH]; } fsq_cue_t;
typedef struct fsq_run_result_t { uint8_t bytes[FSQ_RUN_RESULT_LENGTH]; } fsq_run_result_t;

/* The little-endian number at an address, of two bytes, of four, and of four with a sign. */
static inline uint16_t fsq_get_u16(const uint8_t *at) {
    return (uint16_t) (at[0] | at[1] << 8);
}

static inline uint32_t fsq_get_u32(const uint8_t *at) {
    return (uint32_t) at[0] | (uint32_t) at[1] << 8 | (uint32_t) at[2] << 16 | (uint32_t) at[3] << 24;
}

static inline int32_t fsq_get_i32(const uint8_t *at) {
    uint32_t n = fsq_get_u32(at);
    return n < 2147483648u ? (int32_t) n : (int32_t) (n - 2147483648u) - 2147483647 - 1;
}

/* The same of eight bytes. */
static inline uint64_t fsq_get_u64(const uint8_t *at) {
    return (uint64_t) fsq_get_u32(at) | (uint64_t) fsq_get_u32(at + 4) << 32;
}

/* Writes a little-endian number at an address, of two bytes and of four; one with a sign is cast to uint32_t. */
static inline void fsq_put_u16(uint8_t *at, uint16_t n) {
    at[0] = (uint8_t) (n & 255u);
    at[1] = (uint8_t) (n >> 8);
}

static inline void fsq_put_u32(uint8_t *at, uint32_t n) {
    fsq_put_u16(at, (uint16_t) (n & 65535u));
    fsq_put_u16(at + 2, (uint16_t) (n >> 16));
}

/* Operands. Every one that these functions make is well formed: an argument that is outside what its type names is reduced as is said. */

/* A register, with its size.
 *   name      the register; modulo 16
 *   answers   the operand
 */
static inline fsq_operand_t fsq_reg(enum fsq_register name) {
    fsq_operand_t operand = {{0}};
    operand.bytes[FSQ_KIND_AT] = FSQ_REG;
    operand.bytes[FSQ_SIZE_AT] = ((unsigned) name & 8u) != 0 ? FSQ_WORD : FSQ_BYTE;
    operand.bytes[FSQ_MODE_AT] = 3;
    operand.bytes[FSQ_RM_AT] = (uint8_t) ((unsigned) name & 7u);
    return operand;
}

/* A segment register.
 *   name      the segment register; modulo 4
 *   answers   the operand
 */
static inline fsq_operand_t fsq_seg(enum fsq_segment name) {
    fsq_operand_t operand = {{0}};
    operand.bytes[FSQ_KIND_AT] = FSQ_SEG;
    operand.bytes[FSQ_SIZE_AT] = FSQ_WORD;
    operand.bytes[FSQ_MODE_AT] = 3;
    operand.bytes[FSQ_RM_AT] = (uint8_t) ((unsigned) name & 3u);
    return operand;
}

/* An immediate, or the target of a branch that says no kind.
 *   value     the value, or the target; no size is stated
 *   answers   the operand
 */
static inline fsq_operand_t fsq_imm(int32_t value) {
    fsq_operand_t operand = {{0}};
    operand.bytes[FSQ_KIND_AT] = FSQ_IMM;
    fsq_put_u32(operand.bytes + FSQ_IMMEDIATE_AT, (uint32_t) value);
    return operand;
}

/* A far target, as JMP takes it.
 *   segment, offset   the target, in the order in which it is written
 *   answers           the operand
 */
static inline fsq_operand_t fsq_far(uint16_t segment, uint16_t offset) {
    fsq_operand_t operand = fsq_imm(offset);
    operand.bytes[FSQ_JUMP_AT] = FSQ_FAR;
    fsq_put_u32(operand.bytes + FSQ_DISPLACEMENT_AT, segment);
    return operand;
}

/* The same operand with a stated size.
 *   operand   the operand; a segment register stays as it is
 *   size      the size; any other number is FSQ_UNSPECIFIED
 *   answers   the operand
 */
static inline fsq_operand_t fsq_with_size(fsq_operand_t operand, enum fsq_size size) {
    if (operand.bytes[FSQ_KIND_AT] != FSQ_SEG)
        operand.bytes[FSQ_SIZE_AT] = (uint8_t) ((unsigned) size <= (unsigned) FSQ_WORD ? (unsigned) size : (unsigned) FSQ_UNSPECIFIED);
    return operand;
}

/* Memory at a base and a displacement, in the shortest mode: 0 for displacement 0, 1 for -128 to 127, 2 for the others; [BP] is mode 1 with 0.
 *   size           the size of the value; FSQ_UNSPECIFIED where the other operand states it; any other number is FSQ_UNSPECIFIED
 *   base           the base; any other number is FSQ_BASE_NONE, an address alone
 *   displacement   the displacement; outside -32,768 to 65,535, and of FSQ_BASE_NONE, modulo 65,536
 *   answers        the operand, without a segment prefix
 */
static inline fsq_operand_t fsq_mem(enum fsq_size size, enum fsq_base base, int32_t displacement) {
    fsq_operand_t operand = {{0}};
    unsigned rm = (unsigned) base;
    int direct = rm > 7u;
    uint8_t mode;
    if (direct || displacement < -32768 || displacement > 65535)
        displacement = (int32_t) ((uint32_t) displacement & 65535u);
    mode = direct || (displacement == 0 && rm != 6u) ? 0 : displacement >= -128 && displacement <= 127 ? 1 : 2;
    operand.bytes[FSQ_KIND_AT] = FSQ_MEM;
    operand.bytes[FSQ_DISPLACEMENT_SIZE_AT] = direct ? (uint8_t) FSQ_WORD : mode;
    operand.bytes[FSQ_MODE_AT] = mode;
    operand.bytes[FSQ_RM_AT] = (uint8_t) (direct ? 6u : rm);
    fsq_put_u32(operand.bytes + FSQ_DISPLACEMENT_AT, (uint32_t) displacement);
    return fsq_with_size(operand, size);
}

/* Memory at an address.
 *   size      as of fsq_mem
 *   address   the address
 *   answers   the operand, without a segment prefix
 */
static inline fsq_operand_t fsq_address(enum fsq_size size, uint16_t address) {
    return fsq_mem(size, FSQ_BASE_NONE, address);
}

/* The same memory with a segment prefix, which is written even where it names the default segment.
 *   operand   the operand; one that is not memory stays as it is
 *   segment   the segment register; modulo 4
 *   answers   the operand
 */
static inline fsq_operand_t fsq_with_segment(fsq_operand_t operand, enum fsq_segment segment) {
    if (operand.bytes[FSQ_KIND_AT] == FSQ_MEM)
        operand.bytes[FSQ_PREFIX_AT] = (uint8_t) (0x26u + 8u * ((unsigned) segment & 3u));
    return operand;
}

/* The same target, or memory that holds one, with its jump kind.
 *   operand   the operand
 *   kind      the kind; any other number is FSQ_NO_KIND
 *   answers   the operand
 */
static inline fsq_operand_t fsq_with_jump(fsq_operand_t operand, enum fsq_jump kind) {
    operand.bytes[FSQ_JUMP_AT] = (uint8_t) ((unsigned) kind <= (unsigned) FSQ_SHORT ? (unsigned) kind : (unsigned) FSQ_NO_KIND);
    return operand;
}

/* The same operand with its place in the source.
 *   operand      the operand
 *   start, end   its first position and the one behind its last; a refusal gives them back
 *   answers      the operand
 */
static inline fsq_operand_t fsq_with_span(fsq_operand_t operand, uint32_t start, uint32_t end) {
    fsq_put_u32(operand.bytes + FSQ_OPERAND_SPAN_START_AT, start);
    fsq_put_u32(operand.bytes + FSQ_OPERAND_SPAN_END_AT, end);
    return operand;
}

/* Records. */

/* A record of two operands.
 *   operation       the operation; any other number is written as 255, and the record is refused with FSQ_UNKNOWN_CODE
 *   first, second   the operands, copied
 *   answers         the record, its span 0 to 0
 */
static inline fsq_record_t fsq_two(enum fsq_operation operation, fsq_operand_t first, fsq_operand_t second) {
    fsq_record_t record = {{0}};
    size_t i;
    record.bytes[FSQ_OPERATION_AT] = (uint8_t) ((unsigned) operation <= (unsigned) FSQ_SALC ? (unsigned) operation : 255u);
    record.bytes[FSQ_COUNT_AT] = 2;
    for (i = 0; i < FSQ_OPERAND_LENGTH; i++) {
        record.bytes[FSQ_FIRST_AT + i] = first.bytes[i];
        record.bytes[FSQ_SECOND_AT + i] = second.bytes[i];
    }
    return record;
}

/* A record of one operand.
 *   operation   as of fsq_two
 *   first       the operand, copied
 *   answers     the record; its second operand is zeros
 */
static inline fsq_record_t fsq_one(enum fsq_operation operation, fsq_operand_t first) {
    fsq_record_t record = fsq_two(operation, first, fsq_imm(0));
    record.bytes[FSQ_COUNT_AT] = 1;
    return record;
}

/* A record without operands.
 *   operation   as of fsq_two
 *   answers     the record; its operands are zeros
 */
static inline fsq_record_t fsq_none(enum fsq_operation operation) {
    fsq_record_t record = fsq_two(operation, fsq_imm(0), fsq_imm(0));
    record.bytes[FSQ_COUNT_AT] = 0;
    return record;
}

/* The same record with the instruction's place in the source, which also the operands get that it does not have.
 *   record       the record
 *   start, end   its first position and the one behind its last; a refusal gives them back
 *   answers      the record
 */
static inline fsq_record_t fsq_record_with_span(fsq_record_t record, uint32_t start, uint32_t end) {
    fsq_put_u32(record.bytes + FSQ_SPAN_START_AT, start);
    fsq_put_u32(record.bytes + FSQ_SPAN_END_AT, end);
    if (record.bytes[FSQ_COUNT_AT] < 1) {
        fsq_put_u32(record.bytes + FSQ_FIRST_AT + FSQ_OPERAND_SPAN_START_AT, start);
        fsq_put_u32(record.bytes + FSQ_FIRST_AT + FSQ_OPERAND_SPAN_END_AT, end);
    }
    if (record.bytes[FSQ_COUNT_AT] < 2) {
        fsq_put_u32(record.bytes + FSQ_SECOND_AT + FSQ_OPERAND_SPAN_START_AT, start);
        fsq_put_u32(record.bytes + FSQ_SECOND_AT + FSQ_OPERAND_SPAN_END_AT, end);
    }
    return record;
}

/* The same record with a repeat, which is written before its string operation. What else the record has, its span too, comes first:
 * fsq_with_repeat(fsq_none(FSQ_MOVSB), FSQ_REPEAT_REP).
 *   record    the record
 *   repeat    the repeat; any other number is written as 255, and the record is refused with FSQ_INVALID_REPEAT
 *   answers   the record, 57 bytes; with FSQ_REPEAT_NONE it is the same instruction as the one given
 */
static inline fsq_repeat_record_t fsq_with_repeat(fsq_record_t record, enum fsq_repeat repeat) {
    fsq_repeat_record_t repeated = {{0}};
    size_t i;
    for (i = 0; i < FSQ_RECORD_LENGTH; i++)
        repeated.bytes[i < FSQ_REPEAT_AT ? i : i + 1] = record.bytes[i];
    repeated.bytes[FSQ_REPEAT_AT] = (uint8_t) (repeat == FSQ_REPEAT_NONE || repeat == FSQ_REPEAT_REPNE || repeat == FSQ_REPEAT_REP ? (unsigned) repeat : 255u);
    return repeated;
}

/* Calls. For a null slice the library gets another address, with the length 0. Of a length that is below 256 the lowest byte is read.
 *
 * fsq_encode_at, fsq_shortest_at, fsq_list_at and fsq_form_at take a record without a repeat, fsq_encode_repeat_at, fsq_shortest_repeat_at,
 * fsq_list_repeat_at and fsq_form_repeat_at one with a repeat, and fsq_encode_bytes_at, fsq_shortest_bytes_at, fsq_list_bytes_at and fsq_form_bytes_at
 * the bytes of either, as they stand in a file. */

/* Encodes the bytes of a record at an offset: fsq_encode.
 *   record, record_len   the record: 56 bytes, or 57 with a repeat; null is refused with FSQ_WRONG_LENGTH
 *   offset               where its bytes are to stand in the segment
 *   out, out_len         gets the bytes at its front; its later bytes stay
 *   report               gets the report, or is null
 *   answers              the number of bytes, 1 to 7, or a refusal's number made negative
 */
static inline int fsq_encode_bytes_at(const uint8_t *record, size_t record_len, uint16_t offset, uint8_t *out, size_t out_len, fsq_report_t *report) {
    fsq_report_t own;
    uint8_t answer;
    if (report == NULL)
        report = &own;
    if (out == NULL) {
        out = report->bytes;
        out_len = 0;
    }
    answer = fsq_encode(record != NULL ? record : report->bytes, record != NULL ? record_len : 0, offset, out, out_len, report->bytes,
                        FSQ_REPORT_LENGTH);
    return answer == FSQ_DONE ? report->bytes[FSQ_REPORT_LENGTH_AT] : -(int) answer;
}

/* Encodes a record at an offset.
 *   record   the record; null is refused with FSQ_WRONG_LENGTH
 *   the rest as of fsq_encode_bytes_at
 */
static inline int fsq_encode_at(const fsq_record_t *record, uint16_t offset, uint8_t *out, size_t out_len, fsq_report_t *report) {
    return fsq_encode_bytes_at(record != NULL ? record->bytes : NULL, FSQ_RECORD_LENGTH, offset, out, out_len, report);
}

/* The same of a record with a repeat. */
static inline int fsq_encode_repeat_at(const fsq_repeat_record_t *record, uint16_t offset, uint8_t *out, size_t out_len, fsq_report_t *report) {
    return fsq_encode_bytes_at(record != NULL ? record->bytes : NULL, FSQ_REPEAT_RECORD_LENGTH, offset, out, out_len, report);
}

/* Encodes the bytes of a record at an offset by the shortest string of its instruction: fsq_shortest.
 *   record, record_len   as of fsq_encode_bytes_at
 *   offset               where its bytes are to stand in the segment
 *   out, out_len         gets the bytes at its front; its later bytes stay
 *   report               gets the report, or is null
 *   answers              the number of bytes, 1 to 7, or a refusal's number made negative
 */
static inline int fsq_shortest_bytes_at(const uint8_t *record, size_t record_len, uint16_t offset, uint8_t *out, size_t out_len, fsq_report_t *report) {
    fsq_report_t own;
    uint8_t answer;
    if (report == NULL)
        report = &own;
    if (out == NULL) {
        out = report->bytes;
        out_len = 0;
    }
    answer = fsq_shortest(record != NULL ? record : report->bytes, record != NULL ? record_len : 0, offset, out, out_len, report->bytes,
                          FSQ_REPORT_LENGTH);
    return answer == FSQ_DONE ? report->bytes[FSQ_REPORT_LENGTH_AT] : -(int) answer;
}

/* The same of a record: as of fsq_encode_at. */
static inline int fsq_shortest_at(const fsq_record_t *record, uint16_t offset, uint8_t *out, size_t out_len, fsq_report_t *report) {
    return fsq_shortest_bytes_at(record != NULL ? record->bytes : NULL, FSQ_RECORD_LENGTH, offset, out, out_len, report);
}

/* The same of a record with a repeat. */
static inline int fsq_shortest_repeat_at(const fsq_repeat_record_t *record, uint16_t offset, uint8_t *out, size_t out_len, fsq_report_t *report) {
    return fsq_shortest_bytes_at(record != NULL ? record->bytes : NULL, FSQ_REPEAT_RECORD_LENGTH, offset, out, out_len, report);
}

/* Lists all strings of bytes that are, at an offset, the same instruction as a record's: fsq_list.
 *   record, record_len   as of fsq_encode_bytes_at
 *   offset               where the strings are to stand in the segment
 *   list                 gets the entries and their number; on a refusal its bytes stay and the number is 0; null is refused with
 *                        FSQ_SLICE_TOO_SHORT
 *   report               gets the report, or is null
 *   answers              the number of entries, 1 to 12, or a refusal's number made negative
 */
static inline int fsq_list_bytes_at(const uint8_t *record, size_t record_len, uint16_t offset, fsq_list_t *list, fsq_report_t *report) {
    fsq_report_t own;
    uint8_t answer;
    if (report == NULL)
        report = &own;
    answer = fsq_list(record != NULL ? record : report->bytes, record != NULL ? record_len : 0, offset, list != NULL ? list->bytes : report->bytes,
                      list != NULL ? (size_t) FSQ_LIST_LENGTH : 0, report->bytes, FSQ_REPORT_LENGTH);
    /* 0 where it is refused. */
    if (list != NULL)
        list->count = report->bytes[FSQ_REPORT_LENGTH_AT];
    return answer == FSQ_DONE ? report->bytes[FSQ_REPORT_LENGTH_AT] : -(int) answer;
}

/* The same of a record: as of fsq_encode_at. */
static inline int fsq_list_at(const fsq_record_t *record, uint16_t offset, fsq_list_t *list, fsq_report_t *report) {
    return fsq_list_bytes_at(record != NULL ? record->bytes : NULL, FSQ_RECORD_LENGTH, offset, list, report);
}

/* The same of a record with a repeat. */
static inline int fsq_list_repeat_at(const fsq_repeat_record_t *record, uint16_t offset, fsq_list_t *list, fsq_report_t *report) {
    return fsq_list_bytes_at(record != NULL ? record->bytes : NULL, FSQ_REPEAT_RECORD_LENGTH, offset, list, report);
}

/* Tells by which form a record is written at an offset, or which question refuses it: fsq_form.
 *   record, record_len   as of fsq_encode_bytes_at
 *   offset               where its bytes are to stand in the segment
 *   line                 gets the line, a 0 in the place of its line feed, and on a refusal the empty string; null is refused with
 *                        FSQ_SLICE_TOO_SHORT
 *   report               gets the report, or is null
 *   answers              the length of the string, or a refusal's number made negative; a record that is refused has a line too, `question N`
 */
static inline int fsq_form_bytes_at(const uint8_t *record, size_t record_len, uint16_t offset, fsq_line_t *line, fsq_report_t *report) {
    fsq_report_t own;
    uint8_t answer;
    int length;
    if (report == NULL)
        report = &own;
    answer = fsq_form(record != NULL ? record : report->bytes, record != NULL ? record_len : 0, offset,
                      line != NULL ? (uint8_t *) line->text : report->bytes, line != NULL ? (size_t) FSQ_FORM_LENGTH : 0, report->bytes,
                      FSQ_REPORT_LENGTH);
    length = answer == FSQ_DONE ? report->bytes[FSQ_REPORT_LENGTH_AT] - 1 : 0;
    if (line != NULL)
        line->text[length] = 0;
    return answer == FSQ_DONE ? length : -(int) answer;
}

/* The same of a record: as of fsq_encode_at. */
static inline int fsq_form_at(const fsq_record_t *record, uint16_t offset, fsq_line_t *line, fsq_report_t *report) {
    return fsq_form_bytes_at(record != NULL ? record->bytes : NULL, FSQ_RECORD_LENGTH, offset, line, report);
}

/* The same of a record with a repeat. */
static inline int fsq_form_repeat_at(const fsq_repeat_record_t *record, uint16_t offset, fsq_line_t *line, fsq_report_t *report) {
    return fsq_form_bytes_at(record != NULL ? record->bytes : NULL, FSQ_REPEAT_RECORD_LENGTH, offset, line, report);
}

/* Reads one instruction at the front of some bytes: fsq_read. What follows it is not looked at, but for the byte behind F2 or F3.
 *   bytes, bytes_len   the bytes
 *   offset             where they stand in the segment: near targets are answered for it
 *   reading            gets the read instruction, or is null; stays on a refusal
 *   answers            the instruction's length, 1 to 7, or -10 or -11
 */
static inline int fsq_read_at(const uint8_t *bytes, size_t bytes_len, uint16_t offset, fsq_reading_t *reading) {
    fsq_reading_t own;
    uint8_t answer;
    if (reading == NULL)
        reading = &own;
    if (bytes == NULL) {
        bytes = reading->bytes;
        bytes_len = 0;
    }
    answer = fsq_read(bytes, bytes_len, offset, reading->bytes, FSQ_READING_LENGTH);
    return answer == FSQ_DONE ? reading->bytes[FSQ_READ_LENGTH_AT] : -(int) answer;
}

/* Loads a show file: fsq_load.
 *   file, file_len     the whole file
 *   image, image_len   gets the records' bytes at its front; its later bytes stay. FSQ_IMAGE_LENGTH bytes are enough for every file
 *   report             gets the report, or is null
 *   answers            the length of the image, 0 to 56,000, or a refusal's number made negative
 */
static inline int fsq_load_show(const uint8_t *file, size_t file_len, uint8_t *image, size_t image_len, fsq_report_t *report) {
    fsq_report_t own;
    uint8_t answer;
    if (report == NULL)
        report = &own;
    if (file == NULL) {
        file = report->bytes;
        file_len = 0;
    }
    if (image == NULL) {
        image = report->bytes;
        image_len = 0;
    }
    answer = fsq_load(file, file_len, image, image_len, report->bytes, FSQ_REPORT_LENGTH);
    return answer == FSQ_DONE ? (int) fsq_get_u32(report->bytes + FSQ_REPORT_LENGTH_AT) : -(int) answer;
}

/* Evaluates a sum: fsq_evaluate.
 *   text, text_len   the text, without the 0 that ends a string of C: its length is strlen's
 *   value            gets the value, or is null; stays on a refusal
 *   answers          0, or a refusal's number made negative, -16 to -18
 */
static inline int fsq_evaluate_text(const char *text, size_t text_len, int32_t *value) {
    fsq_report_t own;
    uint8_t answer = fsq_evaluate(text != NULL ? (const uint8_t *) text : own.bytes, text != NULL ? text_len : 0, own.bytes, FSQ_REPORT_LENGTH);
    if (answer == FSQ_DONE && value != NULL)
        *value = fsq_get_i32(own.bytes + FSQ_REPORT_VALUE_AT);
    return -(int) answer;
}

/* A cue: switch a port to a mask after a delay.
 *   delay     how often LOOP is carried out; 0 is refused with FSQ_NO_DELAY
 *   port      the port
 *   mask      what it gets
 *   answers   the cue
 */
static inline fsq_cue_t fsq_cue_of(uint16_t delay, uint8_t port, uint8_t mask) {
    fsq_cue_t cue = {{0}};
    fsq_put_u16(cue.bytes + FSQ_CUE_DELAY_AT, delay);
    cue.bytes[FSQ_CUE_PORT_AT] = port;
    cue.bytes[FSQ_CUE_MASK_AT] = mask;
    return cue;
}

/* Compiles the bytes of cues to the image of a field module: fsq_cue.
 *   cues, cues_len     the cues, of 4 bytes each, as they stand in a file
 *   image, image_len   gets the program at its front; its later bytes stay. FSQ_CUE_IMAGE_LENGTH bytes are enough for all cues
 *   answers            the length of the program, 1 to 1,801, or a refusal's number made negative: -19, -20 or -9
 */
static inline int fsq_compile_bytes(const uint8_t *cues, size_t cues_len, uint8_t *image, size_t image_len) {
    fsq_report_t own;
    uint8_t answer;
    if (cues == NULL) {
        cues = own.bytes;
        cues_len = 0;
    }
    if (image == NULL) {
        image = own.bytes;
        image_len = 0;
    }
    answer = fsq_cue(cues, cues_len, image, image_len, own.bytes, FSQ_REPORT_LENGTH);
    return answer == FSQ_DONE ? (int) fsq_get_u32(own.bytes + FSQ_REPORT_LENGTH_AT) : -(int) answer;
}

/* The same of so many cues.
 *   cues, count   the cues; more than 200 are not looked at, and refused with FSQ_NOT_A_CUE_LIST
 *   the rest as of fsq_compile_bytes
 */
static inline int fsq_compile_cues(const fsq_cue_t *cues, size_t count, uint8_t *image, size_t image_len) {
    if (cues == NULL)
        count = 0;
    if (count > FSQ_MOST_CUES)
        return -FSQ_NOT_A_CUE_LIST;
    return fsq_compile_bytes(cues != NULL ? cues->bytes : NULL, FSQ_CUE_LENGTH * count, image, image_len);
}

/* Runs an image on the desk: fsq_run.
 *   image, image_len   the image
 *   budget             how many instructions are carried out at most
 *   log, log_len       gets, where the run halts, port and AL of each OUT at its front; its later bytes stay, and on a refusal all of them
 *   result             gets the result, or is null
 *   answers            0, or a refusal's number made negative: -22, -21 or -9
 */
static inline int fsq_run_image(const uint8_t *image, size_t image_len, uint32_t budget, uint8_t *log, size_t log_len, fsq_run_result_t *result) {
    fsq_run_result_t own;
    if (result == NULL)
        result = &own;
    if (image == NULL) {
        image = result->bytes;
        image_len = 0;
    }
    if (log == NULL) {
        log = result->bytes;
        log_len = 0;
    }
    return -(int) fsq_run(image, image_len, budget, log, log_len, result->bytes, FSQ_RUN_RESULT_LENGTH);
}

/* The instructions that a run carried out, HLT among them, or 0 where it is refused. */
static inline uint64_t fsq_run_count(const fsq_run_result_t *result) {
    return fsq_get_u64(result->bytes + FSQ_RUN_COUNT_AT);
}

/* The bytes of its log, two for each OUT: the port, then AL; 0 where it is refused. */
static inline uint64_t fsq_run_log_length(const fsq_run_result_t *result) {
    return fsq_get_u64(result->bytes + FSQ_RUN_LOG_LENGTH_AT);
}

/* Checks that every near target of a show is the start of a record or the end: fsq_check.
 *   file, file_len   the file
 *   report           gets the report, or is null. Of refusal 25 fsq_report_record has the branch, fsq_report_value its target, fsq_report_around the record that
 *                    the target falls into
 *   answers          the length of the image, which fsq_load_show then asks for, or a refusal's number made negative
 */
static inline int fsq_check_show(const uint8_t *file, size_t file_len, fsq_report_t *report) {
    fsq_report_t own;
    uint8_t answer;
    if (report == NULL)
        report = &own;
    if (file == NULL) {
        file = report->bytes;
        file_len = 0;
    }
    answer = fsq_check(file, file_len, report->bytes, FSQ_REPORT_LENGTH);
    return answer == FSQ_DONE ? (int) fsq_get_u32(report->bytes + FSQ_REPORT_LENGTH_AT) : -(int) answer;
}

/* Converts a show from a 186 module to one for the 8086: fsq_convert.
 *   file, file_len   the file
 *   out, out_len     gets the written file at its front; its later bytes stay. FSQ_CONVERTED_LENGTH bytes are enough for every one
 *   report           gets the report, or is null. For 5 and 6 its record may be one of the written file: fsq_convert says when
 *   answers          the length of the written file, 9 to 56,009, or a refusal's number made negative
 */
static inline int fsq_convert_show(const uint8_t *file, size_t file_len, uint8_t *out, size_t out_len, fsq_report_t *report) {
    fsq_report_t own;
    uint8_t answer;
    if (report == NULL)
        report = &own;
    if (file == NULL) {
        file = report->bytes;
        file_len = 0;
    }
    if (out == NULL) {
        out = report->bytes;
        out_len = 0;
    }
    answer = fsq_convert(file, file_len, out, out_len, report->bytes, FSQ_REPORT_LENGTH);
    return answer == FSQ_DONE ? (int) fsq_get_u32(report->bytes + FSQ_REPORT_LENGTH_AT) : -(int) answer;
}

/* The fields of a report. One that the answer does not give is 0, and the record FSQ_NO_RECORD. */

/* The length or count that the function answers. */
static inline uint32_t fsq_report_length(const fsq_report_t *report) {
    return fsq_get_u32(report->bytes + FSQ_REPORT_LENGTH_AT);
}

/* The first position in the source of what a refusal from 1 to 9, or 23, is about. */
static inline uint32_t fsq_report_span_start(const fsq_report_t *report) {
    return fsq_get_u32(report->bytes + FSQ_REPORT_SPAN_START_AT);
}

/* The position behind its last. */
static inline uint32_t fsq_report_span_end(const fsq_report_t *report) {
    return fsq_get_u32(report->bytes + FSQ_REPORT_SPAN_END_AT);
}

/* The value that a refusal 5 is about, or the distance of a refusal 6; of fsq_evaluate the value of the sum, of fsq_check the target of a refusal 25. */
static inline int32_t fsq_report_value(const fsq_report_t *report) {
    return fsq_get_i32(report->bytes + FSQ_REPORT_VALUE_AT);
}

/* The lowest value that a refusal 5 would have let pass. */
static inline int32_t fsq_report_low(const fsq_report_t *report) {
    return fsq_get_i32(report->bytes + FSQ_REPORT_LOW_AT);
}

/* The highest. */
static inline int32_t fsq_report_high(const fsq_report_t *report) {
    return fsq_get_i32(report->bytes + FSQ_REPORT_HIGH_AT);
}

/* The record, from 0, that fsq_load_show refuses, or FSQ_NO_RECORD. */
static inline uint32_t fsq_report_record(const fsq_report_t *report) {
    return fsq_get_u32(report->bytes + FSQ_REPORT_RECORD_AT);
}

/* Of a refusal 25 by fsq_check: the record that the target falls into, or FSQ_NO_RECORD. */
static inline uint32_t fsq_report_around(const fsq_report_t *report) {
    return fsq_get_u32(report->bytes + FSQ_REPORT_LENGTH_AT);
}

/* The strings of a list. */

/* The length of a string of a list.
 *   list      a list that fsq_list_at wrote
 *   entry     the entry, from 0
 *   answers   the length, 1 to 7, or 0 where the list has fewer entries
 */
static inline size_t fsq_entry_length(const fsq_list_t *list, size_t entry) {
    return entry < list->count ? list->bytes[entry * FSQ_ENTRY_LENGTH] : 0;
}

/* The bytes of a string of a list.
 *   list, entry   as of fsq_entry_length
 *   answers       the address in the list of its 7 bytes, of which fsq_entry_length are the string's and the others zeros
 */
static inline const uint8_t *fsq_entry_bytes(const fsq_list_t *list, size_t entry) {
    return list->bytes + (entry < list->count ? entry : 0) * FSQ_ENTRY_LENGTH + 1;
}

/* The question that a line of fsq_form_at names, or 0 where it names a form. */
static inline int fsq_line_question(const fsq_line_t *line) {
    return line->text[0] == 'q' ? line->text[sizeof "question " - 1] - '0' : 0;
}

/* The fields of a read instruction. Of its operands 0 is the first, and every other number the second. */

/* The number of its bytes, 1 to 7. */
static inline size_t fsq_reading_length(const fsq_reading_t *reading) {
    return reading->bytes[FSQ_READ_LENGTH_AT];
}

/* Its operation. */
static inline enum fsq_operation fsq_reading_operation(const fsq_reading_t *reading) {
    return (enum fsq_operation) reading->bytes[FSQ_READ_OPERATION_AT];
}

/* Its width, or FSQ_UNSPECIFIED where the form has none. */
static inline enum fsq_size fsq_reading_width(const fsq_reading_t *reading) {
    return (enum fsq_size) reading->bytes[FSQ_READ_WIDTH_AT];
}

/* The form's opcode, without the register of a +r or +s. */
static inline uint8_t fsq_reading_opcode(const fsq_reading_t *reading) {
    return reading->bytes[FSQ_READ_OPCODE_AT];
}

/* The form's extension: a number of enum fsq_extension, FSQ_EXTENSION_DIGIT + n for /n. */
static inline uint8_t fsq_reading_extension(const fsq_reading_t *reading) {
    return reading->bytes[FSQ_READ_EXTENSION_AT];
}

/* The repeat before its string operation, or FSQ_REPEAT_NONE. */
static inline enum fsq_repeat fsq_reading_repeat(const fsq_reading_t *reading) {
    return (enum fsq_repeat) reading->bytes[FSQ_READ_REPEAT_AT];
}

/* The address in a read instruction of an operand's 8 bytes. */
static inline const uint8_t *fsq_reading_operand(const fsq_reading_t *reading, unsigned operand) {
    return reading->bytes + (operand == 0 ? FSQ_READ_FIRST_AT : FSQ_READ_SECOND_AT);
}

/* An operand's kind, or FSQ_READ_NONE where the form has no such operand. */
static inline enum fsq_read_kind fsq_reading_kind(const fsq_reading_t *reading, unsigned operand) {
    return (enum fsq_read_kind) fsq_reading_operand(reading, operand)[FSQ_READ_KIND_AT];
}

/* A register's number, 0 to 7; of a segment register a number of enum fsq_segment; of memory one of enum fsq_base. */
static inline uint8_t fsq_reading_number(const fsq_reading_t *reading, unsigned operand) {
    return fsq_reading_operand(reading, operand)[FSQ_READ_NUMBER_AT];
}

/* The segment register in effect of memory. */
static inline enum fsq_segment fsq_reading_segment(const fsq_reading_t *reading, unsigned operand) {
    return (enum fsq_segment) fsq_reading_operand(reading, operand)[FSQ_READ_SEGMENT_AT];
}

/* The displacement of memory, an immediate, or the offset of a target. */
static inline uint16_t fsq_reading_value(const fsq_reading_t *reading, unsigned operand) {
    return fsq_get_u16(fsq_reading_operand(reading, operand) + FSQ_READ_VALUE_AT);
}

/* The segment of a far target. */
static inline uint16_t fsq_reading_far_segment(const fsq_reading_t *reading, unsigned operand) {
    return fsq_get_u16(fsq_reading_operand(reading, operand) + FSQ_READ_FAR_SEGMENT_AT);
}

/* Names. */

/* Where the two lists below have an answer: by its number up to 25, then all that there is not. */
static inline unsigned fsq_refusal_place(int answer) {
    return answer >= 0 ? 0 : answer >= -FSQ_NO_RECORD_AT_TARGET ? (unsigned) -answer : FSQ_NO_RECORD_AT_TARGET + 1u;
}

/* The name of a refusal, as enum fsq_answer has it without FSQ_.
 *   answer    what an inline function answers; what one of the library's answers is to be made negative
 *   answers   the name; "DONE" of 0 and every length, "UNKNOWN" below -25
 */
static inline const char *fsq_refusal_name(int answer) {
    static const char *const names[] = {
        "DONE", "INVALID_OPERANDS", "OPERAND_SIZE_NOT_SPECIFIED", "OPERAND_SIZES_DO_NOT_MATCH", "INVALID_OPERAND_SIZE",
        "IMMEDIATE_OUT_OF_RANGE", "RELATIVE_JUMP_OUT_OF_RANGE", "NOT_SUPPORTED", "NOT_WELL_FORMED", "SLICE_TOO_SHORT",
        "NOT_AN_INSTRUCTION", "NOT_COMPLETE", "NO_MARK", "WRONG_VERSION", "WRONG_LENGTH", "UNKNOWN_CODE",
        "NOT_A_SUM", "TOO_DEEP", "VALUE_OUT_OF_RANGE", "NOT_A_CUE_LIST", "NO_DELAY", "NOT_CARRIED_OUT", "BUDGET_SPENT", "INVALID_REPEAT",
        "SHIFT_COUNT_OUT_OF_RANGE", "NO_RECORD_AT_TARGET", "UNKNOWN"
    };
    return names[fsq_refusal_place(answer)];
}

/* A refusal in words.
 *   answer    as of fsq_refusal_name
 *   answers   a sentence
 */
static inline const char *fsq_refusal_sentence(int answer) {
    static const char *const sentences[] = {
        "Nothing is refused.",
        "No form of the operation takes these operands.",
        "No operand states whether a byte or a word is meant.",
        "One operand is a byte and the other a word.",
        "The operation does not take an operand of this size, or none is stated.",
        "An immediate, address, port, target or segment is outside its limits.",
        "The target is too far for a short jump.",
        "The encoder does not have this instruction.",
        "The operand count is above 2, or an operand's fields contradict each other.",
        "The lent slice is too short.",
        "No instruction begins with these bytes.",
        "The bytes are the front of an instruction, and more are needed.",
        "The file does not begin with \"FSQ\".",
        "The file's version is not 1, 2 or 3, or not 1 where a show is converted.",
        "The file is not as long as its count says, its version does not take this count, or a record has not 56 or 57 bytes.",
        "A record has an operation, kind, size or jump kind that does not exist.",
        "The text is not a sum of decimal numbers, + - * / and brackets, without blanks.",
        "The sum is more than 16 brackets deep.",
        "A value on the way is outside -2147483648 to 2147483647, or a divisor is 0.",
        "The length is not a multiple of 4, or there are more than 200 cues.",
        "A cue has a delay of 0.",
        "The next bytes inside the image are no instruction that a run carries out.",
        "The whole budget is carried out, and HLT was not met.",
        "The repeat is neither REP nor REPNE, or the operation takes none.",
        "A shift or rotate has an immediate count outside 1 to 31.",
        "A branch goes to where no record starts, or stood, and not to the end of the show.",
        "This header does not know the refusal."
    };
    return sentences[fsq_refusal_place(answer)];
}

/* The name of an operation.
 *   operation   the operation
 *   answers     the name, as "MOV"; "UNKNOWN" where there is no such operation
 */
static inline const char *fsq_operation_name(enum fsq_operation operation) {
    static const char *const names[] = {
        "MOV", "PUSH", "POP", "XCHG", "IN", "OUT", "XLATB", "LEA", "LDS", "LES", "LAHF", "SAHF", "PUSHF", "POPF", "ADD", "ADC", "INC",
        "AAA", "DAA", "SUB", "SBB", "DEC", "NEG", "CMP", "AAS", "DAS", "MUL", "IMUL", "AAM", "DIV", "IDIV", "AAD", "CBW", "CWD", "NOT",
        "SHL", "SHR", "SAR", "ROL", "ROR", "RCL", "RCR", "AND", "TEST", "OR", "XOR", "REP", "REPNE", "MOVSB", "MOVSW", "CMPSB", "CMPSW",
        "SCASB", "SCASW", "LODSB", "LODSW", "STOSB", "STOSW", "CALL", "JMP", "RET", "JE", "JL", "JLE", "JB", "JBE", "JP", "JO", "JS",
        "JNE", "JNL", "JNLE", "JNB", "JNBE", "JNP", "JNO", "JNS", "LOOP", "LOOPZ", "LOOPNZ", "JCXZ", "INT", "INT1", "INT3", "INTO",
        "IRET", "CLC", "CMC", "STC", "CLD", "STD", "CLI", "STI", "HLT", "WAIT", "ESC", "LOCK", "NOP", "SALC", "UNKNOWN"
    };
    return names[(unsigned) operation <= (unsigned) FSQ_SALC ? (unsigned) operation : (unsigned) FSQ_SALC + 1u];
}

/* Show files. A plain way to one is fsq_write_show. With the other functions a file is written piece by piece: fsq_write_header and fsq_write_record for
 * records without a repeat, fsq_write_repeat_header and fsq_write_repeat_record for version 3. A file of one's header and the other's records has
 * another length than its count says, and is refused with FSQ_WRONG_LENGTH. */

/* Writes the header of a show file of a version: what fsq_write_header and fsq_write_repeat_header answer. */
static inline int fsq_put_header(uint8_t *file, size_t file_len, uint16_t version, uint16_t origin, uint16_t count) {
    if (count > FSQ_MOST_RECORDS)
        return -FSQ_WRONG_LENGTH;
    if (file == NULL || file_len < FSQ_HEADER_LENGTH)
        return -FSQ_SLICE_TOO_SHORT;
    file[FSQ_HEADER_MARK_AT] = 0x46;
    file[FSQ_HEADER_MARK_AT + 1] = 0x53;
    file[FSQ_HEADER_MARK_AT + 2] = 0x51;
    fsq_put_u16(file + FSQ_HEADER_VERSION_AT, version);
    fsq_put_u16(file + FSQ_HEADER_ORIGIN_AT, origin);
    fsq_put_u16(file + FSQ_HEADER_COUNT_AT, count);
    return FSQ_HEADER_LENGTH;
}

/* Writes a record of so many bytes behind those before it: what fsq_write_record and fsq_write_repeat_record answer. */
static inline int fsq_put_record(uint8_t *file, size_t file_len, uint16_t number, const uint8_t *record, size_t record_len) {
    size_t at = FSQ_HEADER_LENGTH + (size_t) number * record_len, i;
    if (number >= FSQ_MOST_RECORDS || record == NULL)
        return -FSQ_WRONG_LENGTH;
    if (file == NULL || file_len < at + record_len)
        return -FSQ_SLICE_TOO_SHORT;
    for (i = 0; i < record_len; i++)
        file[at + i] = record[i];
    return (int) (at + record_len);
}

/* Writes the header of a show file without repeats: of version 1 up to 1,000 records, of version 2 above.
 *   file, file_len   gets the header at its front, 9 bytes; its later bytes stay
 *   origin           the offset of the first record
 *   count            the number of records
 *   answers          the length of the header, 9; -14 where count is above 8,000, then -9 where file_len is below 9; then nothing is written
 */
static inline int fsq_write_header(uint8_t *file, size_t file_len, uint16_t origin, uint16_t count) {
    return fsq_put_header(file, file_len, (uint16_t) (count <= FSQ_SHORT_RECORDS ? FSQ_FILE_VERSION : FSQ_LONG_VERSION), origin, count);
}

/* Writes the header of a show file of version 3, whose records have a repeat: as fsq_write_header. */
static inline int fsq_write_repeat_header(uint8_t *file, size_t file_len, uint16_t origin, uint16_t count) {
    return fsq_put_header(file, file_len, FSQ_REPEAT_VERSION, origin, count);
}

/* Writes a record of a show file without repeats.
 *   file, file_len   gets the record at 9 + 56 * number; its other bytes stay
 *   number           the record, from 0
 *   record           the record, copied
 *   answers          the length of the file to the end of this record; -14 where number is above 7,999 or record null, then -9 where the file is
 *                    shorter than that; then nothing is written
 */
static inline int fsq_write_record(uint8_t *file, size_t file_len, uint16_t number, const fsq_record_t *record) {
    return fsq_put_record(file, file_len, number, record != NULL ? record->bytes : NULL, FSQ_RECORD_LENGTH);
}

/* Writes a record of a show file of version 3, at 9 + 57 * number: as fsq_write_record. */
static inline int fsq_write_repeat_record(uint8_t *file, size_t file_len, uint16_t number, const fsq_repeat_record_t *record) {
    return fsq_put_record(file, file_len, number, record != NULL ? record->bytes : NULL, FSQ_REPEAT_RECORD_LENGTH);
}

/* Writes a whole show file, of the version that its records have: 3 where one of them has a repeat, else 1 up to 1,000 records and 2 above.
 *   file, file_len   gets the file at its front; its later bytes stay. 9 + 57 * count bytes are enough, and FSQ_FILE_LENGTH for every file
 *   origin           the offset of the first record
 *   records, count   the records, copied; fsq_with_repeat with FSQ_REPEAT_NONE makes one without a repeat
 *   answers          the length of the file; -14 where count is above 8,000, or above 0 and records null, then -9 where the file is shorter than
 *                    that; then nothing is written
 */
static inline int fsq_write_show(uint8_t *file, size_t file_len, uint16_t origin, const fsq_repeat_record_t *records, size_t count) {
    size_t each = FSQ_RECORD_LENGTH, i, k;
    uint8_t *at;
    if (count > FSQ_MOST_RECORDS || (count != 0 && records == NULL))
        return -FSQ_WRONG_LENGTH;
    for (k = 0; k < count; k++)
        if (records[k].bytes[FSQ_REPEAT_AT] != FSQ_REPEAT_NONE)
            each = FSQ_REPEAT_RECORD_LENGTH;
    if (file == NULL || file_len < FSQ_HEADER_LENGTH + each * count)
        return -FSQ_SLICE_TOO_SHORT;
    if (each == FSQ_RECORD_LENGTH)
        (void) fsq_write_header(file, file_len, origin, (uint16_t) count);
    else
        (void) fsq_write_repeat_header(file, file_len, origin, (uint16_t) count);
    at = file + FSQ_HEADER_LENGTH;
    for (k = 0; k < count; k++)
        for (i = 0; i < FSQ_REPEAT_RECORD_LENGTH; i++)
            if (i != FSQ_REPEAT_AT || each == FSQ_REPEAT_RECORD_LENGTH)
                *at++ = records[k].bytes[i];
    return (int) (FSQ_HEADER_LENGTH + each * count);
}

#ifdef __cplusplus
}
#endif

#endif
