/* Every inline function of library/include/fsq.h. What is expected is docs/REFERENCE.md's, or the header's own word. */
#include "fsq.h"
#include <stdio.h>
#include <stdlib.h>
#include <string.h>

static int checks, failures;

static void check(int good, const char *what, int line) {
    checks++;
    if (!good && failures++ < 20)
        printf("header: line %d: %s\n", line, what);
}

#define CHECK(good) check((good) ? 1 : 0, #good, __LINE__)
#define ENCODES(record, offset, bytes) encodes((record), (offset), (bytes), __LINE__)
#define SHORTEST(record, offset, bytes) shortest_is((record), (offset), (bytes), __LINE__)
#define REFUSED(record, offset, number) refused((record), (offset), (number), __LINE__)
#define FORM(record, offset, text) form_is((record), (offset), (text), __LINE__)
#define REPEAT(record, offset, bytes, form) repeat_is((record), (offset), (bytes), (form), __LINE__)
#define REPEAT_REFUSED(record, number, question) repeat_refused((record), (number), (question), __LINE__)

/* What the numbers of an enum may be besides its names: in C++ those of as many bits, in C all, of which 256 has the byte of 0. */
#ifdef __cplusplus
enum { REGISTERS = 15, SEGMENTS = 3, BASES = 15, SIZES = 3, JUMPS = 3, REPEATS = 255, OPERATIONS = 127, LEAST = 0 };
#else
enum { REGISTERS = 20, SEGMENTS = 20, BASES = 20, SIZES = 260, JUMPS = 260, REPEATS = 516, OPERATIONS = 260, LEAST = -2 };
#endif

/* Bytes in hexadecimal, with blanks between them. */
static const char *text_of(const uint8_t *bytes, size_t length) {
    static char text[3 * 64];
    size_t i;
    text[0] = 0;
    for (i = 0; i < length && i < 64; i++)
        sprintf(text + (i == 0 ? 0 : 3 * i - 1), i == 0 ? "%02X" : " %02X", bytes[i]);
    return text;
}

static int is(const uint8_t *bytes, size_t length, const char *text) {
    return strcmp(text_of(bytes, length), text) == 0;
}

/* The inline function and the library's write these bytes, and no others. */
static void encodes(fsq_record_t record, uint16_t offset, const char *bytes, int line) {
    uint8_t out[16], report[FSQ_REPORT_LENGTH], again[FSQ_STRING_LENGTH];
    fsq_report_t told;
    int length, i, stays = 1;
    memset(out, 0xA5, sizeof out);
    length = fsq_encode_at(&record, offset, out, sizeof out, &told);
    for (i = length < 0 ? 0 : length; i < 16; i++)
        stays &= out[i] == 0xA5;
    check(length > 0 && is(out, (size_t) length, bytes) && stays, bytes, line);
    check(length > 0 && fsq_report_length(&told) == (uint32_t) length && fsq_report_record(&told) == FSQ_NO_RECORD, bytes, line);
    check(fsq_encode(record.bytes, sizeof record.bytes, offset, again, sizeof again, report, sizeof report) == FSQ_DONE
          && memcmp(report, told.bytes, sizeof report) == 0 && memcmp(again, out, fsq_get_u32(report)) == 0, bytes, line);
}

/* The inline function and the library's write these bytes, and no others; a slice of so many takes them, and one of a byte less does not. They are the
 * first entry of the record's list, and no longer than the encoder's. */
static void shortest_is(fsq_record_t record, uint16_t offset, const char *bytes, int line) {
    uint8_t out[16], report[FSQ_REPORT_LENGTH], again[FSQ_STRING_LENGTH];
    fsq_report_t told;
    fsq_list_t list;
    int length, i, stays = 1;
    memset(out, 0xA5, sizeof out);
    memset(again, 0xA5, sizeof again);
    length = fsq_shortest_at(&record, offset, out, sizeof out, &told);
    for (i = length < 0 ? 0 : length; i < 16; i++)
        stays &= out[i] == 0xA5;
    check(length > 0 && is(out, (size_t) length, bytes) && stays, bytes, line);
    check(length > 0 && fsq_report_length(&told) == (uint32_t) length && fsq_report_record(&told) == FSQ_NO_RECORD, bytes, line);
    if (length <= 0)
        return;
    check(fsq_shortest(record.bytes, sizeof record.bytes, offset, again, (size_t) length - 1, report, sizeof report) == FSQ_SLICE_TOO_SHORT
          && fsq_shortest_at(&record, offset, again, (size_t) length - 1, NULL) == -FSQ_SLICE_TOO_SHORT && is(again, 7, "A5 A5 A5 A5 A5 A5 A5"), bytes, line);
    check(fsq_shortest(record.bytes, sizeof record.bytes, offset, again, (size_t) length, report, sizeof report) == FSQ_DONE
          && memcmp(report, told.bytes, sizeof report) == 0 && memcmp(again, out, sizeof again) == 0, bytes, line);
    check(fsq_list_at(&record, offset, &list, NULL) > 0 && is(fsq_entry_bytes(&list, 0), fsq_entry_length(&list, 0), bytes), bytes, line);
    check(fsq_encode_at(&record, offset, out, sizeof out, NULL) >= length, bytes, line);
}

static fsq_report_t refused(fsq_record_t record, uint16_t offset, int number, int line) {
    uint8_t out[FSQ_STRING_LENGTH];
    fsq_report_t report, other;
    fsq_list_t list;
    int answer;
    memset(out, 0xA5, sizeof out);
    memset(&list, 0xA5, sizeof list);
    answer = fsq_encode_at(&record, offset, out, sizeof out, &report);
    check(answer == -number && is(out, sizeof out, "A5 A5 A5 A5 A5 A5 A5"), fsq_refusal_name(answer), line);
    check(fsq_encode_at(&record, offset, out, sizeof out, NULL) == -number, "without a report", line);
    check(fsq_shortest_at(&record, offset, out, sizeof out, &other) == -number && memcmp(&report, &other, sizeof report) == 0
          && fsq_shortest_at(&record, offset, out, sizeof out, NULL) == -number && is(out, sizeof out, "A5 A5 A5 A5 A5 A5 A5"), "of the shortest string", line);
    check(fsq_list_at(&record, offset, &list, &other) == -number && memcmp(&report, &other, sizeof report) == 0 && list.bytes[95] == 0xA5
          && list.count == 0, "of a list", line);
    return report;
}

/* The inline function writes this string, and the library's the same with a line feed; nothing stands behind either. */
static void form_is(fsq_record_t record, uint16_t offset, const char *text, int line) {
    uint8_t out[FSQ_FORM_LENGTH + 1], report[FSQ_REPORT_LENGTH];
    fsq_report_t told;
    fsq_line_t string;
    size_t length = strlen(text), i;
    int question = strncmp(text, "question ", 9) == 0 ? atoi(text + 9) : 0, stays = 1;
    memset(out, 0xA5, sizeof out);
    memset(&string, 0xA5, sizeof string);
    check(fsq_form_at(&record, offset, &string, &told) == (int) length && strcmp(string.text, text) == 0, text, line);
    check(fsq_form(record.bytes, sizeof record.bytes, offset, out, sizeof out, report, sizeof report) == FSQ_DONE
          && memcmp(out, text, length) == 0 && out[length] == 10, text, line);
    for (i = length + 1; i < sizeof out; i++)
        stays &= out[i] == 0xA5 && (i == FSQ_FORM_LENGTH || (uint8_t) string.text[i] == 0xA5);
    check(stays && memcmp(report, told.bytes, sizeof report) == 0, text, line);
    check(fsq_report_length(&told) == length + 1 && fsq_report_span_end(&told) == 0 && fsq_report_record(&told) == FSQ_NO_RECORD, text, line);
    check(fsq_line_question(&string) == question, text, line);
    /* A record has a form where it is encoded, and a question where it is not. */
    check((fsq_encode_at(&record, offset, out, sizeof out, NULL) < 0) == (question != 0), text, line);
}

/* A record with a repeat: these bytes, its list of them alone, its form, and the same of its 57 bytes. */
static void repeat_is(fsq_repeat_record_t record, uint16_t offset, const char *bytes, const char *form, int line) {
    uint8_t out[FSQ_STRING_LENGTH], again[FSQ_STRING_LENGTH];
    fsq_report_t told, other;
    fsq_list_t list;
    fsq_line_t string;
    int length, i, stays = 1;
    memset(out, 0xA5, sizeof out);
    memset(again, 0xA5, sizeof again);
    length = fsq_encode_repeat_at(&record, offset, out, sizeof out, &told);
    for (i = length < 0 ? 0 : length; i < FSQ_STRING_LENGTH; i++)
        stays &= out[i] == 0xA5;
    check(length > 0 && is(out, (size_t) length, bytes) && stays && fsq_report_length(&told) == (uint32_t) length, bytes, line);
    check(fsq_encode_bytes_at(record.bytes, sizeof record.bytes, offset, again, sizeof again, &other) == length && memcmp(&told, &other, sizeof told) == 0
          && memcmp(again, out, sizeof out) == 0, bytes, line);
    memset(again, 0xA5, sizeof again);
    check(fsq_shortest_repeat_at(&record, offset, again, sizeof again, &other) == length && memcmp(&told, &other, sizeof told) == 0
          && memcmp(again, out, sizeof out) == 0, bytes, line);
    memset(again, 0xA5, sizeof again);
    check(fsq_shortest_bytes_at(record.bytes, sizeof record.bytes, offset, again, sizeof again, NULL) == length && memcmp(again, out, sizeof out) == 0, bytes, line);
    check(fsq_list_repeat_at(&record, offset, &list, NULL) == 1 && list.count == 1 && is(fsq_entry_bytes(&list, 0), fsq_entry_length(&list, 0), bytes), bytes, line);
    check(fsq_list_bytes_at(record.bytes, sizeof record.bytes, offset, &list, NULL) == 1, bytes, line);
    check(fsq_form_repeat_at(&record, offset, &string, NULL) == (int) strlen(form) && strcmp(string.text, form) == 0, form, line);
    check(fsq_form_bytes_at(record.bytes, sizeof record.bytes, offset, &string, NULL) == (int) strlen(form) && strcmp(string.text, form) == 0, form, line);
}

/* A record with a repeat that is refused, with the question that refuses it, or 0 where none is asked; the report is that of the encoder, also by the
 * shortest string, and of the list. */
static fsq_report_t repeat_refused(fsq_repeat_record_t record, int number, int question, int line) {
    uint8_t out[FSQ_STRING_LENGTH];
    fsq_report_t report, other;
    fsq_list_t list;
    fsq_line_t string;
    int answer;
    memset(out, 0xA5, sizeof out);
    answer = fsq_encode_repeat_at(&record, 0, out, sizeof out, &report);
    check(answer == -number && is(out, sizeof out, "A5 A5 A5 A5 A5 A5 A5"), fsq_refusal_name(answer), line);
    check(fsq_shortest_repeat_at(&record, 0, out, sizeof out, &other) == -number && memcmp(&report, &other, sizeof report) == 0
          && is(out, sizeof out, "A5 A5 A5 A5 A5 A5 A5"), "of the shortest string", line);
    check(fsq_list_repeat_at(&record, 0, &list, &other) == -number && memcmp(&report, &other, sizeof report) == 0 && list.count == 0, "of a list", line);
    answer = fsq_form_repeat_at(&record, 0, &string, NULL);
    check(question == 0 ? answer == -number : answer == 10 && fsq_line_question(&string) == question, "of a form", line);
    return report;
}

/* REFERENCE 3. */
static int well_formed(const fsq_operand_t *operand) {
    int kind = operand->bytes[0], size = operand->bytes[1], prefix = operand->bytes[2], displacement_size = operand->bytes[3];
    int jump = operand->bytes[4], mode = operand->bytes[5], rm = operand->bytes[6];
    int32_t displacement = fsq_get_i32(operand->bytes + 11);
    int asked = mode == 0 ? (rm == 6 ? 2 : 0) : mode;
    if (size > 2 || displacement_size > 2 || jump > 3)
        return 0;
    switch (kind) {
    case 0:
        return prefix == 0 && mode == 0 && rm == 0 && displacement_size == 0;
    case 1:
        return prefix == 0 && mode == 3 && rm <= 7 && displacement_size == 0 && displacement == 0;
    case 2:
        return prefix == 0 && mode == 3 && rm <= 3 && displacement_size == 0 && displacement == 0 && size == 2;
    case 3:
        return (prefix == 0 || prefix == 0x26 || prefix == 0x2E || prefix == 0x36 || prefix == 0x3E) && mode <= 2 && rm <= 7
            && displacement_size == asked
            && (asked == 0 ? displacement == 0 : asked == 1 ? displacement >= -128 && displacement <= 127
                : displacement >= -32768 && displacement <= 65535);
    default:
        return 0;
    }
}

/* Well formed by REFERENCE 3, and by the library: AAM, which uses no operand, takes it as its first and as its second. */
static int taken(fsq_operand_t operand) {
    fsq_record_t aam = fsq_two(FSQ_AAM, operand, operand);
    uint8_t out[FSQ_STRING_LENGTH];
    return well_formed(&operand) && fsq_encode_at(&aam, 0, out, sizeof out, NULL) == 2;
}

static void numbers(void) {
    uint8_t at[5] = {0x34, 0x12, 0x00, 0x80, 0xA5};
    CHECK(fsq_get_u16(at) == 4660);
    CHECK(fsq_get_u32(at) == 2147488308u);
    CHECK(fsq_get_i32(at) == -2147478988);
    fsq_put_u32(at, (uint32_t) -2);
    CHECK(is(at, 5, "FE FF FF FF A5") && fsq_get_i32(at) == -2);
    fsq_put_u32(at, 2147483647u);
    CHECK(fsq_get_i32(at) == 2147483647);
    fsq_put_u32(at, 2147483648u);
    CHECK(fsq_get_i32(at) == -2147483647 - 1);
    fsq_put_u32(at, 0x12345678u);
    CHECK(is(at, 5, "78 56 34 12 A5") && fsq_get_i32(at) == 0x12345678);
    fsq_put_u16(at, 0xABCD);
    CHECK(is(at, 3, "CD AB 34"));
    CHECK(FSQ_VERSION_MAJOR == 2 && FSQ_VERSION_MINOR >= 6);
    CHECK(FSQ_MOST_RECORDS == 8000 && FSQ_SHORT_RECORDS == 1000 && FSQ_IMAGE_LENGTH == 56000 && FSQ_FILE_LENGTH == 456009);
    CHECK(FSQ_FILE_VERSION == 1 && FSQ_LONG_VERSION == 2 && FSQ_REPEAT_VERSION == 3 && FSQ_RECORD_LENGTH == 56 && FSQ_REPEAT_RECORD_LENGTH == 57);
    CHECK(FSQ_REPEAT_NONE == 0 && FSQ_REPEAT_REPNE == 0xF2 && FSQ_REPEAT_REP == 0xF3 && FSQ_REPEAT_AT == 2 && FSQ_READ_REPEAT_AT == 5);
    CHECK(FSQ_INVALID_REPEAT == 23 && sizeof(fsq_repeat_record_t) == 57);
    CHECK(FSQ_CUE_LENGTH == 4 && FSQ_CUE_CODE_LENGTH == 9 && FSQ_CUE_IMAGE_LENGTH == 1801 && FSQ_MOST_CUES == 200 && sizeof(fsq_cue_t) == 4);
    CHECK(FSQ_CUE_DELAY_AT == 0 && FSQ_CUE_PORT_AT == 2 && FSQ_CUE_MASK_AT == 3);
    CHECK(sizeof(fsq_operand_t) == 23 && sizeof(fsq_record_t) == 56 && sizeof(fsq_report_t) == 28);
    CHECK(sizeof(fsq_reading_t) == 24 && sizeof(fsq_list_t) == 97 && sizeof(fsq_line_t) == 64);
}

static void operands(void) {
    static const int32_t displacements[] = {
        -2147483647 - 1, -65537, -65536, -32769, -32768, -129, -128, -1, 0, 1, 127, 128, 255, 32767, 32768, 65535, 65536, 65537, 2147483647
    };
    size_t i;
    int n, size;
    fsq_operand_t operand;

    /* The bytes of REFERENCE 8: kind, size, prefix, displacement size, jump kind, mode, r/m, immediate, displacement, span. */
    operand = fsq_reg(FSQ_AL);
    CHECK(is(operand.bytes, 23, "01 01 00 00 00 03 00 00 00 00 00 00 00 00 00 00 00 00 00 00 00 00 00"));
    operand = fsq_reg(FSQ_DI);
    CHECK(is(operand.bytes, 23, "01 02 00 00 00 03 07 00 00 00 00 00 00 00 00 00 00 00 00 00 00 00 00"));
    operand = fsq_seg(FSQ_DS);
    CHECK(is(operand.bytes, 23, "02 02 00 00 00 03 03 00 00 00 00 00 00 00 00 00 00 00 00 00 00 00 00"));
    operand = fsq_imm(-2);
    CHECK(is(operand.bytes, 23, "00 00 00 00 00 00 00 FE FF FF FF 00 00 00 00 00 00 00 00 00 00 00 00"));
    operand = fsq_far(22136, 4660);
    CHECK(is(operand.bytes, 23, "00 00 00 00 01 00 00 34 12 00 00 78 56 00 00 00 00 00 00 00 00 00 00"));
    operand = fsq_mem(FSQ_UNSPECIFIED, FSQ_BASE_BX, 0);
    CHECK(is(operand.bytes, 23, "03 00 00 00 00 00 07 00 00 00 00 00 00 00 00 00 00 00 00 00 00 00 00"));
    operand = fsq_mem(FSQ_BYTE, FSQ_BASE_BP, 0);
    CHECK(is(operand.bytes, 23, "03 01 00 01 00 01 06 00 00 00 00 00 00 00 00 00 00 00 00 00 00 00 00"));
    operand = fsq_mem(FSQ_WORD, FSQ_BASE_BX_SI, -128);
    CHECK(is(operand.bytes, 23, "03 02 00 01 00 01 00 00 00 00 00 80 FF FF FF 00 00 00 00 00 00 00 00"));
    operand = fsq_mem(FSQ_WORD, FSQ_BASE_BX_SI, 128);
    CHECK(is(operand.bytes, 23, "03 02 00 02 00 02 00 00 00 00 00 80 00 00 00 00 00 00 00 00 00 00 00"));
    operand = fsq_mem(FSQ_WORD, FSQ_BASE_DI, 65535);
    CHECK(is(operand.bytes, 23, "03 02 00 02 00 02 05 00 00 00 00 FF FF 00 00 00 00 00 00 00 00 00 00"));
    operand = fsq_address(FSQ_UNSPECIFIED, 4660);
    CHECK(is(operand.bytes, 23, "03 00 00 02 00 00 06 00 00 00 00 34 12 00 00 00 00 00 00 00 00 00 00"));
    operand = fsq_with_span(fsq_with_segment(fsq_with_jump(fsq_address(FSQ_UNSPECIFIED, 0), FSQ_FAR), FSQ_SS), 7, 65536);
    CHECK(is(operand.bytes, 23, "03 00 36 02 01 00 06 00 00 00 00 00 00 00 00 07 00 00 00 00 00 01 00"));

    /* Nothing malformed, whatever is given. */
    for (n = LEAST; n <= REGISTERS; n++) {
        operand = fsq_reg((enum fsq_register) n);
        CHECK(taken(operand) && operand.bytes[FSQ_RM_AT] == ((unsigned) n & 7u) && operand.bytes[FSQ_SIZE_AT] == ((n & 8) != 0 ? 2 : 1));
        CHECK(taken(fsq_with_segment(operand, FSQ_ES)));
    }
    for (n = LEAST; n <= SEGMENTS; n++) {
        operand = fsq_seg((enum fsq_segment) n);
        CHECK(taken(operand) && operand.bytes[FSQ_RM_AT] == ((unsigned) n & 3u));
        operand = fsq_with_segment(fsq_mem(FSQ_BYTE, FSQ_BASE_SI, 0), (enum fsq_segment) n);
        CHECK(taken(operand) && operand.bytes[FSQ_PREFIX_AT] == 0x26 + 8 * (n & 3));
    }
    for (n = LEAST; n <= BASES; n++)
        for (i = 0; i < sizeof displacements / sizeof *displacements; i++) {
            int32_t given = displacements[i], kept = given;
            operand = fsq_mem(FSQ_UNSPECIFIED, (enum fsq_base) n, given);
            if (n < 0 || n > 7 || given < -32768 || given > 65535)
                kept = (int32_t) ((uint32_t) given % 65536u);
            CHECK(taken(operand) && fsq_get_i32(operand.bytes + FSQ_DISPLACEMENT_AT) == kept);
            CHECK(operand.bytes[FSQ_RM_AT] == (n < 0 || n > 7 ? 6 : n));
            CHECK((operand.bytes[FSQ_MODE_AT] == 0) == (n < 0 || n > 7 || (kept == 0 && n != 6)));
            CHECK((operand.bytes[FSQ_MODE_AT] == 2) == (n >= 0 && n <= 7 && (kept < -128 || kept > 127)));
        }
    for (n = LEAST; n <= SIZES; n++) {
        size = n < 0 || n > 2 ? 0 : n;
        operand = fsq_with_size(fsq_imm(5), (enum fsq_size) n);
        CHECK(taken(operand) && operand.bytes[FSQ_SIZE_AT] == size);
        operand = fsq_with_size(fsq_reg(FSQ_CX), (enum fsq_size) n);
        CHECK(taken(operand) && operand.bytes[FSQ_SIZE_AT] == size);
        operand = fsq_mem((enum fsq_size) n, FSQ_BASE_BP_DI, 5);
        CHECK(taken(operand) && operand.bytes[FSQ_SIZE_AT] == size);
        operand = fsq_address((enum fsq_size) n, 5);
        CHECK(taken(operand) && operand.bytes[FSQ_SIZE_AT] == size);
        operand = fsq_with_size(fsq_seg(FSQ_ES), (enum fsq_size) n);
        CHECK(taken(operand) && operand.bytes[FSQ_SIZE_AT] == FSQ_WORD);
    }
    for (n = LEAST; n <= JUMPS; n++) {
        operand = fsq_with_jump(fsq_imm(5), (enum fsq_jump) n);
        CHECK(taken(operand) && operand.bytes[FSQ_JUMP_AT] == (n < 0 || n > 3 ? 0 : n));
    }
    operand = fsq_with_segment(fsq_imm(5), FSQ_DS);
    CHECK(operand.bytes[FSQ_PREFIX_AT] == 0 && taken(operand));
    operand = fsq_with_segment(fsq_seg(FSQ_CS), FSQ_DS);
    CHECK(operand.bytes[FSQ_PREFIX_AT] == 0 && taken(operand));
}

static void records(void) {
    fsq_operand_t first = fsq_with_span(fsq_reg(FSQ_AX), 4, 6), second = fsq_with_span(fsq_imm(5), 7, 8);
    fsq_record_t two = fsq_record_with_span(fsq_two(FSQ_ADD, first, second), 0, 8);
    fsq_record_t one = fsq_record_with_span(fsq_one(FSQ_INC, first), 1, 6);
    fsq_record_t none = fsq_record_with_span(fsq_none(FSQ_PUSH), 3, 7);
    fsq_record_t empty = fsq_none(FSQ_SALC);
    fsq_report_t report;
    size_t i;
    int n, zeros = 1;
    CHECK(is(two.bytes, 10, "0E 02 00 00 00 00 08 00 00 00"));
    CHECK(memcmp(two.bytes + 10, first.bytes, 23) == 0 && memcmp(two.bytes + 33, second.bytes, 23) == 0);
    CHECK(is(one.bytes, 10, "10 01 01 00 00 00 06 00 00 00"));
    CHECK(memcmp(one.bytes + 10, first.bytes, 23) == 0);
    CHECK(is(one.bytes + 33, 23, "00 00 00 00 00 00 00 00 00 00 00 00 00 00 00 01 00 00 00 06 00 00 00"));
    CHECK(is(none.bytes, 10, "01 00 03 00 00 00 07 00 00 00"));
    CHECK(is(none.bytes + 10, 23, "00 00 00 00 00 00 00 00 00 00 00 00 00 00 00 03 00 00 00 07 00 00 00"));
    CHECK(memcmp(none.bytes + 10, none.bytes + 33, 23) == 0);
    for (i = 1; i < 56; i++)
        zeros &= empty.bytes[i] == 0;
    CHECK(empty.bytes[0] == 98 && zeros);
    for (n = LEAST; n <= OPERATIONS; n++) {
        uint8_t out[FSQ_STRING_LENGTH];
        fsq_record_t record = fsq_none((enum fsq_operation) n);
        int known = n >= 0 && n <= 98;
        CHECK(record.bytes[0] == (known ? n : 255));
        CHECK((fsq_encode_at(&record, 0, out, sizeof out, NULL) == -15) == !known);
    }

    /* REFERENCE 5: whose span a refusal has. PUSH has the first operand's, POP CS the instruction's, an immediate its own. */
    report = REFUSED(none, 0, FSQ_INVALID_OPERANDS);
    CHECK(fsq_report_span_start(&report) == 3 && fsq_report_span_end(&report) == 7);
    report = REFUSED(fsq_record_with_span(fsq_one(FSQ_POP, fsq_with_span(fsq_seg(FSQ_CS), 4, 6)), 0, 6), 0, FSQ_INVALID_OPERANDS);
    CHECK(fsq_report_span_start(&report) == 0 && fsq_report_span_end(&report) == 6);
    report = REFUSED(fsq_record_with_span(fsq_two(FSQ_MOV, fsq_mem(FSQ_BYTE, FSQ_BASE_BX, 0), fsq_with_span(fsq_imm(300), 14, 17)), 0, 17), 0,
                     FSQ_IMMEDIATE_OUT_OF_RANGE);
    CHECK(fsq_report_span_start(&report) == 14 && fsq_report_span_end(&report) == 17);
    CHECK(fsq_report_value(&report) == 300 && fsq_report_low(&report) == -128 && fsq_report_high(&report) == 255);
    CHECK(fsq_report_length(&report) == 0 && fsq_report_record(&report) == FSQ_NO_RECORD);
}

static void bytes(void) {
    fsq_operand_t ax = fsq_reg(FSQ_AX), al = fsq_reg(FSQ_AL), bx = fsq_reg(FSQ_BX), cl = fsq_reg(FSQ_CL);
    fsq_operand_t at_bx = fsq_mem(FSQ_UNSPECIFIED, FSQ_BASE_BX, 0);
    fsq_report_t report;
    ENCODES(fsq_two(FSQ_ADD, ax, fsq_imm(-1)), 0, "83 C0 FF");
    ENCODES(fsq_two(FSQ_ADD, ax, fsq_imm(200)), 0, "05 C8 00");
    ENCODES(fsq_two(FSQ_ADD, bx, fsq_imm(200)), 0, "81 C3 C8 00");
    ENCODES(fsq_two(FSQ_ADD, ax, fsq_imm(-129)), 0, "05 7F FF");
    ENCODES(fsq_two(FSQ_ADD, ax, fsq_imm(65535)), 0, "05 FF FF");
    ENCODES(fsq_two(FSQ_ADD, al, fsq_imm(-1)), 0, "04 FF");
    ENCODES(fsq_two(FSQ_ADD, fsq_reg(FSQ_BL), fsq_imm(5)), 0, "80 C3 05");
    ENCODES(fsq_two(FSQ_ADD, ax, bx), 0, "01 D8");
    ENCODES(fsq_two(FSQ_MOV, ax, bx), 0, "89 D8");
    ENCODES(fsq_two(FSQ_TEST, ax, bx), 0, "85 D8");
    ENCODES(fsq_two(FSQ_TEST, bx, fsq_imm(5)), 0, "F7 C3 05 00");
    ENCODES(fsq_two(FSQ_TEST, cl, at_bx), 0, "84 0F");
    ENCODES(fsq_two(FSQ_XCHG, cl, al), 0, "86 C8");
    ENCODES(fsq_two(FSQ_XCHG, fsq_reg(FSQ_CX), ax), 0, "91");
    ENCODES(fsq_two(FSQ_MOV, al, fsq_mem(FSQ_UNSPECIFIED, FSQ_BASE_BP, 0)), 0, "8A 46 00");
    ENCODES(fsq_two(FSQ_MOV, al, fsq_with_segment(at_bx, FSQ_DS)), 0, "3E 8A 07");
    ENCODES(fsq_two(FSQ_MOV, ax, fsq_address(FSQ_UNSPECIFIED, 4660)), 0, "A1 34 12");
    ENCODES(fsq_two(FSQ_MOV, fsq_reg(FSQ_CX), fsq_address(FSQ_UNSPECIFIED, 4660)), 0, "8B 0E 34 12");
    ENCODES(fsq_two(FSQ_MOV, ax, fsq_mem(FSQ_UNSPECIFIED, FSQ_BASE_NONE, 4660)), 0, "A1 34 12");
    ENCODES(fsq_two(FSQ_MOV, at_bx, fsq_with_size(fsq_imm(5), FSQ_WORD)), 0, "C7 07 05 00");
    ENCODES(fsq_two(FSQ_MOV, fsq_with_size(al, FSQ_UNSPECIFIED), fsq_seg(FSQ_ES)), 0, "8C C0");
    ENCODES(fsq_two(FSQ_LEA, ax, fsq_mem(FSQ_BYTE, FSQ_BASE_BX, 0)), 0, "8D 07");
    ENCODES(fsq_one(FSQ_PUSH, fsq_mem(FSQ_WORD, FSQ_BASE_BX, 0)), 0, "FF 37");
    ENCODES(fsq_one(FSQ_CALL, fsq_with_jump(at_bx, FSQ_FAR)), 0, "FF 1F");
    ENCODES(fsq_one(FSQ_CALL, fsq_with_jump(at_bx, FSQ_NEAR)), 0, "FF 17");
    ENCODES(fsq_one(FSQ_JMP, fsq_far(22136, 4660)), 0, "EA 34 12 78 56");
    ENCODES(fsq_one(FSQ_JMP, fsq_imm(0)), 65533, "E9 00 00");
    ENCODES(fsq_one(FSQ_JMP, fsq_with_jump(fsq_imm(2), FSQ_SHORT)), 0, "EB 00");
    ENCODES(fsq_one(FSQ_JE, fsq_imm(129)), 0, "74 7F");
    ENCODES(fsq_one(FSQ_JE, fsq_imm(130)), 256, "74 80");
    ENCODES(fsq_one(FSQ_RET, fsq_imm(0)), 0, "C2 00 00");
    ENCODES(fsq_none(FSQ_RET), 0, "C3");
    ENCODES(fsq_none(FSQ_AAM), 0, "D4 0A");
    ENCODES(fsq_none(FSQ_INT), 0, "CD 00");

    report = REFUSED(fsq_one(FSQ_JE, fsq_imm(130)), 0, FSQ_RELATIVE_JUMP_OUT_OF_RANGE);
    CHECK(fsq_report_value(&report) == 128 && fsq_report_low(&report) == 0 && fsq_report_high(&report) == 0);
    report = REFUSED(fsq_one(FSQ_JE, fsq_imm(0)), 65534, FSQ_RELATIVE_JUMP_OUT_OF_RANGE);
    CHECK(fsq_report_value(&report) == -65536);
    REFUSED(fsq_two(FSQ_ADD, at_bx, fsq_imm(5)), 0, FSQ_OPERAND_SIZE_NOT_SPECIFIED);
    REFUSED(fsq_two(FSQ_ADD, ax, cl), 0, FSQ_OPERAND_SIZES_DO_NOT_MATCH);
    REFUSED(fsq_one(FSQ_INC, at_bx), 0, FSQ_INVALID_OPERAND_SIZE);
    REFUSED(fsq_none(FSQ_INT1), 0, FSQ_NOT_SUPPORTED);
}

static void calls(void) {
    fsq_record_t aam = fsq_record_with_span(fsq_none(FSQ_AAM), 2, 5), malformed = aam, ret = fsq_none(FSQ_RET);
    fsq_record_t add = fsq_two(FSQ_ADD, fsq_reg(FSQ_AX), fsq_imm(5)), word = fsq_two(FSQ_ADD, fsq_mem(FSQ_WORD, FSQ_BASE_BX, 0), fsq_imm(5));
    fsq_report_t report;
    fsq_list_t list;
    uint8_t out[FSQ_STRING_LENGTH] = {0};
    size_t i;
    int stays = 1;

    /* A null slice, with length 0 and with another; null records, lists and reports. */
    CHECK(fsq_encode_at(&aam, 0, NULL, 0, &report) == -FSQ_SLICE_TOO_SHORT);
    CHECK(fsq_report_span_start(&report) == 2 && fsq_report_span_end(&report) == 5 && fsq_report_length(&report) == 0);
    CHECK(fsq_encode_at(&aam, 0, NULL, 7, NULL) == -FSQ_SLICE_TOO_SHORT);
    CHECK(fsq_encode_at(&aam, 0, out, 0, NULL) == -FSQ_SLICE_TOO_SHORT);
    CHECK(fsq_encode_at(&aam, 0, out, 1, NULL) == -FSQ_SLICE_TOO_SHORT && out[0] == 0);
    CHECK(fsq_encode_at(&aam, 0, out, 2, NULL) == 2 && is(out, 3, "D4 0A 00"));
    CHECK(fsq_encode_at(&ret, 0, NULL, 1, NULL) == -FSQ_SLICE_TOO_SHORT && fsq_encode_at(&ret, 0, NULL, 0, NULL) == -FSQ_SLICE_TOO_SHORT);
    CHECK(fsq_encode_at(&ret, 0, out, 1, NULL) == 1 && is(out, 2, "C3 0A"));
    CHECK(fsq_encode_at(NULL, 0, out, sizeof out, &report) == -FSQ_WRONG_LENGTH && fsq_report_record(&report) == FSQ_NO_RECORD);
    CHECK(fsq_encode_at(NULL, 0, NULL, 0, NULL) == -FSQ_WRONG_LENGTH);
    CHECK(fsq_list_at(&aam, 0, NULL, &report) == -FSQ_SLICE_TOO_SHORT && fsq_report_span_end(&report) == 5);
    CHECK(fsq_list_at(NULL, 0, &list, NULL) == -FSQ_WRONG_LENGTH);
    CHECK(fsq_list_at(NULL, 0, NULL, NULL) == -FSQ_WRONG_LENGTH);
    malformed.bytes[FSQ_COUNT_AT] = 3;
    CHECK(fsq_encode_at(&malformed, 0, out, sizeof out, NULL) == -FSQ_NOT_WELL_FORMED);

    /* REFERENCE 7. */
    memset(&list, 0xA5, sizeof list);
    CHECK(fsq_list_at(&add, 0, &list, &report) == 3 && list.count == 3 && fsq_report_length(&report) == 3);
    CHECK(fsq_entry_length(&list, 0) == 3 && is(fsq_entry_bytes(&list, 0), 3, "05 05 00"));
    CHECK(fsq_entry_length(&list, 1) == 3 && is(fsq_entry_bytes(&list, 1), 7, "83 C0 05 00 00 00 00"));
    CHECK(fsq_entry_length(&list, 2) == 4 && is(fsq_entry_bytes(&list, 2), 4, "81 C0 05 00"));
    for (i = 24; i < 96; i++)
        stays &= list.bytes[i] == 0xA5;
    CHECK(stays);
    CHECK(fsq_entry_length(&list, 3) == 0 && fsq_entry_length(&list, 11) == 0 && fsq_entry_length(&list, 12) == 0);
    CHECK(fsq_entry_length(&list, (size_t) -1) == 0 && fsq_entry_bytes(&list, (size_t) -1) == list.bytes + 1);
    CHECK(fsq_list_at(&word, 0, &list, NULL) == 12 && fsq_entry_length(&list, 11) == 7 && fsq_entry_length(&list, 12) == 0 && is(fsq_entry_bytes(&list, 0), fsq_entry_length(&list, 0), "83 07 05"));
    add = fsq_one(FSQ_PUSH, fsq_reg(FSQ_AX));
    CHECK(fsq_list_at(&add, 0, &list, NULL) == 2 && is(fsq_entry_bytes(&list, 0), fsq_entry_length(&list, 0), "50"));
    CHECK(is(fsq_entry_bytes(&list, 1), fsq_entry_length(&list, 1), "FF F0"));
}

/* Document 02, No. 8, by the SDM's forms: the shortest string of an instruction, and of the same length the lowest. */
static void shortest(void) {
    fsq_operand_t ax = fsq_reg(FSQ_AX), al = fsq_reg(FSQ_AL), bx = fsq_reg(FSQ_BX), bl = fsq_reg(FSQ_BL), cx = fsq_reg(FSQ_CX), five = fsq_imm(5);
    fsq_operand_t at_bx = fsq_mem(FSQ_UNSPECIFIED, FSQ_BASE_BX, 0), at_bp = fsq_mem(FSQ_UNSPECIFIED, FSQ_BASE_BP, 0), in_mode_2 = fsq_mem(FSQ_WORD, FSQ_BASE_BX, 4660);
    fsq_record_t jmp = fsq_record_with_span(fsq_one(FSQ_JMP, five), 2, 5), mov = fsq_two(FSQ_MOV, ax, fsq_with_segment(at_bx, FSQ_DS)), malformed = jmp, unknown = jmp;
    fsq_repeat_record_t repeated;
    fsq_report_t report;
    uint8_t out[FSQ_STRING_LENGTH + 1];
    memset(out, 0xA5, sizeof out);

    /* The accumulator's own form, 05 before 83 and 81; 83 where its byte, extended, is the immediate. */
    SHORTEST(fsq_two(FSQ_ADD, ax, five), 0, "05 05 00");
    SHORTEST(fsq_two(FSQ_ADD, ax, fsq_imm(-1)), 0, "05 FF FF");
    SHORTEST(fsq_two(FSQ_ADD, ax, fsq_imm(65535)), 0, "05 FF FF");
    SHORTEST(fsq_two(FSQ_ADD, bx, fsq_imm(65535)), 0, "83 C3 FF");
    SHORTEST(fsq_two(FSQ_ADD, bx, fsq_imm(127)), 0, "83 C3 7F");
    SHORTEST(fsq_two(FSQ_ADD, bx, fsq_imm(200)), 0, "81 C3 C8 00");
    SHORTEST(fsq_two(FSQ_ADD, bx, fsq_imm(65408)), 0, "83 C3 80");
    SHORTEST(fsq_two(FSQ_ADD, bx, fsq_imm(65407)), 0, "81 C3 7F FF");
    SHORTEST(fsq_two(FSQ_ADD, al, five), 0, "04 05");
    SHORTEST(fsq_two(FSQ_ADD, bl, five), 0, "80 C3 05");
    SHORTEST(fsq_two(FSQ_TEST, al, five), 0, "A8 05");
    SHORTEST(fsq_two(FSQ_MOV, ax, five), 0, "B8 05 00");
    SHORTEST(fsq_two(FSQ_MOV, ax, fsq_address(FSQ_UNSPECIFIED, 4660)), 0, "A1 34 12");
    SHORTEST(fsq_two(FSQ_MOV, cx, fsq_address(FSQ_UNSPECIFIED, 4660)), 0, "8B 0E 34 12");
    SHORTEST(fsq_one(FSQ_PUSH, ax), 0, "50");
    SHORTEST(fsq_one(FSQ_INC, ax), 0, "40");
    /* Two registers: the lower opcode, and of XCHG, which has no first and second, the lower ModRM. */
    SHORTEST(fsq_two(FSQ_MOV, ax, bx), 0, "89 D8");
    SHORTEST(fsq_two(FSQ_XCHG, bx, cx), 0, "87 CB");
    SHORTEST(fsq_two(FSQ_XCHG, cx, bx), 0, "87 CB");
    SHORTEST(fsq_two(FSQ_XCHG, ax, cx), 0, "91");
    SHORTEST(fsq_two(FSQ_XCHG, ax, ax), 0, "90");
    SHORTEST(fsq_none(FSQ_NOP), 0, "90");
    SHORTEST(fsq_none(FSQ_AAM), 0, "D4 0A");
    SHORTEST(fsq_none(FSQ_REP), 0, "F3");
    /* A prefix that names the default segment goes, another stays. */
    SHORTEST(mov, 0, "8B 07");
    SHORTEST(fsq_two(FSQ_MOV, ax, fsq_with_segment(at_bx, FSQ_ES)), 0, "26 8B 07");
    SHORTEST(fsq_two(FSQ_LEA, ax, fsq_with_segment(at_bx, FSQ_ES)), 0, "26 8D 07");
    SHORTEST(fsq_two(FSQ_MOV, al, fsq_with_segment(at_bp, FSQ_SS)), 0, "8A 46 00");
    SHORTEST(fsq_two(FSQ_MOV, al, fsq_with_segment(at_bp, FSQ_DS)), 0, "3E 8A 46 00");
    SHORTEST(fsq_two(FSQ_MOV, ax, fsq_with_segment(fsq_address(FSQ_UNSPECIFIED, 4660), FSQ_DS)), 0, "A1 34 12");
    /* The shortest displacement that is the same modulo 65,536. */
    SHORTEST(fsq_two(FSQ_MOV, ax, fsq_mem(FSQ_UNSPECIFIED, FSQ_BASE_BX, 65535)), 0, "8B 47 FF");
    ENCODES(fsq_two(FSQ_MOV, ax, fsq_mem(FSQ_UNSPECIFIED, FSQ_BASE_BX, 65535)), 0, "8B 87 FF FF");
    SHORTEST(fsq_two(FSQ_MOV, ax, fsq_mem(FSQ_UNSPECIFIED, FSQ_BASE_BX, 128)), 0, "8B 87 80 00");
    fsq_put_u32(in_mode_2.bytes + FSQ_DISPLACEMENT_AT, 0);
    ENCODES(fsq_two(FSQ_ADD, fsq_with_segment(in_mode_2, FSQ_DS), fsq_imm(200)), 0, "3E 81 87 00 00 C8 00");
    SHORTEST(fsq_two(FSQ_ADD, fsq_with_segment(in_mode_2, FSQ_DS), fsq_imm(200)), 0, "81 07 C8 00");
    /* EB where it reaches, of every kind, from -128 to 127 behind it. */
    SHORTEST(jmp, 0, "EB 03");
    SHORTEST(fsq_one(FSQ_JMP, fsq_with_jump(five, FSQ_NEAR)), 0, "EB 03");
    SHORTEST(fsq_one(FSQ_JMP, fsq_with_jump(five, FSQ_SHORT)), 0, "EB 03");
    SHORTEST(fsq_one(FSQ_JMP, fsq_imm(129)), 0, "EB 7F");
    SHORTEST(fsq_one(FSQ_JMP, fsq_imm(130)), 0, "E9 7F 00");
    SHORTEST(fsq_one(FSQ_JMP, fsq_imm(130)), 256, "EB 80");
    SHORTEST(fsq_one(FSQ_JMP, fsq_imm(129)), 256, "E9 7E FF");
    SHORTEST(fsq_one(FSQ_JMP, fsq_imm(0)), 65534, "EB 00");
    SHORTEST(fsq_one(FSQ_JE, fsq_imm(129)), 0, "74 7F");
    SHORTEST(fsq_one(FSQ_CALL, five), 0, "E8 02 00");

    /* 9 is given by the length of what each would write. */
    CHECK(fsq_encode_at(&jmp, 0, out, 2, &report) == -FSQ_SLICE_TOO_SHORT && out[0] == 0xA5);
    CHECK(fsq_shortest_at(&jmp, 0, out, 2, NULL) == 2 && is(out, 3, "EB 03 A5"));
    CHECK(fsq_shortest_at(&jmp, 0, out, 1, &report) == -FSQ_SLICE_TOO_SHORT && is(out, 3, "EB 03 A5"));
    CHECK(fsq_report_span_start(&report) == 2 && fsq_report_span_end(&report) == 5 && fsq_report_length(&report) == 0);
    CHECK(fsq_encode_at(&mov, 0, out, 2, NULL) == -FSQ_SLICE_TOO_SHORT && fsq_shortest_at(&mov, 0, out, 2, NULL) == 2 && is(out, 3, "8B 07 A5"));

    /* Null slices, records and reports, and what is no record. */
    CHECK(fsq_shortest_at(&jmp, 0, NULL, 0, &report) == -FSQ_SLICE_TOO_SHORT && fsq_report_span_end(&report) == 5);
    CHECK(fsq_shortest_at(&jmp, 0, NULL, 7, NULL) == -FSQ_SLICE_TOO_SHORT && fsq_shortest_at(&jmp, 0, out, 0, NULL) == -FSQ_SLICE_TOO_SHORT);
    CHECK(fsq_shortest_at(NULL, 0, out, sizeof out, &report) == -FSQ_WRONG_LENGTH && fsq_report_record(&report) == FSQ_NO_RECORD);
    CHECK(fsq_shortest_at(NULL, 0, NULL, 0, NULL) == -FSQ_WRONG_LENGTH && fsq_shortest_repeat_at(NULL, 0, out, sizeof out, NULL) == -FSQ_WRONG_LENGTH);
    CHECK(fsq_shortest_bytes_at(NULL, 56, 0, out, sizeof out, NULL) == -FSQ_WRONG_LENGTH);
    CHECK(fsq_shortest_bytes_at(jmp.bytes, 55, 0, out, sizeof out, NULL) == -FSQ_WRONG_LENGTH);
    CHECK(fsq_shortest_bytes_at(jmp.bytes, 56, 0, out, sizeof out, NULL) == 2);
    repeated = fsq_with_repeat(jmp, FSQ_REPEAT_NONE);
    CHECK(fsq_shortest_repeat_at(&repeated, 0, out, 2, NULL) == 2 && is(out, 3, "EB 03 A5") && fsq_shortest_repeat_at(&repeated, 0, out, 1, NULL) == -FSQ_SLICE_TOO_SHORT);
    CHECK(fsq_shortest_bytes_at(repeated.bytes, 57, 256, out, sizeof out, NULL) == 3 && is(out, 4, "E9 02 FF A5"));
    malformed.bytes[FSQ_COUNT_AT] = 3;
    CHECK(fsq_shortest_at(&malformed, 0, NULL, 0, NULL) == -FSQ_NOT_WELL_FORMED);
    unknown.bytes[FSQ_OPERATION_AT] = 99;
    CHECK(fsq_shortest_at(&unknown, 0, NULL, 0, NULL) == -FSQ_UNKNOWN_CODE);
    CHECK(fsq_shortest_bytes_at(unknown.bytes, 55, 0, NULL, 0, NULL) == -FSQ_WRONG_LENGTH);
}

/* REFERENCE 9: the settled lines of document 02, No. 3, then a line for each kind of form and each question. */
static void forms(void) {
    fsq_operand_t ax = fsq_reg(FSQ_AX), al = fsq_reg(FSQ_AL), bx = fsq_reg(FSQ_BX), bl = fsq_reg(FSQ_BL), cl = fsq_reg(FSQ_CL), cx = fsq_reg(FSQ_CX);
    fsq_operand_t at_bx = fsq_mem(FSQ_UNSPECIFIED, FSQ_BASE_BX, 0), word = fsq_mem(FSQ_WORD, FSQ_BASE_BX, 0), five = fsq_imm(5), beyond = fsq_imm(65536);
    fsq_operand_t address = fsq_address(FSQ_UNSPECIFIED, 4660), far_65536 = fsq_with_jump(beyond, FSQ_FAR);
    fsq_record_t mov = fsq_record_with_span(fsq_two(FSQ_MOV, bx, five), 2, 5), malformed = mov, unknown = mov;
    fsq_report_t report;
    fsq_line_t line;

    FORM(fsq_two(FSQ_ADD, bx, five), 0, "form 83 /0 Reg:Word Imm:Unspecified -128..127");
    FORM(mov, 0, "form BB Reg:Word Imm:Unspecified -32768..65535");
    FORM(fsq_one(FSQ_PUSH, bx), 0, "form 53 Reg:Word -");
    FORM(fsq_two(FSQ_XCHG, ax, cx), 0, "form 91 Reg:Word Reg:Word -");
    FORM(fsq_none(FSQ_NOP), 0, "form 90 -");
    FORM(fsq_two(FSQ_XCHG, ax, ax), 0, "form 90 Reg:Word Reg:Word -");
    FORM(fsq_two(FSQ_SHL, bx, fsq_imm(1)), 0, "form D1 /4 Reg:Word Imm:Unspecified -");
    FORM(fsq_two(FSQ_SHL, bx, fsq_with_size(fsq_imm(1), FSQ_BYTE)), 0, "form D1 /4 Reg:Word Imm:Byte -");
    FORM(fsq_two(FSQ_SHL, bx, cl), 0, "form D3 /4 Reg:Word Reg:Byte -");
    FORM(fsq_two(FSQ_MOV, al, fsq_with_segment(address, FSQ_ES)), 0, "form A0 Reg:Byte Mem:Unspecified -");
    FORM(fsq_two(FSQ_MOV, address, ax), 0, "form A3 Mem:Unspecified Reg:Word -");
    FORM(fsq_two(FSQ_MOV, bx, fsq_seg(FSQ_DS)), 0, "form 8C Reg:Word Seg:Word -");
    FORM(fsq_two(FSQ_MOV, fsq_seg(FSQ_DS), bx), 0, "form 8E Seg:Word Reg:Word -");
    FORM(fsq_two(FSQ_IN, al, five), 0, "form E4 Reg:Byte Imm:Unspecified 0..255");
    FORM(fsq_two(FSQ_OUT, five, ax), 0, "form E7 Imm:Unspecified Reg:Word 0..255");
    FORM(fsq_one(FSQ_JMP, fsq_far(22136, 4660)), 0, "form EA Imm:Unspecified 0..65535");
    FORM(fsq_one(FSQ_JE, fsq_imm(129)), 0, "form 74 Imm:Unspecified -");
    FORM(fsq_one(FSQ_LOOP, fsq_imm(0)), 0, "form E2 Imm:Unspecified -");
    FORM(fsq_one(FSQ_CALL, five), 0, "form E8 Imm:Unspecified 0..65535");
    FORM(fsq_one(FSQ_JMP, five), 0, "form E9 Imm:Unspecified 0..65535");
    FORM(fsq_one(FSQ_JMP, fsq_with_jump(five, FSQ_SHORT)), 0, "form EB Imm:Unspecified 0..65535");
    FORM(fsq_one(FSQ_INT, five), 0, "form CD Imm:Unspecified 0..255");
    FORM(fsq_one(FSQ_RET, five), 0, "form C2 Imm:Unspecified 0..65535");
    FORM(fsq_none(FSQ_RET), 0, "form C3 -");
    FORM(fsq_none(FSQ_AAM), 0, "form D4 -");
    FORM(fsq_one(FSQ_XLATB, word), 0, "form D7 Mem:Word -");
    /* The prefix is no opcode, and the reg field of /r no digit. */
    FORM(fsq_two(FSQ_MOV, ax, fsq_with_segment(at_bx, FSQ_ES)), 0, "form 8B Reg:Word Mem:Unspecified -");
    FORM(fsq_two(FSQ_SUB, fsq_mem(FSQ_BYTE, FSQ_BASE_BX, 0), five), 0, "form 80 /5 Mem:Byte Imm:Unspecified -128..255");
    FORM(fsq_two(FSQ_XCHG, cl, at_bx), 0, "form 86 Reg:Byte Mem:Unspecified -");
    FORM(fsq_one(FSQ_CALL, fsq_with_jump(at_bx, FSQ_FAR)), 0, "form FF /3 Mem:Unspecified -");

    malformed.bytes[FSQ_COUNT_AT] = 3;
    FORM(malformed, 0, "question 1");
    FORM(fsq_none(FSQ_ESC), 0, "question 2");
    FORM(fsq_two(FSQ_ADD, at_bx, five), 0, "question 3");
    FORM(fsq_one(FSQ_POP, five), 0, "question 3");
    FORM(fsq_one(FSQ_POP, fsq_with_size(five, FSQ_BYTE)), 0, "question 3");
    FORM(fsq_one(FSQ_POP, fsq_with_size(five, FSQ_WORD)), 0, "question 5");
    FORM(fsq_two(FSQ_MOV, ax, bl), 0, "question 4");
    FORM(fsq_one(FSQ_CALL, far_65536), 0, "question 5");
    FORM(fsq_one(FSQ_JMP, beyond), 0, "question 6");
    FORM(fsq_one(FSQ_JMP, far_65536), 0, "question 6");
    FORM(fsq_one(FSQ_JE, fsq_imm(130)), 0, "question 7");
    FORM(fsq_one(FSQ_JE, fsq_imm(130)), 256, "form 74 Imm:Unspecified -");

    /* Null records, lines and reports; an unknown code before a line that is null. */
    CHECK(fsq_form_at(&mov, 0, &line, NULL) == 46 && line.text[45] == '5' && line.text[46] == 0);
    CHECK(fsq_form_at(NULL, 0, &line, &report) == -FSQ_WRONG_LENGTH && line.text[0] == 0 && line.text[1] == 'o');
    CHECK(fsq_line_question(&line) == 0 && fsq_report_length(&report) == 0);
    CHECK(fsq_form_at(&mov, 0, NULL, &report) == -FSQ_SLICE_TOO_SHORT && fsq_report_span_start(&report) == 2 && fsq_report_span_end(&report) == 5);
    CHECK(fsq_form_at(&mov, 0, NULL, NULL) == -FSQ_SLICE_TOO_SHORT && fsq_form_at(NULL, 0, NULL, NULL) == -FSQ_WRONG_LENGTH);
    unknown.bytes[FSQ_OPERATION_AT] = 99;
    CHECK(fsq_form_at(&unknown, 0, &line, NULL) == -FSQ_UNKNOWN_CODE && fsq_form_at(&unknown, 0, NULL, NULL) == -FSQ_UNKNOWN_CODE);
}

/* Reads bytes in hexadecimal. */
static int reads(const char *text, uint16_t offset, fsq_reading_t *reading) {
    uint8_t read[FSQ_STRING_LENGTH];
    size_t length = 0;
    unsigned byte;
    int taken_of_text = 0;
    while (length < sizeof read && sscanf(text, "%2x%n", &byte, &taken_of_text) == 1) {
        read[length++] = (uint8_t) byte;
        text += taken_of_text;
    }
    return fsq_read_at(read, length, offset, reading);
}

static void readings(void) {
    static const char *const alone[] = {"F3", "F2", "F3 90", "F2 90", "F3 F3 A4", "F2 F3 A4", "F3 26 A4", "F3 F0 A4", "F3 0F", "F3 A3", "F3 A8", "F3 A9", "F3 B0"};
    fsq_reading_t r, kept;
    uint8_t byte = 0xC3;
    size_t i;
    CHECK(reads("83 C0 05", 0, &r) == 3 && fsq_reading_length(&r) == 3 && fsq_reading_operation(&r) == FSQ_ADD);
    CHECK(fsq_reading_width(&r) == FSQ_WORD && fsq_reading_opcode(&r) == 0x83 && fsq_reading_extension(&r) == FSQ_EXTENSION_DIGIT + 0);
    CHECK(fsq_reading_kind(&r, 0) == FSQ_READ_REGISTER && fsq_reading_number(&r, 0) == FSQ_AX % 8);
    CHECK(fsq_reading_kind(&r, 1) == FSQ_READ_IMMEDIATE && fsq_reading_value(&r, 1) == 5);
    CHECK(fsq_reading_operand(&r, 0) == r.bytes + 8 && fsq_reading_operand(&r, 1) == r.bytes + 16 && fsq_reading_operand(&r, 2) == r.bytes + 16);
    CHECK(reads("05 05 00", 0, &r) == 3 && fsq_reading_opcode(&r) == 0x05 && fsq_reading_extension(&r) == FSQ_EXTENSION_NONE);
    CHECK(reads("83 C0 FF", 0, &r) == 3 && fsq_reading_value(&r, 1) == 65535);
    CHECK(reads("50", 0, &r) == 1 && fsq_reading_opcode(&r) == 0x50 && fsq_reading_extension(&r) == FSQ_EXTENSION_PLUS_REGISTER);
    CHECK(fsq_reading_kind(&r, 1) == FSQ_READ_NONE);
    CHECK(reads("1E", 0, &r) == 1 && fsq_reading_operation(&r) == FSQ_PUSH && fsq_reading_opcode(&r) == 0x06);
    CHECK(fsq_reading_extension(&r) == FSQ_EXTENSION_PLUS_SEGMENT);
    CHECK(fsq_reading_kind(&r, 0) == FSQ_READ_SEGMENT_REGISTER && fsq_reading_number(&r, 0) == FSQ_DS);
    CHECK(reads("D4 0A", 0, &r) == 2 && fsq_reading_extension(&r) == FSQ_EXTENSION_0A && fsq_reading_width(&r) == FSQ_UNSPECIFIED);
    CHECK(reads("8A 07", 0, &r) == 2 && fsq_reading_width(&r) == FSQ_BYTE && fsq_reading_extension(&r) == FSQ_EXTENSION_MODRM);
    CHECK(fsq_reading_kind(&r, 1) == FSQ_READ_MEMORY && fsq_reading_number(&r, 1) == FSQ_BASE_BX);
    CHECK(fsq_reading_segment(&r, 1) == FSQ_DS && fsq_reading_value(&r, 1) == 0);
    CHECK(reads("8A 46 00", 0, &r) == 3 && fsq_reading_number(&r, 1) == FSQ_BASE_BP && fsq_reading_segment(&r, 1) == FSQ_SS);
    CHECK(reads("26 8A 07", 0, &r) == 3 && fsq_reading_segment(&r, 1) == FSQ_ES);
    CHECK(reads("A1 34 12", 0, &r) == 3 && fsq_reading_number(&r, 1) == FSQ_BASE_NONE && fsq_reading_value(&r, 1) == 4660);
    CHECK(reads("EA 34 12 78 56", 0, &r) == 5 && fsq_reading_kind(&r, 0) == FSQ_READ_FAR);
    CHECK(fsq_reading_value(&r, 0) == 4660 && fsq_reading_far_segment(&r, 0) == 22136);
    CHECK(reads("74 7F", 0, &r) == 2 && fsq_reading_kind(&r, 0) == FSQ_READ_NEAR && fsq_reading_value(&r, 0) == 129);
    CHECK(reads("74 80", 256, &r) == 2 && fsq_reading_value(&r, 0) == 130);
    CHECK(reads("D1 E0", 0, &r) == 2 && fsq_reading_kind(&r, 1) == FSQ_READ_ONE && fsq_reading_extension(&r) == FSQ_EXTENSION_DIGIT + 4);
    CHECK(reads("FF 17", 0, &r) == 2 && fsq_reading_width(&r) == FSQ_WORD && fsq_reading_extension(&r) == FSQ_EXTENSION_DIGIT + 2);
    CHECK(reads("FF 1F", 0, &r) == 2 && fsq_reading_width(&r) == FSQ_UNSPECIFIED);
    CHECK(fsq_reading_repeat(&r) == FSQ_REPEAT_NONE && r.bytes[5] == 0);
    /* Document 02, No. 11: what F2 and F3 stand before. */
    CHECK(reads("F3 A4", 0, &r) == 2 && fsq_reading_operation(&r) == FSQ_MOVSB && fsq_reading_repeat(&r) == FSQ_REPEAT_REP && r.bytes[5] == 0xF3);
    CHECK(fsq_reading_length(&r) == 2 && fsq_reading_opcode(&r) == 0xA4 && fsq_reading_extension(&r) == FSQ_EXTENSION_NONE && fsq_reading_width(&r) == FSQ_UNSPECIFIED);
    CHECK(r.bytes[6] == 0 && r.bytes[7] == 0 && fsq_reading_kind(&r, 0) == FSQ_READ_NONE && fsq_reading_kind(&r, 1) == FSQ_READ_NONE);
    CHECK(reads("F2 AE 90", 0, &r) == 2 && fsq_reading_operation(&r) == FSQ_SCASB && fsq_reading_repeat(&r) == FSQ_REPEAT_REPNE && fsq_reading_opcode(&r) == 0xAE);
    CHECK(reads("F3 A4", 0, NULL) == 2 && reads("A4 A4", 0, &r) == 1 && fsq_reading_repeat(&r) == FSQ_REPEAT_NONE);
    for (i = 0; i < sizeof alone / sizeof *alone; i++) {
        CHECK(reads(alone[i], 0, &r) == 1 && fsq_reading_operation(&r) == (alone[i][1] == '3' ? FSQ_REP : FSQ_REPNE) && fsq_reading_repeat(&r) == FSQ_REPEAT_NONE);
        CHECK(fsq_reading_opcode(&r) == (alone[i][1] == '3' ? 0xF3 : 0xF2) && r.bytes[5] == 0);
    }
    for (i = 0; i < 256; i++) {
        uint8_t string[2] = {0xF3, (uint8_t) i};
        int is_string = (i >= 0xA4 && i <= 0xA7) || (i >= 0xAA && i <= 0xAF);
        CHECK(fsq_read_at(string, 2, 0, &r) == (is_string ? 2 : 1) && fsq_reading_repeat(&r) == (is_string ? FSQ_REPEAT_REP : FSQ_REPEAT_NONE));
        string[0] = 0xF2;
        CHECK(fsq_read_at(string, 2, 0, &r) == (is_string ? 2 : 1) && fsq_reading_repeat(&r) == (is_string ? FSQ_REPEAT_REPNE : FSQ_REPEAT_NONE));
        CHECK(fsq_read_at(string, 1, 0, &r) == 1 && fsq_reading_operation(&r) == FSQ_REPNE);
    }
    kept = r;
    CHECK(reads("26 8B C0", 0, &r) == -FSQ_NOT_AN_INSTRUCTION && reads("26", 0, &r) == -FSQ_NOT_COMPLETE);
    CHECK(reads("83 C0", 0, &r) == -FSQ_NOT_COMPLETE && reads("26 8B C0", 0, NULL) == -FSQ_NOT_AN_INSTRUCTION);
    CHECK(fsq_read_at(NULL, 0, 0, &r) == -FSQ_NOT_COMPLETE && fsq_read_at(NULL, 5, 0, NULL) == -FSQ_NOT_COMPLETE);
    CHECK(fsq_read_at(&byte, 0, 0, &r) == -FSQ_NOT_COMPLETE);
    CHECK(memcmp(&kept, &r, sizeof r) == 0);
}

static void shows(void) {
    fsq_record_t mov = fsq_two(FSQ_MOV, fsq_reg(FSQ_AX), fsq_imm(4660)), aam = fsq_none(FSQ_AAM), loop = fsq_one(FSQ_LOOP, fsq_imm(256));
    fsq_record_t far_loop = fsq_record_with_span(fsq_one(FSQ_LOOP, fsq_with_span(fsq_imm(512), 25, 28)), 20, 28), unknown = aam;
    uint8_t file[9 + 3 * 56 + 1], image[9];
    fsq_report_t report;
    memset(file, 0xA5, sizeof file);
    memset(image, 0xA5, sizeof image);

    CHECK(fsq_write_header(file, 8, 256, 3) == -FSQ_SLICE_TOO_SHORT && fsq_write_header(NULL, 0, 256, 3) == -FSQ_SLICE_TOO_SHORT);
    CHECK(fsq_write_header(NULL, 9, 256, 3) == -FSQ_SLICE_TOO_SHORT && fsq_write_header(file, 9, 256, 8001) == -FSQ_WRONG_LENGTH);
    CHECK(fsq_write_header(NULL, 0, 256, 8001) == -FSQ_WRONG_LENGTH && fsq_write_header(file, 9, 256, 65535) == -FSQ_WRONG_LENGTH);
    CHECK(file[0] == 0xA5);
    CHECK(fsq_write_header(file, sizeof file, 256, 3) == 9 && is(file, 10, "46 53 51 01 00 00 01 03 00 A5"));
    CHECK(fsq_write_record(file, 64, 0, &mov) == -FSQ_SLICE_TOO_SHORT && fsq_write_record(NULL, 65, 0, &mov) == -FSQ_SLICE_TOO_SHORT);
    CHECK(fsq_write_record(file, sizeof file, 3, &mov) == -FSQ_SLICE_TOO_SHORT);
    CHECK(fsq_write_record(file, sizeof file, 1000, &mov) == -FSQ_SLICE_TOO_SHORT && fsq_write_record(file, sizeof file, 7999, &mov) == -FSQ_SLICE_TOO_SHORT);
    CHECK(fsq_write_record(file, sizeof file, 8000, &mov) == -FSQ_WRONG_LENGTH && fsq_write_record(file, sizeof file, 65535, &mov) == -FSQ_WRONG_LENGTH);
    CHECK(fsq_write_record(file, 65, 0, NULL) == -FSQ_WRONG_LENGTH);
    CHECK(file[9] == 0xA5);
    CHECK(fsq_write_record(file, sizeof file, 0, &mov) == 65 && fsq_write_record(file, sizeof file, 1, &aam) == 121);
    CHECK(fsq_write_record(file, sizeof file, 2, &loop) == 177 && file[177] == 0xA5 && memcmp(file + 65, aam.bytes, 56) == 0);
    CHECK(fsq_load_show(file, 177, image, sizeof image, &report) == 7 && is(image, 9, "B8 34 12 D4 0A E2 F9 A5 A5"));
    CHECK(fsq_report_length(&report) == 7 && fsq_report_record(&report) == FSQ_NO_RECORD);
    CHECK(fsq_load_show(file, 177, image, 7, NULL) == 7);
    CHECK(fsq_load_show(file, 178, image, sizeof image, NULL) == -FSQ_WRONG_LENGTH);
    CHECK(fsq_load_show(file, 3, image, sizeof image, NULL) == -FSQ_WRONG_LENGTH);
    CHECK(fsq_load_show(file, 177, image, 6, &report) == -FSQ_SLICE_TOO_SHORT && fsq_report_record(&report) == 2);
    CHECK(fsq_load_show(file, 177, NULL, 0, &report) == -FSQ_SLICE_TOO_SHORT && fsq_report_record(&report) == 0);
    CHECK(fsq_load_show(file, 177, NULL, 56000, NULL) == -FSQ_SLICE_TOO_SHORT && fsq_load_show(file, 177, image, 0, NULL) == -FSQ_SLICE_TOO_SHORT);
    CHECK(fsq_load_show(NULL, 0, image, sizeof image, &report) == -FSQ_NO_MARK && fsq_report_record(&report) == FSQ_NO_RECORD);
    CHECK(fsq_load_show(NULL, 177, NULL, 0, NULL) == -FSQ_NO_MARK && fsq_load_show(file, 0, image, 9, NULL) == -FSQ_NO_MARK);

    /* LOOP 512 at 261: its end is 263, the distance 249. */
    CHECK(fsq_write_record(file, 177, 2, &far_loop) == 177);
    CHECK(fsq_load_show(file, 177, image, sizeof image, &report) == -FSQ_RELATIVE_JUMP_OUT_OF_RANGE && fsq_report_value(&report) == 249);
    CHECK(fsq_report_record(&report) == 2 && fsq_report_span_start(&report) == 25 && fsq_report_span_end(&report) == 28);
    unknown.bytes[FSQ_OPERATION_AT] = 99;
    CHECK(fsq_write_record(file, 177, 1, &unknown) == 177 - 56);
    CHECK(fsq_load_show(file, 177, image, sizeof image, &report) == -FSQ_UNKNOWN_CODE && fsq_report_record(&report) == 1);
    fsq_put_u16(file + FSQ_HEADER_VERSION_AT, 2);
    CHECK(fsq_load_show(file, 177, image, sizeof image, NULL) == -FSQ_WRONG_LENGTH);
    fsq_put_u16(file + FSQ_HEADER_VERSION_AT, 3);
    CHECK(fsq_load_show(file, 177, image, sizeof image, NULL) == -FSQ_WRONG_LENGTH);
    fsq_put_u16(file + FSQ_HEADER_VERSION_AT, 4);
    CHECK(fsq_load_show(file, 177, image, sizeof image, NULL) == -FSQ_WRONG_VERSION);
    CHECK(fsq_write_header(file, 9, 0, 0) == 9 && fsq_load_show(file, 9, NULL, 0, NULL) == 0);
    aam = fsq_none(FSQ_RET);
    CHECK(fsq_write_header(file, 9, 0, 1) == 9 && fsq_write_record(file, 65, 0, &aam) == 65);
    CHECK(fsq_load_show(file, 65, NULL, 0, NULL) == -FSQ_SLICE_TOO_SHORT && fsq_load_show(file, 65, NULL, 1, NULL) == -FSQ_SLICE_TOO_SHORT);
    CHECK(fsq_load_show(file, 65, image, 1, NULL) == 1 && image[0] == 0xC3);
}

/* The longest file of version 2. */
enum { LONG_FILE = 9 + 56 * 8000 };

/* REFERENCE 8: version 1 has 0 to 1,000 records and version 2 1,001 to 8,000. The longest files of each, and what lies beside them. */
static void long_shows(void) {
    static const struct { uint16_t count; const char *bytes; } headers[] = {
        {0, "46 53 51 01 00 34 12 00 00"}, {1000, "46 53 51 01 00 34 12 E8 03"}, {1001, "46 53 51 02 00 34 12 E9 03"}, {8000, "46 53 51 02 00 34 12 40 1F"}
    };
    static const struct { uint16_t version, count; int answer; } rows[] = {
        {1, 0, 0}, {1, 1000, 7000}, {1, 1001, -14}, {1, 8000, -14}, {1, 8001, -14}, {2, 0, -14}, {2, 1, -14}, {2, 1000, -14}, {2, 1001, 7007}, {2, 3200, 22400},
        {2, 8000, 56000}, {2, 8001, -14}, {0, 0, -13}, {0, 1000, -13}, {3, 0, 0}, {3, 1, -14}, {3, 1000, -14}, {3, 1001, -14}, {3, 8000, -14}, {3, 8001, -14},
        {4, 0, -13}, {4, 1000, -13}, {4, 8000, -13}, {5, 1, -13}, {257, 1000, -13}, {258, 1001, -13}, {259, 0, -13}
    };
    static const uint16_t refused_at[] = {999, 1000, 3199, 7999};
    /* A record and a byte more than the longest file, and a byte more than its image. */
    static uint8_t file[LONG_FILE + 56 + 1], image[FSQ_IMAGE_LENGTH + 1], expected[FSQ_IMAGE_LENGTH], untouched[FSQ_IMAGE_LENGTH + 1];
    fsq_record_t mov = fsq_two(FSQ_MOV, fsq_with_segment(fsq_mem(FSQ_WORD, FSQ_BASE_BX, 4660), FSQ_ES), fsq_imm(22136));
    fsq_record_t push = fsq_one(FSQ_PUSH, fsq_with_span(fsq_reg(FSQ_AL), 3, 7)), unknown = mov;
    fsq_report_t report;
    size_t i, length;
    uint16_t number;
    for (i = 0; i < sizeof headers / sizeof *headers; i++)
        CHECK(fsq_write_header(file, sizeof file, 4660, headers[i].count) == 9 && is(file, 9, headers[i].bytes));

    /* MOV word ES:[BX+4660],22136 has seven bytes. */
    memset(untouched, 0xA5, sizeof untouched);
    for (i = 0; i < sizeof expected; i += 7)
        memcpy(expected + i, "\x26\xC7\x87\x34\x12\x78\x56", 7);
    for (number = 0; number < 8000; number++)
        CHECK(fsq_write_record(file, LONG_FILE, number, &mov) == 9 + 56 * (number + 1));
    CHECK(fsq_write_record(file, sizeof file, 8000, &mov) == -FSQ_WRONG_LENGTH && file[LONG_FILE] == 0);
    memcpy(file + LONG_FILE, mov.bytes, sizeof mov.bytes);
    for (i = 0; i < sizeof rows / sizeof *rows; i++) {
        size_t written = rows[i].answer < 0 ? 0 : (size_t) rows[i].answer;
        length = 9 + 56 * (size_t) rows[i].count;
        CHECK(fsq_write_header(file, 9, 0, 0) == 9);
        fsq_put_u16(file + FSQ_HEADER_VERSION_AT, rows[i].version);
        fsq_put_u16(file + FSQ_HEADER_COUNT_AT, rows[i].count);
        memset(image, 0xA5, sizeof image);
        CHECK(fsq_load_show(file, length, image, sizeof image, &report) == rows[i].answer);
        CHECK(fsq_report_length(&report) == written && fsq_report_record(&report) == FSQ_NO_RECORD);
        CHECK(memcmp(image, expected, written) == 0 && memcmp(image + written, untouched, sizeof image - written) == 0);
        /* A slice of the image's length takes it, and one of a byte less does not take the last record. */
        CHECK(fsq_load_show(file, length, image, written, NULL) == rows[i].answer);
        if (written != 0) {
            CHECK(fsq_load_show(file, length, image, written - 1, &report) == -FSQ_SLICE_TOO_SHORT && fsq_report_record(&report) + 1 == rows[i].count);
            CHECK(fsq_load_show(file, length - 1, image, sizeof image, NULL) == -FSQ_WRONG_LENGTH);
            CHECK(fsq_load_show(file, length + 1, image, sizeof image, NULL) == -FSQ_WRONG_LENGTH);
        }
    }

    /* The first refused record, and before it the first with an unknown code. */
    CHECK(fsq_write_header(file, 9, 0, 8000) == 9);
    unknown.bytes[FSQ_OPERATION_AT] = 99;
    for (i = sizeof refused_at / sizeof *refused_at; i-- > 0;) {
        CHECK(fsq_write_record(file, LONG_FILE, refused_at[i], &push) == 9 + 56 * (refused_at[i] + 1));
        CHECK(fsq_load_show(file, LONG_FILE, image, sizeof image, &report) == -FSQ_INVALID_OPERANDS && fsq_report_record(&report) == refused_at[i]);
        CHECK(fsq_report_span_start(&report) == 3 && fsq_report_span_end(&report) == 7);
    }
    for (i = sizeof refused_at / sizeof *refused_at; i-- > 0;) {
        CHECK(fsq_write_record(file, LONG_FILE, refused_at[i], &unknown) == 9 + 56 * (refused_at[i] + 1));
        CHECK(fsq_load_show(file, LONG_FILE, image, sizeof image, &report) == -FSQ_UNKNOWN_CODE && fsq_report_record(&report) == refused_at[i]);
    }
}

/* Document 02, No. 11: a repeat before each string operation, by the SDM's opcodes; the records that take none, and the order of the questions. */
static void repeats(void) {
    static const struct { enum fsq_operation operation; const char *bytes[3], *form; } rows[] = {
        {FSQ_MOVSB, {"A4", "F2 A4", "F3 A4"}, "form A4 -"}, {FSQ_MOVSW, {"A5", "F2 A5", "F3 A5"}, "form A5 -"}, {FSQ_CMPSB, {"A6", "F2 A6", "F3 A6"}, "form A6 -"},
        {FSQ_CMPSW, {"A7", "F2 A7", "F3 A7"}, "form A7 -"}, {FSQ_STOSB, {"AA", "F2 AA", "F3 AA"}, "form AA -"}, {FSQ_STOSW, {"AB", "F2 AB", "F3 AB"}, "form AB -"},
        {FSQ_LODSB, {"AC", "F2 AC", "F3 AC"}, "form AC -"}, {FSQ_LODSW, {"AD", "F2 AD", "F3 AD"}, "form AD -"}, {FSQ_SCASB, {"AE", "F2 AE", "F3 AE"}, "form AE -"},
        {FSQ_SCASW, {"AF", "F2 AF", "F3 AF"}, "form AF -"}
    };
    static const enum fsq_repeat both[] = {FSQ_REPEAT_NONE, FSQ_REPEAT_REPNE, FSQ_REPEAT_REP};
    fsq_record_t movsb = fsq_record_with_span(fsq_none(FSQ_MOVSB), 3, 9), esc = fsq_record_with_span(fsq_none(FSQ_ESC), 2, 5);
    fsq_record_t mov = fsq_record_with_span(fsq_two(FSQ_MOV, fsq_with_span(fsq_reg(FSQ_AL), 4, 6), fsq_with_span(fsq_imm(300), 7, 10)), 0, 10);
    fsq_record_t nop = fsq_none(FSQ_NOP);
    fsq_repeat_record_t record = fsq_with_repeat(movsb, FSQ_REPEAT_REP), longer = record;
    fsq_report_t report;
    fsq_list_t list;
    fsq_line_t line;
    uint8_t out[FSQ_STRING_LENGTH], bytes[60] = {0};
    size_t i, k;
    int n;

    /* The bytes of REFERENCE 8: behind the repeat all stands a byte further. */
    CHECK(is(record.bytes, 11, "30 00 F3 03 00 00 00 09 00 00 00") && memcmp(record.bytes + 11, movsb.bytes + 10, 46) == 0);
    record = fsq_with_repeat(mov, FSQ_REPEAT_REPNE);
    CHECK(is(record.bytes, 11, "00 02 F2 00 00 00 00 0A 00 00 00") && memcmp(record.bytes + 11, mov.bytes + 10, 46) == 0);
    record = fsq_with_repeat(mov, FSQ_REPEAT_NONE);
    CHECK(is(record.bytes, 3, "00 02 00") && memcmp(record.bytes + 3, mov.bytes + 2, 54) == 0);
    for (n = LEAST; n <= REPEATS; n++) {
        int known = n == 0 || n == 0xF2 || n == 0xF3;
        record = fsq_with_repeat(movsb, (enum fsq_repeat) n);
        CHECK(record.bytes[2] == (known ? n : 255));
        CHECK((fsq_encode_repeat_at(&record, 0, out, sizeof out, NULL) == -FSQ_INVALID_REPEAT) == !known);
    }

    for (i = 0; i < sizeof rows / sizeof *rows; i++)
        for (k = 0; k < 3; k++)
            REPEAT(fsq_with_repeat(fsq_none(rows[i].operation), both[k]), 65535, rows[i].bytes[k], rows[i].form);
    REPEAT(fsq_with_repeat(fsq_none(FSQ_REP), FSQ_REPEAT_NONE), 0, "F3", "form F3 -");
    REPEAT(fsq_with_repeat(fsq_none(FSQ_REPNE), FSQ_REPEAT_NONE), 0, "F2", "form F2 -");
    REPEAT(fsq_with_repeat(fsq_none(FSQ_LOCK), FSQ_REPEAT_NONE), 0, "F0", "form F0 -");
    ENCODES(fsq_none(FSQ_REP), 0, "F3");
    ENCODES(fsq_none(FSQ_MOVSB), 0, "A4");

    /* Every number that is no repeat, and both repeats before every other operation: 23 with the instruction's span and no values, by question 1. */
    for (n = 1; n < 256; n++) {
        record = fsq_with_repeat(movsb, FSQ_REPEAT_NONE);
        record.bytes[FSQ_REPEAT_AT] = (uint8_t) n;
        if (n != 0xF2 && n != 0xF3) {
            report = REPEAT_REFUSED(record, FSQ_INVALID_REPEAT, 1);
            CHECK(fsq_report_span_start(&report) == 3 && fsq_report_span_end(&report) == 9 && fsq_report_record(&report) == FSQ_NO_RECORD);
            CHECK(fsq_report_value(&report) == 0 && fsq_report_low(&report) == 0 && fsq_report_high(&report) == 0 && fsq_report_length(&report) == 0);
        }
    }
    for (n = 0; n <= 98; n++)
        for (k = 1; k < 3; k++) {
            record = fsq_with_repeat(fsq_none((enum fsq_operation) n), both[k]);
            if (n < FSQ_MOVSB || n > FSQ_STOSW)
                REPEAT_REFUSED(record, FSQ_INVALID_REPEAT, 1);
            else
                CHECK(fsq_encode_repeat_at(&record, 0, out, sizeof out, NULL) == 2 && out[0] == (uint8_t) both[k]);
        }

    /* Behind count and operands (8), before question 2 (7) and the later ones; an unknown code (15) stands before all. */
    report = REPEAT_REFUSED(fsq_with_repeat(esc, FSQ_REPEAT_REP), FSQ_INVALID_REPEAT, 1);
    CHECK(fsq_report_span_start(&report) == 2 && fsq_report_span_end(&report) == 5);
    REPEAT_REFUSED(fsq_with_repeat(esc, FSQ_REPEAT_NONE), FSQ_NOT_SUPPORTED, 2);
    report = REPEAT_REFUSED(fsq_with_repeat(mov, FSQ_REPEAT_REP), FSQ_INVALID_REPEAT, 1);
    CHECK(fsq_report_span_start(&report) == 0 && fsq_report_span_end(&report) == 10 && fsq_report_value(&report) == 0);
    report = REPEAT_REFUSED(fsq_with_repeat(mov, FSQ_REPEAT_NONE), FSQ_IMMEDIATE_OUT_OF_RANGE, 6);
    CHECK(fsq_report_span_start(&report) == 7 && fsq_report_span_end(&report) == 10 && fsq_report_value(&report) == 300);
    REPEAT_REFUSED(fsq_with_repeat(fsq_one(FSQ_PUSH, fsq_reg(FSQ_AL)), FSQ_REPEAT_REPNE), FSQ_INVALID_REPEAT, 1);
    REPEAT_REFUSED(fsq_with_repeat(fsq_one(FSQ_JE, fsq_imm(130)), FSQ_REPEAT_REPNE), FSQ_INVALID_REPEAT, 1);
    for (k = 0; k < 2; k++) {
        record = fsq_with_repeat(k == 0 ? nop : movsb, FSQ_REPEAT_REP);
        record.bytes[FSQ_REPEAT_AT] = k == 0 ? 0xF3 : 0xF0;
        REPEAT_REFUSED(record, FSQ_INVALID_REPEAT, 1);
        record.bytes[FSQ_COUNT_AT] = 3;
        REPEAT_REFUSED(record, FSQ_NOT_WELL_FORMED, 1);
        record.bytes[FSQ_COUNT_AT] = 0;
        record.bytes[11 + FSQ_MODE_AT] = 2;
        REPEAT_REFUSED(record, FSQ_NOT_WELL_FORMED, 1);
        record.bytes[11 + FSQ_MODE_AT] = 0;
        record.bytes[34 + FSQ_MODE_AT] = 2;
        REPEAT_REFUSED(record, FSQ_NOT_WELL_FORMED, 1);
        record.bytes[34 + FSQ_KIND_AT] = 4;
        REPEAT_REFUSED(record, FSQ_UNKNOWN_CODE, 0);
    }
    CHECK(fsq_encode_repeat_at(&longer, 0, out, 1, &report) == -FSQ_SLICE_TOO_SHORT && fsq_report_span_start(&report) == 3);
    longer.bytes[FSQ_REPEAT_AT] = 99;
    CHECK(fsq_encode_repeat_at(&longer, 0, out, 1, NULL) == -FSQ_INVALID_REPEAT);

    /* The length says whether a record has a repeat; 55 and 58 bytes are none. */
    record = fsq_with_repeat(fsq_none(FSQ_MOVSB), FSQ_REPEAT_REP);
    memcpy(bytes, record.bytes, sizeof record.bytes);
    for (i = 0; i <= sizeof bytes; i++) {
        n = fsq_encode_bytes_at(bytes, i, 0, out, sizeof out, NULL);
        CHECK(n == (i == 56 ? 1 : i == 57 ? 2 : -FSQ_WRONG_LENGTH));
        CHECK(fsq_list_bytes_at(bytes, i, 0, &list, NULL) == (i == 56 || i == 57 ? 1 : -FSQ_WRONG_LENGTH));
        CHECK(fsq_form_bytes_at(bytes, i, 0, &line, NULL) == (i == 56 || i == 57 ? 9 : -FSQ_WRONG_LENGTH));
    }
    CHECK(fsq_encode_repeat_at(NULL, 0, out, sizeof out, NULL) == -FSQ_WRONG_LENGTH && fsq_list_repeat_at(NULL, 0, &list, NULL) == -FSQ_WRONG_LENGTH);
    CHECK(fsq_form_repeat_at(NULL, 0, &line, NULL) == -FSQ_WRONG_LENGTH && fsq_encode_bytes_at(NULL, 57, 0, out, sizeof out, NULL) == -FSQ_WRONG_LENGTH);
    CHECK(fsq_list_bytes_at(NULL, 57, 0, &list, NULL) == -FSQ_WRONG_LENGTH && fsq_form_bytes_at(NULL, 57, 0, &line, NULL) == -FSQ_WRONG_LENGTH);
}

/* A show of MOV CX,4660; REP MOVSB; AAM; REPNE SCASB; LOOP 256 at origin 256, and the bytes of each by the SDM: B9, F3 A4, D4 0A, F2 AE, E2. */
static void repeat_shows(void) {
    fsq_repeat_record_t records[5], plain[2];
    uint8_t file[9 + 5 * 57 + 1], image[13], untouched[sizeof file];
    fsq_report_t report;
    uint16_t i;
    records[0] = fsq_with_repeat(fsq_two(FSQ_MOV, fsq_reg(FSQ_CX), fsq_imm(4660)), FSQ_REPEAT_NONE);
    records[1] = fsq_with_repeat(fsq_record_with_span(fsq_none(FSQ_MOVSB), 3, 9), FSQ_REPEAT_REP);
    records[2] = fsq_with_repeat(fsq_none(FSQ_AAM), FSQ_REPEAT_NONE);
    records[3] = fsq_with_repeat(fsq_none(FSQ_SCASB), FSQ_REPEAT_REPNE);
    records[4] = fsq_with_repeat(fsq_one(FSQ_LOOP, fsq_imm(256)), FSQ_REPEAT_NONE);
    plain[0] = records[0];
    plain[1] = records[2];
    memset(untouched, 0xA5, sizeof untouched);
    memset(file, 0xA5, sizeof file);
    memset(image, 0xA5, sizeof image);

    /* In one call, and piece by piece. */
    CHECK(fsq_write_show(file, sizeof file, 256, records, 5) == 294 && is(file, 13, "46 53 51 03 00 00 01 05 00 00 02 00 00") && file[294] == 0xA5);
    for (i = 0; i < 5; i++)
        CHECK(memcmp(file + 9 + 57 * i, records[i].bytes, 57) == 0);
    CHECK(fsq_load_show(file, 294, image, sizeof image, &report) == 11 && is(image, 13, "B9 34 12 F3 A4 D4 0A F2 AE E2 F5 A5 A5"));
    CHECK(fsq_report_length(&report) == 11 && fsq_report_record(&report) == FSQ_NO_RECORD);
    CHECK(fsq_load_show(file, 294, image, 10, &report) == -FSQ_SLICE_TOO_SHORT && fsq_report_record(&report) == 4);
    CHECK(fsq_load_show(file, 294, image, 4, &report) == -FSQ_SLICE_TOO_SHORT && fsq_report_record(&report) == 1 && fsq_report_span_end(&report) == 9);
    CHECK(fsq_load_show(file, 293, image, sizeof image, NULL) == -FSQ_WRONG_LENGTH && fsq_load_show(file, 295, image, sizeof image, NULL) == -FSQ_WRONG_LENGTH);
    memcpy(untouched, file, sizeof file);
    memset(file, 0xA5, sizeof file);
    CHECK(fsq_write_repeat_header(file, sizeof file, 256, 5) == 9 && is(file, 10, "46 53 51 03 00 00 01 05 00 A5"));
    for (i = 0; i < 5; i++)
        CHECK(fsq_write_repeat_record(file, sizeof file, i, &records[i]) == 9 + 57 * (i + 1));
    CHECK(memcmp(file, untouched, sizeof file) == 0);

    /* A repeat that is none is 23 with its record, 15 of a later one before it, and 15 itself never. */
    file[9 + 57 + FSQ_REPEAT_AT] = 99;
    CHECK(fsq_load_show(file, 294, image, sizeof image, &report) == -FSQ_INVALID_REPEAT && fsq_report_record(&report) == 1);
    CHECK(fsq_report_span_start(&report) == 3 && fsq_report_span_end(&report) == 9 && fsq_report_value(&report) == 0 && fsq_report_length(&report) == 0);
    CHECK(fsq_load_show(file, 294, image, 0, &report) == -FSQ_INVALID_REPEAT);
    file[9 + 3 * 57 + FSQ_REPEAT_AT] = 0xFF;
    CHECK(fsq_load_show(file, 294, image, sizeof image, &report) == -FSQ_INVALID_REPEAT && fsq_report_record(&report) == 1);
    file[9 + 4 * 57 + 34 + FSQ_KIND_AT] = 4;
    CHECK(fsq_load_show(file, 294, image, sizeof image, &report) == -FSQ_UNKNOWN_CODE && fsq_report_record(&report) == 4);
    file[9 + 4 * 57 + 34 + FSQ_KIND_AT] = 0;
    file[9 + FSQ_OPERATION_AT] = FSQ_ESC;
    CHECK(fsq_load_show(file, 294, image, sizeof image, &report) == -FSQ_NOT_SUPPORTED && fsq_report_record(&report) == 0);
    file[9 + FSQ_REPEAT_AT] = 0xF3;
    CHECK(fsq_load_show(file, 294, image, sizeof image, &report) == -FSQ_INVALID_REPEAT && fsq_report_record(&report) == 0);

    /* Without a repeat the file is of version 1, with records of 56 bytes; one repeat makes it version 3, wherever it stands. */
    memset(file, 0xA5, sizeof file);
    CHECK(fsq_write_show(file, sizeof file, 4660, plain, 2) == 121 && is(file, 13, "46 53 51 01 00 34 12 02 00 00 02 00 00") && file[121] == 0xA5);
    CHECK(memcmp(file + 11, plain[0].bytes + 3, 54) == 0 && memcmp(file + 67, plain[1].bytes + 3, 54) == 0 && file[65] == FSQ_AAM && file[66] == 0);
    CHECK(fsq_load_show(file, 121, image, sizeof image, NULL) == 5 && is(image, 5, "B9 34 12 D4 0A"));
    for (i = 0; i < 2; i++) {
        plain[i] = fsq_with_repeat(fsq_none(FSQ_STOSW), FSQ_REPEAT_REP);
        CHECK(fsq_write_show(file, sizeof file, 0, plain, 2) == 123 && file[FSQ_HEADER_VERSION_AT] == 3);
        plain[i] = records[2];
    }
    plain[1].bytes[FSQ_REPEAT_AT] = 1;
    CHECK(fsq_write_show(file, sizeof file, 0, plain, 2) == 123 && fsq_load_show(file, 123, image, sizeof image, NULL) == -FSQ_INVALID_REPEAT);

    /* What is not written. */
    memset(file, 0xA5, sizeof file);
    memset(untouched, 0xA5, sizeof untouched);
    CHECK(fsq_write_show(file, 293, 256, records, 5) == -FSQ_SLICE_TOO_SHORT && fsq_write_show(NULL, 294, 256, records, 5) == -FSQ_SLICE_TOO_SHORT);
    CHECK(fsq_write_show(file, sizeof file, 256, NULL, 1) == -FSQ_WRONG_LENGTH && fsq_write_show(file, sizeof file, 256, records, 8001) == -FSQ_WRONG_LENGTH);
    CHECK(fsq_write_show(file, 8, 256, NULL, 0) == -FSQ_SLICE_TOO_SHORT && fsq_write_show(file, sizeof file, 256, records, 65537) == -FSQ_WRONG_LENGTH);
    CHECK(fsq_write_repeat_header(file, 8, 256, 3) == -FSQ_SLICE_TOO_SHORT && fsq_write_repeat_header(NULL, 9, 256, 3) == -FSQ_SLICE_TOO_SHORT);
    CHECK(fsq_write_repeat_header(file, 9, 256, 8001) == -FSQ_WRONG_LENGTH && fsq_write_repeat_header(NULL, 0, 256, 8001) == -FSQ_WRONG_LENGTH);
    CHECK(fsq_write_repeat_record(file, 65, 0, records) == -FSQ_SLICE_TOO_SHORT && fsq_write_repeat_record(NULL, 66, 0, records) == -FSQ_SLICE_TOO_SHORT);
    CHECK(fsq_write_repeat_record(file, sizeof file, 5, records) == -FSQ_SLICE_TOO_SHORT && fsq_write_repeat_record(file, sizeof file, 7999, records) == -FSQ_SLICE_TOO_SHORT);
    CHECK(fsq_write_repeat_record(file, sizeof file, 8000, records) == -FSQ_WRONG_LENGTH && fsq_write_repeat_record(file, 66, 0, NULL) == -FSQ_WRONG_LENGTH);
    CHECK(memcmp(file, untouched, sizeof file) == 0);
    CHECK(fsq_write_show(file, 9, 4660, NULL, 0) == 9 && is(file, 10, "46 53 51 01 00 34 12 00 00 A5") && fsq_load_show(file, 9, NULL, 0, NULL) == 0);
}

/* Version 3 has 0 to 8,000 records of 57 bytes, all of whose repeats may be 0; the longest file, what lies beside it, and what other versions say to it. */
static void long_repeat_shows(void) {
    static const struct { uint16_t version, count; int answer; } rows[] = {
        {3, 0, 0}, {3, 1, 2}, {3, 1000, 2000}, {3, 1001, 2002}, {3, 7999, 15998}, {3, 8000, 16000}, {3, 8001, -14}, {1, 0, 0}, {1, 1, -14}, {1, 1000, -14}, {1, 8000, -14},
        {2, 1, -14}, {2, 1001, -14}, {2, 8000, -14}, {0, 1, -13}, {4, 0, -13}, {4, 1, -13}, {4, 8000, -13}, {5, 8000, -13}, {259, 1, -13}, {771, 1, -13}
    };
    static const uint16_t refused_at[] = {0, 999, 1000, 7999};
    static fsq_repeat_record_t records[8001];
    static uint8_t file[FSQ_FILE_LENGTH + FSQ_REPEAT_RECORD_LENGTH], again[FSQ_FILE_LENGTH], image[FSQ_IMAGE_LENGTH + 1], expected[FSQ_IMAGE_LENGTH], untouched[FSQ_IMAGE_LENGTH + 1];
    fsq_repeat_record_t stosw = fsq_with_repeat(fsq_none(FSQ_STOSW), FSQ_REPEAT_REP), wrong = fsq_with_repeat(fsq_record_with_span(fsq_none(FSQ_NOP), 3, 7), FSQ_REPEAT_REP);
    fsq_repeat_record_t mov = fsq_with_repeat(fsq_two(FSQ_MOV, fsq_with_segment(fsq_mem(FSQ_WORD, FSQ_BASE_BX, 4660), FSQ_ES), fsq_imm(22136)), FSQ_REPEAT_NONE), unknown = mov;
    fsq_report_t report;
    size_t i, length;
    uint16_t number;
    for (i = 0; i < 8001; i++)
        records[i] = stosw;
    for (i = 0; i < sizeof expected; i += 2)
        memcpy(expected + i, "\xF3\xAB", 2);
    memset(untouched, 0xA5, sizeof untouched);
    CHECK(fsq_write_show(file, sizeof file, 0, records, 8000) == FSQ_FILE_LENGTH && fsq_write_show(file, FSQ_FILE_LENGTH - 1, 0, records, 8000) == -FSQ_SLICE_TOO_SHORT);
    CHECK(fsq_write_repeat_header(again, sizeof again, 0, 8000) == 9);
    for (number = 0; number < 8000; number++)
        CHECK(fsq_write_repeat_record(again, sizeof again, number, &stosw) == 9 + 57 * (number + 1));
    CHECK(memcmp(file, again, sizeof again) == 0 && fsq_write_show(file, sizeof file, 0, records, 8001) == -FSQ_WRONG_LENGTH && file[FSQ_FILE_LENGTH] == 0);
    memcpy(file + FSQ_FILE_LENGTH, stosw.bytes, sizeof stosw.bytes);
    for (i = 0; i < sizeof rows / sizeof *rows; i++) {
        size_t written = rows[i].answer < 0 ? 0 : (size_t) rows[i].answer;
        length = 9 + 57 * (size_t) rows[i].count;
        fsq_put_u16(file + FSQ_HEADER_VERSION_AT, rows[i].version);
        fsq_put_u16(file + FSQ_HEADER_COUNT_AT, rows[i].count);
        memset(image, 0xA5, sizeof image);
        CHECK(fsq_load_show(file, length, image, sizeof image, &report) == rows[i].answer);
        CHECK(fsq_report_length(&report) == written && fsq_report_record(&report) == FSQ_NO_RECORD);
        CHECK(memcmp(image, expected, written) == 0 && memcmp(image + written, untouched, sizeof image - written) == 0);
        if (written != 0) {
            CHECK(fsq_load_show(file, length, image, written - 1, &report) == -FSQ_SLICE_TOO_SHORT && fsq_report_record(&report) + 1 == rows[i].count);
            CHECK(fsq_load_show(file, length - 1, image, sizeof image, NULL) == -FSQ_WRONG_LENGTH);
            CHECK(fsq_load_show(file, length + 1, image, sizeof image, NULL) == -FSQ_WRONG_LENGTH);
        }
    }

    /* Without a repeat the same call writes version 2 above 1,000, and version 1 up to there. */
    for (i = 0; i < 8001; i++)
        records[i] = mov;
    for (i = 0; i < sizeof expected; i += 7)
        memcpy(expected + i, "\x26\xC7\x87\x34\x12\x78\x56", 7);
    CHECK(fsq_write_show(file, sizeof file, 0, records, 8000) == LONG_FILE && file[FSQ_HEADER_VERSION_AT] == 2);
    CHECK(fsq_load_show(file, LONG_FILE, image, sizeof image, NULL) == FSQ_IMAGE_LENGTH && memcmp(image, expected, sizeof expected) == 0);
    CHECK(fsq_write_show(file, sizeof file, 0, records, 1001) == 9 + 56 * 1001 && file[FSQ_HEADER_VERSION_AT] == 2);
    CHECK(fsq_write_show(file, sizeof file, 0, records, 1000) == 9 + 56 * 1000 && file[FSQ_HEADER_VERSION_AT] == 1);
    /* As version 3 with all repeats 0 they give the same, the longest image. */
    CHECK(fsq_write_repeat_header(file, sizeof file, 0, 8000) == 9);
    for (number = 0; number < 8000; number++)
        (void) fsq_write_repeat_record(file, sizeof file, number, &mov);
    memset(image, 0xA5, sizeof image);
    CHECK(fsq_load_show(file, FSQ_FILE_LENGTH, image, sizeof image, NULL) == FSQ_IMAGE_LENGTH && memcmp(image, expected, sizeof expected) == 0 && image[FSQ_IMAGE_LENGTH] == 0xA5);

    /* The first refused record, and before it the first with an unknown code. */
    unknown.bytes[FSQ_OPERATION_AT] = 99;
    for (i = sizeof refused_at / sizeof *refused_at; i-- > 0;) {
        CHECK(fsq_write_repeat_record(file, FSQ_FILE_LENGTH, refused_at[i], &wrong) == 9 + 57 * (refused_at[i] + 1));
        CHECK(fsq_load_show(file, FSQ_FILE_LENGTH, image, sizeof image, &report) == -FSQ_INVALID_REPEAT && fsq_report_record(&report) == refused_at[i]);
        CHECK(fsq_report_span_start(&report) == 3 && fsq_report_span_end(&report) == 7);
    }
    for (i = sizeof refused_at / sizeof *refused_at; i-- > 0;) {
        CHECK(fsq_write_repeat_record(file, FSQ_FILE_LENGTH, refused_at[i], &unknown) == 9 + 57 * (refused_at[i] + 1));
        CHECK(fsq_load_show(file, FSQ_FILE_LENGTH, image, sizeof image, &report) == -FSQ_UNKNOWN_CODE && fsq_report_record(&report) == refused_at[i]);
    }
}

/* The value of a text, or a refusal's number made negative, by the inline function and by the library's, which writes a report; a value that is refused stays. */
static void evaluates(const char *text, int answer, int32_t value, int line) {
    uint8_t report[FSQ_REPORT_LENGTH + 1], expected[FSQ_REPORT_LENGTH + 1] = {0};
    size_t length = strlen(text);
    int32_t got = 12345;
    int number = -answer;
    check(fsq_evaluate_text(text, length, &got) == answer && got == (answer == 0 ? value : 12345), text, line);
    check(fsq_evaluate_text(text, length, NULL) == answer, text, line);
    memset(report, 0xA5, sizeof report);
    fsq_put_u32(expected + FSQ_REPORT_VALUE_AT, answer == 0 ? (uint32_t) value : 0);
    fsq_put_u32(expected + FSQ_REPORT_RECORD_AT, FSQ_NO_RECORD);
    expected[FSQ_REPORT_LENGTH] = 0xA5;
    check(fsq_evaluate((const uint8_t *) text, length, report, sizeof report) == number && memcmp(report, expected, sizeof report) == 0, text, line);
    check(fsq_evaluate((const uint8_t *) text, length, report, FSQ_REPORT_LENGTH - 1) == number && memcmp(report, expected, sizeof report) == 0, text, line);
}

#define VALUE(text, value) evaluates((text), 0, (value), __LINE__)
#define TURNED_AWAY(text, number) evaluates((text), -(number), 0, __LINE__)
#define DEEP_16 "(((((((((((((((("
#define CLOSED_16 "))))))))))))))))"

/* REFERENCE 12, the settled texts of document 02, No. 6. */
static void sums(void) {
    static const char whole[] = {'3', '*', '7', 0, '+', '1'};
    fsq_report_t report;
    int32_t value = 12345;
    char byte[2] = {0, 0};
    int n;
    VALUE("3*(40+2)-1", 125);
    VALUE("007", 7);
    VALUE("0", 0);
    VALUE("1+-1", 0);
    VALUE("1--1", 2);
    VALUE("-(-5)", 5);
    VALUE("-7/2", -3);
    VALUE("7/-2", -3);
    VALUE("8/4*2", 4);
    VALUE("7-4-2", 1);
    VALUE("2+3*4", 14);
    VALUE("-2*-3", 6);
    VALUE("2147483647", 2147483647);
    VALUE("-2147483648", -2147483647 - 1);
    VALUE("(-2147483648)", -2147483647 - 1);
    VALUE("1*-2147483648", -2147483647 - 1);
    VALUE("-1--2147483648", 2147483647);
    VALUE("--2147483647", 2147483647);
    VALUE("46340*46340", 2147395600);
    VALUE(DEEP_16 "1" CLOSED_16, 1);
    VALUE(DEEP_16 "1" CLOSED_16 "-" DEEP_16 "2" CLOSED_16, -1);
    VALUE("-----------------1", -1);
    TURNED_AWAY("", FSQ_NOT_A_SUM);
    TURNED_AWAY("+1", FSQ_NOT_A_SUM);
    TURNED_AWAY("1++1", FSQ_NOT_A_SUM);
    TURNED_AWAY("2(3)", FSQ_NOT_A_SUM);
    TURNED_AWAY("()", FSQ_NOT_A_SUM);
    TURNED_AWAY("1 +1", FSQ_NOT_A_SUM);
    TURNED_AWAY("1\n", FSQ_NOT_A_SUM);
    TURNED_AWAY("1/0)", FSQ_NOT_A_SUM);
    TURNED_AWAY("(" DEEP_16 "1" CLOSED_16, FSQ_NOT_A_SUM);
    TURNED_AWAY("(" DEEP_16 "1" CLOSED_16 ")", FSQ_TOO_DEEP);
    TURNED_AWAY("(" DEEP_16 "1/0" CLOSED_16 ")", FSQ_TOO_DEEP);
    TURNED_AWAY(DEEP_16 "1/0" CLOSED_16, FSQ_VALUE_OUT_OF_RANGE);
    TURNED_AWAY("2147483648", FSQ_VALUE_OUT_OF_RANGE);
    TURNED_AWAY("2147483648-1", FSQ_VALUE_OUT_OF_RANGE);
    TURNED_AWAY("1-2147483648", FSQ_VALUE_OUT_OF_RANGE);
    TURNED_AWAY("-(2147483648)", FSQ_VALUE_OUT_OF_RANGE);
    TURNED_AWAY("--2147483648", FSQ_VALUE_OUT_OF_RANGE);
    TURNED_AWAY("---2147483648", FSQ_VALUE_OUT_OF_RANGE);
    TURNED_AWAY("-2147483649", FSQ_VALUE_OUT_OF_RANGE);
    TURNED_AWAY("2147483647+1-1", FSQ_VALUE_OUT_OF_RANGE);
    TURNED_AWAY("-2147483648/-1", FSQ_VALUE_OUT_OF_RANGE);
    TURNED_AWAY("0*(1/0)", FSQ_VALUE_OUT_OF_RANGE);
    TURNED_AWAY("99999999999999999999", FSQ_VALUE_OUT_OF_RANGE);

    /* The length says where a text ends, and a 0 does not. */
    CHECK(fsq_evaluate_text(whole, 3, &value) == 0 && value == 21);
    CHECK(fsq_evaluate_text(whole, 4, &value) == -FSQ_NOT_A_SUM && fsq_evaluate_text(whole, 6, &value) == -FSQ_NOT_A_SUM && value == 21);
    CHECK(fsq_evaluate_text(whole, 0, &value) == -FSQ_NOT_A_SUM && value == 21);
    /* A null text is an empty one, whatever length comes with it. */
    CHECK(fsq_evaluate_text(NULL, 0, &value) == -FSQ_NOT_A_SUM && fsq_evaluate_text(NULL, 3, &value) == -FSQ_NOT_A_SUM && value == 21);
    CHECK(fsq_evaluate_text(NULL, 0, NULL) == -FSQ_NOT_A_SUM && fsq_evaluate_text(NULL, 3, NULL) == -FSQ_NOT_A_SUM);
    /* Of the texts of one byte ten are sums. */
    for (n = 0; n < 256; n++) {
        byte[0] = (char) n;
        value = -1;
        CHECK(fsq_evaluate_text(byte, 1, &value) == (n >= '0' && n <= '9' ? 0 : -16) && value == (n >= '0' && n <= '9' ? n - '0' : -1));
    }
    CHECK(fsq_evaluate((const uint8_t *) "-7/2", 4, report.bytes, sizeof report.bytes) == FSQ_DONE && fsq_report_value(&report) == -3);
    CHECK(fsq_report_length(&report) == 0 && fsq_report_span_end(&report) == 0 && fsq_report_record(&report) == FSQ_NO_RECORD);
    CHECK(FSQ_MOST_DEPTH == 16);
}

/* The bytes of cues, which the inline functions and the library's compile to this answer: the length with the image, or a refusal's number made negative. What
 * is lent is filled before, and behind the image, or on a refusal all of it, stays. A report has the length and nothing else. */
static void compiles(const uint8_t *cues, size_t length, size_t lent, int answer, const uint8_t *image, int line) {
    static uint8_t out[FSQ_CUE_IMAGE_LENGTH + 40], expected[sizeof out];
    uint8_t report[FSQ_REPORT_LENGTH + 1], told[FSQ_REPORT_LENGTH + 1] = {0};
    int number = answer < 0 ? -answer : FSQ_DONE;
    memset(expected, 0xA5, sizeof expected);
    if (answer > 0)
        memcpy(expected, image, (size_t) answer);
    fsq_put_u32(told + FSQ_REPORT_LENGTH_AT, answer > 0 ? (uint32_t) answer : 0);
    fsq_put_u32(told + FSQ_REPORT_RECORD_AT, FSQ_NO_RECORD);
    told[FSQ_REPORT_LENGTH] = 0xA5;

    memset(out, 0xA5, sizeof out);
    check(fsq_compile_bytes(cues, length, out, lent) == answer && memcmp(out, expected, sizeof out) == 0, "by their bytes", line);
    memset(out, 0xA5, sizeof out);
    memset(report, 0xA5, sizeof report);
    check(fsq_cue(cues, length, out, lent, report, sizeof report) == number && memcmp(out, expected, sizeof out) == 0
          && memcmp(report, told, sizeof report) == 0, "by the library", line);
    check(fsq_cue(cues, length, out, lent, report, FSQ_REPORT_LENGTH - 1) == number && memcmp(report, told, sizeof report) == 0, "without a whole report", line);
    if (length % FSQ_CUE_LENGTH != 0)
        return;
    memset(out, 0xA5, sizeof out);
    check(fsq_compile_cues((const fsq_cue_t *) cues, length / FSQ_CUE_LENGTH, out, lent) == answer && memcmp(out, expected, sizeof out) == 0, "by cues", line);
}

/* REFERENCE 14, document 02, No. 9; the bytes are the SDM's: MOV CX B8+1, LOOP E2 with the distance -2, MOV AL B0, OUT E6, HLT F4. */
static void cues(void) {
    static const int counts[] = {0, 1, 2, 139, 140, 199, 200};
    static uint8_t some[4 * 250], image[9 * 250 + 1];
    fsq_cue_t sheet[] = {fsq_cue_of(0x1234, 0x61, 0x80), fsq_cue_of(1, 255, 0), fsq_cue_of(65535, 0, 255)};
    uint8_t out[40];
    int i, k;
    CHECK(is(sheet[0].bytes, 4, "34 12 61 80") && is(sheet[1].bytes, 4, "01 00 FF 00") && is(sheet[2].bytes, 4, "FF FF 00 FF"));
    memset(out, 0xA5, sizeof out);
    CHECK(fsq_compile_cues(sheet, 2, out, sizeof out) == 19);
    CHECK(is(out, 20, "B9 34 12 E2 FE B0 80 E6 61 B9 01 00 E2 FE B0 00 E6 FF F4 A5"));
    CHECK(fsq_compile_cues(sheet, 3, out, 28) == 28 && is(out + 18, 11, "B9 FF FF E2 FE B0 FF E6 00 F4 A5"));

    for (k = 0; k < 250; k++) {
        fsq_cue_t cue = fsq_cue_of((uint16_t) (65535 - 257 * k), (uint8_t) (7 * k), (uint8_t) (255 - k));
        memcpy(some + 4 * k, cue.bytes, 4);
        image[9 * k] = 0xB9;
        memcpy(image + 9 * k + 1, cue.bytes, 2);
        image[9 * k + 3] = 0xE2;
        image[9 * k + 4] = 0xFE;
        image[9 * k + 5] = 0xB0;
        image[9 * k + 6] = (uint8_t) (255 - k);
        image[9 * k + 7] = 0xE6;
        image[9 * k + 8] = (uint8_t) (7 * k);
    }
    for (i = 0; i < (int) (sizeof counts / sizeof *counts); i++) {
        int n = counts[i], length = 9 * n + 1;
        uint8_t kept = image[9 * n];
        image[9 * n] = 0xF4;
        compiles(some, 4 * (size_t) n, (size_t) length, length, image, __LINE__);
        compiles(some, 4 * (size_t) n, (size_t) length + 40, length, image, __LINE__);
        compiles(some, 4 * (size_t) n, (size_t) length - 1, -FSQ_SLICE_TOO_SHORT, NULL, __LINE__);
        compiles(some, 4 * (size_t) n, 0, -FSQ_SLICE_TOO_SHORT, NULL, __LINE__);
        image[9 * n] = kept;
        /* A length that is no multiple of four. */
        for (k = 1; k < 4; k++)
            compiles(some, 4 * (size_t) n + (size_t) k, FSQ_CUE_IMAGE_LENGTH, -FSQ_NOT_A_CUE_LIST, NULL, __LINE__);
        /* One delay of 0: also the last one's, and before a slice that is too short. A byte of it that is 0 is not enough. */
        for (k = 0; k < n; k = k < n - 1 ? n - 1 : n) {
            uint8_t low = some[4 * k], high = some[4 * k + 1];
            some[4 * k] = some[4 * k + 1] = 0;
            compiles(some, 4 * (size_t) n, FSQ_CUE_IMAGE_LENGTH, -FSQ_NO_DELAY, NULL, __LINE__);
            compiles(some, 4 * (size_t) n, 0, -FSQ_NO_DELAY, NULL, __LINE__);
            some[4 * k] = 1;
            CHECK(fsq_compile_bytes(some, 4 * (size_t) n, NULL, 0) == -FSQ_SLICE_TOO_SHORT);
            some[4 * k] = 0;
            some[4 * k + 1] = 1;
            CHECK(fsq_compile_bytes(some, 4 * (size_t) n, NULL, 0) == -FSQ_SLICE_TOO_SHORT);
            some[4 * k] = low;
            some[4 * k + 1] = high;
        }
    }
    /* 201 cues are 19, also with a delay of 0 and into nothing; 800 zero bytes are 20; no cues into no bytes is 9. */
    compiles(some, 804, FSQ_CUE_IMAGE_LENGTH + 9, -FSQ_NOT_A_CUE_LIST, NULL, __LINE__);
    compiles(some, 1000, FSQ_CUE_IMAGE_LENGTH + 9, -FSQ_NOT_A_CUE_LIST, NULL, __LINE__);
    memset(some, 0, sizeof some);
    compiles(some, 804, 0, -FSQ_NOT_A_CUE_LIST, NULL, __LINE__);
    compiles(some, 3, 0, -FSQ_NOT_A_CUE_LIST, NULL, __LINE__);
    compiles(some, 801, FSQ_CUE_IMAGE_LENGTH, -FSQ_NOT_A_CUE_LIST, NULL, __LINE__);
    compiles(some, 800, 0, -FSQ_NO_DELAY, NULL, __LINE__);
    compiles(some, 0, 0, -FSQ_SLICE_TOO_SHORT, NULL, __LINE__);

    /* Null cues are none, whatever count comes with them; a null image has no byte. A count that is too large for a length is refused. */
    CHECK(fsq_compile_cues(NULL, 0, out, sizeof out) == 1 && fsq_compile_cues(NULL, 5, out, sizeof out) == 1 && fsq_compile_cues(NULL, 201, out, sizeof out) == 1);
    CHECK(fsq_compile_bytes(NULL, 0, out, sizeof out) == 1 && fsq_compile_bytes(NULL, 801, out, sizeof out) == 1 && out[0] == 0xF4);
    CHECK(fsq_compile_cues(sheet, 1, NULL, 0) == -FSQ_SLICE_TOO_SHORT && fsq_compile_cues(sheet, 1, NULL, 100) == -FSQ_SLICE_TOO_SHORT);
    CHECK(fsq_compile_bytes(NULL, 0, NULL, 100) == -FSQ_SLICE_TOO_SHORT);
    CHECK(fsq_compile_cues(sheet, (size_t) -1, out, sizeof out) == -FSQ_NOT_A_CUE_LIST);
    CHECK(fsq_compile_cues(sheet, ((size_t) -1) / 4 + 1, out, sizeof out) == -FSQ_NOT_A_CUE_LIST);
    CHECK(fsq_compile_cues(sheet, ((size_t) -1) / 4 + 2, out, sizeof out) == -FSQ_NOT_A_CUE_LIST);
}

/* The bytes of a text in hexadecimal, with blanks or without; their number. */
static size_t bytes_of(const char *text, uint8_t *bytes) {
    static const char digits[] = "0123456789ABCDEF";
    size_t n = 0;
    for (; *text != 0; text++)
        if (*text != ' ') {
            unsigned digit = (unsigned) (strchr(digits, *text) - digits);
            bytes[n / 2] = (uint8_t) (n % 2 == 0 ? digit * 16u : bytes[n / 2] + digit);
            n++;
        }
    return n / 2;
}

enum { REACH = 65536 };

/* A run by the inline function and by the library's: the answer, the instructions carried out and the pairs of the log. The log behind them stays, all of it on a
 * refusal; a result of 15 bytes stays, and the byte behind one of 16. */
static void ran(const uint8_t *image, size_t image_len, uint32_t budget, size_t log_len, int answer, uint64_t count, const char *pairs, int line) {
    uint8_t log[32], again[32], expected[32], out[FSQ_RUN_RESULT_LENGTH + 1], untouched[FSQ_RUN_RESULT_LENGTH + 1];
    fsq_run_result_t result;
    size_t length;
    memset(log, 0xA5, sizeof log);
    memset(again, 0xA5, sizeof again);
    memset(expected, 0xA5, sizeof expected);
    memset(out, 0xA5, sizeof out);
    memset(untouched, 0xA5, sizeof untouched);
    memset(&result, 0xA5, sizeof result);
    length = bytes_of(pairs, expected);
    check(fsq_run_image(image, image_len, budget, log, log_len, &result) == answer && memcmp(log, expected, sizeof log) == 0, pairs, line);
    check(fsq_run_count(&result) == count && fsq_run_log_length(&result) == length, "count and length", line);
    check(fsq_run(image, image_len, budget, again, log_len, out, FSQ_RUN_RESULT_LENGTH - 1) == -answer && memcmp(out, untouched, sizeof out) == 0
          && memcmp(again, expected, sizeof again) == 0, "a result of 15 bytes", line);
    memset(again, 0xA5, sizeof again);
    check(fsq_run(image, image_len, budget, again, log_len, out, sizeof out) == -answer && memcmp(out, result.bytes, FSQ_RUN_RESULT_LENGTH) == 0
          && out[FSQ_RUN_RESULT_LENGTH] == 0xA5 && memcmp(again, expected, sizeof again) == 0, "a result of 17 bytes", line);
    memset(again, 0xA5, sizeof again);
    check(fsq_run_image(image, image_len, budget, again, log_len, NULL) == answer && memcmp(again, expected, sizeof again) == 0, "without a result", line);
}

/* It halts, with a log of a byte more than its pairs, and with a greater budget; with one instruction less the budget is spent. */
static void halts(const char *text, uint32_t count, const char *pairs, int line) {
    uint8_t image[32], log[32];
    size_t length = bytes_of(text, image), log_len = bytes_of(pairs, log);
    ran(image, length, count, log_len, 0, count, pairs, line);
    ran(image, length, 4294967295u, log_len + 1, 0, count, pairs, line);
    ran(image, length, count - 1, log_len, -FSQ_BUDGET_SPENT, 0, "", line);
}

static void does_not_halt(const char *text, uint32_t budget, size_t log_len, int number, int line) {
    uint8_t image[32];
    ran(image, bytes_of(text, image), budget, log_len, -number, 0, "", line);
}

/* An image of 65,536 bytes, zeros but for its front and its end. */
static const uint8_t *whole_image(const char *front, const char *end) {
    static uint8_t image[REACH];
    uint8_t bytes[16];
    size_t length;
    memset(image, 0, sizeof image);
    length = bytes_of(front, bytes);
    memcpy(image, bytes, length);
    length = bytes_of(end, bytes);
    memcpy(image + REACH - length, bytes, length);
    return image;
}

#define HALTS(image, count, pairs) halts((image), (count), (pairs), __LINE__)
#define RUN_REFUSED(image, budget, log_len, number) does_not_halt((image), (budget), (log_len), (number), __LINE__)

/* REFERENCE 15: the steps of the manual, and the orders of document 02, No. 10. */
static void runs(void) {
    static uint8_t image[REACH + 8], log[400], expected[400];
    fsq_run_result_t result;
    size_t i;
    int n;
    HALTS("F4", 1, "");
    HALTS("B007 E601 F4", 3, "01 07");
    HALTS("C6C007 E601 F4", 3, "01 07");
    HALTS("B83412 E602 F4", 3, "02 34");
    HALTS("C7C03412 E602 F4", 3, "02 34");
    /* AH is byte register 4, and not SP, which is word register 4. */
    HALTS("B034 B412 E602 F4", 4, "02 34");
    HALTS("B83412 B456 E602 F4", 4, "02 34");
    HALTS("BC3412 E602 F4", 3, "02 00");
    HALTS("B501 B101 E2FE F4", 260, "");
    HALTS("B001 E610 B002 E620 E630 F4", 6, "10 01 20 02 30 02");
    HALTS("B90100 E2FE F4", 3, "");
    HALTS("B90200 E2FE F4", 4, "");
    HALTS("E2FE F4", 65537, "");
    HALTS("B90300 E605 E2FC F4", 8, "05 00 05 00 05 00");
    HALTS("E90100 90 F4", 2, "");
    HALTS("EB01 90 F4", 2, "");
    HALTS("EB03 F4 9090 EBFB", 3, "");
    /* 22 before 21, 21 before 9. */
    RUN_REFUSED("", 0, 0, FSQ_BUDGET_SPENT);
    RUN_REFUSED("90", 0, 0, FSQ_BUDGET_SPENT);
    RUN_REFUSED("E610", 0, 0, FSQ_BUDGET_SPENT);
    RUN_REFUSED("B007 90", 1, 0, FSQ_BUDGET_SPENT);
    RUN_REFUSED("E2FE F4", 65536, 0, FSQ_BUDGET_SPENT);
    RUN_REFUSED("B007 90", 2, 0, FSQ_NOT_CARRIED_OUT);
    RUN_REFUSED("", 1, 0, FSQ_NOT_CARRIED_OUT);
    RUN_REFUSED("B0", 9, 0, FSQ_NOT_CARRIED_OUT);
    RUN_REFUSED("C6C0", 9, 0, FSQ_NOT_CARRIED_OUT);
    RUN_REFUSED("E610 90", 2, 2, FSQ_NOT_CARRIED_OUT);
    RUN_REFUSED("E610 E7", 9, 2, FSQ_NOT_CARRIED_OUT);
    RUN_REFUSED("E710 F4", 9, 2, FSQ_NOT_CARRIED_OUT);
    RUN_REFUSED("EE F4", 9, 2, FSQ_NOT_CARRIED_OUT);
    RUN_REFUSED("E000 F4", 9, 2, FSQ_NOT_CARRIED_OUT);
    RUN_REFUSED("E300 F4", 9, 2, FSQ_NOT_CARRIED_OUT);
    RUN_REFUSED("E80000 F4", 9, 2, FSQ_NOT_CARRIED_OUT);
    RUN_REFUSED("EA05000000 F4", 9, 2, FSQ_NOT_CARRIED_OUT);
    RUN_REFUSED("C606000007 F4", 9, 2, FSQ_NOT_CARRIED_OUT);
    RUN_REFUSED("E610 F4", 1, 1, FSQ_SLICE_TOO_SHORT);
    RUN_REFUSED("E610 E611 F4", 9, 2, FSQ_SLICE_TOO_SHORT);
    RUN_REFUSED("E610 E611 F4", 9, 3, FSQ_SLICE_TOO_SHORT);
    /* Of the images of one first byte and zeros these are carried out, and HLT. */
    for (n = 0; n < 256; n++) {
        int known = (n >= 0xB0 && n <= 0xBF) || n == 0xE2 || n == 0xE6 || n == 0xE9 || n == 0xEB;
        memset(image, 0, 8);
        image[0] = (uint8_t) n;
        CHECK(fsq_run_image(image, 8, 1, log, 2, NULL) == (n == 0xF4 ? 0 : known ? -FSQ_BUDGET_SPENT : -FSQ_NOT_CARRIED_OUT));
        image[0] = 0xC6;
        image[1] = (uint8_t) n;
        CHECK(fsq_run_image(image, 8, 1, NULL, 0, NULL) == (n >> 3 == 0x18 ? -FSQ_BUDGET_SPENT : -FSQ_NOT_CARRIED_OUT));
        image[0] = 0xC7;
        CHECK(fsq_run_image(image, 8, 1, NULL, 0, NULL) == (n >> 3 == 0x18 ? -FSQ_BUDGET_SPENT : -FSQ_NOT_CARRIED_OUT));
    }

    /* The offset wraps at 65,536 between two instructions, and no instruction does; later bytes are not looked at. */
    ran(whole_image("E9FAFF F4", "E90300"), REACH, 9, 0, 0, 3, "", __LINE__);
    ran(whole_image("E610 EBFA", "B007"), REACH, 3, 2, -FSQ_BUDGET_SPENT, 0, "", __LINE__);
    ran(whole_image("E610 EBFA", "B007"), REACH, 9, 2, -FSQ_SLICE_TOO_SHORT, 0, "", __LINE__);
    ran(whole_image("B90200 E2FA F4", "F4"), REACH, 9, 0, 0, 3, "", __LINE__);
    ran(whole_image("E9FCFF", "F4"), REACH, 9, 0, 0, 2, "", __LINE__);
    /* JMP to FFF6, JMP to FFFF, where B0 stands; behind its immediate the offset would be 1, where HLT stands. */
    ran(whole_image("EBF4", "EB0700000000000000B0"), REACH, 9, 0, -FSQ_NOT_CARRIED_OUT, 0, "", __LINE__);
    memset(image, 0xF4, sizeof image);
    memcpy(image, whole_image("EBF4", "EB0700000000000000B0"), REACH);
    ran(image, sizeof image, 9, 0, -FSQ_NOT_CARRIED_OUT, 0, "", __LINE__);
    memcpy(image, whole_image("B007 E610 F4", ""), REACH);
    ran(image, sizeof image, 9, 2, 0, 3, "10 07", __LINE__);

    /* What a designer may rely on: 200 cues of the longest delay halt on the last of 200 * (65,535 + 3) + 1 steps. */
    for (i = 0; i < 200; i++) {
        static const uint8_t cue[] = {0xB9, 0xFF, 0xFF, 0xE2, 0xFE, 0xB0, 0, 0xE6, 0};
        memcpy(image + 9 * i, cue, sizeof cue);
        expected[2 * i] = image[9 * i + 8] = (uint8_t) i;
        expected[2 * i + 1] = image[9 * i + 6] = (uint8_t) (255 - i);
    }
    image[1800] = 0xF4;
    CHECK(fsq_run_image(image, 1801, 13107601, log, 400, &result) == 0 && fsq_run_count(&result) == 13107601 && fsq_run_log_length(&result) == 400);
    CHECK(memcmp(log, expected, sizeof log) == 0);
    memset(log, 0xA5, sizeof log);
    CHECK(fsq_run_image(image, 1801, 13107600, log, 400, &result) == -FSQ_BUDGET_SPENT && fsq_run_count(&result) == 0 && fsq_run_log_length(&result) == 0);
    CHECK(fsq_run_image(image, 1801, 13107601, log, 399, &result) == -FSQ_SLICE_TOO_SHORT && fsq_run_count(&result) == 0);
    for (i = 0; i < sizeof log; i++)
        CHECK(log[i] == 0xA5);

    /* A null image is an empty one, a null log has no room, whatever length comes with them. */
    CHECK(fsq_run_image(NULL, 0, 0, NULL, 0, NULL) == -FSQ_BUDGET_SPENT && fsq_run_image(NULL, 9, 1, NULL, 9, NULL) == -FSQ_NOT_CARRIED_OUT);
    bytes_of("E610 F4", image);
    CHECK(fsq_run_image(image, 3, 9, NULL, 2, &result) == -FSQ_SLICE_TOO_SHORT && fsq_run_image(image, 3, 9, NULL, 0, NULL) == -FSQ_SLICE_TOO_SHORT);
    bytes_of("F4", image);
    CHECK(fsq_run_image(image, 1, 9, NULL, 2, &result) == 0 && fsq_run_count(&result) == 1 && fsq_run_log_length(&result) == 0);
    /* A log of more than 2^32 bytes. */
    bytes_of("FF FF FF FF 00 00 00 00 FC FF FF FF 01 00 00 00", result.bytes);
    CHECK(fsq_run_count(&result) == 4294967295u && fsq_run_log_length(&result) == (uint64_t) 4294967294u * 2u);
    bytes_of("01 02 03 04 05 06 07 88", image);
    CHECK(fsq_get_u64(image) == ((uint64_t) 0x88070605u << 32 | 0x04030201u));
    CHECK(FSQ_NOT_CARRIED_OUT == 21 && FSQ_BUDGET_SPENT == 22 && FSQ_RUN_RESULT_LENGTH == 16 && sizeof(fsq_run_result_t) == 16 && FSQ_REACH_LENGTH == 65536);
}

/* The names of REFERENCE 11, by the enumerators of the header, and its comments as sentences. */
#define REFUSAL(name) CHECK(strcmp(fsq_refusal_name(-FSQ_##name), #name) == 0)
/* operations.h, which tests/library/compilers writes, has OPERATION(name) for each of tools/operations.py. */
#define OPERATION(name) \
    CHECK(FSQ_##name == number && strcmp(fsq_operation_name(FSQ_##name), #name) == 0), number++;

/* The file of version 1 of some records; its length. */
static size_t packed(uint8_t *file, uint16_t origin, const fsq_record_t *records, size_t count) {
    size_t i;
    fsq_write_header(file, FSQ_HEADER_LENGTH, origin, (uint16_t) count);
    for (i = 0; i < count; i++)
        memcpy(file + FSQ_HEADER_LENGTH + FSQ_RECORD_LENGTH * i, records[i].bytes, FSQ_RECORD_LENGTH);
    return FSQ_HEADER_LENGTH + FSQ_RECORD_LENGTH * count;
}

/* A file by the inline function and by the library's: the written file, or a refusal with its record. What is lent is filled before, and behind the written file,
 * or on a refusal all of it, stays; a report of 27 bytes stays. */
static void converts(const uint8_t *file, size_t length, size_t lent, const uint8_t *written, int answer, uint32_t record, int line) {
    static uint8_t out[FSQ_CONVERTED_LENGTH + 60], expected[sizeof out];
    uint8_t told[FSQ_REPORT_LENGTH + 1], untouched[FSQ_REPORT_LENGTH + 1];
    fsq_report_t report;
    uint8_t number = (uint8_t) (answer < 0 ? -answer : FSQ_DONE);
    memset(untouched, 0xA5, sizeof untouched);
    memset(told, 0xA5, sizeof told);
    memset(expected, 0xA5, sizeof expected);
    if (answer > 0)
        memcpy(expected, written, (size_t) answer);
    memset(out, 0xA5, sizeof out);
    check(fsq_convert_show(file, length, out, lent, &report) == answer && memcmp(out, expected, sizeof out) == 0, "by the inline function", line);
    check(fsq_report_record(&report) == record && fsq_report_length(&report) == (answer > 0 ? (uint32_t) answer : 0), "length and record", line);
    memset(out, 0xA5, sizeof out);
    check(fsq_convert(file, length, out, lent, told, FSQ_REPORT_LENGTH - 1) == number && memcmp(told, untouched, sizeof told) == 0
          && memcmp(out, expected, sizeof out) == 0, "without a whole report", line);
    memset(out, 0xA5, sizeof out);
    check(fsq_convert(file, length, out, lent, told, sizeof told) == number && memcmp(told, report.bytes, sizeof report) == 0 && told[FSQ_REPORT_LENGTH] == 0xA5
          && memcmp(out, expected, sizeof out) == 0, "by the library", line);
    memset(out, 0xA5, sizeof out);
    check(fsq_convert_show(file, length, out, lent, NULL) == answer && memcmp(out, expected, sizeof out) == 0, "without a report", line);
}

/* Records become others, into room enough, just enough and a byte less. */
static void become(uint16_t origin, const fsq_record_t *from, size_t count, const fsq_record_t *to, size_t many, int line) {
    static uint8_t file[FSQ_CONVERTED_LENGTH], written[FSQ_CONVERTED_LENGTH];
    size_t length = packed(file, origin, from, count), all = packed(written, origin, to, many);
    converts(file, length, all, written, (int) all, FSQ_NO_RECORD, line);
    converts(file, length, all + 60, written, (int) all, FSQ_NO_RECORD, line);
    converts(file, length, all - 1, NULL, -FSQ_SLICE_TOO_SHORT, FSQ_NO_RECORD, line);
    converts(file, length, 0, NULL, -FSQ_SLICE_TOO_SHORT, FSQ_NO_RECORD, line);
}

static void not_converted(uint16_t origin, const fsq_record_t *from, size_t count, int number, uint32_t record, int line) {
    static uint8_t file[FSQ_CONVERTED_LENGTH];
    size_t length = packed(file, origin, from, count);
    converts(file, length, FSQ_CONVERTED_LENGTH, NULL, -number, record, line);
    converts(file, length, 0, NULL, -number, record, line);
}

static fsq_record_t shift(enum fsq_operation operation, int32_t count) {
    return fsq_record_with_span(fsq_two(operation, fsq_with_span(fsq_reg(FSQ_AX), 5, 7), fsq_with_span(fsq_imm(count), 8, 9)), 1, 9);
}

static fsq_record_t to(enum fsq_operation operation, int32_t target) {
    return fsq_one(operation, fsq_imm(target));
}

/* REFERENCE 16, document 02, No. 12: SHL AX,3 is C1 E0 03 for the 186, each copy D1 E0. */
static void conversions(void) {
    static const enum fsq_operation shifts[] = {FSQ_ROL, FSQ_ROR, FSQ_RCL, FSQ_RCR, FSQ_SHL, FSQ_SHR, FSQ_SAR};
    static const int32_t counts[] = {0, 32, -1, 33, 257, 65537, 2147483647, -2147483647 - 1};
    static fsq_record_t from[1000], into[1000];
    static uint8_t file[FSQ_CONVERTED_LENGTH + FSQ_RECORD_LENGTH], out[FSQ_CONVERTED_LENGTH];
    fsq_record_t one = shift(FSQ_SHL, 1), hlt = fsq_none(FSQ_HLT);
    fsq_report_t report;
    size_t i, length;
    int32_t n, k;
    become(256, from, 0, into, 0, __LINE__);
    for (i = 0; i < 7; i++)
        for (n = 1; n <= 31; n++) {
            from[0] = shift(shifts[i], n);
            from[1] = to(FSQ_JE, n == 1 ? 258 : 259);
            for (k = 0; k < n; k++)
                into[k] = shift(shifts[i], 1);
            into[n] = to(FSQ_JE, 256 + 2 * n);
            become(256, from, 2, into, (size_t) n + 1, __LINE__);
        }
    /* The end, the shift itself, and a target behind the branch; E8 wraps, a distance byte does not; EB. */
    into[0] = into[1] = into[2] = one;
    from[0] = shift(FSQ_SHL, 3);
    from[1] = to(FSQ_JE, 261);
    into[3] = to(FSQ_JE, 264);
    become(256, from, 2, into, 4, __LINE__);
    from[1] = into[3] = to(FSQ_LOOP, 256);
    become(256, from, 2, into, 4, __LINE__);
    from[1] = fsq_one(FSQ_JMP, fsq_with_jump(fsq_imm(259), FSQ_SHORT));
    into[3] = fsq_one(FSQ_JMP, fsq_with_jump(fsq_imm(262), FSQ_SHORT));
    become(256, from, 2, into, 4, __LINE__);
    from[0] = shift(FSQ_SHL, 2);
    from[1] = from[2] = into[2] = into[3] = hlt;
    from[3] = to(FSQ_CALL, 65535);
    into[4] = to(FSQ_CALL, 0);
    become(65531, from, 4, into, 5, __LINE__);
    from[1] = to(FSQ_JE, 65536);
    into[2] = to(FSQ_JE, 65537);
    become(65531, from, 2, into, 3, __LINE__);
    /* By CL, and a far target: copied. */
    from[1] = into[2] = fsq_two(FSQ_SHL, fsq_reg(FSQ_AX), fsq_reg(FSQ_CL));
    from[2] = into[3] = fsq_one(FSQ_JMP, fsq_far(0, 257));
    become(256, from, 3, into, 4, __LINE__);

    /* The loader's refusals have the record of the written file. */
    from[0] = shift(FSQ_SHL, 3);
    from[1] = to(FSQ_JE, 65536);
    not_converted(65531, from, 2, FSQ_RELATIVE_JUMP_OUT_OF_RANGE, 3, __LINE__);
    length = packed(file, 65531, from, 2);
    CHECK(fsq_convert_show(file, length, out, sizeof out, &report) == -6 && fsq_report_value(&report) == 65536);
    from[0] = shift(FSQ_SHL, 2);
    from[1] = fsq_one(FSQ_JMP, fsq_with_span(fsq_with_jump(fsq_imm(65535), FSQ_SHORT), 3, 8));
    from[2] = from[3] = hlt;
    not_converted(65529, from, 4, FSQ_IMMEDIATE_OUT_OF_RANGE, 2, __LINE__);
    length = packed(file, 65529, from, 4);
    CHECK(fsq_convert_show(file, length, out, sizeof out, &report) == -5 && fsq_report_value(&report) == 65536 && fsq_report_low(&report) == 0);
    CHECK(fsq_report_high(&report) == 65535 && fsq_report_span_start(&report) == 3 && fsq_report_span_end(&report) == 8);

    /* 24, whatever else the record is, and 25, without a span. */
    from[0] = from[1] = hlt;
    for (i = 0; i < sizeof counts / sizeof *counts; i++) {
        from[2] = fsq_record_with_span(fsq_two(FSQ_RCL, fsq_with_span(fsq_reg(FSQ_BL), 4, 6), fsq_with_span(fsq_imm(counts[i]), 7, 9)), 0, 9);
        not_converted(0, from, 3, FSQ_SHIFT_COUNT_OUT_OF_RANGE, 2, __LINE__);
    }
    length = packed(file, 0, from, 3);
    CHECK(fsq_convert_show(file, length, out, sizeof out, &report) == -24 && fsq_report_span_start(&report) == 0 && fsq_report_span_end(&report) == 0);
    CHECK(fsq_report_value(&report) == 0 && fsq_report_low(&report) == 0 && fsq_report_high(&report) == 0);
    from[2] = fsq_one(FSQ_SHL, fsq_reg(FSQ_AX));
    not_converted(0, from, 3, FSQ_SHIFT_COUNT_OUT_OF_RANGE, 2, __LINE__);
    from[2] = shift(FSQ_SAR, 3);
    from[3] = fsq_record_with_span(to(FSQ_JE, 3), 11, 15);
    not_converted(0, from, 4, FSQ_NO_RECORD_AT_TARGET, 3, __LINE__);
    length = packed(file, 0, from, 4);
    CHECK(fsq_convert_show(file, length, out, sizeof out, &report) == -25 && fsq_report_span_start(&report) == 0 && fsq_report_span_end(&report) == 0);
    /* Each before the next: 15, 24, the record's own, 25. */
    from[1] = fsq_none(FSQ_INT1);
    not_converted(0, from, 4, FSQ_NOT_SUPPORTED, 1, __LINE__);
    from[2] = shift(FSQ_SAR, 40);
    not_converted(0, from, 4, FSQ_SHIFT_COUNT_OUT_OF_RANGE, 2, __LINE__);
    from[3].bytes[FSQ_FIRST_AT + (size_t) FSQ_KIND_AT] = 4;
    not_converted(0, from, 4, FSQ_UNKNOWN_CODE, 3, __LINE__);

    /* The file itself; a count of 1,000, and 1,001 records to write. */
    length = packed(file, 0, from, 4);
    for (n = 0; n < 9; n++)
        converts(file, (size_t) n, FSQ_CONVERTED_LENGTH, NULL, n < 3 ? -FSQ_NO_MARK : -FSQ_WRONG_LENGTH, FSQ_NO_RECORD, __LINE__);
    converts(file, length - 1, FSQ_CONVERTED_LENGTH, NULL, -FSQ_WRONG_LENGTH, FSQ_NO_RECORD, __LINE__);
    converts(file, length + 1, FSQ_CONVERTED_LENGTH, NULL, -FSQ_WRONG_LENGTH, FSQ_NO_RECORD, __LINE__);
    for (n = 0; n < 5; n++)
        if (n != 1) {
            fsq_put_u16(file + FSQ_HEADER_VERSION_AT, (uint16_t) n);
            converts(file, length, FSQ_CONVERTED_LENGTH, NULL, -FSQ_WRONG_VERSION, FSQ_NO_RECORD, __LINE__);
            converts(file, length + 1, 0, NULL, -FSQ_WRONG_VERSION, FSQ_NO_RECORD, __LINE__);
        }
    for (i = 0; i < 1000; i++) {
        from[i] = i < 32 ? shift(FSQ_SHL, 31) : hlt;
        into[i] = i < 992 ? one : hlt;
    }
    become(0, from, 40, into, 1000, __LINE__);
    not_converted(0, from, 41, FSQ_WRONG_LENGTH, FSQ_NO_RECORD, __LINE__);
    for (i = 0; i < 1000; i++)
        from[i] = into[i] = to(FSQ_CALL, 0);
    become(0, from, 1000, into, 1000, __LINE__);
    length = packed(file, 0, from, 1000);
    memcpy(file + length, hlt.bytes, FSQ_RECORD_LENGTH);
    fsq_put_u16(file + FSQ_HEADER_COUNT_AT, 1001);
    converts(file, length + FSQ_RECORD_LENGTH, FSQ_CONVERTED_LENGTH, NULL, -FSQ_WRONG_LENGTH, FSQ_NO_RECORD, __LINE__);

    /* A null file is an empty one, a null slice has no byte, whatever length comes with them. */
    CHECK(fsq_convert_show(NULL, 0, out, sizeof out, &report) == -FSQ_NO_MARK && fsq_report_record(&report) == FSQ_NO_RECORD);
    CHECK(fsq_convert_show(NULL, 65, NULL, 65, NULL) == -FSQ_NO_MARK);
    length = packed(file, 0, &hlt, 1);
    CHECK(fsq_convert_show(file, length, NULL, 0, &report) == -FSQ_SLICE_TOO_SHORT && fsq_convert_show(file, length, NULL, 65, NULL) == -FSQ_SLICE_TOO_SHORT);
    CHECK(fsq_report_span_end(&report) == 0 && fsq_report_record(&report) == FSQ_NO_RECORD);
    CHECK(FSQ_SHIFT_COUNT_OUT_OF_RANGE == 24 && FSQ_NO_RECORD_AT_TARGET == 25 && FSQ_CONVERTED_LENGTH == 56009);
}

/* A show by the inline function and by the library's: the length of the image, or a refusal with its record, and of 25 the target and the record that it falls into.
 * A report of 27 bytes stays. */
static void checked(const uint8_t *file, size_t length, int answer, uint32_t record, int32_t target, uint32_t around, int line) {
    uint8_t told[FSQ_REPORT_LENGTH + 1], untouched[FSQ_REPORT_LENGTH + 1];
    fsq_report_t report;
    uint8_t number = (uint8_t) (answer < 0 ? -answer : FSQ_DONE);
    memset(untouched, 0xA5, sizeof untouched);
    memset(told, 0xA5, sizeof told);
    check(fsq_check_show(file, length, &report) == answer && fsq_check_show(file, length, NULL) == answer, "by the inline function", line);
    check(fsq_report_record(&report) == record && fsq_report_value(&report) == target && fsq_report_around(&report) == around, "record, target and record around", line);
    check(fsq_check(file, length, told, FSQ_REPORT_LENGTH - 1) == number && memcmp(told, untouched, sizeof told) == 0, "without a whole report", line);
    check(fsq_check(file, length, told, sizeof told) == number && memcmp(told, report.bytes, sizeof report) == 0 && told[FSQ_REPORT_LENGTH] == 0xA5, "by the library", line);
}

/* MOV AX,7 at 100 to 102, HLT at 103, a branch at 104. */
static void targets(void) {
    static const struct { enum fsq_operation operation; int near; } branches[] = {
        {FSQ_JE, 0}, {FSQ_JNS, 0}, {FSQ_LOOP, 0}, {FSQ_LOOPZ, 0}, {FSQ_LOOPNZ, 0}, {FSQ_JCXZ, 0}, {FSQ_CALL, 1}, {FSQ_JMP, 1}
    };
    static uint8_t file[FSQ_CONVERTED_LENGTH];
    fsq_record_t from[3] = {fsq_two(FSQ_MOV, fsq_reg(FSQ_AX), fsq_imm(7)), fsq_none(FSQ_HLT), fsq_none(FSQ_HLT)};
    fsq_report_t report;
    size_t length, i;
    for (i = 0; i < sizeof branches / sizeof *branches; i++) {
        int32_t target, end = branches[i].near ? 107 : 106;
        for (target = 98; target <= 110; target++) {
            int right = target == 100 || target == 103 || target == 104 || target == end;
            uint32_t around = target < 100 || target > end ? FSQ_NO_RECORD : target < 103 ? 0u : 2u;
            from[2] = fsq_one(branches[i].operation, fsq_imm(target));
            length = packed(file, 100, from, 3);
            checked(file, length, right ? (int) end - 100 : -FSQ_NO_RECORD_AT_TARGET, right ? FSQ_NO_RECORD : 2, right ? 0 : target, right ? (uint32_t) (end - 100) : around, __LINE__);
        }
    }
    /* EB, and EA, which has no near target */
    from[2] = fsq_one(FSQ_JMP, fsq_with_jump(fsq_imm(105), FSQ_SHORT));
    length = packed(file, 100, from, 3);
    checked(file, length, -FSQ_NO_RECORD_AT_TARGET, 2, 105, 2, __LINE__);
    from[2] = fsq_one(FSQ_JMP, fsq_far(0, 101));
    length = packed(file, 100, from, 3);
    checked(file, length, 9, FSQ_NO_RECORD, 0, 9, __LINE__);
    /* The first of two, and a refusal of the loader behind it. */
    from[0] = fsq_one(FSQ_JE, fsq_imm(101));
    from[2] = fsq_one(FSQ_JE, fsq_imm(104));
    length = packed(file, 100, from, 3);
    checked(file, length, -FSQ_NO_RECORD_AT_TARGET, 0, 101, 0, __LINE__);
    from[2] = fsq_none(FSQ_INT1);
    length = packed(file, 100, from, 3);
    checked(file, length, -FSQ_NOT_SUPPORTED, 2, 0, 0, __LINE__);
    file[FSQ_HEADER_LENGTH + FSQ_RECORD_LENGTH] = 99;
    checked(file, length, -FSQ_UNKNOWN_CODE, 1, 0, 0, __LINE__);
    checked(file, length - 1, -FSQ_WRONG_LENGTH, FSQ_NO_RECORD, 0, 0, __LINE__);
    file[FSQ_HEADER_VERSION_AT] = 4;
    checked(file, length - 1, -FSQ_WRONG_VERSION, FSQ_NO_RECORD, 0, 0, __LINE__);
    file[0] = 0;
    checked(file, length - 1, -FSQ_NO_MARK, FSQ_NO_RECORD, 0, 0, __LINE__);
    /* Offsets wrap: MOV at 65,535, 0 and 1; the end of a JE at 65,534 is 0. */
    from[0] = fsq_two(FSQ_MOV, fsq_reg(FSQ_AX), fsq_imm(7));
    from[1] = fsq_one(FSQ_JE, fsq_imm(0));
    length = packed(file, 65535, from, 2);
    checked(file, length, -FSQ_NO_RECORD_AT_TARGET, 1, 0, 0, __LINE__);
    from[0] = fsq_one(FSQ_JE, fsq_imm(65536));
    length = packed(file, 65534, from, 1);
    checked(file, length, 2, FSQ_NO_RECORD, 0, 2, __LINE__);
    /* A null file is an empty one. */
    CHECK(fsq_check_show(NULL, 0, &report) == -FSQ_NO_MARK && fsq_report_record(&report) == FSQ_NO_RECORD && fsq_check_show(NULL, 65, NULL) == -FSQ_NO_MARK);
}

static void names(void) {
    static const char *const sentences[] = {
        "Nothing is refused.",
        "No form of the operation takes these operands.",
        "No operand states whether a byte or a word is meant.",
        "One operand is a byte and the other a word.",
        "The operation does not take an operand of this size, or none is stated.",
        "An immediate, address, port, target or segment is outside its limits.",
        "The target is too far for a short jump.",
        "The encoder does not have this instruction.",
        "The operand count is above 2, or an operand's fields contradict each other.",
        "The lent slice is too short.",
        "No instruction begins with these bytes.",
        "The bytes are the front of an instruction, and more are needed.",
        "The file does not begin with \"FSQ\".",
        "The file's version is not 1, 2 or 3, or not 1 where a show is converted.",
        "The file is not as long as its count says, its version does not take this count, or a record has not 56 or 57 bytes.",
        "A record has an operation, kind, size or jump kind that does not exist.",
        "The text is not a sum of decimal numbers, + - * / and brackets, without blanks.",
        "The sum is more than 16 brackets deep.",
        "A value on the way is outside -2147483648 to 2147483647, or a divisor is 0.",
        "The length is not a multiple of 4, or there are more than 200 cues.",
        "A cue has a delay of 0.",
        "The next bytes inside the image are no instruction that a run carries out.",
        "The whole budget is carried out, and HLT was not met.",
        "The repeat is neither REP nor REPNE, or the operation takes none.",
        "A shift or rotate has an immediate count outside 1 to 31.",
        "A branch goes to where no record starts, or stood, and not to the end of the show."
    };
    int number = 0, i;
    REFUSAL(DONE); REFUSAL(INVALID_OPERANDS); REFUSAL(OPERAND_SIZE_NOT_SPECIFIED); REFUSAL(OPERAND_SIZES_DO_NOT_MATCH);
    REFUSAL(INVALID_OPERAND_SIZE); REFUSAL(IMMEDIATE_OUT_OF_RANGE); REFUSAL(RELATIVE_JUMP_OUT_OF_RANGE); REFUSAL(NOT_SUPPORTED);
    REFUSAL(NOT_WELL_FORMED); REFUSAL(SLICE_TOO_SHORT); REFUSAL(NOT_AN_INSTRUCTION); REFUSAL(NOT_COMPLETE); REFUSAL(NO_MARK);
    REFUSAL(WRONG_VERSION); REFUSAL(WRONG_LENGTH); REFUSAL(UNKNOWN_CODE); REFUSAL(NOT_A_SUM); REFUSAL(TOO_DEEP); REFUSAL(VALUE_OUT_OF_RANGE);
    REFUSAL(NOT_A_CUE_LIST); REFUSAL(NO_DELAY); REFUSAL(NOT_CARRIED_OUT); REFUSAL(BUDGET_SPENT); REFUSAL(INVALID_REPEAT);
    REFUSAL(SHIFT_COUNT_OUT_OF_RANGE); REFUSAL(NO_RECORD_AT_TARGET);
    CHECK(strcmp(fsq_refusal_name(7), "DONE") == 0 && strcmp(fsq_refusal_name(56000), "DONE") == 0);
    CHECK(FSQ_NOT_A_SUM == 16 && FSQ_TOO_DEEP == 17 && FSQ_VALUE_OUT_OF_RANGE == 18 && FSQ_NOT_A_CUE_LIST == 19 && FSQ_NO_DELAY == 20);
    for (i = 0; i <= 25; i++)
        CHECK(strcmp(fsq_refusal_sentence(-i), sentences[i]) == 0);
    /* Nothing is above 25. */
    for (i = 26; i <= 260; i++) {
        CHECK(strcmp(fsq_refusal_name(-i), "UNKNOWN") == 0);
        CHECK(strcmp(fsq_refusal_sentence(-i), "This header does not know the refusal.") == 0);
    }
    CHECK(strcmp(fsq_refusal_name(-2147483647 - 1), "UNKNOWN") == 0);
    CHECK(fsq_refusal_sentence(7) == fsq_refusal_sentence(0) && fsq_refusal_sentence(-2147483647 - 1) == fsq_refusal_sentence(-26));
#include "operations.h"
    CHECK(number == 99);
    for (i = LEAST; i <= OPERATIONS; i++)
        CHECK((strcmp(fsq_operation_name((enum fsq_operation) i), "UNKNOWN") == 0) == (i < 0 || i > 98));
}

int main(void) {
    numbers();
    operands();
    records();
    bytes();
    calls();
    shortest();
    forms();
    readings();
    shows();
    long_shows();
    repeats();
    repeat_shows();
    long_repeat_shows();
    sums();
    cues();
    runs();
    conversions();
    targets();
    names();
    printf("header: %d checks, %d failed\n", checks, failures);
    return failures != 0;
}
