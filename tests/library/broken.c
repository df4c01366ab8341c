// Wrong programs for tests/library/broken: the library's functions with one fault each, named by FSQ_FAULT.
#include "fsq.h"
#include <stdlib.h>
#include <string.h>

extern __typeof__(fsq_encode) right_encode;
extern __typeof__(fsq_shortest) right_shortest;
extern __typeof__(fsq_list) right_list;
extern __typeof__(fsq_form) right_form;
extern __typeof__(fsq_read) right_read;
extern __typeof__(fsq_load) right_load;
extern __typeof__(fsq_check) right_check;
extern __typeof__(fsq_evaluate) right_evaluate;
extern __typeof__(fsq_cue) right_cue;
extern __typeof__(fsq_run) right_run;
extern __typeof__(fsq_convert) right_convert;

static int fault(const char *name) {
    const char *named = getenv("FSQ_FAULT");
    return named != NULL && strcmp(named, name) == 0;
}

// The repeat of a record, 0 where it has none.
static uint8_t repeat_of(const uint8_t *record, size_t n) {
    return n == FSQ_REPEAT_RECORD_LENGTH ? record[FSQ_REPEAT_AT] : 0;
}

uint8_t fsq_encode(const uint8_t *record, size_t n, uint16_t offset, uint8_t *out, size_t m, uint8_t *report, size_t k) {
    uint8_t answer;
    int accepted, reported = k >= FSQ_REPORT_LENGTH;
    if (fault("byte-before-a-refusal") && m > 0)
        out[0] = 0x83;
    if (fault("record-written"))
        ((volatile uint8_t *) record)[0] = record[0];
    answer = right_encode(record, n, offset, out, m, report, k);
    accepted = answer == FSQ_DONE;
    // RCL stands in no example and no test of the crate
    if (fault("wrong-byte") && accepted && record[FSQ_OPERATION_AT] == FSQ_RCL)
        out[0] ^= 1;
    if (fault("byte-behind-the-run") && accepted && m > FSQ_STRING_LENGTH)
        out[FSQ_STRING_LENGTH] = 1;
    if (fault("byte-behind-the-slice") && accepted)
        ((volatile uint8_t *) out)[m] = out[m];
    if (fault("byte-behind-a-short-report") && k == FSQ_REPORT_LENGTH - 1)
        report[k] = 0;
    if (fault("wrong-number") && answer == FSQ_NOT_SUPPORTED)
        answer = FSQ_NOT_WELL_FORMED;
    if (fault("wrong-span") && !accepted && reported)
        report[FSQ_REPORT_SPAN_START_AT] ^= 1;
    if (fault("wrong-limit") && answer == FSQ_IMMEDIATE_OUT_OF_RANGE && reported)
        report[FSQ_REPORT_HIGH_AT] ^= 1;
    if (fault("a-record-named") && !accepted && reported)
        memset(report + FSQ_REPORT_RECORD_AT, 0, 4);
    // the repeat
    if (fault("f2-for-f3") && accepted && repeat_of(record, n) == 0xF3)
        out[0] = 0xF2;
    if (fault("repeat-dropped") && accepted && repeat_of(record, n) != 0)
        answer = right_encode((const uint8_t[FSQ_RECORD_LENGTH]) {record[FSQ_OPERATION_AT]}, FSQ_RECORD_LENGTH, offset, out, m, report, k);
    if (fault("repeat-before-lock") && answer == FSQ_INVALID_REPEAT && record[FSQ_OPERATION_AT] == FSQ_LOCK && record[FSQ_REPEAT_AT] == 0xF3)
        return FSQ_DONE;
    if (fault("repeat-f1-taken") && answer == FSQ_INVALID_REPEAT && record[FSQ_REPEAT_AT] == 0xF1)
        return FSQ_DONE;
    if (fault("repeat-99-of-lodsw-taken") && answer == FSQ_INVALID_REPEAT && record[FSQ_OPERATION_AT] == FSQ_LODSW && record[FSQ_REPEAT_AT] == 99)
        return FSQ_DONE;
    if (fault("23-before-8") && answer == FSQ_NOT_WELL_FORMED && (repeat_of(record, n) == 0xF0 || repeat_of(record, n) == 0xF3))
        answer = FSQ_INVALID_REPEAT;
    if (fault("8-for-23") && answer == FSQ_INVALID_REPEAT)
        answer = FSQ_NOT_WELL_FORMED;
    if (fault("7-before-23") && answer == FSQ_INVALID_REPEAT && record[FSQ_OPERATION_AT] == FSQ_ESC)
        answer = FSQ_NOT_SUPPORTED;
    if (fault("5-before-23") && answer == FSQ_INVALID_REPEAT && record[FSQ_OPERATION_AT] == FSQ_MOV)
        answer = FSQ_IMMEDIATE_OUT_OF_RANGE;
    if (fault("9-before-23") && answer == FSQ_INVALID_REPEAT && m < 2)
        answer = FSQ_SLICE_TOO_SHORT;
    if (fault("23-before-15") && answer == FSQ_UNKNOWN_CODE && repeat_of(record, n) != 0)
        answer = FSQ_INVALID_REPEAT;
    if (fault("23-without-a-span") && answer == FSQ_INVALID_REPEAT && reported)
        memset(report + FSQ_REPORT_SPAN_START_AT, 0, 8);
    if (fault("23-with-a-value") && answer == FSQ_INVALID_REPEAT && reported)
        report[FSQ_REPORT_VALUE_AT] = record[FSQ_REPEAT_AT];
    if (fault("57-bytes-refused") && n == FSQ_REPEAT_RECORD_LENGTH)
        answer = FSQ_WRONG_LENGTH;
    if (fault("58-bytes-taken") && n == FSQ_REPEAT_RECORD_LENGTH + 1)
        answer = right_encode(record, FSQ_REPEAT_RECORD_LENGTH, offset, out, m, report, k);
    if (fault("55-bytes-taken") && n == FSQ_RECORD_LENGTH - 1)
        return FSQ_DONE;
    return answer;
}

uint8_t fsq_shortest(const uint8_t *record, size_t n, uint16_t offset, uint8_t *out, size_t m, uint8_t *report, size_t k) {
    uint8_t answer, count, length, encoded[FSQ_STRING_LENGTH], list[FSQ_LIST_LENGTH], own[FSQ_REPORT_LENGTH];
    int accepted, reported = k >= FSQ_REPORT_LENGTH;
    size_t chosen = 0;
    if (fault("shortest-before-a-refusal") && m > 0)
        out[0] = 0x83;
    if (fault("shortest-as-the-encoder"))
        return right_encode(record, n, offset, out, m, report, k);
    // 9 by the longest string, and by the encoder's
    if (fault("shortest-9-below-7-bytes") && m < FSQ_STRING_LENGTH)
        m = 0;
    if (fault("shortest-9-as-the-encoder") && right_encode(record, n, offset, encoded, m < FSQ_STRING_LENGTH ? m : FSQ_STRING_LENGTH, own, sizeof own) == FSQ_SLICE_TOO_SHORT)
        m = 0;
    answer = right_shortest(record, n, offset, out, m, report, k);
    accepted = answer == FSQ_DONE;
    if (fault("shortest-refuses-with-7") && answer == FSQ_INVALID_OPERANDS)
        return FSQ_NOT_SUPPORTED;
    if (fault("shortest-span-lost") && !accepted && reported)
        memset(report + FSQ_REPORT_SPAN_START_AT, 0, 8);
    if (fault("shortest-57-bytes-refused") && n == FSQ_REPEAT_RECORD_LENGTH)
        return FSQ_WRONG_LENGTH;
    if (!accepted || right_encode(record, n, offset, encoded, sizeof encoded, own, sizeof own) != FSQ_DONE)
        return answer;
    (void) right_list(record, n, offset, list, sizeof list, own, sizeof own);
    count = own[FSQ_REPORT_LENGTH_AT];
    length = list[0];
    if (fault("shortest-byte-behind") && m > length)
        out[length] ^= 1;
    if (fault("shortest-length-one-more") && reported && length == 1)
        report[FSQ_REPORT_LENGTH_AT]++;
    // another entry of the list
    if (fault("shortest-as-the-last"))
        chosen = count - 1;
    if (fault("shortest-not-the-lowest"))
        while (chosen + 1 < count && list[(chosen + 1) * FSQ_ENTRY_LENGTH] == length)
            chosen++;
    if (fault("shortest-xchg-as-written") && record[FSQ_OPERATION_AT] == FSQ_XCHG && count > 1 && list[FSQ_ENTRY_LENGTH] == length)
        chosen = 1;
    if (fault("shortest-without-eb") && out[0] == 0xEB)
        chosen = 1;
    if (fault("shortest-prefix-kept") && (encoded[0] == 0x36 || encoded[0] == 0x3E) && out[0] != encoded[0])
        while (chosen < count && list[chosen * FSQ_ENTRY_LENGTH + 1] != encoded[0])
            chosen++;
    if (fault("shortest-displacement-kept") && (out[0] == 0x8B || out[0] == 0x8A) && out[1] >> 6 == 1)
        while (chosen < count && list[chosen * FSQ_ENTRY_LENGTH + 2] >> 6 != 2)
            chosen++;
    if (chosen != 0 && chosen < count && list[chosen * FSQ_ENTRY_LENGTH] <= m) {
        memcpy(out, list + chosen * FSQ_ENTRY_LENGTH + 1, list[chosen * FSQ_ENTRY_LENGTH]);
        if (reported)
            report[FSQ_REPORT_LENGTH_AT] = list[chosen * FSQ_ENTRY_LENGTH];
    }
    // a shorter string of another instruction: 83's byte is extended with its sign, a jump reaches 127, the segment of LEA is a part of it
    if (fault("shortest-83-for-200") && out[0] == 0x81 && length == 4 && out[2] >= 128 && out[3] == 0) {
        out[0] = 0x83;
        if (reported)
            report[FSQ_REPORT_LENGTH_AT] = 3;
    }
    if (fault("shortest-eb-to-128") && out[0] == 0xE9 && out[1] == 0x7F && out[2] == 0) {
        memcpy(out, "\xEB\x80", 2);
        if (reported)
            report[FSQ_REPORT_LENGTH_AT] = 2;
    }
    if (fault("shortest-prefix-of-lea") && out[0] == 0x26 && out[1] == 0x8D) {
        memmove(out, out + 1, length - 1u);
        if (reported)
            report[FSQ_REPORT_LENGTH_AT]--;
    }
    if (fault("shortest-repeat-dropped") && length == 2 && out[0] == 0xF3 && repeat_of(record, n) == 0xF3) {
        out[0] = out[1];
        if (reported)
            report[FSQ_REPORT_LENGTH_AT] = 1;
    }
    return answer;
}

uint8_t fsq_list(const uint8_t *record, size_t n, uint16_t offset, uint8_t *out, size_t m, uint8_t *report, size_t k) {
    uint8_t answer = right_list(record, n, offset, out, m, report, k);
    if (fault("last-entry-missing") && answer == FSQ_DONE && k >= FSQ_REPORT_LENGTH)
        memset(out + FSQ_ENTRY_LENGTH * (size_t) --report[FSQ_REPORT_LENGTH_AT], 0, FSQ_ENTRY_LENGTH);
    // F2 A4 beside F3 A4; MOVSB alone; F3 A4 beside plain REP
    if (fault("both-repeats-listed") && answer == FSQ_DONE && k >= FSQ_REPORT_LENGTH && repeat_of(record, n) != 0) {
        memcpy(out + FSQ_ENTRY_LENGTH, out, FSQ_ENTRY_LENGTH);
        out[1] = 0xF2;
        report[FSQ_REPORT_LENGTH_AT] = 2;
    }
    if (fault("list-without-the-repeat") && answer == FSQ_DONE && repeat_of(record, n) != 0)
        memcpy(out, (uint8_t[]) {1, out[2], 0}, 3);
    if (fault("a-string-listed-of-rep") && answer == FSQ_DONE && k >= FSQ_REPORT_LENGTH && record[FSQ_OPERATION_AT] == FSQ_REP) {
        memcpy(out + FSQ_ENTRY_LENGTH, "\2\xF3\xA4\0\0\0\0", FSQ_ENTRY_LENGTH);
        report[FSQ_REPORT_LENGTH_AT] = 2;
    }
    return answer;
}

uint8_t fsq_form(const uint8_t *record, size_t n, uint16_t offset, uint8_t *out, size_t m, uint8_t *report, size_t k) {
    uint8_t answer = right_form(record, n, offset, out, m, report, k);
    int whole = answer == FSQ_DONE && k >= FSQ_REPORT_LENGTH;
    uint8_t *length = report + FSQ_REPORT_LENGTH_AT;
    if (fault("line-without-its-line-feed") && whole)
        out[*length - 1] = ' ';
    if (fault("line-one-short") && whole)
        --*length;
    if (fault("question-one-off") && whole && out[0] == 'q')
        out[*length - 2]++;
    // NEG stands in no example and in no row of header.c
    if (fault("digit-one-off") && whole && record[FSQ_OPERATION_AT] == FSQ_NEG && out[8] == '/')
        out[9]++;
    if (fault("line-into-63-bytes") && answer == FSQ_SLICE_TOO_SHORT && m == FSQ_FORM_LENGTH - 1)
        out[0] = 'f';
    if (fault("9-where-refused") && whole && out[0] == 'q')
        answer = FSQ_SLICE_TOO_SHORT;
    if (fault("form-of-the-repeat") && whole && out[0] == 'f' && repeat_of(record, n) != 0)
        memcpy(out + 5, repeat_of(record, n) == 0xF3 ? "F3" : "F2", 2);
    if (fault("question-2-of-23") && whole && out[0] == 'q' && right_encode(record, n, offset, (uint8_t[FSQ_STRING_LENGTH]) {0}, FSQ_STRING_LENGTH, report, 0) == FSQ_INVALID_REPEAT)
        out[*length - 2] = '2';
    return answer;
}

uint8_t fsq_read(const uint8_t *bytes, size_t n, uint16_t offset, uint8_t *out, size_t m) {
    uint8_t answer = right_read(bytes, n, offset, out, m);
    int whole = answer == FSQ_DONE && m >= FSQ_READING_LENGTH;
    if (fault("length-one-more") && whole && bytes[0] == 0xD7)
        out[FSQ_READ_LENGTH_AT]++;
    if (fault("another-base") && whole && out[FSQ_READ_FIRST_AT + FSQ_READ_KIND_AT] == FSQ_READ_MEMORY)
        out[FSQ_READ_FIRST_AT + FSQ_READ_NUMBER_AT] ^= 1;
    if (fault("10-for-11") && answer == FSQ_NOT_COMPLETE)
        return FSQ_NOT_AN_INSTRUCTION;
    // F2 and F3: the reader before the repeat, and what it might take for one
    if (fault("f3-a4-as-two") && answer == FSQ_DONE && n > 1 && bytes[0] >= 0xF2 && bytes[0] <= 0xF3)
        return right_read(bytes, 1, offset, out, m);
    if (fault("f3-answered-11") && n == 1 && bytes[0] == 0xF3) {
        if (whole)
            memset(out, 0xA5, FSQ_READING_LENGTH);
        return FSQ_NOT_COMPLETE;
    }
    if (fault("f3-90-as-one") && whole && n > 1 && bytes[0] == 0xF3 && bytes[1] == 0x90) {
        right_read(bytes + 1, 1, offset, out, m);
        out[FSQ_READ_LENGTH_AT] = 2;
        out[FSQ_READ_REPEAT_AT] = 0xF3;
    }
    if (fault("f3-26-a4-as-one") && whole && n > 2 && bytes[0] == 0xF3 && bytes[1] == 0x26 && bytes[2] == 0xA4)
        out[FSQ_READ_LENGTH_AT] = 3;
    if (fault("f3-f3-a4-as-one") && whole && n > 2 && bytes[0] == 0xF3 && bytes[1] == 0xF3 && bytes[2] == 0xA4)
        out[FSQ_READ_LENGTH_AT] = 3;
    if (fault("f3-a8-as-one") && whole && n > 1 && bytes[0] == 0xF3 && bytes[1] == 0xA8)
        out[FSQ_READ_LENGTH_AT] = 2;
    if (fault("repeat-not-read") && whole)
        out[FSQ_READ_REPEAT_AT] = 0;
    if (fault("repeat-read-as-rep") && whole && out[FSQ_READ_REPEAT_AT] == 0xF2)
        out[FSQ_READ_REPEAT_AT] = 0xF3;
    if (fault("repeat-read-at-6") && whole) {
        out[FSQ_READ_REPEAT_AT + 1] = out[FSQ_READ_REPEAT_AT];
        out[FSQ_READ_REPEAT_AT] = 0;
    }
    if (fault("opcode-of-the-repeat") && whole && out[FSQ_READ_REPEAT_AT] != 0)
        out[FSQ_READ_OPCODE_AT] = out[FSQ_READ_REPEAT_AT];
    return answer;
}

uint8_t fsq_load(const uint8_t *file, size_t n, uint8_t *image, size_t m, uint8_t *report, size_t k) {
    uint8_t answer = right_load(file, n, image, m, report, k);
    uint16_t version = n >= FSQ_HEADER_LENGTH ? fsq_get_u16(file + FSQ_HEADER_VERSION_AT) : 0;
    size_t count = n >= FSQ_HEADER_LENGTH ? fsq_get_u16(file + FSQ_HEADER_COUNT_AT) : 0;
    int is_long = n > FSQ_HEADER_LENGTH + FSQ_SHORT_RECORDS * FSQ_RECORD_LENGTH, reported = k >= FSQ_REPORT_LENGTH;
    // the loader before version 2
    if (fault("13-for-version-2") && n >= FSQ_HEADER_LENGTH && file[FSQ_HEADER_VERSION_AT] == FSQ_LONG_VERSION)
        return FSQ_WRONG_VERSION;
    if (fault("version-2-of-1000") && n == FSQ_HEADER_LENGTH + FSQ_SHORT_RECORDS * FSQ_RECORD_LENGTH && file[FSQ_HEADER_VERSION_AT] == FSQ_LONG_VERSION)
        return FSQ_DONE;
    if (fault("version-1-of-1001") && answer == FSQ_WRONG_LENGTH && is_long && file[FSQ_HEADER_VERSION_AT] == FSQ_FILE_VERSION)
        return FSQ_DONE;
    if (fault("8001-records") && answer == FSQ_WRONG_LENGTH && n == FSQ_HEADER_LENGTH + (FSQ_MOST_RECORDS + 1) * FSQ_RECORD_LENGTH)
        return FSQ_DONE;
    // version 3, and the loader before it
    if (fault("13-for-version-3") && version == FSQ_REPEAT_VERSION)
        return FSQ_WRONG_VERSION;
    if (fault("version-4-taken") && version == FSQ_REPEAT_VERSION + 1)
        return FSQ_DONE;
    if (fault("version-3-at-56-bytes") && answer == FSQ_WRONG_LENGTH && version == FSQ_REPEAT_VERSION && n == FSQ_HEADER_LENGTH + count * FSQ_RECORD_LENGTH)
        return FSQ_DONE;
    if (fault("57-bytes-in-version-1") && answer == FSQ_WRONG_LENGTH && version == FSQ_FILE_VERSION && n == FSQ_HEADER_LENGTH + count * FSQ_REPEAT_RECORD_LENGTH)
        return FSQ_DONE;
    if (fault("57-bytes-in-version-2") && answer == FSQ_WRONG_LENGTH && version == FSQ_LONG_VERSION && n == FSQ_HEADER_LENGTH + count * FSQ_REPEAT_RECORD_LENGTH)
        return FSQ_DONE;
    if (fault("version-3-of-no-records-refused") && version == FSQ_REPEAT_VERSION && count == 0)
        return FSQ_WRONG_LENGTH;
    if (fault("version-3-above-1000-alone") && version == FSQ_REPEAT_VERSION && count <= FSQ_SHORT_RECORDS)
        return FSQ_WRONG_LENGTH;
    if (fault("8000-of-version-3-refused") && version == FSQ_REPEAT_VERSION && count == FSQ_MOST_RECORDS)
        return FSQ_WRONG_LENGTH;
    if (fault("8001-of-version-3") && answer == FSQ_WRONG_LENGTH && n == FSQ_FILE_LENGTH + FSQ_REPEAT_RECORD_LENGTH)
        return FSQ_DONE;
    if (fault("15-for-a-repeat-of-99") && answer == FSQ_INVALID_REPEAT)
        return FSQ_UNKNOWN_CODE;
    if (fault("23-before-15-in-a-file") && answer == FSQ_UNKNOWN_CODE && version == FSQ_REPEAT_VERSION)
        return FSQ_INVALID_REPEAT;
    if (fault("f2-for-f3-in-an-image") && answer == FSQ_DONE && version == FSQ_REPEAT_VERSION && reported && m != 0 && image[0] == 0xF3)
        image[0] = 0xF2;
    if (fault("byte-beyond-1000-records") && answer == FSQ_DONE && is_long && reported)
        image[fsq_get_u32(report + FSQ_REPORT_LENGTH_AT) - 1] ^= 1;
    if (fault("record-in-a-byte") && answer != FSQ_DONE && is_long && reported && fsq_get_u32(report + FSQ_REPORT_RECORD_AT) != FSQ_NO_RECORD)
        memset(report + FSQ_REPORT_RECORD_AT + 1, 0, 3);
    if (fault("image-before-a-refusal") && answer != FSQ_DONE && is_long && m != 0)
        image[0] ^= 1;
    if (fault("index-one-more") && answer != FSQ_DONE && k >= FSQ_REPORT_LENGTH && report[FSQ_REPORT_RECORD_AT] < 255)
        report[FSQ_REPORT_RECORD_AT]++;
    if (fault("wrong-last-byte") && answer == FSQ_DONE && k >= FSQ_REPORT_LENGTH && fsq_get_u32(report + FSQ_REPORT_LENGTH_AT) != 0)
        image[fsq_get_u32(report + FSQ_REPORT_LENGTH_AT) - 1] ^= 1;
    return answer;
}

uint8_t fsq_evaluate(const uint8_t *text, size_t n, uint8_t *report, size_t k) {
    uint8_t answer;
    int reported = k >= FSQ_REPORT_LENGTH;
    int32_t value;
    if (fault("text-written") && n > 0)
        ((volatile uint8_t *) text)[0] = text[0];
    if (fault("byte-behind-the-text-read") && ((const volatile uint8_t *) text)[n] == '0')
        n++;
    answer = right_evaluate(text, n, report, k);
    if (fault("blank-behind-the-text") && answer == FSQ_NOT_A_SUM && n > 1 && (text[n - 1] == ' ' || text[n - 1] == '\n' || text[n - 1] == 0))
        answer = right_evaluate(text, n - 1, report, k);
    if (fault("16-for-17") && answer == FSQ_TOO_DEEP)
        answer = FSQ_NOT_A_SUM;
    if (fault("17-for-16") && answer == FSQ_NOT_A_SUM && n > 16)
        answer = FSQ_TOO_DEEP;
    if (fault("17-for-18") && answer == FSQ_VALUE_OUT_OF_RANGE)
        answer = FSQ_TOO_DEEP;
    if (fault("18-dropped") && answer == FSQ_VALUE_OUT_OF_RANGE)
        answer = FSQ_DONE;
    if (fault("15-brackets") && answer == FSQ_DONE && n > 16 && memcmp(text, "((((((((((((((((", 16) == 0)
        answer = FSQ_TOO_DEEP;
    if (reported && answer == FSQ_DONE) {
        value = fsq_get_i32(report + FSQ_REPORT_VALUE_AT);
        if (fault("value-one-off") && value < 0)
            value++;
        if (fault("value-in-16-bits"))
            value = (int16_t) value;
        if (fault("sign-lost") && value < 0 && value > -2147483647)
            value = -value;
        fsq_put_u32(report + FSQ_REPORT_VALUE_AT, (uint32_t) value);
    }
    if (fault("value-beside-a-refusal") && reported && answer != FSQ_DONE)
        fsq_put_u32(report + FSQ_REPORT_VALUE_AT, 1);
    if (fault("length-of-a-sum") && reported && answer == FSQ_DONE)
        report[FSQ_REPORT_LENGTH_AT] = 4;
    if (fault("span-of-a-text") && reported && answer != FSQ_DONE)
        report[FSQ_REPORT_SPAN_END_AT] = (uint8_t) n;
    if (fault("value-into-27-bytes") && k == FSQ_REPORT_LENGTH - 1)
        report[FSQ_REPORT_VALUE_AT] = 0;
    return answer;
}

uint8_t fsq_cue(const uint8_t *cues, size_t n, uint8_t *image, size_t m, uint8_t *report, size_t k) {
    uint8_t answer;
    int reported = k >= FSQ_REPORT_LENGTH, without = 0;
    size_t count = n / FSQ_CUE_LENGTH, length = FSQ_CUE_CODE_LENGTH * count + 1, i;
    for (i = 0; i < count; i++)
        without |= cues[FSQ_CUE_LENGTH * i] == 0 && cues[FSQ_CUE_LENGTH * i + 1] == 0;
    if (fault("cue-written") && n > 0)
        ((volatile uint8_t *) cues)[0] = cues[0];
    if (fault("cue-byte-before-a-refusal") && m > 0)
        image[0] = 0xB9;
    // the order of the refusals
    if (fault("cue-20-before-19") && without)
        return FSQ_NO_DELAY;
    if (fault("cue-9-before-20") && n % FSQ_CUE_LENGTH == 0 && count <= FSQ_MOST_CUES && m < length)
        return FSQ_SLICE_TOO_SHORT;
    if (fault("cue-9-before-19") && m < length)
        return FSQ_SLICE_TOO_SHORT;
    // what is refused
    if (fault("cue-part-of-one-left-out") && n % FSQ_CUE_LENGTH != 0)
        n -= n % FSQ_CUE_LENGTH;
    if (fault("cue-of-two-bytes") && n % FSQ_CUE_LENGTH == 2)
        n -= 2;
    if (fault("cue-201-taken") && count == FSQ_MOST_CUES + 1)
        n -= FSQ_CUE_LENGTH;
    if (fault("cue-200-refused") && count == FSQ_MOST_CUES)
        return FSQ_NOT_A_CUE_LIST;
    if (fault("cue-first-delay-alone") && without && n % FSQ_CUE_LENGTH == 0 && count > 1 && count <= FSQ_MOST_CUES && (cues[0] != 0 || cues[1] != 0) && m >= length)
        return FSQ_DONE;
    if (fault("cue-low-byte-of-the-delay") && n >= FSQ_CUE_LENGTH && n % FSQ_CUE_LENGTH == 0 && count <= FSQ_MOST_CUES && cues[0] == 0)
        return FSQ_NO_DELAY;
    if (fault("cue-9-below-1801") && m < FSQ_CUE_IMAGE_LENGTH)
        m = 0;
    answer = right_cue(cues, n, image, m, report, k);
    if (fault("cue-19-for-20") && answer == FSQ_NO_DELAY)
        answer = FSQ_NOT_A_CUE_LIST;
    if (fault("cue-14-for-19") && answer == FSQ_NOT_A_CUE_LIST)
        answer = FSQ_WRONG_LENGTH;
    if (fault("cue-span-of-9") && answer == FSQ_SLICE_TOO_SHORT && reported)
        report[FSQ_REPORT_SPAN_END_AT] = 1;
    if (fault("cue-named-as-a-record") && answer == FSQ_NO_DELAY && reported)
        fsq_put_u32(report + FSQ_REPORT_RECORD_AT, 0);
    if (answer != FSQ_DONE)
        return answer;
    // the image
    if (fault("cue-port-and-mask-exchanged"))
        for (i = 0; i < count; i++) {
            image[9 * i + 6] = cues[4 * i + FSQ_CUE_PORT_AT];
            image[9 * i + 8] = cues[4 * i + FSQ_CUE_MASK_AT];
        }
    if (fault("cue-delay-big-endian"))
        for (i = 0; i < count; i++) {
            image[9 * i + 1] = cues[4 * i + 1];
            image[9 * i + 2] = cues[4 * i];
        }
    if (fault("cue-loop-to-the-mov"))
        for (i = 0; i < count; i++)
            image[9 * i + 4] = 0xFB;
    if (fault("cue-of-dx") && count > 0)
        image[9 * (count - 1)] = 0xBA;
    if (fault("cue-without-hlt"))
        image[length - 1] = 0x90;
    if (fault("cue-byte-of-the-29th") && count > 28)
        image[9 * 28] ^= 1;
    if (fault("cue-byte-behind") && m > length)
        image[length] ^= 1;
    if (fault("cue-length-without-hlt") && reported)
        fsq_put_u32(report + FSQ_REPORT_LENGTH_AT, (uint32_t) length - 1);
    if (fault("cue-length-in-a-byte") && reported)
        memset(report + FSQ_REPORT_LENGTH_AT + 1, 0, 3);
    if (fault("cue-into-27-bytes") && k == FSQ_REPORT_LENGTH - 1)
        memset(report, 0, 4);
    return answer;
}

uint8_t fsq_run(const uint8_t *image, size_t n, uint32_t budget, uint8_t *log, size_t m, uint8_t *out, size_t k) {
    uint8_t answer, further, own[FSQ_RUN_RESULT_LENGTH];
    int told = k >= FSQ_RUN_RESULT_LENGTH;
    uint64_t count, length;
    if (fault("run-log-before-a-refusal") && m > 1)
        log[0] = 0x10;
    if (fault("run-image-written") && n > 0)
        ((volatile uint8_t *) image)[0] = image[0];
    if (fault("run-result-into-15-bytes") && k == FSQ_RUN_RESULT_LENGTH - 1)
        out[0] = 0;
    // the next answer of the order, asked too early
    if (fault("run-21-before-22") && budget != 4294967295u && right_run(image, n, budget + 1, (uint8_t[1]) {0}, 0, own, 0) == FSQ_NOT_CARRIED_OUT)
        budget++;
    if (fault("run-9-before-22") && budget != 4294967295u && right_run(image, n, budget, log, m, own, 0) == FSQ_BUDGET_SPENT
        && right_run(image, n, budget + 1, log, m, own, 0) == FSQ_SLICE_TOO_SHORT)
        budget++;
    if (fault("run-one-step-past-the-budget") && budget != 4294967295u)
        budget++;
    if (fault("run-one-step-fewer") && budget != 0)
        budget--;
    if (fault("run-budget-in-16-bits"))
        budget &= 65535u;
    if (fault("run-budget-with-a-sign") && budget > 2147483647u)
        budget = 0;
    if (fault("run-room-for-one-more") && m > 1)
        m -= 2;
    if (fault("run-65535-bytes") && n > 65535)
        n = 65535;
    if (fault("run-longer-image-as-none") && n > 65536)
        n = 0;
    answer = right_run(image, n, budget, log, m, out, k);
    if (fault("run-9-before-21") && answer == FSQ_NOT_CARRIED_OUT && m < 2)
        answer = FSQ_SLICE_TOO_SHORT;
    if (fault("run-21-for-22") && answer == FSQ_BUDGET_SPENT)
        answer = FSQ_NOT_CARRIED_OUT;
    if (fault("run-22-for-21") && answer == FSQ_NOT_CARRIED_OUT)
        answer = FSQ_BUDGET_SPENT;
    if (fault("run-9-as-22") && answer == FSQ_SLICE_TOO_SHORT)
        answer = FSQ_BUDGET_SPENT;
    if (fault("run-c6-refused") && n > 2 && image[0] == 0xC6)
        answer = FSQ_NOT_CARRIED_OUT;
    if (fault("run-e7-taken") && answer == FSQ_NOT_CARRIED_OUT && n > 1 && image[0] == 0xE7)
        answer = FSQ_DONE;
    if (answer != FSQ_DONE) {
        if (fault("run-count-beside-a-refusal") && told)
            out[FSQ_RUN_COUNT_AT] = 1;
        if (fault("run-result-left-on-a-refusal") && told)
            memset(out, 0xA5, FSQ_RUN_RESULT_LENGTH);
        return answer;
    }
    further = right_run(image, n, budget, (uint8_t[1]) {0}, 0, own, sizeof own);
    if (!told)
        return answer;
    count = fsq_get_u64(out + FSQ_RUN_COUNT_AT);
    length = fsq_get_u64(out + FSQ_RUN_LOG_LENGTH_AT);
    if (fault("run-hlt-not-counted"))
        count--;
    if (fault("run-count-in-16-bits"))
        count &= 65535u;
    if (fault("run-budget-as-count"))
        count = budget;
    if (fault("run-length-in-pairs"))
        length /= 2;
    if (fault("run-last-pair-lost") && length != 0)
        length -= 2;
    if (fault("run-pair-exchanged") && length != 0) {
        uint8_t port = log[0];
        log[0] = log[1];
        log[1] = port;
    }
    if (fault("run-first-pair-again") && length > 2)
        memcpy(log + 2, log, 2);
    if (fault("run-byte-behind-the-pairs") && m > length)
        log[length] ^= 1;
    if (fault("run-byte-behind-the-log") && further == FSQ_SLICE_TOO_SHORT)
        ((volatile uint8_t *) log)[m] = log[m];
    if (fault("run-byte-behind-the-result") && k > FSQ_RUN_RESULT_LENGTH)
        out[FSQ_RUN_RESULT_LENGTH] = 0;
    fsq_put_u32(out + FSQ_RUN_COUNT_AT, (uint32_t) count);
    fsq_put_u32(out + FSQ_RUN_LOG_LENGTH_AT, (uint32_t) length);
    if (fault("run-result-exchanged")) {
        fsq_put_u32(out + FSQ_RUN_COUNT_AT, (uint32_t) length);
        fsq_put_u32(out + FSQ_RUN_LOG_LENGTH_AT, (uint32_t) count);
    }
    if (fault("run-result-of-four-bytes"))
        out[FSQ_RUN_COUNT_AT + 4] = 1;
    return answer;
}

uint8_t fsq_check(const uint8_t *file, size_t n, uint8_t *report, size_t k) {
    uint8_t answer, image[7 * 8000];
    int reported = k >= FSQ_REPORT_LENGTH;
    if (fault("check-file-written") && n > 0)
        ((volatile uint8_t *) file)[0] = file[0];
    if (fault("check-into-27-bytes") && k == FSQ_REPORT_LENGTH - 1)
        memset(report, 0, 4);
    if (fault("check-loads-alone"))
        return right_load(file, n, image, sizeof image, report, k);
    answer = right_check(file, n, report, k);
    if (fault("check-24-for-25") && answer == FSQ_NO_RECORD_AT_TARGET)
        answer = FSQ_SHIFT_COUNT_OUT_OF_RANGE;
    if (answer == FSQ_NO_RECORD_AT_TARGET && reported) {
        if (fault("check-record-around-lost"))
            fsq_put_u32(report + FSQ_REPORT_LENGTH_AT, 0);
        if (fault("check-none-as-the-record"))
            fsq_put_u32(report + FSQ_REPORT_LENGTH_AT, fsq_get_u32(report + FSQ_REPORT_RECORD_AT));
        if (fault("check-target-lost"))
            fsq_put_u32(report + FSQ_REPORT_VALUE_AT, 0);
        if (fault("check-record-0"))
            fsq_put_u32(report + FSQ_REPORT_RECORD_AT, 0);
    }
    if (fault("check-no-length") && answer == FSQ_DONE && reported)
        fsq_put_u32(report + FSQ_REPORT_LENGTH_AT, 0);
    return answer;
}

uint8_t fsq_convert(const uint8_t *file, size_t n, uint8_t *out, size_t m, uint8_t *report, size_t k) {
    uint8_t answer, own[FSQ_REPORT_LENGTH];
    int reported = k >= FSQ_REPORT_LENGTH;
    size_t length, count = n >= FSQ_HEADER_LENGTH ? fsq_get_u16(file + FSQ_HEADER_COUNT_AT) : 0, i;
    if (fault("convert-file-written") && n > 0)
        ((volatile uint8_t *) file)[0] = file[0];
    if (fault("convert-byte-before-a-refusal") && m > 0)
        out[0] = 'F';
    if (fault("convert-9-first") && n >= FSQ_HEADER_LENGTH && m < n)
        return FSQ_SLICE_TOO_SHORT;
    if (fault("convert-9-below-56009") && m < FSQ_CONVERTED_LENGTH)
        m = 0;
    if (fault("convert-into-27-bytes") && k == FSQ_REPORT_LENGTH - 1)
        memset(report, 0, 4);
    if (fault("convert-by-the-loader") && right_convert(file, n, out, m, own, sizeof own) == FSQ_DONE && count != 0 && right_load(file, n, own, 0, own, 0) == FSQ_INVALID_OPERANDS)
        return FSQ_INVALID_OPERANDS;
    answer = right_convert(file, n, out, m, report, k);
    if (fault("convert-version-2-as-14") && answer == FSQ_WRONG_VERSION && file[FSQ_HEADER_VERSION_AT] == 2)
        answer = FSQ_WRONG_LENGTH;
    if (fault("convert-25-for-24") && answer == FSQ_SHIFT_COUNT_OUT_OF_RANGE)
        answer = FSQ_NO_RECORD_AT_TARGET;
    if (fault("convert-24-for-25") && answer == FSQ_NO_RECORD_AT_TARGET)
        answer = FSQ_SHIFT_COUNT_OUT_OF_RANGE;
    if (fault("convert-1-for-24") && answer == FSQ_SHIFT_COUNT_OUT_OF_RANGE)
        answer = FSQ_INVALID_OPERANDS;
    if (fault("convert-span-of-24") && answer == FSQ_SHIFT_COUNT_OUT_OF_RANGE && reported)
        report[FSQ_REPORT_SPAN_END_AT] = 9;
    if (fault("convert-value-of-24") && answer == FSQ_SHIFT_COUNT_OUT_OF_RANGE && reported)
        report[FSQ_REPORT_VALUE_AT] = 40;
    if (fault("convert-span-of-25") && answer == FSQ_NO_RECORD_AT_TARGET && reported)
        report[FSQ_REPORT_SPAN_START_AT] = 11;
    if (fault("convert-25-without-record") && answer == FSQ_NO_RECORD_AT_TARGET && reported)
        fsq_put_u32(report + FSQ_REPORT_RECORD_AT, FSQ_NO_RECORD);
    if (fault("convert-record-of-9") && answer == FSQ_SLICE_TOO_SHORT && reported)
        fsq_put_u32(report + FSQ_REPORT_RECORD_AT, 0);
    if (fault("convert-record-of-14") && answer == FSQ_WRONG_LENGTH && reported)
        fsq_put_u32(report + FSQ_REPORT_RECORD_AT, 1000);
    // the old file's record for the loader's refusal of the written one
    if (fault("convert-old-record-of-6") && answer == FSQ_RELATIVE_JUMP_OUT_OF_RANGE && reported && fsq_get_u32(report + FSQ_REPORT_RECORD_AT) >= count)
        fsq_put_u32(report + FSQ_REPORT_RECORD_AT, (uint32_t) count - 1);
    if (fault("convert-old-record-of-5") && answer == FSQ_IMMEDIATE_OUT_OF_RANGE && reported)
        fsq_put_u32(report + FSQ_REPORT_RECORD_AT, fsq_get_u32(report + FSQ_REPORT_RECORD_AT) - 1);
    if (fault("convert-distance-lost") && answer == FSQ_RELATIVE_JUMP_OUT_OF_RANGE && reported)
        fsq_put_u32(report + FSQ_REPORT_VALUE_AT, 0);
    if (answer != FSQ_DONE)
        return answer;
    if (reported)
        length = fsq_get_u32(report + FSQ_REPORT_LENGTH_AT);
    else {
        right_convert(file, n, out, m, own, sizeof own);
        length = fsq_get_u32(own + FSQ_REPORT_LENGTH_AT);
    }
    if (fault("convert-old-count"))
        memcpy(out + FSQ_HEADER_COUNT_AT, file + FSQ_HEADER_COUNT_AT, 2);
    if (fault("convert-version-2-written"))
        out[FSQ_HEADER_VERSION_AT] = 2;
    if (fault("convert-origin-0"))
        memset(out + FSQ_HEADER_ORIGIN_AT, 0, 2);
    if (fault("convert-count-kept") && length > n)
        out[length - FSQ_RECORD_LENGTH + FSQ_SECOND_AT + FSQ_IMMEDIATE_AT] ^= 2;
    if (fault("convert-branch-left") && length > n && out[length - FSQ_RECORD_LENGTH] == FSQ_JE)
        memcpy(out + length - FSQ_RECORD_LENGTH, file + n - FSQ_RECORD_LENGTH, FSQ_RECORD_LENGTH);
    if (fault("convert-spans-cleared"))
        for (i = FSQ_HEADER_LENGTH; i < length; i += FSQ_RECORD_LENGTH)
            memset(out + i + FSQ_SPAN_START_AT, 0, 8);
    if (fault("convert-last-byte") && length > FSQ_HEADER_LENGTH)
        out[length - 1] ^= 1;
    if (fault("convert-byte-behind") && m > length)
        out[length] ^= 1;
    if (fault("convert-length-of-the-old") && reported)
        fsq_put_u32(report + FSQ_REPORT_LENGTH_AT, (uint32_t) n);
    if (fault("convert-count-as-the-length") && reported)
        fsq_put_u32(report + FSQ_REPORT_LENGTH_AT, fsq_get_u16(out + FSQ_HEADER_COUNT_AT));
    if (fault("convert-length-in-16-bits") && reported)
        fsq_put_u32(report + FSQ_REPORT_LENGTH_AT, (uint32_t) length & 32767u);
    return answer;
}
