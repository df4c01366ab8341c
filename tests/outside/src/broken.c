// Wrong programs for tests/outside/broken: our functions with one fault each, named by OUTSIDE_FAULT.
#include "fsq.h"
#include <stdlib.h>
#include <string.h>

enum { REPNE = 0xF2, REP = 0xF3, MOVSB = 0xA4, NOP = 0x90 };

extern __typeof__(fsq_encode) right_fsq_encode;
extern __typeof__(fsq_read) right_fsq_read;
extern __typeof__(fsq_list) right_fsq_list;
extern __typeof__(fsq_shortest) right_fsq_shortest;

static int fault(const char *name) {
    static const char *named;
    if (!named)
        named = getenv("OUTSIDE_FAULT") ? getenv("OUTSIDE_FAULT") : "";
    return strcmp(named, name) == 0;
}

uint8_t fsq_encode(const uint8_t *rec, size_t n, uint16_t offset, uint8_t *out, size_t m, uint8_t *report, size_t k) {
    uint8_t number = right_fsq_encode(rec, n, offset, out, m, report, k);
    // 000's AAM
    if (fault("aam-a0") && number == 0 && out[0] == 0xD4)
        out[1] = 0xA0;
    // LOOPZ and LOOPNZ exchanged
    if (fault("loopz-for-loopnz") && number == 0 && (out[0] == 0xE0 || out[0] == 0xE1))
        out[0] ^= 1;
    // a distance from the start
    if (fault("distance") && number == 0 && out[0] == 0xE8)
        out[1] += 3;
    // EB's distance from offset + 3, as if it were as long as E9
    if (fault("short-distance") && number == 0 && out[0] == 0xEB)
        out[1] -= 1;
    // the repeat of a record: the other one, left out, behind the operation, refused where it is 0
    if (n == FSQ_REPEAT_RECORD_LENGTH && number == 0 && rec[FSQ_REPEAT_AT] != 0) {
        uint8_t operation = out[1];
        if (fault("repne-for-rep"))
            out[0] = REPNE;
        if (fault("repeat-not-written") || fault("repeat-behind"))
            out[0] = operation;
        if (fault("repeat-behind"))
            out[1] = rec[FSQ_REPEAT_AT];
        if (fault("repeat-not-written"))
            report[FSQ_REPORT_LENGTH_AT] = 1;
    }
    if (fault("repeat-0-refused") && n == FSQ_REPEAT_RECORD_LENGTH && rec[FSQ_REPEAT_AT] == 0)
        return FSQ_WRONG_LENGTH;
    return number;
}

static int is_repeat(uint8_t byte) {
    return byte == REPNE || byte == REP;
}

// What stands behind so many bytes, read with those: its length and the repeat are the whole string's.
static uint8_t read_behind(size_t skipped, uint8_t repeat, const uint8_t *bytes, size_t n, uint16_t offset, uint8_t *out, size_t m) {
    uint8_t number = right_fsq_read(bytes + skipped, n - skipped, offset, out, m);
    if (number == 0) {
        out[FSQ_READ_LENGTH_AT] += (uint8_t) skipped;
        out[FSQ_READ_REPEAT_AT] = repeat;
    }
    return number;
}

uint8_t fsq_read(const uint8_t *bytes, size_t n, uint16_t offset, uint8_t *out, size_t m) {
    uint8_t number = right_fsq_read(bytes, n, offset, out, m), *kind = out + FSQ_READ_FIRST_AT;
    // BP in DS
    if (fault("bp-in-ds") && number == 0 && kind[0] == FSQ_READ_MEMORY && kind[FSQ_READ_NUMBER_AT] == FSQ_BASE_BP && kind[FSQ_READ_SEGMENT_AT] == FSQ_SS)
        kind[FSQ_READ_SEGMENT_AT] = FSQ_DS;
    // 82 as 80
    if (fault("82-reads") && n > 0 && bytes[0] == 0x82) {
        uint8_t copy[16];
        size_t length = n < 16 ? n : 16;
        memcpy(copy, bytes, length);
        copy[0] = 0x80;
        return right_fsq_read(copy, length, offset, out, m);
    }
    // SALC, which no manual has
    if (fault("no-salc") && n > 0 && bytes[0] == 0xD6)
        return FSQ_NOT_AN_INSTRUCTION;
    // F6 as before No. 1: TEST's /0 unused
    if (fault("no-f6-0") && n > 1 && bytes[0] == 0xF6 && (bytes[1] & 0x38) == 0)
        return FSQ_NOT_AN_INSTRUCTION;
    // the far CALL with the near one's width
    if (fault("far-as-near") && number == 0 && n > 1 && bytes[0] == 0xFF && (bytes[1] & 0x38) == 0x18)
        out[FSQ_READ_WIDTH_AT] = FSQ_WORD;
    // a byte not asked for
    if (fault("asks-more") && n == 1 && bytes[0] == 0x40)
        return FSQ_NOT_COMPLETE;
    // a repeat: not counted, the other one, its string operation not looked at, that of REPNE but before CMPS and SCAS, as the SDM names it
    if (fault("repeat-not-counted") && number == 0)
        out[FSQ_READ_REPEAT_AT] = 0;
    if (fault("repne-read-as-rep") && number == 0 && out[FSQ_READ_REPEAT_AT] == REPNE)
        out[FSQ_READ_REPEAT_AT] = REP;
    if (fault("rep-alone") && n > 1 && bytes[0] == REP)
        return right_fsq_read(bytes, 1, offset, out, m);
    if (fault("repne-movsb-alone") && n > 1 && bytes[0] == REPNE && bytes[1] == MOVSB)
        return right_fsq_read(bytes, 1, offset, out, m);
    // another operation behind it, a second repeat or a segment prefix between or before, taken with it
    if (fault("rep-nop") && n > 1 && bytes[0] == REP && bytes[1] == NOP)
        return read_behind(1, REP, bytes, n, offset, out, m);
    if (fault("repne-nop-as-nop") && n > 1 && bytes[0] == REPNE && bytes[1] == NOP)
        return read_behind(1, 0, bytes, n, offset, out, m);
    if (fault("rep-rep-movsb") && n > 2 && bytes[0] == REP && bytes[1] == REP && bytes[2] == MOVSB)
        return read_behind(2, REP, bytes, n, offset, out, m);
    if (fault("rep-es-movsb") && n > 2 && bytes[0] == REP && bytes[1] == 0x26 && bytes[2] == MOVSB)
        return read_behind(2, REP, bytes, n, offset, out, m);
    if (fault("es-rep-movsb") && n > 2 && bytes[0] == 0x26 && is_repeat(bytes[1]) && bytes[2] == MOVSB)
        return read_behind(2, bytes[1], bytes, n, offset, out, m);
    // a byte behind it asked for
    if (fault("rep-asks-more") && n == 1 && bytes[0] == REP)
        return FSQ_NOT_COMPLETE;
    return number;
}

uint8_t fsq_list(const uint8_t *rec, size_t n, uint16_t offset, uint8_t *out, size_t m, uint8_t *report, size_t k) {
    uint8_t number = right_fsq_list(rec, n, offset, out, m, report, k);
    // the second direction of two registers
    if (fault("one-missing") && number == 0 && report[0] > 1 && out[0] == 2 && out[1] == 0x01)
        report[0]--;
    // TEST of memory and a register without its longest string, which the other order has
    if (fault("one-order") && number == 0 && rec[0] == FSQ_TEST && rec[FSQ_FIRST_AT] == FSQ_MEM && rec[FSQ_SECOND_AT] == FSQ_REG && report[0] > 1)
        report[0]--;
    // the shortest string
    if (fault("shortest-missing") && number == 0 && report[0] > 1) {
        memmove(out, out + FSQ_ENTRY_LENGTH, FSQ_ENTRY_LENGTH * (size_t) (report[0] - 1));
        report[0]--;
    }
    // a string beside them: STC in CLC's list
    if (fault("one-beside") && number == 0 && out[1] == 0xF8) {
        static const uint8_t entry[FSQ_ENTRY_LENGTH] = { 1, 0xF9 };
        memcpy(out + FSQ_ENTRY_LENGTH, entry, FSQ_ENTRY_LENGTH);
        report[0] = 2;
    }
    // A4 in the list of REP MOVSB, F3 A4 in MOVSB's and in REP's, F2 A4 for F3 A4
    static const uint8_t rep_movsb[FSQ_ENTRY_LENGTH] = { 2, REP, MOVSB }, movsb[FSQ_ENTRY_LENGTH] = { 1, MOVSB };
    int is_rep_movsb = number == 0 && out[0] == 2 && out[1] == REP && out[2] == MOVSB;
    if (fault("movsb-in-rep-movsb") && is_rep_movsb) {
        memcpy(out, movsb, FSQ_ENTRY_LENGTH);
        memcpy(out + FSQ_ENTRY_LENGTH, rep_movsb, FSQ_ENTRY_LENGTH);
        report[0] = 2;
    }
    if (fault("repne-listed-for-rep") && is_rep_movsb)
        out[1] = REPNE;
    if ((fault("rep-movsb-in-movsb") && number == 0 && out[1] == MOVSB) || (fault("rep-movsb-in-rep") && number == 0 && out[0] == 1 && out[1] == REP)) {
        memcpy(out + FSQ_ENTRY_LENGTH, rep_movsb, FSQ_ENTRY_LENGTH);
        report[0] = 2;
    }
    // 57 bytes not taken
    if (fault("repeat-not-listed") && n == FSQ_REPEAT_RECORD_LENGTH)
        return FSQ_WRONG_LENGTH;
    return number;
}

uint8_t fsq_shortest(const uint8_t *rec, size_t n, uint16_t offset, uint8_t *out, size_t m, uint8_t *report, size_t k) {
    uint8_t number, list[FSQ_LIST_LENGTH], own[FSQ_REPORT_LENGTH];
    // the encoder's own string
    if (fault("shortest-as-encoded"))
        return right_fsq_encode(rec, n, offset, out, m, report, k);
    number = right_fsq_shortest(rec, n, offset, out, m, report, k);
    if (number != 0)
        return number;
    // the last entry, and the last of the shortest length
    if (fault("shortest-as-the-last") || fault("shortest-not-the-lowest")) {
        size_t last = 0;
        (void) right_fsq_list(rec, n, offset, list, sizeof list, own, sizeof own);
        while (last + 1 < own[0] && (fault("shortest-as-the-last") || list[(last + 1) * FSQ_ENTRY_LENGTH] == list[0]))
            last++;
        memcpy(out, list + last * FSQ_ENTRY_LENGTH + 1, FSQ_STRING_LENGTH);
        report[0] = list[last * FSQ_ENTRY_LENGTH];
    }
    // the byte of 83 extended to any word, EB to any target, a segment that is not the default one left out
    if (fault("shortest-83-for-200") && out[0] == 0x81) {
        out[0] = 0x83;
        report[0]--;
    }
    if (fault("shortest-eb-always") && out[0] == 0xE9) {
        out[0] = 0xEB;
        report[0] = 2;
    }
    if (fault("shortest-without-es") && out[0] == 0x26) {
        memmove(out, out + 1, FSQ_STRING_LENGTH - 1);
        report[0]--;
    }
    return number;
}
