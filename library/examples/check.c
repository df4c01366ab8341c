/* Checks the targets of a show: as it was on Thursday, and on Friday, when a record was put before the delay and its loop kept the old target. */
#include "fsq.h"
#include <stdio.h>

/* Prints the length of the image, or which branch goes where. */
static void checked(const uint8_t *file, size_t file_len) {
    fsq_report_t report;
    int length = fsq_check_show(file, file_len, &report);
    if (length >= 0) {
        printf("every near target is a record's start or the end; the image has %d bytes\n", length);
        return;
    }
    printf("refused: %d, %s, record %lu\n%s\n", -length, fsq_refusal_name(length), (unsigned long) fsq_report_record(&report), fsq_refusal_sentence(length));
    if (length == -FSQ_NO_RECORD_AT_TARGET && fsq_report_around(&report) != FSQ_NO_RECORD)
        printf("The target %ld is inside record %lu.\n", (long) fsq_report_value(&report), (unsigned long) fsq_report_around(&report));
    else if (length == -FSQ_NO_RECORD_AT_TARGET)
        printf("The target %ld is outside the show.\n", (long) fsq_report_value(&report));
}

/* The file of some records from 256 on. */
static size_t packed(uint8_t *file, size_t file_len, const fsq_record_t *records, uint16_t count) {
    int length = fsq_write_header(file, file_len, 256, count);
    for (uint16_t k = 0; k < count && length > 0; k++)
        length = fsq_write_record(file, file_len, k, &records[k]);
    return length < 0 ? 0 : (size_t) length;
}

int main(void) {
    /* MOV CX,10 at 256; NOP, the body of the loop, at 259; LOOP 259; HLT */
    fsq_record_t thursday[] = {fsq_two(FSQ_MOV, fsq_reg(FSQ_CX), fsq_imm(10)), fsq_none(FSQ_NOP), fsq_one(FSQ_LOOP, fsq_imm(259)), fsq_none(FSQ_HLT)};
    /* AAM, two bytes, stands before it: the body is at 261 */
    fsq_record_t friday[] = {fsq_none(FSQ_AAM), thursday[0], thursday[1], thursday[2], thursday[3]};
    fsq_record_t beyond = fsq_one(FSQ_CALL, fsq_imm(300));
    uint8_t file[FSQ_HEADER_LENGTH + 5 * FSQ_RECORD_LENGTH];

    checked(file, packed(file, sizeof file, thursday, 4));
    checked(file, packed(file, sizeof file, friday, 5));
    checked(file, packed(file, sizeof file, &beyond, 1));
    return 0;
}
