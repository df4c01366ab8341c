/* Converts a show from a 186 module, whose shifts have a count, to one that the 8086 runs, prints the instructions of its image, and shows two refusals in words:
 * a count that no shift has, and a branch that the copies make too long. */
#include "fsq.h"
#include <stdio.h>

/* The file of some records from an origin on. */
static size_t packed(uint8_t *file, size_t file_len, uint16_t origin, const fsq_record_t *records, uint16_t count) {
    int length = fsq_write_header(file, file_len, origin, count);
    for (uint16_t k = 0; k < count && length > 0; k++)
        length = fsq_write_record(file, file_len, k, &records[k]);
    return length < 0 ? 0 : (size_t) length;
}

int main(void) {
    /* Four times: shift, put out. The loop goes to the shift, which stood at 262 and had three bytes. */
    fsq_record_t show[] = {
        fsq_two(FSQ_MOV, fsq_reg(FSQ_CX), fsq_imm(4)), fsq_two(FSQ_MOV, fsq_reg(FSQ_AX), fsq_imm(4660)),
        fsq_two(FSQ_ROL, fsq_reg(FSQ_AX), fsq_imm(4)), fsq_two(FSQ_OUT, fsq_imm(97), fsq_reg(FSQ_AL)),
        fsq_one(FSQ_LOOP, fsq_imm(262)), fsq_none(FSQ_HLT)
    };
    fsq_record_t too_much = fsq_two(FSQ_SHL, fsq_reg(FSQ_AX), fsq_imm(40));
    fsq_record_t too_long[] = {fsq_two(FSQ_SHL, fsq_reg(FSQ_AX), fsq_imm(3)), fsq_one(FSQ_JE, fsq_imm(65536))};
    static uint8_t file[FSQ_CONVERTED_LENGTH], written[FSQ_CONVERTED_LENGTH];
    uint8_t image[64];
    fsq_reading_t reading;
    fsq_report_t report;

    int length = fsq_convert_show(file, packed(file, sizeof file, 256, show, 6), written, sizeof written, NULL);
    if (length < 0)
        return -length;
    printf("converted: %d bytes, %u records\n", length, (unsigned) fsq_get_u16(written + FSQ_HEADER_COUNT_AT));
    length = fsq_load_show(written, (size_t) length, image, sizeof image, NULL);
    for (int at = 0, read; at < length; at += read) {
        read = fsq_read_at(image + at, (size_t) (length - at), (uint16_t) (256 + at), &reading);
        if (read < 0)
            return -read;
        printf("%04X", 256u + (unsigned) at);
        for (int i = 0; i < read; i++)
            printf(" %02X", image[at + i]);
        printf(" %s\n", fsq_operation_name(fsq_reading_operation(&reading)));
    }

    length = fsq_convert_show(file, packed(file, sizeof file, 256, &too_much, 1), written, sizeof written, &report);
    printf("refused: %d, %s, record %lu\n%s\n", -length, fsq_refusal_name(length), (unsigned long) fsq_report_record(&report), fsq_refusal_sentence(length));
    /* SHL AX,3 at 65,531 is three records: JE is record 3 of the written file. */
    length = fsq_convert_show(file, packed(file, sizeof file, 65531, too_long, 2), written, sizeof written, &report);
    printf("refused: %d, %s, record %lu of the written file\n%s\n", -length, fsq_refusal_name(length), (unsigned long) fsq_report_record(&report), fsq_refusal_sentence(length));
    return 0;
}
