/* Writes a show of three records from origin 256, loads it, and shows a refusal in words: LOOP 512 is too far away. Then one with a repeat, in one call. */
#include "fsq.h"
#include <stdio.h>

static void print_loaded(const uint8_t *image, int length) {
    printf("loaded:");
    for (int i = 0; i < length; i++)
        printf(" %02X", image[i]);
    printf("\n");
}

int main(void) {
    fsq_record_t records[] = {fsq_two(FSQ_MOV, fsq_reg(FSQ_AX), fsq_imm(4660)), fsq_none(FSQ_AAM), fsq_one(FSQ_LOOP, fsq_imm(256))};
    fsq_record_t far_away = fsq_one(FSQ_LOOP, fsq_imm(512));
    /* MOV CX,16; REP MOVSB; HLT: by its repeat a show of version 3. */
    fsq_repeat_record_t copy[] = {fsq_with_repeat(fsq_two(FSQ_MOV, fsq_reg(FSQ_CX), fsq_imm(16)), FSQ_REPEAT_NONE),
                                  fsq_with_repeat(fsq_none(FSQ_MOVSB), FSQ_REPEAT_REP), fsq_with_repeat(fsq_none(FSQ_HLT), FSQ_REPEAT_NONE)};
    uint8_t file[FSQ_HEADER_LENGTH + 3 * FSQ_REPEAT_RECORD_LENGTH], image[3 * FSQ_STRING_LENGTH];
    fsq_report_t report;

    int length = fsq_write_header(file, sizeof file, 256, 3);
    for (uint16_t i = 0; i < 3 && length > 0; i++)
        length = fsq_write_record(file, sizeof file, i, &records[i]);
    if (length < 0)
        return -length;
    int loaded = fsq_load_show(file, (size_t) length, image, sizeof image, NULL);
    if (loaded < 0)
        return -loaded;
    print_loaded(image, loaded);

    if (fsq_write_record(file, sizeof file, 2, &far_away) < 0)
        return 1;
    length = fsq_load_show(file, (size_t) length, image, sizeof image, &report);
    printf("refused: %d in record %d, %s, distance %d\n%s\n", -length, (int) fsq_report_record(&report), fsq_refusal_name(length),
           (int) fsq_report_value(&report), fsq_refusal_sentence(length));

    length = fsq_write_show(file, sizeof file, 256, copy, 3);
    if (length < 0)
        return -length;
    loaded = fsq_load_show(file, (size_t) length, image, sizeof image, NULL);
    if (loaded < 0)
        return -loaded;
    printf("version %d, ", fsq_get_u16(file + FSQ_HEADER_VERSION_AT));
    print_loaded(image, loaded);
    return 0;
}
