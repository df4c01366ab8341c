/* Encodes Word ADD [BX],5, tells its form, reads it back, lists all of its strings, writes it with DS: and by the shortest string, and shows a refusal with its
 * question; then REP MOVSB, encoded and read; and evaluates a sum. */
#include "fsq.h"
#include <stdio.h>
#include <string.h>

static void print_string(const uint8_t *bytes, size_t length) {
    for (size_t i = 0; i < length; i++)
        printf(i + 1 < length ? "%02X " : "%02X\n", bytes[i]);
}

int main(void) {
    fsq_record_t add = fsq_two(FSQ_ADD, fsq_mem(FSQ_WORD, FSQ_BASE_BX, 0), fsq_imm(5));
    fsq_record_t add_ds = fsq_two(FSQ_ADD, fsq_with_segment(fsq_mem(FSQ_WORD, FSQ_BASE_BX, 0), FSQ_DS), fsq_imm(5));
    fsq_record_t mov = fsq_two(FSQ_MOV, fsq_mem(FSQ_BYTE, FSQ_BASE_BX, 0), fsq_imm(300));
    fsq_repeat_record_t copy = fsq_with_repeat(fsq_none(FSQ_MOVSB), FSQ_REPEAT_REP);
    const char *delay = "3*(40+2)-1";
    int32_t value;
    uint8_t string[FSQ_STRING_LENGTH];
    fsq_reading_t reading;
    fsq_line_t line;
    fsq_list_t list;
    fsq_report_t report;

    int length = fsq_encode_at(&add, 256, string, sizeof string, NULL);
    if (length < 0)
        return -length;
    printf("encoded: ");
    print_string(string, (size_t) length);

    if (fsq_form_at(&add, 256, &line, NULL) < 0)
        return 1;
    puts(line.text);

    length = fsq_read_at(string, (size_t) length, 256, &reading);
    if (length < 0)
        return -length;
    printf("read: operation %d of %d bytes, form %02X /%d\n", fsq_reading_operation(&reading), length, fsq_reading_opcode(&reading),
           fsq_reading_extension(&reading) - FSQ_EXTENSION_DIGIT);

    int count = fsq_list_at(&add, 256, &list, NULL);
    if (count < 0)
        return -count;
    printf("listed: %d\n", count);
    for (size_t i = 0; i < (size_t) count; i++)
        print_string(fsq_entry_bytes(&list, i), fsq_entry_length(&list, i));

    /* DS is the default segment of [BX]. */
    length = fsq_encode_at(&add_ds, 256, string, sizeof string, NULL);
    if (length < 0)
        return -length;
    printf("encoded with DS: ");
    print_string(string, (size_t) length);
    length = fsq_shortest_at(&add_ds, 256, string, sizeof string, NULL);
    if (length < 0)
        return -length;
    printf("shortest: ");
    print_string(string, (size_t) length);

    length = fsq_encode_at(&mov, 256, string, sizeof string, &report);
    printf("refused: %d, value %d is outside %d..%d\n", -length, (int) fsq_report_value(&report), (int) fsq_report_low(&report),
           (int) fsq_report_high(&report));
    if (fsq_form_at(&mov, 256, &line, NULL) < 0)
        return 1;
    puts(line.text);

    length = fsq_encode_repeat_at(&copy, 256, string, sizeof string, NULL);
    if (length < 0)
        return -length;
    printf("encoded: ");
    print_string(string, (size_t) length);
    length = fsq_read_at(string, (size_t) length, 256, &reading);
    if (length < 0)
        return -length;
    printf("read: operation %d of %d bytes, form %02X, repeat %02X\n", fsq_reading_operation(&reading), length, fsq_reading_opcode(&reading),
           (unsigned) fsq_reading_repeat(&reading));

    if (fsq_evaluate_text(delay, strlen(delay), &value) < 0)
        return 1;
    printf("%s is %d\n", delay, (int) value);
    return 0;
}
