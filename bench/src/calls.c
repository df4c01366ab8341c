/* One way to call the library, on every record of a show, so often; for bench/calls, which counts instructions.
 *   calls WAY SHOW.fsq ROUNDS
 * WAY is a function of the library, an inline one over it with a report, or the same with NULL in its place (-null). */
#include "fsq.h"
#include <stdio.h>
#include <stdlib.h>
#include <string.h>

enum { MOST = 1000 };
static uint8_t file[FSQ_FILE_LENGTH], image[FSQ_IMAGE_LENGTH];
static uint16_t offsets[MOST + 1];
static fsq_record_t records[MOST];
static size_t file_length, count;
static volatile int answered;

static void open_show(const char *name) {
    FILE *in = fopen(name, "rb");
    file_length = in == NULL ? 0 : fread(file, 1, sizeof file, in);
    if (file_length < FSQ_HEADER_LENGTH || fsq_load_show(file, file_length, image, sizeof image, NULL) < 0)
        exit(2);
    count = fsq_get_u16(file + FSQ_HEADER_COUNT_AT);
    offsets[0] = fsq_get_u16(file + FSQ_HEADER_ORIGIN_AT);
    for (size_t k = 0; k < count && k < MOST; k++) {
        uint8_t out[FSQ_STRING_LENGTH];
        memcpy(records[k].bytes, file + FSQ_HEADER_LENGTH + FSQ_RECORD_LENGTH * k, FSQ_RECORD_LENGTH);
        offsets[k + 1] = (uint16_t) (offsets[k] + fsq_encode_at(&records[k], offsets[k], out, sizeof out, NULL));
    }
}

int main(int argc, char **argv) {
    if (argc != 4)
        return 2;
    open_show(argv[2]);
    const char *way = argv[1];
    fsq_report_t report;
    fsq_reading_t reading;
    static fsq_list_t list;
    static fsq_line_t line;
    uint8_t out[FSQ_STRING_LENGTH];
    int known = 0;
    for (long round = strtol(argv[3], NULL, 10); round > 0; round--) {
#define WAY(name, call) if (strcmp(way, name) == 0) { known = 1; for (size_t k = 0; k < count; k++) answered = (call); }
        WAY("encode", fsq_encode(records[k].bytes, FSQ_RECORD_LENGTH, offsets[k], out, sizeof out, report.bytes, FSQ_REPORT_LENGTH) == FSQ_DONE ? (int) fsq_report_length(&report) : -1)
        WAY("encode_at", fsq_encode_at(&records[k], offsets[k], out, sizeof out, &report))
        WAY("encode_at-null", fsq_encode_at(&records[k], offsets[k], out, sizeof out, NULL))
        WAY("list", fsq_list(records[k].bytes, FSQ_RECORD_LENGTH, offsets[k], list.bytes, FSQ_LIST_LENGTH, report.bytes, FSQ_REPORT_LENGTH) == FSQ_DONE ? (int) fsq_report_length(&report) : -1)
        WAY("list_at", fsq_list_at(&records[k], offsets[k], &list, &report))
        WAY("list_at-null", fsq_list_at(&records[k], offsets[k], &list, NULL))
        WAY("form", fsq_form(records[k].bytes, FSQ_RECORD_LENGTH, offsets[k], (uint8_t *) line.text, FSQ_FORM_LENGTH, report.bytes, FSQ_REPORT_LENGTH) == FSQ_DONE ? (int) fsq_report_length(&report) : -1)
        WAY("form_at", fsq_form_at(&records[k], offsets[k], &line, &report))
        WAY("form_at-null", fsq_form_at(&records[k], offsets[k], &line, NULL))
        WAY("read", fsq_read(image + (uint16_t) (offsets[k] - offsets[0]), (uint16_t) (offsets[k + 1] - offsets[k]), offsets[k], reading.bytes, FSQ_READING_LENGTH) == FSQ_DONE ? (int) fsq_reading_length(&reading) : -1)
        WAY("read_at", fsq_read_at(image + (uint16_t) (offsets[k] - offsets[0]), (uint16_t) (offsets[k + 1] - offsets[k]), offsets[k], &reading))
        WAY("read_at-null", fsq_read_at(image + (uint16_t) (offsets[k] - offsets[0]), (uint16_t) (offsets[k + 1] - offsets[k]), offsets[k], NULL))
        WAY("shortest", fsq_shortest(records[k].bytes, FSQ_RECORD_LENGTH, offsets[k], out, sizeof out, report.bytes, FSQ_REPORT_LENGTH) == FSQ_DONE ? (int) fsq_report_length(&report) : -1)
        WAY("shortest_at", fsq_shortest_at(&records[k], offsets[k], out, sizeof out, &report))
        WAY("shortest_at-null", fsq_shortest_at(&records[k], offsets[k], out, sizeof out, NULL))
        if (answered < 0)
            return 1;
    }
    return known ? 0 : 2;
}
