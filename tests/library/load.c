/* load SHOW IMAGE..: loads each show file and compares the whole image with the one that it has to give (tests/shows/make.py --long): into a slice of its
 * length, into a longer one, whose later bytes stay, and into one of a byte less, which names the last record. Then the file as it may not be: a byte shorter
 * or longer, of another version, of one that there is not, with a wrong repeat. */
#include "fsq.h"
#include <stdio.h>
#include <stdlib.h>
#include <string.h>

enum { LENT = 0xA5 };

static uint8_t file[FSQ_FILE_LENGTH + 1], expected[FSQ_IMAGE_LENGTH + 1], image[FSQ_IMAGE_LENGTH + 1], untouched[FSQ_IMAGE_LENGTH + 1];
static int failures;

/* A whole file, with room for a byte behind it. */
static size_t contents(const char *path, uint8_t *bytes, size_t room) {
    FILE *f = fopen(path, "rb");
    size_t length = f == NULL ? room : fread(bytes, 1, room, f);
    if (length == room) {
        fprintf(stderr, "load: %s is not here, or too long\n", path);
        exit(1);
    }
    fclose(f);
    return length;
}

static void check(int good, const char *path, const char *wrong) {
    if (!good && failures++ < 20)
        printf("load: %s: %s\n", path, wrong);
}

/* The answer, where nothing of the image is changed. */
static int refused(size_t length, size_t image_len, fsq_report_t *report) {
    int answer = fsq_load_show(file, length, image, image_len, report);
    return memcmp(image, untouched, sizeof image) == 0 ? answer : 0;
}

/* 23 for a repeat of 99 in the last record, then for REP before the first that is no string operation. */
static void wrong_repeats(const char *path, size_t length, uint16_t count) {
    uint8_t *last = file + length - FSQ_REPEAT_RECORD_LENGTH, *first = file + FSQ_HEADER_LENGTH;
    fsq_report_t report;
    uint32_t k = 0;
    memset(image, LENT, sizeof image);
    last[FSQ_REPEAT_AT] = 99;
    check(refused(length, sizeof image, &report) == -FSQ_INVALID_REPEAT && fsq_report_record(&report) + 1 == count, path, "another answer to the repeat 99");
    while (first[FSQ_OPERATION_AT] >= FSQ_MOVSB && first[FSQ_OPERATION_AT] <= FSQ_STOSW) {
        first += FSQ_REPEAT_RECORD_LENGTH;
        k++;
    }
    first[FSQ_REPEAT_AT] = FSQ_REPEAT_REP;
    check(refused(length, sizeof image, &report) == -FSQ_INVALID_REPEAT && fsq_report_record(&report) == k, path, "another answer to REP before another operation");
}

static void load(const char *path, const char *image_path) {
    size_t length = contents(path, file, sizeof file), n = contents(image_path, expected, sizeof expected);
    uint16_t count = fsq_get_u16(file + FSQ_HEADER_COUNT_AT), version = fsq_get_u16(file + FSQ_HEADER_VERSION_AT);
    uint16_t other;
    fsq_report_t report;
    memset(image, LENT, sizeof image);
    check(refused(length, n - 1, &report) == -FSQ_SLICE_TOO_SHORT && fsq_report_record(&report) + 1 == count, path, "another answer to an image slice of a byte less");
    check(refused(length - 1, sizeof image, NULL) == -FSQ_WRONG_LENGTH, path, "another answer to a file of a byte less");
    check(refused(length + 1, sizeof image, NULL) == -FSQ_WRONG_LENGTH, path, "another answer to a file of a byte more");
    for (other = 0; other <= 5; other++)
        if (other != version) {
            fsq_put_u16(file + FSQ_HEADER_VERSION_AT, other);
            check(refused(length, sizeof image, NULL) == (other >= 1 && other <= 3 ? -FSQ_WRONG_LENGTH : -FSQ_WRONG_VERSION), path, "another answer to another version");
        }
    fsq_put_u16(file + FSQ_HEADER_VERSION_AT, version);
    check(fsq_load_show(file, length, image, sizeof image, &report) == (int) n && fsq_report_length(&report) == n, path, "another length");
    check(memcmp(image, expected, n) == 0, path, "another image");
    check(memcmp(image + n, untouched, sizeof image - n) == 0, path, "a byte behind the image is changed");
    memset(image, LENT, sizeof image);
    check(fsq_load_show(file, length, image, n, NULL) == (int) n && memcmp(image, expected, n) == 0, path, "another image in a slice of its length");
    check(memcmp(image + n, untouched, sizeof image - n) == 0, path, "a byte behind a slice of its length is changed");
    if (version == FSQ_REPEAT_VERSION)
        wrong_repeats(path, length, count);
}

int main(int argc, char **argv) {
    int i;
    memset(untouched, LENT, sizeof untouched);
    for (i = 1; i + 1 < argc; i += 2)
        load(argv[i], argv[i + 1]);
    printf("load: %d long shows, %d failed\n", argc / 2, failures);
    return failures != 0 || argc < 3 || argc % 2 == 0;
}
