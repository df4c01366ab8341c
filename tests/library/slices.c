/* slices FILE: the library's functions and the header's inline functions over them on lent slices of every length that can matter, with the records of a
 * show file, whole and with a byte changed, each without a repeat and with one, with texts of sums, and with cues. A file of more records than version 1
 * has is loaded only.
 *
 * Every slice ends at a page that cannot be touched, or begins behind one, and what is only read cannot be written: a byte outside ends the program.
 * After each call is compared what it may change: on a refusal nothing but the report, else nothing behind what is answered; and the answer
 * does not depend on the report's length. An inline function has to answer and write what the function below it does, also where a slice or a
 * report is null; the library itself never gets a null address (the linker puts __wrap_ before its functions). */
#include "fsq.h"
#include <stdio.h>
#include <stdlib.h>
#include <string.h>
#include <sys/mman.h>

/* OUT is for all that is written but an image and a file: what is lent is filled before each call, and compared behind it. */
enum { PAGE = 4096, OUT = 2 * PAGE, IMAGE = 14 * PAGE, WHOLE = 112 * PAGE, LENT = 0xA5 };

/* Room between two pages that cannot be touched. */
typedef struct room { uint8_t *at; size_t size; } room;

static room in, out, report, image, whole;
static uint8_t untouched[WHOLE];
static unsigned long calls, refusals, failures;
static uint32_t seed = 8086;

static room fenced(size_t size) {
    room made;
    uint8_t *at = mmap(NULL, size + 2 * PAGE, PROT_NONE, MAP_PRIVATE | MAP_ANONYMOUS, -1, 0);
    if (at == MAP_FAILED || mprotect(at + PAGE, size, PROT_READ | PROT_WRITE) != 0) {
        perror("slices");
        exit(1);
    }
    made.at = at + PAGE;
    made.size = size;
    return made;
}

static uint32_t below(uint32_t n) {
    seed = seed * 1664525u + 1013904223u;
    return (seed >> 8) % n;
}

/* Bytes to read, at either end of their room, one of them changed where `change` says so. */
static uint8_t *lend_in(const uint8_t *bytes, size_t length, int change) {
    uint8_t *at = below(2) ? in.at + in.size - length : in.at;
    mprotect(in.at, in.size, PROT_READ | PROT_WRITE);
    memcpy(at, bytes, length);
    if (change && length != 0)
        at[below((uint32_t) length)] = (uint8_t) below(256);
    mprotect(in.at, in.size, PROT_READ);
    return at;
}

/* A slice to write, at either end of its room, which is all the same byte. */
static uint8_t *lend(room to, size_t length) {
    memset(to.at, LENT, to.size);
    return below(2) ? to.at + to.size - length : to.at;
}

/* Is the room as it was outside of so many bytes at `from`? */
static int stays_but(room to, const uint8_t *from, size_t length) {
    size_t front = (size_t) (from - to.at);
    return memcmp(to.at, untouched, front) == 0 && memcmp(from + length, untouched, to.size - front - length) == 0;
}

static void failed(const char *function, const char *wrong, size_t length, size_t out_len, size_t report_len, int answer) {
    if (failures++ < 20)
        printf("slices: %s: %s (%zu, %zu and %zu bytes, answer %d)\n", function, wrong, length, out_len, report_len, answer);
}

/* The lengths that the library got last, of what is read and of what is written. */
static size_t read_len, written_len;

/* The library may not get a null address. */
static void handed(const char *function, const void *from, size_t n, const void *to, size_t m, const void *told) {
    read_len = n;
    written_len = m;
    if (from == NULL || to == NULL || told == NULL)
        failed(function, "gets a null address", n, m, 0, 0);
}

uint8_t __real_fsq_encode(const uint8_t *, size_t, uint16_t, uint8_t *, size_t, uint8_t *, size_t);
uint8_t __real_fsq_shortest(const uint8_t *, size_t, uint16_t, uint8_t *, size_t, uint8_t *, size_t);
uint8_t __real_fsq_list(const uint8_t *, size_t, uint16_t, uint8_t *, size_t, uint8_t *, size_t);
uint8_t __real_fsq_form(const uint8_t *, size_t, uint16_t, uint8_t *, size_t, uint8_t *, size_t);
uint8_t __real_fsq_read(const uint8_t *, size_t, uint16_t, uint8_t *, size_t);
uint8_t __real_fsq_load(const uint8_t *, size_t, uint8_t *, size_t, uint8_t *, size_t);
uint8_t __real_fsq_evaluate(const uint8_t *, size_t, uint8_t *, size_t);
uint8_t __real_fsq_check(const uint8_t *, size_t, uint8_t *, size_t);
uint8_t __real_fsq_cue(const uint8_t *, size_t, uint8_t *, size_t, uint8_t *, size_t);
uint8_t __real_fsq_convert(const uint8_t *, size_t, uint8_t *, size_t, uint8_t *, size_t);
uint8_t __real_fsq_run(const uint8_t *, size_t, uint32_t, uint8_t *, size_t, uint8_t *, size_t);
uint8_t __wrap_fsq_encode(const uint8_t *, size_t, uint16_t, uint8_t *, size_t, uint8_t *, size_t);
uint8_t __wrap_fsq_shortest(const uint8_t *, size_t, uint16_t, uint8_t *, size_t, uint8_t *, size_t);
uint8_t __wrap_fsq_list(const uint8_t *, size_t, uint16_t, uint8_t *, size_t, uint8_t *, size_t);
uint8_t __wrap_fsq_form(const uint8_t *, size_t, uint16_t, uint8_t *, size_t, uint8_t *, size_t);
uint8_t __wrap_fsq_read(const uint8_t *, size_t, uint16_t, uint8_t *, size_t);
uint8_t __wrap_fsq_load(const uint8_t *, size_t, uint8_t *, size_t, uint8_t *, size_t);
uint8_t __wrap_fsq_evaluate(const uint8_t *, size_t, uint8_t *, size_t);
uint8_t __wrap_fsq_check(const uint8_t *, size_t, uint8_t *, size_t);
uint8_t __wrap_fsq_cue(const uint8_t *, size_t, uint8_t *, size_t, uint8_t *, size_t);
uint8_t __wrap_fsq_convert(const uint8_t *, size_t, uint8_t *, size_t, uint8_t *, size_t);
uint8_t __wrap_fsq_run(const uint8_t *, size_t, uint32_t, uint8_t *, size_t, uint8_t *, size_t);

uint8_t __wrap_fsq_encode(const uint8_t *record, size_t n, uint16_t offset, uint8_t *o, size_t m, uint8_t *r, size_t k) {
    handed("fsq_encode", record, n, o, m, r);
    return __real_fsq_encode(record, n, offset, o, m, r, k);
}

uint8_t __wrap_fsq_shortest(const uint8_t *record, size_t n, uint16_t offset, uint8_t *o, size_t m, uint8_t *r, size_t k) {
    handed("fsq_shortest", record, n, o, m, r);
    return __real_fsq_shortest(record, n, offset, o, m, r, k);
}

uint8_t __wrap_fsq_list(const uint8_t *record, size_t n, uint16_t offset, uint8_t *o, size_t m, uint8_t *r, size_t k) {
    handed("fsq_list", record, n, o, m, r);
    return __real_fsq_list(record, n, offset, o, m, r, k);
}

uint8_t __wrap_fsq_form(const uint8_t *record, size_t n, uint16_t offset, uint8_t *o, size_t m, uint8_t *r, size_t k) {
    handed("fsq_form", record, n, o, m, r);
    return __real_fsq_form(record, n, offset, o, m, r, k);
}

uint8_t __wrap_fsq_read(const uint8_t *bytes, size_t n, uint16_t offset, uint8_t *o, size_t m) {
    handed("fsq_read", bytes, n, o, m, o);
    return __real_fsq_read(bytes, n, offset, o, m);
}

uint8_t __wrap_fsq_load(const uint8_t *file, size_t n, uint8_t *image, size_t m, uint8_t *r, size_t k) {
    handed("fsq_load", file, n, image, m, r);
    return __real_fsq_load(file, n, image, m, r, k);
}

uint8_t __wrap_fsq_evaluate(const uint8_t *text, size_t n, uint8_t *r, size_t k) {
    handed("fsq_evaluate", text, n, r, 0, r);
    return __real_fsq_evaluate(text, n, r, k);
}

uint8_t __wrap_fsq_check(const uint8_t *file, size_t n, uint8_t *r, size_t k) {
    handed("fsq_check", file, n, r, 0, r);
    return __real_fsq_check(file, n, r, k);
}

uint8_t __wrap_fsq_cue(const uint8_t *cues, size_t n, uint8_t *image, size_t m, uint8_t *r, size_t k) {
    handed("fsq_cue", cues, n, image, m, r);
    return __real_fsq_cue(cues, n, image, m, r, k);
}

uint8_t __wrap_fsq_run(const uint8_t *image, size_t n, uint32_t budget, uint8_t *log, size_t m, uint8_t *o, size_t k) {
    handed("fsq_run", image, n, log, m, o);
    return __real_fsq_run(image, n, budget, log, m, o, k);
}

uint8_t __wrap_fsq_convert(const uint8_t *file, size_t n, uint8_t *to, size_t m, uint8_t *r, size_t k) {
    handed("fsq_convert", file, n, to, m, r);
    return __real_fsq_convert(file, n, to, m, r, k);
}

enum function { ENCODE, LIST, READ, LOAD, FORM, EVALUATE, SHORTEST, CUE, CONVERT, CHECK };

/* The bytes that one of what a function counts has. */
static const size_t each[] = {1, FSQ_ENTRY_LENGTH, 0, 1, 1, 0, 1, 1, 1, 0};

/* One call. `bytes` is what it reads; the answer is compared with `first`, the one that a whole report came with, where that is not negative. */
static int call(enum function function, const uint8_t *bytes, size_t length, uint16_t offset, size_t out_len, size_t report_len, int first) {
    static const char *names[] = {"fsq_encode", "fsq_list", "fsq_read", "fsq_load", "fsq_form", "fsq_evaluate", "fsq_shortest", "fsq_cue", "fsq_convert", "fsq_check"};
    room to = function == LOAD ? image : function == CONVERT ? whole : out;
    uint8_t *o = lend(to, out_len), *r = lend(report, report_len);
    const char *wrong = NULL;
    size_t written = 0;
    uint8_t answer = function == ENCODE ? fsq_encode(bytes, length, offset, o, out_len, r, report_len)
        : function == SHORTEST ? fsq_shortest(bytes, length, offset, o, out_len, r, report_len)
        : function == LIST ? fsq_list(bytes, length, offset, o, out_len, r, report_len)
        : function == FORM ? fsq_form(bytes, length, offset, o, out_len, r, report_len)
        : function == READ ? fsq_read(bytes, length, offset, o, out_len)
        : function == EVALUATE ? fsq_evaluate(bytes, length, r, report_len)
        : function == CHECK ? fsq_check(bytes, length, r, report_len)
        : function == CUE ? fsq_cue(bytes, length, o, out_len, r, report_len)
        : function == CONVERT ? fsq_convert(bytes, length, o, out_len, r, report_len)
        : fsq_load(bytes, length, o, out_len, r, report_len);
    int reported = function != READ && report_len >= FSQ_REPORT_LENGTH;
    calls++;
    refusals += answer != FSQ_DONE;
    if (answer == FSQ_DONE)
        written = function == READ ? (out_len >= FSQ_READING_LENGTH ? FSQ_READING_LENGTH : 0) : reported ? fsq_get_u32(r + FSQ_REPORT_LENGTH_AT) * each[function] : out_len;
    if (first >= 0 && answer != first)
        wrong = "the answer depends on the report's length";
    else if (written > out_len)
        wrong = "more is answered than the slice holds";
    else if (!stays_but(to, o, written))
        wrong = "a byte is changed that stays";
    else if (!stays_but(report, r, reported ? FSQ_REPORT_LENGTH : 0))
        wrong = "a byte beside the report is changed";
    else if (function == READ && written != 0 && (o[FSQ_READ_LENGTH_AT] == 0 || o[FSQ_READ_LENGTH_AT] > length))
        wrong = "a length that the bytes do not have";
    else if (function == FORM && answer == FSQ_DONE && reported && (written == 0 || memchr(o, 10, written) != o + written - 1))
        wrong = "other bytes than one line with its line feed";
    else if (function == EVALUATE && answer != FSQ_DONE && reported && fsq_get_i32(r + FSQ_REPORT_VALUE_AT) != 0)
        wrong = "a value beside a refusal";
    if (wrong != NULL)
        failed(names[function], wrong, length, out_len, report_len, answer);
    return answer;
}

static void call_all(enum function function, const uint8_t *bytes, size_t length, size_t out_len) {
    static const size_t reports[] = {0, 1, 27, 29, 36};
    uint16_t offset = (uint16_t) below(65536);
    int first = call(function, bytes, length, offset, out_len, FSQ_REPORT_LENGTH, -1);
    for (size_t i = 0; i < sizeof reports / sizeof *reports && function != READ; i++)
        call(function, bytes, length, offset, out_len, reports[i], first);
}

/* Which of three inline functions takes a record: that of its type, by its length, or that of bytes. */
enum taken { BYTES, RECORD = FSQ_RECORD_LENGTH, REPEAT = FSQ_REPEAT_RECORD_LENGTH };

/* An inline function beside the library's. `out_len` is that of ENCODE, SHORTEST, LOAD and CONVERT; the others write a struct. Null are, by the bits of `nulls`, what is
 * read (with its length), what is written (with its length) and the report. */
static void call_inline(enum function function, enum taken by, const uint8_t *bytes, size_t length, uint16_t offset, size_t out_len, unsigned nulls) {
    static const char *names[] = {"fsq_encode_at", "fsq_list_at", "fsq_read_at", "fsq_load_show", "fsq_form_at", "", "fsq_shortest_at", "", "fsq_convert_show", "fsq_check_show"};
    static uint8_t right[WHOLE];
    room to = function == LOAD ? image : function == CONVERT ? whole : out;
    uint8_t right_report[FSQ_REPORT_LENGTH] = {0}, number;
    size_t size = function == LIST ? sizeof(fsq_list_t) : function == READ ? FSQ_READING_LENGTH : function == FORM ? sizeof(fsq_line_t) : out_len, written;
    size_t given = nulls & 1u ? 0 : length;
    /* A reading that is not wanted is read all the same. */
    size_t lent = nulls & 2u && function != READ ? 0 : function == LIST ? FSQ_LIST_LENGTH : size;
    uint8_t *o = nulls & 2u ? NULL : lend(to, size);
    fsq_report_t *r = nulls & 4u ? NULL : (fsq_report_t *) lend(report, sizeof *r);
    const uint8_t *from = nulls & 1u ? NULL : bytes;
    const char *wrong = NULL;
    int answer, expected;
    number = function == ENCODE ? fsq_encode(bytes, given, offset, right, lent, right_report, sizeof right_report)
        : function == SHORTEST ? fsq_shortest(bytes, given, offset, right, lent, right_report, sizeof right_report)
        : function == LIST ? fsq_list(bytes, given, offset, right, lent, right_report, sizeof right_report)
        : function == FORM ? fsq_form(bytes, given, offset, right, lent, right_report, sizeof right_report)
        : function == READ ? fsq_read(bytes, given, offset, right, lent)
        : function == CONVERT ? fsq_convert(bytes, given, right, lent, right_report, sizeof right_report)
        : function == CHECK ? fsq_check(bytes, given, right_report, sizeof right_report)
        : fsq_load(bytes, given, right, lent, right_report, sizeof right_report);
    answer = function == ENCODE && by == RECORD ? fsq_encode_at((const fsq_record_t *) from, offset, o, out_len, r)
        : function == ENCODE && by == REPEAT ? fsq_encode_repeat_at((const fsq_repeat_record_t *) from, offset, o, out_len, r)
        : function == ENCODE ? fsq_encode_bytes_at(from, length, offset, o, out_len, r)
        : function == SHORTEST && by == RECORD ? fsq_shortest_at((const fsq_record_t *) from, offset, o, out_len, r)
        : function == SHORTEST && by == REPEAT ? fsq_shortest_repeat_at((const fsq_repeat_record_t *) from, offset, o, out_len, r)
        : function == SHORTEST ? fsq_shortest_bytes_at(from, length, offset, o, out_len, r)
        : function == LIST && by == RECORD ? fsq_list_at((const fsq_record_t *) from, offset, (fsq_list_t *) o, r)
        : function == LIST && by == REPEAT ? fsq_list_repeat_at((const fsq_repeat_record_t *) from, offset, (fsq_list_t *) o, r)
        : function == LIST ? fsq_list_bytes_at(from, length, offset, (fsq_list_t *) o, r)
        : function == FORM && by == RECORD ? fsq_form_at((const fsq_record_t *) from, offset, (fsq_line_t *) o, r)
        : function == FORM && by == REPEAT ? fsq_form_repeat_at((const fsq_repeat_record_t *) from, offset, (fsq_line_t *) o, r)
        : function == FORM ? fsq_form_bytes_at(from, length, offset, (fsq_line_t *) o, r)
        : function == READ ? fsq_read_at(from, length, offset, (fsq_reading_t *) o)
        : function == CONVERT ? fsq_convert_show(from, length, o, out_len, r)
        : function == CHECK ? fsq_check_show(from, length, r)
        : fsq_load_show(from, length, o, out_len, r);
    calls++;
    refusals += number != FSQ_DONE;
    expected = number != FSQ_DONE ? -(int) number : function == READ ? right[FSQ_READ_LENGTH_AT] : (int) fsq_get_u32(right_report + FSQ_REPORT_LENGTH_AT);
    written = number != FSQ_DONE || o == NULL ? 0 : function == READ ? FSQ_READING_LENGTH : (size_t) expected * each[function];
    /* The line feed becomes the string's end; on a refusal the string is empty. */
    if (function == FORM) {
        if (number == FSQ_DONE)
            expected--;
        written = o == NULL ? 0 : number == FSQ_DONE ? (size_t) expected + 1 : 1;
        right[written == 0 ? 0 : written - 1] = 0;
    }
    if (o != NULL && function == LIST) {
        if (((fsq_list_t *) o)->count != (number == FSQ_DONE ? expected : 0))
            wrong = "another number of entries";
        ((fsq_list_t *) o)->count = LENT;
    }
    if (wrong != NULL)
        ;
    else if (read_len != given || written_len != lent)
        wrong = "other lengths than were given";
    else if (answer != expected)
        wrong = "another answer than the library's";
    else if (o != NULL && memcmp(o, right, written) != 0)
        wrong = "other bytes than the library's";
    else if (o != NULL && !stays_but(to, o, written))
        wrong = "a byte is changed that stays";
    else if (function != READ && r != NULL && memcmp(r, right_report, sizeof *r) != 0)
        wrong = "another report than the library's";
    else if (function != READ && r != NULL && !stays_but(report, r->bytes, sizeof *r))
        wrong = "a byte beside the report is changed";
    if (wrong != NULL)
        failed(names[function], wrong, given, lent, r == NULL ? 0 : sizeof *r, answer);
}

/* With every choice of what is null; a null pointer comes with its length and with 0. */
static void call_inline_all(enum function function, enum taken by, const uint8_t *bytes, size_t length, size_t out_len) {
    uint16_t offset = (uint16_t) below(65536);
    for (unsigned nulls = 0; nulls < 8; nulls++)
        call_inline(function, by, bytes, nulls & 1u && nulls & 2u ? 0 : length, offset, nulls & 2u && nulls & 4u ? 0 : out_len, nulls);
}

/* The shortest string of a record beside its list: the first entry, no longer than the encoder's string, in every slice that holds it; without a list the
 * encoder's refusal and report. */
static void shortest_beside(const uint8_t *record, size_t length) {
    uint16_t offset = (uint16_t) below(65536);
    uint8_t list[FSQ_LIST_LENGTH], string[FSQ_STRING_LENGTH], reports[3][FSQ_REPORT_LENGTH];
    uint8_t listed = fsq_list(record, length, offset, list, sizeof list, reports[0], sizeof reports[0]);
    uint8_t encoded = fsq_encode(record, length, offset, string, sizeof string, reports[1], sizeof reports[1]);
    for (size_t out_len = 0; out_len <= FSQ_STRING_LENGTH; out_len++) {
        uint8_t *o = lend(out, out_len), answer = fsq_shortest(record, length, offset, o, out_len, reports[2], sizeof reports[2]);
        const char *wrong = NULL;
        calls++;
        refusals += answer != FSQ_DONE;
        if (listed != encoded || (listed != FSQ_DONE && (answer != encoded || memcmp(reports[2], reports[1], sizeof reports[1]) != 0)))
            wrong = "another refusal than the encoder's";
        else if (listed == FSQ_DONE && (answer != (out_len < list[0] ? FSQ_SLICE_TOO_SHORT : FSQ_DONE) || list[0] > reports[1][FSQ_REPORT_LENGTH_AT]))
            wrong = "another length than the first entry's";
        else if (answer == FSQ_DONE && (reports[2][FSQ_REPORT_LENGTH_AT] != list[0] || memcmp(o, list + 1, list[0]) != 0))
            wrong = "other bytes than the first entry's";
        if (wrong != NULL)
            failed("fsq_shortest", wrong, length, out_len, sizeof reports[2], answer);
    }
}

/* The inline function beside the library's. Null are, by the bits of `nulls`, the text (with its length) and the value. */
static void call_evaluate_text(const uint8_t *text, size_t length, unsigned nulls) {
    size_t given = nulls & 1u ? 0 : length;
    int32_t *value = nulls & 2u ? NULL : (int32_t *) (void *) lend(report, sizeof *value);
    uint8_t right[FSQ_REPORT_LENGTH], number = fsq_evaluate(text, given, right, sizeof right);
    int answer = fsq_evaluate_text(nulls & 1u ? NULL : (const char *) text, length, value);
    const char *wrong = NULL;
    calls++;
    refusals += number != FSQ_DONE;
    if (read_len != given)
        wrong = "another length than was given";
    else if (answer != -(int) number)
        wrong = "another answer than the library's";
    else if (value != NULL && number == FSQ_DONE && *value != fsq_get_i32(right + FSQ_REPORT_VALUE_AT))
        wrong = "another value than the library's";
    else if (value != NULL && !stays_but(report, (uint8_t *) value, number == FSQ_DONE ? sizeof *value : 0))
        wrong = "a byte is changed that stays";
    if (wrong != NULL)
        failed("fsq_evaluate_text", wrong, given, 0, 0, answer);
}

/* A text of a sum, whole and with a byte changed, from 0 bytes to all of them. */
static void evaluate_all(const char *text) {
    size_t length = strlen(text);
    for (size_t front = 0; front <= length; front++)
        for (int change = 0; change < 3; change++) {
            const uint8_t *at = lend_in((const uint8_t *) text, front, change);
            call_all(EVALUATE, at, front, 0);
            for (unsigned nulls = 0; nulls < 4; nulls++) {
                call_evaluate_text(at, front, nulls);
                call_evaluate_text(at, nulls & 1u ? 0 : front, nulls);
            }
        }
}

/* The inline functions beside the library's, by bytes and, where the length allows, by cues. Null are, by the bits of `nulls`, the cues (with their length) and the
 * image (with its length). */
static void call_compile(const uint8_t *cues, size_t length, size_t out_len, unsigned nulls) {
    static uint8_t right[OUT];
    size_t given = nulls & 1u ? 0 : length, lent = nulls & 2u ? 0 : out_len;
    uint8_t right_report[FSQ_REPORT_LENGTH], number = fsq_cue(cues, given, right, lent, right_report, sizeof right_report);
    int expected = number == FSQ_DONE ? (int) fsq_get_u32(right_report + FSQ_REPORT_LENGTH_AT) : -(int) number;
    size_t written = number == FSQ_DONE ? (size_t) expected : 0;
    for (int by = 0; by < (length % FSQ_CUE_LENGTH == 0 ? 2 : 1); by++) {
        const uint8_t *from = nulls & 1u ? NULL : cues;
        uint8_t *o = nulls & 2u ? NULL : lend(out, out_len);
        int answer = by ? fsq_compile_cues((const fsq_cue_t *) from, length / FSQ_CUE_LENGTH, o, out_len) : fsq_compile_bytes(from, length, o, out_len);
        const char *wrong = NULL;
        calls++;
        refusals += answer < 0;
        if (given <= FSQ_MOST_CUES * FSQ_CUE_LENGTH && (read_len != given || written_len != lent))
            wrong = "other lengths than were given";
        else if (answer != expected)
            wrong = "another answer than the library's";
        else if (o != NULL && (memcmp(o, right, written) != 0 || !stays_but(out, o, written)))
            wrong = "other bytes than the library's";
        if (wrong != NULL)
            failed(by ? "fsq_compile_cues" : "fsq_compile_bytes", wrong, given, lent, 0, answer);
    }
}

/* Cues of random bytes, delays of 0 among them now and then, into an image around its length. */
static void compile_all(void) {
    static const size_t counts[] = {0, 1, 2, 3, 140, 199, 200, 201, 240};
    static uint8_t cues[FSQ_CUE_LENGTH * 240];
    for (size_t i = 0; i < sizeof counts / sizeof *counts; i++)
        for (size_t more = 0; more < 5; more++)
            for (int change = 0; change < 3; change++) {
                size_t length = FSQ_CUE_LENGTH * counts[i] + (more == 4 ? below(4) : 0);
                size_t out_len = more == 3 ? below(OUT) : FSQ_CUE_CODE_LENGTH * counts[i] + more;
                const uint8_t *at;
                for (size_t k = 0; k < length; k++)
                    cues[k] = (uint8_t) (1 + below(change == 2 && k < 8 ? 1 : 255));
                if (change == 2 && length >= 8)
                    memset(cues + FSQ_CUE_LENGTH * below((uint32_t) (length / FSQ_CUE_LENGTH)), 0, 2);
                at = lend_in(cues, length, change);
                call_all(CUE, at, length, out_len);
                for (unsigned nulls = 0; nulls < 4; nulls++)
                    call_compile(at, length, out_len, nulls);
            }
}

/* A show of shifts by 1 to 31 and of branches, now and then with a count, a code or a target that is refused, into a slice around the written file's length. */
static void convert_all(void) {
    static const size_t counts[] = {0, 1, 2, 5, 40, 1000};
    static uint8_t file[FSQ_HEADER_LENGTH + 1000 * FSQ_RECORD_LENGTH];
    for (size_t i = 0; i < sizeof counts / sizeof *counts; i++)
        for (int change = 0; change < 24; change++) {
            size_t length = FSQ_HEADER_LENGTH + counts[i] * FSQ_RECORD_LENGTH, written = length;
            const uint8_t *at;
            fsq_write_header(file, sizeof file, (uint16_t) below(65536), (uint16_t) counts[i]);
            for (uint16_t k = 0; k < counts[i]; k++) {
                uint32_t many = change % 4 == 0 ? 1 + below(31) : 1 + below(2);
                fsq_record_t record = below(3) == 0 ? fsq_none(FSQ_HLT)
                    : below(4) == 0 ? fsq_one(FSQ_CALL, fsq_imm(fsq_get_u16(file + FSQ_HEADER_ORIGIN_AT)))
                    : fsq_two((enum fsq_operation) (FSQ_SHL + below(7)), fsq_reg(FSQ_BX), fsq_imm((int32_t) many));
                if (record.bytes[FSQ_OPERATION_AT] >= FSQ_SHL && record.bytes[FSQ_OPERATION_AT] <= FSQ_RCR)
                    written += (many - 1) * FSQ_RECORD_LENGTH;
                if (change % 8 == 7 && k == below((uint32_t) counts[i]))
                    record.bytes[below(FSQ_RECORD_LENGTH)] ^= (uint8_t) (1u << below(8));
                fsq_write_record(file, sizeof file, k, &record);
            }
            if (change % 6 == 5)
                length = below((uint32_t) length + 1);
            at = lend_in(file, length, 0);
            call_all(CHECK, at, length, 0);
            call_inline_all(CHECK, BYTES, at, length, 0);
            for (size_t more = 0; more < 4; more++) {
                size_t out_len = more == 3 || written > FSQ_CONVERTED_LENGTH ? below(FSQ_CONVERTED_LENGTH + 1) : written + more - 1;
                call_all(CONVERT, at, length, out_len);
                call_inline_all(CONVERT, BYTES, at, length, out_len);
            }
        }
}

/* A run; the answer is compared with `first`, the one that a whole result came with, where that is not negative. */
static int call_run(const uint8_t *bytes, size_t length, uint32_t budget, size_t log_len, size_t out_len, int first) {
    uint8_t *log = lend(out, log_len), *o = lend(report, out_len), answer = fsq_run(bytes, length, budget, log, log_len, o, out_len);
    int told = out_len >= FSQ_RUN_RESULT_LENGTH;
    uint64_t count = told ? fsq_get_u64(o + FSQ_RUN_COUNT_AT) : 0, pairs = told ? fsq_get_u64(o + FSQ_RUN_LOG_LENGTH_AT) : answer == FSQ_DONE ? log_len : 0;
    const char *wrong = NULL;
    calls++;
    refusals += answer != FSQ_DONE;
    if (first >= 0 && answer != first)
        wrong = "the answer depends on the result's length";
    else if (answer != FSQ_DONE && (count != 0 || pairs != 0))
        wrong = "a count beside a refusal";
    else if (pairs > log_len || (told && (pairs % 2 != 0 || count > budget || 2 * count < pairs)))
        wrong = "more is answered than the log or the budget holds";
    else if (!stays_but(out, log, (size_t) pairs))
        wrong = "a byte is changed that stays";
    else if (!stays_but(report, o, told ? FSQ_RUN_RESULT_LENGTH : 0))
        wrong = "a byte beside the result is changed";
    if (wrong != NULL)
        failed("fsq_run", wrong, length, log_len, out_len, answer);
    return answer;
}

/* The inline function beside the library's. Null are, by the bits of `nulls`, the image and the log, with their lengths, and the result. */
static void call_run_image(const uint8_t *bytes, size_t length, uint32_t budget, size_t log_len, unsigned nulls) {
    static uint8_t right[OUT];
    fsq_run_result_t told, *result = nulls & 4u ? NULL : (fsq_run_result_t *) lend(report, sizeof *result);
    size_t given = nulls & 1u ? 0 : length, lent = nulls & 2u ? 0 : log_len, pairs;
    uint8_t *log = nulls & 2u ? NULL : lend(out, log_len), number = fsq_run(bytes, given, budget, right, lent, told.bytes, sizeof told.bytes);
    int answer = fsq_run_image(nulls & 1u ? NULL : bytes, length, budget, log, log_len, result);
    const char *wrong = NULL;
    calls++;
    refusals += number != FSQ_DONE;
    pairs = (size_t) fsq_run_log_length(&told);
    if (read_len != given || written_len != lent)
        wrong = "other lengths than were given";
    else if (answer != -(int) number)
        wrong = "another answer than the library's";
    else if (log != NULL && (memcmp(log, right, pairs) != 0 || !stays_but(out, log, pairs)))
        wrong = "another log than the library's";
    else if (result != NULL && (memcmp(result, &told, sizeof told) != 0 || !stays_but(report, result->bytes, sizeof told)))
        wrong = "another result than the library's";
    if (wrong != NULL)
        failed("fsq_run_image", wrong, given, lent, 0, answer);
}

/* An image, whole and with a byte changed, from 0 bytes to all of them, with a log of each length that can matter. */
static void run_all(const uint8_t *bytes, size_t length) {
    static const size_t results[] = {0, 1, 15, 17, 40};
    static const uint32_t budgets[] = {0, 1, 2, 3, 7, 20, 300};
    for (size_t front = 0; front <= length; front++)
        for (int change = 0; change < 4; change++) {
            const uint8_t *at = lend_in(bytes, front, change);
            for (size_t log_len = 0; log_len < 8; log_len++) {
                /* The whole image gets a budget in which it can halt. */
                uint32_t budget = budgets[front < length || change != 0 ? below(7) : log_len % 2 + 5];
                int first = call_run(at, front, budget, log_len, FSQ_RUN_RESULT_LENGTH, -1);
                for (size_t i = 0; i < sizeof results / sizeof *results; i++)
                    call_run(at, front, budget, log_len, results[i], first);
                for (unsigned nulls = 0; nulls < 8; nulls++)
                    call_run_image(at, nulls & 1u && nulls & 4u ? 0 : front, budget, nulls & 2u && nulls & 4u ? 0 : log_len, nulls);
            }
        }
}

/* A record of so many bytes, or the header where the number is below 0, into a file of each length that can matter, and into none. */
static void write_inline(room to, int number, const uint8_t *record, size_t each) {
    size_t n = number < 0 ? FSQ_HEADER_LENGTH : each, at = number < 0 ? 0 : FSQ_HEADER_LENGTH + (size_t) number * n, end = at + n;
    for (size_t more = 0; more < 4; more++) {
        size_t length = more == 3 ? 0 : end + more - 1;
        uint8_t *file = more == 3 ? NULL : lend(to, length);
        int answer = number < 0 && each == RECORD ? fsq_write_header(file, length, 4660, 3)
            : number < 0 ? fsq_write_repeat_header(file, length, 4660, 3)
            : each == RECORD ? fsq_write_record(file, length, (uint16_t) number, (const fsq_record_t *) record)
            : fsq_write_repeat_record(file, length, (uint16_t) number, (const fsq_repeat_record_t *) record);
        int fits = length >= end;
        const char *wrong = NULL;
        calls++;
        refusals += answer < 0;
        if (answer != (fits ? (int) end : -FSQ_SLICE_TOO_SHORT))
            wrong = "another answer";
        else if (file != NULL && !stays_but(to, fits ? file + at : file, fits ? n : 0))
            wrong = "a byte is changed that stays";
        else if (fits && number >= 0 && memcmp(file + at, record, each) != 0)
            wrong = "another record";
        if (wrong != NULL)
            failed(number < 0 ? "fsq_write_header" : "fsq_write_record", wrong, length, end, 0, answer);
    }
}

/* A show of so many records of 57 bytes into a file of each length that can matter, and into none. */
static void write_show_inline(room to, const uint8_t *records, size_t count) {
    size_t each = FSQ_RECORD_LENGTH, end;
    for (size_t k = 0; k < count; k++)
        if (records[k * REPEAT + FSQ_REPEAT_AT] != 0)
            each = REPEAT;
    end = FSQ_HEADER_LENGTH + each * count;
    for (size_t more = 0; more < 4; more++) {
        size_t length = more == 3 ? 0 : end + more - 1;
        uint8_t *file = more == 3 ? NULL : lend(to, length);
        int answer = fsq_write_show(file, length, 4660, (const fsq_repeat_record_t *) records, count), fits = length >= end;
        const char *wrong = NULL;
        calls++;
        refusals += answer < 0;
        if (answer != (fits ? (int) end : -FSQ_SLICE_TOO_SHORT))
            wrong = "another answer";
        else if (file != NULL && !stays_but(to, file, fits ? end : 0))
            wrong = "a byte is changed that stays";
        for (size_t k = 0; wrong == NULL && fits && k < count; k++) {
            const uint8_t *at = file + FSQ_HEADER_LENGTH + each * k, *record = records + k * REPEAT;
            /* Of a file without repeats that byte is left out. */
            size_t gap = each == REPEAT ? 0 : 1;
            if (memcmp(at, record, FSQ_REPEAT_AT) != 0 || memcmp(at + FSQ_REPEAT_AT, record + FSQ_REPEAT_AT + gap, each - FSQ_REPEAT_AT) != 0)
                wrong = "another record";
        }
        if (wrong != NULL)
            failed("fsq_write_show", wrong, length, end, 0, answer);
    }
}

int main(int argc, char **argv) {
    static const size_t strings[] = {0, 1, 2, 3, 4, 5, 6, 7, 8, 100}, lists[] = {0, 8, 95, 96, 97, 200}, readings[] = {0, 1, 23, 24, 25};
    static const size_t lines[] = {0, 1, 63, 64, 65, 200};
    static const size_t record_lengths[] = {56, 56, 56, 57, 57, 57, 0, 1, 55, 58};
    static const uint8_t repeats[] = {0, 0xF2, 0xF3, 0xF3, 99};
    static const char *const sums[] = {
        "3*(40+2)-1", "-2147483648", "1-2147483648", "-(-(7/2)--3)*(1+(2-(3*(4/5))))", "00000000000000000000000000000000000007", "99999999999999999999",
        "((((((((((((((((1))))))))))))))))+((2))", "(((((((((((((((((1)))))))))))))))))", "1/0-----------------1", "46340*46340/46340*-1"
    };
    /* Two cues and HLT; the other forms of MOV and of JMP; pairs until the log or the budget ends. */
    static const uint8_t images[3][19] = {
        {0xB9, 3, 0, 0xE2, 0xFE, 0xB0, 1, 0xE6, 0x61, 0xB9, 2, 0, 0xE2, 0xFE, 0xB0, 0x80, 0xE6, 0x62, 0xF4},
        {0xC7, 0xC1, 2, 0, 0xC6, 0xC0, 5, 0xB4, 9, 0xE6, 0x10, 0xE2, 0xFC, 0xE9, 1, 0, 0x90, 0xE6, 0xF4},
        {0xB0, 7, 0xE6, 0x20, 0xE6, 0x21, 0xEB, 0xFA, 0xE9, 0xF5, 0xFF, 0xBC, 1, 1, 0xB5, 1, 0xE2, 0xF0, 0xF4}
    };
    static uint8_t file[WHOLE], record_57[3 * REPEAT];
    FILE *f = argc == 2 ? fopen(argv[1], "rb") : NULL;
    size_t length = f == NULL ? 0 : fread(file, 1, sizeof file, f);
    int repeated = length >= FSQ_HEADER_LENGTH && file[FSQ_HEADER_VERSION_AT] == FSQ_REPEAT_VERSION;
    size_t each_record = repeated ? REPEAT : RECORD, count = length / each_record;
    if (count == 0 || length + 16 > sizeof file) {
        fprintf(stderr, "slices: a show file is needed\n");
        return 1;
    }
    fclose(f);
    memset(untouched, LENT, sizeof untouched);
    in = fenced(WHOLE);
    out = fenced(OUT);
    report = fenced(OUT);
    image = fenced(IMAGE);
    whole = fenced(WHOLE);

    for (size_t at = FSQ_HEADER_LENGTH; at + each_record < length && count <= FSQ_SHORT_RECORDS; at += each_record)
        for (int change = 0; change < 4; change++) {
            size_t record_len = record_lengths[below(10)], bytes_len = below(9);
            const uint8_t *record;
            /* The record three times with a repeat; a string operation now and then, before which a repeat may stand. */
            for (size_t k = 0; k < 3; k++) {
                uint8_t *to = record_57 + k * REPEAT;
                memcpy(to, file + at, FSQ_REPEAT_AT);
                memcpy(to + FSQ_REPEAT_AT + 1, file + at + FSQ_REPEAT_AT + (repeated ? 1 : 0), RECORD - FSQ_REPEAT_AT);
                to[FSQ_REPEAT_AT] = repeats[change == 0 ? 0 : below(5)];
                if (below(4) == 0)
                    to[FSQ_OPERATION_AT] = (uint8_t) (FSQ_MOVSB + below(10));
            }
            record = lend_in(record_len == RECORD && !repeated ? file + at : record_57, record_len, change);
            for (size_t i = 0; i < sizeof strings / sizeof *strings; i++) {
                call_all(ENCODE, record, record_len, strings[i]);
                call_all(SHORTEST, record, record_len, strings[i]);
            }
            shortest_beside(record, record_len);
            call_all(LIST, record, record_len, lists[below(6)]);
            for (size_t i = 0; i < sizeof lines / sizeof *lines; i++)
                call_all(FORM, record, record_len, lines[i]);
            call_inline_all(ENCODE, BYTES, record, record_len, strings[below(10)]);
            call_inline_all(SHORTEST, BYTES, record, record_len, strings[below(10)]);
            call_inline_all(LIST, BYTES, record, record_len, 0);
            call_inline_all(FORM, BYTES, record, record_len, 0);
            /* Bytes that are random but for the first. */
            for (size_t i = 0; i < 8; i++)
                file[length + i] = (uint8_t) below(256);
            file[length] = (uint8_t) (at / each_record + 256 / 4 * (size_t) change);
            call_all(READ, lend_in(file + length, bytes_len, 0), bytes_len, readings[below(5)]);
            call_inline_all(READ, BYTES, lend_in(file + length, bytes_len, 0), bytes_len, 0);
            /* A repeat, and behind it nothing, a string operation or anything. */
            file[length] = below(2) ? 0xF2 : 0xF3;
            file[length + 1] = (uint8_t) (below(2) ? 0xA4 + below(12) : below(256));
            call_all(READ, lend_in(file + length, bytes_len, 0), bytes_len, readings[below(5)]);
            call_inline_all(READ, BYTES, lend_in(file + length, bytes_len, 0), bytes_len, 0);
            for (int with = 0; with < 2; with++) {
                enum taken by = with ? REPEAT : RECORD;
                record = lend_in(with || repeated ? record_57 : file + at, (size_t) by, change);
                call_inline_all(ENCODE, by, record, (size_t) by, strings[below(10)]);
                call_inline_all(SHORTEST, by, record, (size_t) by, strings[below(10)]);
                call_inline_all(LIST, by, record, (size_t) by, 0);
                call_inline_all(FORM, by, record, (size_t) by, 0);
                for (int number = -1; number < 3; number++)
                    write_inline(out, number, record, (size_t) by);
            }
            record = lend_in(record_57, sizeof record_57, 0);
            for (size_t n = 0; n <= 3; n++)
                write_show_inline(out, record, n);
        }
    for (size_t i = 0; i < sizeof sums / sizeof *sums && count <= FSQ_SHORT_RECORDS; i++)
        evaluate_all(sums[i]);
    compile_all();
    convert_all();
    for (size_t i = 0; i < 3 && count <= FSQ_SHORT_RECORDS; i++)
        run_all(images[i], sizeof images[i]);
    for (int with = 0; with < 2; with++) {
        size_t each_of = with ? REPEAT : RECORD;
        write_inline(whole, FSQ_SHORT_RECORDS, lend_in(file + FSQ_HEADER_LENGTH, each_of, 0), each_of);
        write_inline(whole, FSQ_MOST_RECORDS - 1, lend_in(file + FSQ_HEADER_LENGTH, each_of, 0), each_of);
    }
    for (int i = 0; i < 200; i++) {
        size_t file_len = i % 4 == 0 ? length : below((uint32_t) length + 8), image_len = i % 3 == 0 ? IMAGE : below((uint32_t) (FSQ_STRING_LENGTH * count));
        call_all(LOAD, lend_in(file, file_len, i % 2), file_len, image_len);
        call_inline_all(LOAD, BYTES, lend_in(file, file_len, i % 2), file_len, image_len);
        call_all(CHECK, lend_in(file, file_len, i % 2), file_len, 0);
        call_inline_all(CHECK, BYTES, lend_in(file, file_len, i % 2), file_len, 0);
    }
    printf("slices: %lu calls, %lu refused, %lu failed\n", calls, refusals, failures);
    return failures != 0 || refusals == 0 || refusals == calls;
}
