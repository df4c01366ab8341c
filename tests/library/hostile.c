/* hostile: texts of 100,000 brackets, minus signs, digits and terms through fsq_evaluate, in a thread whose stack is small: no text makes its calls nest
 * deeper than its 16 brackets. What is expected is document 02's (No. 6), by hand. */
#include "fsq.h"
#include <pthread.h>
#include <stdio.h>
#include <stdlib.h>
#include <string.h>

/* N is even. */
enum { N = 100000, STACK = 32768, PIECES = 5 };

/* A text in pieces, each so many times over; its answer, and where that is 0 its value. */
static const struct row {
    struct { const char *text; int times; } pieces[PIECES];
    int answer, value;
} rows[] = {
    /* brackets */
    {{{"(", N}}, -16, 0},
    {{{")", N}}, -16, 0},
    {{{"(", N}, {")", N}}, -16, 0},
    {{{"(", N}, {"1", 1}}, -16, 0},
    {{{"(", N}, {"1", 1}, {")", N - 1}}, -16, 0},
    {{{"(", N}, {"1", 1}, {")", N + 1}}, -16, 0},
    {{{"(", N}, {"1", 1}, {")", N}}, -17, 0},
    {{{"(", N}, {"1/0", 1}, {")", N}}, -17, 0},
    {{{"-(", N}, {"1", 1}, {")", N}}, -17, 0},
    {{{"1+(", N}, {"1", 1}, {")", N}}, -17, 0},
    {{{"2*(", N}, {"1", 1}, {")", N}}, -17, 0},
    {{{"(", N}, {"1", 1}, {"+1)", N}}, -17, 0},
    {{{"(1)*(", N}, {"1", 1}, {")", N}}, -17, 0},
    {{{"1(", N}}, -16, 0},
    {{{"()", N}}, -16, 0},
    {{{"(1)", N}}, -16, 0},
    {{{"(1)+", N}, {"(1)", 1}}, 0, N + 1},
    {{{"((((((((((((((((1))))))))))))))))+", N}, {"1", 1}}, 0, N + 1},
    {{{"((((((((((((((((1))))))))))))))))+", N}, {"(((((((((((((((((1)))))))))))))))))", 1}}, -17, 0},
    /* 1-(1-(x)) is x */
    {{{"1-(", 16}, {"1+", N}, {"1", 1}, {")", 16}}, 0, N + 1},
    {{{"1-(", 17}, {"1+", N}, {"1", 1}, {")", 17}}, -17, 0},
    /* minus signs */
    {{{"-", N}}, -16, 0},
    {{{"-", N}, {"1", 1}}, 0, 1},
    {{{"-", N + 1}, {"1", 1}}, 0, -1},
    {{{"-", N}, {"2147483647", 1}}, 0, 2147483647},
    {{{"-", N}, {"2147483648", 1}}, -18, 0},
    {{{"-", N + 1}, {"2147483648", 1}}, -18, 0},
    {{{"-", N + 1}, {"(", 16}, {"7", 1}, {")", 16}}, 0, -7},
    {{{"-", N}, {"(", 17}, {"7", 1}, {")", 17}}, -17, 0},
    /* the first of them subtracts */
    {{{"1", 1}, {"-", N}, {"1", 1}}, 0, 2},
    {{{"1", 1}, {"-", N + 1}, {"1", 1}}, 0, 0},
    {{{"-", N}, {"+1", 1}}, -16, 0},
    /* digits */
    {{{"9", N}}, -18, 0},
    {{{"1", 1}, {"0", N}}, -18, 0},
    {{{"0", N}}, 0, 0},
    {{{"0", N}, {"7", 1}}, 0, 7},
    {{{"-", 1}, {"0", N}, {"2147483648", 1}}, 0, -2147483647 - 1},
    {{{"0", N}, {"2147483648", 1}}, -18, 0},
    {{{"1", N}, {"x", 1}}, -16, 0},
    /* terms and factors */
    {{{"1+", N}, {"1", 1}}, 0, N + 1},
    {{{"1-", N}, {"1", 1}}, 0, 1 - N},
    {{{"1*", N}, {"7", 1}}, 0, 7},
    {{{"-1*", N}, {"7", 1}}, 0, 7},
    {{{"7", 1}, {"/1", N}}, 0, 7},
    {{{"2*", N}, {"1", 1}}, -18, 0},
    {{{"2*3-", N}, {"1", 1}}, 0, 6 - 6 * (N - 1) - 1},
    {{{"1+", N}}, -16, 0},
    {{{"1+", N}, {"1/0", 1}}, -18, 0},
    {{{"1/0+", N}, {"1", 1}}, -18, 0},
    {{{"1/0+", N}}, -16, 0},
    {{{"1+", N}, {"1)", 1}}, -16, 0},
    {{{"1+1)", N}}, -16, 0},
    {{{"+", N}}, -16, 0},
    {{{" ", N}}, -16, 0},
    {{{"1+", N}, {" 1", 1}}, -16, 0}
};

static int failures;

static void try_row(const struct row *row) {
    size_t length = 0, at = 0, piece;
    char *text;
    int32_t value = 12345;
    int answer, i;
    for (piece = 0; piece < PIECES && row->pieces[piece].times > 0; piece++)
        length += strlen(row->pieces[piece].text) * (size_t) row->pieces[piece].times;
    text = malloc(length);
    if (text == NULL) {
        perror("hostile");
        exit(1);
    }
    for (piece = 0; piece < PIECES && row->pieces[piece].times > 0; piece++)
        for (i = 0; i < row->pieces[piece].times; i++) {
            memcpy(text + at, row->pieces[piece].text, strlen(row->pieces[piece].text));
            at += strlen(row->pieces[piece].text);
        }
    answer = fsq_evaluate_text(text, length, &value);
    free(text);
    if (answer != row->answer || value != (answer == 0 ? row->value : 12345)) {
        failures++;
        printf("hostile: row %d (%s..) answers %d with %d, and not %d with %d\n", (int) (row - rows), row->pieces[0].text, answer, (int) value, row->answer, row->value);
    }
}

static void *try_rows(void *unused) {
    size_t i;
    for (i = 0; i < sizeof rows / sizeof *rows; i++)
        try_row(&rows[i]);
    return unused;
}

int main(void) {
    pthread_attr_t attributes;
    pthread_t thread;
    if (pthread_attr_init(&attributes) != 0 || pthread_attr_setstacksize(&attributes, STACK) != 0
        || pthread_create(&thread, &attributes, try_rows, NULL) != 0 || pthread_join(thread, NULL) != 0) {
        printf("hostile: no thread\n");
        return 1;
    }
    printf("hostile: %d texts on a stack of %d bytes, %d failed\n", (int) (sizeof rows / sizeof *rows), STACK, failures);
    return failures != 0;
}
