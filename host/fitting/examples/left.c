/*
 * Prints the values that are left in each column of a book when some columns have their value:
 *
 *     cc -std=c99 -Iinclude examples/left.c ../../target/staticlib/libservice.a -o left
 *     ./left ../../books/harbour.bin 2 0
 *
 * After the book come pairs of a column and its value. The exit status is 0, or 1 if the book or an
 * order is refused, or 2 if the words can't be read.
 */
#include "fitting.h"
#include <stdio.h>
#include <stdlib.h>

static uint8_t book[FITTING_LONGEST_BOOK + 1]; /* one more, so that a longer file is refused */
static uint8_t orders[8 * FITTING_MOST_ORDERS];
static uint8_t answers[FITTING_SPACE(FITTING_MOST_ORDERS)];

/* A number up to most; above it where the word is something else. */
static unsigned long number(const char *word, unsigned long most)
{
    char *end;
    unsigned long read = strtoul(word, &end, 10);
    return *word >= '0' && *word <= '9' && *end == '\0' && read <= most ? read : most + 1;
}

/* Narrow a column to one value. */
static int narrow(uint8_t *order, const char *column, const char *value)
{
    unsigned long c = number(column, 255), v = number(value, 31);
    if (c > 255 || v > 31)
        return 0;
    order[0] = 1;
    order[1] = (uint8_t)c;
    order[4 + v / 8] = (uint8_t)(1u << v % 8);
    return 1;
}

static void print_left(const uint8_t *answer, int columns)
{
    for (int c = 0; c < columns; c++) {
        printf("column %d:", c);
        for (int v = 0; v < 32; v++)
            if (answer[8 + 4 * c + v / 8] >> v % 8 & 1)
                printf(" %d", v);
        printf("\n");
    }
}

int main(int argc, char **argv)
{
    FILE *file = argc > 1 ? fopen(argv[1], "rb") : NULL;
    size_t count = argc > 1 ? (size_t)(argc - 2) / 2 : 0;
    if (file == NULL || argc % 2 != 0 || count > FITTING_MOST_ORDERS) {
        fprintf(stderr, "name a book file, then pairs of a column and a value\n");
        return 2;
    }
    size_t length = fread(book, 1, sizeof book, file);
    fclose(file);
    for (size_t i = 0; i < count; i++)
        if (!narrow(orders + 8 * i, argv[2 + 2 * i], argv[3 + 2 * i])) {
            fprintf(stderr, "a column is 0 to 255, a value 0 to 31\n");
            return 2;
        }
    uint64_t run = fitting_run(book, length, orders, 8 * count, answers, sizeof answers);
    if (FITTING_REFUSAL(run) != 0) {
        printf("refusal %d, place %d\n", (int)FITTING_REFUSAL(run), (int)FITTING_PLACE(run));
        return 1;
    }
    for (size_t i = 1; i <= count; i++)
        if (answers[72 * i] != 0)
            printf("order %d: refusal %d\n", (int)i, answers[72 * i]);
    print_left(answers + 72 * count, book[4]);
    return run < count;
}
