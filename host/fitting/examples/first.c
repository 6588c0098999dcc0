/*
 * Prints the first full set of a book, if so many tries tell:
 *
 *     cc -std=c99 -Iinclude examples/first.c ../../target/staticlib/libservice.a -o first
 *     ./first ../../books/harbour.bin 1000
 *
 * The exit status is 0 if there is a set or there is none, 3 if that isn't decided yet, 1 if the book or
 * the limit is refused, or 2 if the words can't be read.
 */
#include "fitting.h"
#include <stdio.h>
#include <stdlib.h>

static uint8_t book[FITTING_LONGEST_BOOK + 1]; /* one more, so that a longer file is refused */

int main(int argc, char **argv)
{
    FILE *file = argc == 3 ? fopen(argv[1], "rb") : NULL;
    unsigned long limit = argc == 3 ? strtoul(argv[2], NULL, 10) : 0;
    if (file == NULL || limit == 0 || limit > UINT32_MAX) {
        fprintf(stderr, "name a book file and a limit, 1 to %d\n", FITTING_MOST_TRIES);
        return 2;
    }
    size_t length = fread(book, 1, sizeof book, file);
    fclose(file);
    uint8_t order[8] = {4, 0, 0, 0, 0, 0, 0, 0};
    for (int i = 0; i < 4; i++)
        order[4 + i] = (uint8_t)(limit >> 8 * i);
    uint8_t answers[FITTING_SPACE(1)];
    uint64_t run = fitting_run(book, length, order, sizeof order, answers, sizeof answers);
    if (FITTING_REFUSAL(run) != 0) {
        printf("refusal %d, place %d\n", (int)FITTING_REFUSAL(run), (int)FITTING_PLACE(run));
        return 1;
    }
    const uint8_t *answer = answers + 72;
    switch (answer[3]) {
    case FITTING_FOUND:
        for (int c = 0; c < book[4]; c++)
            for (int v = 0; v < 32; v++)
                if (answer[8 + 4 * c + v / 8] >> v % 8 & 1)
                    printf("column %d: %d\n", c, v);
        return 0;
    case FITTING_NONE:
        printf("no full set\n");
        return 0;
    case FITTING_STOPPED:
        printf("not decided yet, tries: %d\n", FITTING_TRIES(answer));
        return 3;
    default:
        printf("refusal %d\n", answer[0]);
        return 1;
    }
}
