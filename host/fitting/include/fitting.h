/* The fitting service for programs in C and C++: two calls, in libservice.a. */
#ifndef FITTING_H
#define FITTING_H

#include <stddef.h>
#include <stdint.h>

#ifdef __cplusplus
extern "C" {
#endif

/*
 * A call gives one number: below 65536 the accepted figure, otherwise refusal * 65536 + place.
 *
 * It takes any bytes, as many at each pointer as the length after it says, and reads and writes no
 * others. Give a pointer that isn't null even with length 0. Nothing is allocated and nothing kept, so
 * threads may call as they like.
 */

/*
 * Checks a book, and writes nothing. Accepted: columns * 16 + sheets. Refused: 1 to 7.
 *
 * The place of 5, a row value that is too large, and of 6, a byte of a row that must be zero and isn't, is
 * the offset of the first such byte in the book, divided by 4. A row has 4 bytes, so this is a row: row
 * place % 128 of block place / 128, both counted from 0. Block 0 is the head; after it each sheet in turn
 * has its blocks, with 127 rows in each. 255 in the place of a value is not too large: it stands for all
 * values of its column.
 *
 * A sheet whose width byte has FITTING_FORBIDDEN added, 129 to 132 for a width of 1 to 4, is a forbidden one:
 * it allows what isn't among its rows. These rise strictly, compared byte by byte with memcmp, and 255 is too
 * large there. The place of 7, rows that don't rise, is that of the first row which is not above the one
 * before it in its sheet; it is given only where no byte of a row is wrong.
 */
uint64_t fitting_check(const uint8_t *book, size_t book_len);

/*
 * Runs a list of orders over a book. Accepted: the number of accepted orders. Refused: as the book is,
 * or 10 (the orders' length), or 11 (the answers' length; the place is the length needed).
 *
 * An order, at most FITTING_MOST_ORDERS of them:
 *
 *      byte 0   byte 1     2, 3   4 to 7
 *     +-------+----------+------+--------------------------+     1 narrow: column, mask of the values that
 *     | kind  | argument | zero | mask or limit, low first |       may stay; 2 mark; 3 back: mark; 4 finish:
 *     +-------+----------+------+--------------------------+       zero, limit of its tries
 *
 * An answer; the first is the opening, then comes one for each order:
 *
 *      byte 0    1        2       3        4      5      6, 7               8 to 71
 *     +---------+--------+-------+--------+------+------+------------------+----------------------------+
 *     | refusal | status | depth | finish | done | zero | tries, low first | 16 domains of 4, low first |
 *     +---------+--------+-------+--------+------+------+------------------+----------------------------+
 *
 * The refusal is 0, 20 to 25 or 27; the status 0 dead, 1 open, 2 decided; the finish 0, or 1 found, 2 none,
 * 3 stopped. Bit v of a domain is set where value v is left.
 *
 * The limit of a finish is 1 to FITTING_MOST_TRIES; 0 is read as FITTING_MOST_TRIES, and a larger one is
 * refused with 27. A try sets one value on the lowest column that has several, and settles. A finish is
 * stopped exactly when it needs more tries than its limit: there may be a full set, or none, so never show it
 * as none. Ask again with a larger limit, which never changes found or none, nor the full set. Bytes 6 and 7
 * have the tries made, when stopped the limit; they are zero in every answer that isn't an accepted finish's.
 * The domains after a finish are the full set, or zeros for none and for stopped.
 *
 * Bit s of done is set where sheet s is done: the status isn't 0, and the sheet allows every choice of one
 * value left in each of its columns. A page may then hide the sheet's questions, also where several of its
 * columns are open. Status and finish don't go by it. After a finish it is said of the session, as the
 * status is, and not of the full set.
 *
 * A refused run writes nothing, an accepted one only its answers. The answers must not overlap the book
 * or the orders.
 */
uint64_t fitting_run(const uint8_t *book, size_t book_len, const uint8_t *orders, size_t orders_len,
                     uint8_t *answers, size_t answers_len);

/* Of a number: its refusal, 0 if it is an accepted figure, and the place. */
#define FITTING_REFUSAL(number) ((uint64_t)(number) / 65536)
#define FITTING_PLACE(number) ((uint64_t)(number) % 65536)

/* The bytes that the answers to so many orders need. */
#define FITTING_SPACE(orders) (72 * ((size_t)(orders) + 1))

/* What is added to the width byte of a forbidden sheet. */
#define FITTING_FORBIDDEN 128

/* What byte 3 says of an accepted finish. */
#define FITTING_FOUND 1
#define FITTING_NONE 2
#define FITTING_STOPPED 3

/* The tries in an answer's 72 bytes. */
#define FITTING_TRIES(answer) ((answer)[6] + 256 * (answer)[7])

/* The most orders of a list, the bytes of the longest book, and the largest limit of a finish. */
#define FITTING_MOST_ORDERS 256
#define FITTING_LONGEST_BOOK 16896
#define FITTING_MOST_TRIES 65535

#ifdef __cplusplus
}
#endif

#endif
