/* Slices lent to the engine, and the mark, as a slice of one element. The archive is compiled
 * without sanitizers, so AddressSanitizer doesn't see what it reads and writes. Each slice
 * therefore stands at a page that can't be touched: its last element before one, or its first
 * element behind one. An access past that end stops the program; bytes at the other end are
 * compared after the call. Beside each slice stands a copy, with what the call is to leave. */
#ifndef LENT_H
#define LENT_H

#include <stdbool.h>
#include <stddef.h>

/* How many there are, and the bytes of the longest: words of four bytes, for 147 ids for each of
 * 65,536 vertices and what is packed beside them. */
enum { LENT_MAX = 11, LENT_BYTES = 56 << 20 };

/* Of a far slice the last so many elements can be touched; it has so many at most. */
#define FAR_TOUCHED ((size_t)1 << 14)
#define FAR_MAX (((size_t)1 << 32) + FAR_TOUCHED)

typedef struct lent {
    void *at;       /* what the engine gets; never null */
    void *expected; /* as long, in a place of its own */
    size_t length;  /* in elements */
} lent;

/* Makes slice `which` (below LENT_MAX), with `from` as its content; of length 0 it is a pointer
 * that can't be read. `behind`: the first element behind the page, and not the last one before it.
 */
lent lend(int which, const void *from, size_t length, size_t size, bool behind);

/* Makes slice `which` of FAR_TOUCHED to FAR_MAX elements of four bytes, with `from` as the content
 * of the last FAR_TOUCHED. Those before can't be read or written, nor can their copy. */
lent lend_far(int which, const void *from, size_t length);

/* Whether slice `which` is what its copy says, byte for byte, and the bytes about it are untouched.
 * A NaN too keeps its bits: no call writes one that it has worked out, and what is moved stays. */
bool as_expected(int which);

/* The same for scratch after an accepted call: its first `used` elements are free. */
bool as_expected_from(int which, size_t used);

#endif
