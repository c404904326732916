/* The stepping bench for oven lanes, as C sees it: a run book in, its listing out. */
#ifndef LUMBAGYOT_H
#define LUMBAGYOT_H

#include <stddef.h>
#include <stdint.h>

#ifdef __cplusplus
extern "C" {
#endif

/* The longest book that is not refused, in bytes. */
#define BENCH_LONGEST_BOOK 65536

/* A place of this many bytes is long enough for the listing of any book. */
#define BENCH_PLACE 38000

/*
 * Runs the book and writes its listing at the start of the place.
 *
 * Answers the listing's length in bytes. A listing is ASCII text; no NUL ends it. If the place is too short for
 * the whole listing, nothing is written and the answer is 0. A book that is refused has a listing too: its last
 * line holds the refusal's number and the byte of the book that it points to. So 0 always means a short place.
 *
 * Neither pointer may be NULL, also where its length is 0, and the two must not overlap. The book is not written
 * to, and the place not beyond its length. The call allocates nothing, keeps nothing for the next one, and always
 * ends; threads may make it at the same time.
 */
size_t bench_listing(const uint8_t *book, size_t book_len, uint8_t *place, size_t place_len);

#ifdef __cplusplus
}
#endif

#endif
