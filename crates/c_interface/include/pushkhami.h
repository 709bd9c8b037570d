/*
 * When can a timed automaton be where? The earliest time of each position, exactly: C functions of the static library
 * `libc_interface.a`, which `rt lib` makes in crates/c_interface as out/libc_interface.a.
 *
 * What a row, a position, a kind of states and each answer are: docs/FORMAT.md and docs/MODEL.md.
 *
 * PROVED, of every call that keeps the duties below: the functions return; they read and write nothing but the arrays that they were
 * given; each result, and each reply that was written, says what this header says of it. The proofs are about the functions of
 * crates/c_interface/src/exports.rt. That this header declares them as they are is not proved, and nothing checks a caller.
 *
 * WHAT A CALLER OWES, since nothing here can test it; where a duty is broken, nothing is promised:
 *
 * - An array is a pointer and then a length. The length counts elements (numbers, words or replies), not bytes, and all of them must be
 *   there: a length above what the array has is not noticed. An array has at most 2^63 - 1 bytes.
 * - Pointers are aligned: to 4 for `uint32_t`, to 8 for `struct pushkhami_reply`.
 * - No array of one call overlaps another of the same call, in part or as a whole, unless both are only read.
 * - A null pointer must not be given with a length that is not 0. With the length 0 nothing is read or written through the pointer, and
 *   null does no harm: that is tested, not proved, since in the proofs an array is never at null.
 * - During a call no other thread writes to what it reads, nor reads or writes what it writes. Calls with other arrays may run side by
 *   side: there is no state outside of the arrays. A call takes no lock, allocates nothing and calls nothing but `memset`.
 * - Lent words may hold anything, but must hold something: memory that no one wrote yet is given by `calloc` or filled first.
 * - There are 16 KiB of stack. How long a call takes no proof says.
 * - The names that begin with `pushkhami_` mean these functions alone in the program.
 * - The processor has what x86-64-v2 has (SSE4.2). Nothing tests it.
 */
#ifndef PUSHKHAMI_H
#define PUSHKHAMI_H

#include <stddef.h>
#include <stdint.h>

#ifdef __cplusplus
extern "C" {
#endif

/* What is told of a position (`kind` of a reply), and of an exploration (`outcome`). */
enum {
    PUSHKHAMI_EXPLORED = 0,     /* of an exploration: every position has its reply */
    PUSHKHAMI_AT = 1,           /* the position is come to at `time`, and not before */
    PUSHKHAMI_AFTER = 2,        /* it is come to as soon after `time` as one likes, and not at `time` or before */
    PUSHKHAMI_NEVER = 3,        /* it is never come to */
    PUSHKHAMI_MANY = 4,         /* there are more kinds of states than allowed */
    PUSHKHAMI_FEW = 5,          /* too few words were lent: fewer than pushkhami_words says, and only then */
    PUSHKHAMI_NO_CLOCKWORK = 6, /* the row is no clockwork's */
    PUSHKHAMI_NO_POSITION = 7,  /* of a reply: the clockwork has no such position */
    PUSHKHAMI_FEW_REPLIES = 8   /* of an exploration: fewer replies were lent than the clockwork has positions */
};

/* What is told of a position. time: the time of AT and AFTER, and 0 with any other kind. */
struct pushkhami_reply {
    uint32_t kind;
    uint64_t time;
};

/*
 * What came of an exploration. positions: how many the clockwork has, with EXPLORED, MANY and FEW_REPLIES, and else 0.
 * kinds: with EXPLORED the clockwork has no more kinds of states than so many, and so many were allowed; else 0. (That it has no fewer is
 * so, but no clause of this function says it.)
 */
struct pushkhami_exploration {
    uint32_t outcome;
    uint32_t positions;
    size_t kinds;
};

/*
 * How many words must be lent for a row of so many numbers, where so many kinds of states are allowed: 65536 + 8 * row + 256 * kinds,
 * and 0 where that is 2^64 or more. A word has 4 bytes.
 */
size_t pushkhami_words(size_t row, uint32_t kinds);

/*
 * When the clockwork of a row can be at a position: one of AT, AFTER, NEVER, MANY, FEW, NO_CLOCKWORK and NO_POSITION. There is one right
 * reply for the arguments and the number of lent words, and what the words hold has no part in it.
 *
 *   clockwork, row    the row, and how many numbers it has; read, not written
 *   position          the number of the position, from 0
 *   kinds             how many kinds of states are allowed
 *   work, words       the lent words, and how many they are; read and written: they hold anything before, and anything after
 *
 * Which is told where several would do: FEW before NO_CLOCKWORK, that before NO_POSITION, that before MANY.
 */
struct pushkhami_reply pushkhami_ask(const uint32_t *clockwork, size_t row, size_t position, uint32_t kinds,
                                     uint32_t *work, size_t words);

/*
 * When the clockwork of a row can be at each of its positions, by one exploration: one of EXPLORED, MANY, FEW, NO_CLOCKWORK and
 * FEW_REPLIES.
 *
 *   clockwork, row    as above
 *   kinds             as above
 *   work, words       as above
 *   replies, places   the replies, and how many there is room for; written with EXPLORED alone
 *
 * EXPLORED: the reply at place p, for each p below `positions`, is AT, AFTER or NEVER, and right of position p; there are no more kinds of
 * states than allowed; the replies from `positions` on are as they were. With every other outcome all replies are as they were.
 * 256 places are enough for any row. FEW is told before NO_CLOCKWORK, that before FEW_REPLIES, that before MANY.
 */
struct pushkhami_exploration pushkhami_explore(const uint32_t *clockwork, size_t row, uint32_t kinds,
                                               uint32_t *work, size_t words,
                                               struct pushkhami_reply *replies, size_t places);

#ifdef __cplusplus
}
#endif

#endif
