/* The bell from C: what `pushkhami.h` promises, tried by a C compiler. Exits with the number of the first check that fails, or 0. */
#include "pushkhami.h"

#include <stdio.h>
#include <stdlib.h>

static const uint32_t bell[15] = {1, 2, 1, 0, 0, 3, 0, 0, 1, 1, 0, 3, 2, 1, 0};

int main(void) {
    const uint32_t kinds = 16;
    const size_t row = sizeof bell / sizeof *bell;
    const size_t words = pushkhami_words(row, kinds);
    if (words != 65536 + 8 * row + 256 * kinds) return 1;
    if (pushkhami_words(SIZE_MAX, kinds) != 0) return 2;

    uint32_t *work = malloc(words * sizeof *work);
    if (work == NULL) return 3;
    for (size_t i = 0; i < words; i++) work[i] = 0xDEADBEEF;

    struct pushkhami_reply struck = pushkhami_ask(bell, row, 1, kinds, work, words);
    if (struck.kind != PUSHKHAMI_AFTER || struck.time != 2) return 4;
    if (pushkhami_ask(bell, row, 2, kinds, work, words).kind != PUSHKHAMI_NO_POSITION) return 5;
    if (pushkhami_ask(bell, row, 0, 1, work, words).kind != PUSHKHAMI_MANY) return 6;
    if (pushkhami_ask(bell, row, 0, kinds, work, words - 1).kind != PUSHKHAMI_FEW) return 7;
    if (pushkhami_ask(bell, row - 1, 0, kinds, work, words).kind != PUSHKHAMI_NO_CLOCKWORK) return 8;

    struct pushkhami_reply replies[3] = {{99, 99}, {99, 99}, {99, 99}};
    struct pushkhami_exploration all = pushkhami_explore(bell, row, kinds, work, words, replies, 1);
    if (all.outcome != PUSHKHAMI_FEW_REPLIES || all.positions != 2 || replies[0].kind != 99) return 9;
    all = pushkhami_explore(bell, row, kinds, work, words, replies, 3);
    if (all.outcome != PUSHKHAMI_EXPLORED || all.positions != 2 || all.kinds == 0 || all.kinds > kinds) return 10;
    if (replies[0].kind != PUSHKHAMI_AT || replies[0].time != 0) return 11;
    if (replies[1].kind != PUSHKHAMI_AFTER || replies[1].time != 2) return 12;
    if (replies[2].kind != 99 || replies[2].time != 99) return 13;

    /* null with the length 0 */
    if (pushkhami_ask(NULL, 0, 0, kinds, work, words).kind != PUSHKHAMI_NO_CLOCKWORK) return 14;
    if (pushkhami_ask(bell, row, 0, kinds, NULL, 0).kind != PUSHKHAMI_FEW) return 15;
    all = pushkhami_explore(bell, row, kinds, work, words, NULL, 0);
    if (all.outcome != PUSHKHAMI_FEW_REPLIES || all.positions != 2) return 16;

    free(work);
    puts("the bell is struck after 2, as C is told");
    return 0;
}
