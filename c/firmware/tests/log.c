// SPDX-License-Identifier: MIT OR Apache-2.0
/* A log in C: words outlive cuts, a compaction is all or nothing, and each refusal has its status. */
#include "played_flash.h"

void wz_panic(void) { abort(); }

static played_flash flash;
static wz_log words_log;
static uint32_t found[600];

static int start(void) {
    wz_flash table = table_of(&flash);
    return wz_log_start(&words_log, &table);
}

static int is_even(void *context, uint32_t word) {
    NEEDS(wz_log_push(context, 1) == WZ_BUSY);
    return word % 2 == 0;
}

static void stores_and_refuses(void) {
    static uint32_t many[512];
    blank(&flash);
    NEEDS(start() == WZ_OK && wz_log_push(&words_log, 5) == WZ_NO_ROOM && wz_log_state(&words_log) == 0);
    NEEDS(wz_log_rewrite(&words_log, many, 512) == WZ_LENGTH && wz_log_rewrite(&words_log, NULL, 0) == WZ_OK);
    for (uint32_t word = 1; word <= 511; word++)
        NEEDS(wz_log_push(&words_log, word) == WZ_OK);
    NEEDS(wz_log_push(&words_log, 5) == WZ_NO_ROOM && wz_log_words(&words_log, found, 600) == 511 && found[510] == 511);
    NEEDS(wz_log_words(&words_log, NULL, 0) == 511);
    NEEDS(wz_log_rewrite_with(&words_log, is_even, &words_log) == WZ_OK && wz_log_words(&words_log, found, 600) == 255);
    NEEDS(found[0] == 2 && wz_log_state(&words_log) == WZ_LOG_ROOM);
    NEEDS(wz_log_append(&words_log, 9) == WZ_OK && wz_log_append(&words_log, 9) == WZ_NOT_NOW);
    NEEDS(wz_log_state(&words_log) == (WZ_LOG_BUSY | WZ_LOG_ROOM) && wz_log_step(&words_log) == 2 && wz_log_step(&words_log) == 0);
    NEEDS(wz_log_turn(&words_log) == WZ_OK && wz_log_copy(&words_log, 7) == WZ_OK && wz_log_copy(&words_log, 7) == WZ_NOT_NOW);
    while (!(wz_log_state(&words_log) & WZ_LOG_WANTS))
        NEEDS(wz_log_step(&words_log) == 1);
    NEEDS(wz_log_end_copies(&words_log) == WZ_OK && wz_log_step(&words_log) == 2);
    NEEDS(wz_log_words(&words_log, found, 600) == 1 && found[0] == 7);
    memset(flash.cells[1][0], 0, WZ_SLOT_BYTES);
    memset(flash.cells[0][0], 0, WZ_SLOT_BYTES);
    NEEDS(start() == WZ_OK && wz_log_push(&words_log, 5) == WZ_UNSOUND && wz_log_state(&words_log) & WZ_LOG_UNSOUND);
    NEEDS(wz_log_format(&words_log) == WZ_OK && wz_log_state(&words_log) == 0);
}

/* Words that count up, some lost to cuts and none that was answered Ok. */
static void outlives_cuts(int wanted) {
    uint32_t next = 1, chance = 1;
    int cuts = 0;
    blank(&flash);
    NEEDS(start() == WZ_OK && wz_log_rewrite(&words_log, NULL, 0) == WZ_OK);
    while (cuts < wanted) {
        int count = wz_log_words(&words_log, found, 600), done;
        if (flash.cut < 0)
            flash.cut = (long)((chance = chance * 1664525u + 1013904223u) >> 25);
        done = count < 300 ? wz_log_push(&words_log, next) : wz_log_rewrite(&words_log, found + count - 20, 20);
        if (count < 300 && done == WZ_OK)
            next++;
        NEEDS(done == WZ_OK || (done == WZ_FAULT && flash.is_off) || (done == WZ_NO_ROOM && count < 300));
        if (done == WZ_NO_ROOM)
            NEEDS(wz_log_rewrite(&words_log, found + count - 20, 20) == WZ_OK || flash.is_off);
        if (!flash.is_off)
            continue;
        cuts++;
        power(&flash);
        memset(&words_log, 0, sizeof words_log);
        NEEDS(start() == WZ_OK);
        count = wz_log_words(&words_log, found, 600);
        NEEDS(next == 1 || (count > 0 && (found[count - 1] == next || found[count - 1] == next - 1)));
        for (int at = 1; at < count; at++)
            NEEDS(found[at] == found[at - 1] + 1);
        next = count > 0 ? found[count - 1] + 1 : 1;
    }
}

int main(int count, char **words) {
    stores_and_refuses();
    outlives_cuts(count > 1 ? atoi(words[1]) : 400);
    puts("a log keeps its words through cuts, and refuses by name");
    return 0;
}
