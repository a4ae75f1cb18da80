// SPDX-License-Identifier: MIT OR Apache-2.0
/* Settings in C, on flash in RAM and on one with units written once: what was stored outlives cuts, and each refusal has its status. */
#include "played_flash.h"

void wz_panic(void) { abort(); }

static played_flash flash;
static wz_settings settings;
static wz_paired paired;
static wz_flash table;
static uint8_t units[2][1024][8];

static int start(void) { return wz_settings_start(&settings, &table); }

static int set(uint16_t id, const char *text) { return wz_settings_set(&settings, id, (const uint8_t *)text, strlen(text)); }

static int is(uint16_t id, const char *text) {
    uint8_t bytes[WZ_SETTING_BYTES];
    int length = wz_settings_get(&settings, id, bytes, sizeof bytes);
    return length == (int)strlen(text) && memcmp(bytes, text, (size_t)length) == 0;
}

static void stores_and_refuses(void) {
    uint8_t bytes[65] = {0};
    uint16_t id = 0;
    wz_change_memory memory[2];
    wz_change changes[2] = {{(const uint8_t *)"home", 1, 4}, {NULL, 7, WZ_REMOVE}};
    NEEDS(start() == WZ_OK && wz_settings_get(&settings, 7, bytes, 64) == WZ_ABSENT && wz_settings_room_left(&settings) == 511);
    NEEDS(set(7, "my network") == WZ_OK && is(7, "my network") && set(0xffff, "") == WZ_OK && is(0xffff, ""));
    NEEDS(wz_settings_get(&settings, 7, bytes, 9) == WZ_ROOM && bytes[0] == 0);
    NEEDS(wz_settings_set(&settings, 7, bytes, 65) == WZ_TOO_LONG && is(7, "my network"));
    NEEDS(wz_settings_next(&settings, 0, &id, bytes, 64) == 10 && id == 7);
    NEEDS(wz_settings_next(&settings, 8, &id, bytes, 64) == 0 && id == 0xffff);
    NEEDS(wz_settings_next(&settings, 0x10000, &id, bytes, 64) == WZ_ABSENT);
    NEEDS(wz_settings_transaction(&settings, changes, 2, NULL) == WZ_NULL && is(7, "my network"));
    NEEDS(wz_settings_transaction(&settings, changes, 2, memory) == WZ_OK && is(1, "home"));
    NEEDS(wz_settings_get(&settings, 7, bytes, 64) == WZ_ABSENT && wz_settings_compact(&settings) == WZ_OK && is(1, "home"));
    changes[0].length = 65;
    NEEDS(wz_settings_transaction(&settings, changes, 2, memory) == WZ_TOO_LONG && wz_settings_remove(&settings, 1) == WZ_OK);
    for (uint16_t number = 0; number < 22; number++)
        NEEDS(wz_settings_set(&settings, number, bytes, 64) == WZ_OK);
    NEEDS(wz_settings_set(&settings, 22, bytes, 64) == WZ_FULL && wz_settings_room_left(&settings) == 4);
    NEEDS(wz_settings_format(&settings, &table) == WZ_OK && wz_settings_room_left(&settings) == 511);
    static union { wz_log log; wz_settings settings; } one;
    NEEDS(wz_log_start(&one.log, &table) == WZ_OK && wz_settings_room_left(&one.settings) == WZ_NOT_STARTED);
}

/* A network, a certificate, a counter and a migration on all pages. */
static void stores_on_all_pages(void) {
    static uint8_t certificate[900], bytes[WZ_STORE_BYTES + 1];
    blank(&flash);
    for (size_t at = 0; at < sizeof certificate; at++)
        certificate[at] = (uint8_t)(at * 7);
    NEEDS(wz_store_length(&table, 1) == WZ_ABSENT && wz_store_set(&table, 1, (const uint8_t *)"home", 4) == WZ_OK);
    NEEDS(wz_store_set(&table, 2, certificate, sizeof certificate) == WZ_OK && wz_store_length(&table, 2) == 900);
    for (uint8_t count = 0; count < 200; count++)
        NEEDS(wz_store_set(&table, 3, &count, 1) == WZ_OK);
    const wz_change migration[3] = {{(const uint8_t *)"home", 4, 4}, {NULL, 1, WZ_REMOVE}, {(const uint8_t *)"1", 0, 1}};
    flash.cut = 2;
    NEEDS(wz_store_transaction(&table, migration, 3) == WZ_FAULT && flash.is_off);
    power(&flash);
    NEEDS(wz_store_length(&table, 0) == WZ_ABSENT && wz_store_length(&table, 1) == 4);
    NEEDS(wz_store_transaction(&table, migration, 3) == WZ_OK && wz_store_length(&table, 1) == WZ_ABSENT);
    NEEDS(wz_store_get(&table, 4, bytes, 4) == 4 && memcmp(bytes, "home", 4) == 0 && wz_store_get(&table, 3, bytes, 1) == 1 && *bytes == 199);
    uint16_t ids[4];
    NEEDS(wz_store_ids(&table, ids, 3) == WZ_ROOM && wz_store_ids(&table, ids, 4) == 4);
    NEEDS(ids[0] + ids[1] + ids[2] + ids[3] == 0 + 2 + 3 + 4);
    NEEDS(wz_store_get(&table, 2, bytes, 899) == WZ_ROOM && wz_store_get(&table, 2, bytes, 900) == 900);
    NEEDS(memcmp(bytes, certificate, sizeof certificate) == 0 && wz_store_set(&table, 5, bytes, 1025) == WZ_TOO_LONG);
    NEEDS(wz_store_set(&table, 5, bytes, 1024) == WZ_FULL && wz_store_transaction(&table, migration, 17) == WZ_LENGTH);
    NEEDS(wz_store_remove(&table, 2) == WZ_OK && wz_store_set(&table, 5, bytes, 1024) == WZ_OK);
    NEEDS(wz_settings_start(&settings, &table) == WZ_OK && wz_store_format(&table) == WZ_OK && wz_store_length(&table, 5) == WZ_ABSENT);
    NEEDS(wz_settings_format(&settings, &table) == WZ_OK && set(1, "old") == WZ_OK);
    NEEDS(wz_store_set(&table, 1, bytes, 1) == WZ_FOREIGN && is(1, "old") && wz_store_length(NULL, 1) == WZ_NULL);
}

/* Two values that are to differ by one at most, in a transaction each, and one that counts up. */
static void outlives_cuts(int count) {
    uint32_t next = 1, chance = 1;
    uint8_t bytes[64] = {0}, other[64];
    for (int cuts = 0; cuts < count;) {
        uint8_t value = (uint8_t)next;
        wz_change_memory memory[2];
        const wz_change both[2] = {{&value, 1, 1}, {&value, 2, 1}};
        int done;
        if (flash.cut < 0)
            flash.cut = (long)((chance = chance * 1664525u + 1013904223u) >> 26);
        done = next % 16 == 0 ? wz_settings_transaction(&settings, both, 2, memory) : wz_settings_set(&settings, 3, &value, 1);
        NEEDS(done == WZ_OK || (done == WZ_FAULT && flash.is_off));
        if (done == WZ_OK && next % 16 == 0)
            NEEDS(wz_settings_set(&settings, 3, &value, 1) == WZ_OK || flash.is_off);
        if (done == WZ_OK)
            next++;
        if (!flash.is_off)
            continue;
        cuts++;
        power(&flash);
        memset(&settings, 0, sizeof settings);
        NEEDS(start() == WZ_OK);
        int length = wz_settings_get(&settings, 1, bytes, 64);
        NEEDS(length == wz_settings_get(&settings, 2, other, 64) && (length == WZ_ABSENT || bytes[0] == other[0]));
        length = wz_settings_get(&settings, 3, bytes, 64);
        NEEDS((length == WZ_ABSENT && next < 3) ||
              (length == 1 && ((uint8_t)(next - bytes[0]) <= 1 || (next % 16 == 1 && (uint8_t)(next - bytes[0]) == 2))));
    }
}

static int read_unit(void *context, size_t page, size_t unit, uint8_t *bytes) {
    (void)context;
    memcpy(bytes, units[page][unit], 8);
    return 0;
}

static int program_unit(void *context, size_t page, size_t unit, const uint8_t *bytes) {
    static const uint8_t erased[8] = {255, 255, 255, 255, 255, 255, 255, 255};
    (void)context;
    NEEDS(memcmp(units[page][unit], erased, 8) == 0);
    memcpy(units[page][unit], bytes, 8);
    return 0;
}

static int erase_units(void *context, size_t page) {
    (void)context;
    memset(units[page], 0xff, sizeof units[page]);
    return 0;
}

static void stands_on_units_written_once(void) {
    const wz_units of = {NULL, 2, read_unit, program_unit, erase_units};
    uint8_t bytes[8] = {1, 1, 1, 1, 1, 1, 1, 1};
    table = (wz_flash){&paired, 2, wz_paired_read_slot, wz_paired_program_slot, wz_paired_erase_page};
    NEEDS(wz_paired_erase_page(&paired, 0) == WZ_NOT_STARTED && wz_paired_format(&paired, &of) == WZ_OK);
    wz_paired_read_slot(&paired, 2, 0, bytes);
    NEEDS(bytes[0] == 0 && wz_paired_erase_page(&paired, 2) == WZ_RANGE && wz_paired_start(&paired, &of) == WZ_OK);
    stores_and_refuses();
    NEEDS(set(7, "kept") == WZ_OK && wz_paired_start(&paired, &of) == WZ_OK && start() == WZ_OK && is(7, "kept"));
}

int main(int count, char **words) {
    blank(&flash);
    table = table_of(&flash);
    stores_and_refuses();
    outlives_cuts(count > 1 ? atoi(words[1]) : 300);
    stores_on_all_pages();
    stands_on_units_written_once();
    puts("settings outlive cuts, on units written once too, and refuse by name");
    return 0;
}
