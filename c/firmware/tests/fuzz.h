// SPDX-License-Identifier: MIT OR Apache-2.0
/* Objects whose state is known, functions of flash and driver that fail and call back, and the answers that are allowed. */
#ifndef FUZZ_H
#define FUZZ_H

#include "played_flash.h"

#define KINDS 5

/* An object: its memory, and what is known of it. */
typedef struct object {
    int kind, number, is_started, is_busy;
    void *memory;
    played_flash flash;
    uint8_t units[2][1024][8];
} object;

/* What a call was given, and what its object was where it began. */
typedef struct record {
    int is_memory, was_busy;
} record;

static object objects[KINDS][2];
static long calls, nested, refused, faults, restarts;
static int depth;
static record records[4];

void any_call(void);

#ifdef DRAWN
static const uint8_t *drawn;
static size_t left;

/* The next bytes of libFuzzer, ones behind the last: with a zero each chance would be met. */
static inline uint32_t any(void) {
    uint32_t number = 0;
    if (left < 2)
        return UINT32_MAX;
    memcpy(&number, drawn, 2);
    drawn += 2, left -= 2;
    return number;
}
#else
static uint32_t state;

static inline void seed(uint32_t number) { state = number * 2654435761u + 1; }

static inline uint32_t any(void) {
    state ^= state << 13;
    state ^= state >> 17;
    return state ^= state << 5;
}
#endif

/* A pointer, or null. */
static inline void *maybe(const void *pointer) { return any() % 24 ? (void *)(uintptr_t)pointer : NULL; }

/* A length up to this one, or far beyond. */
static inline size_t some_length(size_t most) { return any() % 16 ? any() % most : (size_t)0 - 1 - any() % 9; }

/* The pointer that a call is given: mostly the object's, which is busy from then on. */
static inline void *place(object *of) {
    uint32_t chance = any() % 64;
    records[depth] = (record){chance > 1, of->is_busy};
    if (chance > 1)
        of->is_busy = 1;
    return chance == 0 ? NULL : (uint8_t *)of->memory + (chance == 1);
}

/* Each status as a bit, and those that kinds of calls may give. LOOSE is a call of no object. */
#define BIT(status) (1u << -(status))
#define LOOSE 1u
#define START (BIT(WZ_NULL) | BIT(WZ_PAGES) | BIT(WZ_CODE) | BIT(WZ_RANGE))
#define PACKET (BIT(WZ_NULL) | BIT(WZ_NAK) | BIT(WZ_STALL))
#define WRITTEN (BIT(WZ_NULL) | BIT(WZ_LENGTH) | BIT(WZ_STALL) | BIT(WZ_LATER))
#define READ (BIT(WZ_NULL) | BIT(WZ_ROOM) | BIT(WZ_STALL))
#define STORED (BIT(WZ_NOT_NOW) | BIT(WZ_NO_ROOM) | BIT(WZ_UNSOUND) | BIT(WZ_WORN) | BIT(WZ_FAULT))
#define FOUND (BIT(WZ_NULL) | BIT(WZ_ABSENT) | BIT(WZ_ROOM))
#define CHANGED (BIT(WZ_TOO_LONG) | BIT(WZ_FULL) | BIT(WZ_UNSOUND) | BIT(WZ_FOREIGN) | BIT(WZ_WORN) | BIT(WZ_FAULT))

/* What refuses a call before it is looked at; 0 where nothing does. */
static inline int gate(const object *of, int is_start) {
    if (!records[depth].is_memory)
        return WZ_NULL;
    if (records[depth].was_busy)
        return WZ_BUSY;
    return is_start || of->is_started ? 0 : WZ_NOT_STARTED;
}

/* The answer of a call: what refuses it before, or at most this number, or one of these statuses. */
static inline void gives(const object *of, int answer, unsigned statuses, int most) {
    int wanted = statuses & LOOSE ? 0 : gate(of, 0);
    nested += wanted == WZ_BUSY;
    refused += answer < 0;
    if (wanted != 0 ? answer != wanted : answer >= 0 ? answer > most : !(statuses & 1u << -answer)) {
        fprintf(stderr, "kind %d: %s, %d, wanted %d or 0 to %d\n", of->kind, wz_status_name(answer), answer, wanted, most);
        failed(__FILE__, __LINE__, "an answer that the header allows");
    }
}

static inline void starts(object *of, int answer, unsigned statuses) {
    int wanted = gate(of, 1);
    NEEDS(wanted != 0 ? answer == wanted : answer == 0 || (answer < 0 && statuses & 1u << -answer));
    restarts += wanted == 0 && of->is_started && answer == 0;
    if (wanted == 0)
        of->is_started = answer == 0;
}

/* Room of so many bytes between others that are not to change. */
typedef struct room {
    uint8_t *all, *bytes;
    size_t length;
} room;

static inline room room_for(size_t length) {
    room made = {malloc(192), NULL, length};
    NEEDS(made.all != NULL);
    memset(made.all, 0xa5, 192);
    made.bytes = made.all + 16;
    return made;
}

static inline void check_room(room *of) {
    for (size_t at = 0; at < 192; at++)
        NEEDS((at >= 16 && at < 16 + of->length) || of->all[at] == 0xa5);
    free(of->all);
}

/* A call inside of one, at times. */
static inline void call_back(uint32_t chance) {
    if (depth < 2 && any() % chance == 0) {
        depth++;
        any_call();
        depth--;
    }
}

/* Whether an operation fails: then it has changed some bits. */
static inline int fails(played_flash *flash) {
    int is_fault = any() % 24 == 0;
    faults += is_fault;
    flash->torn = any();
    flash->cut = is_fault ? 0 : -1;
    return is_fault;
}

static inline void read_of(void *context, size_t page, size_t slot, uint8_t *bytes) {
    object *of = context;
    NEEDS(page < 2 && slot < WZ_PAGE_SLOTS);
    call_back(2000);
    read_slot(&of->flash, page, slot, bytes);
}

static inline int program_of(void *context, size_t page, size_t slot, const uint8_t *bytes) {
    object *of = context;
    NEEDS(page < 2 && slot < WZ_PAGE_SLOTS);
    call_back(20);
    int answer = fails(&of->flash);
    program_slot(&of->flash, page, slot, bytes);
    power(&of->flash);
    return answer;
}

static inline int erase_of(void *context, size_t page) {
    object *of = context;
    NEEDS(page < 2);
    call_back(20);
    int answer = fails(&of->flash);
    erase_page(&of->flash, page);
    power(&of->flash);
    return answer;
}

static inline int read_unit_of(void *context, size_t page, size_t unit, uint8_t *bytes) {
    object *of = context;
    NEEDS(page < 2 && unit < 1024);
    call_back(2000);
    memcpy(bytes, of->units[page][unit], 8);
    return any() % 500 == 0;
}

static inline int program_unit_of(void *context, size_t page, size_t unit, const uint8_t *bytes) {
    object *of = context;
    NEEDS(page < 2 && unit < 1024);
    call_back(20);
    memcpy(of->units[page][unit], bytes, any() % 24 ? 8 : 5);
    return any() % 24 == 0;
}

static inline int erase_units_of(void *context, size_t page) {
    object *of = context;
    NEEDS(page < 2);
    call_back(20);
    if (any() % 24)
        memset(of->units[page], 0xff, sizeof of->units[page]);
    return any() % 24 == 0;
}

static inline int keep(void *context, uint32_t word) {
    (void)context;
    call_back(200);
    return (int)(word % 2);
}

/* The table of the object's flash. One that was not started may find other bytes there. */
static inline wz_flash table_for(object *of) {
    wz_flash table = {of, any() % 16 ? 2 : any() % 11 ? 1 : 9, read_of, program_of, erase_of};
    uint8_t *slot = of->flash.cells[any() % 2][any() % 4 ? 0 : any() % WZ_PAGE_SLOTS];
    if (any() % 32 == 0)
        table.program_slot = NULL;
    if (!of->is_started && !records[depth].was_busy && any() % 8 == 0)
        for (int byte = 0; byte < 4; byte++)
            slot[4 + byte] = (uint8_t)~(slot[byte] = (uint8_t)any());
    if (!of->is_started && !records[depth].was_busy && any() % 8 == 0)
        memset(of->flash.cells, 0xff, sizeof of->flash.cells);
    return table;
}

static inline wz_units units_for(object *of) {
    wz_units table = {of, any() % 16 ? 2 : 9, read_unit_of, program_unit_of, erase_units_of};
    if (any() % 32 == 0)
        table.erase_units = NULL;
    return table;
}

static inline const wz_layout *some_layout(void) {
    static wz_layout good, bad;
    good.codes[1][2] = WZ_CODE_LAYER(3);
    bad.codes[3][95] = 2;
    return any() % 3 == 0 ? NULL : any() % 16 ? &good : &bad;
}

static inline void some_setup(uint8_t *setup) {
    static const uint8_t REQUESTS[][8] = {
        {0x21, 9, 3, 3, 0, 0, 6, 0},     {0xa1, 1, 3, 3, 0, 0, 6, 0}, {0x21, 9, 1, 2, 0, 0, 2, 0}, {0xa1, 1, 1, 1, 0, 0, 23, 0},
        {0x21, 10, 0, 4, 0, 0, 0, 0},    {0x21, 11, 0, 0, 0, 0, 0, 0}, {0x21, 11, 1, 0, 0, 0, 0, 0}, {0xa1, 3, 0, 0, 0, 0, 1, 0},
        {0x81, 6, 0, 0x22, 0, 0, 99, 0}, {0x80, 6, 0, 1, 0, 0, 18, 0}, {0, 9, 1, 0, 0, 0, 0, 0},     {0, 5, 9, 0, 0, 0, 0, 0},
        {0, 3, 1, 0, 0, 0, 0, 0},        {2, 3, 0, 0, 0x81, 0, 0, 0},
    };
    memcpy(setup, REQUESTS[any() % 2 ? 0 : any() % (sizeof REQUESTS / 8)], 8);
    if (any() % 8 == 0)
        setup[any() % 8] = (uint8_t)any();
}

static inline void some_data(uint8_t *data) {
    const uint8_t command[6] = {3, (uint8_t)(any() % 5), (uint8_t)(any() % 5), (uint8_t)(any() % 98), (uint8_t)any(), 0};
    memset(data, 0, 64);
    memcpy(data, command, 6);
}

static inline void waiting_of(void *context, wz_waiting *met) {
    (void)context;
    call_back(50);
    met->reset = any() % 40 == 0;
    met->has_setup = any() % 4 == 0;
    met->has_out = any() % 3 == 0;
    met->taken = any() % 2;
    met->out_length = (uint8_t)(any() % 16 ? 6 : any());
    some_setup(met->setup);
    uint8_t data[64];
    some_data(data);
    memcpy(met->out, data, 8);
}

static inline void input_0_of(void *context, int answer, const uint8_t *packet, size_t length) {
    (void)context;
    call_back(50);
    NEEDS(answer >= 0 && answer <= 2 && length <= 8 && (answer == WZ_INPUT_PACKET) == (packet != NULL));
}

static inline void output_0_of(void *context, int answer) {
    (void)context;
    call_back(50);
    NEEDS(answer >= 0 && answer <= 2);
}

static inline void set_address_of(void *context, uint8_t address) {
    (void)context;
    NEEDS(address < 128);
}

static inline int has_two_of(void *context) { return ((object *)context)->number; }

static inline size_t taken_1_of(void *context) {
    (void)context;
    call_back(50);
    return any() % 100 ? any() % 3 : (size_t)0 - 1;
}

static inline void begin_anew_of(void *context, int endpoint) {
    (void)context;
    call_back(20);
    NEEDS(endpoint >= 0 && endpoint <= 2);
}

static inline void nothing_of(void *context) {
    (void)context;
    call_back(20);
}

static inline void input_1_of(void *context, const uint8_t *packet, size_t length) {
    (void)context;
    call_back(50);
    NEEDS(packet != NULL && length <= WZ_REPORT_BYTES);
}

static inline wz_driver driver_for(object *of) {
    wz_driver driver = {of,         waiting_of,    input_0_of, output_0_of, set_address_of, has_two_of,
                        taken_1_of, begin_anew_of, nothing_of, nothing_of,  nothing_of,     input_1_of};
    if (any() % 32 == 0)
        driver.forget = NULL;
    return driver;
}

#endif
