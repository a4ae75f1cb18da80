// SPDX-License-Identifier: MIT OR Apache-2.0
/* Each call in any order, on objects that were started, started over, zeroed or copied, with null pointers and lengths too large.
 * The functions of flash and driver fail at random, and call back: what is under way answers WZ_BUSY, anything else goes on.
 * Words: the number of calls, and the seed. Each answer has to be one that the header allows, and no byte beyond room changes. With
 * DRAWN it is a target of libFuzzer (tools/fuzz). */
#include "fuzz.h"

void wz_panic(void) { abort(); }

static const wz_identity IDENTITY = {{NULL, 0}, {NULL, 0}, {NULL, 0}, 0x1209, 1, 0x0100, 100, 16, 1, 1, 0};

static const size_t SIZES[KINDS] = {sizeof(wz_keyboard), sizeof(wz_device), sizeof(wz_log), sizeof(wz_settings), sizeof(wz_paired)};

static void call_keyboard(object *of) {
    wz_keyboard *keyboard = place(of);
    wz_flash table = table_for(of);
    uint16_t rows[6] = {(uint16_t)any(), 0, 0, 0, 0, (uint16_t)any()};
    room out = room_for(any() % 120);
    uint8_t setup[8], data[64];
    const uint8_t *bytes;
    some_setup(setup);
    some_data(data);
    switch (any() % 16) {
    case 0: starts(of, wz_keyboard_start(keyboard, maybe(&table), some_layout(), any() % 8 ? 0 : 4000 + any() % 2), START); break;
    case 1: gives(of, wz_keyboard_work(keyboard), 0, 1); break;
    case 2: gives(of, wz_keyboard_bus_reset(keyboard), 0, 0); break;
    case 3: gives(of, wz_keyboard_set_locked(keyboard, any() % 4 == 0), 0, 0); break;
    case 4: gives(of, wz_keyboard_leds(keyboard), 0, 31); break;
    case 5: gives(of, wz_keyboard_is_boot(keyboard), 0, 1); break;
    case 6: gives(of, wz_keyboard_is_first_start(keyboard), 0, 1); break;
    case 7: gives(of, wz_keyboard_code(keyboard, any() % 5, any() % 97), BIT(WZ_RANGE), 0x5003); break;
    case 8: gives(of, wz_keyboard_setup(keyboard, maybe(setup)), BIT(WZ_NULL), 0); break;
    case 9: gives(of, wz_keyboard_out(keyboard, maybe(data), any() % 10), PACKET | BIT(WZ_LENGTH), 0); break;
    case 10: out.length = 8, gives(of, wz_keyboard_in(keyboard, maybe(out.bytes)), PACKET, 8); break;
    case 11: gives(of, wz_descriptor((uint8_t)(any() % 0x24), maybe(&bytes)), BIT(WZ_NULL) | BIT(WZ_ABSENT) | LOOSE, 99); break;
    case 12: gives(of, wz_keyboard_write(keyboard, maybe(setup), maybe(data), some_length(64)), WRITTEN, 0); break;
    case 13: gives(of, wz_keyboard_read(keyboard, maybe(setup), maybe(out.bytes), out.length), READ, 104); break;
    case 14: out.length = 23, gives(of, wz_keyboard_poll(keyboard, maybe(out.bytes)), BIT(WZ_NULL) | BIT(WZ_NAK), 23); break;
    default: gives(of, wz_keyboard_scan(keyboard, maybe(rows)), BIT(WZ_NULL), 0);
    }
    check_room(&out);
}

static void call_device(object *of) {
    wz_device *device = place(of);
    wz_flash table = table_for(of);
    wz_driver driver = driver_for(of);
    wz_identity identity = IDENTITY;
    uint16_t rows[6] = {(uint16_t)any(), 0, 0, 0, 0, (uint16_t)any()};
    identity.packet_size = any() % 8 ? 8u << any() % 4 : (uint8_t)any();
    switch (any() % 16) {
    case 0:
        starts(of, wz_device_start(device, maybe(&table), some_layout(), 0, maybe(&identity), maybe(&driver)), START);
        break;
    case 1: gives(of, wz_device_work(device), 0, 1); break;
    case 2: gives(of, wz_device_set_locked(device, any() % 4 == 0), 0, 0); break;
    case 3: gives(of, wz_device_leds(device), 0, 31); break;
    case 4: gives(of, wz_device_code(device, any() % 5, any() % 97), BIT(WZ_RANGE), 0x5003); break;
    case 5: gives(of, wz_device_is_first_start(device), 0, 1); break;
    case 6: gives(of, wz_device_endpoint_1(device), 0, 2); break;
    case 7: gives(of, any() % 2 ? wz_device_suspended(device) : wz_device_resumed(device), 0, 0); break;
    case 8: gives(of, wz_device_wakes(device), 0, 1); break;
    case 9: case 10: gives(of, wz_device_scan(device, maybe(rows)), BIT(WZ_NULL), 0); break;
    default: gives(of, wz_device_serve(device), 0, 0);
    }
}

static void call_log(object *of) {
    wz_log *log = place(of);
    wz_flash table = table_for(of);
    uint32_t words[520], count = some_length(520);
    uint32_t found[8];
    for (int at = 0; at < 520; at++)
        words[at] = any();
    switch (any() % 14) {
    case 0: starts(of, wz_log_start(log, maybe(&table)), START); break;
    case 1: gives(of, wz_log_words(log, maybe(found), any() % 9), BIT(WZ_NULL), 511); break;
    case 2: gives(of, wz_log_rewrite(log, maybe(words), count), STORED | BIT(WZ_NULL) | BIT(WZ_LENGTH), 0); break;
    case 3: gives(of, wz_log_rewrite_with(log, any() % 8 ? keep : NULL, of), STORED | BIT(WZ_NULL), 0); break;
    case 4: any() % 8 ? (void)0 : gives(of, wz_log_format(log), BIT(WZ_FAULT), 0); break;
    case 5: gives(of, wz_log_state(log), 0, 31); break;
    case 6: gives(of, wz_log_append(log, words[0]), STORED, 0); break;
    case 7: gives(of, wz_log_turn(log), STORED, 0); break;
    case 8: gives(of, wz_log_copy(log, words[0]), STORED, 0); break;
    case 9: gives(of, wz_log_end_copies(log), STORED, 0); break;
    case 10: case 11: gives(of, wz_log_step(log), BIT(WZ_FAULT), 2); break;
    default: gives(of, wz_log_push(log, words[0]), STORED, 0);
    }
}

static void call_settings(object *of) {
    wz_settings *settings = place(of);
    wz_flash table = table_for(of);
    room out = room_for(any() % 70);
    uint8_t data[66];
    uint16_t id = (uint16_t)(any() % 40);
    wz_change changes[4] = {{data, 1, (uint16_t)(any() % 66)}, {data, id, 9}, {NULL, 3, WZ_REMOVE}, {maybe(data), 4, 2}};
    wz_change_memory memory[4];
    memset(data, (int)any(), sizeof data);
    switch (any() % 10) {
    case 0: starts(of, wz_settings_start(settings, maybe(&table)), START); break;
    case 1: gives(of, wz_settings_get(settings, id, maybe(out.bytes), out.length), FOUND, 64); break;
    case 2: gives(of, wz_settings_next(settings, any() % 0x10002, maybe(&id), maybe(out.bytes), out.length), FOUND, 64); break;
    case 3: gives(of, wz_settings_remove(settings, id), CHANGED, 0); break;
    case 4: gives(of, wz_settings_transaction(settings, maybe(changes), any() % 5, maybe(memory)), CHANGED | BIT(WZ_NULL), 0); break;
    case 5: gives(of, wz_settings_compact(settings), CHANGED, 0); break;
    case 6: gives(of, wz_settings_room_left(settings), 0, 511); break;
    case 7: any() % 8 ? (void)0 : starts(of, wz_settings_format(settings, maybe(&table)), START | BIT(WZ_FAULT)); break;
    default: gives(of, wz_settings_set(settings, id, maybe(data), some_length(66)), CHANGED | BIT(WZ_NULL), 0);
    }
    check_room(&out);
}

static void call_paired(object *of) {
    wz_paired *paired = place(of);
    wz_units table = units_for(of);
    room out = room_for(8);
    const uint8_t word[8] = {5, 6, 7, 8, 0xfa, 0xf9, 0xf8, 0xf7};
    switch (any() % 8) {
    case 0: starts(of, wz_paired_start(paired, maybe(&table)), START); break;
    case 1: any() % 8 ? (void)0 : starts(of, wz_paired_format(paired, maybe(&table)), START | BIT(WZ_FAULT)); break;
    case 2: gives(of, wz_paired_erase_page(paired, any() % 3), BIT(WZ_RANGE) | BIT(WZ_FAULT), 0); break;
    case 3:
        gives(of, wz_paired_program_slot(paired, any() % 3, any() % 514, maybe(word)), BIT(WZ_RANGE) | BIT(WZ_FAULT) | BIT(WZ_NULL), 0);
        break;
    default: wz_paired_read_slot(paired, any() % 3, any() % 514, maybe(out.bytes));
    }
    check_room(&out);
}

/* Zeros where no call of the object runs, and as often the copy of another one, which was not started. */
static void wipe(object *of) {
    object *other = &objects[of->kind][!of->number];
    if (of->is_busy)
        return;
    if (any() % 2 || other->is_busy || !other->is_started)
        memset(of->memory, 0, SIZES[of->kind]);
    else
        memcpy(of->memory, other->memory, SIZES[of->kind]);
    of->is_started = 0;
}

void any_call(void) {
    static void (*const CALLS[KINDS])(object *) = {call_keyboard, call_device, call_log, call_settings, call_paired};
    object *of = &objects[any() % KINDS][any() % 2];
    int was_busy = of->is_busy;
    calls++;
    if (any() % 200 == 0)
        wipe(of);
    else
        CALLS[of->kind](of);
    of->is_busy = was_busy;
}

static void make_objects(void) {
    for (int kind = 0; kind < KINDS; kind++)
        for (int number = 0; number < 2; number++) {
            object *of = &objects[kind][number];
            *of = (object){.kind = kind, .number = number, .memory = calloc(1, SIZES[kind])};
            NEEDS(of->memory != NULL);
            blank(&of->flash);
            memset(of->units, 0xff, sizeof of->units);
        }
}

static void free_objects(void) {
    for (int kind = 0; kind < KINDS; kind++)
        for (int number = 0; number < 2; number++)
            free(objects[kind][number].memory);
}

#ifdef DRAWN
int LLVMFuzzerTestOneInput(const uint8_t *bytes, size_t count);

int LLVMFuzzerTestOneInput(const uint8_t *bytes, size_t count) {
    drawn = bytes, left = count;
    make_objects();
    while (left > 1)
        any_call();
    free_objects();
    return 0;
}
#else
int main(int count, char **words) {
    long wanted = count > 1 ? atol(words[1]) : 10000;
    seed(count > 2 ? (uint32_t)atol(words[2]) : 1);
    make_objects();
    while (calls < wanted)
        any_call();
    NEEDS(nested > wanted / 100 && refused > wanted / 100 && faults > wanted / 1000 && restarts > wanted / 1000);
    free_objects();
    puts("calls at random: each answered as it has to be");
    return 0;
}
#endif
