/* The keyboard of c/firmware behind reference/peer/keyboard.h, for its size in the smallest firmware. */
#include "flash.h"
#include "keyboard.h"
#include "wuzhikar.h"

static wz_keyboard keyboard;

static void read_slot(void *context, size_t page, size_t slot, uint8_t *bytes)
{
    uint32_t *to = (uint32_t *)(void *)bytes;
    const uint32_t *from = flash_cells + page * PAGE_WORDS + 2 * slot;
    (void)context;
    to[0] = from[0];
    to[1] = from[1];
}

static int program_slot(void *context, size_t page, size_t slot, const uint8_t *bytes)
{
    const uint32_t *from = (const uint32_t *)(const void *)bytes;
    (void)context;
    return flash_program(page, slot, from[0], from[1]);
}

static int erase_page(void *context, size_t page)
{
    (void)context;
    return flash_erase(page);
}

static const wz_flash FLASH = {NULL, 2, read_slot, program_slot, erase_page};

void wz_panic(void)
{
    for (;;)
        ;
}

void kb_start(void) { wz_keyboard_start(&keyboard, &FLASH, NULL, 0); }
void kb_scan(const uint16_t rows[6]) { wz_keyboard_scan(&keyboard, rows); }
void kb_setup(const uint8_t packet[8]) { wz_keyboard_setup(&keyboard, packet); }
int kb_out(const uint8_t *packet, unsigned n) { return wz_keyboard_out(&keyboard, packet, n); }
int kb_in(uint8_t packet[KB_PACKET]) { return wz_keyboard_in(&keyboard, packet); }
unsigned kb_poll(uint8_t report[KB_REPORT]) { int length = wz_keyboard_poll(&keyboard, report); return length < 0 ? 0 : length; }
int kb_work(void) { return wz_keyboard_work(&keyboard) ? KB_WORKING : KB_IDLE; }
void kb_bus_reset(void) { wz_keyboard_bus_reset(&keyboard); }
unsigned kb_leds(void) { return wz_keyboard_leds(&keyboard); }
