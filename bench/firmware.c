/* The smallest firmware around a keyboard behind reference/peer/keyboard.h, for its size: volatile words in the place of a
 * controller's registers, and events where there would be interrupts. */
#include "flash.h"
#include "keyboard.h"

enum event { WORK, SCAN, SETUP, OUT, IN, POLL, RESET };

volatile uint8_t event, length, data[8], packet[8], report[KB_REPORT], leds;
volatile int32_t answer0, answer1;
volatile uint16_t matrix[6];
volatile uint32_t controller[4];
uint32_t flash_pages = 2;

__attribute__((noinline)) int flash_program(uint32_t page, uint32_t slot, uint32_t low, uint32_t high)
{
    controller[0] = page * 4096 + slot * 8;
    controller[1] = low;
    controller[2] = high;
    return controller[3];
}

__attribute__((noinline)) int flash_erase(uint32_t page)
{
    controller[0] = page * 4096;
    return controller[3];
}

static void scan(void)
{
    uint16_t rows[6];
    for (int i = 0; i < 6; i++)
        rows[i] = matrix[i];
    kb_scan(rows);
}

static void receive(uint8_t bytes[8])
{
    for (int i = 0; i < 8; i++)
        bytes[i] = data[i];
}

static void send(const uint8_t bytes[8])
{
    for (int i = 0; i < 8; i++)
        packet[i] = bytes[i];
}

static void poll(void)
{
    uint8_t bytes[KB_REPORT];
    answer1 = kb_poll(bytes);
    for (int i = 0; i < KB_REPORT; i++)
        report[i] = bytes[i];
}

static void handle(enum event now)
{
    uint8_t bytes[8];
    switch (now) {
    case SCAN:
        scan();
        break;
    case SETUP:
        receive(bytes);
        kb_setup(bytes);
        break;
    case OUT:
        receive(bytes);
        answer0 = kb_out(bytes, length);
        leds = kb_leds();
        break;
    case IN:
        answer0 = kb_in(bytes);
        send(bytes);
        break;
    case POLL:
        poll();
        break;
    case RESET:
        kb_bus_reset();
        leds = kb_leds();
        break;
    case WORK:
        if (kb_work() == KB_FAILED)
            answer0 = KB_NAK;
    }
}

int main(void)
{
    kb_start();
    for (;;) {
        handle(event);
        event = WORK;
    }
}
