/* What is counted, the same for each keyboard behind reference/peer/keyboard.h: a call, or a few that belong together, between
 * marks. */
#include "calls.h"
#include "draw.h"
#include "flash.h"
#include "keyboard.h"
#include "marks.h"
#include <string.h>

uint32_t flash_cells[MAX_PAGES * PAGE_WORDS] __attribute__((aligned(8)));
uint32_t flash_pages = 2;

/* Both are counted with what calls them, the same for all. */
__attribute__((noinline)) int flash_program(uint32_t page, uint32_t slot, uint32_t low, uint32_t high)
{
    uint32_t *cells = flash_cells + page * PAGE_WORDS + slot * 2;
    cells[0] &= low;
    cells[1] &= high;
    return 0;
}

__attribute__((noinline)) int flash_erase(uint32_t page)
{
    for (unsigned i = 0; i < PAGE_WORDS; i++)
        ((volatile uint32_t *)flash_cells)[page * PAGE_WORDS + i] = 0xffffffff;
    return 0;
}

static const uint16_t NONE[6], SIX[6] = { 0x21, 0x10, 0x8001, 0, 0, 0x101 }, SIXTEEN[6] = { 0xffff };
static const uint8_t SET_FEATURE[8] = { 0x21, 0x09, 0x03, 0x03, 0, 0, 6, 0 }, UNKNOWN[8] = { 0x80, 0, 0, 0, 0, 0, 2, 0 },
                     GET_DESCRIPTOR[8] = { 0x81, 0x06, 0, 0x22, 0, 0, 0x63, 0 }, GET_REPORT[8] = { 0xa1, 1, 1, 1, 0, 0, 23, 0 },
                     BOOT_PROTOCOL[8] = { 0x21, 0x0b, 0, 0, 0, 0, 0, 0 }, SET_LEDS[8] = { 0x21, 9, 1, 2, 0, 0, 2, 0 };
static uint8_t buffer[32];

/* SAMPLE(name, calls, times, what): so many samples of `what`, which holds so many calls. */
#define SAMPLE(name, calls, times, what)            \
    do {                                            \
        for (unsigned i_ = 0; i_ < (times); i_++) { \
            mark_begin();                           \
            what;                                   \
            mark_end();                             \
        }                                           \
        told(name, calls);                          \
    } while (0)

static void must(int holds)
{
    if (!holds)
        __builtin_trap();
}

__attribute__((noinline)) static void scans(unsigned n, const uint16_t *rows)
{
    while (n--)
        kb_scan(rows);
}

static void scan_and_drain(const uint16_t *rows)
{
    scans(6, rows);
    while (kb_poll(buffer)) {
    }
}

static void blank(unsigned pages)
{
    flash_pages = pages;
    for (unsigned page = 0; page < pages; page++)
        flash_erase(page);
}

/* The SETUP packet and the data of a command that sets an entry. */
__attribute__((noinline)) static void command(unsigned layer, unsigned key, unsigned code)
{
    uint8_t packet[6] = { 3, 1, layer, key, code, code >> 8 };
    kb_setup(SET_FEATURE);
    must(kb_out(packet, 6) == KB_ACK);
}

static void status(void) { must(kb_in(buffer) == 0); }

__attribute__((noinline)) static void work(void)
{
    while (kb_work() == KB_WORKING) {
    }
}

static void set(unsigned layer, unsigned key, unsigned code)
{
    command(layer, key, code);
    work();
    status();
}

/* Fills the active page, all of whose 384 entries then differ from the default. */
static void fill(void)
{
    for (unsigned n = 0; n < 384; n++)
        set(n / 96, n % 96, 0x4100);
    for (unsigned n = 0; n < 127; n++)
        set(0, 0, 0x4200 + n);
}

static void starts(void)
{
    blank(2);
    SAMPLE("start, blank flash", 1, 1, kb_start());
    SAMPLE("restart, blank flash", 1, 1, kb_restart());
}

/* The report of ID 1 that comes when its idle value has passed: what the keys that are down stand for. */
static void idle_report(const uint16_t *down, uint8_t report[KB_REPORT])
{
    scans(500, down);
    must(kb_poll(report) == KB_REPORT);
}

/* Random scans over ten sets of held keys, of which none changes a debounced key. */
static void random_scans(void)
{
    static uint16_t down[6], rows[1000][6];
    uint8_t before[KB_REPORT], after[KB_REPORT];
    for (unsigned round = 0; round < 10; round++) {
        for (unsigned i = 0; i < 6; i++)
            down[i] = round ? draw() >> 8 & draw() >> 16 : 0;
        scan_and_drain(down);
        idle_report(down, before);
        draw_from(down);
        for (unsigned n = 0; n < 1000; n++)
            draw_scan(rows[n]);
        for (unsigned n = 0; n < 1000; n++) {
            mark_begin();
            kb_scan(rows[n]);
            mark_end();
        }
        idle_report(down, after);
        must(memcmp(before, after, KB_REPORT) == 0);
    }
    told("scan without an edge", 1);
    scan_and_drain(NONE);
}

static void poll_ten(void)
{
    for (unsigned i = 0; i < 10; i++)
        must(kb_poll(buffer) == 0);
}

/* With no key, and with six held. */
static void polls(void)
{
    const uint16_t *const held[] = { NONE, SIX };
    for (unsigned i = 0; i < 2; i++) {
        scan_and_drain(held[i]);
        mark_begin();
        poll_ten();
        mark_end();
    }
    told("poll, nothing due", 10);
    scan_and_drain(NONE);
}

/* Five scans that press or release, and the poll of their report. */
__attribute__((noinline)) static void change(const uint16_t *rows)
{
    scans(5, rows);
    must(kb_poll(buffer) != 0);
}

/* Presses each key, and releases it. */
static void each_key(const char *name)
{
    for (unsigned key = 0; key < 96; key++) {
        uint16_t rows[6] = { 0 };
        rows[key / 16] = 1 << key % 16;
        mark_begin();
        change(rows);
        mark_end();
        mark_begin();
        change(NONE);
        mark_end();
    }
    told(name, 1);
}

/* Presses some keys, and releases them. */
static void some_keys(const char *name, const uint16_t *rows)
{
    for (unsigned i = 0; i < 10; i++) {
        mark_begin();
        change(rows);
        mark_end();
        mark_begin();
        change(NONE);
        mark_end();
    }
    told(name, 1);
}

static void read_first(const uint8_t *packet)
{
    kb_setup(packet);
    must(kb_in(buffer) == 8);
}

static void read_whole(void)
{
    kb_setup(GET_DESCRIPTOR);
    while (kb_in(buffer) == 8) {
    }
    must(kb_out(buffer, 0) == KB_ACK);
}

static void set_leds(void)
{
    static const uint8_t packet[2] = { 1, 2 };
    kb_setup(SET_LEDS);
    must(kb_out(packet, 2) == KB_ACK);
    status();
}

static void requests(void)
{
    scan_and_drain(SIX);
    SAMPLE("GET_REPORT of ID 1 and its first packet, six keys", 1, 10, read_first(GET_REPORT));
    SAMPLE("SETUP, unknown request", 1, 10, kb_setup(UNKNOWN));
    SAMPLE("GET_DESCRIPTOR of the report descriptor and its first packet", 1, 10, read_first(GET_DESCRIPTOR));
    SAMPLE("GET_DESCRIPTOR of the report descriptor, whole", 1, 10, read_whole());
    SAMPLE("SET_REPORT of the LEDs, whole", 1, 10, set_leds());
    SAMPLE("work, no command", 1, 10, kb_work());
    scan_and_drain(NONE);
}

static void set_protocol(const uint8_t *packet)
{
    kb_setup(packet);
    status();
}

static void boot_protocol(void)
{
    SAMPLE("SET_PROTOCOL, whole", 1, 1, set_protocol(BOOT_PROTOCOL));
    each_key("boot protocol: 5 scans that press or release one key, and the poll");
    some_keys("boot protocol: 5 scans that press or release 16 keys, and the poll", SIXTEEN);
    SAMPLE("bus reset", 1, 1, kb_bus_reset());
}

static void commands(void)
{
    set(0, 0, 0x40e9);
    for (unsigned i = 0; i < 50; i++) {
        mark_begin();
        set(0, 1, 0x4001 + i);
        mark_end();
    }
    told("command with room, whole", 1);
    for (unsigned i = 0; i < 10; i++) {
        mark_begin();
        command(0, 1, 0x4101 + i);
        mark_end();
        work();
        status();
    }
    told("SETUP and data packet of a command with room", 1);
    for (unsigned i = 0; i < 10; i++) {
        mark_begin();
        command(0, 0, 0x40e9);
        status();
        mark_end();
    }
    told("command that changes nothing, whole", 1);
}

/* Each call of the work by itself. */
static void each_work(void)
{
    for (int came_to = KB_WORKING; came_to == KB_WORKING;) {
        mark_begin();
        came_to = kb_work();
        mark_end();
    }
    told("work in a compaction", 1);
}

static void compactions(void)
{
    blank(2);
    kb_start();
    fill();
    flash_erase(1);
    command(0, 0, 0x4300);
    SAMPLE("compaction of 384 copies, the next page blank", 1, 1, work());
    SAMPLE("start, 2 pages, 385 records", 1, 1, kb_start());
    must(kb_entry(0, 0) == 0x4300);
    flash_erase(1);
    kb_start();
    command(0, 0, 0x4300);
    each_work();
}

static void full_pages(void)
{
    blank(MAX_PAGES);
    kb_start();
    fill();
    for (unsigned page = 1; page < MAX_PAGES; page++)
        memcpy(flash_cells + PAGE_WORDS * page, flash_cells, 4 * PAGE_WORDS);
    SAMPLE("start, 8 full pages", 1, 1, kb_start());
    must(kb_entry(0, 0) == 0x4200 + 126);
}

void make_calls(void)
{
    SAMPLE("nothing", 1, 1, );
    starts();
    random_scans();
    polls();
    each_key("5 scans that press or release one key, and the poll");
    some_keys("5 scans that press or release six keys, and the poll", SIX);
    requests();
    boot_protocol();
    commands();
    compactions();
    full_pages();
}
