// SPDX-License-Identifier: MIT OR Apache-2.0
// The power switch: a plugin of QEMU 7.2 for the machine "microbit" with examples/chip_nrf51. It counts instructions, lets flash operations take their time,
// and cuts the power at a tick or inside an operation of the flash, which is torn. The rig is at the other end of a socket.
//
// At the start the rig sends a struct order and the bytes of the log's region; at a cut it gets a struct told and these bytes, resets
// the machine while the processor is held, and answers one byte. What the processor does until the reset takes effect is undone:
// the region is the rig's at each start, and the RAM begins as noise.
//
// Where the log has marks, its flash is a nastier one: an erase programs all cells first, and cells of a torn operation are in doubt.
// Each look at one reads anything, until it is erased or programmed to 0.
#include <fcntl.h>
#include <signal.h>
#include <stdbool.h>
#include <stddef.h>
#include <stdint.h>
#include <stdio.h>
#include <stdlib.h>
#include <string.h>
#include <sys/mman.h>
#include <sys/prctl.h>
#include <sys/socket.h>
#include <sys/un.h>
#include <unistd.h>

// What is used of qemu-plugin.h, version 1 of its API, which Debian does not package.
typedef uint64_t qemu_plugin_id_t;
struct qemu_plugin_tb;
struct qemu_plugin_insn;
typedef uint32_t qemu_plugin_meminfo_t;
enum { NO_REGS, MEM_BOTH = 3 };
__attribute__((visibility("default"))) int qemu_plugin_version = 1;
extern void qemu_plugin_register_vcpu_tb_trans_cb(qemu_plugin_id_t, void (*)(qemu_plugin_id_t, struct qemu_plugin_tb *));
extern size_t qemu_plugin_tb_n_insns(const struct qemu_plugin_tb *);
extern struct qemu_plugin_insn *qemu_plugin_tb_get_insn(const struct qemu_plugin_tb *, size_t);
extern uint64_t qemu_plugin_insn_vaddr(const struct qemu_plugin_insn *);
extern void *qemu_plugin_insn_haddr(const struct qemu_plugin_insn *);
extern void qemu_plugin_register_vcpu_insn_exec_cb(struct qemu_plugin_insn *, void (*)(unsigned, void *), int, void *);
extern void qemu_plugin_register_vcpu_mem_cb(struct qemu_plugin_insn *, void (*)(unsigned, qemu_plugin_meminfo_t, uint64_t, void *), int, int, void *);
extern bool qemu_plugin_mem_is_store(qemu_plugin_meminfo_t);
extern void *qemu_plugin_get_hwaddr(qemu_plugin_meminfo_t, uint64_t);

enum { FLASH = 256 * 1024, REGION = 32 * 1024, FIRST = FLASH - REGION, UNIT = 1024, PAGE = 4096 };
static const uint64_t RAM = 0x20000000, RAM_BYTES = 16 * 1024, FLASH_READY = 0x4001E400, FLASH_CONFIG = 0x4001E504, ERASE_PAGE = 0x4001E508,
    RX_READY = 0x40002108;

struct order { // where the power goes
    uint64_t tick;      // at this tick
    uint64_t operation; // inside this operation of the flash, counted from 1
    uint64_t seed;
    uint32_t undone;    // of 256: how many of an operation's bits are left undone; above 256 drawn
    uint32_t program_ticks, erase_ticks;
    uint32_t ram;       // 1: the RAM begins as noise
    uint32_t firm;      // 1: the region is another one, no cell of which is in doubt
    uint32_t unused;
};

struct told {
    uint64_t kind; // 0 a start, 1 a cut
    uint64_t ticks, instructions, operations;
    uint64_t inside; // 0 between two operations, 1 inside a program, 2 inside an erase
    uint64_t not_blank, often, outside, busy; // rules of the flash that were broken
    uint64_t erases, stack, log;
    uint64_t start, longest; // instructions up to the first look at the line, and the most between two looks since the last order
};

static int rig = -1;
static volatile uint64_t *ticks;  // of all starts, in a file that the rig reads
static volatile uint64_t *ordered; // behind it: how many orders the rig has sent to a running chip
static uint64_t heard;
static const char *program;
static uint8_t *flash, *ram;
static uint8_t shadow[FLASH], writes[FLASH / 4], doubt[FLASH];
static uint64_t reset_at, bss_end, log_bytes;
static struct order order;
static struct told told;
static bool dead = true;
// The flash controller was opened for an operation, and not closed.
static bool open_now;
// Behind an operation the flash is busy until the firmware asks whether it is: QEMU's is always ready then.
static bool busy;
static uint64_t lowest = RAM_BYTES, looked;
static uint64_t noise = 88172645463325252u, readings = 88172645463325252u; // that of cells in doubt begins with no start anew

static uint64_t draw_from(uint64_t *from)
{
    *from ^= *from << 13;
    *from ^= *from >> 7;
    *from ^= *from << 17;
    return *from;
}

static uint64_t draw(void)
{
    return draw_from(&noise);
}

static void give(const void *bytes, size_t length)
{
    for (const uint8_t *at = bytes; length;) {
        ssize_t n = write(rig, at, length);
        if (n <= 0) _exit(3);
        at += n;
        length -= (size_t)n;
    }
}

static void get(void *bytes, size_t length)
{
    for (uint8_t *at = bytes; length;) {
        ssize_t n = read(rig, at, length);
        if (n <= 0) _exit(3);
        at += n;
        length -= (size_t)n;
    }
}

static uint32_t word_at(const uint8_t *bytes)
{
    uint32_t word;
    memcpy(&word, bytes, 4);
    return word;
}

// The bytes of the marks, which stand behind the pages; where there are any, cells waver.
static uint64_t marks(void)
{
    return log_bytes % PAGE;
}

// Cells in doubt read anew.
static void waver(size_t from, size_t length)
{
    for (size_t at = from; at < from + length; at++)
        if (doubt[at]) shadow[at] = flash[at] = (uint8_t)((flash[at] & ~doubt[at]) | (draw_from(&readings) >> 32 & doubt[at]));
}

// The processor sets the mode of the controller. An erase is seen by what it changes: before it, a unit with cells in doubt is not
// blank. Behind it they waver again.
static void set_mode(void)
{
    open_now = !open_now;
    for (size_t unit = FLASH - log_bytes; marks() && unit < FLASH; unit += UNIT) {
        if (!open_now) waver(unit, UNIT);
        for (size_t at = unit; open_now && at < unit + UNIT; at++)
            if (doubt[at]) {
                shadow[at] = flash[at] = (uint8_t)(flash[at] & ~doubt[at]);
                break;
            }
    }
}

static void tell(uint64_t kind)
{
    told.kind = kind;
    told.stack = RAM_BYTES - lowest;
    told.log = log_bytes;
    give(&told, sizeof told);
    give(flash + FIRST, REGION);
}

static void start(unsigned cpu, void *data)
{
    (void)cpu, (void)data;
    tell(0);
    get(&order, sizeof order);
    get(flash + FIRST, REGION);
    memcpy(shadow, flash, FLASH);
    memset(writes, 0, sizeof writes);
    if (order.firm) memset(doubt, 0, sizeof doubt);
    noise = order.seed * 2654435761u + 88172645463325252u;
    waver(FIRST, REGION);
    for (uint64_t at = 0; ram && order.ram && at < RAM_BYTES; at++) ram[at] = (uint8_t)(draw() >> 32);
    memset(&told, 0, sizeof told);
    lowest = RAM_BYTES;
    looked = 0;
    busy = dead = open_now = false;
}

static void cut(uint64_t inside)
{
    char go;
    told.inside = inside;
    dead = true;
    tell(1);
    get(&go, 1);
}

static void step(unsigned cpu, void *data)
{
    (void)cpu, (void)data;
    if (dead) return;
    if (told.ticks >= order.tick) {
        cut(0);
        return;
    }
    ++*ticks;
    told.ticks++;
    told.instructions++;
}

// Lets so many of the bits of an operation undone. Bytes that were clear in `data` and set before, or the other way.
static void tear(size_t from, size_t length, uint32_t undone)
{
    for (size_t at = from; at < from + length; at++)
        for (int bit = 1; bit < 256; bit <<= 1)
            if ((draw() >> 40) % 256 < undone) flash[at] = (uint8_t)((flash[at] & ~bit) | (shadow[at] & bit));
}

// The same where cells waver: an erase that is torn while it programs sets none, and a later one has programmed all. Half of the
// cells that change are in doubt, or less.
static void tear_wavering(size_t from, size_t length, uint32_t undone, bool erases)
{
    bool programs = erases && draw() % 2;
    uint32_t unsure = 128u >> (draw() >> 40) % 5;
    for (size_t at = from; at < from + length; at++)
        for (int bit = 1; bit < 256; bit <<= 1) {
            bool before = erases && !programs ? false : shadow[at] & bit, after = programs ? false : flash[at] & bit;
            bool is_left = before != after && (draw() >> 40) % 256 < undone;
            if (before != after && (draw() >> 40) % 256 < unsure) doubt[at] |= (uint8_t)bit;
            else if (before != after) doubt[at] &= (uint8_t)~bit;
            flash[at] = (uint8_t)((flash[at] & ~bit) | ((is_left ? before : after) ? bit : 0));
        }
}

// Takes another order that came meanwhile, which counts from here on.
static void hear(void)
{
    if (*ordered == heard) return;
    heard++;
    get(&order, sizeof order);
    if (order.operation) order.operation += told.operations;
    if (order.tick != UINT64_MAX) order.tick += told.ticks;
    told.longest = 0;
}

// The firmware looks whether a byte has come: what it called since the last look is over.
static void look(void)
{
    if (!told.start) told.start = told.instructions;
    else if (told.instructions - looked > told.longest) told.longest = told.instructions - looked;
    looked = told.instructions;
    hear();
}

static void operated(size_t from, size_t length, uint32_t takes, uint64_t inside)
{
    hear();
    told.operations++;
    uint64_t began = told.ticks;
    told.ticks += takes;
    *ticks += takes;
    if (told.operations == order.operation || (began <= order.tick && order.tick < told.ticks)) {
        uint32_t undone = order.undone > 256 ? draw() % 257 : order.undone;
        if (marks()) tear_wavering(from, length, undone, inside == 2);
        else tear(from, length, undone);
        cut(inside);
    }
    // A whole operation ends the doubt: an erase of all cells, a program of those that it clears.
    for (size_t at = from; at < from + length; at++) doubt[at] &= inside == 2 ? 0 : flash[at];
    memcpy(shadow + from, flash + from, length);
    busy = true;
}

static void programmed(uint64_t address)
{
    if (address < FLASH - log_bytes) told.outside++;
    // (A mark may be programmed again, with the same bits.)
    if (word_at(shadow + address) != UINT32_MAX && address < FLASH - marks()) told.not_blank++;
    if (++writes[address / 4] > 2) told.often++;
    operated(address, 4, order.program_ticks, 1);
}

static void erased(void)
{
    told.erases++;
    size_t page = FLASH;
    for (size_t at = 0; at < FLASH; at += UNIT)
        if (memcmp(flash + at, shadow + at, UNIT)) page = at;
    if (page == FLASH) return; // it was blank
    if (page < FLASH - log_bytes) told.outside++;
    memset(writes + page / 4, 0, UNIT / 4);
    operated(page, UNIT, order.erase_ticks, 2);
}

static void stored(unsigned cpu, qemu_plugin_meminfo_t info, uint64_t address, void *data)
{
    (void)cpu, (void)data;
    if (!dead && busy && (address - FLASH_CONFIG < 8 || (address >= FLASH - log_bytes && address < FLASH))) told.busy++;
    if (!qemu_plugin_mem_is_store(info)) {
        if (!dead && address >= FLASH - log_bytes && address < FLASH) waver(address & ~3u, 4);
        if (address == FLASH_READY) busy = false;
        if (address == RX_READY && !dead) look();
        return;
    }
    if (address - RAM < RAM_BYTES && !ram) {
        // struct qemu_plugin_hwaddr of QEMU 7.2: two bools, then the host's address.
        uint8_t *hardware = qemu_plugin_get_hwaddr(info, address);
        if (hardware) {
            memcpy(&ram, hardware + 8, sizeof ram);
            ram -= address - RAM;
        }
    }
    if (dead) return;
    if (address < FLASH) programmed(address & ~3u);
    else if (address == ERASE_PAGE) erased();
    else if (address == FLASH_CONFIG) set_mode();
    else if (address - RAM < RAM_BYTES && address >= bss_end && address - RAM < lowest) lowest = address - RAM;
}

// Puts the program into the flash, of which QEMU has loaded the first page: no instruction of the rest is translated yet.
static void load(void)
{
    FILE *file = fopen(program, "rb");
    if (!file || !fread(flash, 1, FIRST, file)) _exit(4);
    fclose(file);
}

static void translated(qemu_plugin_id_t id, struct qemu_plugin_tb *tb)
{
    (void)id;
    for (size_t i = 0; i < qemu_plugin_tb_n_insns(tb); i++) {
        struct qemu_plugin_insn *insn = qemu_plugin_tb_get_insn(tb, i);
        uint64_t at = qemu_plugin_insn_vaddr(insn);
        if (!flash) {
            flash = (uint8_t *)qemu_plugin_insn_haddr(insn) - at;
            load();
            reset_at = word_at(flash + 4) & ~1u;
            bss_end = word_at(flash + 0x20);
            log_bytes = word_at(flash + 0x24);
        }
        if (at == reset_at) qemu_plugin_register_vcpu_insn_exec_cb(insn, start, NO_REGS, NULL);
        qemu_plugin_register_vcpu_insn_exec_cb(insn, step, NO_REGS, NULL);
        qemu_plugin_register_vcpu_mem_cb(insn, stored, NO_REGS, MEM_BOTH, NULL);
    }
}

__attribute__((visibility("default"))) int qemu_plugin_install(qemu_plugin_id_t id, const void *info, int argc, char **argv)
{
    (void)info;
    prctl(PR_SET_PDEATHSIG, SIGKILL); // QEMU ends with the rig
    struct sockaddr_un to = {.sun_family = AF_UNIX};
    if (argc != 3 || strncmp(argv[0], "rig=", 4) || strncmp(argv[1], "clock=", 6) || strncmp(argv[2], "program=", 8)) return -1;
    snprintf(to.sun_path, sizeof to.sun_path, "%s", argv[0] + 4);
    int clock = open(argv[1] + 6, O_RDWR);
    ticks = mmap(NULL, 2 * sizeof *ticks, PROT_READ | PROT_WRITE, MAP_SHARED, clock, 0);
    if (clock < 0 || ticks == MAP_FAILED) return -1;
    ordered = ticks + 1;
    program = strdup(argv[2] + 8);
    rig = socket(AF_UNIX, SOCK_STREAM, 0);
    if (rig < 0 || connect(rig, (struct sockaddr *)&to, sizeof to)) return -1;
    qemu_plugin_register_vcpu_tb_trans_cb(id, translated);
    return 0;
}
