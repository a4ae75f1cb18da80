/* Plays a script of `kbsim run` on a keyboard behind reference/peer/keyboard.h, and prints what `kbsim` prints of it, but for
 * what its host reads in a report (docs/simulator.md).
 *
 * play [--pages N | --image FILE] [--save FILE] < SCRIPT
 *
 * Scripts are taken to be conforming: a line that is none ends the program with status 2. */
#include "flash.h"
#include "keyboard.h"
#include <stdbool.h>
#include <stdio.h>
#include <stdlib.h>
#include <string.h>

enum { PAGE_BYTES = 4096, SLOT_BYTES = 8, WORDS_MAX = 128, LINE_MAX = 20000 };

uint32_t flash_cells[MAX_PAGES * PAGE_WORDS];
uint32_t flash_pages = 2;

/* Which bits of the next operation take effect. */
static struct {
    bool armed;
    unsigned length;
    uint8_t bytes[PAGE_BYTES];
} mask;

static int line_number;

static void give_up(const char *why)
{
    fprintf(stderr, "play: line %d: %s\n", line_number, why);
    exit(2);
}

/* The bits of byte i of an operation that take effect. */
static uint8_t effective(unsigned i)
{
    if (!mask.armed)
        return 0xff;
    return mask.length ? mask.bytes[i % mask.length] : 0;
}

/* Ends an operation: 0, or 1 for a fault, which every torn one answers. */
static int done(void)
{
    int fault = mask.armed;
    mask.armed = false;
    return fault;
}

static uint8_t *bytes_at(uint32_t page, uint32_t slot)
{
    if (page >= flash_pages || slot >= PAGE_WORDS / 2)
        give_up("an operation outside the flash");
    return (uint8_t *)(flash_cells + page * PAGE_WORDS + 2 * slot);
}

int flash_program(uint32_t page, uint32_t slot, uint32_t low, uint32_t high)
{
    uint8_t *bytes = bytes_at(page, slot), data[SLOT_BYTES];
    memcpy(data, &low, 4);
    memcpy(data + 4, &high, 4);
    for (unsigned i = 0; i < SLOT_BYTES; i++)
        bytes[i] &= data[i] | (uint8_t)~effective(i);
    return done();
}

int flash_erase(uint32_t page)
{
    uint8_t *bytes = bytes_at(page, 0);
    for (unsigned i = 0; i < PAGE_BYTES; i++)
        bytes[i] |= effective(i);
    return done();
}

static unsigned number(const char *word, unsigned end)
{
    char *rest;
    unsigned long value = strtoul(word, &rest, 10);
    if (*rest || rest == word || value >= end)
        give_up("a number that is none here");
    return value;
}

/* The bytes of a word, at most so many; `-` has none. */
static unsigned hex(const char *word, uint8_t *bytes, unsigned most)
{
    unsigned n = 0;
    if (strcmp(word, "-") == 0)
        return 0;
    for (; *word; word += 2, n++) {
        char digits[3] = { word[0], word[1], 0 }, *rest;
        if (n == most)
            give_up("too many bytes");
        bytes[n] = strtoul(digits, &rest, 16);
        if (rest != digits + 2)
            give_up("no hex");
    }
    return n;
}

static void print_bytes(const uint8_t *bytes, unsigned n)
{
    for (unsigned i = 0; i < n; i++)
        printf("%02x", bytes[i]);
    printf("\n");
}

static void print_answer(int answer)
{
    if (answer == KB_ACK)
        printf("ack\n");
    else if (answer == KB_NAK)
        printf("nak\n");
    else
        printf("stall %d\n", KB_STALL - answer);
}

static void print_packet(int answer, const uint8_t *packet)
{
    if (answer < 0) {
        print_answer(answer);
    } else if (answer == 0) {
        printf("data -\n");
    } else {
        printf("data ");
        print_bytes(packet, answer);
    }
}

static void print_work(int work)
{
    static const char *const NAMES[] = { "idle", "working", "settled", "failed" };
    printf("%s\n", NAMES[work]);
}

static void scans(unsigned times, char **keys)
{
    uint16_t rows[6] = { 0 };
    for (; *keys; keys++) {
        unsigned key = number(*keys, 96);
        rows[key / 16] |= 1 << key % 16;
    }
    while (times--)
        kb_scan(rows);
    printf("ok\n");
}

static void play_scan(char **words) { scans(1, words); }

static void play_scans(char **words) { scans(number(words[0], 10001), words + 1); }

static void play_poll(char **words)
{
    uint8_t report[KB_REPORT];
    unsigned n = kb_poll(report);
    (void)words;
    if (n) {
        printf("report ");
        print_bytes(report, n);
    } else {
        printf("nak\n");
    }
}

static void play_setup(char **words)
{
    uint8_t packet[8];
    if (hex(words[0], packet, 8) != 8)
        give_up("a SETUP packet has 8 bytes");
    kb_setup(packet);
    printf("ack\n");
}

static void play_out(char **words)
{
    uint8_t packet[8] = { 0 };
    print_answer(kb_out(packet, words[0] ? hex(words[0], packet, 8) : 0));
}

static void play_in(char **words)
{
    uint8_t packet[KB_PACKET];
    int answer = kb_in(packet);
    (void)words;
    print_packet(answer, packet);
}

static void play_work(char **words)
{
    (void)words;
    print_work(kb_work());
}

/* A step of the flash work whose operation is torn by a mask, where there is one. */
static int work_torn(const char *word)
{
    mask.length = hex(word, mask.bytes, PAGE_BYTES);
    mask.armed = true;
    int work = kb_work();
    mask.armed = false;
    return work;
}

static void play_workfault(char **words) { print_work(work_torn(words[0])); }

static void play_cut(char **words)
{
    (void)words;
    kb_restart();
    printf("restart\n");
}

static void play_cutwork(char **words)
{
    work_torn(words[0]);
    play_cut(words);
}

static void play_reset(char **words)
{
    (void)words;
    kb_bus_reset();
    printf("ok\n");
}

static void play_entry(char **words) { printf("%04x\n", kb_entry(number(words[0], 4), number(words[1], 96))); }

static void play_slot(char **words) { print_bytes(bytes_at(number(words[0], flash_pages), number(words[1], 512)), SLOT_BYTES); }

static void play_leds(char **words)
{
    (void)words;
    printf("%02x\n", kb_leds());
}

/* A whole transfer of the feature report that sets an entry. */
static void play_set(char **words)
{
    static const uint8_t SETUP[8] = { 0x21, 0x09, 0x03, 0x03, 0x00, 0x00, 0x06, 0x00 };
    uint8_t code[2], packet[KB_PACKET];
    if (hex(words[2], code, 2) != 2)
        give_up("a code has four digits");
    uint8_t feature[6] = { 3, 1, number(words[0], 256), number(words[1], 256), code[1], code[0] };
    kb_setup(SETUP);
    int answer = kb_out(feature, 6);
    if (answer == KB_ACK) {
        while (kb_work() == KB_WORKING) {
        }
        answer = kb_in(packet);
    }
    if (answer > 0)
        print_packet(answer, packet);
    else
        print_answer(answer);
}

/* A whole transfer of the report descriptor. */
static void play_fetch(char **words)
{
    static const uint8_t SETUP[8] = { 0x81, 0x06, 0x00, 0x22, 0x00, 0x00, 0xff, 0x00 };
    uint8_t packet[KB_PACKET];
    int total = 0, answer;
    (void)words;
    kb_setup(SETUP);
    do {
        answer = kb_in(packet);
        if (answer > 0)
            total += answer;
    } while (answer == KB_PACKET);
    if (answer >= 0)
        answer = kb_out(packet, 0);
    if (answer == KB_ACK)
        printf("fetched %d\n", total);
    else
        print_answer(answer);
}

/* The lines of the language: how many words follow the first one. */
static const struct {
    const char *word;
    int least, most;
    void (*play)(char **words);
} LINES[] = {
    { "scan", 0, 96, play_scan },
    { "scans", 1, 97, play_scans },
    { "poll", 0, 0, play_poll },
    { "setup", 1, 1, play_setup },
    { "out", 0, 1, play_out },
    { "in", 0, 0, play_in },
    { "work", 0, 0, play_work },
    { "workfault", 1, 1, play_workfault },
    { "cut", 0, 0, play_cut },
    { "cutwork", 1, 1, play_cutwork },
    { "reset", 0, 0, play_reset },
    { "entry", 2, 2, play_entry },
    { "slot", 2, 2, play_slot },
    { "leds", 0, 0, play_leds },
    { "set", 3, 3, play_set },
    { "fetch", 0, 0, play_fetch },
};

static void play(char **words, int count)
{
    for (unsigned i = 0; i < sizeof LINES / sizeof *LINES; i++)
        if (strcmp(words[0], LINES[i].word) == 0) {
            if (count - 1 < LINES[i].least || count - 1 > LINES[i].most)
                give_up("wrong words");
            printf("%d ", line_number);
            LINES[i].play(words + 1);
            return;
        }
    give_up("unknown word");
}

static void play_script(void)
{
    static char line[LINE_MAX];
    while (fgets(line, sizeof line, stdin)) {
        char *words[WORDS_MAX + 1];
        int count = 0;
        line_number++;
        if (line[0] == '#')
            continue;
        for (char *word = strtok(line, " \t\r\n"); word && count < WORDS_MAX; word = strtok(NULL, " \t\r\n"))
            words[count++] = word;
        words[count] = NULL;
        if (count)
            play(words, count);
    }
}

static void load(const char *name)
{
    FILE *file = fopen(name, "rb");
    if (!file)
        give_up("the image can't be opened");
    flash_pages = fread(flash_cells, 1, sizeof flash_cells, file) / PAGE_BYTES;
    fclose(file);
}

static void save(const char *name)
{
    FILE *file = fopen(name, "wb");
    if (!file || fwrite(flash_cells, PAGE_BYTES, flash_pages, file) != flash_pages || fclose(file) != 0)
        give_up("the image can't be saved");
}

int main(int argc, char **argv)
{
    const char *saved = NULL;
    memset(flash_cells, 0xff, sizeof flash_cells);
    for (int i = 1; i + 1 < argc; i += 2) {
        if (strcmp(argv[i], "--pages") == 0)
            flash_pages = number(argv[i + 1], MAX_PAGES + 1);
        else if (strcmp(argv[i], "--image") == 0)
            load(argv[i + 1]);
        else if (strcmp(argv[i], "--save") == 0)
            saved = argv[i + 1];
        else
            give_up("unknown option");
    }
    kb_start();
    play_script();
    if (saved)
        save(saved);
}
