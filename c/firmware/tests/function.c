// SPDX-License-Identifier: MIT OR Apache-2.0
/* The keyboard as a function of a Linux, over FunctionFS: the kernel keeps endpoint 0, and hands over whole transfers.
 *
 *   function_in_c function FLASH FOLDER GADGET    as real_host of tests/real_host, whose lists bin/linux-test follows on both
 *
 * FLASH is a file with a flash of two pages, each of whose operations takes 5 ms; a loss of power ends the process. Standard
 * input has what the hands do: type LETTERS, keys K.., leds, say TEXT, tear MASK. */
#include "wuzhikar.h"

#include <dirent.h>
#include <errno.h>
#include <fcntl.h>
#include <linux/usb/functionfs.h>
#include <poll.h>
#include <pthread.h>
#include <semaphore.h>
#include <stdatomic.h>
#include <stdio.h>
#include <stdlib.h>
#include <string.h>
#include <sys/mman.h>
#include <unistd.h>

static wz_keyboard keyboard;
static uint8_t (*cells)[WZ_PAGE_BYTES], mask[WZ_SLOT_BYTES], report[WZ_REPORT_BYTES];
static size_t mask_length;
static uint16_t rows[6];
static int control, endpoint, is_enabled, report_length;
static atomic_int has_report;
static sem_t given;

void wz_panic(void) { abort(); }

static void needs(int is_so, const char *what) {
    if (!is_so) {
        perror(what);
        exit(1);
    }
}

/* An operation on a byte; the one that is torn changes the bits of the mask alone, and is the last. */
static void change(uint8_t *byte, uint8_t to, size_t at) {
    uint8_t bits = mask_length > 0 ? mask[at % mask_length] : 0xff;
    *byte = (uint8_t)((*byte & ~bits) | (to & bits));
}

static int ended(void) {
    if (mask_length > 0)
        abort();
    return 0;
}

static void read_slot(void *context, size_t page, size_t slot, uint8_t *bytes) {
    (void)context;
    memcpy(bytes, cells[page] + WZ_SLOT_BYTES * slot, WZ_SLOT_BYTES);
}

static int program_slot(void *context, size_t page, size_t slot, const uint8_t *bytes) {
    uint8_t *to = cells[page] + WZ_SLOT_BYTES * slot;
    (void)context;
    usleep(5000);
    for (size_t at = 0; at < WZ_SLOT_BYTES; at++)
        change(to + at, to[at] & bytes[at], at);
    return ended();
}

static int erase_page(void *context, size_t page) {
    (void)context;
    usleep(5000);
    for (size_t at = 0; at < WZ_PAGE_BYTES; at++)
        change(cells[page] + at, 0xff, at);
    return ended();
}

/* Tells the kernel of an interface with its endpoint, as the configuration has them, and hands the gadget to a controller. */
static void plug(const char *folder, const char *gadget) {
    struct {
        struct usb_functionfs_descs_head_v2 head;
        __le32 count;
        uint8_t interface[25];
    } __attribute__((packed)) descriptors = {{FUNCTIONFS_DESCRIPTORS_MAGIC_V2, sizeof descriptors,
                                              FUNCTIONFS_HAS_FS_DESC | FUNCTIONFS_VIRTUAL_ADDR}, 3, {0}};
    struct usb_functionfs_strings_head strings = {FUNCTIONFS_STRINGS_MAGIC, sizeof strings, 0, 0};
    const uint8_t *configuration;
    char path[300];
    struct dirent *entry = NULL;
    needs(wz_descriptor(2, &configuration) == 34, "configuration");
    memcpy(descriptors.interface, configuration + 9, sizeof descriptors.interface);
    descriptors.interface[24] = 1; /* bInterval: a poll each millisecond */
    snprintf(path, sizeof path, "%s/ep0", folder);
    needs((control = open(path, O_RDWR | O_NONBLOCK)) >= 0, path);
    needs(write(control, &descriptors, sizeof descriptors) == sizeof descriptors, "descriptors");
    needs(write(control, &strings, sizeof strings) == sizeof strings, "strings");
    snprintf(path, sizeof path, "%s/ep81", folder);
    needs((endpoint = open(path, O_WRONLY)) >= 0, path);
    DIR *controllers = opendir("/sys/class/udc");
    while (controllers && (entry = readdir(controllers)) && entry->d_name[0] == '.')
        ;
    needs(controllers && entry, "/sys/class/udc");
    snprintf(path, sizeof path, "%s/UDC", gadget);
    int file = open(path, O_WRONLY);
    needs(write(file, entry->d_name, strlen(entry->d_name)) > 0, path);
    close(file);
    closedir(controllers);
}

/* Serves a request. A read or a write in the other direction stalls it. */
static void serve(const uint8_t *setup) {
    static uint8_t bytes[4096];
    size_t length = (size_t)(setup[6] | setup[7] << 8);
    ssize_t done;
    if (setup[0] & 0x80) {
        int count = wz_keyboard_read(&keyboard, setup, bytes, WZ_READ_BYTES);
        done = count >= 0 ? write(control, bytes, (size_t)count) : read(control, bytes, 1);
    } else if (length == 0) {
        int is_done = wz_keyboard_write(&keyboard, setup, NULL, 0) == WZ_OK;
        done = is_done ? read(control, NULL, 0) : write(control, bytes, 1);
    } else {
        /* No stall is left behind this: the controller may have sent the status packet. */
        done = read(control, bytes, length < sizeof bytes ? length : sizeof bytes);
        if (done >= 0)
            wz_keyboard_write(&keyboard, setup, bytes, (size_t)done);
    }
    needs(done >= 0 || errno == EIDRM || errno == EL2HLT, "endpoint 0");
}

static void event(void) {
    struct usb_functionfs_event met;
    ssize_t length = read(control, &met, sizeof met);
    if (length < 0 && (errno == EAGAIN || errno == EIDRM))
        return;
    needs(length == sizeof met, "an event");
    if (met.type == FUNCTIONFS_SETUP)
        serve((const uint8_t *)&met.u.setup);
    if (met.type == FUNCTIONFS_ENABLE)
        is_enabled = 1;
    if (met.type == FUNCTIONFS_DISABLE) {
        is_enabled = 0;
        wz_keyboard_bus_reset(&keyboard);
    }
}

/* The thread in which a report waits until the host takes it. Without a host it is lost. */
static void *give(void *unused) {
    for (;;) {
        sem_wait(&given);
        ssize_t lost = write(endpoint, report, (size_t)report_length);
        (void)lost;
        has_report = 0;
    }
    return unused;
}

/* A millisecond. Whether the host has all reports. */
static int step(void) {
    struct pollfd asked = {control, POLLIN, 0};
    if (poll(&asked, 1, 1) > 0)
        event();
    wz_keyboard_scan(&keyboard, rows);
    if (!is_enabled || has_report)
        return 0;
    report_length = wz_keyboard_poll(&keyboard, report);
    if (report_length <= 0)
        return 1;
    has_report = 1;
    sem_post(&given);
    return 0;
}

/* Holds the keys until the host has their reports, or for five seconds. */
static void hold(void) {
    for (int has_all = 0, time = 0; time < 10 || (!has_all && time < 5000); time++)
        has_all = step();
}

static void press(unsigned key, int is_down) {
    rows[key / 16 % 6] = (uint16_t)((rows[key / 16 % 6] & ~(1u << key % 16)) | (unsigned)is_down << key % 16);
}

/* Keys 0 to 25 are the letters; key 89 is Shift. */
static void type(const char *letters) {
    for (; *letters >= 'A'; letters++) {
        for (int is_down = 1; is_down >= 0; is_down--) {
            press((unsigned)(*letters | 0x20) - 'a', is_down);
            press(89, is_down && *letters < 'a');
            hold();
        }
    }
}

/* Does what a line says. */
static void act(char *line) {
    char *words = strchr(line, ' ');
    if (!strncmp(line, "say ", 4)) {
        printf("%s", words + 1);
    } else if (!strncmp(line, "leds", 4)) {
        printf("leds %02x\n", wz_keyboard_leds(&keyboard));
    } else if (!strncmp(line, "type ", 5)) {
        type(words + 1);
    } else if (!strncmp(line, "keys", 4)) {
        memset(rows, 0, sizeof rows);
        for (char *end; words && (end = words, press((unsigned)strtoul(words, &end, 10), 1), *end == ' '); words = end)
            ;
        hold();
    } else if (!strncmp(line, "tear ", 5)) {
        for (words++; mask_length < sizeof mask && sscanf(words, "%2hhx", &mask[mask_length]) == 1; words += 2)
            mask_length++;
    }
}

int main(int count, char **words) {
    static const wz_flash FLASH = {NULL, 2, read_slot, program_slot, erase_page};
    char line[4096];
    pthread_t thread;
    needs(count == 5 && !strcmp(words[1], "function"), "function FLASH FOLDER GADGET");
    int file = open(words[2], O_RDWR);
    needs(file >= 0 && lseek(file, 0, SEEK_END) == 2 * WZ_PAGE_BYTES, words[2]);
    cells = mmap(NULL, 2 * WZ_PAGE_BYTES, PROT_READ | PROT_WRITE, MAP_SHARED, file, 0);
    needs(cells != MAP_FAILED, "mmap");
    needs(wz_keyboard_start(&keyboard, &FLASH, NULL, 0) == WZ_OK, "start");
    setvbuf(stdout, NULL, _IOLBF, 0);
    setvbuf(stdin, NULL, _IONBF, 0);
    plug(words[3], words[4]);
    needs(sem_init(&given, 0, 0) == 0 && pthread_create(&thread, NULL, give, NULL) == 0, "thread");
    for (struct pollfd hands = {0, POLLIN, 0};;) {
        if (poll(&hands, 1, 0) > 0 && fgets(line, sizeof line, stdin))
            act(line);
        step();
    }
}
