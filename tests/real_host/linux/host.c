/* SPDX-License-Identifier: MIT OR Apache-2.0 */
/* A Linux program as the host of a keyboard: what it types (evdev), its reports and its keymap (hidraw), and requests (usbfs).
 *
 *   host SERIAL COMMAND ..     where the keyboard is the one with this serial number, which is waited for
 *
 *   name                       prints what Linux calls it
 *   file                       prints the name of its file of hidraw
 *   keys COUNT                 prints "ready", and then so many presses and releases of keys: + or -, and the letter, or the HID
 *                              usage and Linux's code
 *   reports COUNT              prints "ready", and then so many reports, in hex
 *   packets COUNT LENGTH       the same from endpoint 1 itself, which no driver may have
 *   held COUNT                 waits until so many keys are down for Linux
 *   feature HEX                sets a feature report
 *   set LAYER KEY CODE         sets an entry of the keymap; CODE is hex (docs/formats.md)
 *   get LAYER KEY              prints one
 *   output HEX                 sends an output report
 *   led NUMBER 0|1             switches a LED
 *   ask TYPE REQUEST VALUE INDEX LENGTH   sends a control request, numbers in hex, and prints what came
 *   reset                      resets the bus
 *
 * What was done prints "ack", what was refused the system's words for it. */
#include <errno.h>
#include <fcntl.h>
#include <stdio.h>
#include <stdlib.h>
#include <string.h>
#include <sys/ioctl.h>
#include <unistd.h>
#include <linux/hidraw.h>
#include <linux/input.h>
#include <linux/usbdevice_fs.h>

#define MOST_FILES 64
#define MOST_BYTES 4096

static const char *serial;

/* Prints "ack", or why not. */
static void tell(int answer)
{
    printf("%s\n", answer < 0 ? strerror(errno) : "ack");
}

static void print_hex(const unsigned char *bytes, int count)
{
    for (int i = 0; i < count; i++)
        printf("%02x", bytes[i]);
    printf("\n");
}

/* The bytes of a text in hex; how many. */
static int read_hex(const char *text, unsigned char *bytes, int most)
{
    int count = 0;
    for (unsigned byte; count < most && sscanf(text + 2 * count, "%2x", &byte) == 1; count++)
        bytes[count] = byte;
    return count;
}

/* The keyboard's file of this kind and the call that asks for its serial number, waited for. */
static int find(const char *kind, unsigned long call, char *path, size_t room)
{
    for (;;) {
        for (int i = 0; i < MOST_FILES; i++) {
            char name[128] = "";
            snprintf(path, room, "/dev/%s%d", kind, i);
            int file = open(path, O_RDWR);
            if (file < 0)
                continue;
            if (ioctl(file, call, name) >= 0 && !strcmp(name, serial))
                return file;
            close(file);
        }
        usleep(10000);
    }
}

static int find_keys(void)
{
    char path[64];
    return find("input/event", EVIOCGUNIQ(128), path, sizeof path);
}

static int find_raw(void)
{
    char path[64];
    return find("hidraw", HIDIOCGRAWUNIQ(128), path, sizeof path);
}

/* A number in a file of the device with this number in sysfs, or 0. */
static int number_of(const char *device, const char *what)
{
    char path[512];
    int number = 0;
    snprintf(path, sizeof path, "/sys/bus/usb/devices/%s/%s", device, what);
    FILE *file = fopen(path, "r");
    if (!file)
        return 0;
    if (fscanf(file, "%d", &number) != 1)
        number = 0;
    fclose(file);
    return number;
}

/* The keyboard's own file of the bus. DEVICE, a variable of the environment, is its name in sysfs. */
static int find_device(void)
{
    const char *device = getenv("DEVICE");
    char path[64];
    snprintf(path, sizeof path, "/dev/bus/usb/%03d/%03d", number_of(device, "busnum"), number_of(device, "devnum"));
    int file = open(path, O_RDWR);
    if (file < 0) {
        perror(path);
        exit(1);
    }
    return file;
}

/* The letter of a key, where its usage and Linux's code are those of one. */
static int letter_of(int usage, int code)
{
    static const char rows[] = "qwertyuiop\0\0\0\0asdfghjkl\0\0\0\0\0zxcvbnm";
    int letter = code >= KEY_Q && code <= KEY_M ? rows[code - KEY_Q] : 0;
    return letter && usage == 0x70004 + (letter - 'a') ? letter : 0;
}

static void keys(int count)
{
    int file = find_keys(), usage = 0;
    struct input_event event;
    printf("ready\n");
    for (int left = count; left > 0 && read(file, &event, sizeof event) == sizeof event;) {
        if (event.type == EV_MSC && event.code == MSC_SCAN)
            usage = event.value;
        if (event.type != EV_KEY || event.value == 2)
            continue;
        int letter = letter_of(usage, event.code);
        left--;
        printf("%c", event.value ? '+' : '-');
        if (letter)
            printf("%c", letter);
        else
            printf("%06x=%d", usage, event.code);
        printf("%s", left == 0 || (count - left) % 26 == 0 ? "\n" : " ");
    }
}

static void reports(int count)
{
    unsigned char bytes[MOST_BYTES];
    int file = find_raw(), length;
    printf("ready\n");
    for (; count > 0 && (length = read(file, bytes, sizeof bytes)) > 0; count--)
        print_hex(bytes, length);
}

static void packets(int count, int length)
{
    unsigned char bytes[MOST_BYTES];
    unsigned interface = 0;
    int file = find_device();
    if (ioctl(file, USBDEVFS_CLAIMINTERFACE, &interface) < 0) {
        printf("ready\n");
        tell(-1);
        return;
    }
    printf("ready\n");
    int got = 0;
    for (; count > 0; count--) {
        struct usbdevfs_bulktransfer ask = { 0x81, length, 0, bytes };
        got = ioctl(file, USBDEVFS_BULK, &ask);
        if (got < 0)
            tell(got);
        else
            print_hex(bytes, got);
    }
    /* Polls on for a while, so that the hands see that all was taken. What comes now is one too many. */
    struct usbdevfs_bulktransfer ask = { 0x81, length, 300, bytes };
    if (got >= 0 && (got = ioctl(file, USBDEVFS_BULK, &ask)) >= 0)
        print_hex(bytes, got);
}

static void held(int count)
{
    unsigned char bits[KEY_CNT / 8];
    int file = find_keys();
    for (int down = -1; down != count; usleep(10000)) {
        memset(bits, 0, sizeof bits);
        ioctl(file, EVIOCGKEY(sizeof bits), bits);
        down = 0;
        for (int code = 0; code < KEY_CNT; code++)
            down += bits[code / 8] >> code % 8 & 1;
    }
    printf("%d\n", count);
}

static int feature(int operation, int layer, int key, int code)
{
    unsigned char report[6] = { 3, operation, layer, key, code & 255, code >> 8 };
    return ioctl(find_raw(), HIDIOCSFEATURE(6), report);
}

static void get(int layer, int key)
{
    unsigned char report[6] = { 3 };
    int selected = feature(0, layer, key, 0);
    if (selected < 0 || ioctl(find_raw(), HIDIOCGFEATURE(6), report) != 6)
        tell(-1);
    else
        printf("%04x\n", report[4] | report[5] << 8);
}

static void led(int number, int value)
{
    struct input_event events[2] = { { .type = EV_LED, .code = number, .value = value }, { .type = EV_SYN } };
    tell(write(find_keys(), events, sizeof events));
}

static void ask(char **words)
{
    unsigned char bytes[MOST_BYTES];
    unsigned w[5];
    for (int i = 0; i < 5; i++)
        w[i] = strtoul(words[i], NULL, 16);
    struct usbdevfs_ctrltransfer ask = { w[0], w[1], w[2], w[3], w[4], 0, bytes };
    int got = w[4] > MOST_BYTES ? -1 : ioctl(find_device(), USBDEVFS_CONTROL, &ask);
    if (got < 0 || !(w[0] & 0x80))
        tell(got);
    else
        print_hex(bytes, got);
}

/* Does what a word without numbers asks; 0 where it is none. */
static int whole(const char *word)
{
    char path[64], name[128] = "";
    if (!strcmp(word, "name")) {
        ioctl(find_keys(), EVIOCGNAME(sizeof name), name);
        printf("%s\n", name);
    } else if (!strcmp(word, "file")) {
        find("hidraw", HIDIOCGRAWUNIQ(128), path, sizeof path);
        printf("%s\n", path);
    } else if (!strcmp(word, "reset")) {
        tell(ioctl(find_device(), USBDEVFS_RESET));
    } else {
        return 0;
    }
    return 1;
}

/* Does what a word asks with so many words behind it; 0 where it is none. */
static int with_words(const char *word, char **words, int given)
{
    unsigned char bytes[MOST_BYTES];
    int number[3] = { 0 };
    for (int i = 0; i < given && i < 3; i++)
        number[i] = strtol(words[i], NULL, i == 2 ? 16 : 10);
    if (!strcmp(word, "keys") && given == 1) {
        keys(number[0]);
    } else if (!strcmp(word, "reports") && given == 1) {
        reports(number[0]);
    } else if (!strcmp(word, "packets") && given == 2) {
        packets(number[0], number[1]);
    } else if (!strcmp(word, "held") && given == 1) {
        held(number[0]);
    } else if (!strcmp(word, "feature") && given == 1) {
        int length = read_hex(words[0], bytes, sizeof bytes);
        tell(ioctl(find_raw(), HIDIOCSFEATURE(length), bytes));
    } else if (!strcmp(word, "set") && given == 3) {
        tell(feature(1, number[0], number[1], number[2]));
    } else if (!strcmp(word, "get") && given == 2) {
        get(number[0], number[1]);
    } else if (!strcmp(word, "output") && given == 1) {
        int length = read_hex(words[0], bytes, sizeof bytes);
        tell(write(find_raw(), bytes, length));
    } else if (!strcmp(word, "led") && given == 2) {
        led(number[0], number[1]);
    } else if (!strcmp(word, "ask") && given == 5) {
        ask(words);
    } else {
        return 0;
    }
    return 1;
}

int main(int argc, char **argv)
{
    const char *word = argc > 2 ? argv[2] : "";
    int given = argc - 3;
    serial = argc > 1 ? argv[1] : "";
    setvbuf(stdout, NULL, _IOLBF, 0);
    if (given == 0 ? whole(word) : with_words(word, argv + 3, given))
        return 0;
    fprintf(stderr, "host SERIAL name|file|keys|reports|packets|held|feature|set|get|output|led|ask|reset ..\n");
    return 2;
}
