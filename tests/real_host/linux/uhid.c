/* SPDX-License-Identifier: MIT OR Apache-2.0 */
/* Shows what Linux makes of the reports of a device that is made by /dev/uhid: uhid FILE, a file of lines
 *
 *   F ID HEX     a feature report of the next device
 *   D NAME HEX   a device with this name and report descriptor, in the place of the one before
 *   R HEX        an input report of it
 *   L CODE ON    lights or puts out an LED of it
 *
 * Of a device it prints a line "device NAME", what the kernel parsed of its descriptor (debugfs, rdesc) in lines "P ..", each
 * feature report "G HEX" as hidraw gives it, and "key USAGE=CODE.." with all usages that Linux has a key for; of an input report
 * the state after it: "K CODES A INPUT:CODE=VALUE.. R INPUT:CODE=SUM..": the keys that are down, the absolute axes, and what the
 * relative ones were moved by this report. Axes are set to have no fuzz. "V .." is what `kbsim read --live` then prints, which has
 * the device's file of hidraw, and "V .." after the last report what it ends with. "O HEX" and "S HEX" are an output and a feature
 * report that Linux sends to the device. */
#include <errno.h>
#include <fcntl.h>
#include <libgen.h>
#include <stdint.h>
#include <stdio.h>
#include <stdlib.h>
#include <string.h>
#include <sys/inotify.h>
#include <sys/ioctl.h>
#include <sys/wait.h>
#include <unistd.h>
#include <linux/hidraw.h>
#include <linux/input.h>
#include <linux/uhid.h>

#define MOST_FILES 64
#define MOST_INPUTS 8
#define MOST_LINE 16384
#define MOST_FEATURE 1024
#define MOST_WAITS 1000

static int uhid = -1, inputs[MOST_INPUTS], input_count, outputs;
static char hidraw[32];
static FILE *live; /* what kbsim prints of it */
static struct feature {
    uint8_t bytes[MOST_FEATURE];
    int length;
} features[256];

static int read_hex(const char *text, uint8_t *bytes, int most)
{
    int count = 0;
    for (unsigned byte; count < most && sscanf(text + 2 * count, "%2x", &byte) == 1; count++)
        bytes[count] = (uint8_t)byte;
    return count;
}

static void send_event(struct uhid_event *event)
{
    if (write(uhid, event, sizeof *event) < 0) {
        perror("uhid");
        exit(1);
    }
}

static void print_hex(const char *kind, const uint8_t *bytes, int count)
{
    printf("%s ", kind);
    for (int at = 0; at < count; at++)
        printf("%02x", bytes[at]);
    printf("\n");
}

/* Answers what Linux asks the device, and tells what it sends. */
static void answer(void)
{
    static struct uhid_event asked, reply;
    while (read(uhid, &asked, sizeof asked) > 0) {
        memset(&reply, 0, sizeof reply);
        if (asked.type == UHID_GET_REPORT) {
            const struct feature *feature = &features[asked.u.get_report.rnum];
            reply.type = UHID_GET_REPORT_REPLY;
            reply.u.get_report_reply.id = asked.u.get_report.id;
            reply.u.get_report_reply.err = feature->length ? 0 : EIO;
            reply.u.get_report_reply.size = (uint16_t)feature->length;
            memcpy(reply.u.get_report_reply.data, feature->bytes, (size_t)feature->length);
            send_event(&reply);
        } else if (asked.type == UHID_SET_REPORT) {
            reply.type = UHID_SET_REPORT_REPLY;
            reply.u.set_report_reply.id = asked.u.set_report.id;
            print_hex("S", asked.u.set_report.data, asked.u.set_report.size);
            send_event(&reply);
        } else if (asked.type == UHID_OUTPUT) {
            print_hex("O", asked.u.output.data, asked.u.output.size);
            outputs++;
        }
    }
}

/* A file of this kind whose device has this name for its own, from a number on; -1 for none. */
static int find(const char *kind, unsigned long call, const char *name, int *number)
{
    for (; *number < MOST_FILES; ++*number) {
        char path[64], uniq[128] = "";
        snprintf(path, sizeof path, "/dev/%s%d", kind, *number);
        int file = open(path, O_RDWR | O_NONBLOCK | O_CLOEXEC);
        if (file < 0)
            continue;
        if (ioctl(file, call, uniq) >= 0 && !strcmp(uniq, name))
            return file;
        close(file);
    }
    return -1;
}

/* Prints a line that kbsim prints; whether there is one. */
static int print_live(void)
{
    static char line[MOST_LINE];
    if (!live || !fgets(line, sizeof line, live))
        return 0;
    printf("V %s", line);
    return 1;
}

static void unplug(void)
{
    static struct uhid_event event = { .type = UHID_DESTROY };
    if (uhid < 0)
        return;
    while (input_count > 0)
        close(inputs[--input_count]);
    send_event(&event);
    close(uhid);
    uhid = -1;
    while (print_live())
        ;
    if (live) {
        fclose(live);
        wait(NULL);
    }
    live = NULL;
}

/* What the kernel parsed of a descriptor stands between the second empty line of the file and the one before. */
static void print_parsed(int number)
{
    char line[MOST_LINE], path[64], device[256] = "";
    int empty = 0;
    snprintf(path, sizeof path, "/sys/class/hidraw/hidraw%d/device", number);
    if (readlink(path, device, sizeof device - 1) < 0)
        return;
    snprintf(line, sizeof line, "/sys/kernel/debug/hid/%s/rdesc", basename(device));
    FILE *file = fopen(line, "r");
    while (file && empty < 2 && fgets(line, sizeof line, file)) {
        if (line[0] == '\n')
            empty++;
        else if (empty == 1)
            printf("P%s", line);
    }
    if (file)
        fclose(file);
}

/* Asks for each feature report by hidraw, and sets it again. Linux puts a 0 before one without an ID. */
static void ask_features(void)
{
    uint8_t bytes[MOST_FEATURE + 1];
    fflush(stdout);
    pid_t asking = fork();
    if (asking == 0) {
        int file = open(hidraw, O_RDWR);
        for (int id = 0; id < 256; id++) {
            int length = features[id].length;
            if (!length)
                continue;
            memset(bytes, 0, sizeof bytes);
            bytes[0] = (uint8_t)id;
            print_hex("G", bytes, ioctl(file, HIDIOCGFEATURE(length), bytes));
            memcpy(bytes + !id, features[id].bytes, (size_t)length);
            bytes[0] = (uint8_t)id;
            if (ioctl(file, HIDIOCSFEATURE(length + !id), bytes) < 0)
                perror("G");
        }
        fflush(stdout);
        _exit(0);
    }
    while (waitpid(asking, NULL, WNOHANG) == 0) {
        answer();
        usleep(1000);
    }
    memset(features, 0, sizeof features);
}

/* Lets kbsim read the file of hidraw, and waits until it has opened it. */
static void read_live(void)
{
    char seen[sizeof(struct inotify_event) + 256];
    int ends[2], opened = inotify_init1(IN_CLOEXEC);
    if (inotify_add_watch(opened, hidraw, IN_OPEN) < 0 || pipe(ends) < 0)
        exit(1);
    if (fork() == 0) {
        dup2(ends[1], 1);
        dup2(ends[1], 2);
        close(ends[0]);
        close(ends[1]);
        execl("/kbsim", "kbsim", "read", "--live", hidraw, NULL);
        _exit(open(hidraw, O_RDONLY));
    }
    close(ends[1]);
    live = fdopen(ends[0], "r");
    if (read(opened, seen, sizeof seen) < 0)
        exit(1);
    close(opened);
}

static void print_keys(void)
{
    printf("key");
    for (unsigned index = 0; input_count > 0; index++) {
        struct input_keymap_entry entry = { .flags = INPUT_KEYMAP_BY_INDEX, .index = (uint16_t)index };
        uint32_t usage;
        if (ioctl(inputs[0], EVIOCGKEYCODE_V2, &entry) < 0)
            break;
        memcpy(&usage, entry.scancode, sizeof usage);
        if (entry.keycode != KEY_RESERVED)
            printf(" %08x=%u", usage, entry.keycode);
    }
    printf("\n");
}

static void plug(const char *name, const char *hex)
{
    static struct uhid_event event;
    int raw = -1, number;
    printf("device %s\n", name);
    memset(&event, 0, sizeof event);
    event.type = UHID_CREATE2;
    snprintf((char *)event.u.create2.name, sizeof event.u.create2.name, "%s", name);
    snprintf((char *)event.u.create2.uniq, sizeof event.u.create2.uniq, "%s", name);
    event.u.create2.bus = BUS_USB;
    event.u.create2.rd_size = (uint16_t)read_hex(hex, event.u.create2.rd_data, HID_MAX_DESCRIPTOR_SIZE);
    uhid = open("/dev/uhid", O_RDWR | O_NONBLOCK | O_CLOEXEC);
    send_event(&event);
    /* Its file of hidraw is there when its inputs are. */
    while (raw < 0) {
        answer();
        usleep(5000);
        number = 0;
        raw = find("hidraw", HIDIOCGRAWUNIQ(128), name, &number);
    }
    close(raw);
    snprintf(hidraw, sizeof hidraw, "/dev/hidraw%d", number);
    print_parsed(number);
    ask_features();
    for (number = 0; input_count < MOST_INPUTS; number++) {
        int file = find("input/event", EVIOCGUNIQ(128), name, &number);
        if (file < 0)
            break;
        for (unsigned code = 0; code <= ABS_MAX; code++) {
            struct input_absinfo axis;
            if (ioctl(file, EVIOCGABS(code), &axis) == 0) {
                axis.fuzz = axis.flat = 0;
                ioctl(file, EVIOCSABS(code), &axis);
            }
        }
        ioctl(file, EVIOCGRAB, 1); /* or the console would take Ctrl, Alt and Delete for what they say */
        inputs[input_count++] = file;
    }
    print_keys();
}

static int is_set(const uint8_t *bits, unsigned code) { return bits[code / 8] >> code % 8 & 1; }

static void report(const char *hex)
{
    static struct uhid_event event;
    int moved[MOST_INPUTS][REL_CNT] = { { 0 } };
    struct input_event seen;
    memset(&event, 0, sizeof event);
    if (!live)
        read_live();
    event.type = UHID_INPUT2;
    event.u.input2.size = (uint16_t)read_hex(hex, event.u.input2.data, UHID_DATA_MAX);
    send_event(&event);
    answer();
    printf("K");
    for (int at = 0; at < input_count; at++) {
        uint8_t keys[KEY_CNT / 8] = { 0 };
        while (read(inputs[at], &seen, sizeof seen) == sizeof seen)
            if (seen.type == EV_REL)
                moved[at][seen.code] += seen.value;
        ioctl(inputs[at], EVIOCGKEY(sizeof keys), keys);
        for (unsigned code = 0; code < KEY_CNT; code++)
            if (is_set(keys, code))
                printf(" %u", code);
    }
    printf(" A");
    for (int at = 0; at < input_count; at++) {
        uint8_t axes[ABS_CNT / 8] = { 0 };
        struct input_absinfo axis;
        ioctl(inputs[at], EVIOCGBIT(EV_ABS, sizeof axes), axes);
        for (unsigned code = 0; code < ABS_CNT; code++)
            if (is_set(axes, code) && ioctl(inputs[at], EVIOCGABS(code), &axis) == 0)
                printf(" %d:%u=%d", at, code, axis.value);
    }
    printf(" R");
    for (int at = 0; at < input_count; at++)
        for (unsigned code = 0; code < REL_CNT; code++)
            if (moved[at][code] != 0)
                printf(" %d:%u=%d", at, code, moved[at][code]);
    printf("\n");
    print_live();
}

/* Lights or puts out an LED, and waits until Linux has sent its report. */
static void light(unsigned code, int on)
{
    struct input_event event = { .type = EV_LED, .code = (uint16_t)code, .value = on };
    uint8_t leds[LED_CNT / 8 + 1] = { 0 };
    outputs = 0;
    for (int at = 0; at < input_count; at++)
        if (ioctl(inputs[at], EVIOCGBIT(EV_LED, sizeof leds), leds) >= 0 && is_set(leds, code) &&
            write(inputs[at], &event, sizeof event) == sizeof event)
            for (int waits = 0; waits < MOST_WAITS && outputs == 0; waits++) {
                answer();
                usleep(1000);
            }
}

int main(int argc, char **argv)
{
    static char line[MOST_LINE];
    FILE *file = argc > 1 ? fopen(argv[1], "r") : NULL;
    if (!file) {
        fprintf(stderr, "uhid FILE\n");
        return 2;
    }
    setvbuf(stdout, NULL, _IOFBF, 65536);
    while (fgets(line, sizeof line, file)) {
        if (line[0] == 'D') {
            char *name = strtok(line + 2, " ");
            unplug();
            plug(name, strtok(NULL, " \n"));
        } else if (line[0] == 'R') {
            report(line + 2);
        } else if (line[0] == 'F') {
            char *hex;
            struct feature *feature = &features[strtoul(line + 2, &hex, 10) & 255];
            feature->length = read_hex(hex + 1, feature->bytes, MOST_FEATURE);
        } else if (line[0] == 'L') {
            char *on;
            unsigned code = (unsigned)strtoul(line + 2, &on, 10);
            light(code, (int)strtol(on, NULL, 10));
        }
        fflush(stdout);
    }
    unplug();
    return 0;
}
