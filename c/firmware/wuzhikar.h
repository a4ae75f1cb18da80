// SPDX-License-Identifier: MIT OR Apache-2.0
/* The keyboard core, the flash log and settings, for firmware in C and C++.
 *
 * libwuzhikar.a needs no operating system, no allocator and no C library but memcpy, memmove, memset and memcmp, which each
 * compiler of C asks for. Sections are those of HID 1.11 and USB 2.0; docs/formats.md has the bytes of reports and commands.
 *
 * Objects. The memory is the caller's. It is zeros, as a static is, or what an earlier start left there; and it stays where it
 * is. Make it zeros where it outlives a reset of the chip: one that came inside of a call leaves it WZ_BUSY, also for a start.
 * No call but a start takes an object that was not started (WZ_NOT_STARTED); a copy of an object was not started. A format is
 * a start. What a start refuses, for whatever reason, is not started, also where it was before. A start on an object that was
 * started starts it over, as a loss of power does.
 *
 * Calls. No call waits, but for the functions that the firmware lends. One call at a time: none of an object may begin on
 * another thread or in an interrupt while one of this object runs, nor of two keyboards on two threads where one has a layout.
 * A call of an object inside another call of it, from a function of its flash or its driver, returns WZ_BUSY and does nothing.
 *
 * Answers. Each call returns a number from 0 on, or a status below 0. With a status it has done only what is said there.
 * Beside the statuses that a call names, any call gives WZ_NULL where it needs a pointer and that is null or not aligned, and
 * WZ_LENGTH of a count or a room of more than memory can hold.
 *
 * Pointers. A pointer leads to as many values as its type or the count beside it says. Nobody writes what a call reads while it
 * runs, and no pointer leads into an object. None is kept but those of a layout, of a context and of names. */
#ifndef WUZHIKAR_H
#define WUZHIKAR_H

#include <stddef.h>
#include <stdint.h>

#ifdef __cplusplus
extern "C" {
#endif

/* The version, 100 times the minor number and 10,000 times the major one. */
#define WZ_VERSION 200

enum wz_status {
    WZ_OK = 0,
    WZ_NAK = -1,         /* nothing to send now: answer NAK (USB 2.0 section 8.4.5), or ask again */
    WZ_STALL = -2,       /* the request is refused: answer STALL (USB 2.0 section 8.4.5) */
    WZ_NULL = -3,        /* a pointer, or a function of a table, is null, or a pointer is not aligned */
    WZ_LENGTH = -4,      /* a length is too large for this call */
    WZ_NOT_STARTED = -5, /* the object was not started, or is a copy */
    WZ_BUSY = -6,        /* a call inside another call of this object */
    WZ_PAGES = -7,       /* the flash has not 2 to 8 pages */
    WZ_CODE = -8,        /* a number of a layout is no code */
    WZ_RANGE = -9,       /* a number is outside of what the call takes */
    WZ_ROOM = -10,       /* there is more to write than there is room for */
    WZ_ABSENT = -11,     /* there is none */
    WZ_LATER = -12,      /* put off: nothing was taken, make the same call later */
    WZ_UNFINISHED = -13, /* taken, and not over yet */
    WZ_NOT_NOW = -14,    /* a log: something is under way, or nothing that waits for this */
    WZ_NO_ROOM = -15,    /* a log: the active page has no room, or there is none */
    WZ_UNSOUND = -16,    /* slot 0 of a page is not sound, so nothing may be written */
    WZ_WORN = -17,       /* the sequence numbers are used up */
    WZ_FAULT = -18,      /* the flash failed, and what was written doesn't read back; what was stored before stays */
    WZ_TOO_LONG = -19,   /* a setting: more bytes than it may have */
    WZ_FULL = -20,       /* settings: the values would not fit */
    WZ_FOREIGN = -21,    /* settings: the flash holds words of something else */
    WZ_DAMAGED = -22     /* settings on all pages: a page has lost its header, or a value reads otherwise than before */
};

/* The name of a status, as "NotStarted"; "Ok" from 0 on, "Unknown" for a number that is none. It lasts. */
const char *wz_status_name(int status);

/* The library calls it in a state that its proofs exclude. The firmware defines it: it resets the chip or loops, and does not
 * return. No input is known that leads there. */
#if defined(__cplusplus) && __cplusplus >= 201103L
[[noreturn]]
#elif defined(__GNUC__)
__attribute__((noreturn))
#endif
void wz_panic(void);

/* ---- Memory: the bytes of each object ---- */

#if UINTPTR_MAX > 0xffffffffu
#define WZ_KEYBOARD_BYTES 1840
#define WZ_DEVICE_BYTES 2312
#define WZ_LOG_BYTES 96
#define WZ_SETTINGS_BYTES 120
#define WZ_PAIRED_BYTES 72
#define WZ_CHANGE_BYTES 72
#else
#define WZ_KEYBOARD_BYTES 1768
#define WZ_DEVICE_BYTES 2088
#define WZ_LOG_BYTES 64
#define WZ_SETTINGS_BYTES 72
#define WZ_PAIRED_BYTES 48
#define WZ_CHANGE_BYTES 72
#endif

/* ---- Flash ---- */

#define WZ_SLOT_BYTES 8
#define WZ_PAGE_SLOTS 512
#define WZ_PAGE_BYTES 4096

/* NOR flash of 2 to 8 pages of 512 slots of 8 bytes. A start copies the table. No two objects stand on the same pages, or each
 * writes over what the other stored: give each a table over pages of its own. Erase the pages before the first start, and keep
 * their number: on other bytes a page may be unsound, and then every command is refused (docs/firmware.md).
 *
 * The functions get this context, a page below pages, a slot of 0 to 511, and bytes that are aligned to 8. They return when
 * the flash is done, throw nothing, and may call all but the object that called them. What a chip must do is in docs/log.md,
 * "Does my flash do?". Where write units have more than 8 bytes, give each slot one of its own, filled up with FFh. Where a
 * unit can be written only once between two erases, as with error correction, lend the functions of wz_paired. */
typedef struct wz_flash {
    void *context;
    size_t pages;
    /* Reads a slot into bytes; the same until the next operation. */
    void (*read_slot)(void *context, size_t page, size_t slot, uint8_t *bytes);
    /* Clears the bits of a slot that are clear in bytes. 0, or another number for a fault: some of them may be clear then. */
    int (*program_slot)(void *context, size_t page, size_t slot, const uint8_t *bytes);
    /* Sets each bit of a page. 0, or another number for a fault: some of them may be set then. */
    int (*erase_page)(void *context, size_t page);
} wz_flash;

/* Flash with error correction: 2 to 8 pages of 1,024 units of 8 bytes. A start copies the table. The functions are as those
 * above; which units are asked for, and what the chip's driver has to answer, is in docs/log.md, "Flash with error correction". */
typedef struct wz_units {
    void *context;
    size_t pages;
    /* Reads a unit, 0 to 1,023, into bytes. 0, or another number where the chip could not correct it. */
    int (*read_unit)(void *context, size_t page, size_t unit, uint8_t *bytes);
    /* Programs a unit that reads as FFh. 0, or another number for a fault. */
    int (*program_unit)(void *context, size_t page, size_t unit, const uint8_t *bytes);
    /* Erases the 1,024 units of a page. 0, or another number for a fault. */
    int (*erase_units)(void *context, size_t page);
} wz_units;

/* A flash whose slots stand in two units each. Lend it to an object by
 * wz_flash flash = {&paired, 2, wz_paired_read_slot, wz_paired_program_slot, wz_paired_erase_page}; */
typedef union wz_paired {
    uint64_t aligned;
    uint8_t opaque[WZ_PAIRED_BYTES];
} wz_paired;

/* Takes units that wz_paired_format erased, and that nothing but a wz_paired wrote to since: nothing checks it. Nothing is read
 * or written. WZ_PAGES. */
int wz_paired_start(wz_paired *paired, const wz_units *units);

/* Erases all units, and so all that was stored: for the maker, never for a start in the field. WZ_PAGES; WZ_FAULT where a page
 * does not read as erased, or the flash reported a fault. */
int wz_paired_format(wz_paired *paired, const wz_units *units);

/* The functions of a wz_flash whose context is a wz_paired. Where it was not started, or inside of a call of it, or of another
 * page or slot than it has, a read gives zeros, and the others a status, which is a fault. */
void wz_paired_read_slot(void *paired, size_t page, size_t slot, uint8_t *bytes);
int wz_paired_program_slot(void *paired, size_t page, size_t slot, const uint8_t *bytes);
int wz_paired_erase_page(void *paired, size_t page);

/* ---- Layout: the codes that the keys have at first, and after a reset ---- */

#define WZ_LAYERS 4
#define WZ_KEYS 96

/* Codes (docs/formats.md). A usage of the keyboard page is 04h to A4h or E0h to E7h, one of the consumer page 1 to 3FFh; the
 * low 16 bits of a constant of hid_usages.h (c/reader) will do. */
#define WZ_CODE_NONE 0x0000u
#define WZ_CODE_TRANSPARENT 0x0001u /* what a lower active layer says */
#define WZ_CODE_KEY(usage) ((uint16_t)(usage))
#define WZ_CODE_CONSUMER(usage) ((uint16_t)(0x4000u + ((usage) & 0x0fffu)))
#define WZ_CODE_LAYER(layer) ((uint16_t)(0x5000u + (layer))) /* layer 1 to 3, while the key is held */

/* The code of each key on each layer. */
typedef struct wz_layout {
    uint16_t codes[WZ_LAYERS][WZ_KEYS];
} wz_layout;

/* Looks whether each number of a layout is a code. WZ_CODE: *layer and *key say where the first one stands that is none. */
int wz_layout_check(const wz_layout *layout, uint8_t *layer, uint8_t *key);

/* ---- Keyboard: for a USB stack that keeps endpoint 0, or a driver of its packets ---- */

/* The bytes of the longest report of endpoint 1, and of the longest control read. */
#define WZ_REPORT_BYTES 23
#define WZ_READ_BYTES 104

/* A keyboard with its flash: 4 layers of 96 keys. */
typedef union wz_keyboard {
    uint64_t aligned;
    uint8_t opaque[WZ_KEYBOARD_BYTES];
} wz_keyboard;

/* Starts a keyboard on a flash, whose keymap it reads; nothing is written. It begins in the report protocol, without a LED or
 * a transfer, unlocked. The layout is null for the standard one; it is not copied, and stays as it is as long as the keyboard
 * is used. The pace is the least number of scans before the first command, and between two: 0 for none, at most 4,000
 * (SECURITY.md). WZ_PAGES, WZ_CODE, WZ_RANGE for the pace, in this order. */
int wz_keyboard_start(wz_keyboard *keyboard, const wz_flash *flash, const wz_layout *layout, uint16_t pace);

/* Takes a scan of the matrix, one each millisecond: bit c of row r of the six is set while key 16 r + c is closed. Five equal
 * samples of a key decide. */
int wz_keyboard_scan(wz_keyboard *keyboard, const uint16_t *rows);

/* Makes the next flash operation of a command, one at most. 1 while there is more to do, else 0. */
int wz_keyboard_work(wz_keyboard *keyboard);

/* Writes the report that endpoint 1 sends next into room for 23 bytes, and gives its length: 23 or 9 in the report protocol,
 * 8 in the boot protocol. It counts as sent, so ask only where it can be. WZ_NAK where none is due. */
int wz_keyboard_poll(wz_keyboard *keyboard, uint8_t *report);

/* Takes a bus reset (USB 2.0 section 7.1.7.5): report protocol, no LED, no transfer. Keymap, flash work and keys stay. */
int wz_keyboard_bus_reset(wz_keyboard *keyboard);

/* Locks the keymap for the host, or unlocks it for 0: each command of the host is then stalled. */
int wz_keyboard_set_locked(wz_keyboard *keyboard, int locked);

/* The LEDs: Num Lock, Caps Lock, Scroll Lock, Compose, Kana in bits 0 to 4 (HUT page 08h). */
int wz_keyboard_leds(wz_keyboard *keyboard);

/* 1 in the boot protocol, 0 in the report protocol (HID 1.11 section 7.2.6). */
int wz_keyboard_is_boot(wz_keyboard *keyboard);

/* 1 if nothing was stored on the flash since it was erased, else 0. */
int wz_keyboard_is_first_start(wz_keyboard *keyboard);

/* The code of a key on a layer. WZ_RANGE for a layer of 4 or more, or a key of 96 or more. */
int wz_keyboard_code(wz_keyboard *keyboard, uint8_t layer, uint8_t key);

/* Whole transfers, for a stack that keeps endpoint 0: make one where the stack has the SETUP packet and the data, and before
 * it sends the status packet. Each ends the transfer before it.
 *
 * A control write (USB 2.0 section 8.5.3), 0 to 65,535 bytes of data. WZ_OK says that the keyboard confirmed them, so that a
 * command is in the flash: let the stack acknowledge the status stage, and stall it on any other answer. A command makes up to
 * 387 flash operations in this call, most make one. WZ_STALL: refused, or failed by a fault of the flash. WZ_LATER: another
 * command works, or the pace puts it off. WZ_LENGTH for more bytes. WZ_UNFINISHED does not come of a keyboard. */
int wz_keyboard_write(wz_keyboard *keyboard, const uint8_t *setup, const uint8_t *data, size_t length);

/* A control read: the bytes that the request reads, at most wLength and at most 104, into room for so many, and their number.
 * WZ_STALL where the request is refused, does not read, or asks for 0 bytes. WZ_ROOM where there are more, and none is written. */
int wz_keyboard_read(wz_keyboard *keyboard, const uint8_t *setup, uint8_t *data, size_t room);

/* The packets of endpoint 0, for a driver that is asked at each token.
 *
 * A SETUP packet of 8 bytes, which is always acknowledged. */
int wz_keyboard_setup(wz_keyboard *keyboard, const uint8_t *packet);

/* An OUT packet of 0 to 8 bytes. WZ_OK is ACK; WZ_NAK, WZ_STALL. WZ_LENGTH for more than 8 bytes. */
int wz_keyboard_out(wz_keyboard *keyboard, const uint8_t *packet, size_t length);

/* An IN token: the packet into room for 8 bytes, and its length, 0 to 8; it counts as sent. WZ_NAK, WZ_STALL. */
int wz_keyboard_in(wz_keyboard *keyboard, uint8_t *packet);

/* A descriptor of the keyboard, and its length in bytes: 1 device, 2 configuration with all that belongs to it (USB 2.0 section
 * 9.6), 21h HID, 22h report (HID 1.11 section 7.1). It lasts. WZ_ABSENT for another type. */
int wz_descriptor(uint8_t type, const uint8_t **bytes);

/* ---- Device: the keyboard with chapter 9 of USB 2.0, for a driver of a full-speed controller ---- */

/* A name in UTF-16, as that of u"Keyboard" and 8. It is not copied, and stays as it is as long as the device is used. A string
 * descriptor has as many whole characters as fit into 126 units; a length of 0 is no name. */
typedef struct wz_name {
    const uint16_t *units;
    size_t length;
} wz_name;

/* What the descriptors say of a product. A start copies it. */
typedef struct wz_identity {
    wz_name manufacturer, product, serial_number; /* iManufacturer, iProduct, iSerialNumber (USB 2.0 section 9.6.1) */
    uint16_t vendor_id, product_id;               /* idVendor, idProduct; 1209h and 1 are for tests */
    uint16_t release;                             /* bcdDevice: 0123h is release 1.23 */
    uint16_t milliamperes;                        /* bMaxPower (section 9.6.3): 2 to 500, an odd one rounded up */
    uint8_t packet_size;                          /* wMaxPacketSize of endpoint 1 (section 9.6.6): 8, 16, 32 or 64 bytes */
    uint8_t interval;                             /* bInterval (section 9.6.6): 1 to 255 ms */
    uint8_t remote_wakeup;                        /* other than 0: the keyboard can wake its host (section 9.6.3) */
    uint8_t country;                              /* bCountryCode (HID 1.11 section 6.2.1), 0 where that is not said */
} wz_identity;

/* What a controller has met since it was looked at before; it begins as zeros. */
typedef struct wz_waiting {
    uint8_t reset;      /* the bus was reset. All other members are of what came after it */
    uint8_t has_setup;  /* a SETUP packet, the newest. All other members but the reset are of what came before it */
    uint8_t has_out;    /* an OUT packet that was acknowledged */
    uint8_t taken;      /* the host has taken the packet of endpoint 0, and acknowledged it */
    uint8_t setup[8];
    uint8_t out[8];
    uint8_t out_length; /* 0 to 8 */
} wz_waiting;

/* What the next IN tokens of endpoint 0 are answered, and the next OUT packets. */
enum wz_input { WZ_INPUT_NAK = 0, WZ_INPUT_PACKET = 1, WZ_INPUT_STALL = 2 };
enum wz_output { WZ_OUTPUT_NAK = 0, WZ_OUTPUT_TAKE = 1, WZ_OUTPUT_STALL = 2 };

/* What endpoint 1 is. */
enum wz_endpoint { WZ_ENDPOINT_OFF = 0, WZ_ENDPOINT_READY = 1, WZ_ENDPOINT_HALTED = 2 };

/* A controller that is handed packets beforehand. A start copies the table. Anything that its bus permits may happen before each
 * call takes effect: those marked * are without effect where a SETUP packet or a reset has come that waiting did not give, and
 * those marked + after a reset, until forget is called.
 *
 * It acknowledges each SETUP packet, which empties both buffers of endpoint 0. It counts the data toggles: a packet is sent
 * until the host acknowledges it, and one that the host repeats is acknowledged and dropped (USB 2.0 section 8.6.4). A reset
 * empties all buffers, and drops what waiting did not give. docs/firmware.md, "Buffers", names drivers to copy, in Rust. */
typedef struct wz_driver {
    void *context;
    /* Writes what was met, which is then forgotten. */
    void (*waiting)(void *context, wz_waiting *met);
    /* * What IN tokens of endpoint 0 are answered: an enum wz_input, and a packet of 0 to 8 bytes for WZ_INPUT_PACKET. */
    void (*input_0)(void *context, int answer, const uint8_t *packet, size_t length);
    /* * What OUT packets of endpoint 0 are answered: an enum wz_output. */
    void (*output_0)(void *context, int answer);
    /* * The address, 0 to 127, from now on: the host has the status packet, and waits 2 ms (USB 2.0 section 9.2.6.3). */
    void (*set_address)(void *context, uint8_t address);
    /* Whether endpoint 1 has two buffers: another number than 0. */
    int (*has_two)(void *context);
    /* How many packets of endpoint 1 the host has taken since the last call. */
    size_t (*taken_1)(void *context);
    /* + Endpoint 1 is this enum wz_endpoint from now on, with empty buffers and DATA0. */
    void (*begin_anew)(void *context, int endpoint);
    /* + Empties the buffers of endpoint 1: the next packet has the toggle of the oldest one that was in them. */
    void (*give_up)(void *context);
    /* The host has the status packet of the request that caused the last begin_anew. */
    void (*host_began)(void *context);
    /* Follows a reset: endpoint 1 is off, with empty buffers and DATA0. */
    void (*forget)(void *context);
    /* + Puts a packet of 0 to 23 bytes into a free buffer of endpoint 1; there is one. */
    void (*input_1)(void *context, const uint8_t *packet, size_t length);
} wz_driver;

/* A keyboard with its flash, its USB device layer and its driver. */
typedef union wz_device {
    uint64_t aligned;
    uint8_t opaque[WZ_DEVICE_BYTES];
} wz_device;

/* Starts a keyboard as wz_keyboard_start does, behind a controller whose bus was not reset yet. WZ_PAGES, WZ_CODE, WZ_RANGE for
 * the pace or a number of the identity. */
int wz_device_start(wz_device *device, const wz_flash *flash, const wz_layout *layout, uint16_t pace,
                    const wz_identity *identity, const wz_driver *driver);

/* Takes what the controller has met, and fills its buffers. Call it when an interrupt of the controller has come, and after
 * each scan and each work; it may be called at any time. */
int wz_device_serve(wz_device *device);

/* As the calls of wz_keyboard. */
int wz_device_scan(wz_device *device, const uint16_t *rows);
int wz_device_work(wz_device *device);
int wz_device_set_locked(wz_device *device, int locked);
int wz_device_leds(wz_device *device);
int wz_device_code(wz_device *device, uint8_t layer, uint8_t key);
int wz_device_is_first_start(wz_device *device);

/* What endpoint 1 is: an enum wz_endpoint (USB 2.0 section 9.4.5). */
int wz_device_endpoint_1(wz_device *device);

/* The bus was idle for 3 ms, or goes on (USB 2.0 sections 7.1.7.6 and 7.1.7.7). */
int wz_device_suspended(wz_device *device);
int wz_device_resumed(wz_device *device);

/* 1 once in each suspend, where the host enabled remote wakeup and a report waits: signal K for 1 to 15 ms, not before the bus
 * was idle for 5 ms (USB 2.0 section 7.1.7.7). Else 0. Call it after wz_device_serve. */
int wz_device_wakes(wz_device *device);

/* ---- Log: words of 32 bits that no loss of power spoils (docs/log.md) ---- */

/* A log with its flash. A page holds 511 words. */
typedef union wz_log {
    uint64_t aligned;
    uint8_t opaque[WZ_LOG_BYTES];
} wz_log;

/* What wz_log_state tells, a bit each. */
enum wz_log_bits {
    WZ_LOG_BUSY = 1,       /* an append or a compaction is in progress */
    WZ_LOG_WANTS = 2,      /* a compaction waits for a word to copy, or for their end */
    WZ_LOG_WANTS_COPY = 4, /* and it has room for a word */
    WZ_LOG_ROOM = 8,       /* the active page has room for a word */
    WZ_LOG_UNSOUND = 16    /* slot 0 of a page is not sound */
};

/* Mounts the log of a flash, which is read and not written. WZ_PAGES. */
int wz_log_start(wz_log *log, const wz_flash *flash);

/* Writes the words of the log, the oldest first, as many as there is room for, and gives how many there are, 0 to 511. */
int wz_log_words(wz_log *log, uint32_t *words, size_t room);

/* Appends a word by one program; it is stored when WZ_OK is returned. WZ_NOT_NOW, WZ_UNSOUND, WZ_NO_ROOM: wz_log_rewrite makes
 * some, and a blank flash needs it first; WZ_FAULT. */
int wz_log_push(wz_log *log, uint32_t word);

/* Compacts to the next page with these words alone, at most 511, which are in force at once: at most one erase, a program for
 * each and one for the header. WZ_LENGTH for more; WZ_NOT_NOW, WZ_UNSOUND, WZ_WORN, WZ_FAULT: the words before stay. */
int wz_log_rewrite(wz_log *log, const uint32_t *words, size_t count);

/* The same with the words that keep answers by another number than 0. It may not call the log. */
int wz_log_rewrite_with(wz_log *log, int (*keep)(void *context, uint32_t word), void *context);

/* Erases all pages, and so each word. WZ_FAULT: some are erased. */
int wz_log_format(wz_log *log);

/* The bits of enum wz_log_bits. */
int wz_log_state(wz_log *log);

/* The same a flash operation at a time. WZ_NOT_NOW, WZ_UNSOUND, WZ_NO_ROOM or WZ_WORN where it can't begin. */
int wz_log_append(wz_log *log, uint32_t word);
int wz_log_turn(wz_log *log);
int wz_log_copy(wz_log *log, uint32_t word);
int wz_log_end_copies(wz_log *log);

/* Makes the next flash operation. 0: none was to be made. 1: one was made. 2: the word, or the compaction, is stored. WZ_FAULT:
 * what was in progress is given up. */
int wz_log_step(wz_log *log);

/* ---- Settings: values of 0 to 64 bytes under ids of 16 bits (docs/log.md). This part may change. ---- */

#define WZ_SETTING_BYTES 64
#define WZ_REMOVE 0xffffu

/* Settings with their flash. A value of n bytes takes 1 + (n + 2) / 3 of the 511 words of a page. */
typedef union wz_settings {
    uint64_t aligned;
    uint8_t opaque[WZ_SETTINGS_BYTES];
} wz_settings;

/* Mounts the settings of a flash, which is read and not written. WZ_PAGES. */
int wz_settings_start(wz_settings *settings, const wz_flash *flash);

/* Writes the value of an id, and gives its length, 0 to 64. WZ_ABSENT where it has none; WZ_ROOM, and nothing is written. */
int wz_settings_get(wz_settings *settings, uint16_t id, uint8_t *bytes, size_t room);

/* The same for the first id of from or above that has a value; the id goes to *id. Begin with 0, and go on with *id + 1, until
 * WZ_ABSENT; a from of 65,536 or more gives that, too. Each call reads all earlier values. */
int wz_settings_next(wz_settings *settings, uint32_t from, uint16_t *id, uint8_t *bytes, size_t room);

/* Stores a value, and returns when it is stored; nothing is written where the id has it. It makes 1 to 23 programs, and one for
 * each word of all values and an erase where the page is full. WZ_TOO_LONG, then WZ_UNSOUND, WZ_FOREIGN, WZ_FULL, WZ_WORN,
 * WZ_FAULT: all values are as before. */
int wz_settings_set(wz_settings *settings, uint16_t id, const uint8_t *bytes, size_t length);

/* Takes an id its value; nothing is written where it has none. The statuses of wz_settings_set. */
int wz_settings_remove(wz_settings *settings, uint16_t id);

/* A change: a value of length bytes, or WZ_REMOVE, of an id. */
typedef struct wz_change {
    const uint8_t *bytes;
    uint16_t id;
    uint16_t length;
} wz_change;

/* Memory for a change while it is stored. */
typedef union wz_change_memory {
    uint64_t aligned;
    uint8_t opaque[WZ_CHANGE_BYTES];
} wz_change_memory;

/* Stores at most 1,022 changes, of one id the last one: a loss of power leaves all of them or none. It needs memory for each, for
 * this call alone. A compaction, unless there is one change. WZ_LENGTH for more, and the statuses of wz_settings_set. */
int wz_settings_transaction(wz_settings *settings, const wz_change *changes, size_t count, wz_change_memory *memory);

/* Compacts the values to the next page, which then has room for changes. The statuses of wz_settings_set. */
int wz_settings_compact(wz_settings *settings);

/* How many of the 511 words of a page no value takes. */
int wz_settings_room_left(wz_settings *settings);

/* Erases all pages, and so all values, and starts on them. WZ_PAGES, WZ_FAULT: some are erased. */
int wz_settings_format(wz_settings *settings, const wz_flash *flash);

/* ---- Settings on all pages: values of 0 to 1,024 bytes under ids of 16 bits (docs/log.md). This part may change. ----
 *
 * Each call is lent the flash, and keeps nothing: there is nothing to start. WZ_NULL and WZ_PAGES as of the flash. Of N pages N - 1
 * hold values; a value of n bytes takes 1 + (n + 2) / 3 of the 510 slots of a page. */

#define WZ_STORE_BYTES 1024

/* The length of the value of an id, 0 to 1,024. WZ_ABSENT. */
int wz_store_length(const wz_flash *flash, uint16_t id);

/* Writes the value of an id, and gives its length. WZ_ABSENT; WZ_ROOM, and nothing is written; WZ_DAMAGED. */
int wz_store_get(const wz_flash *flash, uint16_t id, uint8_t *bytes, size_t room);

/* Writes the ids that have a value, each once and in no order that is promised, and gives their number. WZ_ROOM where there are
 * more; some are written then. */
int wz_store_ids(const wz_flash *flash, uint16_t *ids, size_t room);

/* Stores a value, and returns when it is stored; nothing is written where the id has it. Where the newest page is full, at most
 * N - 1 pages move, by an erase and up to 511 programs each. WZ_TOO_LONG, then WZ_FOREIGN, WZ_DAMAGED, WZ_FULL, WZ_WORN, WZ_FAULT:
 * all values are as before. */
int wz_store_set(const wz_flash *flash, uint16_t id, const uint8_t *bytes, size_t length);

/* Takes an id its value; nothing is written where it has none. The statuses of wz_store_set, but WZ_FULL. */
int wz_store_remove(const wz_flash *flash, uint16_t id);

/* Stores at most 16 changes, of one id the last one: a loss of power leaves all of them or none. WZ_LENGTH for more, and the
 * statuses of wz_store_set. */
int wz_store_transaction(const wz_flash *flash, const wz_change *changes, size_t count);

/* Erases all pages, and so all values. WZ_FAULT: some are erased. */
int wz_store_format(const wz_flash *flash);

#ifdef __cplusplus
}
#endif

#endif
