// SPDX-License-Identifier: MIT OR Apache-2.0
/* The firmware of examples/chip_nrf51 in C, with buffers: the tokens of the bus and the scans of the matrix come by the UART, one
 * request at a time (the table is in its src/main.rs), and are answered from buffers before the device is asked. */
#include "chip.h"

/* A controller with one buffer each. */
static struct {
    wz_waiting met;
    size_t taken_1, length_0, length_1;
    int input_0, output_0, endpoint_1, has_report;
    uint8_t packet_0[8], packet_1[WZ_REPORT_BYTES], address;
    uint8_t change[2]; /* what the host's side is told of with the next frame: a change, or a reset */
} bus;

static wz_device device;

static void clear(void *bytes, size_t length) {
    for (volatile uint8_t *at = bytes; length > 0; length--)
        *at++ = 0;
}

static void copy(uint8_t *to, const uint8_t *from, size_t length) {
    while (length-- > 0)
        *to++ = *from++;
}

static void tell_change(uint8_t kind, uint8_t value) {
    bus.change[0] = kind;
    bus.change[1] = value;
}

/* A reset or a SETUP packet was met that the device has not seen. */
static int is_late(void) { return bus.met.reset || bus.met.has_setup; }

static void waiting(void *context, wz_waiting *met) {
    (void)context;
    *met = bus.met;
    clear(&bus.met, sizeof bus.met);
}

static void input_0(void *context, int answer, const uint8_t *packet, size_t length) {
    (void)context;
    if (is_late())
        return;
    bus.input_0 = answer;
    bus.length_0 = length;
    copy(bus.packet_0, packet, length);
}

static void output_0(void *context, int answer) {
    (void)context;
    if (!is_late())
        bus.output_0 = answer;
}

static void set_address(void *context, uint8_t address) {
    (void)context;
    if (bus.address != address)
        tell_change(2, address);
    bus.address = address;
}

static int has_two(void *context) {
    (void)context;
    return 0;
}

static size_t taken_1(void *context) {
    size_t taken = bus.taken_1;
    (void)context;
    bus.taken_1 = 0;
    return taken;
}

static void give_up(void *context) {
    (void)context;
    bus.has_report = 0;
    bus.taken_1 = 0;
}

static void begin_anew(void *context, int endpoint) {
    give_up(context);
    bus.endpoint_1 = endpoint;
    tell_change(3, (uint8_t)endpoint);
}

static void host_began(void *context) { (void)context; }

static void forget(void *context) {
    give_up(context);
    bus.endpoint_1 = WZ_ENDPOINT_OFF;
    tell_change(1, 0);
}

static void input_1(void *context, const uint8_t *packet, size_t length) {
    (void)context;
    copy(bus.packet_1, packet, length);
    bus.length_1 = length;
    bus.has_report = 1;
}

static const wz_driver DRIVER = {NULL,    waiting,    input_0, output_0,   set_address, has_two,
                                 taken_1, begin_anew, give_up, host_began, forget,      input_1};

static const uint16_t MAKER[] = {'E', 'x', 'a', 'm', 'p', 'l', 'e'};
static const uint16_t PRODUCT[] = {'W', 'u', 'z', 'h', 'i', 'k', 'a', 'r', ' ', 'k', 'e', 'y', 'b', 'o', 'a', 'r', 'd'};
static const uint16_t SERIAL[] = {'n', 'R', 'F', '5', '1'};
static const wz_identity IDENTITY = {{MAKER, 7}, {PRODUCT, 17}, {SERIAL, 5}, 0x1209, 1, 0x0100, 100, 16, 1, 0, 0};

static void send(uint8_t kind, const uint8_t *bytes, size_t length) {
    int leds = wz_device_leds(&device);
    const uint8_t head[5] = {kind, (uint8_t)(leds < 0 ? 0 : leds), bus.change[0], bus.change[1], (uint8_t)length};
    uart_send(head, sizeof head);
    uart_send(bytes, length);
    tell_change(0, 0);
}

/* A panic is told, and stops the keyboard; a watchdog would start it again. */
void wz_panic(void) {
    send('!', NULL, 0);
    for (;;) {
    }
}

static void receive(uint8_t *bytes, size_t length) {
    while (length-- > 0)
        *bytes++ = uart_byte();
}

/* Passes over the rest of a request of the time before, which has at most 13 bytes. */
static void begin(void) {
    for (int count = 0;;) {
        uint8_t byte = uart_byte();
        if (byte == 0x17 && count >= 14)
            return;
        count = byte == 0x16 ? count + 1 : 0;
    }
}

static void scan(void) {
    uint8_t bytes[12];
    uint16_t rows[6];
    receive(bytes, sizeof bytes);
    for (int row = 0; row < 6; row++)
        rows[row] = (uint16_t)(bytes[2 * row] | bytes[2 * row + 1] << 8);
    wz_device_scan(&device, rows);
}

static uint8_t out(void) {
    uint8_t bytes[9];
    receive(bytes, sizeof bytes);
    if (bus.output_0 != WZ_OUTPUT_TAKE)
        return bus.output_0 == WZ_OUTPUT_STALL ? 'S' : 'N';
    bus.met.has_out = 1;
    bus.met.out_length = bytes[0] < 8 ? bytes[0] : 8;
    copy(bus.met.out, bytes + 1, 8);
    bus.output_0 = WZ_OUTPUT_NAK;
    return 'A';
}

static uint8_t in_0(void) {
    if (bus.input_0 != WZ_INPUT_PACKET)
        return bus.input_0 == WZ_INPUT_STALL ? 'S' : 'N';
    bus.input_0 = WZ_INPUT_NAK;
    bus.met.taken = 1;
    return 'D';
}

static uint8_t in_1(void) {
    if (bus.endpoint_1 != WZ_ENDPOINT_READY)
        return bus.endpoint_1 == WZ_ENDPOINT_OFF ? 'k' : 'S';
    if (!bus.has_report)
        return 'N';
    bus.has_report = 0;
    bus.taken_1++;
    return 'D';
}

static void setup(void) {
    receive(bus.met.setup, 8);
    bus.met.has_setup = 1;
    bus.input_0 = WZ_INPUT_NAK;
    bus.output_0 = WZ_OUTPUT_NAK;
}

/* Sends a layer of the keymap in RAM: what a firmware in the field has no use for, and a test has. */
static void dump(void) {
    uint8_t layer = uart_byte(), bytes[2 * WZ_KEYS];
    for (uint8_t key = 0; key < WZ_KEYS; key++) {
        int code = wz_device_code(&device, layer, key);
        bytes[2 * key] = (uint8_t)code;
        bytes[2 * key + 1] = (uint8_t)(code >> 8);
    }
    send('D', bytes, sizeof bytes);
}

/* What one request asks for: the token is answered from the buffers, and then the device is asked. */
static void serve(void) {
    uint8_t request = uart_byte(), kind = 'k', packet[WZ_REPORT_BYTES];
    size_t length = 0;
    switch (request) {
    case 'm': scan(); break;
    case 's': setup(); break;
    case 'o': kind = out(); break;
    case 'i':
        length = bus.length_0;
        copy(packet, bus.packet_0, length);
        kind = in_0();
        break;
    case 'p':
        length = bus.length_1;
        copy(packet, bus.packet_1, length);
        kind = in_1();
        break;
    case 'r':
        clear(&bus, sizeof bus);
        bus.met.reset = 1;
        break;
    case 'd': dump(); return;
    default: return;
    }
    wz_device_serve(&device);
    send(kind, packet, kind == 'D' ? length : 0);
}

void run(void) {
    uart_start();
    if (wz_device_start(&device, &FLASH, NULL, 0, &IDENTITY, &DRIVER) < 0)
        return;
    send('B', NULL, 0);
    begin();
    send('k', NULL, 0);
    for (;;) {
        while (!uart_waits()) {
            int may_work = wz_device_work(&device);
            wz_device_serve(&device);
            if (may_work == 0)
                uart_sleep();
        }
        serve();
    }
}
