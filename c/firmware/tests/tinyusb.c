// SPDX-License-Identifier: MIT OR Apache-2.0
/* The class driver of examples/stacks/tinyusb_class.c under a stack that is played: what its status stage confirms is stored. */
#include "../examples/stacks/tinyusb_class.c"
#include "played_flash.h"

void wz_panic(void) { abort(); }

static played_flash flash;
static void *buffer;
static uint16_t asked;
static int has_status, is_open, is_busy, reported;

bool tud_ready(void) { return true; }

bool tud_control_xfer(uint8_t rhport, tusb_control_request_t const *request, void *to, uint16_t length) {
    NEEDS(rhport == 0 && length <= request->wLength);
    buffer = to;
    asked = length;
    return true;
}

bool tud_control_status(uint8_t rhport, tusb_control_request_t const *request) {
    has_status = rhport == 0 && request->wLength == 0;
    return true;
}

bool usbd_edpt_open(uint8_t rhport, tusb_desc_endpoint_t const *endpoint) {
    is_open = rhport == 0 && endpoint->bEndpointAddress == 0x81 && endpoint->wMaxPacketSize == 32;
    return is_open;
}

bool usbd_edpt_busy(uint8_t rhport, uint8_t endpoint) { return rhport != 0 || endpoint != 0x81 || is_busy; }

bool usbd_edpt_xfer(uint8_t rhport, uint8_t endpoint, uint8_t *bytes_of, uint16_t length) {
    NEEDS(rhport == 0 && endpoint == 0x81 && length == 23);
    reported = bytes_of[2];
    is_busy = 1;
    return true;
}

/* As TinyUSB makes a control transfer: the number of bytes, or -1 where it stalls. */
static int transfer(const uint8_t *packet, const uint8_t *out, uint8_t *in) {
    uint8_t count = 0;
    usbd_class_driver_t const *driver = usbd_app_driver_get_cb(&count);
    tusb_control_request_t request;
    memcpy(&request, packet, sizeof request);
    NEEDS(count == 1 && sizeof request == 8);
    if (!driver->control_xfer_cb(0, CONTROL_STAGE_SETUP, &request))
        return -1;
    if (request.wLength == 0)
        return has_status ? 0 : -1;
    if (out != NULL)
        memcpy(buffer, out, asked);
    else
        memcpy(in, buffer, asked);
    if (!driver->control_xfer_cb(0, CONTROL_STAGE_DATA, &request))
        return -1;
    NEEDS(driver->control_xfer_cb(0, CONTROL_STAGE_ACK, &request));
    return asked;
}

static void start(void) {
    wz_flash table = table_of(&flash);
    NEEDS(wz_keyboard_start(&keyboard, &table, NULL, 0) == WZ_OK);
}

int main(void) {
    static const uint8_t SET_REPORT[8] = {0x21, 9, 3, 3, 0, 0, 6, 0}, GET_REPORT_MAP[8] = {0x81, 6, 0, 0x22, 0, 0, 99, 0};
    static const uint8_t SET_IDLE[8] = {0x21, 10, 0, 0, 0, 0, 0, 0}, B[6] = {3, 1, 0, 0, 5, 0}, WRONG[6] = {3, 1, 0, 0, 2, 0};
    const uint8_t *configuration;
    uint16_t rows[6] = {1};
    uint8_t map[99], count;
    blank(&flash);
    start();
    NEEDS(wz_descriptor(2, &configuration) == 34);
    tusb_desc_interface_t const *interface = (tusb_desc_interface_t const *)(configuration + 9);
    NEEDS(usbd_app_driver_get_cb(&count)->open(0, interface, 25) == 25 && is_open);
    NEEDS(transfer(GET_REPORT_MAP, NULL, map) == 99 && map[0] == 5 && transfer(SET_IDLE, NULL, NULL) == 0);
    NEEDS(transfer(SET_REPORT, WRONG, NULL) == -1 && transfer(SET_REPORT, B, NULL) == 6);
    /* The power goes where TinyUSB has said so: the key is stored. A write that the flash fails is stalled. */
    memset(&keyboard, 0, sizeof keyboard);
    start();
    for (int scan = 0; scan < 5; scan++)
        wz_keyboard_scan(&keyboard, rows);
    keyboard_task();
    NEEDS(reported == 2);
    flash.cut = 0;
    NEEDS(transfer(SET_REPORT, (const uint8_t[6]){3, 1, 0, 0, 6, 0}, NULL) == -1);
    usbd_app_driver_get_cb(&count)->reset(0);
    puts("a class driver for TinyUSB confirms what is stored");
    return 0;
}
