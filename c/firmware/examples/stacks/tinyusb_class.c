// SPDX-License-Identifier: MIT OR Apache-2.0
/* A class driver for TinyUSB, in place of its HID class: a command is stored at the data stage, before TinyUSB sends the status
 * packet, so that what the host saw confirmed is in the flash. TinyUSB's own HID class calls behind the status packet.
 *
 * All of it runs in tud_task. Call keyboard_task in the same loop, and scan each millisecond. The configuration descriptor is
 * that of wz_descriptor(2, ..), with your own bMaxPower; endpoint 1 may have packets of 8 to 64 bytes. */
#include "keyboard.h"

#include "device/usbd_pvt.h"
#include "tusb.h"

#define ENDPOINT_1 0x81

wz_keyboard keyboard;

static uint8_t data[64], bytes[WZ_READ_BYTES], report[WZ_REPORT_BYTES];

static void init(void) {}

static void reset(uint8_t rhport) {
    (void)rhport;
    wz_keyboard_bus_reset(&keyboard);
}

/* Takes the interface: 9 bytes, the HID descriptor of 9, and endpoint 1 of 7. */
static uint16_t open(uint8_t rhport, tusb_desc_interface_t const *interface, uint16_t length) {
    const uint8_t *endpoint = (const uint8_t *)interface + 18;
    if (interface->bInterfaceClass != TUSB_CLASS_HID || length < 25)
        return 0;
    return usbd_edpt_open(rhport, (tusb_desc_endpoint_t const *)(const void *)endpoint) ? 25 : 0;
}

static bool control(uint8_t rhport, uint8_t stage, tusb_control_request_t const *request) {
    const uint8_t *setup = (const uint8_t *)request;
    bool reads = (setup[0] & 0x80) != 0;
    int done;
    if (stage == CONTROL_STAGE_SETUP && reads) {
        done = wz_keyboard_read(&keyboard, setup, bytes, sizeof bytes);
        return done >= 0 && tud_control_xfer(rhport, request, bytes, (uint16_t)done);
    }
    if (stage == CONTROL_STAGE_SETUP && request->wLength > 0)
        return request->wLength <= sizeof data && tud_control_xfer(rhport, request, data, request->wLength);
    if (stage == CONTROL_STAGE_SETUP)
        return wz_keyboard_write(&keyboard, setup, NULL, 0) == WZ_OK && tud_control_status(rhport, request);
    /* Here a command is stored. Where it is not, TinyUSB stalls the status stage. */
    if (stage == CONTROL_STAGE_DATA && !reads)
        return wz_keyboard_write(&keyboard, setup, data, request->wLength) == WZ_OK;
    return true;
}

static bool sent(uint8_t rhport, uint8_t endpoint, xfer_result_t result, uint32_t count) {
    (void)rhport, (void)endpoint, (void)result, (void)count;
    return true;
}

usbd_class_driver_t const *usbd_app_driver_get_cb(uint8_t *count) {
    static usbd_class_driver_t const DRIVER = {
        .init = init, .reset = reset, .open = open, .control_xfer_cb = control, .xfer_cb = sent, .sof = NULL};
    *count = 1;
    return &DRIVER;
}

void keyboard_task(void) {
    if (tud_ready() && !usbd_edpt_busy(0, ENDPOINT_1)) {
        int length = wz_keyboard_poll(&keyboard, report);
        if (length > 0)
            usbd_edpt_xfer(0, ENDPOINT_1, report, (uint16_t)length);
    }
    wz_keyboard_work(&keyboard);
}
