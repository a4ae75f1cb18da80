// SPDX-License-Identifier: MIT OR Apache-2.0
/* The flash controller and the UART of an nRF51 (nRF51 Series Reference Manual 3.0, chapters 6 and 29), and the log's pages. */
#ifndef CHIP_H
#define CHIP_H

#include "wuzhikar.h"

#define REGISTER(address) (*(volatile uint32_t *)(address))

#define NVMC_READY REGISTER(0x4001E400u)
#define NVMC_CONFIG REGISTER(0x4001E504u)
#define NVMC_ERASE_PAGE REGISTER(0x4001E508u)
#define UART_START_RX REGISTER(0x40002000u)
#define UART_START_TX REGISTER(0x40002008u)
#define UART_RX_READY REGISTER(0x40002108u)
#define UART_TX_READY REGISTER(0x4000211Cu)
#define UART_INTERRUPTS_ON REGISTER(0x40002304u)
#define UART_ENABLE REGISTER(0x40002500u)
#define UART_RX REGISTER(0x40002518u)
#define UART_TX REGISTER(0x4000251Cu)
#define NVIC_ON REGISTER(0xE000E100u)
#define NVIC_CLEAR REGISTER(0xE000E280u)

enum { OFF = 0, WRITE = 1, ERASE = 2 };

#define PAGES 2u
#define LOG (PAGES * WZ_PAGE_BYTES)
/* The last pages of 256 KB are the log's. */
#define LOG_START (256u * 1024u - LOG)
#define ERASE_UNIT 1024u

static inline void flash_wait(void) {
    while (!(NVMC_READY & 1)) {
    }
}

/* Behind what was done in the mode before. */
static inline void flash_mode(uint32_t mode) {
    flash_wait();
    NVMC_CONFIG = mode;
    flash_wait();
}

static inline void flash_word(uint32_t at, const uint8_t *bytes) {
    flash_mode(WRITE);
    REGISTER(at) = bytes[0] | (uint32_t)bytes[1] << 8 | (uint32_t)bytes[2] << 16 | (uint32_t)bytes[3] << 24;
    flash_mode(OFF);
}

static void read_slot(void *context, size_t page, size_t slot, uint8_t *bytes) {
    const volatile uint8_t *from = (const volatile uint8_t *)(LOG_START + page * WZ_PAGE_BYTES + slot * WZ_SLOT_BYTES);
    (void)context;
    for (int at = 0; at < WZ_SLOT_BYTES; at++)
        bytes[at] = from[at];
}

static int program_slot(void *context, size_t page, size_t slot, const uint8_t *bytes) {
    uint32_t at = LOG_START + page * WZ_PAGE_BYTES + slot * WZ_SLOT_BYTES;
    (void)context;
    flash_word(at, bytes);
    flash_word(at + 4, bytes + 4);
    return 0;
}

static int erase_page(void *context, size_t page) {
    (void)context;
    for (uint32_t at = 0; at < WZ_PAGE_BYTES; at += ERASE_UNIT) {
        flash_mode(ERASE);
        NVMC_ERASE_PAGE = LOG_START + page * WZ_PAGE_BYTES + at;
        flash_mode(OFF);
    }
    return 0;
}

static const wz_flash FLASH = {NULL, PAGES, read_slot, program_slot, erase_page};

static inline void uart_start(void) {
    UART_ENABLE = 4;
    UART_INTERRUPTS_ON = 1u << 2;
    NVIC_ON = 1u << 2;
    UART_START_TX = 1;
    UART_START_RX = 1;
}

static inline int uart_waits(void) { return UART_RX_READY != 0; }

/* Until an interrupt is pending. None is taken, since the core's own mask is set. */
static inline void uart_sleep(void) { __asm__ volatile("wfi"); }

static inline uint8_t uart_byte(void) {
    while (!uart_waits())
        uart_sleep();
    UART_RX_READY = 0;
    NVIC_CLEAR = 1u << 2;
    return (uint8_t)UART_RX;
}

static inline void uart_send(const uint8_t *bytes, size_t length) {
    for (size_t at = 0; at < length; at++) {
        UART_TX_READY = 0;
        UART_TX = bytes[at];
        while (!UART_TX_READY) {
        }
    }
}

#endif
