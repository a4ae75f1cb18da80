/* SPDX-License-Identifier: MIT OR Apache-2.0 */
/* Vectors and start-up, for the linker script of examples/chip_nrf51: what is in RAM begins as zeros, and no interrupt is taken.
 * Of the reserved vectors bin/board-test reads how deep the stack may go, and the bytes of the log. */
    .syntax unified
    .cpu cortex-m0
    .thumb
    .section .vectors, "a"
    .word stack_top, reset, hard_fault, hard_fault
    .word 0, 0, 0, 0
    .word bss_end, 8192, 0, hard_fault
    .word 0, 0, hard_fault, hard_fault
    .rept 32
    .word hard_fault
    .endr
    .section .text.reset, "ax"
    .global reset
    .thumb_func
reset:
    cpsid i
    ldr r0, =bss_start
    ldr r1, =bss_end
    movs r2, #0
1:  cmp r0, r1
    bhs 2f
    stm r0!, {r2}
    b 1b
2:  bl run
    .thumb_func
hard_fault:
    b hard_fault
    .pool
    .section .note.GNU-stack, "", %progbits
