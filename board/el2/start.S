/*
 * EL2: where a core starts, and where it comes back to when its guest traps.
 *
 * A trap's frame is what ritm_save takes, struct ritm_registers: x0 to x30, ELR_EL2 and SPSR_EL2, a word each.
 *
 * The program is loaded with its .bss cleared and nothing of it in a cache, as QEMU does; on a board the loader has to.
 */
#include "stack.inc"

#define FRAME_SIZE 272 /* 33 words, and 8 bytes that keep SP at a multiple of 16 */

/* System registers of EL2 (Arm DDI 0601). */
#define HCR_EL2 0x80000000   /* RW; E2H is clear, so that the next two mean what they say */
#define MAIR_EL2 0xff00      /* attribute 0 is device memory, 1 is write-back */
#define TCR_EL2 0x80823519   /* 39 bits of address, 4 KiB granule, write-back, 40 bits of output */
#define SCTLR_EL2 0x30c51837 /* I, C, A, M: caches, every access aligned, the MMU */

    .text
    .global _start
_start:
    /* The MMU comes first: what is stored without it may be read stale with it. */
    ldr x2, =HCR_EL2
    msr hcr_el2, x2
    ldr x2, =MAIR_EL2
    msr mair_el2, x2
    ldr x2, =TCR_EL2
    msr tcr_el2, x2
    adrp x2, el2_table
    msr ttbr0_el2, x2
    isb
    tlbi alle2
    dsb sy
    isb
    ldr x2, =SCTLR_EL2
    msr sctlr_el2, x2
    isb
    take_stack
    adrp x2, vectors
    add x2, x2, :lo12:vectors
    msr vbar_el2, x2
    sub sp, sp, #FRAME_SIZE
    mov x0, sp
    bl start_core
    b enter_guest

sync_lower:
    sub sp, sp, #FRAME_SIZE
    stp x0, x1, [sp, #16 * 0]
    stp x2, x3, [sp, #16 * 1]
    stp x4, x5, [sp, #16 * 2]
    stp x6, x7, [sp, #16 * 3]
    stp x8, x9, [sp, #16 * 4]
    stp x10, x11, [sp, #16 * 5]
    stp x12, x13, [sp, #16 * 6]
    stp x14, x15, [sp, #16 * 7]
    stp x16, x17, [sp, #16 * 8]
    stp x18, x19, [sp, #16 * 9]
    stp x20, x21, [sp, #16 * 10]
    stp x22, x23, [sp, #16 * 11]
    stp x24, x25, [sp, #16 * 12]
    stp x26, x27, [sp, #16 * 13]
    stp x28, x29, [sp, #16 * 14]
    mrs x0, elr_el2
    mrs x1, spsr_el2
    stp x30, x0, [sp, #16 * 15]
    str x1, [sp, #16 * 16]
    mov x0, sp
    mrs x1, mpidr_el1
    and x1, x1, #0xff
    bl handle_sync_lower

enter_guest:
    ldr x1, [sp, #16 * 16]
    ldp x30, x0, [sp, #16 * 15]
    msr spsr_el2, x1
    msr elr_el2, x0
    ldp x28, x29, [sp, #16 * 14]
    ldp x26, x27, [sp, #16 * 13]
    ldp x24, x25, [sp, #16 * 12]
    ldp x22, x23, [sp, #16 * 11]
    ldp x20, x21, [sp, #16 * 10]
    ldp x18, x19, [sp, #16 * 9]
    ldp x16, x17, [sp, #16 * 8]
    ldp x14, x15, [sp, #16 * 7]
    ldp x12, x13, [sp, #16 * 6]
    ldp x10, x11, [sp, #16 * 5]
    ldp x8, x9, [sp, #16 * 4]
    ldp x6, x7, [sp, #16 * 3]
    ldp x4, x5, [sp, #16 * 2]
    ldp x2, x3, [sp, #16 * 1]
    ldp x0, x1, [sp, #16 * 0]
    add sp, sp, #FRAME_SIZE
    eret

unexpected:
    bl handle_unexpected
    b .

/* Sixteen vectors: all are unexpected but a synchronous exception of a guest in AArch64 or AArch32 state. */
    .balign 0x800
vectors:
    .irp target, unexpected, unexpected, unexpected, unexpected, unexpected, unexpected, unexpected, unexpected, \
                 sync_lower, unexpected, unexpected, unexpected, sync_lower, unexpected, unexpected, unexpected
    .balign 0x80
    b \target
    .endr

/* EL2's own addresses: 1 GiB of devices, never executed, then 1 GiB of memory, inner shareable. */
    .section .rodata
    .balign 0x1000
el2_table:
    .quad 0x40000000000441
    .quad 0x40000745
    .skip 510 * 8
