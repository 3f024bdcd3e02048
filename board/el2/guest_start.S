/*
 * EL1: where the guest starts, its exception vectors, and the instructions whose traps are looked at.
 */
#include "stack.inc"

/* What the vectors note of an exception: struct seen of guest.c. */
#define SEEN_COUNT 0
#define SEEN_VECTOR 8
#define SEEN_ESR 16
#define SEEN_ELR 24
#define SEEN_FAR 32
#define SEEN_SPSR 40
#define SEEN_PSTATE 48

#define EC_SVC_AARCH32 0x11
#define EC_SVC_AARCH64 0x15
#define SPSR_EL0T 0x3c0
#define SPSR_EL0_AARCH32 0x1d0
#define SPSR_EL1H 0x305

/* Numbers of registers, for .irp. */
#define X1_TO_X30 1, 2, 3, 4, 5, 6, 7, 8, 9, 10, 11, 12, 13, 14, 15, 16, 17, 18, 19, 20, 21, 22, 23, 24, 25, 26, 27, \
    28, 29, 30
#define X0_TO_X30 0, X1_TO_X30
#define X0_TO_XZR 0, X1_TO_X30, 31

    .text
    .global _start
_start:
    take_stack
    /* SP_EL0 has a stack too: an abort that comes with it is noted like any other. */
    sub x2, sp, #STACK_SIZE / 2
    msr sp_el0, x2
    bl start_guest
    b .

/* x0: the vector's address, x2: the flags. Notes the exception and goes on behind the instruction that made it. */
note:
    adr x1, guest_vectors
    sub x0, x0, x1
    mrs x1, daif
    orr x2, x2, x1
    mrs x1, currentel
    orr x2, x2, x1
    mrs x1, spsel
    orr x2, x2, x1
    mrs x1, esr_el1
    lsr x1, x1, #26
    cmp x1, #EC_SVC_AARCH32
    b.eq leave_el0
    cmp x1, #EC_SVC_AARCH64
    b.eq leave_el0
    adrp x1, seen
    add x1, x1, :lo12:seen
    str x0, [x1, #SEEN_VECTOR]
    str x2, [x1, #SEEN_PSTATE]
    mrs x0, esr_el1
    str x0, [x1, #SEEN_ESR]
    mrs x0, far_el1
    str x0, [x1, #SEEN_FAR]
    mrs x0, spsr_el1
    str x0, [x1, #SEEN_SPSR]
    ldr x0, [x1, #SEEN_COUNT]
    add x0, x0, #1
    str x0, [x1, #SEEN_COUNT]
    mrs x0, elr_el1
    str x0, [x1, #SEEN_ELR]
    add x0, x0, #4
    msr elr_el1, x0
    b leave

/* SVC is how EL0 comes back: to where it was entered from, at EL1. */
leave_el0:
    adr x0, back_from_el0
    msr elr_el1, x0
    mov x0, #SPSR_EL1H
    msr spsr_el1, x0
leave:
    ldr x2, [sp, #16]
    ldp x0, x1, [sp], #32
    eret

    .macro vector
    .balign 0x80
    stp x0, x1, [sp, #-32]!
    str x2, [sp, #16]
    mrs x2, nzcv
    adr x0, . - 12
    b note
    .endm

    .balign 0x800
    .global guest_vectors
guest_vectors:
    .rept 16
    vector
    .endr

/* x0: address, x1: what Rt holds before. Gives what Rt, x5, holds after. The access is the fourth instruction. */
    .macro probe name, access:vararg
    .global \name
\name:
    mov x6, x0
    mov x5, x1
    cmp xzr, xzr
    \access
    mov x0, x5
    ret
    .endm

    probe load_u8, ldrb w5, [x6]
    probe load_u16, ldrh w5, [x6]
    probe load_u32, ldr w5, [x6]
    probe load_64, ldr x5, [x6]
    probe load_s8_to_32, ldrsb w5, [x6]
    probe load_s16_to_32, ldrsh w5, [x6]
    probe load_s8_to_64, ldrsb x5, [x6]
    probe load_s16_to_64, ldrsh x5, [x6]
    probe load_s32_to_64, ldrsw x5, [x6]
    probe load_acquire, ldar x5, [x6]
    probe load_unscaled, ldur x5, [x6, #-1]
    probe load_unprivileged, ldtr x5, [x6]
    probe load_register_offset, ldr x5, [x6, xzr]
    probe load_exclusive, ldxr x5, [x6]
    probe load_post_index, ldr x5, [x6], #8
    probe load_pair, ldp x5, x7, [x6]
    probe store_8, strb w5, [x6]
    probe store_16, strh w5, [x6]
    probe store_32, str w5, [x6]
    probe store_64, str x5, [x6]
    probe store_zero, str xzr, [x6]
    probe store_release, stlr x5, [x6]
    probe store_pair, stp x5, x7, [x6]
    probe branch, br x6

/* x0: address of loads, x1: of stores. Gives 1 where each of four accesses in a row is made, and the loads give 0. */
    .global access_in_a_row
access_in_a_row:
    mov x6, x0
    mov x7, x1
    mov x0, #-1
    mov x1, #-1
    ldr x0, [x6]
    ldrb w1, [x6]
    str x0, [x7]
    strb w1, [x7]
    add x0, x0, #1
    add x0, x0, x1
    ret

/* x0: address, x1: what Rt holds before, x2: probe. The probe from EL1 with SP_EL0, and from EL0. */
    .global at_el1t
at_el1t:
    mov x9, x30
    msr spsel, #0
    blr x2
    msr spsel, #1
    br x9

/* Goes on at EL0, at this place and in this state; SVC leads to back_from_el0, and so to the caller. */
    .macro enter_el0 place, spsr
    mov x9, x30
    adr x3, \place
    msr elr_el1, x3
    mov x3, #\spsr
    msr spsr_el1, x3
    eret
    .endm

    .global at_el0
at_el0:
    enter_el0 call_probe, SPSR_EL0T
call_probe:
    blr x2
    svc #0
back_from_el0:
    br x9

/* From EL0 in AArch32 state, with a probe of its own in A32:
   mov r6, r0; mov r5, r1; cmp r0, r0; ldr r5, [r6]; mov r0, r5; svc #0. */
    .global at_el0_aarch32
at_el0_aarch32:
    enter_el0 aarch32_probe, SPSR_EL0_AARCH32
aarch32_probe:
    .word 0xe1a06000, 0xe1a05001, 0xe1500000, 0xe5965000, 0xe1a00005, 0xef000000

/* x0: x0 to x17 of a call, which takes its results back. */
    .macro call name, instruction:vararg
    .global \name
\name:
    stp x19, x30, [sp, #-16]!
    mov x19, x0
    ldp x16, x17, [x19, #16 * 8]
    ldp x14, x15, [x19, #16 * 7]
    ldp x12, x13, [x19, #16 * 6]
    ldp x10, x11, [x19, #16 * 5]
    ldp x8, x9, [x19, #16 * 4]
    ldp x6, x7, [x19, #16 * 3]
    ldp x4, x5, [x19, #16 * 2]
    ldp x2, x3, [x19, #16 * 1]
    ldp x0, x1, [x19, #16 * 0]
    \instruction
    stp x0, x1, [x19, #16 * 0]
    stp x2, x3, [x19, #16 * 1]
    stp x4, x5, [x19, #16 * 2]
    stp x6, x7, [x19, #16 * 3]
    stp x8, x9, [x19, #16 * 4]
    stp x10, x11, [x19, #16 * 5]
    stp x12, x13, [x19, #16 * 6]
    stp x14, x15, [x19, #16 * 7]
    stp x16, x17, [x19, #16 * 8]
    ldp x19, x30, [sp], #16
    ret
    .endm

    call call_hvc, hvc #0
    call call_hvc_immediate, hvc #0x1234
    call call_smc, smc #0
    call call_smc_immediate, smc #0x1234

/*
 * x0: address, x1: room for x0 to x30. Every register but the one with the address holds its number plus 0x100, then
 * one is loaded, and all are put into the room.
 */
    .macro load_into register, base
    stp x29, x30, [sp, #-16 * 7]!
    stp x27, x28, [sp, #16 * 1]
    stp x25, x26, [sp, #16 * 2]
    stp x23, x24, [sp, #16 * 3]
    stp x21, x22, [sp, #16 * 4]
    stp x19, x20, [sp, #16 * 5]
    str x1, [sp, #16 * 6]
    mov x\base, x0
    .irp k, X0_TO_X30
    .ifnc \k, \base
    mov x\k, #0x100 + \k
    .endif
    .endr
    .ifc \register, 31
    ldr xzr, [x\base]
    .else
    ldr x\register, [x\base]
    .endif
    str x0, [sp, #16 * 6 + 8]
    ldr x0, [sp, #16 * 6]
    .irp k, X1_TO_X30
    str x\k, [x0, #8 * \k]
    .endr
    ldr x1, [sp, #16 * 6 + 8]
    str x1, [x0]
    ldp x19, x20, [sp, #16 * 5]
    ldp x21, x22, [sp, #16 * 4]
    ldp x23, x24, [sp, #16 * 3]
    ldp x25, x26, [sp, #16 * 2]
    ldp x27, x28, [sp, #16 * 1]
    ldp x29, x30, [sp], #16 * 7
    ret
    .endm

    .irp k, X0_TO_XZR
load_into_\k:
    .ifc \k, 6
    load_into \k, 7
    .else
    load_into \k, 6
    .endif
    .endr

    .section .rodata
    .balign 8
    .global loads_into
loads_into:
    .irp k, X0_TO_XZR
    .quad load_into_\k
    .endr
