/* The guest starts here, at EL1 with its lease in x0; below are its vectors. */
#include "calls.h"

    .section .text.header, "ax"
    b start
    .word text_bytes

start:
    adrp x1, stack_top
    mov sp, x1
    adr x1, vectors
    msr vbar_el1, x1
    isb
    bl guest
    hvc #CALL_DONE

/* on HANDLER: calls it in C with the interrupted registers put aside */
    .macro on handler
    .balign 0x80
    stp x0, x1, [sp, #-160]!
    stp x2, x3, [sp, #16]
    stp x4, x5, [sp, #32]
    stp x6, x7, [sp, #48]
    stp x8, x9, [sp, #64]
    stp x10, x11, [sp, #80]
    stp x12, x13, [sp, #96]
    stp x14, x15, [sp, #112]
    stp x16, x17, [sp, #128]
    stp x18, x30, [sp, #144]
    bl \handler
    b back
    .endm

    .balign 0x800
vectors:
    .rept 4 /* at EL1 with the stack of EL0, which is not used */
    on on_exception
    .endr
    on on_exception
    on on_interrupt
    .rept 2 /* FIQ and SError */
    on on_exception
    .endr
    .balign 0x80
    b back_from_el0
    .rept 7 /* what else comes from EL0 */
    on on_exception
    .endr

back:
    ldp x18, x30, [sp, #144]
    ldp x16, x17, [sp, #128]
    ldp x14, x15, [sp, #112]
    ldp x12, x13, [sp, #96]
    ldp x10, x11, [sp, #80]
    ldp x8, x9, [sp, #64]
    ldp x6, x7, [sp, #48]
    ldp x4, x5, [sp, #32]
    ldp x2, x3, [sp, #16]
    ldp x0, x1, [sp], #160
    eret

/* EL0's turn changes x0 alone, and an exception ends it; so EL1 goes back to its caller from there, with the syndrome in x1. */
    .global read_count_at_el0
read_count_at_el0:
    adrp x0, at_el0
    add x0, x0, :lo12:at_el0
    msr elr_el1, x0
    mov x0, #0x3C0 /* PSTATE: EL0, all masked */
    msr spsr_el1, x0
    eret
back_from_el0:
    mrs x1, esr_el1
    msr daifclr, #2
    ret

    .section .el0, "ax"
at_el0:
    mov x0, #0
    mrs x0, cntvct_el0
    svc #0
    .text

/* Every register but x0 and x1 holds its own number until what x0 points to is not 0. */
    .global wait_with_known_registers
wait_with_known_registers:
    stp x29, x30, [sp, #-96]!
    stp x19, x20, [sp, #16]
    stp x21, x22, [sp, #32]
    stp x23, x24, [sp, #48]
    stp x25, x26, [sp, #64]
    stp x27, x28, [sp, #80]
    .irp n, 2, 3, 4, 5, 6, 7, 8, 9, 10, 11, 12, 13, 14, 15, 16, 17, 18, 19, 20, 21, 22, 23, 24, 25, 26, 27, 28, 29, 30
    mov x\n, #\n
    .endr
1:  ldrb w1, [x0]
    cbz w1, 1b
    mov x0, #1
    .irp n, 2, 3, 4, 5, 6, 7, 8, 9, 10, 11, 12, 13, 14, 15, 16, 17, 18, 19, 20, 21, 22, 23, 24, 25, 26, 27, 28, 29, 30
    cmp x\n, #\n
    csel x0, x0, xzr, eq
    .endr
    ldp x27, x28, [sp, #80]
    ldp x25, x26, [sp, #64]
    ldp x23, x24, [sp, #48]
    ldp x21, x22, [sp, #32]
    ldp x19, x20, [sp, #16]
    ldp x29, x30, [sp], #96
    ret
