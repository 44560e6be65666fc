/* The machine starts here, at EL2 with the MMU off: zeros, a stack and vectors, and on to C. */
    .section .text.start, "ax"
    .global start
start:
    mov x0, #0x80000000 /* EL1 is AArch64; and E2H is 0, since the registers of EL2 are written as they are then */
    msr hcr_el2, x0
    adrp x0, zeros_start
    adrp x1, zeros_end
1:  stp xzr, xzr, [x0], #16
    cmp x0, x1
    b.lo 1b
    adrp x0, stack_top
    mov sp, x0
    adrp x0, vectors
    add x0, x0, :lo12:vectors
    msr vbar_el2, x0
    isb
    bl hypervisor

    .section .rodata.guest, "a"
    .global guest_image, guest_image_end
    .balign 16
guest_image:
    .incbin "guest.bin"
guest_image_end:
