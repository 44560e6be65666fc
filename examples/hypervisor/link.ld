/* Where the hypervisor is in the memory of QEMU's `virt`, which begins at 0x40000000 with its device tree. `lease` is behind that;
   QEMU puts the guest's ticks there. */
ENTRY(start)
SECTIONS
{
    lease = 0x40200000;
    . = 0x40400000;
    .text : { *(.text.start) *(.text*) }
    .rodata : { *(.rodata*) }
    .data : { *(.data*) *(.got*) }
    .bss (NOLOAD) : ALIGN(4096) {
        zeros_start = .;
        *(.bss*)
        . = ALIGN(4096);
        zeros_end = .;
        . += 0x10000;
        stack_top = .;
    }
    /DISCARD/ : { *(.comment) *(.note*) *(.ARM.*) *(.eh_frame*) }
}
