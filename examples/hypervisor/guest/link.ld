/* The guest's image: a flat file for GUEST_BASE, its text first, so that the hypervisor knows what may be patched. What runs at
   EL0 may not: an HVC is Undefined there. */
ENTRY(header)
SECTIONS
{
    . = 0x40000000;
    .text : { *(.text.header) *(.text*) }
    text_bytes = SIZEOF(.text);
    .el0 : ALIGN(16) { *(.el0) }
    .data : ALIGN(16) { *(.rodata*) *(.data*) *(.bss*) }
    stack_top = 0x40200000;
    /DISCARD/ : { *(.comment) *(.note*) *(.ARM.*) }
}
