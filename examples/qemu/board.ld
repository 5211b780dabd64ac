/* One program. CODE and DATA come by --defsym: apart for EL3 (flash and secure RAM), DATA 0 where it follows the code. */
ENTRY(_start)
SECTIONS
{
    . = CODE;
    .text : { *(.start) *(.text .text.*) *(.rodata .rodata.*) }
    . = DATA ? DATA : ALIGN(4096);
    .data : { *(.data .data.*) *(.got .got.*) }
    .bss (NOLOAD) : { . = ALIGN(16); bss_start = .; *(.bss .bss.*) . = ALIGN(16); bss_end = .; }
    .stacks (NOLOAD) : { . = ALIGN(16); *(.stacks) }
    /DISCARD/ : { *(.comment) *(.note*) *(.eh_frame*) }
}
ASSERT(DATA == 0 || SIZEOF(.data) == 0, "the flash holds code and constants alone: no data with a first value")
