/* The kernel lies from 1 MiB on, as it is loaded: code and constants, then data. */
ENTRY(start32)
PHDRS
{
    note PT_NOTE FLAGS(4);
    code PT_LOAD FLAGS(5);
    data PT_LOAD FLAGS(6);
}
SECTIONS
{
    . = 0x100000;
    .note.pvh : { KEEP(*(.note.pvh)) } :code :note
    .text : { *(.text .text.*) } :code
    .rodata : { *(.rodata .rodata.*) } :code
    . = ALIGN(4096);
    .data : { *(.data .data.*) } :data
    .bss : { *(.bss .bss.* COMMON) } :data
    /DISCARD/ : { *(.comment) *(.note.GNU-stack) *(.note.gnu.property) *(.eh_frame) }
}
