/* Code, constants and data in one memory, one behind the other. The heap begins at the end. */
ENTRY(_start)

MEMORY
{
    ram (rwx) : ORIGIN = 0x10000, LENGTH = DEFINED(__ram_size) ? __ram_size : 62M
}

SECTIONS
{
    /* There is an arc for 50 bytes of text. `__room` bytes that no function has make more of them. */
    .text : {
        . += DEFINED(__room) ? __room : 0;
        KEEP(*(.text.start))
        *(.text .text.*)
    } > ram
    .rodata : { *(.rodata .rodata.* .srodata .srodata.*) } > ram
    .init_array : {
        PROVIDE_HIDDEN(__preinit_array_start = .);
        KEEP(*(.preinit_array))
        PROVIDE_HIDDEN(__preinit_array_end = .);
        PROVIDE_HIDDEN(__init_array_start = .);
        KEEP(*(SORT_BY_INIT_PRIORITY(.init_array.*)))
        KEEP(*(.init_array))
        PROVIDE_HIDDEN(__init_array_end = .);
        PROVIDE_HIDDEN(__fini_array_start = .);
        KEEP(*(SORT_BY_INIT_PRIORITY(.fini_array.*)))
        KEEP(*(.fini_array))
        PROVIDE_HIDDEN(__fini_array_end = .);
    } > ram
    .data : {
        *(.data .data.*)
        __global_pointer$ = . + 0x800;
        *(.sdata .sdata.*)
    } > ram
    .tdata : { *(.tdata .tdata.*) } > ram
    .tbss : { *(.tbss .tbss.*) } > ram
    __tls_base = SIZEOF(.tdata) ? ADDR(.tdata) : ADDR(.tbss);
    .bss : {
        . += SIZEOF(.tbss);     /* .tbss takes no room by itself */
        *(.sbss .sbss.* .bss .bss.* COMMON)
    } > ram
    /DISCARD/ : { *(.comment .riscv.attributes .eh_frame __patchable_function_entries) }
}
