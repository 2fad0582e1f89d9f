/*
 * A ROM image: code and constants in ROM, the caller's states and buffers in RAM, the stack at the end of RAM. The
 * library has neither data of its own nor constructors. Sizes and addresses are a Cortex-M0's with 64 KB of each; the
 * linker's words --defsym=rom_bytes=.., ram_bytes, rom_at, ram_at and stack_bytes put others in their place.
 */
ENTRY(start)

MEMORY {
    rom (rx) : ORIGIN = DEFINED(rom_at) ? rom_at : 0x00000000, LENGTH = DEFINED(rom_bytes) ? rom_bytes : 64K
    ram (rw) : ORIGIN = DEFINED(ram_at) ? ram_at : 0x20000000, LENGTH = DEFINED(ram_bytes) ? ram_bytes : 64K
}

SECTIONS {
    .text : {
        KEEP(*(.start))
        *(.text .text.*)
        *(.rodata .rodata.* .srodata .srodata.*)
        . = ALIGN(4);
    } > rom
    .data : {
        data_start = .;
        *(.data .data.* .sdata .sdata.*)
        . = ALIGN(4);
        data_end = .;
    } > ram AT > rom
    data_image = LOADADDR(.data);
    .bss (NOLOAD) : {
        . = ALIGN(4);
        bss_start = .;
        *(.bss .bss.* .sbss .sbss.* COMMON)
        . = ALIGN(4);
        bss_end = .;
    } > ram
    /* Nothing watches the stack, so its room is reserved here: too little of it is an error of the linker. */
    .stack (NOLOAD) : {
        . = ALIGN(16);
        . += DEFINED(stack_bytes) ? stack_bytes : 10K;
    } > ram
    stack_top = ORIGIN(ram) + LENGTH(ram);
    /DISCARD/ : { *(.ARM.exidx* .ARM.extab* .eh_frame) }
}
