/*
 * The memory of the firmware: 48 KiB of flash and 16 KiB of RAM, where FLASH_BYTES and RAM_BYTES say nothing else. What
 * does not fit is an error of the linker. The stack lies at the bottom of the RAM, so where it grows too large the
 * processor faults, and no data is overwritten.
 */
MEMORY {
    FLASH (rx) : ORIGIN = 0x00000000, LENGTH = DEFINED(FLASH_BYTES) ? FLASH_BYTES : 48K
    RAM (rwx) : ORIGIN = 0x20000000, LENGTH = DEFINED(RAM_BYTES) ? RAM_BYTES : 16K
}
STACK_BYTES = DEFINED(MORE_STACK) ? MORE_STACK : 5K;
ENTRY(reset)

SECTIONS {
    .text : {
        KEEP(*(.vectors))
        *(.text .text.*)
        *(.rodata .rodata.*)
        . = ALIGN(8);
    } > FLASH
    .ARM.exidx : { *(.ARM.exidx .ARM.exidx.*) } > FLASH

    .stack (NOLOAD) : {
        . += STACK_BYTES;
        . = ALIGN(8);
        stack_top = .;
    } > RAM
    .data : ALIGN(8) {
        data_start = .;
        *(.data .data.*)
        . = ALIGN(8);
        data_end = .;
    } > RAM AT > FLASH
    data_in_flash = LOADADDR(.data);
    .bss (NOLOAD) : ALIGN(8) {
        bss_start = .;
        *(.bss .bss.* COMMON)
        . = ALIGN(8);
        bss_end = .;
    } > RAM
}

ASSERT(stack_top - ORIGIN(RAM) >= 5K, "the calls of the answering end want a stack of 5 KiB")
ASSERT(bss_end <= ORIGIN(RAM) + LENGTH(RAM), "the firmware has no more RAM")
ASSERT(LOADADDR(.data) + SIZEOF(.data) <= ORIGIN(FLASH) + LENGTH(FLASH), "the firmware has no more flash")
