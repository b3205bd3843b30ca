/* Arm's MPS2 board with a Cortex-M4 (AN386): code and constants from 0, data and stack from 20000000. */
MEMORY {
    code (rx) : ORIGIN = 0x00000000, LENGTH = 4M
    data (rw) : ORIGIN = 0x20000000, LENGTH = 4M
}
ENTRY(reset)
SECTIONS {
    .text : { KEEP(*(.vectors)) *(.text*) *(.rodata*) } >code
    /DISCARD/ : { *(.ARM.exidx*) *(.comment) }
    .data : { data_start = .; *(.data*) . = ALIGN(4); data_end = .; } >data AT>code
    data_kept = LOADADDR(.data);
    .bss (NOLOAD) : { bss_start = .; *(.bss*) *(COMMON) . = ALIGN(4); bss_end = .; } >data
    stack_top = ORIGIN(data) + LENGTH(data);
}
