/* Lays out a bare board for the tests: code at code_at, memory of ram_size bytes at ram_at, each given by --defsym. The
 * stack grows down from the memory's end. Where both are one memory, data begins on a page of its own: an emulator
 * translates code again when its page is written. */
ENTRY(port_begin)
SECTIONS
{
    . = code_at;
    .text : { KEEP(*(.vectors)) *(.text .text.*) *(.rodata .rodata.* .srodata .srodata.*) . = ALIGN(8); }
    .ARM.exidx : { *(.ARM.exidx*) . = ALIGN(8); }
    __data_load = code_at == ram_at ? ADDR(.data) : LOADADDR(.data);
    . = code_at == ram_at ? ALIGN(4096) : ram_at;
    .data : AT(code_at == ram_at ? ADDR(.data) : ADDR(.ARM.exidx) + SIZEOF(.ARM.exidx))
    {
        __data_start = .;
        *(.data .data.*)
        __global_pointer$ = . + 0x800;
        *(.sdata .sdata.*)
        . = ALIGN(8);
        __data_end = .;
    }
    .bss (NOLOAD) : AT(ADDR(.bss)) { __bss_start = .; *(.sbss .sbss.* .bss .bss.* COMMON) . = ALIGN(8); __bss_end = .; }
    __stack_top = ram_at + ram_size;
    ASSERT(__bss_end + stretch + 512 <= __stack_top, "the memory is too small")
    /DISCARD/ : { *(.comment .note* .eh_frame* .riscv.attributes .ARM.attributes) }
}
