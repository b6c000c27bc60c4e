/*
 * Lays a program out for one node of a machine, as an executable: code and variables in private memory from address 0
 * on, and what stands in the section .shared in shared memory, from 0x80000000 on. The stack comes down from the end of
 * private memory, where x2 points at the start.
 *
 * Shared memory has the default size, 1024 blocks of 32 bytes. For a machine with another `blocks` or `block_bytes`, as
 * 4096 blocks of 32 bytes: -Wl,--defsym=WWT_SHARED_BYTES=131072
 */
OUTPUT_ARCH(riscv)
ENTRY(start)

MEMORY
{
    private (rwx) : ORIGIN = 0, LENGTH = 1048576
    shared  (rw)  : ORIGIN = 0x80000000, LENGTH = DEFINED(WWT_SHARED_BYTES) ? WWT_SHARED_BYTES : 32768
}

PHDRS
{
    code      PT_LOAD FLAGS(5);
    variables PT_LOAD FLAGS(6);
    common    PT_LOAD FLAGS(6);
}

SECTIONS
{
    .text   : { *(.start) wwt_start_end = .; *(.text .text.*) } > private :code
    .rodata : { *(.rodata .rodata.* .srodata .srodata.*) } > private :code
    .data   : { *(.data .data.* .sdata .sdata.*) } > private :variables
    .bss (NOLOAD) : { *(.bss .bss.* .sbss .sbss.* COMMON) } > private :variables
    .shared : { *(.shared .shared.*) } > shared :common

    /DISCARD/ : { *(.comment) *(.note .note.*) *(.eh_frame) *(.laid_out) }
}

ASSERT(wwt_start_end > 0, "This program has no start: name start.s on the line that links it.")
