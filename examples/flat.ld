/*
 * Lays a program out from address 0: the start, the other code, constants, variables with values, and last the
 * variables that begin as 0, of which the image holds nothing. The stack comes down from the end of private memory
 * towards them. The one node has no shared memory, so what is to be shared stands with its variables.
 */
OUTPUT_ARCH(riscv)
ENTRY(start)

MEMORY
{
    private (rwx) : ORIGIN = 0, LENGTH = 1048576
}

/* For the linker alone, which warns of a part that may be both written and run. The processor refuses neither. */
PHDRS
{
    code PT_LOAD FLAGS(5);
    variables PT_LOAD FLAGS(6);
}

SECTIONS
{
    .text : { *(.start) wwt_start_end = .; *(.text .text.*) } > private :code
    .rodata : { *(.rodata .rodata.* .srodata .srodata.*) } > private :code
    .data : { *(.data .data.* .sdata .sdata.*) *(.shared .shared.*) } > private :variables
    .bss (NOLOAD) : { *(.bss .bss.* .sbss .sbss.* COMMON) } > private :variables

    /DISCARD/ : { *(.comment) *(.note .note.*) *(.eh_frame) *(.laid_out) }
}

ASSERT(wwt_start_end > 0, "This program has no start: name start.s on the line that links it.")
