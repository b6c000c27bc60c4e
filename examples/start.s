# The start of a C program: calls main, and ends the program by what main returns. machine.ld and flat.ld put this
# first, at address 0, where the processor begins.
#
# Nothing has to be set up. The processor begins with the stack pointer at the end of private memory, 1048576, from
# where the stack grows down. Variables that begin as 0 need no clearing: they lie behind the last byte of the image,
# and memory that the image doesn't fill is 0. No global pointer is needed, since neither script names one for the linker to
# use.

        .section .start, "ax"
        .globl  start
start:
        call    main
        li      a7, 93          # call 93: exit, by the code in a0
        ecall

# Both scripts drop this section. A program that is linked without one of them has it, and so the linker misses the
# name: such a program would have its shared variables in each node's private memory, and print wrong results.
        .section .laid_out, ""
        .word   link_with_T_machine_ld_or_T_flat_ld
