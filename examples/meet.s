# Each node writes its number into the first word of shared memory, all meet at a barrier, and each reads what stands
# there. A node begins with its number in x10.
    lui  x5, 0x80000     # where shared memory begins
    sw   x10, 0(x5)
    addi x17, x0, 5      # the barrier
    ecall
    lw   x6, 0(x5)
    addi x10, x0, 0
    addi x17, x0, 93     # the end, by the code 0
    ecall
