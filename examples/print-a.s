# Prints one letter and ends itself by the code 0. The bytes of these six words, each least byte first, are in
# print-a.bin.
        addi    x10, x0, 65     # the letter A
        addi    x17, x0, 1      # call 1: put a byte
        ecall
        addi    x17, x0, 93     # call 93: exit
        addi    x10, x0, 0      # the code
        ecall
