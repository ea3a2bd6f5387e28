# Prints OK and a line feed, and ends with a pass.
        li t0, 0x10000000       # the UART, whose first register prints a byte
        la t1, text
more:   lbu t2, 0(t1)
        beq t2, zero, end
        sb t2, 0(t0)
        addi t1, t1, 1
        j more

end:    li t0, 0x100000         # the finisher, which takes 0x5555 for a pass
        li t1, 0x5555
        sw t1, 0(t0)

text:   .byte 79, 75, 10, 0
