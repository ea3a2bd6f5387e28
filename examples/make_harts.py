#!/usr/bin/env python3
"""Writes to standard output the ELF file of a guest of two harts: hart 0 starts hart 1, which prints `b`; then hart 0
prints `a` and a line feed; each hart stops itself, and the machine ends with its last one.

Calls: RISC-V Supervisor Binary Interface, "Hart State Management Extension".
"""
import sys

from make_hello import elf

CODE = [
    # hart 0
    0x00100513,  # addi x10, x0, 1         the hart
    0x00000597,  # auipc x11, 0
    0x05058593,  # addi x11, x11, 0x50     where it begins: 0x80000054
    0x00000613,  # addi x12, x0, 0
    0x00000813,  # addi x16, x0, 0         function 0: start
    0x004858B7,  # lui  x17, 0x485
    0x34D88893,  # addi x17, x17, 0x34d    extension 0x48534d
    0x00000073,  # ecall
    0x80100437,  # lui  x8, 0x80100
    0x02041413,  # slli x8, x8, 32
    0x02045413,  # srli x8, x8, 32         0x80100000: the harts' word
    0x00043303,  # ld   x6, 0(x8)          until hart 1 has printed
    0xFE030EE3,  # beq  x6, x0, -4
    0x100002B7,  # lui  x5, 0x10000        the UART
    0x06100313,  # addi x6, x0, 'a'
    0x00628023,  # sb   x6, 0(x5)
    0x00A00313,  # addi x6, x0, '\n'
    0x00628023,  # sb   x6, 0(x5)
    0x00100813,  # addi x16, x0, 1         function 1: stop
    0x00000073,  # ecall
    0x0000006F,  # jal  x0, 0
    # hart 1, at 0x80000054
    0x100002B7,  # lui  x5, 0x10000
    0x06200313,  # addi x6, x0, 'b'
    0x00628023,  # sb   x6, 0(x5)
    0x80100437,  # lui  x8, 0x80100
    0x02041413,  # slli x8, x8, 32
    0x02045413,  # srli x8, x8, 32
    0x00100313,  # addi x6, x0, 1
    0x00643023,  # sd   x6, 0(x8)
    0x00100813,  # addi x16, x0, 1
    0x004858B7,  # lui  x17, 0x485
    0x34D88893,  # addi x17, x17, 0x34d
    0x00000073,  # ecall
    0x0000006F,  # jal  x0, 0
]

if __name__ == "__main__":
    sys.stdout.buffer.write(elf(CODE))
