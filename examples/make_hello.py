#!/usr/bin/env python3
"""Writes to standard output the ELF file of a guest that prints OK and a line feed and then ends with a pass.

Fields: ELF-64 Object File Format, version 1.5, figures 2 and 6; machine number: RISC-V ELF psABI.
"""
import struct
import sys

ENTRY = 0x80000000

CODE = [
    0x100002B7,  # lui  x5, 0x10000       the UART
    0x04F00313,  # addi x6, x0, 'O'
    0x00628023,  # sb   x6, 0(x5)
    0x04B00313,  # addi x6, x0, 'K'
    0x00628023,  # sb   x6, 0(x5)
    0x00A00313,  # addi x6, x0, '\n'
    0x00628023,  # sb   x6, 0(x5)
    0x001002B7,  # lui  x5, 0x100         the finisher
    0x00005337,  # lui  x6, 0x5
    0x55530313,  # addi x6, x6, 0x555     0x5555: pass
    0x0062A023,  # sw   x6, 0(x5)
]


def elf(words):
    """An executable of one segment, which holds these words from the start of RAM on."""
    code = struct.pack(f"<{len(words)}I", *words)
    ident = b"\x7fELF" + bytes([2, 1, 1]) + bytes(9)
    # type, machine, version, entry, phoff, shoff, flags, ehsize, phentsize, phnum, shentsize, shnum, shstrndx
    header = struct.pack("<HHIQQQIHHHHHH", 2, 243, 1, ENTRY, 64, 0, 0, 64, 56, 1, 0, 0, 0)
    # type, flags, offset, vaddr, paddr, filesz, memsz, align
    segment = struct.pack("<IIQQQQQQ", 1, 7, 120, ENTRY, ENTRY, len(code), len(code), 4096)
    return ident + header + segment + code


if __name__ == "__main__":
    sys.stdout.buffer.write(elf(CODE))
