#!/usr/bin/env python3
"""Prints how fast `tlbvm plain` is beside a plain interpreter in C, on two mixed loops.

The first guest loads, adds, shifts, compares, stores and branches in a loop; both take 10,000,000 turns of it, and `plain`
also where its addresses are translated by pages of 4 KiB. In the second one instruction in four multiplies or divides.
All have to end in the same registers. What a call costs besides its turns is taken off: each also runs for one turn, and
of each the best processor time of ten counts. Where valgrind is installed, the host's instructions for each of the
guest's are printed too. Skipped, saying so, where there is no C compiler.
"""
import os
import pathlib
import resource
import shutil
import struct
import subprocess
import sys
import tempfile

TOP = pathlib.Path(__file__).resolve().parent.parent
sys.dont_write_bytecode = True
sys.path.insert(0, str(TOP / "examples"))
from make_hello import elf

PROGRAM = TOP / "crates/tlbvm_main/out/tlbvm_main"
TURNS = 10_000_000
COUNTED_TURNS = 200_000
RUNS = int(os.environ.get("RUNS", 10))
ORDER_ENDED = 15


def r(opcode, funct3, funct7, rd, rs1, rs2):
    return funct7 << 25 | rs2 << 20 | rs1 << 15 | funct3 << 12 | rd << 7 | opcode


def i(opcode, funct3, rd, rs1, imm):
    return (imm & 0xFFF) << 20 | rs1 << 15 | funct3 << 12 | rd << 7 | opcode


def s(funct3, rs1, rs2, imm):
    return (imm >> 5 & 0x7F) << 25 | rs2 << 20 | rs1 << 15 | funct3 << 12 | (imm & 31) << 7 | 0x23


def b(funct3, rs1, rs2, imm):
    return (imm >> 12 & 1) << 31 | (imm >> 5 & 0x3F) << 25 | rs2 << 20 | rs1 << 15 | funct3 << 12 | (imm >> 1 & 15) << 8 | (imm >> 11 & 1) << 7 | 0x63


def guest():
    """x5 walks over 2048 bytes behind the code, x10 sums, x11 is a shift register."""
    return [
        i(0x13, 0, 9, 0, 1),  # addi x9, x0, 1
        i(0x13, 1, 9, 9, 31),  # slli x9, x9, 31
        i(0x13, 0, 5, 9, 1024),  # addi x5, x9, 1024
        i(0x13, 0, 6, 5, 2040),  # addi x6, x5, 2040
        i(0x13, 0, 11, 0, 77),  # addi x11, x0, 77
        # the loop
        i(0x03, 3, 7, 5, 0),  # ld x7, 0(x5)
        r(0x33, 0, 0, 10, 10, 7),  # add x10, x10, x7
        i(0x13, 1, 12, 11, 13),  # slli x12, x11, 13
        r(0x33, 4, 0, 11, 11, 12),  # xor x11, x11, x12
        i(0x13, 5, 12, 11, 7),  # srli x12, x11, 7
        r(0x33, 4, 0, 11, 11, 12),  # xor x11, x11, x12
        s(3, 5, 11, 0),  # sd x11, 0(x5)
        i(0x03, 2, 13, 5, 4),  # lw x13, 4(x5)
        r(0x3B, 0, 0, 14, 13, 10),  # addw x14, x13, x10
        i(0x13, 7, 15, 14, 255),  # andi x15, x14, 255
        s(0, 5, 15, 3),  # sb x15, 3(x5)
        b(4, 15, 11, 8),  # blt x15, x11, over one
        i(0x13, 0, 10, 10, 1),  # addi x10, x10, 1
        i(0x13, 0, 5, 5, 8),  # addi x5, x5, 8
        b(6, 5, 6, -56),  # bltu x5, x6, the loop
        i(0x13, 0, 5, 9, 1024),  # addi x5, x9, 1024
        b(0, 0, 0, -64),  # beq x0, x0, the loop
    ]


def hashing():
    """A generator's next number goes to memory, and finds a word of the table."""
    return [
        i(0x03, 3, 7, 5, 0),  # ld x7, 0(x5)
        r(0x33, 0, 1, 11, 11, 16),  # mul x11, x11, x16
        r(0x33, 0, 0, 11, 11, 17),  # add x11, x11, x17
        i(0x13, 5, 12, 11, 17),  # srli x12, x11, 17
        r(0x33, 4, 0, 12, 12, 11),  # xor x12, x12, x11
        r(0x33, 3, 1, 13, 12, 7),  # mulhu x13, x12, x7
        r(0x33, 0, 0, 10, 10, 13),  # add x10, x10, x13
        s(3, 5, 12, 0),  # sd x12, 0(x5)
        r(0x33, 7, 1, 20, 12, 18),  # remu x20, x12, x18
        i(0x13, 1, 20, 20, 3),  # slli x20, x20, 3
        r(0x33, 0, 0, 20, 20, 21),  # add x20, x20, x21
        i(0x03, 3, 22, 20, 0),  # ld x22, 0(x20)
        b(1, 22, 0, 8),  # bne x22, x0, over one
        i(0x13, 0, 10, 10, 1),  # addi x10, x10, 1
    ]


def digit():
    """Words of 32 bits: a product's last decimal digit goes to memory as a character."""
    return [
        i(0x03, 2, 14, 5, 4),  # lw x14, 4(x5)
        r(0x3B, 0, 1, 15, 14, 16),  # mulw x15, x14, x16
        r(0x3B, 0, 0, 15, 15, 22),  # addw x15, x15, x22
        r(0x3B, 5, 1, 23, 15, 19),  # divuw x23, x15, x19
        r(0x3B, 0, 1, 24, 23, 19),  # mulw x24, x23, x19
        r(0x3B, 0, 32, 24, 15, 24),  # subw x24, x15, x24
        i(0x13, 0, 24, 24, 48),  # addi x24, x24, 48
        s(0, 5, 24, 3),  # sb x24, 3(x5)
        b(4, 15, 14, 12),  # blt x15, x14, over two
        r(0x3B, 6, 1, 25, 15, 22),  # remw x25, x15, x22
        r(0x33, 0, 0, 10, 10, 25),  # add x10, x10, x25
    ]


def scaling():
    """A quotient by way of a high product, and one by a division."""
    return [
        r(0x33, 1, 1, 26, 11, 22),  # mulh x26, x11, x22
        i(0x13, 5, 27, 11, 0x400 + 63),  # srai x27, x11, 63
        r(0x33, 0, 32, 26, 26, 27),  # sub x26, x26, x27
        r(0x33, 0, 1, 28, 26, 18),  # mul x28, x26, x18
        r(0x33, 0, 32, 28, 11, 28),  # sub x28, x11, x28
        i(0x03, 2, 13, 20, 0),  # lw x13, 0(x20)
        r(0x33, 4, 1, 29, 10, 7),  # div x29, x10, x7
        b(5, 29, 0, 8),  # bge x29, x0, over one
        r(0x33, 0, 0, 10, 10, 29),  # add x10, x10, x29
        r(0x33, 2, 1, 30, 26, 12),  # mulhsu x30, x26, x12
        r(0x33, 4, 0, 10, 10, 30),  # xor x10, x10, x30
        i(0x03, 5, 31, 5, 2),  # lhu x31, 2(x5)
        r(0x33, 0, 1, 31, 31, 18),  # mul x31, x31, x18
        r(0x33, 0, 0, 28, 28, 31),  # add x28, x28, x31
        s(1, 20, 28, 6),  # sh x28, 6(x20)
        i(0x03, 4, 14, 20, 5),  # lbu x14, 5(x20)
        r(0x33, 3, 0, 15, 13, 31),  # sltu x15, x13, x31
        b(6, 14, 15, 8),  # bltu x14, x15, over one
        r(0x33, 0, 0, 10, 10, 15),  # add x10, x10, x15
        s(2, 20, 29, 0),  # sw x29, 0(x20)
    ]


def multiplying():
    """x5 walks over 2048 bytes as above; its first pass meets zeros, and divides by them."""
    loop = [*hashing(), *digit(), *scaling(), i(0x13, 0, 5, 5, 8)]  # addi x5, x5, 8
    return [
        i(0x13, 0, 9, 0, 1),  # addi x9, x0, 1
        i(0x13, 1, 9, 9, 31),  # slli x9, x9, 31
        i(0x13, 0, 5, 9, 1024),  # addi x5, x9, 1024
        i(0x13, 0, 6, 5, 2040),  # addi x6, x5, 2040
        i(0x13, 0, 11, 0, 77),  # addi x11, x0, 77
        0x196 << 12 | 16 << 7 | 0x37,  # lui x16, 0x196
        i(0x13, 0, 16, 16, 0x60D),  # addi x16, x16, 0x60d
        i(0x13, 0, 17, 0, 1013),  # addi x17, x0, 1013
        i(0x13, 0, 18, 0, 251),  # addi x18, x0, 251
        i(0x13, 0, 19, 0, 10),  # addi x19, x0, 10
        i(0x13, 0, 21, 5, 0),  # addi x21, x5, 0
        *loop,
        b(6, 5, 6, -4 * len(loop)),  # bltu x5, x6, the loop
        i(0x13, 0, 5, 9, 1024),  # addi x5, x9, 1024
        b(0, 0, 0, -4 * (len(loop) + 2)),  # beq x0, x0, the loop
    ]


def leaf(page):
    """A page of 4096 bytes that may be read, written and executed, with A and D set."""
    return page << 10 | 0xCF


SETTING = [
    i(0x13, 0, 5, 0, 1),  # addi x5, x0, 1
    i(0x13, 1, 5, 5, 63),  # slli x5, x5, 63
    0x80 << 12 | 6 << 7 | 0x37,  # lui x6, 0x80
    i(0x13, 0, 6, 6, 1),  # addi x6, x6, 1
    r(0x33, 6, 0, 5, 5, 6),  # or x5, x5, x6
    i(0x73, 1, 0, 5, 0x180),  # csrrw x0, satp, x5
]


def translated():
    """The same guest behind satp: page tables at 0x80001000, 0x80002000 and 0x80003000 map 2 MiB, page by page, to themselves."""
    code = [*SETTING, *guest()]
    root = {2: 0x80002 << 10 | 1}
    middle = {0: 0x80003 << 10 | 1}
    low = {entry: leaf(0x80000 + entry) for entry in range(512)}
    tables = [table.get(entry, 0) for table in (root, middle, low) for entry in range(512)]
    halves = [half for entry in tables for half in (entry & 0xFFFFFFFF, entry >> 32)]
    return code + [0] * (1024 - len(code)) + halves


def seconds(command):
    used = resource.getrusage(resource.RUSAGE_CHILDREN)
    start = used.ru_utime + used.ru_stime
    done = subprocess.run(command, capture_output=True)
    if done.returncode not in (0, ORDER_ENDED):
        sys.exit(f"{command} ended with status {done.returncode}: {done.stderr.decode()}")
    used = resource.getrusage(resource.RUSAGE_CHILDREN)
    return used.ru_utime + used.ru_stime - start


def rate(command):
    """Millions of turns a second. The command ends with the number of its turns."""
    times = [(seconds(command(TURNS)), seconds(command(1))) for _ in range(RUNS)]
    best_all, best_one = map(min, zip(*times))
    return (TURNS - 1) / (best_all - best_one) / 1e6


def host_instructions(command, folder):
    """The host's instructions for each turn, by valgrind; 0 where it isn't installed."""
    if shutil.which("valgrind") is None:
        return 0
    totals = []
    for turns in (COUNTED_TURNS, 1):
        counting = ["valgrind", "--tool=callgrind", f"--callgrind-out-file={folder / 'callgrind.out'}"]
        report = subprocess.run([*counting, *command(turns)], capture_output=True, text=True).stderr
        totals.append(int(report.split("Collected :")[1].split()[0]))
    return (totals[0] - totals[1]) / (COUNTED_TURNS - 1)


def registers(line):
    """The registers of a hart's line, without its count and pc."""
    return line.split()[4:]


def plain_command(folder, name, words):
    image = folder / f"{name}.elf"
    image.write_bytes(elf(words))

    def command(turns):
        order = folder / f"{turns}.order"
        order.write_text(f"turn 0 {turns}\n")
        return [PROGRAM, "plain", image, order, "--regs"]

    return command


def c_command(folder, name, words):
    raw = folder / f"{name}.bin"
    raw.write_bytes(struct.pack(f"<{len(words)}I", *words))
    return lambda turns: [folder / "interpreter", raw, str(turns)]


def check_registers(ours, theirs, more):
    """Both end in the same registers; `plain` takes so many turns more."""
    report = subprocess.run(ours(TURNS + more), capture_output=True, text=True).stderr
    line = subprocess.run(theirs(TURNS), capture_output=True, text=True).stdout
    if registers(line) not in [registers(each) for each in report.splitlines()]:
        sys.exit(f"the registers differ: plain reports\n{report}and the C interpreter\n{line}")


def compare(folder, name, ours, theirs, more=0):
    check_registers(ours, theirs, more)
    our_rate, their_rate = rate(ours), rate(theirs)
    counts = host_instructions(ours, folder), host_instructions(theirs, folder)
    print(
        f"{name}: plain {our_rate:.1f} million guest instructions a second; the C interpreter {their_rate:.1f}"
        f"; ratio {our_rate / their_rate:.2f}; host instructions for each {counts[0]:.1f}; C {counts[1]:.1f}"
    )


def main():
    if shutil.which("cc") is None:
        sys.exit("skipped: there is no C compiler (cc)")
    with tempfile.TemporaryDirectory() as folder:
        folder = pathlib.Path(folder)
        subprocess.run([shutil.which("cc"), "-O2", "-o", folder / "interpreter", TOP / "bench/interpreter.c"], check=True)
        bare = plain_command(folder, "bare", guest())
        c_bare = c_command(folder, "bare", guest())
        # The launcher builds the program where it isn't built.
        subprocess.run([TOP / "tlbvm", *bare(1)[1:]], capture_output=True)
        compare(folder, "bare", bare, c_bare)
        compare(folder, "with M", plain_command(folder, "m", multiplying()), c_command(folder, "m", multiplying()))
        pages = plain_command(folder, "pages", translated())
        compare(folder, "under Sv39, the C interpreter without", pages, c_bare, len(SETTING))
    print(f"processors {os.cpu_count()}, load {os.getloadavg()[0]:.2f}")


if __name__ == "__main__":
    main()
