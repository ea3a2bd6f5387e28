#!/usr/bin/env python3
"""Compiles a guest in C at -O0 to -O3, runs it by tlbvm, and compares what it prints between the levels and with QEMU.

The guest, in guest/, multiplies and divides, sets up page tables, uses atomics, faults, takes an interrupt and runs a user. It
needs a GNU compiler for RISC-V, and for the comparison with QEMU qemu-system-riscv64: where the one is missing nothing is done,
and where the other is, the levels alone are compared. It says which.

Then it does the same with examples/c/hello.c, and with examples/libc, a guest that prints and allocates by picolibc, where that
library is installed for the compiler.
"""
import itertools
import pathlib
import shutil
import subprocess
import sys
import tempfile

TOP = pathlib.Path(__file__).resolve().parent.parent
GUEST = TOP / "tools/guest"
COMPILERS = ["riscv64-unknown-elf-gcc", "riscv64-linux-gnu-gcc"]
FLAGS = "-march=rv64ima_zicsr -mabi=lp64 -mcmodel=medany -ffreestanding -fno-pic -nostdlib -static -Wl,--build-id=none".split()
SOURCES = [GUEST / name for name in ("start.S", "guest.c", "arithmetic.c", "atomics.c")]
LEVELS = ["-O0", "-O1", "-O2", "-O3"]
HELLO = TOP / "examples/c"
LIBRARY = TOP / "examples/libc"
LIBRARY_FLAGS = "-march=rv64im -mabi=lp64 -mcmodel=medany --specs=picolibc.specs -nostartfiles -static -Wl,--build-id=none".split()


def compiled(compiler, flags, script, sources, level, folder):
    guest = folder / f"guest{level}.elf"
    subprocess.run([compiler, *flags, level, "-T", script, "-o", guest, *sources], check=True)
    return guest


def has_library(compiler):
    found = subprocess.run([compiler, "-print-file-name=picolibc.specs"], capture_output=True, text=True, check=True)
    return pathlib.Path(found.stdout.strip()).is_absolute()


def ours(folder, guest):
    order = folder / "order"
    order.write_text("turn 0 10000000\n")
    done = subprocess.run([TOP / "tlbvm", "plain", guest, order], capture_output=True)
    if done.returncode != 0:
        sys.exit(f"tlbvm ended with status {done.returncode}: {done.stderr.decode()}and printed:\n{done.stdout.decode()}")
    return done.stdout.decode()


def emulated(emulator, guest, harts):
    command = [emulator, "-M", "virt", "-smp", str(harts), "-bios", "none", "-nographic", "-kernel", guest]
    return subprocess.run(command, stdin=subprocess.DEVNULL, stdout=subprocess.PIPE, timeout=60).stdout.decode()


def same(seen, what, wanted, other):
    """Ends with the first line that differs, where one does."""
    for number, (line, beside) in enumerate(itertools.zip_longest(seen.splitlines(), wanted.splitlines()), 1):
        if line != beside:
            sys.exit(f"line {number}: {what} printed {line!r}, and {other} {beside!r}")


def compare(name, compiler, flags, script, sources, emulator, harts=1):
    """Runs a guest at each level, and says how many lines it printed. QEMU begins with all its harts at once."""
    first = None
    with tempfile.TemporaryDirectory() as folder:
        folder = pathlib.Path(folder)
        for level in LEVELS:
            guest = compiled(compiler, flags, script, sources, level, folder)
            printed = ours(folder, guest)
            first = first or printed
            same(printed, f"tlbvm at {level}", first, f"at {LEVELS[0]}")
            if emulator:
                same(printed, f"tlbvm at {level}", emulated(emulator, guest, harts), "QEMU")
    lines = f"{name}: the same {len(first.splitlines())} lines at {', '.join(LEVELS)}"
    print(f"{lines} and by QEMU" if emulator else f"{lines}; not compared with QEMU: there is no qemu-system-riscv64")


def main():
    compiler = next((found for found in map(shutil.which, COMPILERS) if found), None)
    if compiler is None:
        sys.exit("skipped: there is no GNU compiler for RISC-V")
    emulator = shutil.which("qemu-system-riscv64")
    # With one hart QEMU makes a load and a store of an atomic, whose page fault is then the load's.
    compare("tools/guest", compiler, FLAGS, GUEST / "link.ld", SOURCES, emulator, harts=2)
    compare("examples/c", compiler, FLAGS, HELLO / "link.ld", [HELLO / "start.S", HELLO / "hello.c"], emulator)
    if has_library(compiler):
        sources = [LIBRARY / name for name in ("start.S", "main.c", "port.c")]
        compare("examples/libc", compiler, LIBRARY_FLAGS, LIBRARY / "link.ld", sources, emulator)
    else:
        print("examples/libc: skipped, there is no picolibc for the compiler")


if __name__ == "__main__":
    main()
