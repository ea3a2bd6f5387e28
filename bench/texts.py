#!/usr/bin/env python3
"""Prints in how many seconds `tlbvm dis` writes the listing of a part of 16 MiB, and `tlbvm asm` the file of a text of a million
lines, and each of a tenth of that.

The words of the part are random, of the opcodes that are used, so that some half of them are instructions. Every tenth line of
the text sets a label, and each label is named by ten branches or jumps in reach; with its comments the text has some 60 bytes a
line. Times are wall-clock ones of the whole call, with the output thrown away; of three runs the best counts.
"""
import pathlib
import random
import struct
import subprocess
import sys
import tempfile
import time

TOP = pathlib.Path(__file__).resolve().parent.parent
BASE = 0x80000000
# The most pages have 16 MiB.
BYTES = 16_777_216
LINES = 1_000_000
RUNS = 3
OPCODES = [0x03, 0x0F, 0x13, 0x17, 0x1B, 0x23, 0x2F, 0x33, 0x37, 0x3B, 0x63, 0x67, 0x6F, 0x73]


def elf(code):
    header = b"\x7fELF\x02\x01\x01" + bytes(9) + struct.pack("<HHIQQQIHHHHHH", 2, 243, 1, BASE, 64, 0, 0, 64, 56, 1, 0, 0, 0)
    segment = struct.pack("<IIQQQQQQ", 1, 7, 120, BASE, BASE, len(code), len(code), 1)
    return header + segment + code


def text(count):
    """So many lines: of ten one sets a label, and each names one of the ten labels around."""
    source = random.Random(64)
    lines = []
    for number in range(count):
        label = f"label_{number // 10}:" if number % 10 == 0 else ""
        target = min(max(number // 10 + source.randrange(-5, 6), 0), (count - 1) // 10)
        made = f"j label_{target}" if number % 5 == 0 else f"bltu s{number % 12}, a{number % 8}, label_{target}"
        lines.append(f"{label:16}{made:32}# line {number}\n")
    return "".join(lines)


def seconds(command, path):
    start = time.perf_counter()
    done = subprocess.run([TOP / "tlbvm", command, path], stdout=subprocess.DEVNULL)
    if done.returncode != 0:
        sys.exit(f"texts: {command} ended with {done.returncode}")
    return time.perf_counter() - start


def best(command, path):
    seconds(command, path)
    return min(seconds(command, path) for _ in range(RUNS))


def main():
    source = random.Random(64)
    words = [source.getrandbits(25) << 7 | source.choice(OPCODES) for _ in range(BYTES // 4)]
    code = struct.pack(f"<{len(words)}I", *words)
    with tempfile.TemporaryDirectory() as folder:
        for count in [BYTES, BYTES // 40 * 4]:
            path = pathlib.Path(folder) / "words.elf"
            path.write_bytes(elf(code[:count]))
            print(f"texts: dis of {count:,} bytes: {best('dis', path):.2f} s")
        for count in [LINES, LINES // 10]:
            path = pathlib.Path(folder) / "lines.s"
            path.write_text(text(count))
            print(f"texts: asm of {count:,} lines, {path.stat().st_size:,} bytes: {best('asm', path):.2f} s")


if __name__ == "__main__":
    main()
