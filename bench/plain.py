#!/usr/bin/env python3
"""Prints how many guest instructions a second `tlbvm plain` runs, with the machine's processors and load then.

The guest is a straight line of 1,000,000 words: LUI, ADDI, SB and SW in turn, whose stores go to RAM behind the code.
What a call costs besides its turns is taken off: the same file is also run for one turn, and of each the best time counts.
Times are the processor's, so that other work on the machine disturbs them little.
"""
import os
import pathlib
import resource
import subprocess
import sys
import tempfile

TOP = pathlib.Path(__file__).resolve().parent.parent
sys.dont_write_bytecode = True
sys.path.insert(0, str(TOP / "examples"))
from make_hello import ENTRY, elf

WORDS = 1_000_000
RUNS = 25
ORDER_ENDED = 15


def lui(rd, upper):
    return upper << 12 | rd << 7 | 0x37


def addi(rd, rs1, imm):
    return (imm & 0xFFF) << 20 | rs1 << 15 | rd << 7 | 0x13


def store(width, rs2, offset, rs1):
    """SB or SW, by the code of its width."""
    return (offset >> 5) << 25 | rs2 << 20 | rs1 << 15 | width << 12 | (offset & 31) << 7 | 0x23


def line():
    """The words. LUI alone gives no address above 0x7fffffff, so ADDIs bring x5 from below RAM to behind the code."""
    behind, base = ENTRY + 4 * WORDS, 0x7FFFF000
    words = [lui(5, base >> 12)]
    while base < behind:
        words.append(addi(5, 5, 2040))
        base += 2040
    turn = 0
    while len(words) < WORDS:
        offset = 8 * (turn % 255)
        words += [lui(7, turn), addi(6, 7, turn % 2048), store(0, 6, offset + turn % 8, 5), store(2, 6, offset, 5)]
        turn += 1
    return words[:WORDS]


def processor_time():
    used = resource.getrusage(resource.RUSAGE_CHILDREN)
    return used.ru_utime + used.ru_stime


def seconds(program, elf_name, order):
    start = processor_time()
    done = subprocess.run([program, "plain", elf_name, order], capture_output=True)
    spent = processor_time() - start
    if done.returncode != ORDER_ENDED or done.stdout:
        sys.exit(f"the run ended with status {done.returncode}: {done.stderr.decode()}")
    return spent


def main():
    with tempfile.TemporaryDirectory() as folder:
        names = [f"{folder}/line.elf", f"{folder}/all.order", f"{folder}/one.order"]
        texts = [elf(line()), f"turn 0 {WORDS}\n".encode(), b"turn 0 1\n"]
        for name, text in zip(names, texts):
            pathlib.Path(name).write_bytes(text)
        image, all_turns, one_turn = names
        seconds(TOP / "tlbvm", image, one_turn)  # the launcher builds the program, where it isn't
        program = TOP / "crates/tlbvm_main/out/tlbvm_main"
        times = [(seconds(program, image, all_turns), seconds(program, image, one_turn)) for _ in range(RUNS)]
    best_all, best_one = map(min, zip(*times))
    rate = (WORDS - 1) / (best_all - best_one) / 1e6
    print(
        f"plain: {rate:.1f} million guest instructions a second"
        f" ({best_all * 1e3:.1f} ms against {best_one * 1e3:.1f} ms for one turn;"
        f" processors {os.cpu_count()}, load {os.getloadavg()[0]:.2f})"
    )


if __name__ == "__main__":
    main()
