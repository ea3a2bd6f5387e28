#!/usr/bin/env python3
"""Prints how many hits a second `probe` makes through a port of the machine's table, beside the same two loads, test and addition over
plain atomic words in the same program.

Takes the processor time of many rounds of 4,096 lookups, less that of one round, the best of several runs.
"""
import os
import pathlib
import resource
import subprocess

TOP = pathlib.Path(__file__).resolve().parent.parent
CRATE = TOP / "crates" / "tlb_probes"
PROGRAM = CRATE / "out" / "tlb_probes"
LOOKUPS = 4096
ROUNDS = 100_000
RUNS = int(os.environ.get("RUNS", 7))


def seconds(words):
    before = resource.getrusage(resource.RUSAGE_CHILDREN)
    subprocess.run([PROGRAM, *words], check=True, stdout=subprocess.DEVNULL)
    after = resource.getrusage(resource.RUSAGE_CHILDREN)
    return after.ru_utime - before.ru_utime


def rate(words):
    """Hits a second."""
    best = min(seconds([*words, str(ROUNDS)]) for _ in range(RUNS)) - min(seconds([*words, "1"]) for _ in range(RUNS))
    return ROUNDS * LOOKUPS / best


if not PROGRAM.exists():
    subprocess.run(["rt", "run", "--backend", "llvm"], cwd=CRATE, check=True, stdout=subprocess.DEVNULL)
port, plain = rate([]), rate(["atomics"])
print(f"hits: port {port / 1e6:.0f} million a second, atomics {plain / 1e6:.0f}, ratio {plain / port:.2f}")
