#!/usr/bin/env python3
"""Prints how fast steps on RAM words are through a port of the machine's table, beside plain atomic words in the same program.

Takes the processor time of many rounds over 4,096 words, less that of one round, the best of several runs.
"""
import os
import pathlib
import resource
import subprocess
import sys

TOP = pathlib.Path(__file__).resolve().parent.parent
CRATE = TOP / "crates" / "ram_steps"
PROGRAM = CRATE / "out" / "ram_steps"
WORDS = 4096
RUNS = int(os.environ.get("RUNS", 7))


def seconds(words):
    before = resource.getrusage(resource.RUSAGE_CHILDREN)
    subprocess.run([PROGRAM, *words], check=True, stdout=subprocess.DEVNULL)
    after = resource.getrusage(resource.RUSAGE_CHILDREN)
    return after.ru_utime - before.ru_utime


def rate(words, rounds):
    """Steps a second."""
    best = min(seconds([*words, str(rounds)]) for _ in range(RUNS)) - min(seconds([*words, "1"]) for _ in range(RUNS))
    return rounds * WORDS / best


if not PROGRAM.exists():
    subprocess.run(["rt", "run", "--backend", "llvm"], cwd=CRATE, check=True, stdout=subprocess.DEVNULL)
for kind, rounds in [("loads", 100_000), ("stores", 10_000)]:
    port, plain = rate([kind, "port"], rounds), rate([kind, "atomics"], rounds)
    print(f"{kind}: port {port / 1e6:.0f} million a second, atomics {plain / 1e6:.0f}, ratio {plain / port:.2f}")
