#!/usr/bin/env python3
"""Compares `tlbvm dis` and `tlbvm asm` with GNU binutils' assembler, over every instruction line with operands at their edges.

The assembler makes a word of each line; `dis` lists the words, and its lines have to be those again, with absolute targets.
Then words with random operands: where `dis` finds an instruction, the assembler makes the word again of its text. Texts over
every mnemonic, with labels, names of registers and CSRs, data and the shorthands, become the same bytes by `asm` and by the
assembler with its linker. Skipped, with status 0, where there are no binutils for RISC-V (Debian has them as
binutils-riscv64-linux-gnu).
"""
import itertools
import os
import pathlib
import random
import re
import shutil
import struct
import subprocess
import sys
import tempfile

TOP = pathlib.Path(__file__).resolve().parent.parent
PROGRAM = TOP / "tlbvm"
BASE = 0x80000000
PREFIXES = ["riscv64-unknown-elf-", "riscv64-linux-gnu-", "riscv64-elf-"]
ARCHITECTURE = "-march=rv64ima_zicsr_zifencei"
REGISTERS = [0, 1, 15, 31]
IMMEDIATES = [-2048, -1, 0, 1, 2047]
RANDOM_WORDS = 100_000

REGISTER_REGISTER = (
    "add sub sll slt sltu xor srl sra or and addw subw sllw srlw sraw"
    " mul mulh mulhsu mulhu div divu rem remu mulw divw divuw remw remuw"
).split()
ATOMICS = "sc amoswap amoadd amoxor amoand amoor amomin amomax amominu amomaxu".split()
FENCE_SETS = ["".join(s) for n in range(1, 5) for s in itertools.combinations("iorw", n)]


def registers_and(count, last):
    """Every choice of so many registers with each of the last operands."""
    return [(*choice, value) for choice in itertools.product(REGISTERS, repeat=count) for value in last]


def listing():
    """Pairs of the assembler's text and of what `dis` is to list, but for its target."""
    lines = []
    for name in ["lui", "auipc"]:
        lines += [f"{name} x{d}, {z:#x}" for d, z in registers_and(1, [0, 1, 0x7FFFF, 0x80000, 0xFFFFF])]
    lines += [f"jal x{d}, .{z:+}" for d, z in registers_and(1, [-1048576, -2, 0, 2, 0x7FE, 0x800, 0xFF000, 1048574])]
    for name in "beq bne blt bge bltu bgeu".split():
        lines += [f"{name} x{p}, x{q}, .{z:+}" for p, q, z in registers_and(2, [-4096, -2, 0, 2, 0x800, 0x7E0, 4094])]
    for name in "jalr lb lh lw ld lbu lhu lwu sb sh sw sd".split():
        lines += [f"{name} x{d}, {z}(x{r})" for d, r, z in registers_and(2, IMMEDIATES)]
    for name in "addi slti sltiu xori ori andi addiw".split():
        lines += [f"{name} x{d}, x{r}, {z}" for d, r, z in registers_and(2, IMMEDIATES)]
    for name, amounts in [("slli srli srai", [0, 1, 31, 32, 63]), ("slliw srliw sraiw", [0, 1, 31])]:
        for shift in name.split():
            lines += [f"{shift} x{d}, x{r}, {k}" for d, r, k in registers_and(2, amounts)]
    for name in REGISTER_REGISTER:
        lines += [f"{name} x{d}, x{p}, x{q}" for d, p, q in registers_and(2, REGISTERS)]
    lines += ["ecall", "ebreak", "sret", "wfi"]
    lines += [f"sfence.vma x{p}, x{q}" for p, q in registers_and(1, REGISTERS)]
    for name in "csrrw csrrs csrrc".split():
        lines += [f"{name} x{d}, {c:#x}, x{r}" for d, r, c in registers_and(2, [0, 0x100, 0x180, 0xFFF])]
    for name in "csrrwi csrrsi csrrci".split():
        lines += [f"{name} x{d}, {c:#x}, {v}" for d, v, c in registers_and(2, [0, 0x100, 0x180, 0xFFF])]
    for width, order in itertools.product([".w", ".d"], ["", ".aq", ".rl", ".aqrl"]):
        lines += [f"lr{width}{order} x{d}, (x{r})" for d, r in registers_and(1, REGISTERS)]
        for name in ATOMICS:
            lines += [f"{name}{width}{order} x{d}, x{q}, (x{r})" for d, q, r in registers_and(2, REGISTERS)]
    pairs = [(line, line) for line in lines]
    for before, behind in itertools.product(FENCE_SETS, repeat=2):
        # one fence has a form of its own; the others are words
        text = "fence" if before == behind == "iorw" else None
        pairs.append((f"fence {before}, {behind}", text))
    pairs.append(("fence.tso", None))
    pairs.append(("fence.i", "fence.i"))
    return pairs


def listed(place, word, text):
    """The line of a word at a place, with the target that lies at the text's distance."""
    if text is None:
        text = f".word 0x{word:08x}"
    text = re.sub(r"\.([+-]\d+)$", lambda found: f"{place + int(found[1]):#x}", text)
    return f"{place:08x}: {word:08x} {text}"


def relative(place, text):
    """The same text with the distance of its target, as the assembler takes it."""
    if text == "fence":
        return "fence iorw, iorw"
    if re.match(r"(jal|b[a-z]+) ", text):
        front, target = text.rsplit(", ", 1)
        return f"{front}, .{int(target, 16) - place:+}"
    return text


class Assembler:
    def __init__(self, prefix, folder):
        self.prefix, self.folder = prefix, folder

    def words(self, lines):
        """The words of these lines, one each."""
        source, made, flat = (f"{self.folder}/listing.{kind}" for kind in ("s", "o", "bin"))
        text = "\n".join([".option norvc", ".option norelax", *lines, ""])
        pathlib.Path(source).write_text(text)
        subprocess.run([self.prefix + "as", ARCHITECTURE, "-o", made, source], check=True)
        subprocess.run([self.prefix + "objcopy", "-O", "binary", "-j", ".text", made, flat], check=True)
        code = pathlib.Path(flat).read_bytes()
        words = [int.from_bytes(code[at : at + 4], "little") for at in range(0, len(code), 4)]
        if len(words) != len(lines):
            sys.exit(f"yardstick: {len(lines)} lines made {len(words)} words")
        return words


def read_back(folder, words):
    """The lines of `dis` for a program of these words."""
    code = struct.pack(f"<{len(words)}I", *words)
    header = b"\x7fELF\x02\x01\x01" + bytes(9) + struct.pack("<HHIQQQIHHHHHH", 2, 243, 1, BASE, 64, 0, 0, 64, 56, 1, 0, 0, 0)
    segment = struct.pack("<IIQQQQQQ", 1, 7, 120, BASE, BASE, len(code), len(code), 1)
    path = pathlib.Path(folder) / "words.elf"
    path.write_bytes(header + segment + code)
    done = subprocess.run([PROGRAM, "dis", path], capture_output=True, text=True)
    if done.returncode != 0:
        sys.exit(done.stdout[:1000] + done.stderr)
    return done.stdout.splitlines()


def compare(what, pairs):
    """Compares lists, and ends with the first that differ."""
    wrong = [(wanted, seen) for wanted, seen in pairs if wanted != seen]
    for wanted, seen in wrong[:10]:
        print(f"yardstick: {what}: wanted {wanted}, and came to {seen}", file=sys.stderr)
    if wrong:
        sys.exit(f"yardstick: {what}: {len(wrong)} of {len(pairs)} differ")
    print(f"yardstick: {what}: {len(pairs)} agree")


def texts():
    """Pairs of lines, for `asm` and for the assembler, which has other shorthands for `li` and for moves of the place."""
    names = "zero ra sp gp tp t0 t1 t2 s0 s1 a0 a1 a2 a3 a4 a5 a6 a7 s2 s3 s4 s5 s6 s7 s8 s9 s10 s11 t3 t4 t5 t6".split()
    csrs = "sstatus sie stvec scounteren sscratch sepc scause stval sip satp".split()
    pairs = []
    for number, (line, text) in enumerate(listing()):
        if number % 100 == 0:
            pairs.append((f"L{number // 100}:", f"L{number // 100}:"))
        if text is None:
            continue
        if "." in line and re.search(r"\.[+-]\d+$", line):
            label = f"L{number // 100}"
            text = re.sub(r"\.[+-]\d+$", label, line)
        pairs.append((text, line if text == "fence" else text))
    pairs += [(f"add {d}, {names[31 - at]}, {d}",) * 2 for at, d in enumerate(names)]
    pairs += [(f"csrrw t0, {csr}, a0  # a CSR", f"csrrw t0, {csr}, a0") for csr in csrs]
    pairs += [("mv s1, s11",) * 2, ("addi t0, t0, -0x80",) * 2, ("\tandi\tt0 ,\tt1,0x07f ",) * 2, ("end: j end",) * 2]
    for n in [0, 1, -1, 2047, 2048, -2048, -2049, 0x12345FFF, 0x7FFFF7FF, 0x7FFFF800, 0x7FFFFFFF, -0x80000000]:
        low = (n + 0x800) % 0x1000 - 0x800
        upper = ((n - low) >> 12) % 0x100000
        pairs.append((f"li t3, {n}", f"lui t3, {upper}\n addiw t3, t3, {low}"))
    pairs += [("la a0, L0",) * 2, ("la a1, data",) * 2]
    pairs += [(".byte 255, -128, 0, 0x7f",) * 2, (".word 0xffffffff, -2147483648",) * 2, ("data: .dword 0xfedcba9876543210, -1",) * 2]
    pairs += [(f".org {BASE + 0x100000:#x}", ".org 0x100000"), ("la a0, data",) * 2, ("la a1, far",) * 2]
    pairs += [(f".org {BASE + 0x200000:#x}", ".org 0x200000"), ("far: wfi",) * 2]
    return pairs


def linked(assembler, lines):
    """The bytes of these lines, linked at the beginning of RAM."""
    source, made, whole, flat = (f"{assembler.folder}/text.{kind}" for kind in ("s", "o", "elf", "bin"))
    pathlib.Path(source).write_text("\n".join([".option norvc", ".option norelax", *lines, ""]))
    prefix = assembler.prefix
    subprocess.run([prefix + "as", ARCHITECTURE, "-o", made, source], check=True)
    subprocess.run([prefix + "ld", "--no-relax", "-e", str(BASE), "-Ttext", hex(BASE), "-o", whole, made], check=True)
    subprocess.run([prefix + "objcopy", "-O", "binary", "-j", ".text", whole, flat], check=True)
    return pathlib.Path(flat).read_bytes()


def assembled(folder, lines):
    """The image that `asm` makes of these lines."""
    path = pathlib.Path(folder) / "text.s"
    path.write_text("\n".join([*lines, ""]))
    done = subprocess.run([PROGRAM, "asm", path], capture_output=True)
    if done.returncode != 0:
        sys.exit(done.stderr.decode())
    return done.stdout[4096:]


def random_words():
    """Words under the opcodes that are used, of which most are no instruction's."""
    opcodes = [0x03, 0x0F, 0x13, 0x17, 0x1B, 0x23, 0x2F, 0x33, 0x37, 0x3B, 0x63, 0x67, 0x6F, 0x73]
    source = random.Random(64)
    return [source.getrandbits(25) << 7 | source.choice(opcodes) for _ in range(RANDOM_WORDS)]


def main():
    prefix = next((p for p in PREFIXES if shutil.which(p + "as") and shutil.which(p + "objcopy")), None)
    if prefix is None:
        print("yardstick: skipped: there are no GNU binutils for RISC-V")
        return
    with tempfile.TemporaryDirectory() as folder:
        assembler = Assembler(prefix, folder)
        pairs = listing()
        words = assembler.words([line for line, _ in pairs])
        wanted = [listed(BASE + 4 * at, word, text) for at, (word, (_, text)) in enumerate(zip(words, pairs))]
        compare("the listing", list(zip(wanted, read_back(folder, words))))
        split = [line.split(" ", 2) for line in read_back(folder, random_words())]
        found = [(word, relative(int(place[:-1], 16), text)) for place, word, text in split if not text.startswith(".word")]
        words = assembler.words([text for _, text in found])
        compare("random words", [(word, f"{made:08x}") for (word, _), made in zip(found, words)])
        pairs = texts()
        ours, theirs = assembled(folder, [line for line, _ in pairs]), linked(assembler, [line for _, line in pairs])
        if len(ours) != len(theirs):
            sys.exit(f"yardstick: {len(ours)} bytes by asm, {len(theirs)} by GNU as")
        quads = range(0, len(ours), 4)
        compare("the words of texts", [(theirs[at : at + 4].hex(), ours[at : at + 4].hex()) for at in quads])


if __name__ == "__main__":
    main()
