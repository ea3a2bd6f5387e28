/* A plain interpreter of RV64IM in C: the yardstick of bench/mixed.py, and no part of the product.
 *
 * interpreter IMAGE TURNS: the raw words of IMAGE stand at 0x80000000 in 4 MiB of RAM, where the hart begins; it takes TURNS
 * turns and prints the hart's line as the product's `--regs` does. What it has no code for ends it with status 1. */
#include <stdint.h>
#include <stdio.h>
#include <stdlib.h>
#include <string.h>

#define BASE 0x80000000u
#define RAM_BYTES (4u << 20)

enum end { GOES_ON, UNBUILT, PASS, FAIL, LIMIT };

struct machine {
    uint8_t *ram;
    uint64_t x[32];
    uint64_t pc;
    uint64_t count;
    uint64_t limit;
};

static int in_word(uint64_t address, unsigned width)
{
    return address - BASE < RAM_BYTES && address % 8 + width <= 8;
}

static enum end load(struct machine *m, uint64_t address, unsigned width, uint64_t *number)
{
    *number = 0;
    if (in_word(address, width)) {
        memcpy(number, m->ram + (address - BASE), width);
        return GOES_ON;
    }
    if (width == 1 && address >= 0x10000000 && address <= 0x10000007) {
        *number = address == 0x10000005 ? 0x60 : 0;
        return GOES_ON;
    }
    return width == 4 && address == 0x100000 ? GOES_ON : UNBUILT;
}

static enum end store(struct machine *m, uint64_t address, unsigned width, uint64_t value)
{
    if (in_word(address, width)) {
        memcpy(m->ram + (address - BASE), &value, width);
        return GOES_ON;
    }
    if (width == 1 && address >= 0x10000000 && address <= 0x10000007) {
        if (address == 0x10000000)
            putchar((int)(value & 255));
        return GOES_ON;
    }
    if (width == 4 && address == 0x100000)
        return (value & 0xffff) == 0x5555 ? PASS : (value & 0xffff) == 0x3333 ? FAIL : GOES_ON;
    return UNBUILT;
}

static int64_t immediate_i(uint32_t w) { return (int32_t)w >> 20; }
static int64_t immediate_s(uint32_t w) { return ((int32_t)w >> 25) * 32 + (int32_t)(w >> 7 & 31); }
static int64_t immediate_b(uint32_t w)
{
    return ((int32_t)w >> 31) * 4096 + (int32_t)((w << 4 & 0x800) | (w >> 20 & 0x7e0) | (w >> 7 & 0x1e));
}
static int64_t immediate_j(uint32_t w)
{
    return ((int32_t)w >> 31) * 1048576 + (int32_t)((w & 0xff000) | (w >> 9 & 0x800) | (w >> 20 & 0x7fe));
}

/* The M extension on 64 bits. A division by zero gives all ones and leaves the dividend; one that overflows gives the dividend
 * and leaves 0. */
static uint64_t multiply_or_divide(unsigned f3, uint64_t a, uint64_t b)
{
    int64_t p = a, q = b;
    switch (f3) {
    case 0: return a * b;
    case 1: return (__int128)p * q >> 64;
    case 2: return (__int128)p * b >> 64;
    case 3: return (unsigned __int128)a * b >> 64;
    case 4: return b == 0 ? UINT64_MAX : q == -1 ? -a : (uint64_t)(p / q);
    case 5: return b == 0 ? UINT64_MAX : a / b;
    case 6: return b == 0 ? a : q == -1 ? 0 : (uint64_t)(p % q);
    default: return b == 0 ? a : a % b;
    }
}

/* The same on the low 32 bits, where there are no high products. */
static enum end multiply_or_divide_word(unsigned f3, uint32_t a, uint32_t b, uint64_t *result)
{
    int32_t p = a, q = b;
    uint32_t word;
    switch (f3) {
    case 0: word = a * b; break;
    case 4: word = b == 0 ? UINT32_MAX : q == -1 ? -a : (uint32_t)(p / q); break;
    case 5: word = b == 0 ? UINT32_MAX : a / b; break;
    case 6: word = b == 0 ? a : q == -1 ? 0 : (uint32_t)(p % q); break;
    case 7: word = b == 0 ? a : a % b; break;
    default: return UNBUILT;
    }
    *result = (int64_t)(int32_t)word;
    return GOES_ON;
}

static enum end turn(struct machine *m)
{
    if (m->pc - BASE >= RAM_BYTES)
        return UNBUILT;
    uint32_t w;
    memcpy(&w, m->ram + (m->pc - BASE), 4);
    uint64_t *x = m->x;
    unsigned rd = w >> 7 & 31, f3 = w >> 12 & 7, f7 = w >> 25;
    uint64_t a = x[w >> 15 & 31], b = x[w >> 20 & 31], result = 0, next = m->pc + 4;
    enum end end = GOES_ON;
    switch (w & 127) {
    case 0x37: result = (int64_t)(int32_t)(w & 0xfffff000); break;
    case 0x17: result = m->pc + (int64_t)(int32_t)(w & 0xfffff000); break;
    case 0x6f:
        result = next;
        next = m->pc + immediate_j(w);
        if (next % 4)
            return UNBUILT;
        break;
    case 0x67:
        if (f3)
            return UNBUILT;
        result = next;
        next = (a + immediate_i(w)) & ~1ull;
        if (next % 4)
            return UNBUILT;
        break;
    case 0x63: {
        int taken;
        switch (f3) {
        case 0: taken = a == b; break;
        case 1: taken = a != b; break;
        case 4: taken = (int64_t)a < (int64_t)b; break;
        case 5: taken = (int64_t)a >= (int64_t)b; break;
        case 6: taken = a < b; break;
        case 7: taken = a >= b; break;
        default: return UNBUILT;
        }
        if (taken) {
            next = m->pc + immediate_b(w);
            if (next % 4)
                return UNBUILT;
        }
        rd = 0;
        break;
    }
    case 0x03: {
        uint64_t address = a + immediate_i(w);
        if (f3 == 7)
            return UNBUILT;
        end = load(m, address, 1u << (f3 & 3), &result);
        if (end == UNBUILT)
            return end;
        switch (f3) {
        case 0: result = (int64_t)(int8_t)result; break;
        case 1: result = (int64_t)(int16_t)result; break;
        case 2: result = (int64_t)(int32_t)result; break;
        }
        break;
    }
    case 0x23:
        if (f3 > 3)
            return UNBUILT;
        end = store(m, a + immediate_s(w), 1u << f3, b);
        if (end == UNBUILT)
            return end;
        rd = 0;
        break;
    case 0x13: {
        uint64_t i = immediate_i(w);
        switch (f3) {
        case 0: result = a + i; break;
        case 1:
            if (w >> 26)
                return UNBUILT;
            result = a << (w >> 20 & 63);
            break;
        case 2: result = (int64_t)a < (int64_t)i; break;
        case 3: result = a < i; break;
        case 4: result = a ^ i; break;
        case 5:
            if (w >> 26 == 0)
                result = a >> (w >> 20 & 63);
            else if (w >> 26 == 16)
                result = (int64_t)a >> (w >> 20 & 63);
            else
                return UNBUILT;
            break;
        case 6: result = a | i; break;
        case 7: result = a & i; break;
        }
        break;
    }
    case 0x1b:
        switch (f3) {
        case 0: result = (int64_t)(int32_t)(a + immediate_i(w)); break;
        case 1:
            if (f7)
                return UNBUILT;
            result = (int64_t)(int32_t)((uint32_t)a << (w >> 20 & 31));
            break;
        case 5:
            if (f7 == 0)
                result = (int64_t)(int32_t)((uint32_t)a >> (w >> 20 & 31));
            else if (f7 == 32)
                result = (int64_t)((int32_t)a >> (w >> 20 & 31));
            else
                return UNBUILT;
            break;
        default: return UNBUILT;
        }
        break;
    case 0x33:
        if (f7 == 32) {
            if (f3 == 0)
                result = a - b;
            else if (f3 == 5)
                result = (int64_t)a >> (b & 63);
            else
                return UNBUILT;
            break;
        }
        if (f7 == 1) {
            result = multiply_or_divide(f3, a, b);
            break;
        }
        if (f7)
            return UNBUILT;
        switch (f3) {
        case 0: result = a + b; break;
        case 1: result = a << (b & 63); break;
        case 2: result = (int64_t)a < (int64_t)b; break;
        case 3: result = a < b; break;
        case 4: result = a ^ b; break;
        case 5: result = a >> (b & 63); break;
        case 6: result = a | b; break;
        case 7: result = a & b; break;
        }
        break;
    case 0x3b:
        if (f7 == 0 && f3 == 0)
            result = (int64_t)(int32_t)(a + b);
        else if (f7 == 0 && f3 == 1)
            result = (int64_t)(int32_t)((uint32_t)a << (b & 31));
        else if (f7 == 0 && f3 == 5)
            result = (int64_t)(int32_t)((uint32_t)a >> (b & 31));
        else if (f7 == 32 && f3 == 0)
            result = (int64_t)(int32_t)(a - b);
        else if (f7 == 32 && f3 == 5)
            result = (int64_t)((int32_t)a >> (b & 31));
        else if (f7 != 1 || multiply_or_divide_word(f3, a, b, &result) == UNBUILT)
            return UNBUILT;
        break;
    case 0x0f:
        if (f3 > 1)
            return UNBUILT;
        rd = 0;
        break;
    default: return UNBUILT;
    }
    if (rd)
        x[rd] = result;
    m->pc = next;
    m->count++;
    if (end == GOES_ON && m->count == m->limit)
        return LIMIT;
    return end;
}

int main(int argc, char **argv)
{
    if (argc != 3)
        return 2;
    struct machine m = {.ram = calloc(1, RAM_BYTES), .pc = BASE, .limit = 50000000};
    FILE *image = fopen(argv[1], "rb");
    if (!m.ram || !image || fread(m.ram, 1, RAM_BYTES, image) == 0)
        return 3;
    uint64_t turns = strtoull(argv[2], NULL, 10);
    enum end end = GOES_ON;
    while (turns-- && end == GOES_ON)
        end = turn(&m);
    printf("hart 0 %llu %016llx", (unsigned long long)m.count, (unsigned long long)m.pc);
    for (int register_number = 1; register_number < 32; register_number++)
        printf(" %016llx", (unsigned long long)m.x[register_number]);
    putchar('\n');
    return end == UNBUILT;
}
