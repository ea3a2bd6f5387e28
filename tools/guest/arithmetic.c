/* Multiplications, divisions and remainders: each instruction of M at the edges of its operands, and work compiled to them. */
#include "guest.h"

/* In C a division by zero means nothing, and neither does one that overflows: so the edges go to the instructions themselves. */
#define INSTRUCTION(name)                                                                                                      \
    static word do_##name(word a, word b)                                                                                      \
    {                                                                                                                          \
        word result;                                                                                                           \
        asm volatile(#name " %0, %1, %2" : "=r"(result) : "r"(a), "r"(b));                                                     \
        return result;                                                                                                         \
    }

INSTRUCTION(mul)
INSTRUCTION(mulh)
INSTRUCTION(mulhsu)
INSTRUCTION(mulhu)
INSTRUCTION(div)
INSTRUCTION(divu)
INSTRUCTION(rem)
INSTRUCTION(remu)
INSTRUCTION(mulw)
INSTRUCTION(divw)
INSTRUCTION(divuw)
INSTRUCTION(remw)
INSTRUCTION(remuw)

static const word edges[] = {
    0,
    1,
    2,
    7,
    -1ul,
    -2ul,
    1ul << 63,
    (1ul << 63) - 1,
    1ul << 31,
    -1ul << 31,
    (1ul << 31) - 1,
    (1ul << 32) - 1,
    1ul << 32,
    0x0123456789abcdef,
};

enum { EDGES = sizeof edges / sizeof *edges };

static void at_edges(const char *name, word (*instruction)(word, word))
{
    word sum = 0;
    for (int i = 0; i < EDGES; i++)
        for (int j = 0; j < EDGES; j++)
            sum = added(sum, instruction(edges[i], edges[j]));
    line(name, sum);
}

static void instructions(void)
{
    at_edges("mul", do_mul);
    at_edges("mulh", do_mulh);
    at_edges("mulhsu", do_mulhsu);
    at_edges("mulhu", do_mulhu);
    at_edges("div", do_div);
    at_edges("divu", do_divu);
    at_edges("rem", do_rem);
    at_edges("remu", do_remu);
    at_edges("mulw", do_mulw);
    at_edges("divw", do_divw);
    at_edges("divuw", do_divuw);
    at_edges("remw", do_remw);
    at_edges("remuw", do_remuw);
    line("by zero", do_div(5, 0));
    line("rest by zero", do_rem(5, 0));
    line("overflow", do_div(1ul << 63, -1ul));
    line("rest of overflow", do_rem(1ul << 63, -1ul));
}

/* Its next number, which the compiler can't know. */
static word random(void)
{
    static volatile word state = 1;
    state = state * 6364136223846793005ul + 1442695040888963407ul;
    return state ^ state >> 29;
}

static void decimal(word number)
{
    char text[21];
    char *at = text + 20;
    *at = 0;
    do {
        *--at = '0' + number % 10;
        number /= 10;
    } while (number);
    put(at);
    put("\n");
}

static word greatest_divisor(word a, word b)
{
    while (b) {
        word rest = a % b;
        a = b;
        b = rest;
    }
    return a;
}

static unsigned power(unsigned base, unsigned exponent, unsigned modulus)
{
    unsigned result = 1;
    for (; exponent; exponent >>= 1) {
        if (exponent & 1)
            result = (word)result * base % modulus;
        base = (word)base * base % modulus;
    }
    return result;
}

/* The days from 1970-01-01 to that day of the Gregorian calendar, before it too. */
static int days(int year, int month, int day)
{
    int months = (month - 14) / 12;
    return 1461 * (year + 4800 + months) / 4 + 367 * (month - 2 - 12 * months) / 12 - 3 * ((year + 4900 + months) / 100) / 4 + day -
           32075 - 2440588;
}

static void calendar(void)
{
    word sum = 0;
    for (int year = -400; year <= 2400; year += 175)
        for (int month = 1; month <= 12; month++) {
            int number = days(year, month, 1 + month * 2);
            sum = added(sum, (unsigned)(number % 7));
            sum = added(sum, (unsigned)(number / -30));
        }
    line("calendar", sum);
    line("leap day", days(2000, 2, 29));
}

static void high_products(void)
{
    word sum = 0;
    for (int i = 0; i < 32; i++) {
        word a = random(), b = random();
        sum = added(sum, (unsigned __int128)a * b >> 64);
        sum = added(sum, (__int128)(long)a * (long)b >> 64);
        sum = added(sum, (__int128)(long)a * b >> 64);
    }
    line("high products", sum);
}

static void matrices(void)
{
    enum { SIDE = 8 };
    static word a[SIDE][SIDE], b[SIDE][SIDE];
    word sum = 0;
    for (int i = 0; i < SIDE * SIDE; i++) {
        a[i / SIDE][i % SIDE] = random();
        b[i / SIDE][i % SIDE] = random();
    }
    for (int i = 0; i < SIDE; i++)
        for (int j = 0; j < SIDE; j++) {
            word cell = 0;
            for (int k = 0; k < SIDE; k++)
                cell += a[i][k] * b[k][j];
            sum = added(sum, cell);
        }
    line("matrices", sum);
}

static void quotients(void)
{
    word sum = 0;
    for (int i = 0; i < 64; i++) {
        long a = random(), b = (long)random() >> (i & 62) | 1;
        int c = a, d = b;
        sum = added(sum, a / b ^ a % b);
        sum = added(sum, (word)a / (word)b ^ (word)a % (word)b);
        sum = added(sum, c / (d >> 1 | 1) ^ c % (d >> 1 | 1));
        sum = added(sum, (unsigned)c / (unsigned)d ^ (unsigned)c % (unsigned)d);
        sum = added(sum, a / -7 ^ a % 1000 ^ c / 12 ^ c % -60);
    }
    line("quotients", sum);
}

void arithmetic(void)
{
    word first = random() >> 8, second = random() >> 8;
    instructions();
    decimal(-1ul);
    decimal(first);
    line("divisor", greatest_divisor(first * 35, second * 21));
    line("power", power(first, second, 2147483647));
    calendar();
    high_products();
    matrices();
    quotients();
}
