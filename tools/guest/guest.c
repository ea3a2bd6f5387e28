/* A guest in supervisor mode with page tables of its own: it sorts, multiplies and divides, walks its own mappings, uses atomics,
   faults, is interrupted, and runs a user. It prints a line for each, and says nothing that two right machines could print
   differently. */
#include "guest.h"

enum { ENTRIES = 512 };
enum { V = 1, R = 2, W = 4, X = 8, U = 16, A = 64, D = 128 };

extern byte user_code[];
extern void leave_user(void);
extern word enter_user(word address, word argument);

static volatile byte *const uart = (volatile byte *)0x10000000;

static word root[ENTRIES] __attribute__((aligned(PAGE)));
static word middle[ENTRIES] __attribute__((aligned(PAGE)));
static word low[ENTRIES] __attribute__((aligned(PAGE)));
static word one[ENTRIES] __attribute__((aligned(PAGE)));
static word two[ENTRIES] __attribute__((aligned(PAGE)));

volatile word last_cause, last_value;

void put(const char *text)
{
    while (*text)
        *uart = *text++;
}

static void put_hex(word number)
{
    for (int shift = 60; shift >= 0; shift -= 4) {
        int digit = number >> shift & 15;
        *uart = digit < 10 ? '0' + digit : 'a' + digit - 10;
    }
}

void line(const char *what, word number)
{
    put(what);
    put(" ");
    put_hex(number);
    put("\n");
}

/* A trap: an interrupt is cleared and forgotten, a user's call leads back, and a fault's instruction is passed over. */
word on_trap(word cause, word value, word pc)
{
    last_cause = cause;
    last_value = value;
    if (cause >> 63) {
        asm volatile("csrc sip, %0" ::"r"(2ul));
        return pc;
    }
    if (cause == 8) {
        asm volatile("csrs sstatus, %0" ::"r"(0x100ul));
        return (word)leave_user;
    }
    return pc + 4;
}

static word entry(const void *page, word flags)
{
    return (word)page >> 12 << 10 | flags | V | A | D;
}

static void fence(void)
{
    asm volatile("sfence.vma" ::: "memory");
}

static void paging(void)
{
    root[0] = (word)middle >> 12 << 10 | V;
    root[2] = entry((void *)0x80000000, R | W | X);
    middle[0] = entry((void *)0, R | W);
    middle[128] = entry((void *)0x10000000, R | W);
    middle[1] = (word)low >> 12 << 10 | V;
    low[1] = entry(one, R | W);
    low[2] = entry(two, R | W);
    low[4] = entry(one, R);
    low[5] = entry(two, R | U);
    low[6] = entry(user_code, R | X | U);
    low[7] = entry(one, X);
    asm volatile("csrw satp, %0" ::"r"((word)root >> 12 | 8ul << 60) : "memory");
    fence();
}

static word load(word address)
{
    word number = 0x5eed;
    asm volatile("ld %0, 0(%1)" : "+r"(number) : "r"(address) : "memory");
    return number;
}

static void store(word address, word number)
{
    asm volatile("sd %0, 0(%1)" ::"r"(number), "r"(address) : "memory");
}

static void faulting_load(const char *what, word address)
{
    last_cause = last_value = 0;
    line(what, load(address));
    line("  cause", last_cause);
    line("  value", last_value);
}

static void faulting_store(const char *what, word address)
{
    last_cause = last_value = 0;
    store(address, 0xdead);
    line(what, last_cause);
    line("  value", last_value);
}

static void faulting_atomic(const char *what, word address)
{
    word number = 0x5eed;
    last_cause = last_value = 0;
    asm volatile("amoadd.d %0, %0, (%1)" : "+r"(number) : "r"(address) : "memory");
    line(what, number);
    line("  cause", last_cause);
    line("  value", last_value);
}

static void faulting_reservation(const char *what, word address)
{
    word number = 0x5eed;
    last_cause = last_value = 0;
    asm volatile("lr.d %0, (%1)" : "+r"(number) : "r"(address) : "memory");
    line(what, number);
    line("  cause", last_cause);
    line("  value", last_value);
}

static void sorting(void)
{
    static unsigned numbers[64];
    unsigned seed = 1, sum = 0;
    for (int i = 0; i < 64; i++) {
        seed ^= seed << 13, seed ^= seed >> 17, seed ^= seed << 5;
        numbers[i] = seed;
    }
    for (int i = 1; i < 64; i++) {
        unsigned number = numbers[i];
        int j = i;
        for (; j > 0 && numbers[j - 1] > number; j--)
            numbers[j] = numbers[j - 1];
        numbers[j] = number;
    }
    for (int i = 0; i < 64; i++)
        sum = (sum << 1 | sum >> 31) ^ numbers[i];
    line("sorted", numbers[0] <= numbers[1] && numbers[62] <= numbers[63]);
    line("sum", sum);
}

static void translating(void)
{
    word base = 0x200000;
    for (int i = 0; i < ENTRIES; i++) {
        one[i] = i;
        two[i] = 0x100 + i;
    }
    line("one", load(base + PAGE + 8));
    line("two", load(base + 2 * PAGE + 8));
    line("over both", load(base + 2 * PAGE - 3));
    store(base + 2 * PAGE - 5, 0x0123456789abcdef);
    line("one's last", one[ENTRIES - 1]);
    line("two's first", two[0]);
    low[2] = entry(one, R | W);
    fence();
    line("two is one", load(base + 2 * PAGE + 8));
    faulting_atomic("added to both", base + 2 * PAGE + 8);
    line("one", load(base + PAGE + 8));
    low[2] = entry(two, R | W);
    fence();
}

static void faulting(void)
{
    word base = 0x200000;
    faulting_load("no page", base + 3 * PAGE + 16);
    faulting_store("read only", base + 4 * PAGE + 16);
    faulting_load("the user's", base + 5 * PAGE);
    asm volatile("csrs sstatus, %0" ::"r"(1ul << 18));
    faulting_load("the user's, with SUM", base + 5 * PAGE + 8);
    asm volatile("csrc sstatus, %0" ::"r"(1ul << 18));
    faulting_load("code alone", base + 7 * PAGE + 8);
    asm volatile("csrs sstatus, %0" ::"r"(1ul << 19));
    faulting_load("code alone, with MXR", base + 7 * PAGE + 8);
    asm volatile("csrc sstatus, %0" ::"r"(1ul << 19));
    faulting_load("not canonical", 1ul << 40);
    faulting_load("over the last page", base + 3 * PAGE - 4);
    faulting_atomic("atomic, no page", base + 3 * PAGE + 16);
    faulting_atomic("atomic, read only", base + 4 * PAGE + 16);
    faulting_atomic("atomic, the user's", base + 5 * PAGE);
    faulting_reservation("reservation, read only", base + 4 * PAGE + 16);
    faulting_reservation("reservation, no page", base + 3 * PAGE + 16);
}

static void interrupting(void)
{
    last_cause = 0;
    asm volatile("csrs sie, %0" ::"r"(2ul));
    asm volatile("csrs sip, %0" ::"r"(2ul));
    line("masked", last_cause);
    asm volatile("csrs sstatus, %0" ::"r"(2ul) : "memory");
    line("interrupted", last_cause);
    asm volatile("csrc sstatus, %0" ::"r"(2ul));
}

void guest(void)
{
    put("guest\n");
    sorting();
    arithmetic();
    paging();
    translating();
    atomics();
    faulting();
    interrupting();
    line("user", enter_user(0x200000 + 6 * PAGE, 0x200000 + 5 * PAGE));
    line("  cause", last_cause);
    put("done\n");
}
