/* Atomics: the compiler's builtins on 32 and 64 bits, the instructions that it has none for, and pairs of LR and SC. */
#include "guest.h"

#define BUILTINS(type)                                                                                                         \
    static void builtins_of_##type(void)                                                                                       \
    {                                                                                                                          \
        static type cell = 0x789abcde;                                                                                         \
        type wanted = 1;                                                                                                       \
        line("add", __atomic_fetch_add(&cell, (type)-3, __ATOMIC_RELAXED));                                                    \
        line("sub", __atomic_fetch_sub(&cell, (type)0xfedcba9876543210, __ATOMIC_ACQUIRE));                                    \
        line("and", __atomic_fetch_and(&cell, (type)0xff00ffffff0fffff, __ATOMIC_RELEASE));                                    \
        line("or", __atomic_fetch_or(&cell, (type)0x8000000080000000, __ATOMIC_ACQ_REL));                                      \
        line("xor", __atomic_fetch_xor(&cell, (type)-1, __ATOMIC_SEQ_CST));                                                    \
        line("nand", __atomic_fetch_nand(&cell, (type)0x0f0f0f0f0f0f0f0f, __ATOMIC_SEQ_CST));                                  \
        line("sum", __atomic_add_fetch(&cell, (type)5, __ATOMIC_SEQ_CST));                                                     \
        line("exchange", __atomic_exchange_n(&cell, (type)0x80000000, __ATOMIC_SEQ_CST));                                      \
        line("other", __atomic_compare_exchange_n(&cell, &wanted, (type)7, 0, __ATOMIC_SEQ_CST, __ATOMIC_RELAXED));            \
        line("  wanted", wanted);                                                                                              \
        line("same", __atomic_compare_exchange_n(&cell, &wanted, (type)7, 0, __ATOMIC_ACQ_REL, __ATOMIC_ACQUIRE));             \
        line("  now", __atomic_load_n(&cell, __ATOMIC_SEQ_CST));                                                               \
    }

BUILTINS(unsigned)
BUILTINS(word)

/* An instruction that the builtins don't make, or not in that order. */
#define INSTRUCTION(name, text)                                                                                                \
    static word do_##name(word *cell, word operand)                                                                            \
    {                                                                                                                          \
        word old;                                                                                                              \
        asm volatile(text " %0, %2, %1" : "=&r"(old), "+A"(*cell) : "r"(operand) : "memory");                                  \
        return old;                                                                                                            \
    }

INSTRUCTION(min, "amomin.d")
INSTRUCTION(max, "amomax.d.aq")
INSTRUCTION(minu, "amominu.d.rl")
INSTRUCTION(maxu, "amomaxu.d.aqrl")
INSTRUCTION(min_word, "amomin.w.aqrl")
INSTRUCTION(max_word, "amomax.w.rl")
INSTRUCTION(minu_word, "amominu.w.aq")
INSTRUCTION(maxu_word, "amomaxu.w")
INSTRUCTION(add_word, "amoadd.w.aq")
INSTRUCTION(swap_word, "amoswap.w.rl")
INSTRUCTION(sc, "sc.d")
INSTRUCTION(sc_word, "sc.w.rl")

static const word edges[] = {
    0,
    1,
    -1ul,
    1ul << 63,
    (1ul << 63) - 1,
    1ul << 31,
    (1ul << 31) - 1,
    0x80000000ffffffff,
    0x7fffffff80000000,
};

enum { EDGES = sizeof edges / sizeof *edges };

/* Over each choice of what stands in memory and of the operand: what comes back, and what then stands there. */
static void at_edges(const char *name, word (*instruction)(word *, word))
{
    word sum = 0;
    for (int i = 0; i < EDGES; i++)
        for (int j = 0; j < EDGES; j++) {
            word cell = edges[i];
            sum = added(sum, instruction(&cell, edges[j]));
            sum = added(sum, cell);
        }
    line(name, sum);
}

static void instructions(void)
{
    at_edges("min", do_min);
    at_edges("max", do_max);
    at_edges("minu", do_minu);
    at_edges("maxu", do_maxu);
    at_edges("min of 32 bits", do_min_word);
    at_edges("max of 32 bits", do_max_word);
    at_edges("minu of 32 bits", do_minu_word);
    at_edges("maxu of 32 bits", do_maxu_word);
    at_edges("add of 32 bits", do_add_word);
    at_edges("swap of 32 bits", do_swap_word);
}

/* A pair may fail where it meets no other hart, but not for ever; an SC with no LR since the last SC always fails. */
static void pairs(void)
{
    word cell = 0xffffffff80000000, old, failed;
    asm volatile("1: lr.d.aq %0, %2\n addi %1, %0, 1\n sc.d.rl %1, %1, %2\n bnez %1, 1b"
                 : "=&r"(old), "=&r"(failed), "+A"(cell)
                 :
                 : "memory");
    line("pair", old);
    line("  now", cell);
    line("alone fails", do_sc(&cell, 5) != 0);
    line("  now", cell);
    asm volatile("1: lr.w %0, %2\n slli %1, %0, 1\n sc.w.aqrl %1, %1, %2\n bnez %1, 1b"
                 : "=&r"(old), "=&r"(failed), "+A"(cell)
                 :
                 : "memory");
    line("pair of 32 bits", old);
    line("  now", cell);
    line("alone fails", do_sc_word(&cell, 5) != 0);
    line("  now", cell);
}

struct node {
    struct node *next;
    word number;
};

static struct node *top;

static void push(struct node *node)
{
    node->next = __atomic_load_n(&top, __ATOMIC_RELAXED);
    while (!__atomic_compare_exchange_n(&top, &node->next, node, 1, __ATOMIC_RELEASE, __ATOMIC_RELAXED))
        ;
}

static struct node *pop(void)
{
    struct node *node = __atomic_load_n(&top, __ATOMIC_ACQUIRE);
    while (node && !__atomic_compare_exchange_n(&top, &node, node->next, 1, __ATOMIC_ACQ_REL, __ATOMIC_ACQUIRE))
        ;
    return node;
}

static void stack(void)
{
    static struct node nodes[16];
    word sum = 0, count = 0;
    for (int i = 0; i < 16; i++) {
        nodes[i].number = i * i;
        push(&nodes[i]);
    }
    for (struct node *node; (node = pop()); count++)
        sum = added(sum, node->number);
    line("stack", sum);
    line("  nodes", count);
}

void atomics(void)
{
    put("32 bits\n");
    builtins_of_unsigned();
    put("64 bits\n");
    builtins_of_word();
    instructions();
    pairs();
    stack();
}
