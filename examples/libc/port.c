/* What picolibc asks of a machine: a file that prints by the UART, memory for the heap, and an end. */
#include <stdio.h>
#include <stddef.h>
#include <stdint.h>

static volatile unsigned char *const uart = (unsigned char *)0x10000000;
static volatile uint32_t *const finisher = (uint32_t *)0x100000;

static int put(char byte, FILE *file)
{
    (void)file;
    *uart = byte;
    return (unsigned char)byte;
}

static FILE console = FDEV_SETUP_STREAM(put, NULL, NULL, _FDEV_SETUP_WRITE);

FILE *const stdin = &console;
FILE *const stdout = &console;
FILE *const stderr = &console;

/* The heap is what lies between these two. */
extern char heap_begin[], heap_end[];

void *sbrk(ptrdiff_t more)
{
    static char *end = heap_begin;
    char *old = end;
    if (more > heap_end - end || more < heap_begin - end)
        return (void *)-1;
    end += more;
    return old;
}

void _exit(int status)
{
    *finisher = status ? (uint32_t)status << 16 | 0x3333 : 0x5555;
    for (;;)
        ;
}
