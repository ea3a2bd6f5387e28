/* Words in a list on the heap, sorted and printed by a stock C library. */
#include <stdio.h>
#include <stdlib.h>
#include <string.h>

struct word {
    struct word *next;
    char text[];
};

static const char *const words[] = {"walk", "fence", "leaf", "hart", "page", "entry"};

static struct word *add(struct word *list, const char *text)
{
    struct word *new = malloc(sizeof *new + strlen(text) + 1);
    if (!new) {
        printf("no memory\n");
        exit(1);
    }
    strcpy(new->text, text);
    struct word **place = &list;
    while (*place && strcmp((*place)->text, text) < 0)
        place = &(*place)->next;
    new->next = *place;
    *place = new;
    return list;
}

static int by_number(const void *left, const void *right)
{
    long a = *(const long *)left, b = *(const long *)right;
    return (a > b) - (a < b);
}

int main(void)
{
    struct word *list = NULL;
    for (size_t i = 0; i < sizeof words / sizeof *words; i++)
        list = add(list, words[i]);
    while (list) {
        struct word *next = list->next;
        printf("%-8s %2zu letters\n", list->text, strlen(list->text));
        free(list);
        list = next;
    }
    long numbers[64];
    srand(7);
    for (int i = 0; i < 64; i++)
        numbers[i] = rand() % 1000;
    qsort(numbers, 64, sizeof *numbers, by_number);
    long sum = 0;
    for (int i = 0; i < 64; i++)
        sum += numbers[i];
    printf("least %ld, most %ld, mean %.3f, sum in hexadecimal %#lx\n", numbers[0], numbers[63], sum / 64.0, sum);
    char *line = NULL;
    for (size_t length = 1; length <= 1 << 16; length <<= 4) {
        char *longer = realloc(line, length + 1);
        if (!longer)
            return 2;
        line = longer;
        memset(line, 'x', length);
        line[length] = 0;
    }
    printf("%zu bytes in a line\n", strlen(line));
    free(line);
    return 0;
}
