/* What the guest's files share. */
typedef unsigned long word;
typedef unsigned char byte;

enum { PAGE = 4096 };

/* Of the last trap, and 0 where one forgot it. */
extern volatile word last_cause, last_value;

void put(const char *text);
void line(const char *what, word number);

/* A sum that shows its terms' order, too. */
static inline word added(word sum, word number)
{
    return (sum << 1 | sum >> 63) ^ number;
}

void arithmetic(void);
void atomics(void);
