/* Prints a line, byte by byte, by the UART. */
static volatile unsigned char *const uart = (unsigned char *)0x10000000;

static void print(const char *text)
{
    for (; *text; text++)
        *uart = *text;
}

int main(void)
{
    print("Hello from C\n");
    return 0;
}
