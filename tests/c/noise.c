/*
 * Prints command lines for the desk, good ones among bad ones: noise SEED LINES
 * N, for a sheet of N vertices.
 */
#include <stdint.h>
#include <stdio.h>
#include <stdlib.h>

static uint32_t state;

static unsigned below(unsigned bound)
{
    state = 1664525u * state + 1013904223u;
    return (state >> 8) % bound;
}

static void number(unsigned n)
{
    static const char *const odd[] = {"-1", "+2", "0x1", "1e1", "18446744073709551615",
                                      "18446744073709551616", "99999999999999999999", "1.0", "",
                                      "004294967295"};
    if (below(12) == 0)
        printf("%s", odd[below(sizeof odd / sizeof odd[0])]);
    else
        printf("%u", below(n + 2));
}

static void bytes(unsigned most)
{
    for (unsigned i = below(most); i > 0; i--)
        putchar((int)below(256));
}

static void command(unsigned n)
{
    static const char *const words[] = {"pick",   "auto", "all",   "undo", "clear", "row",  "why",
                                        "show",   "help", "log",   "#",    "draws", "box",  "pikc",
                                        "replay"};
    switch (below(40)) {
    case 0:
        bytes(40);
        break;
    case 1: /* one line, often a long one */
        printf("%s", words[below(sizeof words / sizeof words[0])]);
        for (unsigned i = below(below(2) ? 9000 : 40); i > 0; i--)
            putchar(" 1x\t"[below(4)]);
        break;
    case 2: /* any words after a word that may be a command */
        printf("%s", words[below(sizeof words / sizeof words[0])]);
        for (unsigned i = below(6); i > 0; i--) {
            printf("%s", below(2) ? " " : " \t");
            number(n);
        }
        break;
    case 3:
        printf(below(2) ? "log %u.log" : "replay %u.log", below(6));
        break;
    case 4:
        printf("draws %u", below(5));
        break;
    case 5:
        printf("show");
        break;
    case 6:
        if (below(4) == 0)
            printf("all");
        else
            printf("row %u", below(n + 1));
        break;
    case 7: /* take many back */
        if (below(3) == 0)
            printf("clear\nreplay %u.log\n", below(6));
        for (unsigned i = below(n + 2); i > 0; i--)
            printf("undo\n");
        break;
    case 8:
        printf("why ");
        number(n);
        printf(" ");
        number(n);
        break;
    default:
        if (below(6) == 0) {
            printf("auto");
        } else if (below(5) == 0) {
            printf("undo");
        } else {
            printf("pick ");
            number(n);
            printf(" ");
            number(n);
        }
    }
    printf(below(20) == 0 ? "\r\n" : "\n");
}

int main(int argc, char **argv)
{
    if (argc != 4)
        return 2;
    state = (uint32_t)strtoul(argv[1], NULL, 10);
    const unsigned n = (unsigned)strtoul(argv[3], NULL, 10);
    for (unsigned long i = strtoul(argv[2], NULL, 10); i > 0; i--)
        command(n);
    printf("show\n");
    return 0;
}
