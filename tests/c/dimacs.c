/*
 * Reads texts in the DIMACS edge format through saszvigom.h and compares the
 * number returned and every byte of every buffer with what is expected. Prints a
 * line for each case and stops with status 1 at the first difference.
 */
#include "setup.h"

#include <stdbool.h>
#include <stdio.h>
#include <stdlib.h>
#include <string.h>

/* The graph that document 01 lists. */
static const char listed[] = "c document 01\np edge 4 3\ne 1 2\ne 1 3\ne 2 4\n";

/* Sets up bytes to read, with buffers for n vertices. */
static void set_bytes(size_t n, const void *text, size_t length, uint32_t seed)
{
    set_buffers(READ_DIMACS, n);
    call.a = seed;
    call.length[SHEET] = length;
    if (length > 0)
        memcpy(call.bytes[SHEET], text, length);
}

static void set_text(size_t n, const char *text, uint32_t seed)
{
    set_bytes(n, text, strlen(text), seed);
}

static void check(const char *name, bool holds)
{
    if (!holds) {
        printf("FAIL %s\n", name);
        exit(1);
    }
    cases++;
    printf("ok   %s\n", name);
}

/* Texts of the listed graph: in both orders, with repeated edges, with comments
   anywhere and with zeros in front. */
static const char *const same_graph[] = {
    listed,
    "p edge 4 3\ne 1 2\ne 1 3\ne 2 4\n",
    "p edge 4 3\ne 4 2\ne 3 1\ne 2 1\n",
    "p edge 4 6\ne 1 2\ne 2 1\ne 1 3\ne 3 1\ne 2 4\ne 4 2\n",
    "p edge 4 5\ne 1 2\ne 1 2\ne 1 2\ne 1 3\ne 2 4\n",
    "c\ncomment\ncp edge 3 1\np edge 4 3\nc\ne 1 2\nc e 1 4\ne 1 3\ne 2 4\nc\r\nc \t\n",
    "p edge 04 003\ne 01 2\ne 1 0000000000000000000000000000000000000000000000000003\ne 002 4\n",
};

static void good_texts(void)
{
    set_text(0, "p edge 0 0\n", 9);
    expect_graph(0, NULL, 0);
    run("no vertices");
    set_lengths_as_needed();
    run("no vertices, buffers of length 0");

    set_text(1, "p edge 1 0\n", 9);
    expect_graph(1, NULL, 0);
    run("one vertex");

    set_text(2, "p edge 2 1\ne 2 1\n", 0x12345678);
    expect_graph(2, NULL, 0);
    expect_edge(0, 1);
    expect_draws(1, 0x12345678);
    run("two vertices, the larger first");

    for (size_t i = 0; i < COUNT(same_graph); i++) {
        char name[64];
        set_text(4, same_graph[i], 0);
        expect_listed();
        (void)snprintf(name, sizeof name, "the graph of document 01, text %zu", i + 1);
        run(name);
        set_lengths_as_needed();
        run(name);
    }
}

/* A comment of all bytes but the line feed. */
static void any_comment(void)
{
    uint8_t text[300] = "c";
    size_t length = 1;
    for (unsigned byte = 0; byte < 256; byte++)
        if (byte != '\n')
            text[length++] = (uint8_t)byte;
    memcpy(text + length, "\np edge 1 0\n", 12);
    set_bytes(1, text, length + 12, 1);
    expect_graph(1, NULL, 0);
    run("a comment of any bytes");
}

/* Texts that are refused, whatever the buffers. */
static const struct {
    const char *text;
    unsigned cause;
    uint64_t place;
} refused[] = {
    /* No line p at all. */
    {"", SASZVIGOM_LINE_INVALID, 0},
    {"c\n", SASZVIGOM_LINE_INVALID, 0},
    {"cp edge 3 1\ncomment\n", SASZVIGOM_LINE_INVALID, 0},

    /* Lines of no such form. */
    {"\n", SASZVIGOM_LINE_INVALID, 1},
    {"\r\n", SASZVIGOM_LINE_INVALID, 1},
    {" c\n", SASZVIGOM_LINE_INVALID, 1},
    {"C\n", SASZVIGOM_LINE_INVALID, 1},
    {"x\n", SASZVIGOM_LINE_INVALID, 1},
    {"p\n", SASZVIGOM_LINE_INVALID, 1},
    {"p edge\n", SASZVIGOM_LINE_INVALID, 1},
    {"p edge 3\n", SASZVIGOM_LINE_INVALID, 1},
    {"p edge 3 \n", SASZVIGOM_LINE_INVALID, 1},
    {"p edge 3 0 \n", SASZVIGOM_LINE_INVALID, 1},
    {"p edge 3 0 0\n", SASZVIGOM_LINE_INVALID, 1},
    {"p edge 3 0\r\n", SASZVIGOM_LINE_INVALID, 1},
    {"p edge 3  0\n", SASZVIGOM_LINE_INVALID, 1},
    {"p edge  3 0\n", SASZVIGOM_LINE_INVALID, 1},
    {"p  edge 3 0\n", SASZVIGOM_LINE_INVALID, 1},
    {" p edge 3 0\n", SASZVIGOM_LINE_INVALID, 1},
    {"p\tedge 3 0\n", SASZVIGOM_LINE_INVALID, 1},
    {"p edge 3\t0\n", SASZVIGOM_LINE_INVALID, 1},
    {"p col 3 0\n", SASZVIGOM_LINE_INVALID, 1},
    {"p edges 3 0\n", SASZVIGOM_LINE_INVALID, 1},
    {"P edge 3 0\n", SASZVIGOM_LINE_INVALID, 1},
    {"p EDGE 3 0\n", SASZVIGOM_LINE_INVALID, 1},
    {"pedge 3 0\n", SASZVIGOM_LINE_INVALID, 1},
    {"p edge +3 0\n", SASZVIGOM_LINE_INVALID, 1},
    {"p edge 3 -0\n", SASZVIGOM_LINE_INVALID, 1},
    {"p edge 3.0 0\n", SASZVIGOM_LINE_INVALID, 1},
    {"p edge 0x3 0\n", SASZVIGOM_LINE_INVALID, 1},
    {"p edge three 0\n", SASZVIGOM_LINE_INVALID, 1},
    {"p edge 3 1\n\ne 1 2\n", SASZVIGOM_LINE_INVALID, 2},
    {"p edge 3 1\ne\n", SASZVIGOM_LINE_INVALID, 2},
    {"p edge 3 1\ne 1\n", SASZVIGOM_LINE_INVALID, 2},
    {"p edge 3 1\ne 1 \n", SASZVIGOM_LINE_INVALID, 2},
    {"p edge 3 1\ne 1 2 \n", SASZVIGOM_LINE_INVALID, 2},
    {"p edge 3 1\ne 1 2 3\n", SASZVIGOM_LINE_INVALID, 2},
    {"p edge 3 1\ne 1  2\n", SASZVIGOM_LINE_INVALID, 2},
    {"p edge 3 1\ne  1 2\n", SASZVIGOM_LINE_INVALID, 2},
    {"p edge 3 1\n e 1 2\n", SASZVIGOM_LINE_INVALID, 2},
    {"p edge 3 1\ne 1\t2\n", SASZVIGOM_LINE_INVALID, 2},
    {"p edge 3 1\ne 1 2\r\n", SASZVIGOM_LINE_INVALID, 2},
    {"p edge 3 1\nE 1 2\n", SASZVIGOM_LINE_INVALID, 2},
    {"p edge 3 1\ne1 2\n", SASZVIGOM_LINE_INVALID, 2},
    {"p edge 3 1\nedge 1 2\n", SASZVIGOM_LINE_INVALID, 2},
    {"p edge 3 1\ne -1 2\n", SASZVIGOM_LINE_INVALID, 2},
    {"p edge 3 1\ne 1 +2\n", SASZVIGOM_LINE_INVALID, 2},
    {"p edge 3 1\n1 2\n", SASZVIGOM_LINE_INVALID, 2},

    /* Bytes after the last line feed. */
    {"c", SASZVIGOM_LINE_INVALID, 1},
    {"p edge 0 0", SASZVIGOM_LINE_INVALID, 1},
    {"p edge 97 0", SASZVIGOM_LINE_INVALID, 1},
    {"p edge 3 1\ne 1 2", SASZVIGOM_LINE_INVALID, 2},
    {"p edge 3 1\ne 9 9", SASZVIGOM_LINE_INVALID, 2},
    {"p edge 3 1\ne 1 2\nc", SASZVIGOM_LINE_INVALID, 3},
    {"p edge 3 1\ne 1 2\n ", SASZVIGOM_LINE_INVALID, 3},

    /* Lines that may not stand there: a second p, an e before the p. */
    {"p edge 3 0\np edge 3 0\n", SASZVIGOM_LINE_INVALID, 2},
    {"p edge 3 0\nc\np edge 97 0\n", SASZVIGOM_LINE_INVALID, 3},
    {"p edge 3 1\ne 1 2\np edge 3 1\n", SASZVIGOM_LINE_INVALID, 3},
    {"e 1 2\np edge 3 1\n", SASZVIGOM_LINE_INVALID, 1},
    {"c\ne 0 0\n", SASZVIGOM_LINE_INVALID, 2},

    /* More than 96 vertices. */
    {"p edge 97 0\n", SASZVIGOM_SIZE_TOO_LARGE, 1},
    {"c\nc\np edge 0097 0\n", SASZVIGOM_SIZE_TOO_LARGE, 3},
    {"p edge 256 0\n", SASZVIGOM_SIZE_TOO_LARGE, 1},
    {"p edge 65540 0\n", SASZVIGOM_SIZE_TOO_LARGE, 1},
    {"p edge 4294967300 0\n", SASZVIGOM_SIZE_TOO_LARGE, 1},
    {"p edge 18446744073709551620 0\n", SASZVIGOM_SIZE_TOO_LARGE, 1},
    {"p edge 340282366920938463463374607431768211460 0\n", SASZVIGOM_SIZE_TOO_LARGE, 1},
    {"p edge 97 0\nnonsense\ne 9 9", SASZVIGOM_SIZE_TOO_LARGE, 1},

    /* Vertices that are not there, or twice the same. */
    {"p edge 4 1\ne 0 1\n", SASZVIGOM_LINE_VERTEX_INVALID, 2},
    {"p edge 4 1\ne 1 0\n", SASZVIGOM_LINE_VERTEX_INVALID, 2},
    {"p edge 4 1\ne 5 1\n", SASZVIGOM_LINE_VERTEX_INVALID, 2},
    {"p edge 4 1\ne 1 5\n", SASZVIGOM_LINE_VERTEX_INVALID, 2},
    {"p edge 4 1\ne 2 2\n", SASZVIGOM_LINE_VERTEX_INVALID, 2},
    {"p edge 4 1\ne 2 02\n", SASZVIGOM_LINE_VERTEX_INVALID, 2},
    {"p edge 4 1\ne 257 2\n", SASZVIGOM_LINE_VERTEX_INVALID, 2},
    {"p edge 4 1\ne 4294967297 2\n", SASZVIGOM_LINE_VERTEX_INVALID, 2},
    {"p edge 4 1\ne 2 4294967297\n", SASZVIGOM_LINE_VERTEX_INVALID, 2},
    {"p edge 4 1\ne 18446744073709551617 2\n", SASZVIGOM_LINE_VERTEX_INVALID, 2},
    {"p edge 4 1\ne 2 18446744073709551617\n", SASZVIGOM_LINE_VERTEX_INVALID, 2},
    {"p edge 4 2\nc\ne 1 2\nc\ne 3 5\n", SASZVIGOM_LINE_VERTEX_INVALID, 5},
    {"p edge 0 1\ne 1 1\n", SASZVIGOM_LINE_VERTEX_INVALID, 2},
    {"p edge 1 1\ne 1 2\n", SASZVIGOM_LINE_VERTEX_INVALID, 2},
    {"p edge 4 1\ne 9 9\nnonsense\n", SASZVIGOM_LINE_VERTEX_INVALID, 2},

    /* The form of a line comes before its numbers. */
    {"p edge 97 x\n", SASZVIGOM_LINE_INVALID, 1},
    {"p edge 97 0 \n", SASZVIGOM_LINE_INVALID, 1},
    {"p edge 4 1\ne 9 x\n", SASZVIGOM_LINE_INVALID, 2},
    {"p edge 4 1\ne 0 0 0\n", SASZVIGOM_LINE_INVALID, 2},
    {"p edge 4 1\nnonsense\ne 9 9\n", SASZVIGOM_LINE_INVALID, 2},

    /* Fewer or more lines e than M. */
    {"p edge 4 1\n", SASZVIGOM_LINE_COUNT_WRONG, 0},
    {"p edge 4 0\ne 1 2\n", SASZVIGOM_LINE_COUNT_WRONG, 0},
    {"p edge 4 1\ne 1 2\ne 2 1\n", SASZVIGOM_LINE_COUNT_WRONG, 0},
    {"p edge 4 3\ne 1 2\nc e 1 3\ne 2 4\n", SASZVIGOM_LINE_COUNT_WRONG, 0},
    {"p edge 4 257\ne 1 2\n", SASZVIGOM_LINE_COUNT_WRONG, 0},
    {"p edge 4 65537\ne 1 2\n", SASZVIGOM_LINE_COUNT_WRONG, 0},
    {"p edge 4 4294967297\ne 1 2\n", SASZVIGOM_LINE_COUNT_WRONG, 0},
    {"p edge 4 18446744073709551615\ne 1 2\n", SASZVIGOM_LINE_COUNT_WRONG, 0},
    {"p edge 4 18446744073709551616\n", SASZVIGOM_LINE_COUNT_WRONG, 0},
    {"p edge 4 18446744073709551617\ne 1 2\n", SASZVIGOM_LINE_COUNT_WRONG, 0},
    {"p edge 4 340282366920938463463374607431768211457\ne 1 2\n", SASZVIGOM_LINE_COUNT_WRONG, 0},

    /* A line at fault comes first, also after too many lines e. */
    {"p edge 4 2\ne 1 2\ne 1 5\n", SASZVIGOM_LINE_VERTEX_INVALID, 3},
    {"p edge 4 0\ne 1 2\ne 1 5\n", SASZVIGOM_LINE_VERTEX_INVALID, 3},
    {"p edge 4 0\ne 1 2\ne 1 3\nnonsense\n", SASZVIGOM_LINE_INVALID, 4},
    {"p edge 4 0\ne 1 2\ne 1 3", SASZVIGOM_LINE_INVALID, 3},
};

/* Names a case by its text, in which control characters are shown as points. */
static const char *name_of(const char *text, const char *rest)
{
    static char name[128];
    (void)snprintf(name, sizeof name, "\"%.60s\"%s", text, rest);
    for (char *c = name; *c != '\0'; c++)
        if (*c < ' ')
            *c = '.';
    return name;
}

static void refused_texts(void)
{
    for (size_t i = 0; i < COUNT(refused); i++) {
        set_text(4, refused[i].text, 1);
        expect_refusal(refused[i].cause, refused[i].place);
        run(name_of(refused[i].text, ""));
        call.length[ADJACENCY] = 0;
        call.length[WEIGHTS] = 0;
        run(name_of(refused[i].text, ", and no room"));
    }
}

/* A file that was read in part: the lines that are whole lack an edge, or the
   line p, and a line without its line feed is at fault. */
static void prefixes(void)
{
    uint64_t feeds = 0;
    for (size_t length = 0; length < sizeof listed - 1; length++) {
        char name[64];
        const bool whole = length == 0 || listed[length - 1] == '\n';
        feeds += length > 0 && whole;
        set_bytes(4, listed, length, 1);
        if (!whole)
            expect_refusal(SASZVIGOM_LINE_INVALID, feeds + 1);
        else if (feeds < 2)
            expect_refusal(SASZVIGOM_LINE_INVALID, 0);
        else
            expect_refusal(SASZVIGOM_LINE_COUNT_WRONG, 0);
        (void)snprintf(name, sizeof name, "the first %zu bytes", length);
        run(name);
    }
}

/* Every byte that may not stand at a place of the two lines. */
static void every_byte(void)
{
    static const char text[] = "p edge 3 1\ne 1 2\n", digits[] = "0123456789";
    const char *const known[] = {"pc", " ", "e", "d", "g", "e", " ", digits, " ", digits, "\n",
                                 "ec", " ", digits, " ", digits, "\n"};
    for (size_t at = 0; at < COUNT(known); at++) {
        set_text(3, text, 1);
        expect_refusal(SASZVIGOM_LINE_INVALID, at < 11 ? 1 : 2);
        for (unsigned byte = 0; byte < 256; byte++) {
            char name[64];
            if (byte != 0 && strchr(known[at], (int)byte) != NULL)
                continue;
            call.bytes[SHEET][at] = (uint8_t)byte;
            expected.bytes[SHEET][at] = (uint8_t)byte;
            (void)snprintf(name, sizeof name, "byte %u at %zu", byte, at);
            run(name);
        }
    }
}

/* Numbers of thousands of digits: zeros before a right number, or a digit before
   the zeros. */
static void long_numbers(void)
{
    static char text[LONGEST], zeros[4001];
    memset(zeros, '0', sizeof zeros - 1);

    (void)snprintf(text, sizeof text, "p edge %s4 %s1\ne %s3 %s4\n", zeros, zeros, zeros, zeros);
    set_text(4, text, 0);
    expect_graph(4, draws_of_0, COUNT(draws_of_0));
    expect_edge(2, 3);
    run("thousands of zeros");

    static const struct {
        const char *name, *format;
        unsigned cause;
        uint64_t place;
    } numbers[] = {
        {"N of thousands of digits", "p edge 1%s4 0\n", SASZVIGOM_SIZE_TOO_LARGE, 1},
        {"M of thousands of digits", "p edge 4 1%s1\ne 1 2\n", SASZVIGOM_LINE_COUNT_WRONG, 0},
        {"u of thousands of digits", "p edge 4 1\ne 1%s1 2\n", SASZVIGOM_LINE_VERTEX_INVALID, 2},
        {"v of thousands of digits", "p edge 4 1\ne 1 1%s2\n", SASZVIGOM_LINE_VERTEX_INVALID, 2},
        {"thousands of digits and a space", "p edge 4 1\ne 1 1%s2 \n", SASZVIGOM_LINE_INVALID, 2},
    };
    for (size_t i = 0; i < COUNT(numbers); i++) {
        const char *const hole = strstr(numbers[i].format, "%s");
        (void)snprintf(text, sizeof text, "%.*s%s%s", (int)(hole - numbers[i].format),
                       numbers[i].format, zeros, hole + 2);
        set_text(4, text, 0);
        expect_refusal(numbers[i].cause, numbers[i].place);
        run(numbers[i].name);
    }
}

static void lengths(void)
{
    for (size_t b = ADJACENCY; b <= WEIGHTS; b++) {
        char name[64];
        set_text(4, listed, 0);
        set_lengths_as_needed();
        call.length[b]--;
        expect_refusal(SASZVIGOM_BUFFER_TOO_SHORT, b + 1);
        (void)snprintf(name, sizeof name, "%s short by a byte", buffer_names[b]);
        run(name);
        call.length[b] = 0;
        run(name);
        call.length[WEIGHTS] = 0;
        run(name);
    }
}

/* Reads a text of any length, in a block of its own, as what is set up and
   expected but for the text. */
static uint64_t run_long(const char *name, const char *text, size_t length)
{
    uint8_t *const block = malloc(length);
    if (block == NULL)
        check("memory", false);
    memcpy(block, text, length);
    const uint64_t number =
        saszvigom_read_dimacs(block, length, (uint32_t)call.a, call.bytes[ADJACENCY],
                              call.length[ADJACENCY], call.bytes[WEIGHTS], call.length[WEIGHTS]);
    const bool right = number == expected.number && memcmp(block, text, length) == 0 &&
                       memcmp(call.bytes[ADJACENCY], expected.bytes[ADJACENCY], LONGEST) == 0 &&
                       memcmp(call.bytes[WEIGHTS], expected.bytes[WEIGHTS], LONGEST) == 0;
    free(block);
    check(name, right);
    return number;
}

/* 96 vertices, all adjacent, with every edge in both orders. */
static void largest_text(void)
{
    static char text[96 * 95 * 8 + 20];
    size_t length = (size_t)snprintf(text, sizeof text, "p edge 96 9120\n");
    set_text(96, "", UINT32_MAX);
    expect_graph(96, NULL, 0);
    for (size_t i = 0; i < 96; i++)
        for (size_t j = i + 1; j < 96; j++) {
            length += (size_t)snprintf(text + length, sizeof text - length,
                                       "e %zu %zu\ne %zu %zu\n", i + 1, j + 1, j + 1, i + 1);
            expect_edge(i, j);
        }
    expect_draws(4560, UINT32_MAX);
    (void)run_long("96 vertices, all adjacent", text, length);

    set_text(96, "", 1);
    expect_refusal(SASZVIGOM_LINE_INVALID, 9121);
    (void)run_long("96 vertices, and no last line feed", text, length - 1);
    set_text(96, "", 1);
    expect_refusal(SASZVIGOM_LINE_COUNT_WRONG, 0);
    (void)run_long("96 vertices, and not the last line", text, length - 8);
}

/* Lines above 65535, and the accessors of what is returned. */
static void late_lines(void)
{
    static const uint64_t lines[] = {65535, 65536, 65537, 100000, 131072};
    static char text[2 * 131072];
    for (size_t i = 0; i < sizeof text; i += 2) {
        text[i] = 'c';
        text[i + 1] = '\n';
    }
    for (size_t i = 0; i < COUNT(lines); i++) {
        char name[64];
        char *const last = text + 2 * (lines[i] - 1);
        *last = 'x';
        set_text(4, "", 1);
        expect_refusal(SASZVIGOM_LINE_INVALID, lines[i]);
        (void)snprintf(name, sizeof name, "a fault in line %llu", (unsigned long long)lines[i]);
        const uint64_t number = run_long(name, text, sizeof text);
        check("its accessors", saszvigom_kind_of(number) == SASZVIGOM_REFUSED &&
                                   saszvigom_cause_of(number) == SASZVIGOM_LINE_INVALID &&
                                   saszvigom_place_of(number) == lines[i] &&
                                   saszvigom_line_of(number) == lines[i]);
        *last = 'c';
    }
}

/* One edge in 70000 lines, and M right, or as if it were counted in 16 bits. */
static void many_lines(void)
{
    static const unsigned counts[] = {70000, 70000 - 65536, 65535, 69999, 70001};
    static char text[70000 * 6 + 20];
    for (size_t i = 0; i < COUNT(counts); i++) {
        char name[64];
        size_t length = (size_t)snprintf(text, sizeof text, "p edge 4 %u\n", counts[i]);
        for (size_t line = 0; line < 70000; line++, length += 6)
            memcpy(text + length, line % 2 == 0 ? "e 1 4\n" : "e 4 1\n", 6);
        set_text(4, "", 0);
        if (counts[i] == 70000) {
            expect_graph(4, draws_of_0, COUNT(draws_of_0));
            expect_edge(0, 3);
        } else {
            expect_refusal(SASZVIGOM_LINE_COUNT_WRONG, 0);
        }
        (void)snprintf(name, sizeof name, "70000 lines of an edge, M is %u", counts[i]);
        (void)run_long(name, text, length);
    }
}

/* The accessors, on numbers that a call returns, and on lines that no text can
   have in memory. */
static void accessors(void)
{
    const uint64_t graph = 0x6011D00600;
    check("accessors of a graph",
          saszvigom_cause_of(graph) == SASZVIGOM_NO_CAUSE &&
              saszvigom_kind_of(graph) == SASZVIGOM_SHEET && saszvigom_edges_of(graph) == 4560 &&
              saszvigom_size_of(graph) == 96);
    check("causes of lines", SASZVIGOM_LINE_VERTEX_INVALID == 14 && SASZVIGOM_LINE_INVALID == 16 &&
                                 SASZVIGOM_LINE_COUNT_WRONG == 17);

    const struct {
        uint64_t line;
        unsigned place;
    } lines[] = {
        {0, 0},
        {1, 1},
        {65535, 65535},
        {65536, 65536},
        {16777217, 16777217},
        {4294967294u, 4294967294u},
        {4294967295u, 4294967295u},
        {4294967296u, 4294967295u},
        {4294967297u, 4294967295u},
        {70368744177664u, 4294967295u},
        {140737488355327u, 4294967295u},
    };
    for (size_t i = 0; i < COUNT(lines); i++) {
        const uint64_t number = SASZVIGOM_LINE_INVALID | lines[i].line << 16;
        char name[64];
        (void)snprintf(name, sizeof name, "accessors of line %llu",
                       (unsigned long long)lines[i].line);
        check(name, saszvigom_kind_of(number) == SASZVIGOM_REFUSED &&
                        saszvigom_cause_of(number) == SASZVIGOM_LINE_INVALID &&
                        saszvigom_line_of(number) == lines[i].line &&
                        saszvigom_place_of(number) == lines[i].place);
        check("bit 63 is not of the line",
              saszvigom_line_of(number | (uint64_t)1 << 63) == lines[i].line &&
                  saszvigom_place_of(number | (uint64_t)1 << 63) == lines[i].place);
    }
}

static void *run_largest(void *unused)
{
    largest_text();
    late_lines();
    return unused;
}

int main(void)
{
    good_texts();
    any_comment();
    refused_texts();
    prefixes();
    every_byte();
    long_numbers();
    lengths();
    largest_text();
    late_lines();
    many_lines();
    accessors();
    run_on_small_stack(run_largest);
    printf("%zu cases\n", cases);
    return 0;
}
