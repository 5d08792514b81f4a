/*
 * Reads sheets and draws weights through saszvigom.h and compares the number
 * returned and every byte of every buffer with what is expected. Prints a line
 * for each case and stops with status 1 at the first difference.
 */
#include "setup.h"

#include <stdbool.h>
#include <stdio.h>
#include <stdlib.h>
#include <string.h>

/* The sheet that document 01 lists. */
static const uint8_t listed[] = {1, 4, 3, 0, 0, 0, 0, 2, 0, 1, 2, 0, 2, 2, 1, 3, 4};

static void set_sheet(size_t n, const uint8_t *sheet, size_t length)
{
    set_buffers(READ, n);
    call.length[SHEET] = length;
    if (length > 0)
        memcpy(call.bytes[SHEET], sheet, length);
}

static void set_draws(uint64_t n, uint32_t seed)
{
    set_buffers(DRAW, n <= SASZVIGOM_MAX_VERTICES ? (size_t)n : 4);
    call.n = n;
    call.a = seed;
}

static void good_sheets(void)
{
    const uint8_t no_vertices[] = {1, 0, 3, 9, 9, 9, 9, 4};
    const uint8_t one_vertex[] = {1, 1, 3, 9, 9, 9, 9, 4};
    const uint8_t two_vertices[] = {1, 2, 3, 0x78, 0x56, 0x34, 0x12, 2, 1, 0, 4};

    set_sheet(0, no_vertices, sizeof no_vertices);
    expect_graph(0, NULL, 0);
    run("no vertices");
    set_lengths_as_needed();
    expect_graph(0, NULL, 0);
    run("no vertices, buffers of length 0");

    set_sheet(1, one_vertex, sizeof one_vertex);
    expect_graph(1, NULL, 0);
    run("one vertex");

    set_sheet(2, two_vertices, sizeof two_vertices);
    expect_graph(2, NULL, 0);
    expect_edge(0, 1);
    expect_draws(1, 0x12345678);
    run("two vertices, the larger first");

    set_sheet(4, listed, sizeof listed);
    expect_listed();
    run("the sheet of document 01");
    set_lengths_as_needed();
    expect_listed();
    run("the sheet of document 01, buffers as long as needed");
}

/* Sets up a sheet of 96 vertices, all adjacent, without its end; returns its
   length. */
static size_t set_largest_sheet(void)
{
    size_t length = 7;
    set_sheet(96, (const uint8_t[]){1, 96, 3, 1, 0, 0, 0}, length);
    for (size_t i = 0; i < 96; i++)
        for (size_t j = i + 1; j < 96; j++) {
            const uint8_t edge[] = {2, (uint8_t)j, (uint8_t)i};
            memcpy(call.bytes[SHEET] + length, edge, sizeof edge);
            length += sizeof edge;
        }
    call.length[SHEET] = length;
    return length;
}

static void largest_sheets(void)
{
    size_t length = set_largest_sheet();
    call.bytes[SHEET][length] = SASZVIGOM_RECORD_END;
    call.length[SHEET] = SASZVIGOM_GOOD_SHEET_BYTES_MAX;
    expect_graph(96, NULL, 0);
    for (size_t i = 0; i < 96; i++)
        for (size_t j = i + 1; j < 96; j++)
            expect_edge(i, j);
    expect_draws(4560, 1);
    run("96 vertices, all linked");
    set_lengths_as_needed();
    run("96 vertices, all linked, buffers as long as needed");

    length = set_largest_sheet();
    expect_refusal(SASZVIGOM_SHEET_CUT, 13687);
    run("96 vertices, all linked, and no end");

    call.bytes[SHEET][length] = SASZVIGOM_RECORD_END;
    expect_refusal(SASZVIGOM_RECORD_NOT_DUE, 13688);
    const size_t longer[] = {13689, 16383, SASZVIGOM_SHEET_BYTES_MAX, 16385, LONGEST};
    for (size_t i = 0; i < COUNT(longer); i++) {
        char name[64];
        call.length[SHEET] = longer[i];
        (void)snprintf(name, sizeof name, "96 vertices, %zu bytes", longer[i]);
        run(name);
    }
    memcpy(call.bytes[SHEET] + length, (const uint8_t[]){2, 95, 94, 4}, 4);
    expect_refusal(SASZVIGOM_EDGE_REPEATED, 13687);
    run("96 vertices, and the last edge again");
}

/* Bytes that are refused, whatever the buffers. */
static const struct {
    const char *name;
    size_t length;
    uint8_t bytes[17];
    unsigned cause, place;
} refused[] = {
    {"no bytes", 0, {0}, SASZVIGOM_SHEET_CUT, 0},
    {"a kind alone", 1, {1}, SASZVIGOM_SHEET_CUT, 1},
    {"an edge for the size", 3, {2, 0, 1}, SASZVIGOM_RECORD_NOT_DUE, 0},
    {"97 vertices and nothing else", 2, {1, 97}, SASZVIGOM_SIZE_TOO_LARGE, 0},
    {"255 vertices and an unknown kind", 3, {1, 255, 9}, SASZVIGOM_SIZE_TOO_LARGE, 0},
    {"a second size", 4, {1, 4, 1, 4}, SASZVIGOM_RECORD_NOT_DUE, 2},
    {"the end for the seed", 3, {1, 4, 4}, SASZVIGOM_RECORD_NOT_DUE, 2},
    {"a seed of three bytes", 6, {1, 4, 3, 0, 0, 0}, SASZVIGOM_SHEET_CUT, 6},
    {"a second seed", 12, {1, 4, 3, 0, 0, 0, 0, 3, 0, 0, 0, 0}, SASZVIGOM_RECORD_NOT_DUE, 7},
    {"no end", 7, {1, 4, 3, 0, 0, 0, 0}, SASZVIGOM_SHEET_CUT, 7},
    {"a cut edge with a bad vertex", 9, {1, 4, 3, 0, 0, 0, 0, 2, 9}, SASZVIGOM_SHEET_CUT, 9},
    {"no such vertex, first", 11, {1, 4, 3, 0, 0, 0, 0, 2, 4, 0, 4},
     SASZVIGOM_RECORD_VERTEX_INVALID, 7},
    {"no such vertex, second", 11, {1, 4, 3, 0, 0, 0, 0, 2, 0, 4, 4},
     SASZVIGOM_RECORD_VERTEX_INVALID, 7},
    {"a vertex twice", 14, {1, 4, 3, 0, 0, 0, 0, 2, 0, 1, 2, 3, 3, 4},
     SASZVIGOM_RECORD_VERTEX_INVALID, 10},
    {"an edge of no vertices", 11, {1, 0, 3, 0, 0, 0, 0, 2, 0, 0, 4},
     SASZVIGOM_RECORD_VERTEX_INVALID, 7},
    {"a bad vertex, then an unknown kind", 11, {1, 4, 3, 0, 0, 0, 0, 2, 9, 0, 7},
     SASZVIGOM_RECORD_VERTEX_INVALID, 7},
    {"an edge again", 17, {1, 4, 3, 0, 0, 0, 0, 2, 0, 1, 2, 2, 3, 2, 0, 1, 4},
     SASZVIGOM_EDGE_REPEATED, 13},
    {"an edge again in the other order", 14, {1, 4, 3, 0, 0, 0, 0, 2, 0, 1, 2, 1, 0, 4},
     SASZVIGOM_EDGE_REPEATED, 10},
    {"a second end", 9, {1, 4, 3, 0, 0, 0, 0, 4, 4}, SASZVIGOM_RECORD_NOT_DUE, 8},
    {"an edge after the end", 11, {1, 4, 3, 0, 0, 0, 0, 4, 2, 0, 9}, SASZVIGOM_RECORD_NOT_DUE, 8},
};

static void refused_sheets(void)
{
    for (size_t i = 0; i < COUNT(refused); i++) {
        char name[96];
        set_sheet(4, refused[i].bytes, refused[i].length);
        expect_refusal(refused[i].cause, refused[i].place);
        run(refused[i].name);
        call.length[ADJACENCY] = 0;
        call.length[WEIGHTS] = 0;
        (void)snprintf(name, sizeof name, "%s, and no room", refused[i].name);
        run(name);
    }
    for (size_t length = 0; length < sizeof listed; length++) {
        char name[64];
        set_sheet(4, listed, length);
        expect_refusal(SASZVIGOM_SHEET_CUT, (unsigned)length);
        (void)snprintf(name, sizeof name, "the first %zu bytes", length);
        run(name);
    }
}

/* Every byte where a kind is due, and after the end. */
static void every_kind(void)
{
    const unsigned offsets[] = {0, 2, 7, 10, 16, 17};
    const char *const known[] = {"\1", "\3", "\2\4", "\2\4", "\2\4", ""};
    for (size_t o = 0; o < COUNT(offsets); o++) {
        uint8_t *const byte = call.bytes[SHEET] + offsets[o];
        set_sheet(4, listed, sizeof listed);
        call.length[SHEET] = 18;
        expect_refusal(SASZVIGOM_RECORD_NOT_DUE, offsets[o]);
        for (unsigned kind = 0; kind < 256; kind++) {
            char name[64];
            if (kind != 0 && strchr(known[o], (int)kind) != NULL)
                continue;
            *byte = (uint8_t)kind;
            expected.bytes[SHEET][offsets[o]] = (uint8_t)kind;
            (void)snprintf(name, sizeof name, "kind %u at %u", kind, offsets[o]);
            run(name);
        }
    }
}

static void lengths(void)
{
    for (size_t b = ADJACENCY; b <= WEIGHTS; b++) {
        char name[64];
        set_sheet(4, listed, sizeof listed);
        set_lengths_as_needed();
        call.length[b]--;
        expect_refusal(SASZVIGOM_BUFFER_TOO_SHORT, (unsigned)b + 1);
        (void)snprintf(name, sizeof name, "%s short by a byte", buffer_names[b]);
        run(name);
        call.length[b] = 0;
        run(name);
        call.length[WEIGHTS] = 0;
        run(name);
    }
}

static void run_draws(const char *name, size_t n, uint32_t seed, const uint16_t *weights)
{
    const size_t count = n * (n - 1) / 2;
    set_draws(n, seed);
    expect_nothing_written(0x700 | (uint64_t)count << 16);
    for (size_t index = 0; index < count; index++)
        saszvigom_store_word(expected.bytes[WEIGHTS], index, weights[index]);
    run(name);
    set_lengths_as_needed();
    run(name);
}

static void draws(void)
{
    run_draws("no vertices to draw for", 0, 5, NULL);
    run_draws("one vertex to draw for", 1, 5, NULL);
    run_draws("draws of seed 0", 4, 0, draws_of_0);
    /* The first of these come from the high halves 65520 and 65535. */
    run_draws("a draw of 1", 3, 2481441726, (const uint16_t[]){1, 56350, 61658});
    run_draws("a draw of 16", 3, 3346189246, (const uint16_t[]){16, 55009, 24257});

    set_draws(4, 0);
    for (size_t length = 0; length < 12; length++) {
        char name[64];
        call.length[WEIGHTS] = length;
        expect_refusal(SASZVIGOM_BUFFER_TOO_SHORT, SASZVIGOM_BUFFER_WEIGHTS);
        (void)snprintf(name, sizeof name, "six draws into %zu bytes", length);
        run(name);
    }

    const uint64_t too_large[] = {97, 128, 192, 256, 260, 65536 + 4, 4294967296u,
                                  4294967296u + 4, UINT64_MAX / 2 + 1, UINT64_MAX};
    for (size_t i = 0; i < COUNT(too_large); i++) {
        char name[64];
        set_draws(too_large[i], 1);
        expect_refusal(SASZVIGOM_SIZE_TOO_LARGE, 0);
        (void)snprintf(name, sizeof name, "draws for %llu vertices",
                       (unsigned long long)too_large[i]);
        run(name);
        call.length[WEIGHTS] = 0;
        run(name);
    }
}

static void largest_draws(void)
{
    set_draws(96, UINT32_MAX);
    expect_nothing_written(0x700 | 4560u << 16);
    expect_draws(4560, UINT32_MAX);
    run("draws of 96 vertices");
    set_lengths_as_needed();
    run("draws of 96 vertices, a buffer as long as needed");
}

/* The accessors, on numbers that a call returns. */
static void accessors(void)
{
    const uint64_t sheet = 0x6011D00600, drawn = 0x11D00700;
    const uint64_t refusal = 13 | (uint64_t)13687 << 16;
    const bool right = saszvigom_cause_of(sheet) == SASZVIGOM_NO_CAUSE
                       && saszvigom_kind_of(sheet) == SASZVIGOM_SHEET
                       && saszvigom_edges_of(sheet) == 4560 && saszvigom_size_of(sheet) == 96
                       && saszvigom_cause_of(drawn) == SASZVIGOM_NO_CAUSE
                       && saszvigom_kind_of(drawn) == SASZVIGOM_DRAWS
                       && saszvigom_drawn_of(drawn) == 4560
                       && saszvigom_kind_of(refusal) == SASZVIGOM_REFUSED
                       && saszvigom_cause_of(refusal) == SASZVIGOM_SHEET_CUT
                       && saszvigom_place_of(refusal) == 13687;
    if (!right) {
        printf("FAIL accessors\n");
        exit(1);
    }
    cases++;
    printf("ok   accessors\n");
}

static void *run_largest(void *unused)
{
    largest_sheets();
    largest_draws();
    return unused;
}

int main(void)
{
    good_sheets();
    largest_sheets();
    refused_sheets();
    every_kind();
    lengths();
    draws();
    largest_draws();
    accessors();
    run_on_small_stack(run_largest);
    printf("%zu cases\n", cases);
    return 0;
}
