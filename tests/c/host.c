/*
 * Opens graphs through saszvigom.h and compares the number returned and every
 * byte of every buffer with what is expected. Prints a line for each case and
 * stops with status 1 at the first difference.
 */
#include "setup.h"

#include <stdbool.h>
#include <stdio.h>
#include <stdlib.h>
#include <string.h>

static void expect_written(uint64_t number)
{
    const size_t n = (size_t)call.n;
    expect_nothing_written(number);
    memset(expected.bytes[INVERSE], 0, 2 * n * n);
    memset(expected.bytes[SEQUENCE], 255, n);
    memset(expected.bytes[WITNESS], 0, 2 * n);
    memset(expected.bytes[WORK], 0, 2 * n * n);
}

static void expect_inverse(const uint16_t *inverse)
{
    const size_t n = (size_t)call.n;
    expect_written(0x100);
    for (size_t i = 0; i < n * n; i++)
        saszvigom_store_word(expected.bytes[INVERSE], i, inverse[i]);
}

static void expect_witness(unsigned column, const uint16_t *witness)
{
    expect_written(0x200 | (uint64_t)column << 16);
    for (size_t i = 0; i < call.n; i++)
        saszvigom_store_word(expected.bytes[WITNESS], i, witness[i]);
}

static void smallest_graphs(void)
{
    set_graph(0);
    expect_inverse(NULL);
    run("no vertices");
    set_lengths_as_needed();
    expect_inverse(NULL);
    run("no vertices, buffers of length 0");

    set_graph(1);
    expect_witness(0, (const uint16_t[]){1});
    run("one vertex");

    set_graph(2);
    expect_witness(0, (const uint16_t[]){1, 0});
    run("two vertices without an edge");

    set_edges(2, "01");
    set_weight(0, 2);
    expect_inverse((const uint16_t[]){0, 32760, 32761, 0});
    run("one edge of weight 2");
    set_lengths_as_needed();
    expect_inverse((const uint16_t[]){0, 32760, 32761, 0});
    run("one edge of weight 2, buffers as long as needed");
}

static void graphs_of_three_and_four(void)
{
    set_edges(3, "01 12");
    expect_witness(2, (const uint16_t[]){1, 0, 1});
    run("path of three vertices");

    set_edges(4, "01 02 13");
    expect_inverse((const uint16_t[]){
        0, 0, 65520, 0,
        0, 0, 0, 65520,
        1, 0, 0, 1,
        0, 1, 65520, 0,
    });
    run("path of four vertices");

    set_edges(4, "01 02 03");
    expect_witness(2, (const uint16_t[]){0, 65520, 1, 0});
    run("star of four vertices");

    set_edges(4, "01 12 23 03");
    set_weight(saszvigom_weight_index(4, 1, 2), 65520);
    expect_witness(2, (const uint16_t[]){65520, 0, 1, 0});
    run("ring of four vertices, weights that cancel");

    set_graph(4);
    link_all();
    expect_inverse((const uint16_t[]){
        0, 65520, 1, 65520,
        1, 0, 65520, 1,
        65520, 1, 0, 65520,
        1, 65520, 1, 0,
    });
    run("all six edges of four vertices");
}

/* With all weights 1 the inverse has (-1)^(j-i) above the diagonal, for even
   n; for odd n the witness is 1, -1, 1 and so on. */
static void largest_graphs(void)
{
    static uint16_t inverse[SASZVIGOM_MAX_VERTICES * SASZVIGOM_MAX_VERTICES];
    static uint16_t witness[SASZVIGOM_MAX_VERTICES];

    set_graph(96);
    link_all();
    for (size_t i = 0; i < 96; i++)
        for (size_t j = 0; j < 96; j++)
            inverse[96 * i + j] = i == j ? 0 : ((i + j) % 2 == 0) == (i < j) ? 1 : 65520;
    expect_inverse(inverse);
    run("96 vertices, all linked");
    set_lengths_as_needed();
    expect_inverse(inverse);
    run("96 vertices, all linked, buffers as long as needed");

    set_graph(95);
    link_all();
    for (size_t i = 0; i < 95; i++)
        witness[i] = i % 2 == 0 ? 1 : 65520;
    expect_witness(94, witness);
    run("95 vertices, all linked");

    set_graph(96);
    for (size_t i = 0; i < 96; i += 2)
        link_vertices(i, i + 1);
    set_cell(94, 95, 0);
    set_cell(95, 94, 0);
    memset(witness, 0, sizeof witness);
    witness[94] = 1;
    expect_witness(94, witness);
    run("96 vertices, 47 edges");
}

static void sizes(void)
{
    const uint64_t too_large[] = {97, 200, 256, 260, 65536 + 4, 4294967296u,
                                  4294967296u + 4, UINT64_MAX / 2 + 1, UINT64_MAX};
    for (size_t i = 0; i < sizeof too_large / sizeof too_large[0]; i++) {
        char name[64];
        set_graph(4);
        link_all();
        call.n = too_large[i];
        expect_refusal(SASZVIGOM_SIZE_TOO_LARGE, 0);
        (void)snprintf(name, sizeof name, "size %llu", (unsigned long long)too_large[i]);
        run(name);
    }
    set_graph(96);
    call.n = 97;
    memset(call.length, 0, sizeof call.length);
    expect_refusal(SASZVIGOM_SIZE_TOO_LARGE, 0);
    run("size 97, and no room");
}

static void lengths(void)
{
    for (size_t b = ADJACENCY; b <= WORK; b++) {
        char name[64];
        set_graph(4);
        link_all();
        set_lengths_as_needed();
        call.length[b]--;
        expect_refusal(SASZVIGOM_BUFFER_TOO_SHORT, (unsigned)b + 1);
        (void)snprintf(name, sizeof name, "%s short by a byte", buffer_names[b]);
        run(name);

        for (size_t later = b + 1; later <= WORK; later++)
            call.length[later] = 0;
        set_cell(0, 0, 9);
        set_weight(0, 0);
        expect_refusal(SASZVIGOM_BUFFER_TOO_SHORT, (unsigned)b + 1);
        (void)snprintf(name, sizeof name, "%s short, and all after it, and faults",
                       buffer_names[b]);
        run(name);
    }
}

static void adjacency_faults(void)
{
    set_graph(4);
    link_all();
    set_cell(1, 3, 2);
    expect_fault(1, 3, SASZVIGOM_FAULT_VALUE);
    run("a cell of 2");

    set_graph(4);
    set_cell(1, 0, 2);
    expect_fault(0, 1, SASZVIGOM_FAULT_MIRROR);
    run("a cell of 2 below the diagonal");

    set_graph(4);
    set_cell(3, 2, 1);
    expect_fault(2, 3, SASZVIGOM_FAULT_MIRROR);
    run("a cell unlike its mirror");

    set_graph(4);
    set_cell(2, 2, 1);
    set_cell(2, 3, 255);
    set_weight(0, 0);
    expect_fault(2, 2, SASZVIGOM_FAULT_DIAGONAL);
    run("a cell on the diagonal, a later cell and a weight");

    set_graph(96);
    link_all();
    set_cell(95, 95, 1);
    expect_nothing_written(0x25F5F0003);
    run("the last cell of 96 vertices");

    set_graph(96);
    memset(call.bytes[ADJACENCY], 1, SASZVIGOM_ADJACENCY_BYTES(96));
    expect_fault(0, 0, SASZVIGOM_FAULT_DIAGONAL);
    run("1 in every cell of 96 vertices");
    memset(call.bytes[ADJACENCY], 255, SASZVIGOM_ADJACENCY_BYTES(96));
    expect_fault(0, 0, SASZVIGOM_FAULT_VALUE);
    run("255 in every cell of 96 vertices");
}

/* Every table at fault, for no more vertices than it needs and for as many as
   there can be. */
static void faulty(void)
{
    const size_t sizes[] = {1, 2, 3, 96};
    for (size_t k = 0; k < COUNT(sizes); k++)
        for (size_t t = 0; t < COUNT(faulty_tables); t++)
            if (faulty_tables[t].least <= sizes[k]) {
                char name[96];
                set_graph(sizes[k]);
                link_all();
                set_faulty(&faulty_tables[t]);
                (void)snprintf(name, sizeof name, "size %zu, %s", sizes[k], faulty_tables[t].what);
                run(name);
            }
}

static void weight_faults(void)
{
    const uint16_t faulty[] = {0, 65521, 65535};
    for (size_t i = 0; i < 3; i++) {
        char name[64];
        set_edges(4, "01 23");
        set_weight(2, faulty[i]);
        set_weight(4, 0);
        expect_refusal(SASZVIGOM_WEIGHT_OUT_OF_RANGE, 2);
        (void)snprintf(name, sizeof name, "weight %u without an edge", (unsigned)faulty[i]);
        run(name);
    }

    set_edges(2, "01");
    set_weight(0, 65520);
    expect_inverse((const uint16_t[]){0, 1, 65520, 0});
    run("weight 65520");

    set_graph(96);
    link_all();
    set_weight(4559, 65521);
    expect_refusal(SASZVIGOM_WEIGHT_OUT_OF_RANGE, 4559);
    run("the last weight of 96 vertices");
}

static void check_that(const char *name, bool right)
{
    if (!right) {
        printf("FAIL %s\n", name);
        exit(1);
    }
    cases++;
    printf("ok   %s\n", name);
}

/* The accessors, on numbers that a call returns. */
static void accessors(void)
{
    const uint64_t singular = 131584;
    const uint64_t refused = 0x25F5F0003;
    const bool right = saszvigom_cause_of(256) == SASZVIGOM_NO_CAUSE
                       && saszvigom_kind_of(256) == SASZVIGOM_OPENED
                       && saszvigom_cause_of(singular) == SASZVIGOM_NO_CAUSE
                       && saszvigom_kind_of(singular) == SASZVIGOM_SINGULAR
                       && saszvigom_column_of(singular) == 2
                       && saszvigom_cause_of(refused) == SASZVIGOM_ADJACENCY_FAULT
                       && saszvigom_kind_of(refused) == SASZVIGOM_REFUSED
                       && saszvigom_place_of(refused) == 95 + 256 * 95 + 65536 * 2
                       && saszvigom_fault_row(refused, 96) == 95
                       && saszvigom_fault_column(refused, 96) == 95
                       && saszvigom_fault_of(refused, 96, NULL, 0) == SASZVIGOM_FAULT_DIAGONAL
                       && saszvigom_verdict_of(256, 96) == SASZVIGOM_VERDICT_FULL
                       && saszvigom_verdict_of(singular, 3) == SASZVIGOM_VERDICT_ODD
                       && saszvigom_verdict_of(singular, 4) == SASZVIGOM_VERDICT_UNDECIDED
                       && saszvigom_verdict_of(refused, 96) == SASZVIGOM_NO_VERDICT
                       && saszvigom_buffer_of(0xA0002) == SASZVIGOM_BUFFER_ANSWERS
                       && saszvigom_weight_index(96, 94, 95) == 4559
                       && saszvigom_weight_index(96, 95, 94) == 4559;
    check_that("accessors", right);
}

/* Tells whether opening the graph that is set up has this verdict. */
static bool has_verdict(enum saszvigom_verdict verdict)
{
    const uint64_t number =
        saszvigom_open(call.n, call.bytes[ADJACENCY], call.length[ADJACENCY], call.bytes[WEIGHTS],
                       call.length[WEIGHTS], call.bytes[INVERSE], call.length[INVERSE],
                       call.bytes[SEQUENCE], call.length[SEQUENCE], call.bytes[WITNESS],
                       call.length[WITNESS], call.bytes[WORK], call.length[WORK]);
    return saszvigom_verdict_of(number, call.n) == verdict;
}

/* The verdict of every size: without edges, with all of them, with those of a
   path, and with weights that cancel, though there is a perfect matching. */
static void verdicts(void)
{
    const enum saszvigom_verdict full = SASZVIGOM_VERDICT_FULL, odd = SASZVIGOM_VERDICT_ODD,
                                 undecided = SASZVIGOM_VERDICT_UNDECIDED;
    bool none = true, all = true, path = true, cancelled = true;
    for (size_t n = 0; n <= SASZVIGOM_MAX_VERTICES; n++) {
        set_graph(n);
        none = none && has_verdict(n == 0 ? full : n % 2 == 1 ? odd : undecided);
        for (size_t i = 1; i < n; i++)
            link_vertices(i - 1, i);
        path = path && has_verdict(n % 2 == 1 ? odd : full);
        link_all();
        all = all && has_verdict(n % 2 == 1 ? odd : full);
        if (n < 4)
            continue;
        set_edges(n, "01 02 13 23");
        for (size_t i = 4; i + 1 < n; i += 2)
            link_vertices(i, i + 1);
        cancelled = cancelled && has_verdict(n % 2 == 1 ? odd : undecided);
    }
    check_that("verdict of every size without edges", none);
    check_that("verdict of every path", path);
    check_that("verdict of every size, all linked", all);
    check_that("verdict of every size, weights that cancel", cancelled);

    set_graph(4);
    call.n = 97;
    check_that("no verdict of 97 vertices", has_verdict(SASZVIGOM_NO_VERDICT));
    set_graph(3);
    call.length[WORK] = 0;
    check_that("no verdict with a short buffer", has_verdict(SASZVIGOM_NO_VERDICT));
    set_graph(3);
    set_cell(2, 1, 1);
    check_that("no verdict with an adjacency fault", has_verdict(SASZVIGOM_NO_VERDICT));
    set_graph(4);
    set_weight(5, 0);
    check_that("no verdict with a weight of 0", has_verdict(SASZVIGOM_NO_VERDICT));
}

/* Words that are stored, and those that are refused and write nothing. */
static void words(void)
{
    const uint64_t refused[] = {65521, 65535, 65536, 65537, 131072, 4294967297u, (uint64_t)-1};
    static uint8_t buffer[SASZVIGOM_INVERSE_BYTES(96)], before[sizeof buffer];
    bool right = true;
    for (uint64_t word = 0; word < SASZVIGOM_MODULUS; word++) {
        const size_t index = (size_t)(word % 9216);
        right = right && saszvigom_store_word(buffer, index, word)
                && saszvigom_word(buffer, index) == word
                && buffer[2 * index] + 256 * buffer[2 * index + 1] == (int)word;
    }
    check_that("every word below the modulus is stored", right);
    memcpy(before, buffer, sizeof buffer);
    for (size_t i = 0; i < sizeof refused / sizeof refused[0]; i++)
        right = right && !saszvigom_store_word(buffer, 0, refused[i])
                && !saszvigom_store_word(buffer, 9215, refused[i]);
    check_that("no other word is stored", right && memcmp(before, buffer, sizeof buffer) == 0);

    const size_t far[] = {9216, SIZE_MAX / 2, SIZE_MAX / 2 + 1, SASZVIGOM_NO_INDEX};
    for (size_t i = 0; i < sizeof far / sizeof far[0]; i++)
        right = right && !saszvigom_store_word(buffer, far[i], 1)
                && saszvigom_word(buffer, far[i]) == 0;
    right = right && !saszvigom_store_word(NULL, SASZVIGOM_NO_INDEX, 1)
            && saszvigom_word(NULL, SASZVIGOM_NO_INDEX) == 0;
    check_that("no word is stored too far on",
               right && memcmp(before, buffer, sizeof buffer) == 0);
}

static void *run_largest_graphs(void *unused)
{
    largest_graphs();
    return unused;
}

int main(void)
{
    smallest_graphs();
    graphs_of_three_and_four();
    largest_graphs();
    sizes();
    lengths();
    adjacency_faults();
    faulty();
    weight_faults();
    accessors();
    verdicts();
    words();
    run_on_small_stack(run_largest_graphs);
    printf("%zu cases\n", cases);
    return 0;
}
