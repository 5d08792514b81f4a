#include "setup.h"

#include <pthread.h>
#include <stdio.h>
#include <stdlib.h>
#include <string.h>

/* The whole stack of a small thread. The sanitizers put frames of their own on
   it, between the library and memset. */
#ifdef __SANITIZE_ADDRESS__
#define STACK_KIB 144
#else
#define STACK_KIB 128
#endif

struct call call;
struct outcome expected;
size_t cases;

void run(const char *name)
{
    check_call(name, &call, &expected);
    cases++;
    printf("ok   %s\n", name);
}

static void set_lengths(size_t n)
{
    call.length[ADJACENCY] = SASZVIGOM_ADJACENCY_BYTES(n);
    call.length[WEIGHTS] = SASZVIGOM_WEIGHTS_BYTES(n);
    call.length[INVERSE] = SASZVIGOM_INVERSE_BYTES(n);
    call.length[SEQUENCE] = SASZVIGOM_SEQUENCE_BYTES(n);
    call.length[WITNESS] = SASZVIGOM_WITNESS_BYTES(n);
    call.length[WORK] = SASZVIGOM_WORK_BYTES(n);
    call.length[PARTNERS] = SASZVIGOM_ROW_BYTES(n);
}

void set_lengths_as_needed(void)
{
    set_lengths((size_t)call.n);
}

void set_graph(size_t n)
{
    call.entry = OPEN;
    call.n = n;
    call.made = 0;
    set_lengths(n);
    for (size_t b = 0; b < BUFFERS; b++)
        for (size_t i = 0; i < LONGEST; i++)
            call.bytes[b][i] = guard_byte(i + 7 * b);
    for (size_t b = ADJACENCY; b <= PARTNERS; b++)
        call.length[b] += 2 * b + 1;
    call.length[CALLS] = 0;
    call.length[ANSWERS] = 0;
    call.length[SHEET] = 0;
    memset(call.bytes[ADJACENCY], 0, SASZVIGOM_ADJACENCY_BYTES(n));
    for (size_t k = 0; k < n * (n - 1) / 2; k++)
        saszvigom_store_word(call.bytes[WEIGHTS], k, 1);
}

void set_edges(size_t n, const char *edges)
{
    set_graph(n);
    for (const char *edge = edges; edge[0] != '\0'; edge += edge[2] == ' ' ? 3 : 2)
        link_vertices((size_t)(edge[0] - '0'), (size_t)(edge[1] - '0'));
}

void store_any(uint8_t *words, size_t index, uint16_t word)
{
    words[2 * index] = (uint8_t)(word & 0xFF);
    words[2 * index + 1] = (uint8_t)(word >> 8);
}

void set_cell(size_t i, size_t j, uint8_t value)
{
    call.bytes[ADJACENCY][i * (size_t)call.n + j] = value;
}

void set_weight(size_t index, uint16_t weight)
{
    store_any(call.bytes[WEIGHTS], index, weight);
}

void link_vertices(size_t i, size_t j)
{
    set_cell(i, j, 1);
    set_cell(j, i, 1);
}

void link_all(void)
{
    for (size_t i = 0; i < call.n; i++)
        for (size_t j = i + 1; j < call.n; j++)
            link_vertices(i, j);
}

void set_buffers(enum entry entry, size_t n)
{
    set_graph(n);
    call.entry = entry;
    for (size_t i = 0; i < LONGEST; i++) {
        call.bytes[ADJACENCY][i] = guard_byte(i + 3);
        call.bytes[WEIGHTS][i] = guard_byte(i + 5);
    }
}

void expect_nothing_written(uint64_t number)
{
    expected.number = number;
    memcpy(expected.bytes, call.bytes, sizeof expected.bytes);
}

void expect_refusal(unsigned cause, uint64_t place)
{
    expect_nothing_written(cause | place << 16);
}

void expect_fault(size_t i, size_t j, enum saszvigom_fault fault)
{
    expect_refusal(SASZVIGOM_ADJACENCY_FAULT, i | j << 8 | (uint64_t)fault << 16);
}

#define VALUE SASZVIGOM_FAULT_VALUE
#define DIAGONAL SASZVIGOM_FAULT_DIAGONAL
#define MIRROR SASZVIGOM_FAULT_MIRROR

const struct faulty faulty_tables[34] = {
    {"1 in the first cell", 1, 1, {{0, 0, 1}}, 0, 0, DIAGONAL},
    {"2 in the first cell", 1, 1, {{0, 0, 2}}, 0, 0, VALUE},
    {"255 in the first cell", 1, 1, {{0, 0, 255}}, 0, 0, VALUE},
    {"1 in the last cell", 1, 1, {{-1, -1, 1}}, -1, -1, DIAGONAL},
    {"2 in the last cell", 1, 1, {{-1, -1, 2}}, -1, -1, VALUE},
    {"255 in the last cell", 1, 1, {{-1, -1, 255}}, -1, -1, VALUE},
    {"1 on the diagonal", 2, 1, {{1, 1, 1}}, 1, 1, DIAGONAL},
    {"2 on the diagonal", 2, 1, {{1, 1, 2}}, 1, 1, VALUE},
    {"255 on the diagonal", 2, 1, {{-2, -2, 255}}, -2, -2, VALUE},

    {"0 at the end of row 0", 2, 1, {{0, -1, 0}}, 0, -1, MIRROR},
    {"2 at the end of row 0", 2, 1, {{0, -1, 2}}, 0, -1, VALUE},
    {"255 at the end of row 0", 2, 1, {{0, -1, 255}}, 0, -1, VALUE},
    {"2 at the end of row 0 and of column 0", 2, 2, {{0, -1, 2}, {-1, 0, 2}}, 0, -1, VALUE},
    {"255 at the end of row 0, 2 of column 0", 2, 2, {{0, -1, 255}, {-1, 0, 2}}, 0, -1, VALUE},
    {"0 at the end of row 0, 2 of column 0", 2, 2, {{0, -1, 0}, {-1, 0, 2}}, 0, -1, MIRROR},
    {"0 at the end of column 0", 2, 1, {{-1, 0, 0}}, 0, -1, MIRROR},
    {"2 at the end of column 0", 2, 1, {{-1, 0, 2}}, 0, -1, MIRROR},
    {"255 at the end of column 0", 2, 1, {{-1, 0, 255}}, 0, -1, MIRROR},

    {"0 after the first cell", 2, 1, {{0, 1, 0}}, 0, 1, MIRROR},
    {"2 after the first cell", 2, 1, {{0, 1, 2}}, 0, 1, VALUE},
    {"0 below the first cell", 2, 1, {{1, 0, 0}}, 0, 1, MIRROR},
    {"2 below the first cell", 2, 1, {{1, 0, 2}}, 0, 1, MIRROR},
    {"0 above the last cell", 2, 1, {{-2, -1, 0}}, -2, -1, MIRROR},
    {"255 above the last cell", 2, 1, {{-2, -1, 255}}, -2, -1, VALUE},
    {"2 above and before the last cell", 2, 2, {{-2, -1, 2}, {-1, -2, 2}}, -2, -1, VALUE},
    {"0 before the last cell", 2, 1, {{-1, -2, 0}}, -2, -1, MIRROR},
    {"255 before the last cell", 2, 1, {{-1, -2, 255}}, -2, -1, MIRROR},

    {"two cells of row 0", 2, 2, {{0, -1, 2}, {0, 0, 1}}, 0, 0, DIAGONAL},
    {"row 0 before row 1", 2, 2, {{1, 1, 2}, {0, -1, 0}}, 0, -1, MIRROR},
    {"mirror in row 0 before row 1", 2, 2, {{1, 1, 1}, {-1, 0, 2}}, 0, -1, MIRROR},
    {"mirror before the last row", 2, 2, {{-1, -1, 1}, {-1, -2, 2}}, -2, -1, MIRROR},
    {"first cell of three", 3, 3, {{-1, -1, 255}, {1, 2, 2}, {1, 1, 1}}, 1, 1, DIAGONAL},
    {"first row of three", 3, 3, {{2, 2, 1}, {1, 1, 2}, {0, 2, 0}}, 0, 2, MIRROR},
    {"first mirror of three", 3, 3, {{1, 1, 2}, {2, 1, 255}, {2, 0, 2}}, 0, 2, MIRROR},
};

/* Returns a row or column that may count back from n. */
static size_t from_first(int position)
{
    return position < 0 ? (size_t)call.n - (size_t)-position : (size_t)position;
}

void set_faulty(const struct faulty *table)
{
    for (size_t k = 0; k < table->count; k++)
        set_cell(from_first(table->cells[k].i), from_first(table->cells[k].j),
                 table->cells[k].value);
    expect_fault(from_first(table->i), from_first(table->j), table->fault);
}

void set_back(const struct faulty *table)
{
    for (size_t k = 0; k < table->count; k++) {
        const size_t i = from_first(table->cells[k].i), j = from_first(table->cells[k].j);
        set_cell(i, j, i != j);
    }
}

const uint16_t draws_of_0[6] = {15471, 18257, 53709, 43770, 25171, 40751};

void expect_graph(size_t n, const uint16_t *weights, size_t count)
{
    expect_nothing_written(0x600 | (uint64_t)n << 32);
    memset(expected.bytes[ADJACENCY], 0, n * n);
    for (size_t index = 0; index < count; index++)
        saszvigom_store_word(expected.bytes[WEIGHTS], index, weights[index]);
}

void expect_edge(size_t i, size_t j)
{
    const size_t n = (size_t)(expected.number >> 32);
    expected.bytes[ADJACENCY][i * n + j] = 1;
    expected.bytes[ADJACENCY][j * n + i] = 1;
    expected.number += 1u << 16;
}

void expect_draws(size_t count, uint32_t seed)
{
    uint64_t state = seed;
    for (size_t index = 0; index < count; index++) {
        state = (1664525 * state + 1013904223) % 4294967296;
        saszvigom_store_word(expected.bytes[WEIGHTS], index, (uint16_t)(1 + state / 65536 % 65520));
    }
}

void expect_listed(void)
{
    expect_graph(4, draws_of_0, COUNT(draws_of_0));
    expect_edge(0, 1);
    expect_edge(0, 2);
    expect_edge(1, 3);
}

void run_on_small_stack(void *(*work)(void *))
{
    pthread_attr_t attributes;
    pthread_t thread;
    printf("on a thread with %d KiB of stack\n", STACK_KIB);
    fflush(stdout);
    if (pthread_attr_init(&attributes) != 0
        || pthread_attr_setstacksize(&attributes, STACK_KIB * 1024) != 0
        || pthread_create(&thread, &attributes, work, NULL) != 0
        || pthread_join(thread, NULL) != 0) {
        printf("FAIL thread\n");
        exit(1);
    }
    pthread_attr_destroy(&attributes);
}
