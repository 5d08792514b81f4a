#include "compare.h"

#include <stdbool.h>
#include <stdio.h>
#include <stdlib.h>
#include <string.h>

#define GUARD 255
#define BLOCK (BUFFERS * (LONGEST + GUARD + sizeof(uint64_t)) + GUARD)

const char *const entry_names[ENTRIES] = {
    "open", "pick", "automatic", "undo", "row", "replay", "read", "draw", "read dimacs",
};

const char *const buffer_names[BUFFERS] = {
    "adjacency", "weights", "inverse", "sequence", "witness",
    "work",      "row",     "calls",   "answers",  "sheet or text",
};

uint8_t guard_byte(size_t position)
{
    return (uint8_t)(1 + position * 37 % 251);
}

static _Noreturn void differs(const char *name, const char *where, size_t offset,
                              unsigned found, unsigned wanted)
{
    printf("FAIL %s: %s, byte %zu: %u instead of %u\n", name, where, offset, found, wanted);
    exit(1);
}

/* What the session calls are lent, each buffer with its length. */
#define LENT                                                                                       \
    buffers[ADJACENCY], call->length[ADJACENCY], buffers[WEIGHTS], call->length[WEIGHTS],          \
        buffers[INVERSE], call->length[INVERSE], buffers[SEQUENCE], call->length[SEQUENCE]

static uint64_t replay_calls(const struct call *call, uint8_t *const buffers[BUFFERS])
{
    return saszvigom_replay(call->n, call->made, LENT,
                            (const uint64_t *)(const void *)buffers[CALLS],
                            call->length[CALLS] / sizeof(uint64_t),
                            (uint64_t *)(void *)buffers[ANSWERS],
                            call->length[ANSWERS] / sizeof(uint64_t));
}

static uint64_t make_call(const struct call *call, uint8_t *const buffers[BUFFERS])
{
    switch (call->entry) {
    case OPEN:
        return saszvigom_open(call->n, LENT, buffers[WITNESS], call->length[WITNESS],
                              buffers[WORK], call->length[WORK]);
    case PICK:
        return saszvigom_pick(call->n, call->made, call->a, call->b, LENT);
    case AUTOMATIC:
        return saszvigom_automatic(call->n, call->made, LENT);
    case UNDO:
        return saszvigom_undo(call->n, call->made, LENT);
    case ROW:
        return saszvigom_row(call->n, call->made, call->a, LENT,
                             buffers[PARTNERS], call->length[PARTNERS]);
    case REPLAY:
        return replay_calls(call, buffers);
    case READ:
        return saszvigom_read(buffers[SHEET], call->length[SHEET], buffers[ADJACENCY],
                              call->length[ADJACENCY], buffers[WEIGHTS], call->length[WEIGHTS]);
    case READ_DIMACS:
        return saszvigom_read_dimacs(buffers[SHEET], call->length[SHEET], (uint32_t)call->a,
                                     buffers[ADJACENCY], call->length[ADJACENCY],
                                     buffers[WEIGHTS], call->length[WEIGHTS]);
    case DRAW:
        return saszvigom_draws(call->n, (uint32_t)call->a, buffers[WEIGHTS],
                               call->length[WEIGHTS]);
    default:
        printf("FAIL entry %d\n", (int)call->entry);
        exit(1);
    }
}

static void compare_number(const char *name, uint64_t found, uint64_t wanted)
{
    if (found != wanted) {
        printf("FAIL %s: number %#llx instead of %#llx\n", name,
               (unsigned long long)found, (unsigned long long)wanted);
        exit(1);
    }
}

static void compare_bytes(const char *name, const char *where, const uint8_t *found,
                          const uint8_t *wanted, size_t length)
{
    if (memcmp(found, wanted, length) == 0)
        return;
    for (size_t i = 0; i < length; i++)
        if (found[i] != wanted[i])
            differs(name, where, i, found[i], wanted[i]);
}

static void set_guards(uint8_t *block, size_t start, size_t end)
{
    for (size_t i = start; i < end; i++)
        block[i] = guard_byte(i);
}

static void compare_guards(const char *name, const uint8_t *block, size_t start, size_t end)
{
    for (size_t i = start; i < end; i++)
        if (block[i] != guard_byte(i))
            differs(name, "guard", i, block[i], guard_byte(i));
}

/* Tells whether a buffer holds 64-bit numbers and must be aligned as they are. */
static bool holds_numbers(size_t buffer)
{
    return buffer == CALLS || buffer == ANSWERS;
}

/* Returns the first place for a buffer: a multiple of eight, or odd for bytes. */
static size_t start_of(size_t buffer, size_t position)
{
    const size_t aligned = (position + 7) / 8 * 8;
    return holds_numbers(buffer) ? aligned : position | 1;
}

/* Runs a call with the buffers in one block between guard bytes, those of bytes
   at odd addresses. */
static void run_in_one_block(const char *name, const struct call *call,
                             const struct outcome *expected)
{
    static _Alignas(uint64_t) uint8_t block[BLOCK];
    uint8_t *buffers[BUFFERS];
    size_t end = 0;
    for (size_t b = 0; b < BUFFERS; b++) {
        const size_t start = start_of(b, end + GUARD);
        set_guards(block, end, start);
        buffers[b] = block + start;
        memcpy(buffers[b], call->bytes[b], call->length[b]);
        end = start + call->length[b];
    }
    set_guards(block, end, end + GUARD);

    compare_number(name, make_call(call, buffers), expected->number);

    end = 0;
    for (size_t b = 0; b < BUFFERS; b++) {
        const size_t start = (size_t)(buffers[b] - block);
        compare_guards(name, block, end, start);
        compare_bytes(name, buffer_names[b], buffers[b], expected->bytes[b], call->length[b]);
        end = start + call->length[b];
    }
    compare_guards(name, block, end, end + GUARD);
}

static uint8_t *allocate(const char *name, size_t length)
{
    uint8_t *block = malloc(length);
    if (block == NULL) {
        printf("FAIL %s: no memory\n", name);
        exit(1);
    }
    return block;
}

/* Runs a call with each buffer in a block of its own, so that a memory checker
   sees its ends. A buffer of length 0 is the end of a block of one byte, or of
   one number. */
static void run_in_own_blocks(const char *name, const struct call *call,
                              const struct outcome *expected)
{
    uint8_t *blocks[BUFFERS], *buffers[BUFFERS];
    for (size_t b = 0; b < BUFFERS; b++) {
        const size_t length = call->length[b];
        const size_t skipped = length > 0 ? 0 : holds_numbers(b) ? sizeof(uint64_t) : 1;
        blocks[b] = allocate(name, length + skipped);
        buffers[b] = blocks[b] + skipped;
        memcpy(buffers[b], call->bytes[b], length);
    }

    compare_number(name, make_call(call, buffers), expected->number);

    for (size_t b = 0; b < BUFFERS; b++) {
        compare_bytes(name, buffer_names[b], buffers[b], expected->bytes[b], call->length[b]);
        free(blocks[b]);
    }
}

void check_call(const char *name, const struct call *call, const struct outcome *expected)
{
    run_in_one_block(name, call, expected);
    run_in_own_blocks(name, call, expected);
}
