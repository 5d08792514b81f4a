/*
 * Runs sessions through saszvigom.h and compares the number returned and every
 * byte of every buffer with what is expected. Prints a line for each case and
 * stops with status 1 at the first difference.
 */
#define _DEFAULT_SOURCE
#include "setup.h"

#include <stdbool.h>
#include <stdio.h>
#include <stdlib.h>
#include <string.h>
#include <sys/mman.h>

/* The longest list of calls in these cases. */
#define MOST_CALLS 16

static const enum entry session_entries[] = {PICK, AUTOMATIC, UNDO, ROW, REPLAY};

static void open_session(void)
{
    const uint64_t number = saszvigom_open(
        call.n, call.bytes[ADJACENCY], call.length[ADJACENCY], call.bytes[WEIGHTS],
        call.length[WEIGHTS], call.bytes[INVERSE], call.length[INVERSE], call.bytes[SEQUENCE],
        call.length[SEQUENCE], call.bytes[WITNESS], call.length[WITNESS], call.bytes[WORK],
        call.length[WORK]);
    call.made = 0;
    if (number != 0x100) {
        printf("FAIL opening: number %#llx\n", (unsigned long long)number);
        exit(1);
    }
}

/* Makes the first pair of a session by an automatic pick. */
static void make_pair(void)
{
    const uint64_t number = saszvigom_automatic(
        call.n, 0, call.bytes[ADJACENCY], call.length[ADJACENCY], call.bytes[WEIGHTS],
        call.length[WEIGHTS], call.bytes[INVERSE], call.length[INVERSE], call.bytes[SEQUENCE],
        call.length[SEQUENCE]);
    call.made = 1;
    if (saszvigom_kind_of(number) != SASZVIGOM_PAIR) {
        printf("FAIL first pair: number %#llx\n", (unsigned long long)number);
        exit(1);
    }
}

/* Opens a session with all edges of four vertices. */
static void open_four(void)
{
    set_graph(4);
    link_all();
    open_session();
}

static void pick(uint64_t a, uint64_t b)
{
    call.entry = PICK;
    call.a = a;
    call.b = b;
}

static void row(uint64_t a)
{
    call.entry = ROW;
    call.a = a;
}

static void set_numbers(size_t buffer, const uint64_t *numbers, size_t count)
{
    call.length[buffer] = count * sizeof *numbers;
    if (count > 0)
        memcpy(call.bytes[buffer], numbers, call.length[buffer]);
}

/* Sets up a replay of the first length numbers, with room for `room` answers. */
static void replay(const uint64_t *numbers, size_t length, size_t room)
{
    static const uint64_t before[MOST_CALLS + 2] = {1, 2, 3};
    call.entry = REPLAY;
    set_numbers(CALLS, numbers, length);
    set_numbers(ANSWERS, before, room);
}

/* Sets up some call through an entry. */
static void call_entry(enum entry entry)
{
    const uint64_t list[] = {SASZVIGOM_CALL_AUTOMATIC, 0, 0};
    pick(2, 3);
    replay(list, 3, 1);
    call.entry = entry;
}

static void expect_row(const uint8_t *partners)
{
    expect_nothing_written(0x400 | call.made << 32);
    memcpy(expected.bytes[PARTNERS], partners, (size_t)call.n);
}

/* Expects a pair, and what inverse and sequence are then. */
static void expect_pair(unsigned smaller, unsigned larger, unsigned made,
                        const uint16_t *inverse, const uint8_t *sequence)
{
    const size_t n = (size_t)call.n;
    expect_nothing_written(0x300 | smaller << 16 | larger << 24 | (uint64_t)made << 32);
    for (size_t i = 0; i < n * n; i++)
        saszvigom_store_word(expected.bytes[INVERSE], i, inverse[i]);
    memcpy(expected.bytes[SEQUENCE], sequence, n);
}

/* Goes on from what was expected. */
static void go_on(void)
{
    memcpy(call.bytes, expected.bytes, sizeof call.bytes);
    if (saszvigom_cause_of(expected.number) == SASZVIGOM_NO_CAUSE)
        call.made = saszvigom_made_of(expected.number);
}

static void run_pick_refused(uint64_t a, uint64_t b, unsigned cause)
{
    char name[96];
    pick(a, b);
    expect_refusal(cause, 0);
    (void)snprintf(name, sizeof name, "pick of %llu and %llu refused with %u",
                   (unsigned long long)a, (unsigned long long)b, cause);
    run(name);
}

static void run_row_refused(uint64_t a, unsigned cause)
{
    char name[96];
    row(a);
    expect_refusal(cause, 0);
    (void)snprintf(name, sizeof name, "row of %llu refused with %u", (unsigned long long)a, cause);
    run(name);
}

static void run_refused(enum entry entry, unsigned cause, unsigned place, const char *what)
{
    char name[96];
    call_entry(entry);
    expect_refusal(cause, place);
    (void)snprintf(name, sizeof name, "%s refused with %u: %s", entry_names[entry], cause, what);
    run(name);
}

static void no_vertices(void)
{
    set_graph(0);
    open_session();
    run_refused(AUTOMATIC, SASZVIGOM_NOTHING_LEFT, 0, "no vertices");
    run_refused(UNDO, SASZVIGOM_NOTHING_LEFT, 0, "no vertices");
    run_pick_refused(0, 1, SASZVIGOM_VERTEX_INVALID);
    run_row_refused(0, SASZVIGOM_VERTEX_INVALID);

    set_lengths_as_needed();
    replay(NULL, 0, 0);
    expect_nothing_written(0x500);
    run("no vertices, no calls, buffers of length 0");
}

static void one_edge(void)
{
    const uint16_t opened[] = {0, 32760, 32761, 0}, none[4] = {0};
    set_edges(2, "01");
    set_weight(0, 2);
    open_session();

    row(1);
    expect_row((const uint8_t[]){1, 0});
    run("row of an edge");
    call.entry = AUTOMATIC;
    expect_pair(0, 1, 1, none, (const uint8_t[]){0, 1});
    run("automatic pick of an edge");
    go_on();
    run_refused(AUTOMATIC, SASZVIGOM_NOTHING_LEFT, 0, "all are matched");
    call.entry = UNDO;
    expect_pair(0, 1, 0, opened, (const uint8_t[]){255, 255});
    run("undo of an edge");
    go_on();
    run_refused(UNDO, SASZVIGOM_NOTHING_LEFT, 0, "there is no pair");
}

/* All edges of four vertices: matched to the end, and undone. */
static void four_vertices(void)
{
    const uint16_t opened[] = {
        0, 65520, 1, 65520,
        1, 0, 65520, 1,
        65520, 1, 0, 65520,
        1, 65520, 1, 0,
    };
    const uint16_t one_pair[16] = {[2 * 4 + 3] = 65520, [3 * 4 + 2] = 1}, none[16] = {0};
    open_four();
    row(1);
    expect_row((const uint8_t[]){1, 0, 1, 1});
    run("row of four vertices");
    pick(1, 0);
    expect_pair(0, 1, 1, one_pair, (const uint8_t[]){0, 1, 255, 255});
    run("pick with the larger vertex first");
    go_on();

    row(3);
    expect_row((const uint8_t[]){0, 0, 1, 0});
    run("row with a pair matched");
    run_row_refused(0, SASZVIGOM_VERTEX_MATCHED);
    run_row_refused(4, SASZVIGOM_VERTEX_INVALID);
    run_pick_refused(2, 1, SASZVIGOM_VERTEX_MATCHED);
    run_pick_refused(0, 0, SASZVIGOM_VERTEX_INVALID);
    run_pick_refused(0, 4, SASZVIGOM_VERTEX_INVALID);

    pick(2, 3);
    expect_pair(2, 3, 2, none, (const uint8_t[]){0, 1, 2, 3});
    run("pick of the last two");
    go_on();
    call.entry = UNDO;
    expect_pair(2, 3, 1, one_pair, (const uint8_t[]){0, 1, 255, 255});
    run("undo of the second pick");
    go_on();
    call.entry = UNDO;
    expect_pair(0, 1, 0, opened, (const uint8_t[]){255, 255, 255, 255});
    run("undo of the first pick");
}

static void path_of_four(void)
{
    const uint16_t one_pair[16] = {[1 * 4 + 3] = 65520, [3 * 4 + 1] = 1};
    set_edges(4, "01 02 13");
    open_session();
    run_pick_refused(0, 1, SASZVIGOM_REST_SINGULAR);
    run_pick_refused(2, 3, SASZVIGOM_NOT_ADJACENT);
    row(0);
    expect_row((const uint8_t[]){0, 0, 1, 0});
    run("row of a path");
    row(3);
    expect_row((const uint8_t[]){0, 1, 0, 0});
    run("row of a path, with a word that is not 0 but no edge");
    call.entry = AUTOMATIC;
    expect_pair(0, 2, 1, one_pair, (const uint8_t[]){0, 2, 255, 255});
    run("automatic pick of a path");
    go_on();
    run_pick_refused(0, 1, SASZVIGOM_VERTEX_MATCHED);
}

/* A ring whose weights cancel, so that it does not open, and a session put
   together on it. */
static void session_by_hand(void)
{
    const uint16_t none[16] = {0};
    set_edges(4, "01 12 23 03");
    set_weight(saszvigom_weight_index(4, 1, 2), 65520);
    call.made = 1;
    memcpy(call.bytes[SEQUENCE], (const uint8_t[]){0, 1, 255, 255}, 4);
    memset(call.bytes[INVERSE], 0, SASZVIGOM_INVERSE_BYTES(4));
    saszvigom_store_word(call.bytes[INVERSE], 2 * 4 + 3, 65520);
    saszvigom_store_word(call.bytes[INVERSE], 3 * 4 + 2, 1);

    replay(NULL, 0, 2);
    expect_nothing_written(0x100000500);
    run("session put together by hand is sound");
    run_refused(UNDO, SASZVIGOM_REST_SINGULAR, 0, "the ring has no inverse");
    row(2);
    expect_row((const uint8_t[]){0, 0, 0, 1});
    run("row of a session put together by hand");
    call.entry = AUTOMATIC;
    expect_pair(2, 3, 2, none, (const uint8_t[]){0, 1, 2, 3});
    run("automatic pick of a session put together by hand");
}

/* Numbers that would do without their high bits, and others. */
static void large_numbers(void)
{
    const uint64_t large[] = {97, 255, 256, 257, 65536, 4294967296u, 4294967297u,
                              UINT64_MAX / 2 + 1, UINT64_MAX / 2 + 2, UINT64_MAX};
    for (size_t i = 0; i < COUNT(large); i++) {
        open_four();
        run_pick_refused(large[i], 1, SASZVIGOM_VERTEX_INVALID);
        run_pick_refused(0, large[i], SASZVIGOM_VERTEX_INVALID);
        run_row_refused(large[i], SASZVIGOM_VERTEX_INVALID);
        for (size_t e = 0; e < COUNT(session_entries); e++) {
            open_four();
            call.made = large[i];
            run_refused(session_entries[e], SASZVIGOM_SESSION_MALFORMED, 0, "made too large");
            call.n = large[i];
            run_refused(session_entries[e], SASZVIGOM_SIZE_TOO_LARGE, 0, "size too large");
        }
    }
}

/* Each buffer of a session short by a byte, for each entry. */
static void short_buffers(void)
{
    for (size_t e = 0; e < COUNT(session_entries); e++)
        for (unsigned b = ADJACENCY; b <= SEQUENCE; b++) {
            open_four();
            set_lengths_as_needed();
            call.length[b]--;
            run_refused(session_entries[e], SASZVIGOM_BUFFER_TOO_SHORT, b + 1, buffer_names[b]);
        }
    open_four();
    set_lengths_as_needed();
    call.length[PARTNERS]--;
    run_refused(ROW, SASZVIGOM_BUFFER_TOO_SHORT, SASZVIGOM_BUFFER_ROW, "row");
    set_cell(0, 0, 1);
    run_refused(ROW, SASZVIGOM_BUFFER_TOO_SHORT, SASZVIGOM_BUFFER_ROW, "row and a fault");
}

static void faulty_graphs(void)
{
    for (size_t e = 0; e < COUNT(session_entries); e++) {
        open_four();
        set_weight(5, 65521);
        run_refused(session_entries[e], SASZVIGOM_WEIGHT_OUT_OF_RANGE, 5, "last weight");
        set_cell(3, 2, 0);
        run_refused(session_entries[e], SASZVIGOM_ADJACENCY_FAULT, 0x30302,
                    "cell unlike its mirror");
    }
}

/* Every table at fault, through every entry. A pair is made, except with one
   vertex, which has no session. With its table in order, the session is sound. */
static void faulty(void)
{
    const size_t sizes[] = {1, 2, 4, 96};
    for (size_t k = 0; k < COUNT(sizes); k++) {
        char name[96];
        set_graph(sizes[k]);
        link_all();
        if (sizes[k] > 1) {
            open_session();
            make_pair();
        }
        for (size_t t = 0; t < COUNT(faulty_tables); t++)
            for (size_t e = 0; e < COUNT(session_entries); e++)
                if (faulty_tables[t].least <= sizes[k]) {
                    call_entry(session_entries[e]);
                    set_faulty(&faulty_tables[t]);
                    (void)snprintf(name, sizeof name, "%s, size %zu, %s",
                                   entry_names[session_entries[e]], sizes[k],
                                   faulty_tables[t].what);
                    run(name);
                    set_back(&faulty_tables[t]);
                }
        if (sizes[k] > 1) {
            replay(NULL, 0, 0);
            expect_nothing_written(0x100000500);
            run("with the table in order the session is sound");
        }
    }
}

/* Every fault of a sequence of one or two pairs, on four vertices of which only
   2 and 3 are not adjacent. */
static void faulty_sequences(void)
{
    const struct {
        const char *what;
        uint64_t made;
        uint8_t sequence[4];
    } faults[] = {
        {"a pair more than made", 0, {0, 1, 255, 255}},
        {"a pair fewer than made", 2, {0, 1, 255, 255}},
        {"larger vertex first", 1, {1, 0, 255, 255}},
        {"vertex twice in a pair", 1, {1, 1, 255, 255}},
        {"vertex in two pairs", 2, {0, 1, 1, 2}},
        {"pair twice", 2, {0, 1, 0, 1}},
        {"vertex 4 of four", 1, {0, 4, 255, 255}},
        {"vertex 254", 1, {0, 254, 255, 255}},
        {"unused byte in a pair", 1, {0, 255, 255, 255}},
        {"not adjacent", 1, {2, 3, 255, 255}},
        {"used byte after the pairs", 1, {0, 1, 2, 255}},
        {"used last byte", 1, {0, 1, 255, 0}},
    };
    for (size_t f = 0; f < COUNT(faults); f++)
        for (size_t e = 0; e < COUNT(session_entries); e++) {
            set_edges(4, "01 02 03 12 13");
            set_weight(saszvigom_weight_index(4, 1, 2), 2);
            open_session();
            call.made = faults[f].made;
            memcpy(call.bytes[SEQUENCE], faults[f].sequence, 4);
            run_refused(session_entries[e], SASZVIGOM_SESSION_MALFORMED, 0, faults[f].what);
        }
}

/* One word of the inverse changed, or all on one side. */
static void faulty_inverses(void)
{
    const struct {
        const char *what;
        size_t index;
        uint16_t word;
    } faults[] = {
        {"65521 on the diagonal", 0, 65521}, {"65522 for 1", 4, 65522},
        {"1 on the diagonal", 15, 1},        {"word above the diagonal", 11, 65519},
        {"word below the diagonal", 14, 2},  {"0 below the diagonal", 12, 0},
    };
    for (size_t e = 0; e < COUNT(session_entries); e++) {
        for (size_t f = 0; f < COUNT(faults); f++) {
            open_four();
            store_any(call.bytes[INVERSE], faults[f].index, faults[f].word);
            run_refused(session_entries[e], SASZVIGOM_INVERSE_WRONG, 0, faults[f].what);
        }
        open_four();
        for (size_t i = 0; i < 4; i++)
            for (size_t j = 0; j < i; j++)
                saszvigom_store_word(call.bytes[INVERSE], 4 * i + j,
                                     saszvigom_word(call.bytes[INVERSE], 4 * j + i));
        run_refused(session_entries[e], SASZVIGOM_INVERSE_WRONG, 0,
                    "right on and above the diagonal only");
    }
}

/* With a pair matched: a word in the row of a matched vertex, and the inverse
   from before the pick. */
static void inverses_of_others(void)
{
    for (size_t e = 0; e < COUNT(session_entries); e++) {
        open_four();
        call.made = 1;
        memcpy(call.bytes[SEQUENCE], (const uint8_t[]){0, 1}, 2);
        run_refused(session_entries[e], SASZVIGOM_INVERSE_WRONG, 0, "inverse of all vertices");
        memset(call.bytes[INVERSE], 0, SASZVIGOM_INVERSE_BYTES(4));
        saszvigom_store_word(call.bytes[INVERSE], 2 * 4 + 3, 65520);
        saszvigom_store_word(call.bytes[INVERSE], 3 * 4 + 2, 1);
        saszvigom_store_word(call.bytes[INVERSE], 1, 1);
        run_refused(session_entries[e], SASZVIGOM_INVERSE_WRONG, 0, "word of a matched vertex");
    }
}

/* A list with refused calls, picks and undos. */
static void a_list(void)
{
    const uint64_t list[] = {
        SASZVIGOM_CALL_PICK,      0, 1,          SASZVIGOM_CALL_PICK, 2, 3,
        SASZVIGOM_CALL_PICK,      0, UINT64_MAX, SASZVIGOM_CALL_UNDO, 9, 9,
        SASZVIGOM_CALL_AUTOMATIC, 9, 9,          SASZVIGOM_CALL_PICK, 0, 1,
        SASZVIGOM_CALL_PICK,      3, 1,          SASZVIGOM_CALL_UNDO, 0, 0,
    };
    const uint64_t answers[] = {10, 9, 7, 11, 0x102000300, 8, 0x203010300, 0x103010300};
    const uint16_t inverse[16] = {[1 * 4 + 3] = 65520, [3 * 4 + 1] = 1};
    set_edges(4, "01 02 13");
    open_session();
    replay(list, COUNT(list), 10);
    expect_pair(0, 2, 1, inverse, (const uint8_t[]){0, 2, 255, 255});
    expected.number = 0x100000500;
    memcpy(expected.bytes[ANSWERS], answers, sizeof answers);
    run("list of calls");

    set_lengths_as_needed();
    replay(list, COUNT(list), 8);
    expect_pair(0, 2, 1, inverse, (const uint8_t[]){0, 2, 255, 255});
    expected.number = 0x100000500;
    memcpy(expected.bytes[ANSWERS], answers, sizeof answers);
    run("list of calls, buffers as long as needed");

    replay((const uint64_t[]){1, 1, 3, 3, 0, 0}, 6, 2);
    expect_nothing_written(0x500);
    memcpy(expected.bytes[ANSWERS], (const uint64_t[]){0x103010300, 0x3010300}, 16);
    run("list that undoes its pick");
}

static void run_list_refused(const uint64_t *list, size_t length, size_t room, unsigned cause,
                             unsigned place, const char *name)
{
    replay(list, length, room);
    expect_refusal(cause, place);
    run(name);
    call.n = 97;
    expect_refusal(SASZVIGOM_SIZE_TOO_LARGE, 0);
    run("the same with size 97");
    call.n = 4;
}

static void faulty_lists(void)
{
    const uint64_t list[] = {2, 0, 0, 3, 0, 0, 4, 0, 1, 0, 0, 0, 1};
    open_four();
    run_list_refused(list, 6, 1, SASZVIGOM_BUFFER_TOO_SHORT, SASZVIGOM_BUFFER_ANSWERS,
                     "list without room");
    run_list_refused(list, 13, 3, SASZVIGOM_BUFFER_TOO_SHORT, SASZVIGOM_BUFFER_ANSWERS,
                     "list with all faults");
    run_list_refused(list, 13, 4, SASZVIGOM_CALL_UNKNOWN, 2, "list with two unknown kinds");
    run_list_refused(list, 9, 4, SASZVIGOM_CALL_UNKNOWN, 2, "list with an unknown kind");
    run_list_refused(list, 8, 2, SASZVIGOM_LIST_CUT, 2, "list cut within a call");
    run_list_refused(list, 1, 0, SASZVIGOM_LIST_CUT, 0, "list of one number");
    run_list_refused((const uint64_t[]){4294967297u, 0, 1}, 3, 1, SASZVIGOM_CALL_UNKNOWN, 0,
                     "list with a kind of more than 32 bits");
}

/* Faults of a list and of its session at once. Each line adds one, which is the
   lowest cause so far. */
static void several_causes(void)
{
    const uint64_t list[] = {2, 0, 0, 2, 0, 0, 9, 0, 0, 2};
    open_four();
    set_lengths_as_needed();
    replay(list, 10, 3);
    expect_refusal(SASZVIGOM_CALL_UNKNOWN, 2);
    run("cut list with an unknown kind");
    call.bytes[INVERSE][2] ^= 1;
    expect_refusal(SASZVIGOM_INVERSE_WRONG, 0);
    run("and a wrong inverse");
    call.made = 1;
    expect_refusal(SASZVIGOM_SESSION_MALFORMED, 0);
    run("and pairs made that are not there");
    set_weight(3, 0);
    expect_refusal(SASZVIGOM_WEIGHT_OUT_OF_RANGE, 3);
    run("and a weight of 0");
    set_cell(1, 1, 1);
    expect_fault(1, 1, SASZVIGOM_FAULT_DIAGONAL);
    run("and a loop");
    replay(list, 10, 2);
    expect_refusal(SASZVIGOM_BUFFER_TOO_SHORT, SASZVIGOM_BUFFER_ANSWERS);
    run("and too few answers");
    for (unsigned b = SEQUENCE + 1; b-- > ADJACENCY;) {
        call.length[b]--;
        expect_refusal(SASZVIGOM_BUFFER_TOO_SHORT, b + 1);
        run("and a short buffer");
    }
    call.n = 97;
    expect_refusal(SASZVIGOM_SIZE_TOO_LARGE, 0);
    run("and size 97");

    open_four();
    replay(list, 8, 2);
    call.made = 1;
    expect_refusal(SASZVIGOM_SESSION_MALFORMED, 0);
    run("cut list on a session that is not sound");
    open_four();
    replay(list, 3, 1);
    call.n = 97;
    expect_refusal(SASZVIGOM_SIZE_TOO_LARGE, 0);
    run("one automatic pick with size 97");
}

/* Lets a page be only read, or also written. */
static void protect(void *page, bool writable)
{
    if (mprotect(page, 4096, writable ? PROT_READ | PROT_WRITE : PROT_READ) != 0) {
        printf("FAIL mprotect\n");
        exit(1);
    }
}

static void check(const char *name, bool right)
{
    if (!right) {
        printf("FAIL %s\n", name);
        exit(1);
    }
    cases++;
    printf("ok   %s\n", name);
}

static void check_number(const char *name, uint64_t number, uint64_t wanted)
{
    if (number != wanted)
        printf("number %#llx instead of %#llx\n", (unsigned long long)number,
               (unsigned long long)wanted);
    check(name, number == wanted);
}

/* Four vertices in pages of their own: writing to a buffer whose page may only
   be read ends the program. */
static void read_only_sessions(void)
{
    enum { LENT = 5 };
    static const uint64_t refused[] = {SASZVIGOM_CALL_UNDO, 0, 0, SASZVIGOM_CALL_PICK, 0, 0,
                                       SASZVIGOM_CALL_PICK, 0, 4, 9,                   0, 0};
    static const uint64_t accepted[] = {SASZVIGOM_CALL_PICK, 0, 1, SASZVIGOM_CALL_UNDO, 0, 0};
    uint8_t opened[SASZVIGOM_INVERSE_BYTES(4)], *page[LENT], partners[4];
    uint64_t *answers;
    open_four();
    set_lengths_as_needed();
    for (unsigned b = 0; b < LENT; b++) {
        page[b] = mmap(NULL, 4096, PROT_READ | PROT_WRITE, MAP_PRIVATE | MAP_ANONYMOUS, -1, 0);
        if (page[b] == MAP_FAILED) {
            printf("FAIL mmap\n");
            exit(1);
        }
        if (b <= SEQUENCE)
            memcpy(page[b], call.bytes[b], call.length[b]);
        protect(page[b], false);
    }
    answers = (uint64_t *)page[LENT - 1];
    memcpy(opened, page[INVERSE], sizeof opened);

#define SESSION page[0], 16, page[1], 12, page[2], 32, page[3], 4
    check_number("empty list, read only", saszvigom_replay(4, 0, SESSION, refused, 0, answers, 0),
                 0x500);
    check_number("size 97, read only", saszvigom_replay(97, 0, SESSION, refused, 9, answers, 3), 1);
    check_number("no room, read only", saszvigom_replay(4, 0, SESSION, refused, 9, answers, 2),
                 0xA0002);
    check_number("not sound, read only", saszvigom_replay(4, 1, SESSION, refused, 9, answers, 3), 5);
    check_number("cut list, read only", saszvigom_replay(4, 0, SESSION, refused, 10, answers, 3),
                 0x3000D);
    check_number("unknown kind, read only",
                 saszvigom_replay(4, 0, SESSION, refused, 12, answers, 4), 0x3000C);
    check_number("refused pick, read only", saszvigom_pick(4, 0, 1, 1, SESSION), 7);
    check_number("refused undo, read only", saszvigom_undo(4, 0, SESSION), 11);
    check_number("row, read only", saszvigom_row(4, 0, 0, SESSION, partners, 4), 0x400);

    protect(page[ADJACENCY], true);
    page[ADJACENCY][3 * 4 + 2] = 0;
    protect(page[ADJACENCY], false);
    check_number("faulty table in a list, read only",
                 saszvigom_replay(4, 0, SESSION, refused, 9, answers, 3), 0x303020003);
    check_number("faulty table, pick, read only", saszvigom_pick(4, 0, 0, 1, SESSION), 0x303020003);
    check_number("faulty table, automatic, read only", saszvigom_automatic(4, 0, SESSION),
                 0x303020003);
    check_number("faulty table, undo, read only", saszvigom_undo(4, 0, SESSION), 0x303020003);
    check_number("faulty table, row, read only", saszvigom_row(4, 0, 0, SESSION, page[LENT - 1], 4),
                 0x303020003);
    protect(page[ADJACENCY], true);
    page[ADJACENCY][3 * 4 + 2] = 1;
    protect(page[ADJACENCY], false);

    protect(answers, true);
    check_number("refused calls, read only",
                 saszvigom_replay(4, 0, SESSION, refused, 9, answers, 3), 0x500);
    check_number("refused undo in a list", answers[0], 11);
    check_number("refused pick in a list", answers[1], 7);
    check_number("refused pick of no vertex in a list", answers[2], 7);

    protect(page[INVERSE], true);
    protect(page[SEQUENCE], true);
    check_number("pick", saszvigom_replay(4, 0, SESSION, accepted, 3, answers, 1), 0x100000500);
    check_number("its pair", answers[0], 0x101000300);
    check("its sequence", page[SEQUENCE][0] == 0 && page[SEQUENCE][1] == 1);
    check("its inverse", memcmp(opened, page[INVERSE], sizeof opened) != 0);
    check_number("undo", saszvigom_replay(4, 1, SESSION, accepted + 3, 3, answers, 1), 0x500);
    check_number("its pair", answers[0], 0x1000300);
    check_number("pick and undo", saszvigom_replay(4, 0, SESSION, accepted, 6, answers, 2), 0x500);
    check("the inverse as opened", memcmp(opened, page[INVERSE], sizeof opened) == 0);
    check("the sequence as opened", memcmp(page[SEQUENCE], call.bytes[SEQUENCE], 4) == 0);
#undef SESSION
    for (unsigned b = 0; b < LENT; b++)
        munmap(page[b], 4096);
}

/* A fault so far on that its place is 65535. */
static void long_list(void)
{
    static uint64_t list[3 * 65538], answers[65538];
    for (size_t i = 0; i < COUNT(answers); i++)
        list[3 * i] = SASZVIGOM_CALL_AUTOMATIC;
    list[COUNT(list) - 3] = 0;
    open_four();
    const uint64_t number = saszvigom_replay(
        call.n, 0, call.bytes[ADJACENCY], call.length[ADJACENCY], call.bytes[WEIGHTS],
        call.length[WEIGHTS], call.bytes[INVERSE], call.length[INVERSE], call.bytes[SEQUENCE],
        call.length[SEQUENCE], list, COUNT(list), answers, COUNT(answers));
    bool written = call.bytes[SEQUENCE][0] != SASZVIGOM_UNUSED;
    for (size_t i = 0; i < COUNT(answers); i++)
        written = written || answers[i] != 0;
    if (number != 0xFFFF000C || written) {
        printf("FAIL long list: number %#llx\n", (unsigned long long)number);
        exit(1);
    }
    cases++;
    printf("ok   long list\n");
}

/* Expects the inverse of the vertices from first on, all adjacent and with all
   weights 1: it has (-1)^(j-i) above the diagonal. */
static void expect_largest(unsigned smaller, unsigned larger, unsigned first)
{
    static uint16_t inverse[SASZVIGOM_MAX_VERTICES * SASZVIGOM_MAX_VERTICES];
    static uint8_t sequence[SASZVIGOM_MAX_VERTICES];
    for (unsigned i = 0; i < 96; i++) {
        sequence[i] = i < first ? (uint8_t)i : SASZVIGOM_UNUSED;
        for (unsigned j = 0; j < 96; j++)
            inverse[96 * i + j] = i < first || j < first || i == j ? 0
                                  : ((i + j) % 2 == 0) == (i < j)  ? 1
                                                                   : 65520;
    }
    expect_pair(smaller, larger, first / 2, inverse, sequence);
}

/* Each entry with 96 vertices, carried out and refused. */
static void largest_sessions(void)
{
    const uint64_t list[] = {2, 0, 0, 1, 4, 5, 3, 0, 0, 1, 0, 9};
    const uint64_t answers[] = {0x203020300, 0x305040300, 0x205040300, 8};
    uint8_t partners[96];
    set_graph(96);
    link_all();
    open_session();

    row(95);
    for (size_t i = 0; i < 96; i++)
        partners[i] = i < 95;
    expect_row(partners);
    run("row of 96 vertices");
    pick(1, 0);
    expect_largest(0, 1, 2);
    run("pick of 96 vertices");
    call.entry = AUTOMATIC;
    expect_largest(0, 1, 2);
    run("automatic pick of 96 vertices");
    go_on();
    run_pick_refused(1, 2, SASZVIGOM_VERTEX_MATCHED);

    replay(list, COUNT(list), 5);
    expect_largest(0, 0, 4);
    expected.number = 0x200000500;
    memcpy(expected.bytes[ANSWERS], answers, sizeof answers);
    run("list of calls with 96 vertices");
    go_on();
    call.entry = UNDO;
    expect_largest(2, 3, 2);
    expected.number = 0x103020300;
    run("undo with 96 vertices");
    go_on();
    call.bytes[INVERSE][2 * 9215] = 1;
    for (size_t e = 0; e < COUNT(session_entries); e++)
        run_refused(session_entries[e], SASZVIGOM_INVERSE_WRONG, 0, "last word of 96 vertices");
}

static void *run_largest_sessions(void *unused)
{
    largest_sessions();
    return unused;
}

/* The accessors, on numbers that a call returns. */
static void accessors(void)
{
    const uint64_t pair = 0x305040300, rows = 0x2f00000400, replayed = 0x3000000500;
    const bool right = saszvigom_cause_of(pair) == SASZVIGOM_NO_CAUSE
                       && saszvigom_kind_of(pair) == SASZVIGOM_PAIR
                       && saszvigom_smaller_of(pair) == 4
                       && saszvigom_larger_of(pair) == 5
                       && saszvigom_made_of(pair) == 3
                       && saszvigom_kind_of(rows) == SASZVIGOM_ROW
                       && saszvigom_made_of(rows) == 47
                       && saszvigom_kind_of(replayed) == SASZVIGOM_REPLAYED
                       && saszvigom_made_of(replayed) == 48
                       && saszvigom_made_of(UINT64_MAX) == 255
                       && saszvigom_cause_of(0xFFFF000D) == SASZVIGOM_LIST_CUT
                       && saszvigom_place_of(0xFFFF000D) == 65535;
    if (!right) {
        printf("FAIL accessors\n");
        exit(1);
    }
    cases++;
    printf("ok   accessors\n");
}

int main(void)
{
    no_vertices();
    one_edge();
    four_vertices();
    path_of_four();
    session_by_hand();
    large_numbers();
    short_buffers();
    faulty_graphs();
    faulty();
    faulty_sequences();
    faulty_inverses();
    inverses_of_others();
    a_list();
    faulty_lists();
    several_causes();
    read_only_sessions();
    long_list();
    largest_sessions();
    accessors();
    run_on_small_stack(run_largest_sessions);
    printf("%zu cases\n", cases);
    return 0;
}
