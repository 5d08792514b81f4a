/*
 * Compares what the functions of saszvigom_text.h return with what is expected.
 * Stops with status 1 at the first difference, and prints how many cases there
 * were.
 */
#include "saszvigom_text.h"

#include <stdio.h>
#include <stdlib.h>
#include <string.h>

#define COUNT(array) (sizeof(array) / sizeof(array)[0])

static size_t cases;

static void fail(const char *what)
{
    printf("differs: %s\n", what);
    exit(1);
}

static void check(const char *what, bool holds)
{
    cases++;
    if (!holds)
        fail(what);
}

static void check_number(const char *what, uint64_t number, uint64_t expected)
{
    cases++;
    if (number != expected) {
        printf("0x%llx, expected 0x%llx\n", (unsigned long long)number,
               (unsigned long long)expected);
        fail(what);
    }
}

static void check_text(const char *what, const char *text, const char *expected)
{
    cases++;
    if (strcmp(text, expected) != 0) {
        printf("%s: \"%s\", expected \"%s\"\n", what, text, expected);
        fail(what);
    }
}

/* The texts of the causes, buffers and kinds, from 0 on; the last ones are those
   of unknown numbers. */
static const char *const unknown = "an unknown cause";
static const char *const other = "a fault of a list, a sheet or a text";

static const char *const causes[] = {
    "the call was carried out",
    "there are more than 96 vertices",
    "a buffer is too short",
    "an adjacency byte is not 0 or 1, is not 0 on the diagonal, or differs from its mirror image",
    "a weight is 0 or above 65520",
    "the sequence is not that of the pairs made, each of two adjacent vertices",
    "the inverse is not that of the unmatched vertices: the graph was not opened, is singular, or was changed",
    "there is no such vertex, or both vertices are the same",
    "a vertex is matched already",
    "the two vertices are not adjacent",
    "the vertices left unmatched would have no inverse with these weights",
    "no vertex is left to match, or no pair to undo",
};

static const char *cause_text(unsigned cause, enum saszvigom_from from)
{
    return saszvigom_cause_text((enum saszvigom_cause)cause, from);
}

static void texts(void)
{
    const char *const buffers[] = {"unknown", "adjacency", "weights", "inverse", "sequence",
                                   "witness", "work",      "row",     "unknown", "unknown",
                                   "answers", "unknown"};
    const char *const kinds[] = {"refused", "opened", "singular", "pair",   "row",
                                 "replayed", "graph", "draws",    "unknown"};
    const enum saszvigom_from froms[] = {SASZVIGOM_FROM_CALL, SASZVIGOM_FROM_LIST,
                                         SASZVIGOM_FROM_SHEET, SASZVIGOM_FROM_DIMACS};
    for (size_t from = 0; from < COUNT(froms); from++) {
        for (unsigned cause = 0; cause < COUNT(causes); cause++)
            check_text("cause", cause_text(cause, froms[from]), causes[cause]);
        check_text("cause 18", cause_text(18, froms[from]), unknown);
        check_text("cause 255", cause_text(255, froms[from]), unknown);
        check_text("largest cause", cause_text(~0u, froms[from]), unknown);
    }
    for (unsigned cause = 12; cause < 18; cause++) {
        check_text("no cause of a call", cause_text(cause, SASZVIGOM_FROM_CALL), other);
        check_text("of an unknown call", cause_text(cause, (enum saszvigom_from)9), other);
    }
    for (unsigned cause = 14; cause < 18; cause++)
        check_text("no cause of a list", cause_text(cause, SASZVIGOM_FROM_LIST), other);
    check_text("12 of a list", cause_text(12, SASZVIGOM_FROM_LIST),
               "a call of the list is of no known kind");
    check_text("13 of a list", cause_text(13, SASZVIGOM_FROM_LIST),
               "the list ends within a call");
    check_text("12 of a sheet", cause_text(12, SASZVIGOM_FROM_SHEET),
               "a byte of the sheet is no record that may stand there");
    check_text("13 of a sheet", cause_text(13, SASZVIGOM_FROM_SHEET),
               "the sheet ends within a record, or before its end record");
    check_text("14 of a sheet", cause_text(14, SASZVIGOM_FROM_SHEET),
               "a record has a vertex that is not there, or the same vertex twice");
    check_text("15 of a sheet", cause_text(15, SASZVIGOM_FROM_SHEET),
               "an earlier record has the same edge");
    check_text("16 of a sheet", cause_text(16, SASZVIGOM_FROM_SHEET), other);
    check_text("17 of a sheet", cause_text(17, SASZVIGOM_FROM_SHEET), other);
    check_text("12 of a text", cause_text(12, SASZVIGOM_FROM_DIMACS), other);
    check_text("13 of a text", cause_text(13, SASZVIGOM_FROM_DIMACS), other);
    check_text("14 of a text", cause_text(14, SASZVIGOM_FROM_DIMACS),
               "a line has a vertex that is 0 or above N, or the same vertex twice");
    check_text("15 of a text", cause_text(15, SASZVIGOM_FROM_DIMACS), other);
    check_text("16 of a text", cause_text(16, SASZVIGOM_FROM_DIMACS),
               "a line is not just 'c ..', 'p edge N M' or 'e u v' and a line feed, or stands "
               "where it may not, or there is no 'p'");
    check_text("17 of a text", cause_text(17, SASZVIGOM_FROM_DIMACS),
               "the lines 'e u v' are not as many as the line 'p edge N M' says");

    for (unsigned buffer = 0; buffer < COUNT(buffers); buffer++)
        check_text("buffer", saszvigom_buffer_text((enum saszvigom_buffer)buffer), buffers[buffer]);
    check_text("largest buffer", saszvigom_buffer_text((enum saszvigom_buffer)~0u), "unknown");
    for (unsigned kind = 0; kind < COUNT(kinds); kind++)
        check_text("kind", saszvigom_kind_text((enum saszvigom_kind)kind), kinds[kind]);
    check_text("largest kind", saszvigom_kind_text((enum saszvigom_kind)~0u), "unknown");
}

/* Checks the place of refusals: 47 bits, of which saszvigom_place_of returns what
   an unsigned holds, and never another place. */
static void places(void)
{
    const uint64_t most = 140737488355327;
    const uint64_t rest[] = {16, 0x8000000000000010}; /* bits 0 to 15 and 63 make no difference */
    for (size_t k = 0; k < COUNT(rest); k++) {
        for (unsigned bit = 0; bit < 47; bit++) {
            const uint64_t place = (uint64_t)1 << bit;
            const uint64_t number = place << 16 | rest[k];
            check("the line of a bit", saszvigom_line_of(number) == place);
            check("the place of a bit",
                  saszvigom_place_of(number) == (bit < 32 ? place : 4294967295u));
        }
        check("no place", saszvigom_line_of(rest[k]) == 0 && saszvigom_place_of(rest[k]) == 0);
        check("the last line", saszvigom_line_of(most << 16 | rest[k]) == most);
        check("its place", saszvigom_place_of(most << 16 | rest[k]) == 4294967295u);
        for (uint64_t place = 4294967290u; place < 4294967300u; place++) {
            const uint64_t number = place << 16 | rest[k];
            check("the line there", saszvigom_line_of(number) == place);
            check("the place there",
                  saszvigom_place_of(number) == (place < 4294967295u ? place : 4294967295u));
        }
    }
}

/* Tells whether n vertices have no weight at an index, and the outputs are
   left. */
static bool no_vertices(uint64_t n, uint64_t index)
{
    unsigned i = 77, j = 78;
    return !saszvigom_weight_vertices(n, index, &i, &j) && i == 77 && j == 78;
}

static bool no_index(uint64_t n, uint64_t i, uint64_t j)
{
    return saszvigom_weight_index(n, i, j) == SASZVIGOM_NO_INDEX;
}

static void indices(void)
{
    for (unsigned n = 0; n <= SASZVIGOM_MAX_VERTICES; n++) {
        size_t expected = 0;
        bool same = true;
        for (unsigned i = 0; i < n; i++)
            for (unsigned j = i + 1; j < n; j++) {
                unsigned first = 99, second = 99;
                same = same && saszvigom_weight_index(n, i, j) == expected &&
                       saszvigom_weight_index(n, j, i) == expected &&
                       saszvigom_weight_vertices(n, expected, &first, &second) && first == i &&
                       second == j;
                expected++;
            }
        check("indices and vertices", same);
        check("count", saszvigom_weight_count(n) == expected);
        check("index past the last", no_vertices(n, expected));
        check("a vertex and itself", no_index(n, n / 2, n / 2));
        check("the first vertex too large", no_index(n, n, 0));
        check("the second vertex too large", no_index(n, 0, n));
    }
    const uint64_t large[] = {97, 256, 4294967296u + 4, UINT64_MAX};
    for (size_t k = 0; k < COUNT(large); k++) {
        check("count of too many", saszvigom_weight_count(large[k]) == 0);
        check("index of too many", no_index(large[k], 0, 1));
        check("vertices of too many", no_vertices(large[k], 0));
        check("large index", no_vertices(96, 4560 + large[k] % 4294967296u));
        check("large vertex", no_index(4, 1, large[k]));
        check("large vertex first", no_index(4, large[k], 1));
    }
}

/* Returns the number of a refusal at row i and column j. */
static uint64_t fault_at(unsigned i, unsigned j, unsigned fault)
{
    return 3 | i << 16 | (uint64_t)j << 24 | (uint64_t)fault << 32;
}

/* Checks that row, column and fault are those of the number, for every n and
   every table: n may be none or too many, and the table none, short, in order, or
   at fault in another cell. */
static void check_cell(uint64_t number, unsigned i, unsigned j, enum saszvigom_fault fault)
{
    static const uint8_t good[9] = {0, 1, 0, 1, 0, 1, 0, 1, 0},
                         other[9] = {1, 9, 0, 1, 255, 0, 1, 1, 2};
    const uint64_t sizes[] = {0, 1, 3, 96, 97, 255, 256, 4294967296u + 3, UINT64_MAX};
    bool same = saszvigom_cause_of(number) == SASZVIGOM_ADJACENCY_FAULT;
    for (size_t k = 0; k < COUNT(sizes); k++) {
        const uint64_t n = sizes[k];
        same = same && saszvigom_fault_row(number, n) == i &&
               saszvigom_fault_column(number, n) == j &&
               saszvigom_fault_of(number, n, NULL, 0) == fault &&
               saszvigom_fault_of(number, n, NULL, SIZE_MAX) == fault &&
               saszvigom_fault_of(number, n, good, 0) == fault &&
               saszvigom_fault_of(number, n, good, 8) == fault &&
               saszvigom_fault_of(number, n, good, 9) == fault &&
               saszvigom_fault_of(number, n, other, 8) == fault &&
               saszvigom_fault_of(number, n, other, 9) == fault;
    }
    check("the cell of a number", same);
}

/* Every row, column and fault that a number has room for, by its own bits, and the
   place that they make up. */
static void cells(void)
{
    const uint64_t rest = 0xFFFFFF0000000000; /* bits 40 to 63 make no difference */
    for (unsigned i = 0; i < 256; i++)
        for (unsigned k = 0; k < 256; k += 17) {
            check_cell(fault_at(i, k, 1 + k % 3), i, k, (enum saszvigom_fault)(1 + k % 3));
            check_cell(fault_at(k, i, 3) | rest, k, i, SASZVIGOM_FAULT_MIRROR);
            check_cell(fault_at(k, 255 - k, i), k, 255 - k, (enum saszvigom_fault)i);
        }
    for (unsigned i = 0; i < SASZVIGOM_MAX_VERTICES; i++)
        for (unsigned j = i; j < SASZVIGOM_MAX_VERTICES; j++)
            for (unsigned fault = 1; fault <= 3; fault++) {
                const uint64_t number = fault_at(i, j, fault);
                if (saszvigom_place_of(number) != i + 256 * j + 65536 * fault ||
                    saszvigom_line_of(number) != i + 256 * j + 65536 * fault)
                    fail("the place of a cell");
            }
    check_number("2, 3 and fault 3", fault_at(2, 3, SASZVIGOM_FAULT_MIRROR), 0x303020003);
    check_number("the last cell and fault 2", fault_at(95, 95, SASZVIGOM_FAULT_DIAGONAL),
                 0x25F5F0003);
}

/* Checks the cell at which opening refuses a table of three vertices, and the
   fault. */
static void check_fault(const char *what, const uint8_t table[9], unsigned i, unsigned j,
                        enum saszvigom_fault fault)
{
    const uint8_t weights[6] = {1, 0, 1, 0, 1, 0};
    uint8_t inverse[18], sequence[3], witness[6], work[18];
    const uint64_t number = saszvigom_open(3, table, 9, weights, 6, inverse, 18, sequence, 3,
                                           witness, 6, work, 18);
    check_number(what, number, fault_at(i, j, fault));
    check(what, saszvigom_fault_of(number, 3, table, 9) == fault);
    check("a short table", saszvigom_fault_of(number, 3, table, 8) == fault);
    check_cell(number, i, j, fault);
}

static void faults(void)
{
    const uint8_t good[9] = {0, 1, 0, 1, 0, 1, 0, 1, 0}, bad[9] = {9, 9, 9, 9, 9, 9, 9, 9, 9};
    const uint64_t none[] = {0,           0x100,       0x102000300, 0x10002,   0x10004,
                             0x100000004, 0x102010005, 0x2020200FF, UINT64_MAX};
    cells();
    check_fault("2 above the diagonal", (const uint8_t[9]){0, 1, 2, 1, 0, 1, 0, 1, 0}, 0, 2,
                SASZVIGOM_FAULT_VALUE);
    check_fault("2 on both sides", (const uint8_t[9]){0, 2, 0, 2, 0, 1, 0, 1, 0}, 0, 1,
                SASZVIGOM_FAULT_VALUE);
    check_fault("255 on the diagonal", (const uint8_t[9]){0, 1, 0, 1, 255, 1, 0, 1, 0}, 1, 1,
                SASZVIGOM_FAULT_VALUE);
    check_fault("1 on the diagonal", (const uint8_t[9]){0, 1, 0, 1, 0, 1, 0, 1, 1}, 2, 2,
                SASZVIGOM_FAULT_DIAGONAL);
    check_fault("1 beside 0", (const uint8_t[9]){0, 1, 1, 1, 0, 1, 0, 1, 0}, 0, 2,
                SASZVIGOM_FAULT_MIRROR);
    check_fault("2 below the diagonal", (const uint8_t[9]){0, 1, 0, 1, 0, 1, 0, 2, 0}, 1, 2,
                SASZVIGOM_FAULT_MIRROR);

    for (size_t k = 0; k < COUNT(none); k++) {
        check("no fault", saszvigom_fault_of(none[k], 3, good, 9) == SASZVIGOM_NO_FAULT);
        check("no fault", saszvigom_fault_of(none[k], 3, bad, 9) == SASZVIGOM_NO_FAULT);
    }
    for (unsigned place = 0; place < 65536; place += 5)
        if (saszvigom_fault_of(3 | (uint64_t)place << 16, 3, bad, 9) != SASZVIGOM_NO_FAULT)
            fail("a cell without a fault");
}

/* Checks that the verdict of a number is the one given as odd for every odd n, and
   the one given as even for every even n, up to 96 and far above it, whatever
   stands in the bits above the kind. */
static void check_verdict(const char *what, uint64_t number, enum saszvigom_verdict odd,
                          enum saszvigom_verdict even)
{
    const uint64_t large[] = {97,
                              98,
                              255,
                              256,
                              4294967295u,
                              4294967296u,
                              4294967297u,
                              (uint64_t)1 << 63,
                              ((uint64_t)1 << 63) + 1,
                              UINT64_MAX - 1,
                              UINT64_MAX};
    const uint64_t noise[] = {0,           0x10000,     0xFF0000,           0x5F0000,
                              0x100000000, 0x305F5E0000, 0x8000000000000000, 0xFFFFFFFFFFFF0000};
    bool same = true;
    for (size_t k = 0; k < COUNT(noise); k++) {
        for (uint64_t n = 0; n <= SASZVIGOM_MAX_VERTICES; n++)
            same = same && saszvigom_verdict_of(number | noise[k], n) == (n % 2 == 1 ? odd : even);
        for (size_t l = 0; l < COUNT(large); l++)
            same = same && saszvigom_verdict_of(number | noise[k], large[l]) ==
                               (large[l] % 2 == 1 ? odd : even);
    }
    check(what, same);
}

/* Every kind and every cause by itself, and every cause with the two kinds of an
   opening. */
static void verdicts(void)
{
    check("the letters", SASZVIGOM_NO_VERDICT == 0 && SASZVIGOM_VERDICT_FULL == 70 &&
                             SASZVIGOM_VERDICT_ODD == 79 && SASZVIGOM_VERDICT_UNDECIDED == 85);
    for (uint64_t kind = 0; kind < 256; kind++)
        switch (kind) {
        case SASZVIGOM_OPENED:
            check_verdict("an opened graph", kind << 8, SASZVIGOM_VERDICT_FULL,
                          SASZVIGOM_VERDICT_FULL);
            break;
        case SASZVIGOM_SINGULAR:
            check_verdict("a singular graph", kind << 8, SASZVIGOM_VERDICT_ODD,
                          SASZVIGOM_VERDICT_UNDECIDED);
            break;
        default:
            check_verdict("no opening", kind << 8, SASZVIGOM_NO_VERDICT, SASZVIGOM_NO_VERDICT);
        }
    for (uint64_t cause = 1; cause < 256; cause++) {
        check_verdict("a refusal", cause, SASZVIGOM_NO_VERDICT, SASZVIGOM_NO_VERDICT);
        check_verdict("opened and refused", 0x100 | cause, SASZVIGOM_NO_VERDICT,
                      SASZVIGOM_NO_VERDICT);
        check_verdict("singular and refused", 0x200 | cause, SASZVIGOM_NO_VERDICT,
                      SASZVIGOM_NO_VERDICT);
    }
    check("all bits", saszvigom_verdict_of(UINT64_MAX, UINT64_MAX) == SASZVIGOM_NO_VERDICT);
}

#define CALL SASZVIGOM_FROM_CALL
#define LIST SASZVIGOM_FROM_LIST
#define SHEET SASZVIGOM_FROM_SHEET
#define TEXT SASZVIGOM_FROM_DIMACS

static const struct {
    uint64_t number, n;
    enum saszvigom_from from;
    const char *line;
} lines[] = {
    {0x100, 0, CALL, "opened: there is an inverse; verdict F: there is a perfect matching"},
    {0x100, 4, CALL, "opened: there is an inverse; verdict F: there is a perfect matching"},
    {0x100, 5, CALL, "opened: there is an inverse; verdict F: there is a perfect matching"},
    {0x20200, 3, CALL,
     "singular: there is no inverse, first dependent column 2; verdict O: n is odd, there is no "
     "perfect matching"},
    {0x5E0200, 95, CALL,
     "singular: there is no inverse, first dependent column 94; verdict O: n is odd, there is no "
     "perfect matching"},
    {0x00200, 2, CALL,
     "singular: there is no inverse, first dependent column 0; verdict U: undecided under these "
     "weights, others may have an inverse"},
    {0x5F0200, 96, CALL,
     "singular: there is no inverse, first dependent column 95; verdict U: undecided under these "
     "weights, others may have an inverse"},
    {0xFF0200, UINT64_MAX - 1, CALL,
     "singular: there is no inverse, first dependent column 255; verdict U: undecided under these "
     "weights, others may have an inverse"},
    {0xFF0200, UINT64_MAX, CALL,
     "singular: there is no inverse, first dependent column 255; verdict O: n is odd, there is no "
     "perfect matching"},
    {0x102000300, 4, CALL, "pair: 0 and 2, pairs made 1"},
    {0x305F5E0300, 96, CALL, "pair: 94 and 95, pairs made 48"},
    {0x100000400, 4, CALL, "row: written, pairs made 1"},
    {0x200000500, 4, LIST, "replayed: all calls made, pairs made 2"},
    {0x400030600, 0, SHEET, "graph: vertices 4, edges 3"},
    {0x6011D00600, 0, TEXT, "graph: vertices 96, edges 4560"},
    {0x60700, 4, CALL, "draws: weights drawn 6"},
    {0x000001, 97, CALL, "refused: there are more than 96 vertices (cause 1)"},
    {0x000001, 0, SHEET, "refused: there are more than 96 vertices (cause 1)"},
    {0x10002, 4, SHEET, "refused: the adjacency buffer is too short (cause 2 at 1)"},
    {0x70002, 4, CALL, "refused: the row buffer is too short (cause 2 at 7)"},
    {0x90002, 4, CALL, "refused: the unknown buffer is too short (cause 2 at 9)"},
    {0xA0002, 4, LIST, "refused: the answers buffer is too short (cause 2 at 10)"},
    {0x101000003, 4, CALL, "refused: row 0, column 1: the adjacency byte is not 0 or 1 (cause 3)"},
    {0x15F5F0003, 96, LIST,
     "refused: row 95, column 95: the adjacency byte is not 0 or 1 (cause 3)"},
    {0x202020003, 4, CALL,
     "refused: row 2, column 2: the adjacency byte is not 0 on the diagonal (cause 3)"},
    {0x25F5F0003, 96, CALL,
     "refused: row 95, column 95: the adjacency byte is not 0 on the diagonal (cause 3)"},
    {0x337200003, 96, CALL,
     "refused: row 32, column 55: the adjacency byte differs from that of row 55, column 32 "
     "(cause 3)"},
    {0x303020003, 4, CALL,
     "refused: row 2, column 3: the adjacency byte differs from that of row 3, column 2 (cause 3)"},
    {0x402010003, 4, CALL,
     "refused: row 1, column 2: the adjacency byte has an unknown fault (cause 3)"},
    {0xFF02010003, 4, CALL,
     "refused: row 1, column 2: the adjacency byte has an unknown fault (cause 3)"},
    {0x303020003, 0, CALL,
     "refused: row 2, column 3: the adjacency byte differs from that of row 3, column 2 (cause 3)"},
    {0x303020003, 2, CALL,
     "refused: row 2, column 3: the adjacency byte differs from that of row 3, column 2 (cause 3)"},
    {0x303020003, UINT64_MAX, CALL,
     "refused: row 2, column 3: the adjacency byte differs from that of row 3, column 2 (cause 3)"},
    {0x3FFFF0003, 96, CALL,
     "refused: row 255, column 255: the adjacency byte differs from that of row 255, column 255 "
     "(cause 3)"},
    {0x3020003, 4, CALL,
     "refused: an adjacency byte is not 0 or 1, is not 0 on the diagonal, or differs from its "
     "mirror image (cause 3)"},
    {0x000003, 0, CALL,
     "refused: an adjacency byte is not 0 or 1, is not 0 on the diagonal, or differs from its "
     "mirror image (cause 3)"},
    {0x180004, 8, CALL, "refused: the weight of 4 and 7 is 0 or above 65520 (cause 4 at 24)"},
    {0x150004, 8, CALL, "refused: the weight of 3 and 7 is 0 or above 65520 (cause 4 at 21)"},
    {0x11CF0004, 96, LIST, "refused: the weight of 94 and 95 is 0 or above 65520 (cause 4 at 4559)"},
    {0x60004, 4, CALL, "refused: a weight is 0 or above 65520 (cause 4 at 6)"},
    {5, 4, CALL, "refused: the sequence is not that of the pairs made, each of two adjacent vertices (cause 5)"},
    {6, 4, LIST,
     "refused: the inverse is not that of the unmatched vertices: the graph was not opened, is singular, or was changed (cause 6)"},
    {7, 4, CALL, "refused: there is no such vertex, or both vertices are the same (cause 7)"},
    {8, 4, CALL, "refused: a vertex is matched already (cause 8)"},
    {9, 4, CALL, "refused: the two vertices are not adjacent (cause 9)"},
    {10, 4, CALL, "refused: the vertices left unmatched would have no inverse with these weights (cause 10)"},
    {11, 4, CALL, "refused: no vertex is left to match, or no pair to undo (cause 11)"},
    {0x1000C, 4, LIST, "refused: a call of the list is of no known kind (cause 12 at 1)"},
    {0xFFFF000C, 4, LIST,
     "refused: a call of the list is of no known kind (cause 12 at 65535 or later)"},
    {0xFFFF000D, 4, LIST, "refused: the list ends within a call (cause 13 at 65535 or later)"},
    {0x7000C, 4, SHEET,
     "refused: a byte of the sheet is no record that may stand there (cause 12 at 7)"},
    {0xA000D, 4, SHEET,
     "refused: the sheet ends within a record, or before its end record (cause 13 at 10)"},
    {0x7000E, 4, SHEET,
     "refused: a record has a vertex that is not there, or the same vertex twice (cause 14 at 7)"},
    {0xD000F, 4, SHEET, "refused: an earlier record has the same edge (cause 15 at 13)"},
    {0x20001, 0, TEXT, "refused: there are more than 96 vertices (cause 1 at line 2)"},
    {0x10002, 4, TEXT, "refused: the adjacency buffer is too short (cause 2 at 1)"},
    {0x20002, 4, TEXT, "refused: the weights buffer is too short (cause 2 at 2)"},
    {0x7000E, 4, TEXT,
     "refused: a line has a vertex that is 0 or above N, or the same vertex twice (cause 14 at "
     "line 7)"},
    {0x50010, 4, TEXT,
     "refused: a line is not just 'c ..', 'p edge N M' or 'e u v' and a line feed, or stands "
     "where it may not (cause 16 at line 5)"},
    {0xFFFF0010, 4, TEXT,
     "refused: a line is not just 'c ..', 'p edge N M' or 'e u v' and a line feed, or stands "
     "where it may not (cause 16 at line 65535)"},
    {0x3039FFFF0010, 4, TEXT,
     "refused: a line is not just 'c ..', 'p edge N M' or 'e u v' and a line feed, or stands "
     "where it may not (cause 16 at line 809107455)"},
    {0x1000000000010, 4, TEXT,
     "refused: a line is not just 'c ..', 'p edge N M' or 'e u v' and a line feed, or stands "
     "where it may not (cause 16 at line 4294967296)"},
    {0x7FFFFFFFFFFE000E, 4, TEXT,
     "refused: a line has a vertex that is 0 or above N, or the same vertex twice (cause 14 at "
     "line 140737488355326)"},
    {0x7FFFFFFFFFFF0010, 4, TEXT,
     "refused: a line is not just 'c ..', 'p edge N M' or 'e u v' and a line feed, or stands "
     "where it may not (cause 16 at line 140737488355327 or later)"},
    {0x10, 4, TEXT, "refused: there is no line 'p edge N M' (cause 16 at 0)"},
    {0x11, 4, TEXT,
     "refused: the lines 'e u v' are not as many as the line 'p edge N M' says (cause 17 at 0)"},
    {0x7000C, 4, CALL, "refused: a fault of a list, a sheet or a text (cause 12 at 7)"},
    {0x70010, 4, SHEET, "refused: a fault of a list, a sheet or a text (cause 16 at 7)"},
    {0xFF, 4, CALL, "refused: an unknown cause (cause 255 at 0)"},
    {0x7FFFFFFFFFFF00FF, 4, CALL, "refused: an unknown cause (cause 255 at 140737488355327)"},
    {0, 4, CALL, "no answer: neither a cause nor a kind"},
    {0x800, 4, CALL, "no answer: unknown kind 8"},
    {0x101, 4, CALL, "no answer: both a cause and a kind"},
    {UINT64_MAX, UINT64_MAX, LIST, "no answer: both a cause and a kind"},
};

/* Writes every line into room of every size, with a byte after it that stays. */
static void explanations(void)
{
    for (size_t k = 0; k < COUNT(lines); k++) {
        const size_t length = strlen(lines[k].line);
        char text[SASZVIGOM_LINE_BYTES + 1];
        check("length alone", saszvigom_explain(NULL, 0, lines[k].number, lines[k].n,
                                                lines[k].from) == length);
        check("room for every line", length < SASZVIGOM_LINE_BYTES);
        for (size_t size = 0; size <= SASZVIGOM_LINE_BYTES; size++) {
            char expected[sizeof text];
            const size_t kept = size == 0 ? 0 : length < size ? length : size - 1;
            memset(text, '#', sizeof text);
            memset(expected, '#', sizeof expected);
            memcpy(expected, lines[k].line, kept);
            if (size > 0)
                expected[kept] = '\0';
            const size_t returned =
                saszvigom_explain(text, size, lines[k].number, lines[k].n, lines[k].from);
            if (size == SASZVIGOM_LINE_BYTES)
                check_text("line", text, lines[k].line);
            check(lines[k].line, returned == length && memcmp(text, expected, sizeof text) == 0);
        }
    }
}

/* A graph in buffers of just the bytes needed. */
struct lent {
    size_t n, adjacency_len, weights_len;
    uint8_t *adjacency, *weights;
};

static uint8_t *bytes(size_t length)
{
    uint8_t *const made = malloc(length > 0 ? length : 1);
    if (made == NULL)
        fail("no memory");
    return made;
}

/* Makes n vertices, all adjacent, with all weights 1. */
static struct lent lend(size_t n)
{
    struct lent lent = {n, SASZVIGOM_ADJACENCY_BYTES(n), SASZVIGOM_WEIGHTS_BYTES(n), NULL, NULL};
    lent.adjacency = bytes(lent.adjacency_len);
    lent.weights = bytes(lent.weights_len);
    for (size_t i = 0; i < n; i++)
        for (size_t j = 0; j < n; j++)
            lent.adjacency[i * n + j] = i != j;
    for (size_t index = 0; index < saszvigom_weight_count(n); index++)
        saszvigom_store_word(lent.weights, index, 1);
    return lent;
}

static void give_back(const struct lent *lent)
{
    free(lent->adjacency);
    free(lent->weights);
}

/* Returns what opening returns for a graph. */
static uint64_t opened(const struct lent *lent)
{
    static uint8_t inverse[SASZVIGOM_INVERSE_BYTES(96)], sequence[SASZVIGOM_SEQUENCE_BYTES(96)],
        witness[SASZVIGOM_WITNESS_BYTES(96)], work[SASZVIGOM_WORK_BYTES(96)];
    return saszvigom_open(lent->n, lent->adjacency, lent->adjacency_len, lent->weights,
                          lent->weights_len, inverse, sizeof inverse, sequence, sizeof sequence,
                          witness, sizeof witness, work, sizeof work);
}

/* Returns the line of a number, explained with a graph. */
static const char *line_with(const struct lent *lent, uint64_t number)
{
    static char text[SASZVIGOM_LINE_BYTES];
    const size_t length =
        saszvigom_explain_with(text, sizeof text, number, lent->n, CALL, lent->adjacency,
                               lent->adjacency_len, lent->weights, lent->weights_len);
    if (length >= sizeof text || strlen(text) != length)
        fail("the length of a line with the graph");
    return text;
}

/* Checks that with no buffers, short ones, or only the other one, the line is
   that of the number alone. */
static void check_without(const struct lent *lent, uint64_t number)
{
    char alone[SASZVIGOM_LINE_BYTES];
    saszvigom_explain(alone, sizeof alone, number, lent->n, CALL);
    struct lent less = *lent;
    less.adjacency_len -= 1;
    less.weights_len -= 1;
    check_text("short buffers", line_with(&less, number), alone);
    less.adjacency_len = less.weights_len = 0;
    check_text("empty buffers", line_with(&less, number), alone);
    less = *lent;
    less.adjacency = less.weights = NULL;
    check_text("no buffers", line_with(&less, number), alone);
    less = *lent;
    if (saszvigom_cause_of(number) == SASZVIGOM_ADJACENCY_FAULT)
        less.adjacency = NULL;
    else
        less.weights = NULL;
    check_text("only the other buffer", line_with(&less, number), alone);
}

/* Every weight of eight vertices, and the last one of 96, out of range in every
   way. */
static void weights_at_fault(void)
{
    const unsigned wrong[] = {0, 65521, 65530, 65535};
    const size_t sizes[] = {8, 96};
    for (size_t k = 0; k < COUNT(sizes); k++) {
        const struct lent lent = lend(sizes[k]);
        const unsigned count = (unsigned)saszvigom_weight_count(lent.n);
        for (unsigned index = lent.n == 8 ? 0 : count - 1; index < count; index++)
            for (size_t w = 0; w < COUNT(wrong); w++) {
                uint8_t *const word = lent.weights + 2 * index;
                char expected[SASZVIGOM_LINE_BYTES];
                unsigned i = 0, j = 0;
                check("vertices", saszvigom_weight_vertices(lent.n, index, &i, &j));
                word[0] = (uint8_t)(wrong[w] & 0xFF);
                word[1] = (uint8_t)(wrong[w] >> 8);
                const uint64_t number = opened(&lent);
                if (wrong[w] == 0)
                    (void)snprintf(expected, sizeof expected,
                                   "refused: the weight of %u and %u is 0 (cause 4 at %u)", i, j,
                                   index);
                else
                    (void)snprintf(expected, sizeof expected,
                                   "refused: the weight of %u and %u is %u, above 65520 "
                                   "(cause 4 at %u)",
                                   i, j, wrong[w], index);
                check_text("a weight", line_with(&lent, number), expected);
                check_without(&lent, number);

                (void)snprintf(expected, sizeof expected,
                               "refused: the weight of %u and %u is 0 or above 65520 "
                               "(cause 4 at %u)",
                               i, j, index);
                saszvigom_store_word(lent.weights, index, 65520);
                check_text("a weight in range since", line_with(&lent, number), expected);
                saszvigom_store_word(lent.weights, index, 1);
                check_text("another one since", line_with(&lent, number), expected);
            }
        give_back(&lent);
    }
}

/* Sets a byte of a graph that is in order, and the byte across the diagonal.
   Opening must be refused at row i and column j with this fault, and the line must
   go on with the text `with`; if the graph does not show the fault, it goes on
   with the text `alone`. */
static void check_byte(const struct lent *lent, unsigned i, unsigned j, uint8_t byte,
                       uint8_t across, enum saszvigom_fault fault, const char *with,
                       const char *alone)
{
    const size_t n = lent->n;
    char expected[SASZVIGOM_LINE_BYTES];
    lent->adjacency[j * n + i] = across;
    lent->adjacency[i * n + j] = byte;
    const uint64_t number = opened(lent);
    check_number("the byte at fault", number, fault_at(i, j, fault));
    (void)snprintf(expected, sizeof expected,
                   "refused: row %u, column %u: the adjacency byte %s (cause 3)", i, j, with);
    check_text("a byte", line_with(lent, number), expected);
    check_without(lent, number);

    /* The byte is in order by now, or has another fault by now. */
    (void)snprintf(expected, sizeof expected,
                   "refused: row %u, column %u: the adjacency byte %s (cause 3)", i, j, alone);
    lent->adjacency[i * n + j] = lent->adjacency[j * n + i] = i != j;
    check_text("a byte in order since", line_with(lent, number), expected);
    lent->adjacency[i * n + j] = fault == SASZVIGOM_FAULT_VALUE ? i == j : 9;
    check_text("another fault since", line_with(lent, number), expected);
    lent->adjacency[i * n + j] = i != j;
}

/* Every fault at row i and column j, and at row j and column i. */
static void check_bytes(const struct lent *lent, unsigned i, unsigned j)
{
    char differs[80], zero[80], one[80], damaged[80];
    const char *const text = "is %u, but that of row %u, column %u is %u";
    if (i == j) {
        check_byte(lent, i, i, 1, 1, SASZVIGOM_FAULT_DIAGONAL,
                   "is 1, but must be 0 on the diagonal", "is not 0 on the diagonal");
        check_byte(lent, i, i, 7, 7, SASZVIGOM_FAULT_VALUE, "is 7, not 0 or 1", "is not 0 or 1");
        check_byte(lent, i, i, 255, 255, SASZVIGOM_FAULT_VALUE, "is 255, not 0 or 1",
                   "is not 0 or 1");
        return;
    }
    (void)snprintf(differs, sizeof differs, "differs from that of row %u, column %u", j, i);
    (void)snprintf(zero, sizeof zero, text, 0u, j, i, 1u);
    (void)snprintf(one, sizeof one, text, 1u, j, i, 0u);
    (void)snprintf(damaged, sizeof damaged, text, 1u, j, i, 255u);
    check_byte(lent, i, j, 0, 1, SASZVIGOM_FAULT_MIRROR, zero, differs);
    check_byte(lent, i, j, 1, 0, SASZVIGOM_FAULT_MIRROR, one, differs);
    check_byte(lent, i, j, 1, 255, SASZVIGOM_FAULT_MIRROR, damaged, differs);
    check_byte(lent, i, j, 2, 2, SASZVIGOM_FAULT_VALUE, "is 2, not 0 or 1", "is not 0 or 1");
    check_byte(lent, i, j, 255, 1, SASZVIGOM_FAULT_VALUE, "is 255, not 0 or 1", "is not 0 or 1");
}

/* Every cell of four vertices on the diagonal and above it, and of 96 the corners,
   the last ones, and the one of row 32 and column 55. */
static void bytes_at_fault(void)
{
    const size_t sizes[] = {1, 2, 4, 96};
    for (size_t k = 0; k < COUNT(sizes); k++) {
        const struct lent lent = lend(sizes[k]);
        const unsigned n = (unsigned)lent.n;
        for (unsigned i = n < 4 ? 0 : n - 4; i < n; i++)
            for (unsigned j = i; j < n; j++)
                check_bytes(&lent, i, j);
        if (n == 96) {
            check_bytes(&lent, 0, 0);
            check_bytes(&lent, 0, 1);
            check_bytes(&lent, 0, 95);
            check_bytes(&lent, 32, 55);
        }
        give_back(&lent);
    }
}

/* Every other line is the same with the graph, also with one that is at fault. */
static void others_with_graph(void)
{
    const struct lent lent = lend(96);
    memset(lent.adjacency, 9, lent.adjacency_len);
    memset(lent.weights, 0, lent.weights_len);
    for (size_t k = 0; k < COUNT(lines); k++) {
        const enum saszvigom_cause cause = saszvigom_cause_of(lines[k].number);
        char text[SASZVIGOM_LINE_BYTES];
        saszvigom_explain_with(text, sizeof text, lines[k].number, lines[k].n, lines[k].from,
                               lent.adjacency, lent.adjacency_len, lent.weights, lent.weights_len);
        if (cause != SASZVIGOM_ADJACENCY_FAULT && cause != SASZVIGOM_WEIGHT_OUT_OF_RANGE)
            check_text("the same with a graph", text, lines[k].line);
    }
    give_back(&lent);
}

/* Any number for any n, with buffers of any bytes and any length, which are read
   only as far as they go. */
static void any_graph(void)
{
    uint64_t state = 7;
    size_t longest = 0, shown = 0;
    for (unsigned k = 0; k < 20000; k++) {
        state = state * 6364136223846793005u + 1442695040888963407u;
        const unsigned random = (unsigned)(state >> 40);
        const uint64_t n = k % 16 == 0 ? state : random % 11;
        const size_t full = k % 16 == 0 ? 100 : SASZVIGOM_ADJACENCY_BYTES(n);
        struct lent lent = {0, random / 11 % (full + 3), random / 1331 % (full + 3), NULL, NULL};
        lent.n = (size_t)n;
        if (k % 3 == 0) /* just long enough */
            lent.adjacency_len = lent.weights_len = full;
        lent.adjacency = bytes(lent.adjacency_len);
        lent.weights = bytes(lent.weights_len);
        for (size_t at = 0; at < lent.adjacency_len; at++)
            lent.adjacency[at] = (uint8_t)(random >> at % 16) & (k % 5 ? 3 : 255);
        for (size_t at = 0; at < lent.weights_len; at++)
            lent.weights[at] = (uint8_t)(random >> at % 16) & (k % 5 ? 0 : 255);
        const uint64_t cell = (state >> 30 & 0x7) | (state >> 33 & 0x7) << 8 |
                              (state >> 36 & 0x3) << 16;
        const uint64_t place = k % 4 < 2 ? state >> 30 & 0xFFFFFFFF
                               : k % 2   ? cell
                                         : state >> 30 & 0x1F;
        const uint64_t number = place << 16 | (k % 2 ? 3 : 4);
        const char *const text = line_with(&lent, number);
        longest = strlen(text) > longest ? strlen(text) : longest;
        shown += strstr(text, ", not 0") != NULL || strstr(text, ", but ") != NULL;
        give_back(&lent);
    }
    check("the longest line with a graph", longest > 100 && longest < SASZVIGOM_LINE_BYTES);
    check("lines that show a byte", shown > 100);
}

/* No number has a line that is longer than SASZVIGOM_LINE_BYTES allows. */
static void any_number(void)
{
    uint64_t state = 1;
    size_t longest = 0;
    for (int k = 0; k < 20000; k++) {
        char text[SASZVIGOM_LINE_BYTES];
        state = state * 6364136223846793005u + 1442695040888963407u;
        const uint64_t places[] = {0xFFFF0000u, 0xFFFFFF0000u, 0xFFFFFFFFFFFF0000u};
        const uint64_t values = (state ^ state << 24) & places[k / 4 % 3];
        const uint64_t number = values | (state >> 20 & (k % 2 ? 0x1Fu : 0x700u));
        const uint64_t n = state >> 57;
        const size_t length =
            saszvigom_explain(text, sizeof text, number, n, (enum saszvigom_from)(k / 12 % 4));
        if (length >= sizeof text || strlen(text) != length)
            fail("any number");
        longest = length > longest ? length : longest;
    }
    check("the longest line", longest > 120 && longest < SASZVIGOM_LINE_BYTES);
}

int main(void)
{
    texts();
    places();
    indices();
    faults();
    verdicts();
    explanations();
    weights_at_fault();
    bytes_at_fault();
    others_with_graph();
    any_graph();
    any_number();
    printf("%zu cases\n", cases);
    return 0;
}
