/*
 * Switches over the enums that the headers return, for every value that a
 * number may have there, known or not, and makes the texts of them. It compiles
 * as C and as C++. Stops with status 1 at the first difference, and prints how
 * many values there were.
 */
#include "saszvigom_graph.h"

#include <stdio.h>
#include <stdlib.h>

static unsigned known, values;

/* Counts a value, which must have a text. */
static void count(const char *text)
{
    values++;
    if (text[0] == '\0')
        exit(1);
}

static void expect(const char *what, unsigned expected)
{
    if (known != expected) {
        printf("differs: %u known %s, expected %u\n", known, what, expected);
        exit(1);
    }
    known = 0;
}

static void cause(enum saszvigom_cause value, enum saszvigom_from from)
{
    count(saszvigom_cause_text(value, from));
    switch (value) {
    case SASZVIGOM_NO_CAUSE:
    case SASZVIGOM_SIZE_TOO_LARGE:
    case SASZVIGOM_BUFFER_TOO_SHORT:
    case SASZVIGOM_ADJACENCY_FAULT:
    case SASZVIGOM_WEIGHT_OUT_OF_RANGE:
    case SASZVIGOM_SESSION_MALFORMED:
    case SASZVIGOM_INVERSE_WRONG:
    case SASZVIGOM_VERTEX_INVALID:
    case SASZVIGOM_VERTEX_MATCHED:
    case SASZVIGOM_NOT_ADJACENT:
    case SASZVIGOM_REST_SINGULAR:
    case SASZVIGOM_NOTHING_LEFT:
    case SASZVIGOM_RECORD_NOT_DUE:
    case SASZVIGOM_SHEET_CUT:
    case SASZVIGOM_RECORD_VERTEX_INVALID:
    case SASZVIGOM_EDGE_REPEATED:
    case SASZVIGOM_LINE_INVALID:
    case SASZVIGOM_LINE_COUNT_WRONG:
        known++;
    }
}

static void kind(enum saszvigom_kind value)
{
    count(saszvigom_kind_text(value));
    switch (value) {
    case SASZVIGOM_REFUSED:
    case SASZVIGOM_OPENED:
    case SASZVIGOM_SINGULAR:
    case SASZVIGOM_PAIR:
    case SASZVIGOM_ROW:
    case SASZVIGOM_REPLAYED:
    case SASZVIGOM_SHEET:
    case SASZVIGOM_DRAWS:
        known++;
    }
}

static void buffer(enum saszvigom_buffer value)
{
    count(saszvigom_buffer_text(value));
    switch (value) {
    case SASZVIGOM_BUFFER_ADJACENCY:
    case SASZVIGOM_BUFFER_WEIGHTS:
    case SASZVIGOM_BUFFER_INVERSE:
    case SASZVIGOM_BUFFER_SEQUENCE:
    case SASZVIGOM_BUFFER_WITNESS:
    case SASZVIGOM_BUFFER_WORK:
    case SASZVIGOM_BUFFER_ROW:
    case SASZVIGOM_BUFFER_ANSWERS:
        known++;
    }
}

static void fault(uint64_t number)
{
    char line[SASZVIGOM_LINE_BYTES];
    if (saszvigom_explain(line, sizeof line, number, 0, SASZVIGOM_FROM_CALL) >= sizeof line)
        exit(1);
    count(line);
    switch (saszvigom_fault_of(number, 0, NULL, 0)) {
    case SASZVIGOM_NO_FAULT:
    case SASZVIGOM_FAULT_VALUE:
    case SASZVIGOM_FAULT_DIAGONAL:
    case SASZVIGOM_FAULT_MIRROR:
        known++;
    }
}

static void verdict(uint64_t number, uint64_t n)
{
    char line[SASZVIGOM_LINE_BYTES];
    if (saszvigom_explain(line, sizeof line, number, n, SASZVIGOM_FROM_CALL) >= sizeof line)
        exit(1);
    count(line);
    switch (saszvigom_verdict_of(number, n)) {
    case SASZVIGOM_NO_VERDICT:
        break;
    case SASZVIGOM_VERDICT_FULL:
    case SASZVIGOM_VERDICT_ODD:
    case SASZVIGOM_VERDICT_UNDECIDED:
        known++;
    }
}

int main(void)
{
    uint64_t value;
    unsigned from;
    for (from = 0; from <= 4; from++)
        for (value = 0; value < 65536; value++) {
            char line[SASZVIGOM_LINE_BYTES];
            const size_t length = saszvigom_explain(line, sizeof line, value, value % 101,
                                                    (enum saszvigom_from)from);
            if (length >= sizeof line)
                return 1;
            count(line);
        }
    for (from = 0; from <= 4; from++) {
        for (value = 0; value < 256; value++)
            cause(saszvigom_cause_of(value), (enum saszvigom_from)from);
        expect("causes", 18);
    }
    for (value = 0; value < 256; value++)
        kind(saszvigom_kind_of(value << 8));
    expect("kinds", 8);
    for (value = 0; value < 65536; value++)
        buffer(saszvigom_buffer_of(value << 16));
    expect("buffers", 8);
    for (value = 0; value < 256; value++)
        fault(value << 32 | SASZVIGOM_ADJACENCY_FAULT);
    expect("faults", 4);
    for (value = 0; value < 65536; value++) {
        verdict(value, 95);
        verdict(value, 96);
    }
    expect("verdicts", 4);
    printf("%u cases\n", values);
    return 0;
}
