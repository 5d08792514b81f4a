/*
 * Runs the cases that tests/host writes and compares the number returned and
 * every byte of every buffer with what is expected. Prints how many cases had
 * which outcome. Stops with status 1 at the first difference, or if the stream
 * is not whole.
 *
 * The stream, on standard input. Every number is eight bytes, the low one first.
 * For each case:
 *
 *     the length of its name, at least 1, and the name
 *     the entry, as enum entry numbers them
 *     n, the pairs made, and two vertices; a seed in place of the first
 *     the lengths of the ten buffers in bytes
 *     the bytes of the ten buffers before the call
 *     the number expected
 *     the bytes of the ten buffers expected after the call
 *
 * and at the end 0, in place of a name's length, and the number of cases.
 */
#include "compare.h"

#include <stdbool.h>
#include <stdio.h>
#include <stdlib.h>

#define LONGEST_NAME 127
#define LAST_CAUSE SASZVIGOM_LINE_COUNT_WRONG

static struct call call;
static struct outcome expected;
static char name[LONGEST_NAME + 1];

/* How many cases there were, of each entry, and of each outcome; refused by
   cause. */
static struct {
    size_t cases, entries[ENTRIES], carried_out, refused[LAST_CAUSE + 1];
} tally;

static _Noreturn void fail(const char *what)
{
    printf("FAIL stream, after %zu cases: %s\n", tally.cases, what);
    exit(1);
}

static void read_bytes(uint8_t *bytes, size_t length)
{
    if (fread(bytes, 1, length, stdin) != length)
        fail("it is cut within a case or its end");
}

static uint64_t number_from(const uint8_t bytes[8])
{
    uint64_t number = 0;
    for (size_t i = 8; i-- > 0;)
        number = number << 8 | bytes[i];
    return number;
}

static uint64_t read_number(void)
{
    uint8_t bytes[8];
    read_bytes(bytes, sizeof bytes);
    return number_from(bytes);
}

/* Returns the length of a name, or 0 at the end. */
static uint64_t read_name_length(void)
{
    uint8_t bytes[8];
    const int first = getchar();
    if (first == EOF)
        fail("its end is missing");
    bytes[0] = (uint8_t)first;
    read_bytes(bytes + 1, sizeof bytes - 1);
    return number_from(bytes);
}

/* Reads a name; returns false at the end. */
static bool read_name(void)
{
    const uint64_t length = read_name_length();
    if (length > LONGEST_NAME)
        fail("a name is too long");
    if (length == 0)
        return false;
    read_bytes((uint8_t *)name, (size_t)length);
    name[length] = '\0';
    return true;
}

static void read_numbers(void)
{
    const uint64_t entry = read_number();
    if (entry >= ENTRIES)
        fail("there is no such entry");
    call.entry = (enum entry)entry;
    call.n = read_number();
    call.made = read_number();
    call.a = read_number();
    call.b = read_number();
}

static void read_lengths(void)
{
    for (size_t b = 0; b < BUFFERS; b++) {
        const uint64_t length = read_number();
        if (length > LONGEST)
            fail("a buffer is too long");
        if ((b == CALLS || b == ANSWERS) && length % sizeof(uint64_t) != 0)
            fail("a list of numbers has an odd length");
        call.length[b] = (size_t)length;
    }
}

static void read_buffers(uint8_t bytes[BUFFERS][LONGEST])
{
    for (size_t b = 0; b < BUFFERS; b++)
        read_bytes(bytes[b], call.length[b]);
}

/* Reads a case; returns false at the end. */
static bool read_case(void)
{
    if (!read_name())
        return false;
    read_numbers();
    read_lengths();
    read_buffers(call.bytes);
    expected.number = read_number();
    read_buffers(expected.bytes);
    return true;
}

static void read_end(void)
{
    if (read_number() != tally.cases)
        fail("its end tells another number of cases");
    if (getchar() != EOF)
        fail("there is more after its end");
}

static void count(void)
{
    const unsigned cause = saszvigom_cause_of(expected.number);
    const bool refused = saszvigom_kind_of(expected.number) == SASZVIGOM_REFUSED;
    if (cause > LAST_CAUSE || refused != (cause > 0))
        fail("the number expected is none that a call returns");
    if (refused)
        tally.refused[cause]++;
    else
        tally.carried_out++;
    tally.entries[call.entry]++;
    tally.cases++;
}

static void print_tally(void)
{
    const char *separator = ":";
    printf("%zu cases", tally.cases);
    for (size_t e = 0; e < ENTRIES; e++)
        if (tally.entries[e] > 0) {
            printf("%s %zu %s", separator, tally.entries[e], entry_names[e]);
            separator = ",";
        }
    printf("; %zu carried out", tally.carried_out);
    for (size_t cause = 1; cause <= LAST_CAUSE; cause++)
        if (tally.refused[cause] > 0)
            printf(", %zu with %zu", tally.refused[cause], cause);
    printf("\n");
}

int main(void)
{
    while (read_case()) {
        check_call(name, &call, &expected);
        count();
    }
    read_end();
    print_tally();
    return 0;
}
