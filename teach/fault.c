/* Explains why a sheet was refused: finds the record at fault again in its bytes. */
#include "explain.h"
#include "input.h"

#include <stdio.h>
#include <string.h>

/* A record: where it begins, and how many records stand before it. */
struct record {
    size_t offset;
    unsigned before;
};

static size_t length_of(uint8_t kind)
{
    switch (kind) {
    case SASZVIGOM_RECORD_SIZE:
        return 2;
    case SASZVIGOM_RECORD_EDGE:
        return 3;
    case SASZVIGOM_RECORD_SEED:
        return 5;
    default:
        return 1;
    }
}

/* Finds the last record that begins before or at an offset. */
static struct record find(const uint8_t *sheet, size_t length, size_t offset)
{
    struct record r = {0, 0};
    while (r.offset < length && r.offset + length_of(sheet[r.offset]) <= offset) {
        r.offset += length_of(sheet[r.offset]);
        r.before++;
    }
    return r;
}

static const char *name_of(uint8_t kind)
{
    switch (kind) {
    case SASZVIGOM_RECORD_SIZE:
        return "a size";
    case SASZVIGOM_RECORD_EDGE:
        return "a share";
    case SASZVIGOM_RECORD_SEED:
        return "a seed";
    case SASZVIGOM_RECORD_END:
        return "an end";
    default:
        return "of no known kind";
    }
}

/* Returns what may stand where a record is at fault. */
static const char *due(const uint8_t *sheet, struct record r)
{
    if (r.before == 0)
        return "the size must stand there";
    if (r.before == 1)
        return "the seed must stand there";
    for (size_t at = 0; at < r.offset; at += length_of(sheet[at]))
        if (sheet[at] == SASZVIGOM_RECORD_END)
            return "nothing may follow the end";
    return "a share or the end must stand there";
}

static int is_blank(uint8_t byte)
{
    return byte == ' ' || byte == '\n' || byte == '\r' || byte == '\t';
}

/* Tells whether bytes are a text. A text begins with ASCII, perhaps after a
   byte-order mark, and its remarks may have any letters. A sheet is never a text:
   it begins with the byte 1. */
static int is_text(const uint8_t *bytes, size_t length)
{
    const size_t mark =
        length >= 3 && bytes[0] == 0xef && bytes[1] == 0xbb && bytes[2] == 0xbf ? 3 : 0;
    if (mark == length || bytes[mark] > '~')
        return 0;
    for (size_t i = mark; i < length; i++)
        if ((bytes[i] < ' ' && !is_blank(bytes[i])) || bytes[i] == 0x7f)
            return 0;
    return 1;
}

/* Tells whether a text is a graph in the DIMACS edge format, by its first line.
   No text of ./sheet make begins so. */
static int is_graph(const uint8_t *text, size_t length)
{
    return (length >= 1 && text[0] == 'c') || (length >= 2 && memcmp(text, "p ", 2) == 0);
}

static void explain_cut(const uint8_t *sheet, size_t length)
{
    const struct record r = find(sheet, length, length);
    printf("the sheet stops after %u bytes, ", (unsigned)length);
    if (r.offset < length)
        printf("inside record %u,\n  %s that begins at offset %u.\n", r.before + 1,
               name_of(sheet[r.offset]), (unsigned)r.offset);
    else
        printf("before its end;\n  %s.\n", due(sheet, r));
    printf("  what to do: add what is missing to the text, such as the end; or have the\n"
           "  sheet sent again whole.\n");
}

static void explain_vertices(const uint8_t *sheet, struct record r)
{
    const unsigned a = sheet[r.offset + 1], b = sheet[r.offset + 2], n = sheet[1];
    printf("record %u, share %u %u, ", r.before + 1, a, b);
    if (a >= n || b >= n) {
        printf("names sleeve %u, but ", a >= n ? a : b);
        if (n == 0)
            printf("there are none.\n");
        else
            printf("the sleeves\n  are 0 to %u.\n", n - 1);
    } else {
        printf("names the same sleeve twice.\n");
    }
    printf("  what to do: put the right sleeve there, or take the record out.\n");
}

static void explain_repeated(const uint8_t *sheet, struct record r)
{
    const uint8_t a = sheet[r.offset + 1], b = sheet[r.offset + 2];
    struct record first = {7, 2};
    while (first.offset < r.offset &&
           !(sheet[first.offset + 1] == a && sheet[first.offset + 2] == b) &&
           !(sheet[first.offset + 1] == b && sheet[first.offset + 2] == a)) {
        first.offset += 3;
        first.before++;
    }
    printf("record %u, share %u %u, names two sleeves that\n"
           "  record %u, at offset %u, has named already.\n",
           r.before + 1, a, b, first.before + 1, (unsigned)first.offset);
    printf("  what to do: take one of the two records out.\n");
}

void explain_sheet(const char *name, const uint8_t *sheet, size_t length, uint64_t number)
{
    const unsigned place = saszvigom_place_of(number);
    const struct record r = find(sheet, length, place);
    printf("  refused %u at %u: ", (unsigned)saszvigom_cause_of(number), place);
    switch (saszvigom_cause_of(number)) {
    case SASZVIGOM_SIZE_TOO_LARGE:
        printf("the size record says %u sleeves; a sheet has 96 at most.\n"
               "  what to do: make two sheets of it.\n",
               sheet[1]);
        break;
    case SASZVIGOM_RECORD_NOT_DUE:
        if (length >= 8 && memcmp(sheet, "sleeves ", 8) == 0) {
            printf("no record begins there; the file is a log or a listing.\n"
                   "  what to do: open the sheet that it is of; a log is replayed there.\n");
            return;
        }
        if (is_text(sheet, length) && is_graph(sheet, length)) {
            printf("no record begins there; the file is a graph, and no sheet.\n"
                   "  what to do: open it with a seed, such as 1:\n    ./desk ");
            print_argument(name);
            printf(" 1\n");
            return;
        }
        if (is_text(sheet, length)) {
            printf("no record begins there; the file is a text, and no sheet.\n"
                   "  what to do: make a sheet of the text, and open that:\n    ./sheet make ");
            print_argument(name);
            printf(" >NAME.sheet\n");
            return;
        }
        printf("record %u, at offset %u, is %s;\n  %s.\n", r.before + 1, place,
               name_of(sheet[place]), due(sheet, r));
        printf("  what to do: put the size first, the seed second, then the shares and the end.\n");
        break;
    case SASZVIGOM_SHEET_CUT:
        if (length == 0) {
            printf("the file is empty; ./sheet make may have refused the text.\n"
                   "  what to do: make the sheet again, and correct the line that is named.\n");
            return;
        }
        explain_cut(sheet, length);
        break;
    case SASZVIGOM_RECORD_VERTEX_INVALID:
        explain_vertices(sheet, r);
        break;
    case SASZVIGOM_EDGE_REPEATED:
        explain_repeated(sheet, r);
        break;
    default: /* 2: no buffer is too short for a sheet */
        printf("a lent buffer is too short.\n");
    }
    printf("  Nothing was opened. ./sheet show lists the records with their offsets:\n    ./sheet show ");
    print_argument(name);
    printf("\n");
}
