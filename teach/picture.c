#include "picture.h"

#include <stdio.h>
#include <string.h>

#define WIDTH 78
#define MOST_IN_LINE 16 /* vertices, for a table with a column each, and for the sequence */
#define MOST_DRAWN 12   /* pairs that are drawn, and not listed */
#define DRAWN_IN_LINE 6

/* Room for the numbers of all vertices in two lists, each after a blank. */
#define TEXT_BYTES 512

/* A paragraph: items after a heading, wrapped under the first one. */
struct paragraph {
    size_t indent, column;
};

static struct paragraph begin(const char *heading)
{
    printf("%s", heading);
    const struct paragraph p = {strlen(heading), strlen(heading)};
    return p;
}

static void put(struct paragraph *p, const char *item, size_t length)
{
    if (p->column + 1 + length > WIDTH) {
        printf("\n%*s", (int)p->indent, "");
        p->column = p->indent;
    }
    printf(" %.*s", (int)length, item);
    p->column += 1 + length;
}

/* Puts the items of a text, each after one blank. */
static void put_all(struct paragraph *p, const char *text)
{
    while (*text == ' ') {
        const size_t length = strcspn(text + 1, " ");
        put(p, text + 1, length);
        text += 1 + length;
    }
}

/* Appends the vertices that are marked with 1, each after a blank. */
static void append_vertices(char text[TEXT_BYTES], const uint8_t *marks, unsigned n)
{
    size_t length = strlen(text);
    for (unsigned a = 0; a < n; a++) {
        unsigned last = a;
        if (marks[a] != 1)
            continue;
        while (last + 1 < n && marks[last + 1] == 1)
            last++;
        if (last - a >= 2 && n > MOST_IN_LINE) {
            length += (size_t)snprintf(text + length, TEXT_BYTES - length, " %u-%u", a, last);
            a = last;
        } else {
            length += (size_t)snprintf(text + length, TEXT_BYTES - length, " %u", a);
        }
    }
}

void print_vertices(const char *heading, const uint8_t *marks, unsigned n)
{
    char text[TEXT_BYTES] = "";
    struct paragraph p = begin(heading);
    append_vertices(text, marks, n);
    put_all(&p, text[0] != 0 ? text : " none");
    printf("\n");
}

void print_witness(const struct session *s)
{
    for (unsigned a = 0; a < s->n; a++)
        if (saszvigom_word(s->graph.witness, a) != 0)
            printf("  witness %u %u\n", a, (unsigned)saszvigom_word(s->graph.witness, a));
}

/* Draws the pairs from first to last side by side. */
static void draw_pairs(const struct session *s, unsigned first, unsigned last)
{
    printf(first == 0 ? "boxes  " : "       ");
    for (unsigned k = first; k <= last; k++)
        printf("  +-------+");
    printf("\n       ");
    for (unsigned k = first; k <= last; k++)
        printf("  | %2u %2u |", s->graph.sequence[2 * k], s->graph.sequence[2 * k + 1]);
    printf("\n       ");
    for (unsigned k = first; k <= last; k++)
        printf("  +--(%u)-%s+", k + 1, k + 1 < 10 ? "-" : "");
    printf("\n");
}

static void print_pairs(const struct session *s)
{
    char item[32];
    if (s->made > 0 && s->made <= MOST_DRAWN) {
        for (unsigned k = 0; k < s->made; k += DRAWN_IN_LINE)
            draw_pairs(s, k, (k + DRAWN_IN_LINE < s->made ? k + DRAWN_IN_LINE : s->made) - 1);
        return;
    }
    struct paragraph p = begin("boxes  ");
    for (unsigned k = 0; k < s->made; k++) {
        snprintf(item, sizeof item, "[%2u %2u]", s->graph.sequence[2 * k], s->graph.sequence[2 * k + 1]);
        put(&p, item, strlen(item));
    }
    printf(s->made > 0 ? "\n" : " none\n");
}

static void print_sequence(const struct session *s)
{
    char item[32];
    struct paragraph p = begin("strip  ");
    for (unsigned i = 0; i < s->n; i++) {
        snprintf(item, sizeof item, "%u", s->graph.sequence[i]);
        put(&p, item, strlen(item));
    }
    printf("\n");
}

/* Finds the partners of a vertex: none if the graph is singular. */
static void find_partners(const struct session *s, unsigned a, uint8_t row[MOST])
{
    memset(row, 0, MOST);
    if (opened(s))
        session_row(s, a, row);
}

/* Prints a table of the unmatched vertices, each with a row and a column. */
static void print_grid(const struct session *s, const uint8_t unmatched[MOST])
{
    uint8_t row[MOST];
    printf("\n        ");
    for (unsigned b = 0; b < s->n; b++)
        if (unmatched[b])
            printf(" %3u", b);
    printf("\n");
    for (unsigned a = 0; a < s->n; a++) {
        if (!unmatched[a])
            continue;
        find_partners(s, a, row);
        printf("     %3u", a);
        for (unsigned b = 0; b < s->n; b++)
            if (unmatched[b])
                printf("   %c", a == b ? '\\' : row[b] ? 'O' : adjacent(s, a, b) ? '-' : '.');
        printf("\n");
    }
    if (opened(s))
        printf("\n  O open partner   - may share, but a pick is refused 10   . may not share\n");
    else
        printf("\n  - may share   . may not share\n");
}

/* Makes the list of an unmatched vertex: its partners, and those neighbours
   with which a pick is refused; its neighbours if the graph is singular. */
static void make_list(const struct session *s, unsigned a, const uint8_t unmatched[MOST],
                      char text[TEXT_BYTES])
{
    uint8_t row[MOST], closed[MOST] = {0};
    int any = 0;
    find_partners(s, a, row);
    text[0] = 0;
    for (unsigned b = 0; b < s->n; b++) {
        closed[b] = unmatched[b] && adjacent(s, a, b) && !row[b];
        any |= closed[b];
    }
    append_vertices(text, row, s->n);
    if (any && opened(s))
        strcat(text, " -");
    append_vertices(text, closed, s->n);
}

/* Prints a list for every unmatched vertex, in all columns that there is room
   for. */
static void print_lists(const struct session *s, const uint8_t unmatched[MOST])
{
    static char texts[MOST][TEXT_BYTES];
    unsigned vertices[MOST], count = 0;
    size_t longest = 0;
    char heading[16];
    for (unsigned a = 0; a < s->n; a++) {
        if (!unmatched[a])
            continue;
        make_list(s, a, unmatched, texts[count]);
        if (strlen(texts[count]) > longest)
            longest = strlen(texts[count]);
        vertices[count++] = a;
    }
    const unsigned columns = longest <= 18 ? 3 : longest <= 31 ? 2 : 1;
    const unsigned lines = (count + columns - 1) / columns, width = WIDTH / columns;
    printf(opened(s) ? "open partners; after a - those that may share, but are refused 10\n"
                     : "links\n");
    for (unsigned line = 0; line < lines; line++) {
        for (unsigned i = line; i < count; i += lines) {
            snprintf(heading, sizeof heading, "  %3u :", vertices[i]);
            if (columns == 1) {
                struct paragraph p = begin(heading);
                put_all(&p, texts[i]);
            } else {
                printf("%s%-*s", heading, i + lines < count ? (int)(width - strlen(heading)) : 0,
                       texts[i]);
            }
        }
        printf("\n");
    }
}

void print_picture(const struct session *s)
{
    uint8_t unmatched[MOST] = {0};
    printf("%u sleeves, %u links, seed %u; boxes made %u, sleeves loose %u\n", s->n,
           s->edges, (unsigned)s->seed, s->made, s->n - 2 * s->made);
    for (unsigned a = 0; a < s->n; a++)
        unmatched[a] = place_of(s, a) == SASZVIGOM_UNUSED;
    print_pairs(s);
    if (s->n > 0 && s->n <= MOST_IN_LINE)
        print_sequence(s);
    print_vertices("loose  ", unmatched, s->n);
    if (s->n > 2 * s->made) {
        if (s->n - 2 * s->made <= MOST_IN_LINE)
            print_grid(s, unmatched);
        else
            print_lists(s, unmatched);
    }
    if (!opened(s)) {
        printf("no session: there is a witness with these draws\n");
        print_witness(s);
    }
}
