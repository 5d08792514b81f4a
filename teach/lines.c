/* Explains why a text in the DIMACS edge format was refused: finds the line at
   fault again in its bytes. */
#include "explain.h"
#include "input.h"

#include <inttypes.h>
#include <stdio.h>
#include <string.h>

/* A line of a text without its line feed, or a field of one. */
struct part {
    const char *text;
    size_t length;
    int ended; /* whether a line feed follows the line */
};

/* The line at fault, and the line p before it, both counted from 1. All lines
   before the one at fault are in order. */
struct fault {
    uint64_t at;
    struct part line;
    uint64_t p_at; /* 0 if there is none */
    struct part p;
};

/* Takes the next line off a text. */
static struct part next_line(const char **text, const char *end)
{
    const char *const feed = memchr(*text, '\n', (size_t)(end - *text));
    const char *const stop = feed != NULL ? feed : end;
    const struct part line = {*text, (size_t)(stop - *text), feed != NULL};
    *text = feed != NULL ? feed + 1 : end;
    return line;
}

static int begins(struct part part, const char *letters)
{
    return part.length >= strlen(letters) && memcmp(part.text, letters, strlen(letters)) == 0;
}

/* Finds a line, or the last one if there are fewer. */
static struct fault find(const struct text *text, uint64_t at)
{
    const char *rest = (const char *)text->bytes, *const end = rest + text->length;
    struct fault fault = {at, {rest, 0, 0}, 0, {rest, 0, 0}};
    for (uint64_t k = 1; k <= at && rest < end; k++) {
        fault.line = next_line(&rest, end);
        if (k < at && fault.p_at == 0 && begins(fault.line, "p")) {
            fault.p_at = k;
            fault.p = fault.line;
        }
    }
    return fault;
}

/* Counts the lines of a text that begin so. */
static uint64_t count(const struct text *text, const char *letters)
{
    const char *rest = (const char *)text->bytes, *const end = rest + text->length;
    uint64_t found = 0;
    while (rest < end)
        found += (uint64_t)begins(next_line(&rest, end), letters);
    return found;
}

/* Returns a field of a line, counted from 0; single spaces part them. */
static struct part field(struct part line, unsigned k)
{
    struct part part = {line.text, 0, 0};
    const char *const end = line.text + line.length;
    for (; k > 0 && part.text < end; part.text++)
        k -= *part.text == ' ';
    while (part.text + part.length < end && part.text[part.length] != ' ')
        part.length++;
    return part;
}

/* Returns a field of digits without the zeros in front: none for 0. */
static struct part digits(struct part part)
{
    for (; part.length > 0 && part.text[0] == '0'; part.length--)
        part.text++;
    return part;
}

/* Tells whether a field of digits is more than another, whatever their length. */
static int above(struct part part, struct part other)
{
    const struct part a = digits(part), b = digits(other);
    return a.length != b.length ? a.length > b.length : memcmp(a.text, b.text, a.length) > 0;
}

/* Prints the number of a field of digits. */
static void print_number(struct part part)
{
    const struct part number = digits(part);
    if (number.length > 0)
        print_word(number.text, number.length);
    else
        printf("0");
}

/* Tells whether a line has this letter as its first word. */
static int is_line(struct part line, char letter)
{
    return line.length > 0 && line.text[0] == letter && (line.length == 1 || line.text[1] == ' ');
}

/* Says of a file whose first line is at fault that it is no graph, if it is
   another file that a person may have at hand; tells whether it is. */
static int say_other_file(const char *name, const struct text *text, struct part line)
{
    if (line.text[0] == SASZVIGOM_RECORD_SIZE) {
        printf("  The file is a sheet, and no graph.\n"
               "  what to do: open it without a seed:\n    ./desk ");
        print_argument(name);
        printf("\n");
    } else if (begins(line, "sleeves ")) {
        printf("  The file is a log or a listing, and no graph.\n"
               "  what to do: open the graph that it is of; a log is replayed there.\n");
    } else if (count(text, "size ") > 0) {
        printf("  The file is a text for ./sheet make, and no graph.\n"
               "  what to do: make a sheet of the text, and open that:\n    ./sheet make ");
        print_argument(name);
        printf(" >NAME.sheet\n");
    } else if (begins(line, "\xef\xbb\xbf")) {
        printf("  It begins with a mark of three bytes, which some editors write.\n"
               "  what to do: take the mark out, and open the new file:\n    tail -c +4 ");
        print_argument(name);
        printf(" >NAME.col\n");
    } else if (begins(line, "\xff\xfe") || begins(line, "\xfe\xff")) {
        printf("  The file has two bytes a letter.\n"
               "  what to do: save it as plain text, in ASCII or UTF-8.\n");
    } else {
        return 0;
    }
    return 1;
}

/* Says which blank of a line is at fault; tells whether one is. */
static int say_blank(struct part line)
{
    int doubled = 0;
    for (size_t i = 1; i < line.length; i++)
        doubled |= line.text[i - 1] == ' ' && line.text[i] == ' ';
    if (memchr(line.text, '\t', line.length) != NULL)
        printf("  It has a tab (\\x09).\n");
    else if (line.text[0] == ' ')
        printf("  It begins with a blank.\n");
    else if (line.text[line.length - 1] == ' ')
        printf("  It ends with a blank.\n");
    else if (doubled)
        printf("  It has two blanks side by side.\n");
    else
        return 0;
    printf("  what to do: part the words by one blank each, and leave none at the ends.\n");
    return 1;
}

/* Says why a line has none of the three forms, or stands where it may not. */
static void say_form(const char *name, const struct text *text, const struct fault *fault)
{
    const struct part line = fault->line, word = field(line, 1);
    if (line.length == 0) {
        printf("  what to do: take the line out; a remark begins with c.\n");
    } else if (fault->at == 1 && say_other_file(name, text, line)) {
        return;
    } else if (!line.ended) {
        printf("  The file stops there: no line feed ends this line.\n"
               "  what to do: if the line is whole, end it with Enter, and save the file; else\n"
               "  get the file again, whole.\n");
    } else if (line.text[line.length - 1] == '\r') {
        printf("  It ends as on Windows, with a carriage return (\\x0d).\n"
               "  what to do: take these out, and open the new file:\n    tr -d '\\r' <");
        print_argument(name);
        printf(" >NAME.col\n");
    } else if (is_line(line, 'p') && fault->p_at != 0) {
        printf("  It is a second line p; the first is line %" PRIu64 ".\n"
               "  what to do: take one of the two out; a file has one graph.\n",
               fault->p_at);
    } else if (is_line(line, 'e') && fault->p_at == 0) {
        printf("  It stands before the line p edge N M.\n"
               "  what to do: put that line above all lines e.\n");
    } else if (say_blank(line)) {
        return;
    } else if (begins(line, "p ") && !(word.length == 4 && begins(word, "edge"))) {
        printf("  After p stands ");
        print_word(word.text, word.length);
        printf(", and not edge.\n  what to do: write edge there.\n");
    } else if (is_line(line, 'p')) {
        printf("  It is not p edge N M, with the number of sleeves and that of lines e.\n"
               "  what to do: write two numbers after edge, in digits alone, and nothing else.\n");
    } else if (is_line(line, 'e')) {
        printf("  It is not e u v, with two sleeves.\n"
               "  what to do: write two numbers after e, in digits alone, and nothing else.\n");
    } else {
        printf("  A line begins with c, p or e, in small letters; a remark begins with c.\n"
               "  what to do: correct the line, or take it out.\n");
    }
}

static void say_no_p(const struct text *text)
{
    if (text->length == 0)
        printf("the file is empty.\n"
               "  what to do: get it again; a > before its name may have emptied it.\n");
    else
        printf("there is no line p edge N M, but remarks alone.\n"
               "  what to do: get the file again, whole.\n");
}

/* Says which vertex of a line e is at fault. */
static void say_vertices(const struct fault *fault)
{
    const struct part n = field(fault->p, 2);
    for (unsigned k = 1; k <= 2; k++) {
        const struct part vertex = field(fault->line, k);
        if (digits(vertex).length == 0) {
            printf("  A graph counts its sleeves from 1: none is 0.\n"
                   "  what to do: put the right number there; if the file counts from 0, add 1 to\n"
                   "  each.\n");
            return;
        }
        if (above(vertex, n)) {
            printf("  There is no sleeve ");
            print_number(vertex);
            printf(": line %" PRIu64 " says that there are ", fault->p_at);
            print_number(n);
            printf(".\n  what to do: put the right number there, or correct line %" PRIu64 ".\n",
                   fault->p_at);
            return;
        }
    }
    printf("  It names the same sleeve twice.\n"
           "  what to do: put the right number there; or take the line out, and in line\n"
           "  %" PRIu64 " write a last number that is less by 1.\n",
           fault->p_at);
}

static void say_count(const struct text *text, const struct fault *fault)
{
    const uint64_t lines = count(text, "e");
    printf("the number of lines e is %" PRIu64 ".\n  Line %" PRIu64 " says ", lines, fault->p_at);
    print_number(field(fault->p, 3));
    printf(".\n  what to do: get the file again, whole. If no link is missing, write %" PRIu64 "\n"
           "  there; a link that is listed twice has two lines.\n",
           lines);
}

void explain_text(const char *name, const struct text *text, uint64_t number)
{
    const uint64_t at = saszvigom_line_of(number);
    const struct fault fault = find(text, at != 0 ? at : UINT64_MAX);
    printf("  refused %u at ", (unsigned)saszvigom_cause_of(number));
    if (at == 0) {
        printf("0: ");
    } else if (fault.line.length == 0) {
        printf("line %" PRIu64 ": the line is empty.\n", at);
    } else {
        printf("line %" PRIu64 ": '", at);
        print_half(fault.line.text, fault.line.length);
        printf("'\n");
    }
    switch (saszvigom_cause_of(number)) {
    case SASZVIGOM_SIZE_TOO_LARGE:
        printf("  It says ");
        print_number(field(fault.line, 2));
        printf(" sleeves; a graph has 96 at most.\n"
               "  what to do: make two graphs of it.\n");
        break;
    case SASZVIGOM_LINE_INVALID:
        if (at == 0)
            say_no_p(text);
        else
            say_form(name, text, &fault);
        break;
    case SASZVIGOM_LINE_VERTEX_INVALID:
        say_vertices(&fault);
        break;
    case SASZVIGOM_LINE_COUNT_WRONG:
        say_count(text, &fault);
        break;
    default: /* 2: no buffer is too short for a graph */
        printf("  A lent buffer is too short.\n");
    }
    printf("  Nothing was opened.\n");
}
