/*
 * saszvigom: the answers of saszvigom.h as English text, and the vertices that
 * an answer's place stands for.
 *
 * All functions are in this header: they link, allocate and keep nothing. They
 * take every number, and a pointer that is not null unless they say otherwise.
 * For C99 or C++11 and later.
 */
#ifndef SASZVIGOM_TEXT_H
#define SASZVIGOM_TEXT_H

#include "saszvigom.h"

#ifdef __cplusplus
extern "C" {
#endif

/* Which call returned a number: causes 12 to 14 have two meanings each, and the
   place is a line for some. */
enum saszvigom_from SASZVIGOM_ENUM_TYPE {
    /* saszvigom_open, saszvigom_draws or a session call other than
       saszvigom_replay; also an answer that saszvigom_replay wrote. */
    SASZVIGOM_FROM_CALL = 0,
    /* saszvigom_replay. */
    SASZVIGOM_FROM_LIST = 1,
    /* saszvigom_read. */
    SASZVIGOM_FROM_SHEET = 2,
    /* saszvigom_read_dimacs. */
    SASZVIGOM_FROM_DIMACS = 3
};

/* Returns a cause as text, without its place. The text is "a fault of a list, a
   sheet or a text" for 12 to 17 if a call of this kind never returns them, and
   "an unknown cause" above 17. */
static inline const char *saszvigom_cause_text(enum saszvigom_cause cause,
                                               enum saszvigom_from from)
{
    switch (cause) {
    case SASZVIGOM_NO_CAUSE:
        return "the call was carried out";
    case SASZVIGOM_SIZE_TOO_LARGE:
        return "there are more than 96 vertices";
    case SASZVIGOM_BUFFER_TOO_SHORT:
        return "a buffer is too short";
    case SASZVIGOM_ADJACENCY_FAULT:
        return "an adjacency byte is not 0 or 1, is not 0 on the diagonal, or differs from its "
               "mirror image";
    case SASZVIGOM_WEIGHT_OUT_OF_RANGE:
        return "a weight is 0 or above 65520";
    case SASZVIGOM_SESSION_MALFORMED:
        return "the sequence is not that of the pairs made, each of two adjacent vertices";
    case SASZVIGOM_INVERSE_WRONG:
        return "the inverse is not that of the unmatched vertices: the graph was not opened, is "
               "singular, or was changed";
    case SASZVIGOM_VERTEX_INVALID:
        return "there is no such vertex, or both vertices are the same";
    case SASZVIGOM_VERTEX_MATCHED:
        return "a vertex is matched already";
    case SASZVIGOM_NOT_ADJACENT:
        return "the two vertices are not adjacent";
    case SASZVIGOM_REST_SINGULAR:
        return "the vertices left unmatched would have no inverse with these weights";
    case SASZVIGOM_NOTHING_LEFT:
        return "no vertex is left to match, or no pair to undo";
    case SASZVIGOM_CALL_UNKNOWN: /* and SASZVIGOM_RECORD_NOT_DUE */
        if (from == SASZVIGOM_FROM_LIST)
            return "a call of the list is of no known kind";
        if (from == SASZVIGOM_FROM_SHEET)
            return "a byte of the sheet is no record that may stand there";
        break;
    case SASZVIGOM_LIST_CUT: /* and SASZVIGOM_SHEET_CUT */
        if (from == SASZVIGOM_FROM_LIST)
            return "the list ends within a call";
        if (from == SASZVIGOM_FROM_SHEET)
            return "the sheet ends within a record, or before its end record";
        break;
    case SASZVIGOM_RECORD_VERTEX_INVALID: /* and SASZVIGOM_LINE_VERTEX_INVALID */
        if (from == SASZVIGOM_FROM_SHEET)
            return "a record has a vertex that is not there, or the same vertex twice";
        if (from == SASZVIGOM_FROM_DIMACS)
            return "a line has a vertex that is 0 or above N, or the same vertex twice";
        break;
    case SASZVIGOM_EDGE_REPEATED:
        if (from == SASZVIGOM_FROM_SHEET)
            return "an earlier record has the same edge";
        break;
    case SASZVIGOM_LINE_INVALID:
        if (from == SASZVIGOM_FROM_DIMACS)
            return "a line is not just 'c ..', 'p edge N M' or 'e u v' and a line feed, or stands "
                   "where it may not, or there is no 'p'";
        break;
    case SASZVIGOM_LINE_COUNT_WRONG:
        if (from == SASZVIGOM_FROM_DIMACS)
            return "the lines 'e u v' are not as many as the line 'p edge N M' says";
        break;
    }
    return cause <= SASZVIGOM_LINE_COUNT_WRONG ? "a fault of a list, a sheet or a text"
                                               : "an unknown cause";
}

/* Returns the name of a buffer, or "unknown". */
static inline const char *saszvigom_buffer_text(enum saszvigom_buffer buffer)
{
    switch (buffer) {
    case SASZVIGOM_BUFFER_ADJACENCY:
        return "adjacency";
    case SASZVIGOM_BUFFER_WEIGHTS:
        return "weights";
    case SASZVIGOM_BUFFER_INVERSE:
        return "inverse";
    case SASZVIGOM_BUFFER_SEQUENCE:
        return "sequence";
    case SASZVIGOM_BUFFER_WITNESS:
        return "witness";
    case SASZVIGOM_BUFFER_WORK:
        return "work";
    case SASZVIGOM_BUFFER_ROW:
        return "row";
    case SASZVIGOM_BUFFER_ANSWERS:
        return "answers";
    }
    return "unknown";
}

/* Returns a kind as text, or "unknown". */
static inline const char *saszvigom_kind_text(enum saszvigom_kind kind)
{
    switch (kind) {
    case SASZVIGOM_REFUSED:
        return "refused";
    case SASZVIGOM_OPENED:
        return "opened";
    case SASZVIGOM_SINGULAR:
        return "singular";
    case SASZVIGOM_PAIR:
        return "pair";
    case SASZVIGOM_ROW:
        return "row";
    case SASZVIGOM_REPLAYED:
        return "replayed";
    case SASZVIGOM_SHEET:
        return "graph";
    case SASZVIGOM_DRAWS:
        return "draws";
    }
    return "unknown";
}

/* Returns how many weights n vertices have; 0 for n above 96. */
static inline size_t saszvigom_weight_count(uint64_t n)
{
    return n == 0 || n > SASZVIGOM_MAX_VERTICES ? 0 : (size_t)(n * (n - 1u) / 2u);
}

/* Finds the vertices i < j of n whose weight has this index: the reverse of
   saszvigom_weight_index. Returns false and leaves i and j as they were if n
   vertices have no such weight, or n is above 96. */
static inline bool saszvigom_weight_vertices(uint64_t n, uint64_t index, unsigned *i, unsigned *j)
{
    unsigned first = 0;
    uint64_t rest = index, of_first = n - 1u; /* the weights of first and a later vertex */
    if (index >= saszvigom_weight_count(n))
        return false;
    while (rest >= of_first) {
        rest -= of_first;
        of_first--;
        first++;
    }
    *i = first;
    *j = first + 1u + (unsigned)rest;
    return true;
}

/* Returns the fault that the byte at row i and column j of a table of n vertices
   has, or SASZVIGOM_NO_FAULT if the byte is in order or not there, or the table
   is null or has less than n * n bytes. Only for this header. */
static inline enum saszvigom_fault saszvigom_fault_in(const uint8_t *adjacency,
                                                      size_t adjacency_len, uint64_t n, unsigned i,
                                                      unsigned j)
{
    if (n > SASZVIGOM_MAX_VERTICES || i >= n || j >= n || adjacency == NULL ||
        adjacency_len < n * n)
        return SASZVIGOM_NO_FAULT;
    if (adjacency[i * n + j] > 1)
        return SASZVIGOM_FAULT_VALUE;
    if (i == j && adjacency[i * n + j] != 0)
        return SASZVIGOM_FAULT_DIAGONAL;
    return adjacency[i * n + j] != adjacency[j * n + i] ? SASZVIGOM_FAULT_MIRROR
                                                        : SASZVIGOM_NO_FAULT;
}

/* A text that is being written: size bytes of room, and the length so far,
   which may go past the room. Only for this header. */
struct saszvigom_line {
    char *text;
    size_t size, length;
};

static inline void saszvigom_line_char(struct saszvigom_line *line, char c)
{
    if (line->size > 0 && line->length < line->size - 1u)
        line->text[line->length] = c;
    line->length++;
}

static inline void saszvigom_line_text(struct saszvigom_line *line, const char *text)
{
    for (; *text != '\0'; text++)
        saszvigom_line_char(line, *text);
}

static inline void saszvigom_line_number(struct saszvigom_line *line, const char *before,
                                         uint64_t number)
{
    uint64_t power = 1;
    saszvigom_line_text(line, before);
    while (number / power >= 10u)
        power *= 10u;
    for (; power > 0; power /= 10u)
        saszvigom_line_char(line, (char)('0' + (int)(number / power % 10u)));
}

/* Writes a verdict, with what it says. Only for this header. */
static inline void saszvigom_line_verdict(struct saszvigom_line *line,
                                          enum saszvigom_verdict verdict)
{
    switch (verdict) {
    case SASZVIGOM_VERDICT_FULL:
        saszvigom_line_text(line, "; verdict F: there is a perfect matching");
        break;
    case SASZVIGOM_VERDICT_ODD:
        saszvigom_line_text(line, "; verdict O: n is odd, there is no perfect matching");
        break;
    case SASZVIGOM_VERDICT_UNDECIDED:
        saszvigom_line_text(line, "; verdict U: undecided under these weights, others may have an "
                                  "inverse");
        break;
    case SASZVIGOM_NO_VERDICT: /* then the kind is another one, and this is not called */
        break;
    }
}

/* Writes which adjacency byte is at fault and what is wrong with it, as the
   number says; with the bytes, if the table shows that fault there. Only for
   this header. */
static inline void saszvigom_line_fault(struct saszvigom_line *line, uint64_t number, uint64_t n,
                                        const uint8_t *adjacency, size_t adjacency_len)
{
    const unsigned i = saszvigom_fault_row(number, n), j = saszvigom_fault_column(number, n);
    const enum saszvigom_fault fault = saszvigom_fault_of(number, n, adjacency, adjacency_len);
    const bool shown = saszvigom_fault_in(adjacency, adjacency_len, n, i, j) == fault;
    saszvigom_line_number(line, "row ", i);
    saszvigom_line_number(line, ", column ", j);
    saszvigom_line_text(line, ": the adjacency byte");
    switch (fault) {
    case SASZVIGOM_FAULT_VALUE:
        if (shown)
            saszvigom_line_number(line, " is ", adjacency[i * n + j]);
        saszvigom_line_text(line, shown ? ", not 0 or 1" : " is not 0 or 1");
        return;
    case SASZVIGOM_FAULT_DIAGONAL:
        if (shown)
            saszvigom_line_number(line, " is ", adjacency[i * n + j]);
        saszvigom_line_text(line, shown ? ", but must be 0 on the diagonal"
                                        : " is not 0 on the diagonal");
        return;
    case SASZVIGOM_FAULT_MIRROR:
        if (shown)
            saszvigom_line_number(line, " is ", adjacency[i * n + j]);
        saszvigom_line_text(line, shown ? ", but that of" : " differs from that of");
        saszvigom_line_number(line, " row ", j);
        saszvigom_line_number(line, ", column ", i);
        if (shown)
            saszvigom_line_number(line, " is ", adjacency[j * n + i]);
        return;
    case SASZVIGOM_NO_FAULT: /* then nothing is at fault, and this is not called */
        break;
    }
    saszvigom_line_text(line, " has an unknown fault");
}

/* Writes which weight is out of range, that of vertices i and j, and its value
   if the weights show it. Only for this header. */
static inline void saszvigom_line_weight(struct saszvigom_line *line, uint64_t number, uint64_t n,
                                         const uint8_t *weights, size_t weights_len, unsigned i,
                                         unsigned j)
{
    unsigned weight = 1; /* in range: not shown */
    if (weights != NULL && weights_len >= 2u * saszvigom_weight_count(n))
        weight = saszvigom_word(weights, saszvigom_place_of(number));
    saszvigom_line_number(line, "the weight of ", i);
    saszvigom_line_number(line, " and ", j);
    if (weight == 0) {
        saszvigom_line_text(line, " is 0");
    } else if (weight >= SASZVIGOM_MODULUS) {
        saszvigom_line_number(line, " is ", weight);
        saszvigom_line_text(line, ", above 65520");
    } else {
        saszvigom_line_text(line, " is 0 or above 65520");
    }
}

/* Writes why the call was refused, without the cause's number and place. Only for
   this header. */
static inline void saszvigom_line_refusal(struct saszvigom_line *line, uint64_t number, uint64_t n,
                                          enum saszvigom_from from, const uint8_t *adjacency,
                                          size_t adjacency_len, const uint8_t *weights,
                                          size_t weights_len)
{
    const enum saszvigom_cause cause = saszvigom_cause_of(number);
    unsigned i = 0, j = 0;

    if (cause == SASZVIGOM_BUFFER_TOO_SHORT) {
        saszvigom_line_text(line, "the ");
        saszvigom_line_text(line, saszvigom_buffer_text(saszvigom_buffer_of(number)));
        saszvigom_line_text(line, " buffer is too short");
    } else if (saszvigom_fault_of(number, n, adjacency, adjacency_len) != SASZVIGOM_NO_FAULT) {
        saszvigom_line_fault(line, number, n, adjacency, adjacency_len);
    } else if (cause == SASZVIGOM_WEIGHT_OUT_OF_RANGE &&
               saszvigom_weight_vertices(n, saszvigom_place_of(number), &i, &j)) {
        saszvigom_line_weight(line, number, n, weights, weights_len, i, j);
    } else if (cause == SASZVIGOM_LINE_INVALID && from == SASZVIGOM_FROM_DIMACS) {
        saszvigom_line_text(line, saszvigom_line_of(number) == 0
                                      ? "there is no line 'p edge N M'"
                                      : "a line is not just 'c ..', 'p edge N M' or 'e u v' and a "
                                        "line feed, or stands where it may not");
    } else {
        saszvigom_line_text(line, saszvigom_cause_text(cause, from));
    }
}

/* Writes the place of a cause that has one, after the cause's number. A list or
   a text may go on past the largest place. Only for this header. */
static inline void saszvigom_line_place(struct saszvigom_line *line, uint64_t number,
                                        enum saszvigom_from from)
{
    const enum saszvigom_cause cause = saszvigom_cause_of(number);
    const uint64_t place = saszvigom_line_of(number);
    const bool in_text = from == SASZVIGOM_FROM_DIMACS && cause != SASZVIGOM_BUFFER_TOO_SHORT;

    if (cause != SASZVIGOM_BUFFER_TOO_SHORT && cause != SASZVIGOM_WEIGHT_OUT_OF_RANGE &&
        cause <= SASZVIGOM_NOTHING_LEFT && !(in_text && cause == SASZVIGOM_SIZE_TOO_LARGE))
        return;
    saszvigom_line_number(line, in_text && place != 0 ? " at line " : " at ", place);
    if ((from == SASZVIGOM_FROM_LIST && cause > SASZVIGOM_NOTHING_LEFT && place == 0xFFFFu) ||
        (in_text && place == 0x7FFFFFFFFFFFu))
        saszvigom_line_text(line, " or later");
}

/*
 * Both functions explain a number in one line. They do not know which session
 * call it was: an undo reads like a pick, and causes 7 and 11 name both cases.
 * saszvigom_explain has only the number; saszvigom_explain_with also looks at
 * the graph that the call was lent, and says what stands there. Examples:
 *
 *     refused: row 0, column 1: the adjacency byte is not 0 or 1 (cause 3)
 *     refused: row 0, column 1: the adjacency byte is 7, not 0 or 1 (cause 3)
 *     refused: the weight of 3 and 7 is 0 or above 65520 (cause 4 at 21)
 *     refused: the weight of 3 and 7 is 0 (cause 4 at 21)
 *
 *   text    written; the line, without a line feed, cut to size - 1 characters,
 *           and a 0 after it. Null only with size 0: then nothing is written
 *   size    the bytes of text
 *   number  what a call returned
 *   n       the vertices that the call was for; any number for saszvigom_read and
 *           saszvigom_read_dimacs
 *   from    which call it was
 *   adjacency, weights
 *           read; the graph of the call, each with its length. A buffer that is
 *           null or too short for n vertices is not looked at, and one that does
 *           not show what the number says, as after a change, makes no difference
 *
 * Return the length of the whole line, as snprintf does: it was cut if that is
 * size or more. SASZVIGOM_LINE_BYTES is room for every line.
 */
#define SASZVIGOM_LINE_BYTES 160u

static inline size_t saszvigom_explain_with(char *text, size_t size, uint64_t number, uint64_t n,
                                            enum saszvigom_from from, const uint8_t *adjacency,
                                            size_t adjacency_len, const uint8_t *weights,
                                            size_t weights_len)
{
    const enum saszvigom_cause cause = saszvigom_cause_of(number);
    const enum saszvigom_kind kind = saszvigom_kind_of(number);
    struct saszvigom_line line;
    line.text = text;
    line.size = size;
    line.length = 0;

    if (cause != SASZVIGOM_NO_CAUSE && kind == SASZVIGOM_REFUSED) {
        saszvigom_line_text(&line, "refused: ");
        saszvigom_line_refusal(&line, number, n, from, adjacency, adjacency_len, weights,
                               weights_len);
        saszvigom_line_number(&line, " (cause ", cause);
        saszvigom_line_place(&line, number, from);
        saszvigom_line_char(&line, ')');
    } else if (cause != SASZVIGOM_NO_CAUSE) {
        saszvigom_line_text(&line, "no answer: both a cause and a kind");
    } else if (kind > SASZVIGOM_DRAWS) {
        saszvigom_line_number(&line, "no answer: unknown kind ", kind);
    } else {
        switch (kind) {
        case SASZVIGOM_OPENED:
            saszvigom_line_text(&line, "opened: there is an inverse");
            saszvigom_line_verdict(&line, saszvigom_verdict_of(number, n));
            break;
        case SASZVIGOM_SINGULAR:
            saszvigom_line_number(&line, "singular: there is no inverse, first dependent column ",
                                  saszvigom_column_of(number));
            saszvigom_line_verdict(&line, saszvigom_verdict_of(number, n));
            break;
        case SASZVIGOM_PAIR:
            saszvigom_line_number(&line, "pair: ", saszvigom_smaller_of(number));
            saszvigom_line_number(&line, " and ", saszvigom_larger_of(number));
            saszvigom_line_number(&line, ", pairs made ", saszvigom_made_of(number));
            break;
        case SASZVIGOM_ROW:
            saszvigom_line_number(&line, "row: written, pairs made ", saszvigom_made_of(number));
            break;
        case SASZVIGOM_REPLAYED:
            saszvigom_line_number(&line, "replayed: all calls made, pairs made ",
                                  saszvigom_made_of(number));
            break;
        case SASZVIGOM_SHEET:
            saszvigom_line_number(&line, "graph: vertices ", saszvigom_size_of(number));
            saszvigom_line_number(&line, ", edges ", saszvigom_edges_of(number));
            break;
        case SASZVIGOM_DRAWS:
            saszvigom_line_number(&line, "draws: weights drawn ", saszvigom_drawn_of(number));
            break;
        case SASZVIGOM_REFUSED:
            saszvigom_line_text(&line, "no answer: neither a cause nor a kind");
            break;
        }
    }
    if (size > 0)
        text[line.length < size ? line.length : size - 1u] = '\0';
    return line.length;
}

static inline size_t saszvigom_explain(char *text, size_t size, uint64_t number, uint64_t n,
                                       enum saszvigom_from from)
{
    return saszvigom_explain_with(text, size, number, n, from, NULL, 0, NULL, 0);
}

#ifdef __cplusplus
}
#endif

#endif
