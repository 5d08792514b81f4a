/*
 * saszvigom: the Tutte matrix of a graph modulo 65521, its inverse, and sessions
 * that match the vertices pair by pair.
 *
 * A graph has n vertices, numbered 0 to n - 1, with n at most 96, and a weight
 * from 1 to 65520 for every two vertices, adjacent or not. Its Tutte matrix A
 * is n times n, modulo 65521, with rows and columns numbered from 0. If i < j
 * are adjacent with weight d, then
 *
 *     A(i,j) = d  and  A(j,i) = 65521 - d,
 *
 * and every other entry is 0. If A has an inverse, as it always has for n = 0,
 * the vertices can be matched in pairs of adjacent vertices, with none left
 * over: a perfect matching. If it has none, A is singular, and there is a
 * vector w other than 0 with A w = 0, the witness. For odd n, A is always
 * singular, and there is no perfect matching. For even n a witness decides
 * nothing: there may still be a perfect matching, since the weights may cancel.
 * saszvigom_verdict_of returns which of the three it is, by the letter that the
 * listing program prints: F if there is an inverse, O if A is singular and n is
 * odd, U, undecided under these weights, if A is singular and n is even.
 *
 * A weight is the value of a variable of that matrix. It is not a preference:
 * the library does not look for a matching of largest or smallest weight. Draw
 * weights uniformly and independently, and do not make them up: equal or
 * hand-picked weights mislead. Four vertices with the edges 01, 02, 13, 23 and
 * all weights 1 are singular, though 0 with 1 and 2 with 3 is a perfect
 * matching. saszvigom_draws gives the weights of a seed; if a graph opens as
 * singular, those of another seed may open it.
 *
 * The inverse shows what can be matched: a pick of two adjacent vertices, both
 * still unmatched, is accepted if their entry of the inverse is not 0, and
 * refused with SASZVIGOM_REST_SINGULAR if it is 0. saszvigom_row looks this up
 * for all partners of a vertex. An accepted pick is certain: the vertices left
 * unmatched have a perfect matching. A refusal with SASZVIGOM_REST_SINGULAR is
 * about these weights, as a singular graph is: they may still have one.
 *
 * saszvigom_read reads a graph from the bytes of a sheet, saszvigom_read_dimacs
 * reads one from a text in the DIMACS edge format, and saszvigom_draws draws
 * weights. saszvigom_open finds the inverse or a witness. With an inverse it
 * begins a session, in which vertices are matched: saszvigom_pick matches two
 * vertices, saszvigom_automatic matches the lowest unmatched vertex,
 * saszvigom_undo removes the last pair, saszvigom_row finds the vertices that
 * may be matched with a vertex, and saszvigom_replay makes a whole list of
 * calls. A pick is accepted only if the vertices that it leaves unmatched have
 * an inverse too, so a session never reaches a dead end: automatic picks match
 * every vertex.
 *
 * To begin, use saszvigom_graph.h: a struct with all buffers, and every call
 * over it. saszvigom_text.h puts an answer into words. The guide is HOST.md in
 * share/doc/saszvigom.
 *
 * For C99 or C++11 and later. Link with libsaszvigom.a, which is for 64-bit x86 and
 * the System V ABI. It keeps no state, allocates nothing, and calls only memcpy,
 * memmove and memset. Threads may call it at once if none writes to a buffer
 * that another one uses. A call takes less than 128 KiB of stack.
 */
#ifndef SASZVIGOM_H
#define SASZVIGOM_H

#include <stdbool.h>
#include <stddef.h>
#include <stdint.h>

#ifdef __cplusplus
extern "C" {
#endif

/* The version of this header. You may have to change a correct program when the
   minor number changes, as CHANGES.md says, but not when the patch number
   does. */
#define SASZVIGOM_VERSION_MAJOR 0
#define SASZVIGOM_VERSION_MINOR 8
#define SASZVIGOM_VERSION_PATCH 0
#define SASZVIGOM_VERSION "0.8.0"

/* The version as a number, also for #if: the patch number in bits 0 to 7, the
   minor one in 8 to 15 and the major one in 16 to 23. */
#define SASZVIGOM_VERSION_NUMBER \
    (SASZVIGOM_VERSION_MAJOR * 65536u + SASZVIGOM_VERSION_MINOR * 256u + SASZVIGOM_VERSION_PATCH)

/* Returns the version of the linked library as such a number. It is
   SASZVIGOM_VERSION_NUMBER unless header and library do not belong together. */
uint64_t saszvigom_version(void);

/* The type of the enums. A number may have a value that no enumerator has, such as
   a cause of a later version, and in C++ that needs a fixed type. */
#ifdef __cplusplus
#define SASZVIGOM_ENUM_TYPE : unsigned
#else
#define SASZVIGOM_ENUM_TYPE
#endif

/* No buffer may be null: compilers warn if one certainly is, and
   -fsanitize=undefined reports a call with one. */
#if defined(__GNUC__)
#define SASZVIGOM_NOT_NULL __attribute__((nonnull))
#else
#define SASZVIGOM_NOT_NULL
#endif

/* The largest number of vertices. */
#define SASZVIGOM_MAX_VERTICES 96u

/* Every word that is written is a number modulo this prime, 0 to 65520. A word
   is two bytes, the low one first. */
#define SASZVIGOM_MODULUS 65521u

/* A byte of the sequence of matched pairs that holds no vertex. */
#define SASZVIGOM_UNUSED 255u

/* The bytes that a buffer needs for n vertices, n at most 96. A buffer may be
   longer. The argument may be evaluated twice. */
#define SASZVIGOM_ADJACENCY_BYTES(n) ((size_t)(n) * (size_t)(n))
#define SASZVIGOM_WEIGHTS_BYTES(n) ((size_t)(n) * ((size_t)(n) - 1u))
#define SASZVIGOM_INVERSE_BYTES(n) (2u * (size_t)(n) * (size_t)(n))
#define SASZVIGOM_SEQUENCE_BYTES(n) ((size_t)(n))
#define SASZVIGOM_WITNESS_BYTES(n) (2u * (size_t)(n))
#define SASZVIGOM_WORK_BYTES(n) (2u * (size_t)(n) * (size_t)(n))
#define SASZVIGOM_ROW_BYTES(n) ((size_t)(n))

/* The most bytes of a sheet that saszvigom_read looks at, and the bytes of the
   largest sheet that is in order: 96 vertices, all adjacent. */
#define SASZVIGOM_SHEET_BYTES_MAX 16384u
#define SASZVIGOM_GOOD_SHEET_BYTES_MAX 13688u

/* The numbers of a call in the list of saszvigom_replay. */
#define SASZVIGOM_NUMBERS_A_CALL 3u

/* Why a call was refused: bits 0 to 7 of the number returned. No number is 0,
   so test saszvigom_cause_of(number) and never the number. The place, in bits
   16 to 62, says where: for SASZVIGOM_ADJACENCY_FAULT it is a cell, and else a
   number, of which only the line of a text can be above 65535.

   12 to 17 are faults of a list, a sheet or a text, and only saszvigom_replay,
   saszvigom_read and saszvigom_read_dimacs return them. 12 and 13 have two
   names each, one for a list and one for a sheet, and so has 14, one for a
   sheet and one for a text. Use one of the two in a switch. */
enum saszvigom_cause SASZVIGOM_ENUM_TYPE {
    /* The call was carried out. */
    SASZVIGOM_NO_CAUSE = 0,
    /* n is above 96. The place is 0, which is also the offset of a sheet's size
       record; of a text it is the line. */
    SASZVIGOM_SIZE_TOO_LARGE = 1,
    /* A buffer is too short. The place is the number of the first such buffer,
       one of enum saszvigom_buffer. */
    SASZVIGOM_BUFFER_TOO_SHORT = 2,
    /* The adjacency byte of row i and column j is not 0 or 1, or is not 0 though
       i = j, or differs from that of row j and column i. The place is the cell of
       the first such byte, row by row: its row i, its column j, and the first of
       the three faults that it has, 1, 2 or 3 in this order, one of enum
       saszvigom_fault. saszvigom_fault_row, saszvigom_fault_column and
       saszvigom_fault_of return them. If two bytes differ, both are at fault, so
       j is never smaller than i. */
    SASZVIGOM_ADJACENCY_FAULT = 3,
    /* A weight is 0 or above 65520, of adjacent vertices or of others. The place
       is the index of the first such weight: 0 for the first word, 1 for the
       second. */
    SASZVIGOM_WEIGHT_OUT_OF_RANGE = 4,
    /* There are more than n / 2 pairs made, or the sequence does not hold the
       pairs made and then SASZVIGOM_UNUSED: a pair has its larger vertex first,
       a vertex is n or more or is there twice, or two are not adjacent. The
       place is 0, as it is for causes 6 to 11. */
    SASZVIGOM_SESSION_MALFORMED = 5,
    /* A word of the inverse is not the one that belongs there, or the unmatched
       vertices have no inverse: the graph is singular, was changed, or was not
       opened. In buffers that no opening has written, lower causes may come
       first, such as 5 if the sequence is not all SASZVIGOM_UNUSED. */
    SASZVIGOM_INVERSE_WRONG = 6,
    /* A vertex is n or more, or both vertices of a pick are the same. */
    SASZVIGOM_VERTEX_INVALID = 7,
    /* A vertex is already matched. */
    SASZVIGOM_VERTEX_MATCHED = 8,
    /* The two vertices are not adjacent. */
    SASZVIGOM_NOT_ADJACENT = 9,
    /* The vertices that would be unmatched after the call have no inverse with
       these weights. With others they may have one. */
    SASZVIGOM_REST_SINGULAR = 10,
    /* An automatic pick with no vertex unmatched, or an undo without a pair. */
    SASZVIGOM_NOTHING_LEFT = 11,
    /* A whole call of a list has a kind other than those of enum saszvigom_call.
       The place is the index of the first such call, 0 for the first call of the
       list; 65535 if it is larger. */
    SASZVIGOM_CALL_UNKNOWN = 12,
    /* A byte of a sheet is not the kind of a record that may stand there, or it
       stands after the end record. The place is its offset, 0 for the first
       byte of the sheet. */
    SASZVIGOM_RECORD_NOT_DUE = 12,
    /* A list ends within a call: its length is not a multiple of 3. The place
       is the number of its whole calls; 65535 if it is larger. */
    SASZVIGOM_LIST_CUT = 13,
    /* A sheet ends within a record, or before its end record. The place is its
       length. */
    SASZVIGOM_SHEET_CUT = 13,
    /* A record of an edge has a vertex of n or more, or the same vertex twice.
       The place is the offset of the record. */
    SASZVIGOM_RECORD_VERTEX_INVALID = 14,
    /* A line 'e u v' of a text has a vertex that is 0 or above N, or the same
       vertex twice. The place is the line, counted from 1. */
    SASZVIGOM_LINE_VERTEX_INVALID = 14,
    /* A record names the same two vertices as an earlier one, in either order.
       The place is the offset of the later record. A text may repeat an
       edge. */
    SASZVIGOM_EDGE_REPEATED = 15,
    /* A line of a text is not 'c ..', 'p edge N M' or 'e u v' with a line feed
       after it, or it is a second 'p', or an 'e' before the 'p'. The place is
       the line, counted from 1. It is 0 if no line is at fault but there is no
       'p' at all. */
    SASZVIGOM_LINE_INVALID = 16,
    /* The lines 'e u v' of a text are fewer or more than the M of its line
       'p edge N M'. The place is 0. */
    SASZVIGOM_LINE_COUNT_WRONG = 17
};

/* The buffers, as the place of SASZVIGOM_BUFFER_TOO_SHORT names them. */
enum saszvigom_buffer SASZVIGOM_ENUM_TYPE {
    SASZVIGOM_BUFFER_ADJACENCY = 1,
    SASZVIGOM_BUFFER_WEIGHTS = 2,
    SASZVIGOM_BUFFER_INVERSE = 3,
    SASZVIGOM_BUFFER_SEQUENCE = 4,
    SASZVIGOM_BUFFER_WITNESS = 5,
    SASZVIGOM_BUFFER_WORK = 6,
    SASZVIGOM_BUFFER_ROW = 7,
    /* 8 and 9 name no buffer yet. */
    SASZVIGOM_BUFFER_ANSWERS = 10
};

/* What is wrong with the adjacency byte of SASZVIGOM_ADJACENCY_FAULT: bits 32 to
   39 of the number returned. It is the first of the three that applies to that
   byte. */
enum saszvigom_fault SASZVIGOM_ENUM_TYPE {
    /* Nothing: the cause is another one, or there is none, or the number is of a
       version before 0.7.0. */
    SASZVIGOM_NO_FAULT = 0,
    /* It is not 0 or 1. */
    SASZVIGOM_FAULT_VALUE = 1,
    /* It is not 0 though its row is its column. */
    SASZVIGOM_FAULT_DIAGONAL = 2,
    /* It differs from the byte with row and column exchanged. */
    SASZVIGOM_FAULT_MIRROR = 3
};

/* What a call found: bits 8 to 15 of the number returned. */
enum saszvigom_kind SASZVIGOM_ENUM_TYPE {
    /* Nothing: the call was refused. */
    SASZVIGOM_REFUSED = 0,
    /* A has an inverse. */
    SASZVIGOM_OPENED = 1,
    /* A has none. */
    SASZVIGOM_SINGULAR = 2,
    /* A pair, which was appended or removed. */
    SASZVIGOM_PAIR = 3,
    /* A row, which was written. */
    SASZVIGOM_ROW = 4,
    /* The calls of a list were made. */
    SASZVIGOM_REPLAYED = 5,
    /* A graph, which was read from a sheet or from a text. */
    SASZVIGOM_SHEET = 6,
    /* Weights, which were drawn. */
    SASZVIGOM_DRAWS = 7
};

/* What an opening says about a perfect matching: the letter that the listing
   program prints after "verdict". saszvigom_verdict_of returns it. */
enum saszvigom_verdict SASZVIGOM_ENUM_TYPE {
    /* Nothing: the call was refused, or was not an opening. */
    SASZVIGOM_NO_VERDICT = 0,
    /* Full: there is a perfect matching, and automatic picks find one. There may
       be others. */
    SASZVIGOM_VERDICT_FULL = 'F',
    /* Odd: there is no perfect matching, whatever the weights, since n is odd.
       This does not say that no two vertices can be matched, or which vertex has
       to be left over. */
    SASZVIGOM_VERDICT_ODD = 'O',
    /* Undecided under these weights: there may be a perfect matching, or none.
       Never take it for "there is none". Every singular graph with an even n has
       this verdict, even one without edges. Under other weights the verdict may
       be full, and then it is decided. */
    SASZVIGOM_VERDICT_UNDECIDED = 'U'
};

/* The kinds of records in a sheet: the first byte of each. */
enum saszvigom_record SASZVIGOM_ENUM_TYPE {
    /* The number of vertices: 1 byte. */
    SASZVIGOM_RECORD_SIZE = 1,
    /* An edge: the bytes of two vertices, in either order. */
    SASZVIGOM_RECORD_EDGE = 2,
    /* The seed of the weights: 4 bytes, the low one first. */
    SASZVIGOM_RECORD_SEED = 3,
    /* The end: no bytes. */
    SASZVIGOM_RECORD_END = 4
};

/* The kinds of calls in the list of saszvigom_replay. */
enum saszvigom_call SASZVIGOM_ENUM_TYPE {
    SASZVIGOM_CALL_PICK = 1,
    SASZVIGOM_CALL_AUTOMATIC = 2,
    SASZVIGOM_CALL_UNDO = 3
};

/*
 * Opens a graph: finds the inverse of its Tutte matrix A, or a witness. There is
 * nothing to close.
 *
 *   n          the number of vertices, 0 to 96
 *   adjacency  read; n * n bytes, row by row: 1 if two vertices are adjacent,
 *              else 0
 *   weights    read; n * (n - 1) / 2 words, for the vertices (0,1), (0,2) ..
 *              (0,n-1), (1,2) and so on, each from 1 to 65520
 *   inverse    written; n * n words, row by row
 *   sequence   written; n bytes, all SASZVIGOM_UNUSED: room for the vertices of
 *              matched pairs, of which there are none yet
 *   witness    written; n words
 *   work       written; n * n words, all 0: room to work in, left clear
 *
 * Each buffer is followed by its length in bytes, all of which must be
 * readable, and writable if the buffer is written. A buffer of words holds half
 * as many words as bytes, rounded down. Buffers need no alignment, and those
 * written may hold anything before the call. No two of the six may overlap, and
 * none may be null, not even with length 0, as data() of an empty std::vector
 * may be: such a call is not refused, and what it does is undefined.
 *
 * The number returned, and what is written:
 *
 *   A has an inverse: kind SASZVIGOM_OPENED. inverse holds it, and the words of
 *       witness and work are 0. This is a session with no pairs made.
 *   A has none: kind SASZVIGOM_SINGULAR, with a column f, the first one from the
 *       left that is a combination of the columns before it; column 0 is one if
 *       it is all 0. witness holds the one vector w with A w = 0, w(f) = 1 and
 *       zeros after f. The words of inverse and work are 0.
 *   The call is refused: a cause from 1 to 4 and a place. Nothing is written.
 *       If several causes apply, the lowest is returned.
 *
 * What stands past the bytes needed for n vertices, an odd last byte included,
 * makes no difference and is not written.
 *
 * The number, by its bits; all others are 0:
 *
 *                 0 to 7   8 to 15   16 to 23   24 to 31   32 to 39
 *     opened      0        1         0          0          0
 *     singular    0        2         f          0          0
 *     refused     3        0         row        column     fault
 *     refused     cause    0         place, 16 to 31       0
 */
SASZVIGOM_NOT_NULL
uint64_t saszvigom_open(uint64_t n,
                        const uint8_t *adjacency, size_t adjacency_len,
                        const uint8_t *weights, size_t weights_len,
                        uint8_t *inverse, size_t inverse_len,
                        uint8_t *sequence, size_t sequence_len,
                        uint8_t *witness, size_t witness_len,
                        uint8_t *work, size_t work_len);

/*
 * Reads a graph from the bytes of a sheet. The weights are the draws of the
 * sheet's seed.
 *
 *   sheet      read; records one after another, each a byte of enum
 *              saszvigom_record and its body: the size, the seed, any number of
 *              edges, the end, and nothing after it
 *   adjacency  written; n * n bytes, as for saszvigom_open
 *   weights    written; n * (n - 1) / 2 words, as for saszvigom_open
 *
 * The size n is that of the sheet. Buffers for any sheet have
 * SASZVIGOM_ADJACENCY_BYTES(96) and SASZVIGOM_WEIGHTS_BYTES(96) bytes. The call
 * looks only at the first SASZVIGOM_SHEET_BYTES_MAX bytes of the sheet, which
 * makes no difference: a sheet of more than SASZVIGOM_GOOD_SHEET_BYTES_MAX
 * bytes has a fault before that. Lengths, alignment, overlap, null and the
 * bytes past those needed are as for saszvigom_open, for all three buffers.
 *
 * The number returned, and what is written:
 *
 *   The sheet is in order and the buffers are long enough: kind
 *       SASZVIGOM_SHEET, with the number of edges and n. Every byte of the
 *       table is 0 or 1, and every weight is from 1 to 65520: opening does not
 *       refuse this graph.
 *   Else the call is refused, and nothing is written. The records are taken in
 *       order, and the first one that is at fault counts, with the first of
 *       these that applies: SASZVIGOM_RECORD_NOT_DUE, SASZVIGOM_SHEET_CUT,
 *       SASZVIGOM_SIZE_TOO_LARGE or SASZVIGOM_RECORD_VERTEX_INVALID,
 *       SASZVIGOM_EDGE_REPEATED. Only for a sheet that is in order:
 *       SASZVIGOM_BUFFER_TOO_SHORT, at SASZVIGOM_BUFFER_ADJACENCY or else at
 *       SASZVIGOM_BUFFER_WEIGHTS.
 *
 * The number, by its bits; all others are 0:
 *
 *                 0 to 7   8 to 15   16 to 31   32 to 39
 *     graph       0        6         edges      n
 *     refused     cause    0         place      0
 */
SASZVIGOM_NOT_NULL
uint64_t saszvigom_read(const uint8_t *sheet, size_t sheet_len,
                        uint8_t *adjacency, size_t adjacency_len,
                        uint8_t *weights, size_t weights_len);

/*
 * Reads a graph from a text in the DIMACS edge format. The weights are the
 * draws of a seed, which is given beside the text.
 *
 *   text       read; lines, each ended by a line feed (byte 10), the last one
 *              too
 *   seed       any number
 *   adjacency  written; n * n bytes, as for saszvigom_open
 *   weights    written; n * (n - 1) / 2 words, those of saszvigom_draws
 *
 * Each line is one of these:
 *
 *     c ..          a comment: whatever begins with c
 *     p edge N M    exactly one: N is n, and M the number of lines e
 *     e u v         an edge, after the line p: two different vertices from 1 to
 *                   N
 *
 * Comments may stand anywhere. The other two have exactly this form: N, M, u
 * and v are one decimal digit or more each, with zeros in front or not, and
 * single spaces part the fields. A space at the end, a tab, a carriage return,
 * a sign and an empty line are faults, and so are bytes after the last line
 * feed. A number may have any number of digits and is taken at its full value.
 * The same edge may be there several times, in either order: it is one edge,
 * and each of its lines counts towards M.
 *
 * A text counts vertices from 1, the library from 0: vertex u of the text is
 * vertex u - 1. The text may have any length, all its bytes count, and the time
 * is linear in it; the 0 that ends a C string is not part of it. Buffers for
 * any text have SASZVIGOM_ADJACENCY_BYTES(96) and SASZVIGOM_WEIGHTS_BYTES(96)
 * bytes. Lengths, alignment, overlap and null are as for saszvigom_open, for all
 * three buffers, and so are the bytes past those needed of the two that are
 * written.
 *
 * The number returned, and what is written:
 *
 *   The text is in order and the buffers are long enough: kind
 *       SASZVIGOM_SHEET, with the number of different edges and n, as from
 *       saszvigom_read. Opening does not refuse this graph.
 *   Else the call is refused, and nothing is written. The lines are taken in
 *       order, and the first one that is at fault counts:
 *       SASZVIGOM_LINE_INVALID, SASZVIGOM_SIZE_TOO_LARGE if N is above 96, or
 *       SASZVIGOM_LINE_VERTEX_INVALID, each with the line as its place. Only
 *       if no line is at fault: SASZVIGOM_LINE_INVALID at 0 if there is no line
 *       p, then SASZVIGOM_LINE_COUNT_WRONG at 0, then
 *       SASZVIGOM_BUFFER_TOO_SHORT, at SASZVIGOM_BUFFER_ADJACENCY or else at
 *       SASZVIGOM_BUFFER_WEIGHTS.
 *
 * The number, by its bits; all others are 0:
 *
 *                 0 to 7   8 to 15   16 to 31   32 to 39
 *     graph       0        6         edges      n
 *     refused     cause    0         place, 16 to 62
 *
 * Lines are counted from 1, comments included. A line of 140737488355327 or
 * later is given as this number, the largest of 47 bits: a text with so many
 * lines has more than 281 million megabytes.
 */
SASZVIGOM_NOT_NULL
uint64_t saszvigom_read_dimacs(const uint8_t *text, size_t text_len, uint32_t seed,
                               uint8_t *adjacency, size_t adjacency_len,
                               uint8_t *weights, size_t weights_len);

/*
 * Draws the weights of a graph of n vertices from a seed: those that
 * saszvigom_read gives a sheet with that size and seed, and
 * saszvigom_read_dimacs a text with that seed.
 *
 *   n          the number of vertices, 0 to 96
 *   seed       any number
 *   weights    written; n * (n - 1) / 2 words, each from 1 to 65520
 *
 * These are the draws of document 01, the paper that the library is built to.
 * For each weight in turn, s becomes 1664525 * s + 1013904223 modulo 2^32,
 * beginning with the seed, and the weight is 1 + s / 65536 % 65520. They are
 * not secret, and nothing is claimed about how uniform or independent they are.
 * A graph with an even number of vertices that opens as singular may still have
 * a perfect matching: draw again with a few other seeds. Lengths, alignment,
 * null and the bytes past those needed are as for saszvigom_open.
 *
 * Kind SASZVIGOM_DRAWS with the number of weights; else refused, with nothing
 * written: SASZVIGOM_SIZE_TOO_LARGE, or else SASZVIGOM_BUFFER_TOO_SHORT at
 * SASZVIGOM_BUFFER_WEIGHTS.
 *
 * The number, by its bits; all others are 0:
 *
 *                 0 to 7   8 to 15   16 to 31
 *     draws       0        7         weights
 *     refused     cause    0         place
 */
SASZVIGOM_NOT_NULL
uint64_t saszvigom_draws(uint64_t n, uint32_t seed, uint8_t *weights, size_t weights_len);

/*
 * A session is the size n, the number of pairs made, and four buffers:
 *
 *   adjacency  read; the graph, as for saszvigom_open
 *   weights    read; the graph, as for saszvigom_open
 *   inverse    n * n words, row by row: the inverse of A restricted to the
 *              unmatched vertices, and 0 in the rows and columns of the others
 *   sequence   n bytes: the vertices of the pairs in the order in which they
 *              were matched, of each pair the smaller first, and then
 *              SASZVIGOM_UNUSED
 *
 * A session is sound if all this holds, which every session call confirms
 * before it changes anything: no call trusts what it is lent. An opened graph
 * is sound with made = 0, and a call leaves a sound session sound. The library
 * keeps nothing, so you may copy or store a session and continue it in another
 * process; keep the pairs made of the number returned.
 *
 * Lengths, alignment, overlap, null and the bytes past those needed are as for
 * saszvigom_open, for all buffers of a call.
 *
 * The numbers of the session calls, by their bits; all others are 0:
 *
 *                        0 to 7   8 to 15   16 to 23   24 to 31   32 to 39
 *     pick, automatic    0        3         smaller    larger     made
 *     undo               0        3         smaller    larger     made
 *     row                0        4         0          0          made
 *     replay             0        5         0          0          made
 *     refused            3        0         row        column     fault
 *     refused            cause    0         place, 16 to 31       0
 *
 * Here made is the number of pairs after the call, which is the made of the
 * next call: read these 8 bits and no more, by saszvigom_made_of. A refused
 * call writes nothing, and its session is the one that was sent: send the same
 * made again, which is not in the number. If several causes apply, the lowest
 * is returned.
 */

/*
 * Matches vertices a and b, in either order.
 *
 *   n, made    the session's size and number of pairs made
 *   a, b       two vertices
 *   adjacency, weights
 *              read
 *   inverse    read, and written: that of the vertices then unmatched
 *   sequence   read, and written: the pair is appended
 *
 * Kind SASZVIGOM_PAIR with the pair, unless a cause from 1 to 10 applies. Two
 * adjacent unmatched vertices are refused with SASZVIGOM_REST_SINGULAR if the
 * vertices then unmatched have no inverse.
 */
SASZVIGOM_NOT_NULL
uint64_t saszvigom_pick(uint64_t n, uint64_t made, uint64_t a, uint64_t b,
                        const uint8_t *adjacency, size_t adjacency_len,
                        const uint8_t *weights, size_t weights_len,
                        uint8_t *inverse, size_t inverse_len,
                        uint8_t *sequence, size_t sequence_len);

/*
 * Matches the lowest unmatched vertex with the lowest vertex that
 * saszvigom_pick would accept with it; there always is one.
 *
 * The arguments are those of saszvigom_pick. Kind SASZVIGOM_PAIR with the pair,
 * unless a cause from 1 to 6 applies, or SASZVIGOM_NOTHING_LEFT: all vertices are
 * matched. Call it until then to match all of them.
 */
SASZVIGOM_NOT_NULL
uint64_t saszvigom_automatic(uint64_t n, uint64_t made,
                             const uint8_t *adjacency, size_t adjacency_len,
                             const uint8_t *weights, size_t weights_len,
                             uint8_t *inverse, size_t inverse_len,
                             uint8_t *sequence, size_t sequence_len);

/*
 * Removes the last pair: its two bytes of sequence become SASZVIGOM_UNUSED, and
 * inverse is again that of the vertices then unmatched. Undoing a pick leaves
 * every byte as it was before the pick.
 *
 * The arguments are those of saszvigom_pick. Kind SASZVIGOM_PAIR with the pair
 * removed, unless a cause from 1 to 6 applies, or SASZVIGOM_NOTHING_LEFT: there
 * is no pair. SASZVIGOM_REST_SINGULAR is possible only if the session was not
 * made by saszvigom_open and these calls, or if the graph was changed since.
 */
SASZVIGOM_NOT_NULL
uint64_t saszvigom_undo(uint64_t n, uint64_t made,
                        const uint8_t *adjacency, size_t adjacency_len,
                        const uint8_t *weights, size_t weights_len,
                        uint8_t *inverse, size_t inverse_len,
                        uint8_t *sequence, size_t sequence_len);

/*
 * Finds the vertices that saszvigom_pick would accept with vertex a.
 *
 *   n, made    the session's size and number of pairs made
 *   a          a vertex
 *   adjacency, weights, inverse, sequence
 *              read
 *   row        written; n bytes: byte b is 1 if a pick of a and b would be
 *              accepted, else 0
 *
 * Kind SASZVIGOM_ROW, unless a cause from 1 to 6 applies, or
 * SASZVIGOM_VERTEX_INVALID or SASZVIGOM_VERTEX_MATCHED for a itself. The pairs
 * made are those that were sent.
 */
SASZVIGOM_NOT_NULL
uint64_t saszvigom_row(uint64_t n, uint64_t made, uint64_t a,
                       const uint8_t *adjacency, size_t adjacency_len,
                       const uint8_t *weights, size_t weights_len,
                       const uint8_t *inverse, size_t inverse_len,
                       const uint8_t *sequence, size_t sequence_len,
                       uint8_t *row, size_t row_len);

/*
 * Makes a list of calls, each on the session that the one before it left, as
 * saszvigom_pick, saszvigom_automatic and saszvigom_undo would one by one; but
 * it confirms the session only once, so that a long list takes far less time.
 *
 *   n, made    the session's size and number of pairs made
 *   adjacency, weights
 *              read
 *   inverse, sequence
 *              read, and written as by the calls; not written if no call of the
 *              list is accepted
 *   calls      read; three numbers a call: its kind, one of enum
 *              saszvigom_call, and two vertices, which only SASZVIGOM_CALL_PICK
 *              uses
 *   answers    written; a number a call: the one that the call returns. What
 *              stands past these numbers is not written
 *
 * calls and answers are arrays of uint64_t, aligned as such, and their lengths
 * count numbers, not bytes. No other buffer needs alignment.
 *
 * Kind SASZVIGOM_REPLAYED, with the pairs made at the end, unless one of these
 * causes applies, of which the lowest is returned:
 *
 *   1 to 6     as for saszvigom_pick: the session sent is not sound. The last
 *              buffer that SASZVIGOM_BUFFER_TOO_SHORT can name is
 *              SASZVIGOM_BUFFER_ANSWERS, if answers has less room than there
 *              are whole calls
 *   SASZVIGOM_CALL_UNKNOWN
 *              a whole call of the list is of an unknown kind
 *   SASZVIGOM_LIST_CUT
 *              the list ends within a call
 *
 * Then no call is made and nothing is written, answers included. Otherwise
 * every call is made and answered, even after one that is refused. An empty
 * list only tells whether a session is sound. It writes nothing, and a list
 * whose calls are all refused writes only its answers: the session may be in
 * read-only memory.
 */
SASZVIGOM_NOT_NULL
uint64_t saszvigom_replay(uint64_t n, uint64_t made,
                          const uint8_t *adjacency, size_t adjacency_len,
                          const uint8_t *weights, size_t weights_len,
                          uint8_t *inverse, size_t inverse_len,
                          uint8_t *sequence, size_t sequence_len,
                          const uint64_t *calls, size_t calls_len,
                          uint64_t *answers, size_t answers_len);

/* Returns why the call was refused, and SASZVIGOM_NO_CAUSE exactly if it was
   carried out. A cause that no enumerator has, which a later version may
   return, is a refusal. */
static inline enum saszvigom_cause saszvigom_cause_of(uint64_t number)
{
    return (enum saszvigom_cause)(number & 0xFFu);
}

/* Returns what the call found. */
static inline enum saszvigom_kind saszvigom_kind_of(uint64_t number)
{
    return (enum saszvigom_kind)(number >> 8 & 0xFFu);
}

/* Returns the place of the cause in full. It is the line of a text for the
   causes 14 and 16, and for SASZVIGOM_SIZE_TOO_LARGE of a text, unless it is 0:
   then no line is at fault. For SASZVIGOM_ADJACENCY_FAULT it is no index, but the
   three parts of a cell. It means nothing if the call was not refused. */
static inline uint64_t saszvigom_line_of(uint64_t number)
{
    return number >> 16 & 0x7FFFFFFFFFFFu;
}

/* Returns the place of the cause, or 4294967295 if it is that or larger, as only
   the line of a text can be: saszvigom_line_of returns that in full. For
   SASZVIGOM_ADJACENCY_FAULT it is row + 256 * column + 65536 * fault, and not an
   index: use saszvigom_fault_row, saszvigom_fault_column and saszvigom_fault_of.
   It means nothing if the call was not refused. */
static inline unsigned saszvigom_place_of(uint64_t number)
{
    const uint64_t place = saszvigom_line_of(number);
    return place < 0xFFFFFFFFu ? (unsigned)place : 0xFFFFFFFFu;
}

/* Returns the first buffer that is too short: the place as an enum. It means
   nothing for a cause other than SASZVIGOM_BUFFER_TOO_SHORT. */
static inline enum saszvigom_buffer saszvigom_buffer_of(uint64_t number)
{
    return (enum saszvigom_buffer)(number >> 16 & 0xFFFFu);
}

/* Return the row, the column and the fault of the adjacency byte at fault. Row
   and column count from 0, and mean nothing for a cause other than
   SASZVIGOM_ADJACENCY_FAULT; saszvigom_fault_of returns SASZVIGOM_NO_FAULT for
   another cause. They answer from the number alone: n and the table, which may
   be null, make no difference. */
static inline unsigned saszvigom_fault_row(uint64_t number, uint64_t n)
{
    (void)n;
    return (unsigned)(number >> 16 & 0xFFu);
}

static inline unsigned saszvigom_fault_column(uint64_t number, uint64_t n)
{
    (void)n;
    return (unsigned)(number >> 24 & 0xFFu);
}

static inline enum saszvigom_fault saszvigom_fault_of(uint64_t number, uint64_t n,
                                                      const uint8_t *adjacency,
                                                      size_t adjacency_len)
{
    (void)n;
    (void)adjacency;
    (void)adjacency_len;
    if (saszvigom_cause_of(number) != SASZVIGOM_ADJACENCY_FAULT)
        return SASZVIGOM_NO_FAULT;
    return (enum saszvigom_fault)(number >> 32 & 0xFFu);
}

/* Returns the first dependent column f. It means nothing for a kind other than
   SASZVIGOM_SINGULAR: the column of a cell is that of saszvigom_fault_column. */
static inline unsigned saszvigom_column_of(uint64_t number)
{
    return (unsigned)(number >> 16 & 0xFFu);
}

/* Returns the verdict of the number that saszvigom_open returned for n vertices:
   SASZVIGOM_VERDICT_FULL for the kind SASZVIGOM_OPENED; SASZVIGOM_VERDICT_ODD or
   SASZVIGOM_VERDICT_UNDECIDED for SASZVIGOM_SINGULAR, as n is odd or even; and
   SASZVIGOM_NO_VERDICT for a refusal, for another kind, and for a number that has
   both a cause and a kind, which no call returns. Pass the n of that call. Of n
   only odd or even counts, and only if the graph is singular: no graph with an
   odd n has the kind SASZVIGOM_OPENED, and this function does not check that. */
static inline enum saszvigom_verdict saszvigom_verdict_of(uint64_t number, uint64_t n)
{
    if (saszvigom_cause_of(number) != SASZVIGOM_NO_CAUSE)
        return SASZVIGOM_NO_VERDICT;
    if (saszvigom_kind_of(number) == SASZVIGOM_OPENED)
        return SASZVIGOM_VERDICT_FULL;
    if (saszvigom_kind_of(number) != SASZVIGOM_SINGULAR)
        return SASZVIGOM_NO_VERDICT;
    return n % 2u == 1u ? SASZVIGOM_VERDICT_ODD : SASZVIGOM_VERDICT_UNDECIDED;
}

/* Returns the smaller vertex of the pair. It means nothing for a kind other
   than SASZVIGOM_PAIR. */
static inline unsigned saszvigom_smaller_of(uint64_t number)
{
    return (unsigned)(number >> 16 & 0xFFu);
}

/* Returns the larger vertex of the pair. It means nothing for a kind other than
   SASZVIGOM_PAIR. */
static inline unsigned saszvigom_larger_of(uint64_t number)
{
    return (unsigned)(number >> 24 & 0xFFu);
}

/* Returns the pairs made after the call, for the kinds SASZVIGOM_OPENED,
   SASZVIGOM_PAIR, SASZVIGOM_ROW and SASZVIGOM_REPLAYED. It means nothing if the
   call was refused: the pairs made are then those that were sent. */
static inline unsigned saszvigom_made_of(uint64_t number)
{
    return (unsigned)(number >> 32 & 0xFFu);
}

/* Returns the number of edges of a graph that was read. It means nothing for a
   kind other than SASZVIGOM_SHEET. */
static inline unsigned saszvigom_edges_of(uint64_t number)
{
    return (unsigned)(number >> 16 & 0xFFFFu);
}

/* Returns the number of vertices of a graph that was read. It means nothing for
   a kind other than SASZVIGOM_SHEET. */
static inline unsigned saszvigom_size_of(uint64_t number)
{
    return (unsigned)(number >> 32 & 0xFFu);
}

/* Returns how many weights were drawn. It means nothing for a kind other than
   SASZVIGOM_DRAWS. */
static inline unsigned saszvigom_drawn_of(uint64_t number)
{
    return (unsigned)(number >> 16 & 0xFFFFu);
}

/* An index that no buffer of words has. */
#define SASZVIGOM_NO_INDEX SIZE_MAX

/* Returns the index of the weight of vertices i and j of n, in either order, or
   SASZVIGOM_NO_INDEX if n is above 96, a vertex is n or more, or i = j. The two
   functions below do no harm with that index, but a subscript does. */
static inline size_t saszvigom_weight_index(uint64_t n, uint64_t i, uint64_t j)
{
    const uint64_t smaller = i < j ? i : j, larger = i < j ? j : i;
    if (n > SASZVIGOM_MAX_VERTICES || larger >= n || smaller == larger)
        return SASZVIGOM_NO_INDEX;
    return (size_t)(smaller * n - smaller * (smaller + 1u) / 2u + (larger - smaller - 1u));
}

/* Returns the word at an index of a buffer of words, or 0 for an index of 9216
   or more, which is more than any buffer has. Otherwise the word must be
   there. */
static inline uint16_t saszvigom_word(const uint8_t *words, size_t index)
{
    if (index >= SASZVIGOM_MAX_VERTICES * SASZVIGOM_MAX_VERTICES)
        return 0;
    return (uint16_t)(words[2u * index] | words[2u * index + 1u] << 8);
}

/* Stores a word, 0 to 65520, at an index of a buffer of words. Returns false
   and writes nothing if the word is 65521 or more, which a negative number
   becomes, or if the index is 9216 or more. 0 is a word but not a weight:
   opening refuses it. */
static inline bool saszvigom_store_word(uint8_t *words, size_t index, uint64_t word)
{
    if (word >= SASZVIGOM_MODULUS || index >= SASZVIGOM_MAX_VERTICES * SASZVIGOM_MAX_VERTICES)
        return false;
    words[2u * index] = (uint8_t)(word & 0xFFu);
    words[2u * index + 1u] = (uint8_t)(word >> 8);
    return true;
}

#ifdef __cplusplus
}
#endif

#endif
