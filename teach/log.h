/*
 * Calls in a file, a line each, with their answers:
 *
 *     sleeves 6 links 6 seed 1
 *     pick 1 0 = box 0 1
 *     pick 3 4 = refused 10
 *     auto = box 2 3
 *     undo = back 2 3
 *
 * The first line, which names the graph, and the answers may be missing. Empty
 * lines, and those that begin with #, are remarks. A list of calls begins on a
 * session with no pairs.
 */
#ifndef TEACH_LOG_H
#define TEACH_LOG_H

#include "input.h"
#include "session.h"

/* The most calls of a log, and so of a replay. */
#define MOST_CALLS 20000

struct log {
    int fd;            /* -1 if no log is kept */
    int unasked;       /* whether nobody has asked for it */
    long long written; /* the bytes of its whole lines */
    uint64_t sum;      /* a checksum of these */
    size_t count;      /* its calls */
    char name[LINE_BYTES + 1];
};
#define NO_LOG {-1, 0, 0, 0, 0, ""}

/* Begins a log in a new file, in place of the one that was kept, with the graph
   and the pairs made so far as picks. Reports a failure, and then goes on with
   the log that was kept. */
int log_begin(struct log *log, const char *name, const struct session *s);

/* Begins a log that nobody has asked for, under the first free name:
   unsaved-1.log, unsaved-2.log and so on, in this folder or, if that fails, in
   the one for temporary files, TMPDIR or else /tmp. Reports a failure if report
   is set. */
int log_begin_unasked(struct log *log, const struct session *s, int report);

/* Names the files of such logs that this user's sessions have left without
   ending them, but not those that another desk is keeping. */
void log_name_left(void);

/* Writes a call with the number that it returned; tells whether it is in a log
   that is kept. Reports a failure or a full log, which end a log that was asked
   for. */
int log_call(struct log *log, const struct call *call, uint64_t number);

/* Tells whether a log is kept that has every call. Reads its file; if someone
   else has removed or changed it, ends the log, and reports that if the log was
   asked for. */
int log_is_kept(struct log *log);

/* Brings the log, if one is kept, to the disk; reports a failure. */
void log_sync(const struct log *log);

/* Ends the log, if one is kept; returns 0 if it may not be whole, which it
   reports. */
int log_end(struct log *log);

/* Ends the log, as log_end does, and removes the file of one that nobody has
   asked for. */
int log_discard(struct log *log);

/* A list of calls that was read. */
struct calls {
    int named; /* whether the graph is named */
    uint64_t n, edges, seed;
    size_t count;
    uint64_t numbers[SASZVIGOM_NUMBERS_A_CALL * MOST_CALLS]; /* as saszvigom_replay takes them */
    uint64_t answers[MOST_CALLS]; /* bits 0 to 31 of each number, or NO_ANSWER */
};
#define NO_ANSWER UINT64_MAX

/* Reads a log; returns 0 if it fails, which it reports. */
int log_read(const char *name, struct calls *calls);

/* Writes a call as a log has it. */
#define CALL_BYTES 64
void call_text(char text[CALL_BYTES], const struct call *call);

/* Prints an answer as a log has it. */
void print_answer(uint64_t answer, int undo);

#endif
