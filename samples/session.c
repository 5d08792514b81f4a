/*
 * A whole session through saszvigom.h alone: matches the vertices of a ring of
 * six by hand, automatically and with undo, says refusals in words of its own,
 * and checks the log of all calls by replaying it.
 *
 *     cc session.c $(pkg-config --cflags --libs saszvigom) -o session
 */
#include "saszvigom.h"

#include <stdio.h>
#include <string.h>

#define N 6           /* vertices */
#define MOST_CALLS 32 /* of a log */

/* A graph and a session on it. */
struct session {
    unsigned made;
    uint8_t adjacency[SASZVIGOM_ADJACENCY_BYTES(N)];
    uint8_t weights[SASZVIGOM_WEIGHTS_BYTES(N)];
    uint8_t inverse[SASZVIGOM_INVERSE_BYTES(N)];
    uint8_t sequence[SASZVIGOM_SEQUENCE_BYTES(N)];
};

/* Calls as saszvigom_replay takes them, and what each returned. */
struct log {
    size_t count;
    uint64_t calls[SASZVIGOM_NUMBERS_A_CALL * MOST_CALLS];
    uint64_t answers[MOST_CALLS];
};

static const char *explain(enum saszvigom_cause cause)
{
    switch (cause) {
    case SASZVIGOM_SESSION_MALFORMED:
        return "the sequence does not hold so many pairs";
    case SASZVIGOM_INVERSE_WRONG:
        return "the inverse is not that of the unmatched vertices";
    case SASZVIGOM_VERTEX_INVALID:
        return "there is no such vertex, or it is named twice";
    case SASZVIGOM_VERTEX_MATCHED:
        return "a vertex is matched already";
    case SASZVIGOM_NOT_ADJACENT:
        return "the two are not adjacent";
    case SASZVIGOM_REST_SINGULAR:
        return "the vertices left would have no inverse";
    case SASZVIGOM_NOTHING_LEFT:
        return "no vertex is left to match, or no pair to undo";
    default: /* 1 to 4, 12 and 13, and causes of later versions */
        return "the call is not in order";
    }
}

static void print_refusal(uint64_t number)
{
    printf("refused, %s (cause %u)\n", explain(saszvigom_cause_of(number)),
           saszvigom_cause_of(number));
}

/* Prints what a pick or an undo returned, and goes on with the session. */
static void take(struct session *session, uint64_t number)
{
    if (saszvigom_cause_of(number) != SASZVIGOM_NO_CAUSE) {
        print_refusal(number); /* the session is as it was */
        return;
    }
    session->made = saszvigom_made_of(number);
    printf("%u and %u, pairs made %u\n", saszvigom_smaller_of(number),
           saszvigom_larger_of(number), session->made);
}

static void append(struct log *log, enum saszvigom_call kind, uint64_t a, uint64_t b, uint64_t number)
{
    uint64_t *call = log->calls + SASZVIGOM_NUMBERS_A_CALL * log->count;
    call[0] = kind;
    call[1] = a;
    call[2] = b;
    log->answers[log->count] = number;
    log->count++;
}

static void pick(struct session *s, struct log *log, uint64_t a, uint64_t b)
{
    const uint64_t number = saszvigom_pick(N, s->made, a, b, s->adjacency, sizeof s->adjacency,
                                           s->weights, sizeof s->weights, s->inverse,
                                           sizeof s->inverse, s->sequence, sizeof s->sequence);
    append(log, SASZVIGOM_CALL_PICK, a, b, number);
    printf("pick %u and %u: ", (unsigned)a, (unsigned)b);
    take(s, number);
}

/* Makes an automatic pick; returns its number. */
static uint64_t automatic(struct session *s, struct log *log)
{
    const uint64_t number = saszvigom_automatic(N, s->made, s->adjacency, sizeof s->adjacency,
                                                s->weights, sizeof s->weights, s->inverse,
                                                sizeof s->inverse, s->sequence,
                                                sizeof s->sequence);
    append(log, SASZVIGOM_CALL_AUTOMATIC, 0, 0, number);
    printf("automatic: ");
    take(s, number);
    return number;
}

static void undo(struct session *s, struct log *log)
{
    const uint64_t number = saszvigom_undo(N, s->made, s->adjacency, sizeof s->adjacency,
                                           s->weights, sizeof s->weights, s->inverse,
                                           sizeof s->inverse, s->sequence, sizeof s->sequence);
    append(log, SASZVIGOM_CALL_UNDO, 0, 0, number);
    printf("undo: ");
    take(s, number);
}

/* Prints which vertices may be matched with a vertex. */
static void print_partners(const struct session *s, uint64_t a)
{
    uint8_t row[SASZVIGOM_ROW_BYTES(N)];
    const uint64_t number = saszvigom_row(N, s->made, a, s->adjacency, sizeof s->adjacency,
                                          s->weights, sizeof s->weights, s->inverse,
                                          sizeof s->inverse, s->sequence, sizeof s->sequence,
                                          row, sizeof row);
    printf("partners of %u:", (unsigned)a);
    if (saszvigom_kind_of(number) != SASZVIGOM_ROW) {
        printf(" ");
        print_refusal(number);
        return;
    }
    for (unsigned b = 0; b < N; b++)
        if (row[b] == 1)
            printf(" %u", b);
    printf("\n");
}

/* Opens a ring with the draws of a seed; tells whether it has an inverse. */
static bool open_ring(struct session *s)
{
    uint8_t witness[SASZVIGOM_WITNESS_BYTES(N)], work[SASZVIGOM_WORK_BYTES(N)];
    memset(s->adjacency, 0, sizeof s->adjacency);
    for (size_t i = 0; i < N; i++) {
        s->adjacency[i * N + (i + 1) % N] = 1;
        s->adjacency[(i + 1) % N * N + i] = 1;
    }
    saszvigom_draws(N, 1, s->weights, sizeof s->weights);
    s->made = 0;
    const uint64_t number = saszvigom_open(N, s->adjacency, sizeof s->adjacency, s->weights,
                                           sizeof s->weights, s->inverse, sizeof s->inverse,
                                           s->sequence, sizeof s->sequence, witness,
                                           sizeof witness, work, sizeof work);
    return saszvigom_kind_of(number) == SASZVIGOM_OPENED;
}

/* Replays a log from the beginning and compares what its calls returned. */
static void check_log(const struct log *log)
{
    struct session s;
    uint64_t answers[MOST_CALLS];
    if (!open_ring(&s))
        return;
    const uint64_t number = saszvigom_replay(
        N, s.made, s.adjacency, sizeof s.adjacency, s.weights, sizeof s.weights, s.inverse,
        sizeof s.inverse, s.sequence, sizeof s.sequence, log->calls,
        SASZVIGOM_NUMBERS_A_CALL * log->count, answers, MOST_CALLS);
    printf("replay of %u calls: ", (unsigned)log->count);
    if (saszvigom_kind_of(number) != SASZVIGOM_REPLAYED)
        print_refusal(number);
    else if (memcmp(answers, log->answers, log->count * sizeof answers[0]) == 0)
        printf("all answers as in the log, pairs made %u\n", saszvigom_made_of(number));
    else
        printf("the log is not that of these calls\n");
}

int main(void)
{
    struct session session;
    struct log log = {0};
    if (!open_ring(&session)) {
        printf("the ring has no inverse\n"); /* draw again, as in draw.c */
        return 1;
    }
    printf("opened a ring of %u\n", (unsigned)N);

    print_partners(&session, 0);
    pick(&session, &log, 1, 0);
    pick(&session, &log, 1, 2);
    pick(&session, &log, 2, 4);
    pick(&session, &log, 2, 6);
    pick(&session, &log, 3, 4);
    print_partners(&session, 2);
    print_partners(&session, 1);

    while (saszvigom_cause_of(automatic(&session, &log)) == SASZVIGOM_NO_CAUSE)
        continue;
    for (int i = 0; i < 4; i++)
        undo(&session, &log);
    pick(&session, &log, 0, 5);

    check_log(&log);
    log.answers[0] = log.answers[1];
    check_log(&log);

    session.made = 2;
    printf("with a pair too many: ");
    print_partners(&session, 1);
    session.made = 1;
    session.inverse[0] = 1;
    printf("with another inverse: ");
    print_partners(&session, 1);
    return 0;
}
