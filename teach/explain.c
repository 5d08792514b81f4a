#include "explain.h"
#include "picture.h"

#include <inttypes.h>
#include <stdio.h>

static void no_such_vertex(const struct session *s, uint64_t a)
{
    if (s->n == 0)
        printf("no sleeve is numbered %" PRIu64 "; the sheet has none.\n", a);
    else
        printf("no sleeve is numbered %" PRIu64 "; they are 0 to %u.\n", a, s->n - 1);
}

static void invalid(const struct session *s, const struct call *call)
{
    if (call->a >= s->n)
        no_such_vertex(s, call->a);
    else if (call->kind == SASZVIGOM_CALL_PICK && call->b >= s->n)
        no_such_vertex(s, call->b);
    else
        printf("sleeve %" PRIu64 " is named twice in the pick.\n", call->a);
    if (s->n == 0)
        printf("  what to do: nothing; the sheet has no sleeves.\n");
    else if (call->kind == CALL_ROW)
        printf("  what to do: name a sleeve of the sheet; show lists the loose ones.\n");
    else
        printf("  what to do: name two different sleeves; show lists the loose ones.\n");
}

/* Says of a vertex below n that it is matched, if it is. */
static int say_matched(const struct session *s, uint64_t a)
{
    const unsigned place = a < s->n ? place_of(s, (unsigned)a) : SASZVIGOM_UNUSED;
    if (place == SASZVIGOM_UNUSED)
        return 0;
    printf("sleeve %" PRIu64 " is not loose; box %u has it, with %u.\n", a, place / 2 + 1,
           s->graph.sequence[place ^ 1u]);
    return 1;
}

static void already_matched(const struct session *s, const struct call *call)
{
    if (!say_matched(s, call->a))
        say_matched(s, call->b);
    printf("  what to do: go on with loose sleeves, which show lists, or take boxes back\n"
           "  with undo, the last one first.\n");
}

static void say_where_partners(const struct call *call)
{
    printf("  what to do: pick open partners; row %" PRIu64 " and row %" PRIu64 " list them.\n",
           call->a, call->b);
}

/* Advises other weights: whether the rest has a perfect matching is not known here,
   but a person may see one. */
static void say_other_weights(const struct session *s)
{
    printf("  If you see boxes for all of these: %s%stry other draws, such as\n"
           "  draws %u, and pick again.\n",
           s->made > 0 && !s->logged ? "log FILE, " : "", s->made > 0 ? "clear, " : "",
           (unsigned)(s->seed + 1u));
}

static void rest_singular(const struct session *s, const struct call *call)
{
    uint8_t rest[MOST] = {0};
    if (call->kind == SASZVIGOM_CALL_UNDO) {
        printf("the sleeves then loose would have no inverse.\n");
        printf("  what to do: open the sheet again; this strip was not made by picks.\n");
        return;
    }
    printf("%" PRIu64 " and %" PRIu64 " may share, but the sleeves then loose would have\n"
           "  no inverse with these draws, and the desk could not go on with them:\n",
           call->a, call->b);
    for (unsigned c = 0; c < s->n; c++)
        rest[c] = place_of(s, c) == SASZVIGOM_UNUSED && c != call->a && c != call->b;
    print_vertices("   ", rest, s->n);
    say_where_partners(call);
    say_other_weights(s);
}

static void nothing_left(const struct session *s, const struct call *call)
{
    if (s->n == 0)
        printf("there is no sleeve, and no box.\n"
               "  what to do: nothing; the sheet has no sleeves.\n");
    else if (call->kind == SASZVIGOM_CALL_AUTOMATIC)
        printf("no sleeve is loose, so there is nothing to pick.\n"
               "  what to do: nothing, the pairing is full; undo takes the last box back.\n");
    else
        printf("there is no box to take back.\n"
               "  what to do: make one first, with pick or auto.\n");
}

static void what_to_do_without_inverse(const struct session *s)
{
    if (s->verdict == SASZVIGOM_VERDICT_ODD)
        printf("  what to do: ask the conservator which sleeve is to stay out, and make a sheet\n"
               "  without it.\n");
    else
        printf("  what to do: look for a reason in the links; try other draws, such as\n"
               "  draws %u. If they open, that decides it.\n",
               (unsigned)(s->seed + 1u));
}

static void no_inverse(const struct session *s, int advise)
{
    if (opened(s)) {
        printf("the held table is not that of the loose sleeves.\n"
               "  what to do: leave this desk, and open the sheet again.\n");
        return;
    }
    printf("the loose sleeves have no inverse with these draws; there is a\n"
           "  witness, and no session.\n");
    if (advise)
        what_to_do_without_inverse(s);
}

static void explain_refusal(const struct session *s, const struct call *call, uint64_t number)
{
    printf("  refused %u: ", (unsigned)saszvigom_cause_of(number));
    switch (saszvigom_cause_of(number)) {
    case SASZVIGOM_INVERSE_WRONG:
        no_inverse(s, 1);
        break;
    case SASZVIGOM_VERTEX_INVALID:
        invalid(s, call);
        break;
    case SASZVIGOM_VERTEX_MATCHED:
        already_matched(s, call);
        break;
    case SASZVIGOM_NOT_ADJACENT:
        printf("%" PRIu64 " and %" PRIu64 " may not share; the sheet has no link of the two.\n",
               call->a, call->b);
        say_where_partners(call);
        break;
    case SASZVIGOM_REST_SINGULAR:
        rest_singular(s, call);
        break;
    case SASZVIGOM_NOTHING_LEFT:
        nothing_left(s, call);
        break;
    default: /* 1 to 5: the session or a buffer, which are this program's own */
        printf("the session is not well formed.\n"
               "  what to do: leave this desk, and open the sheet again.\n");
    }
}

void explain_call(const struct session *s, const struct call *call, uint64_t number)
{
    if (saszvigom_cause_of(number) != SASZVIGOM_NO_CAUSE) {
        explain_refusal(s, call, number);
        return;
    }
    const unsigned smaller = saszvigom_smaller_of(number), larger = saszvigom_larger_of(number);
    if (call->kind == SASZVIGOM_CALL_UNDO) {
        printf("  taken back: %u and %u, loose again; boxes made %u\n", smaller, larger, s->made);
        return;
    }
    printf("  box %u: %u and %u", s->made, smaller, larger);
    if (2 * s->made == s->n)
        printf("; no sleeve is loose, the pairing is full\n");
    else
        printf("; sleeves loose %u\n", s->n - 2 * s->made);
}

static const char *brief(const struct call *call, uint64_t number)
{
    switch (saszvigom_cause_of(number)) {
    case SASZVIGOM_VERTEX_INVALID:
        return "no such sleeve, or one named twice";
    case SASZVIGOM_VERTEX_MATCHED:
        return "a sleeve is not loose";
    case SASZVIGOM_NOT_ADJACENT:
        return "the two may not share";
    case SASZVIGOM_REST_SINGULAR:
        return "the sleeves then loose would have no inverse";
    case SASZVIGOM_NOTHING_LEFT:
        return call->kind == SASZVIGOM_CALL_UNDO ? "no box to take back" : "no sleeve is loose";
    default: /* the session is sound: no call of a list is refused for another cause */
        return "the session is spoiled";
    }
}

void explain_briefly(const struct call *call, uint64_t number)
{
    const unsigned smaller = saszvigom_smaller_of(number), larger = saszvigom_larger_of(number);
    if (saszvigom_cause_of(number) != SASZVIGOM_NO_CAUSE)
        printf("refused %u: %s\n", (unsigned)saszvigom_cause_of(number), brief(call, number));
    else if (call->kind == SASZVIGOM_CALL_UNDO)
        printf("taken back: %u and %u\n", smaller, larger);
    else
        printf("box %u: %u and %u\n", saszvigom_made_of(number), smaller, larger);
}

void explain_list(const struct session *s, uint64_t number, int advise)
{
    printf("  refused %u: ", (unsigned)saszvigom_cause_of(number));
    no_inverse(s, advise); /* the list itself is in order */
    printf("  No call of the file was made.\n");
}

/* Says what the verdict means, after the letter that a listing has. */
static void explain_verdict(const struct session *s)
{
    if (s->verdict == SASZVIGOM_VERDICT_ODD)
        printf("  verdict O: there is no full pairing, whatever the draws. %u is an odd number.\n",
               s->n);
    else
        printf("  verdict U: it is undecided under these draws whether there is a full pairing.\n"
               "  %u is an even number, and the witness does not show that there is none.\n",
               s->n);
}

void explain_opening(const struct session *s)
{
    if (opened(s)) {
        printf("opened with the draws of seed %u: no boxes yet; help lists the commands\n",
               (unsigned)s->seed);
        return;
    }
    printf("not opened with the draws of seed %u: there is a witness, and no session\n",
           (unsigned)s->seed);
    print_witness(s);
    explain_verdict(s);
    printf("  The witness shows that there is no inverse with these draws. It does not show\n"
           "  which sleeves are in the way.\n");
    what_to_do_without_inverse(s);
}
