/* Answers in the words of the trade, for those who catalogue. */
#ifndef TEACH_EXPLAIN_H
#define TEACH_EXPLAIN_H

#include "session.h"

/* Says what a session call returned, and what to do if it was refused. Of the
   session, made and sequence are those after the call. */
void explain_call(const struct session *s, const struct call *call, uint64_t number);

/* Says in one line, after the call itself, what a call of a list returned. */
void explain_briefly(const struct call *call, uint64_t number);

/* Says why a whole list was refused, and what to do if advise is set. */
void explain_list(const struct session *s, uint64_t number, int advise);

/* Says what opening found. */
void explain_opening(const struct session *s);

/* Says why a sheet was refused, where, and what to do. */
void explain_sheet(const char *name, const uint8_t *sheet, size_t length, uint64_t number);

/* Says why a text in the DIMACS edge format was refused, where, and what to do. */
void explain_text(const char *name, const struct text *text, uint64_t number);

#endif
