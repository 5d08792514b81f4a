/*
 * A desk to teach on: opens the sheet of a file, or a graph in the DIMACS edge
 * format with the draws of a seed, and carries out the commands of standard
 * input. What it prints is in the words of the trade: sleeves are vertices, boxes
 * matched pairs, links edges, draws weights; a sheet is what was opened.
 */
#define _XOPEN_SOURCE 700

#include "explain.h"
#include "hint.h"
#include "input.h"
#include "log.h"
#include "picture.h"

#include <errno.h>
#include <fcntl.h>
#include <inttypes.h>
#include <signal.h>
#include <stdlib.h>
#include <string.h>
#include <termios.h>
#include <time.h>
#include <unistd.h>

static struct session session;
static struct log calls_log = NO_LOG;
static int person; /* whether a person types */
static int typed;  /* and sees the answers, so that lines need not be repeated */
static int leave;
static int given_up; /* whether quit ends it, so that boxes in no log are not wanted */
static int asked;    /* whether the last line asked to leave and was put off; a yes to it
                        does not count */

static int number_of(const struct word *word, uint64_t *number)
{
    if (is_number(word, number))
        return 1;
    const char letter = letter_for_digit(word);
    printf("  not understood: ");
    print_word(word->text, word->length);
    if (is_digits(word) && session.n > 0)
        printf(" is too large a number.\n"
               "  what to do: sleeves are 0 to %u, and seeds 0 to 4294967295.\n",
               session.n - 1);
    else if (is_digits(word))
        printf(" is too large a number.\n"
               "  what to do: the sheet has no sleeves; seeds are 0 to 4294967295.\n");
    else if (letter != 0)
        printf(" is no number: %c is a letter.\n  what to do: write the digit %c.\n", letter,
               letter == 'O' || letter == 'o' ? '0' : '1');
    else
        printf(" is no number.\n  what to do: write digits alone, such as 12.\n");
    return 0;
}

static int is_name(const struct word *word)
{
    if (strlen(word->text) == word->length)
        return 1;
    printf("  not understood: a file name has no byte 0.\n");
    return 0;
}

/* Makes sure that the boxes of a person are in a log: if they are in none, or
   in one that takes no more, begins one that nobody has asked for. If that
   fails, says so once. */
static void keep_boxes(int in_log)
{
    static int failed;
    if (in_log)
        failed = 0;
    else if (person && session.made > 0)
        failed = !log_begin_unasked(&calls_log, &session, !failed);
    session.logged = calls_log.fd >= 0 && !calls_log.unasked;
}

/* Logs a call that was made, and then explains it; tells whether it was
   accepted. */
static int finish(uint64_t kind, uint64_t a, uint64_t b, uint64_t number)
{
    const struct call call = {kind, a, b};
    keep_boxes(log_call(&calls_log, &call, number));
    explain_call(&session, &call, number);
    return saszvigom_cause_of(number) == SASZVIGOM_NO_CAUSE;
}

static int automatic(void)
{
    return finish(SASZVIGOM_CALL_AUTOMATIC, 0, 0, session_automatic(&session));
}

static int undo(void)
{
    return finish(SASZVIGOM_CALL_UNDO, 0, 0, session_undo(&session));
}

static void do_pick(const struct word *words)
{
    uint64_t a, b;
    if (number_of(&words[1], &a) && number_of(&words[2], &b))
        finish(SASZVIGOM_CALL_PICK, a, b, session_pick(&session, a, b));
}

static void do_auto(const struct word *words)
{
    (void)words;
    automatic();
}

static void do_all(const struct word *words)
{
    (void)words;
    while (automatic() && 2 * session.made < session.n)
        continue;
}

static void do_undo(const struct word *words)
{
    (void)words;
    undo();
}

static void do_clear(const struct word *words)
{
    (void)words;
    while (undo() && session.made > 0)
        continue;
}

static void do_row(const struct word *words)
{
    struct call call = {CALL_ROW, 0, 0};
    uint8_t row[MOST] = {0}, closed[MOST] = {0}, matched[MOST] = {0};
    if (!number_of(&words[1], &call.a))
        return;
    const uint64_t number = session_row(&session, call.a, row);
    if (saszvigom_cause_of(number) != SASZVIGOM_NO_CAUSE) {
        explain_call(&session, &call, number);
        return;
    }
    for (unsigned b = 0; b < session.n; b++) {
        if (!adjacent(&session, (unsigned)call.a, b) || row[b])
            continue;
        if (place_of(&session, b) == SASZVIGOM_UNUSED)
            closed[b] = 1;
        else
            matched[b] = 1;
    }
    printf("  sleeve %u\n", (unsigned)call.a);
    print_vertices("  open partners              ", row, session.n);
    print_vertices("  may share, but refused 10  ", closed, session.n);
    print_vertices("  may share, but not loose   ", matched, session.n);
}

/* Makes a pick on a copy of the session. */
static void do_why(const struct word *words)
{
    static struct session copy;
    struct call call = {SASZVIGOM_CALL_PICK, 0, 0};
    if (!number_of(&words[1], &call.a) || !number_of(&words[2], &call.b))
        return;
    copy = session;
    const uint64_t number = session_pick(&copy, call.a, call.b);
    if (saszvigom_cause_of(number) != SASZVIGOM_NO_CAUSE)
        explain_call(&session, &call, number);
    else
        printf("  %" PRIu64 " and %" PRIu64 " are open partners: a pick of the two is accepted.\n",
               call.a, call.b);
}

static void do_show(const struct word *words)
{
    (void)words;
    print_picture(&session);
}

static void do_draws(const struct word *words)
{
    uint64_t seed;
    if (!number_of(&words[1], &seed))
        return;
    if (seed > UINT32_MAX) {
        printf("  not understood: a seed is 0 to 4294967295.\n");
        return;
    }
    if (session.made > 0) {
        printf("  not done: boxes are made with the draws of seed %u.\n"
               "  what to do: keep them with log FILE; then clear, and draws %u.\n",
               (unsigned)session.seed, (unsigned)seed);
        return;
    }
    if (calls_log.fd >= 0 && !calls_log.unasked)
        printf("  The log ends here: it is of the draws of seed %u.\n"
               "  what to do: log FILE begins a new one.\n",
               (unsigned)session.seed);
    log_discard(&calls_log);
    session_redraw(&session, (uint32_t)seed);
    explain_opening(&session);
}

static void do_log(const struct word *words)
{
    if (is_name(&words[1]) && log_begin(&calls_log, words[1].text, &session))
        printf("  log: boxes made so far %u, and each call from now on\n", session.made);
}

static struct call call_of(const struct calls *calls, size_t i)
{
    const uint64_t *const numbers = calls->numbers + SASZVIGOM_NUMBERS_A_CALL * i;
    const struct call call = {numbers[0], numbers[1], numbers[2]};
    return call;
}

/* Logs the calls of a list that was made. */
static void log_calls(const struct calls *calls, const uint64_t *answers)
{
    int in_log = 1;
    for (size_t i = 0; i < calls->count && in_log; i++) {
        const struct call call = call_of(calls, i);
        in_log = log_call(&calls_log, &call, answers[i]);
    }
    keep_boxes(in_log);
}

/* Says what each call of a list returned; returns how many answers differ from
   those in the file. */
static unsigned explain_calls(const struct calls *calls, const uint64_t *answers)
{
    unsigned others = 0;
    char text[CALL_BYTES];
    for (size_t i = 0; i < calls->count; i++) {
        const struct call call = call_of(calls, i);
        call_text(text, &call);
        printf("  %-12s%s", text, strlen(text) < 12 ? "" : "\n              ");
        explain_briefly(&call, answers[i]);
        if (calls->answers[i] != NO_ANSWER && calls->answers[i] != (answers[i] & UINT32_MAX)) {
            printf("              not as in the file, which has: ");
            print_answer(calls->answers[i], call.kind == SASZVIGOM_CALL_UNDO);
            printf("\n");
            others++;
        }
    }
    return others;
}

static void print_comparison(const struct calls *calls, unsigned others)
{
    size_t compared = 0;
    for (size_t i = 0; i < calls->count; i++)
        compared += calls->answers[i] != NO_ANSWER;
    printf("  calls made %u, boxes made %u; ", (unsigned)calls->count, session.made);
    if (others > 0)
        printf("answers not as in the file: %u\n", others);
    else if (compared == 0)
        printf("the file has no answers to compare\n");
    else if (compared < calls->count)
        printf("answers as in the file: %u\n", (unsigned)compared);
    else
        printf("all answers are as in the file\n");
}

/* Says if a list of calls is of another graph or other weights; tells whether
   it is of other weights alone, which draws can set. */
static int explain_origin(const struct calls *calls)
{
    if (!calls->named)
        return 0;
    if (calls->n != session.n || calls->edges != session.edges || calls->seed > UINT32_MAX) {
        printf("  The file is of another sheet: sleeves %" PRIu64 " links %" PRIu64 " seed %" PRIu64
               ".\n  This one: sleeves %u links %u seed %u.\n"
               "  what to do: ask for that sheet; cmp compares it with yours.\n",
               calls->n, calls->edges, calls->seed, session.n, session.edges,
               (unsigned)session.seed);
        return 0;
    }
    if (calls->seed == session.seed)
        return 0;
    printf("  The file is of seed %u, and the draws here are those of seed %u.\n"
           "  what to do: %sdraws %u, and then replay.\n",
           (unsigned)calls->seed, (unsigned)session.seed, session.made > 0 ? "clear, " : "",
           (unsigned)calls->seed);
    return 1;
}

static void do_replay(const struct word *words)
{
    static struct calls calls;
    static uint64_t answers[MOST_CALLS];
    if (!is_name(&words[1]))
        return;
    if (session.made > 0) {
        printf("  not done: a replay begins with no boxes; boxes made %u.\n"
               "  what to do: keep them with log FILE, and take them all back with clear.\n",
               session.made);
        return;
    }
    if (!log_read(words[1].text, &calls))
        return;
    const uint64_t number = session_replay(
        &session, calls.numbers, SASZVIGOM_NUMBERS_A_CALL * calls.count, answers, MOST_CALLS);
    const int redraw = explain_origin(&calls);
    if (saszvigom_cause_of(number) != SASZVIGOM_NO_CAUSE) {
        explain_list(&session, number, !redraw);
        return;
    }
    log_calls(&calls, answers);
    print_comparison(&calls, explain_calls(&calls, answers));
}

/* Drops what was typed or pasted before the last answer could be read. */
static void drop_typed(void)
{
    const struct timespec moment = {0, 200000000};
    fflush(stdout);
    nanosleep(&moment, NULL);
    tcflush(STDIN_FILENO, TCIFLUSH);
}

/* Leaves, by the command or, without words, at the end of input. Asks a person
   first if the pairs are in no log that was asked for. */
static void do_quit(const struct word *words)
{
    const int logged = log_is_kept(&calls_log) && !calls_log.unasked;
    if (person && session.made > 0 && !logged && !asked) {
        printf("  not left yet: boxes made %u, and no log is kept.\n", session.made);
        if (words == NULL && calls_log.fd >= 0)
            printf("  what to do: log FILE keeps them; left again, they stay in %s.\n",
                   calls_log.name);
        else
            printf("  what to do: keep them with log FILE; or quit once more, and they are gone.\n");
        drop_typed();
        asked = 1;
        return;
    }
    leave = 1;
    given_up = words != NULL;
}

static void do_help(const struct word *words);

struct command {
    const char *name, *rest;
    size_t words;
    void (*run)(const struct word *words);
    const char *help;
};

static const struct command commands[] = {
    {"show", "", 1, do_show, "the picture: boxes, loose sleeves and their open partners"},
    {"row", "A", 2, do_row, "the open row of sleeve A: with whom it may be picked"},
    {"why", "A B", 3, do_why, "would a pick of A and B be accepted? nothing is changed"},
    {"pick", "A B", 3, do_pick, "hand pick: box sleeves A and B"},
    {"auto", "", 1, do_auto, "automatic pick: the lowest loose sleeve, its lowest open partner"},
    {"all", "", 1, do_all, "automatic picks to the end"},
    {"undo", "", 1, do_undo, "take-back: the last box"},
    {"clear", "", 1, do_clear, "take-back of every box, the last one first"},
    {"draws", "SEED", 2, do_draws, "open again with the draws of a seed, while no box is made"},
    {"log", "FILE", 2, do_log, "keep the boxes, and each call from now on, in a new file"},
    {"replay", "FILE", 2, do_replay, "make the calls of such a file again, and compare the answers"},
    {"help", "", 1, do_help, "this list"},
    {"quit", "", 1, do_quit, "leave the desk"},
};
#define COMMANDS (sizeof commands / sizeof commands[0])

static void do_help(const struct word *words)
{
    (void)words;
    for (size_t i = 0; i < COMMANDS; i++)
        printf("  %-6s %-4s  %s\n", commands[i].name, commands[i].rest, commands[i].help);
    printf("  A line that begins with # is a remark. A refused call changes nothing.\n");
}

static void print_usage(const struct command *command)
{
    printf("%s%s%s", command->name, command->rest[0] ? " " : "", command->rest);
}

/* Says what a command takes. */
static void explain_usage(const struct command *command)
{
    printf("  not understood: write ");
    if (strcmp(command->rest, "A B") == 0)
        printf("two numbers with a blank between, such as %s 0 1.\n", command->name);
    else if (strcmp(command->rest, "FILE") == 0)
        printf("%s FILE, a name without blanks.\n", command->name);
    else if (command->rest[0])
        printf("one number, such as %s 1.\n", command->name);
    else if (command->run == do_undo)
        printf("undo alone: it takes one box back; repeat it for more.\n");
    else
        printf("%s alone.\n", command->name);
}

/* Returns the command that a word may stand for, or null. */
static const struct command *command_meant(const struct word *word)
{
    const char *const other = other_word(word);
    uint64_t number;
    for (size_t i = 0; i < COMMANDS; i++) {
        const struct command *const command = &commands[i];
        if (other != NULL) {
            if (strcmp(command->name, other) == 0)
                return command;
        } else if (nearly(word, command->name) ||
                   (command->run == do_pick && is_number(word, &number))) {
            return command;
        }
    }
    return NULL;
}

static void explain_unknown(const struct word *word)
{
    if (word->text[0] == '>') {
        printf("  not understood: the desk prints the > itself.\n"
               "  what to do: leave the > out.\n");
        return;
    }
    if (word->text[0] == '$') {
        printf("  not understood: lines after $ are for the terminal, and not for the desk.\n"
               "  what to do: leave with quit, and leave the $ out.\n");
        return;
    }
    if (word->text[0] == '\x1b') {
        printf("  not understood: arrow keys and the like do nothing at the desk.\n"
               "  what to do: type the whole line.\n");
        return;
    }
    const struct command *const meant = command_meant(word);
    printf("  not understood: ");
    print_word(word->text, word->length);
    printf(" is no command of the desk.\n  what to do: ");
    if (meant != NULL) {
        printf("write ");
        print_usage(meant);
        printf(in_capitals(word, meant->name) ? ", in small letters; " : ", if you mean that; ");
    } else if (!is_plain(word)) {
        printf("use the letters a to z; ");
    } else if (outside(word)) {
        printf("leave with quit; lines such as ./desk SHEET are for the terminal;\n  ");
    }
    printf("help lists the commands.\n");
}

static void carry_out(struct line *line)
{
    struct word words[MOST_WORDS];
    const size_t count = split(line, words);
    session.logged = calls_log.fd >= 0 && !calls_log.unasked;
    if (line->cut) {
        asked = 0;
        printf("  not understood: a line has at most %u bytes.\n", (unsigned)LINE_BYTES);
        return;
    }
    if (count == 0 || words[0].text[0] == '#')
        return;
    for (size_t i = 0; i < COMMANDS; i++) {
        if (!is_word(&words[0], commands[i].name))
            continue;
        if (commands[i].run != do_quit)
            asked = 0;
        if (count == commands[i].words) {
            commands[i].run(words);
            return;
        }
        explain_usage(&commands[i]);
        return;
    }
    if (!is_word(&words[0], "yes") && !is_word(&words[0], "y"))
        asked = 0;
    explain_unknown(&words[0]);
}

/* Says that the file of a sheet or a graph cannot be opened or read, and closes
   it. */
static int fail_start(const char *verb, const char *what, const char *name, FILE *file)
{
    fprintf(stderr, "desk: cannot %s the %s %s: %s\n", verb, what, name, strerror(errno));
    fprintf(stderr, "what to do: name the file of a %s; ls lists the files that there are\n", what);
    if (file != NULL)
        fclose(file);
    return 0;
}

/* Reads the sheet of a file and opens it; returns 0 if it cannot start. */
static int start(const char *name)
{
    static uint8_t sheet[SASZVIGOM_SHEET_BYTES_MAX];
    errno = 0;
    FILE *file = fopen(name, "rb");
    if (file == NULL)
        return fail_start("open", "sheet", name, file);
    const size_t length = fread(sheet, 1, sizeof sheet, file);
    if (ferror(file))
        return fail_start("read", "sheet", name, file);
    fclose(file);
    const uint64_t number = session_read(&session, sheet, length);
    if (saszvigom_cause_of(number) != SASZVIGOM_NO_CAUSE) {
        printf("the sheet is refused\n");
        explain_sheet(name, sheet, length, number);
        return 0;
    }
    printf("sleeves %u links %u\n", session.n, session.edges);
    explain_opening(&session);
    return 1;
}

/* Reads the graph of a file and opens it with the draws of a seed; returns 0 if
   it cannot start. */
static int start_graph(const char *name, uint32_t seed)
{
    struct text text;
    errno = 0;
    FILE *file = fopen(name, "rb");
    if (file == NULL)
        return fail_start("open", "graph", name, file);
    if (!text_read(&text, file))
        return fail_start("read", "graph", name, file);
    fclose(file);
    const uint64_t number = session_read_text(&session, &text, seed);
    const int accepted = saszvigom_cause_of(number) == SASZVIGOM_NO_CAUSE;
    if (accepted) {
        printf("sleeves %u links %u\n", session.n, session.edges);
        if (session.n > 0)
            printf("  The graph counts from 1, and the desk from 0: its 1 is sleeve 0 here.\n");
        explain_opening(&session);
    } else {
        printf("the graph is refused\n");
        explain_text(name, &text, number);
    }
    free(text.bytes);
    return accepted;
}

/* Makes sure that no file that is opened later takes the place of a standard
   stream that is closed, and that a write waits. */
static int hold_streams(void)
{
    for (int fd = STDIN_FILENO; fd <= STDERR_FILENO; fd++) {
        if (fcntl(fd, F_GETFD) >= 0)
            continue;
        if (fd == STDOUT_FILENO) {
            fprintf(stderr, "desk: there is no output\n");
            return 0;
        }
        if (open("/dev/null", O_RDWR) != fd)
            return 0;
    }
    const int flags = fcntl(STDOUT_FILENO, F_GETFL);
    if (flags >= 0 && (flags & O_NONBLOCK) != 0)
        fcntl(STDOUT_FILENO, F_SETFL, flags & ~O_NONBLOCK);
    return 1;
}

/* Makes a failed write return an error, and not raise a signal. */
static void set_signals(void)
{
    struct sigaction action;
    memset(&action, 0, sizeof action);
    sigemptyset(&action.sa_mask);
    action.sa_handler = SIG_IGN;
    sigaction(SIGXFSZ, &action, NULL);
    sigaction(SIGPIPE, &action, NULL);
}

/* Tells whether what was printed could be written; says so once if not. */
static int written(void)
{
    static int failed;
    errno = 0;
    if (!failed && (fflush(stdout) != 0 || ferror(stdout))) {
        failed = 1;
        fprintf(stderr, "desk: cannot write the answers: %s\n",
                errno != 0 ? strerror(errno) : "some are lost");
    }
    return !failed;
}

/* Ends the log. One that nobody has asked for stays if it has boxes that were not
   given up. */
static int end_log(void)
{
    if (given_up || session.made == 0)
        return log_discard(&calls_log);
    if (calls_log.fd >= 0 && calls_log.unasked)
        fprintf(stderr, "desk: the boxes are kept in %s, for a replay\n", calls_log.name);
    return log_end(&calls_log);
}

/* Carries out commands to the end; returns 0 if they cannot be read or the
   answers cannot be written. The log, if one is kept, then has every call that
   was made. */
static int serve(void)
{
    static struct line line;
    if (person) {
        allow_interrupts();
        log_name_left();
    }
    while (!leave) {
        if (typed)
            printf("> ");
        if (!written())
            return 0;
        switch (read_line(stdin, &line)) {
        case READ_FAILED:
            fprintf(stderr, "desk: cannot read the commands: %s\n", strerror(errno));
            return 0;
        case READ_INTERRUPTED:
            printf("\n  The line is given up; quit leaves the desk.\n");
            continue;
        case READ_END:
            if (typed)
                printf("\n");
            do_quit(NULL);
            clearerr(stdin);
            continue;
        case READ_LINE:
            if (!line.ended) /* so that the end of input is met again */
                clearerr(stdin);
            break;
        }
        if (!typed) {
            printf("> ");
            print_line(&line);
            printf("\n");
        }
        carry_out(&line);
        if (person && !leave) {
            keep_boxes(log_is_kept(&calls_log));
            log_sync(&calls_log);
        }
    }
    printf("left with boxes made %u, sleeves loose %u\n", session.made,
           session.n - 2 * session.made);
    return 1;
}

int main(int argc, char **argv)
{
    uint32_t seed = 0;
    if (argc != 2 && argc != 3) {
        fprintf(stderr, "usage: desk SHEET, or desk GRAPH SEED\n");
        return 2;
    }
    if (argc == 3 && !is_seed(argv[2], &seed)) {
        fprintf(stderr, "desk: " SEED_RULE "\n");
        return 2;
    }
    if (!hold_streams())
        return 1;
    person = isatty(STDIN_FILENO);
    typed = person && isatty(STDOUT_FILENO);
    set_signals();
    const int started = argc == 3 ? start_graph(argv[1], seed) : start(argv[1]);
    const int done = started && serve();
    const int kept = end_log();
    return written() && done && kept ? 0 : 1;
}
