#define _XOPEN_SOURCE 700
#define _DEFAULT_SOURCE /* flock */

#include "log.h"

#include <errno.h>
#include <fcntl.h>
#include <inttypes.h>
#include <stdlib.h>
#include <string.h>
#include <sys/file.h>
#include <sys/stat.h>
#include <unistd.h>

#define LOG_LINE_BYTES (2 * CALL_BYTES + 8)

static void print_failure(const char *what, const char *name, int error)
{
    printf("  %s ", what);
    print_name(name);
    printf(": %s\n", strerror(error));
}

/* Adds bytes to a checksum. */
static uint64_t add_bytes(uint64_t sum, const char *bytes, size_t length)
{
    for (size_t i = 0; i < length; i++)
        sum = (sum ^ (unsigned char)bytes[i]) * 1099511628211u;
    return sum;
}

/* Appends a text to a log, whole or not at all; returns 0, with errno, if it
   fails. */
static int append(struct log *log, const char *text)
{
    const size_t length = strlen(text);
    for (size_t done = 0; done < length;) {
        const ssize_t count = write(log->fd, text + done, length - done);
        if (count > 0) {
            done += (size_t)count;
        } else if (count == 0 || errno != EINTR) {
            const int error = count == 0 ? EIO : errno;
            if (ftruncate(log->fd, (off_t)log->written) != 0 ||
                lseek(log->fd, (off_t)log->written, SEEK_SET) < 0)
                printf("  The last line of the log may be cut.\n");
            errno = error;
            return 0;
        }
    }
    log->written += (long long)length;
    log->sum = add_bytes(log->sum, text, length);
    return 1;
}

void call_text(char text[CALL_BYTES], const struct call *call)
{
    if (call->kind == SASZVIGOM_CALL_PICK)
        snprintf(text, CALL_BYTES, "pick %" PRIu64 " %" PRIu64, call->a, call->b);
    else
        snprintf(text, CALL_BYTES, "%s", call->kind == SASZVIGOM_CALL_UNDO ? "undo" : "auto");
}

/* Writes the answer of a call into a text. */
static void answer_text(char text[CALL_BYTES], uint64_t number, int undo)
{
    if (saszvigom_cause_of(number) != SASZVIGOM_NO_CAUSE)
        snprintf(text, CALL_BYTES, "refused %u", (unsigned)saszvigom_cause_of(number));
    else
        snprintf(text, CALL_BYTES, "%s %u %u", undo ? "back" : "box",
                 saszvigom_smaller_of(number), saszvigom_larger_of(number));
}

void print_answer(uint64_t answer, int undo)
{
    char text[CALL_BYTES];
    answer_text(text, answer, undo);
    printf("%s", text);
}

/* Writes the graph, and the pairs made so far as picks; returns 0, with errno,
   if it fails. */
static int append_session(struct log *log, const struct session *s)
{
    char text[LOG_LINE_BYTES];
    snprintf(text, sizeof text, "sleeves %u links %u seed %u\n", s->n, s->edges,
             (unsigned)s->seed);
    int done = append(log, text);
    for (unsigned k = 0; done && k < s->made; k++) {
        const unsigned a = s->graph.sequence[2 * k], b = s->graph.sequence[2 * k + 1];
        snprintf(text, sizeof text, "pick %u %u = box %u %u\n", a, b, a, b);
        done = append(log, text);
    }
    return done;
}

/* Makes a log in a new file. If it fails, returns 0, with errno, and leaves no
   file. */
static int make(struct log *log, const char *name, const struct session *s)
{
    *log = (struct log)NO_LOG;
    log->fd = open(name, O_RDWR | O_CREAT | O_EXCL | O_NOCTTY, 0666);
    if (log->fd < 0)
        return 0;
    if (!append_session(log, s)) {
        const int error = errno;
        close(log->fd);
        unlink(name);
        errno = error;
        return 0;
    }
    log->count = s->made;
    strcpy(log->name, name);
    return 1;
}

int log_begin(struct log *log, const char *name, const struct session *s)
{
    static struct log new;
    const int asked_for = log->fd >= 0 && !log->unasked;
    if (!make(&new, name, s)) {
        print_failure("no log: cannot make", name, errno);
        if (asked_for)
            printf("  The log kept so far goes on.\n");
        printf("  what to do: name a new file, where you may write; none is overwritten.\n");
        return 0;
    }
    if (asked_for) {
        printf("  ");
        print_name(log->name);
        printf(" ends here.\n");
    }
    if (log->unasked) /* its file goes, so the boxes must be on the disk in the new one */
        log_sync(&new);
    log_discard(log);
    *log = new;
    return 1;
}

/* The names of logs that nobody has asked for, from 1 to MOST_UNASKED, in each of
   two folders: this one, and the one for temporary files. */
#define MOST_UNASKED 99
#define UNASKED_FOLDERS 2

static const char *unasked_name(unsigned folder, unsigned k)
{
    static char name[LINE_BYTES + 1];
    const char *const temporary = getenv("TMPDIR");
    if (folder == 0)
        snprintf(name, sizeof name, "unsaved-%u.log", k);
    else
        snprintf(name, sizeof name, "%s/unsaved-%u.log",
                 temporary != NULL && temporary[0] == '/' ? temporary : "/tmp", k);
    return name;
}

/* Makes one under the first free name of a folder; returns 0, with errno, if it
   fails. */
static int make_unasked(struct log *log, unsigned folder, const struct session *s)
{
    for (unsigned k = 1; k <= MOST_UNASKED; k++) {
        if (make(log, unasked_name(folder, k), s))
            return 1;
        if (errno != EEXIST)
            return 0;
    }
    return 0;
}

int log_begin_unasked(struct log *log, const struct session *s, int report)
{
    static struct log new;
    unsigned folder = 0;
    int error = 0;
    while (folder < UNASKED_FOLDERS && !make_unasked(&new, folder, s)) {
        if (folder == 0)
            error = errno;
        folder++;
    }
    if (folder == UNASKED_FOLDERS) {
        if (report)
            printf("  No file can be written here: %s.\n"
                   "  If the desk is stopped, the boxes are gone.\n"
                   "  what to do: keep them with log FILE, where you may write.\n",
                   strerror(error));
        return 0;
    }
    new.unasked = 1;
    flock(new.fd, LOCK_EX | LOCK_NB);
    log_discard(log);
    *log = new;
    return 1;
}

/* Opens a log that no desk is keeping, or returns null. */
static FILE *open_left(const char *name)
{
    struct stat about;
    const int fd = open(name, O_RDONLY | O_NONBLOCK | O_NOCTTY);
    FILE *file = NULL;
    if (fd >= 0 && fstat(fd, &about) == 0 && S_ISREG(about.st_mode) && about.st_uid == getuid() &&
        flock(fd, LOCK_SH | LOCK_NB) == 0)
        file = fdopen(fd, "r");
    if (fd >= 0 && file == NULL)
        close(fd);
    return file;
}

void log_name_left(void)
{
    static struct line line;
    int any = 0;
    for (unsigned k = 0; k < MOST_UNASKED * UNASKED_FOLDERS; k++) {
        const char *const name = unasked_name(k / MOST_UNASKED, k % MOST_UNASKED + 1);
        FILE *const file = open_left(name);
        if (file == NULL)
            continue;
        any = 1;
        read_line(file, &line);
        printf("  A session was not ended: %s, ", name);
        print_word(line.text, line.length);
        printf("\n");
        fclose(file);
    }
    if (any)
        printf("  what to do: replay the file, and keep the boxes with log FILE; or remove it.\n");
}

/* Ends a log while the session goes on. */
static void end_early(struct log *log, const char *where)
{
    printf("  The session goes on, and no log is kept.\n  what to do: log to a new file%s.\n",
           where);
    log_end(log);
}

/* Tells whether the file of a log has a name, and the length that was written. */
static int is_there(const struct log *log)
{
    struct stat about;
    return log->fd >= 0 && fstat(log->fd, &about) == 0 && about.st_nlink > 0 &&
           about.st_size == log->written;
}

/* Tells whether the file of a log has the bytes that were written. */
static int is_whole(const struct log *log)
{
    char bytes[LINE_BYTES];
    uint64_t sum = 0;
    ssize_t count;
    for (off_t at = 0; (count = pread(log->fd, bytes, sizeof bytes, at)) > 0; at += count)
        sum = add_bytes(sum, bytes, (size_t)count);
    return count == 0 && sum == log->sum;
}

/* Ends a log whose file someone else has removed or changed. */
static void end_spoiled(struct log *log)
{
    if (log->unasked) {
        log_end(log);
        return;
    }
    printf("  the log was removed or changed by someone else: ");
    print_name(log->name);
    printf("\n");
    end_early(log, "");
}

int log_is_kept(struct log *log)
{
    if (log->fd >= 0 && !(is_there(log) && is_whole(log)))
        end_spoiled(log);
    return log->fd >= 0 && !(log->unasked && log->count == MOST_CALLS);
}

int log_call(struct log *log, const struct call *call, uint64_t number)
{
    char text[LOG_LINE_BYTES], called[CALL_BYTES], answer[CALL_BYTES];
    if (log->fd >= 0 && !is_there(log))
        end_spoiled(log);
    if (log->fd < 0)
        return 0;
    if (log->count == MOST_CALLS) {
        if (!log->unasked) {
            printf("  the log ends before this call: it has %u calls, as many as a replay takes.\n",
                   (unsigned)MOST_CALLS);
            end_early(log, "");
        }
        return 0;
    }
    call_text(called, call);
    answer_text(answer, number, call->kind == SASZVIGOM_CALL_UNDO);
    snprintf(text, sizeof text, "%s = %s\n", called, answer);
    if (!append(log, text)) {
        if (log->unasked) {
            log->count = MOST_CALLS; /* it lacks a call, and takes no more */
        } else {
            print_failure("the log ends before this call: cannot write", log->name, errno);
            end_early(log, ", in a folder with room");
        }
        return 0;
    }
    log->count++;
    return 1;
}

void log_sync(const struct log *log)
{
    if (log->fd >= 0 && fsync(log->fd) != 0)
        print_failure("the log may not be on the disk:", log->name, errno);
}

int log_end(struct log *log)
{
    const int whole = log->fd < 0 || close(log->fd) == 0;
    if (!whole)
        print_failure("the log may not be whole: cannot close", log->name, errno);
    log->fd = -1;
    return whole;
}

int log_discard(struct log *log)
{
    struct stat kept, named;
    /* Another file may have taken its name. */
    if (log->fd >= 0 && log->unasked && fstat(log->fd, &kept) == 0 &&
        lstat(log->name, &named) == 0 && kept.st_dev == named.st_dev && kept.st_ino == named.st_ino)
        unlink(log->name);
    return log_end(log);
}

/* Finds the call that begins a line of words; returns how many words it has, or
   0. */
static size_t find_call(const struct word *words, size_t count, struct call *call)
{
    call->a = call->b = 0;
    if (is_word(&words[0], "pick")) {
        call->kind = SASZVIGOM_CALL_PICK;
        return count >= 3 && is_number(&words[1], &call->a) && is_number(&words[2], &call->b) ? 3
                                                                                               : 0;
    }
    call->kind = is_word(&words[0], "undo") ? SASZVIGOM_CALL_UNDO : SASZVIGOM_CALL_AUTOMATIC;
    return is_word(&words[0], "undo") || is_word(&words[0], "auto") ? 1 : 0;
}

/* Tells whether words are the answer of a call, and finds which. */
static int find_answer(const struct word *words, size_t count, int undo, uint64_t *answer)
{
    uint64_t a, b;
    if (count == 2 && is_word(&words[0], "refused") && is_number(&words[1], &a) && a > 0 &&
        a <= 255) {
        *answer = a;
        return 1;
    }
    if (count == 3 && is_word(&words[0], undo ? "back" : "box") && is_number(&words[1], &a) &&
        is_number(&words[2], &b) && a <= 255 && b <= 255) {
        *answer = (uint64_t)SASZVIGOM_PAIR << 8 | a << 16 | b << 24;
        return 1;
    }
    return 0;
}

static int is_graph(const struct word *words, size_t count, struct calls *calls)
{
    return count == 6 && is_word(&words[0], "sleeves") && is_number(&words[1], &calls->n) &&
           is_word(&words[2], "links") && is_number(&words[3], &calls->edges) &&
           is_word(&words[4], "seed") && is_number(&words[5], &calls->seed);
}

/* Takes a line of a log; returns 0 if it is not one. */
static int take(struct line *line, struct calls *calls)
{
    struct word words[MOST_WORDS];
    struct call call;
    const size_t count = split(line, words);
    if (line->cut || count > MOST_WORDS)
        return count > 0 && words[0].text[0] == '#';
    if (count == 0 || words[0].text[0] == '#')
        return 1;
    if (!calls->named && calls->count == 0 && is_graph(words, count, calls)) {
        calls->named = 1;
        return 1;
    }
    const size_t used = find_call(words, count, &call);
    uint64_t answer = NO_ANSWER;
    if (used == 0)
        return 0;
    if (count > used &&
        !(is_word(&words[used], "=") &&
          find_answer(words + used + 1, count - used - 1, call.kind == SASZVIGOM_CALL_UNDO,
                      &answer)))
        return 0;
    if (calls->count < MOST_CALLS) {
        uint64_t *const numbers = calls->numbers + SASZVIGOM_NUMBERS_A_CALL * calls->count;
        numbers[0] = call.kind;
        numbers[1] = call.a;
        numbers[2] = call.b;
        calls->answers[calls->count] = answer;
    }
    calls->count++;
    return 1;
}

static int read_calls(FILE *file, const char *name, struct calls *calls)
{
    static struct line line, shown;
    for (unsigned long number = 1;; number++) {
        switch (read_line(file, &line)) {
        case READ_FAILED:
        case READ_INTERRUPTED: /* of stdin alone */
            print_failure("no replay: cannot read", name, errno);
            return 0;
        case READ_END:
            return 1;
        case READ_LINE:
            break;
        }
        shown = line;
        if (number == 1 && line.text[0] == SASZVIGOM_RECORD_SIZE) {
            printf("  no replay: ");
            print_name(name);
            printf(" is a sheet, and no log.\n  what to do: name a file that log has made.\n");
            return 0;
        }
        if (!take(&line, calls)) {
            printf("  no replay: line %lu is no call: ", number);
            print_word(shown.text, shown.length);
            printf("\n  what to do: write pick A B, auto or undo, each in a line of its own.\n");
            return 0;
        }
        if (!line.ended) {
            printf("  no replay: the file stops inside line %lu.\n"
                   "  what to do: get it again, whole; its last line ends like the others.\n",
                   number);
            return 0;
        }
        if (calls->count > MOST_CALLS) {
            printf("  no replay: the file has more than %u calls.\n"
                   "  what to do: leave out boxes that were made and taken back.\n",
                   (unsigned)MOST_CALLS);
            return 0;
        }
    }
}

int log_read(const char *name, struct calls *calls)
{
    struct stat about;
    /* Not blocking: a pipe may have no writer. */
    const int fd = open(name, O_RDONLY | O_NONBLOCK | O_NOCTTY);
    if (fd < 0) {
        print_failure("no replay: cannot open", name, errno);
        printf("  what to do: name a file that log has made, as it was named there.\n");
        return 0;
    }
    /* A pipe or a terminal may never end, or be the one that commands come from. */
    if (fstat(fd, &about) != 0 || !S_ISREG(about.st_mode)) {
        printf("  no replay: ");
        print_name(name);
        printf(" is no plain file.\n  what to do: name a file that log has made.\n");
        close(fd);
        return 0;
    }
    if (about.st_size > (off_t)MOST_CALLS * LINE_BYTES) {
        printf("  no replay: ");
        print_name(name);
        printf(" is larger than a log of %u calls.\n  what to do: name a file that log has made.\n",
               (unsigned)MOST_CALLS);
        close(fd);
        return 0;
    }
    FILE *file = fdopen(fd, "r");
    if (file == NULL) {
        print_failure("no replay: cannot open", name, errno);
        close(fd);
        return 0;
    }
    calls->named = 0;
    calls->count = 0;
    /* A file of size 0 has no lines; some files of the system that have no size
       never end. */
    const int done = about.st_size == 0 || read_calls(file, name, calls);
    fclose(file);
    return done;
}
