#define _XOPEN_SOURCE 700

#include "input.h"

#include <errno.h>
#include <poll.h>
#include <signal.h>
#include <string.h>
#include <sys/select.h>
#include <unistd.h>

#define LINE_COLUMNS 160
#define WORD_COLUMNS 30
#define HALF_COLUMNS 40

static int interruptible; /* whether a line of stdin can be given up */
static volatile sig_atomic_t interrupted;
static sigset_t while_waiting; /* the signals that are blocked while waiting */

static void interrupt(int signal_number)
{
    (void)signal_number;
    interrupted = 1;
}

void allow_interrupts(void)
{
    struct sigaction action;
    memset(&action, 0, sizeof action);
    sigemptyset(&action.sa_mask);
    action.sa_handler = interrupt;
    sigset_t held;
    sigemptyset(&held);
    sigaddset(&held, SIGINT);
    sigaddset(&held, SIGQUIT);
    sigprocmask(SIG_BLOCK, &held, &while_waiting);
    sigdelset(&while_waiting, SIGINT);
    sigdelset(&while_waiting, SIGQUIT);
    sigaction(SIGINT, &action, NULL);
    sigaction(SIGQUIT, &action, NULL);
    setvbuf(stdin, NULL, _IONBF, 0); /* every byte is awaited */
    interruptible = 1;
}

/* Waits until stdin can be read; returns 0 if an interrupt comes first. */
static int await_byte(void)
{
    while (!interrupted) {
        fd_set input;
        FD_ZERO(&input);
        FD_SET(STDIN_FILENO, &input);
        if (pselect(STDIN_FILENO + 1, &input, NULL, NULL, NULL, &while_waiting) > 0 || errno != EINTR)
            return 1;
    }
    return 0;
}

/* Returns the next byte, or EOF at the end of the file, after an error, which
   is left in errno, and after an interrupt. */
static int next_byte(FILE *file)
{
    for (;;) {
        if (interruptible && file == stdin && !await_byte())
            return EOF;
        errno = 0;
        const int c = getc(file);
        if (c != EOF || !ferror(file))
            return c;
        if (errno == EAGAIN || errno == EWOULDBLOCK) {
            struct pollfd wait = {fileno(file), POLLIN, 0};
            poll(&wait, 1, -1);
        } else if (errno != EINTR) {
            return c;
        }
        clearerr(file);
    }
}

enum reading read_line(FILE *file, struct line *line)
{
    line->length = 0;
    line->cut = 0;
    line->text[0] = 0;
    int c = next_byte(file);
    const int any = c != EOF;
    for (; c != EOF && c != '\n'; c = next_byte(file)) {
        if (line->length < LINE_BYTES)
            line->text[line->length++] = (char)c;
        else
            line->cut = 1;
    }
    line->ended = c == '\n';
    line->text[line->length] = 0;
    if (interrupted) {
        interrupted = 0;
        return READ_INTERRUPTED;
    }
    if (c == EOF && ferror(file))
        return READ_FAILED;
    return any ? READ_LINE : READ_END;
}

/* Prints bytes in at most `most` columns, and dots for what is left out. */
static void print_bytes(const char *bytes, size_t length, size_t most)
{
    size_t column = 0;
    for (size_t i = 0; i < length; i++) {
        const unsigned char c = (unsigned char)bytes[i];
        const int printable = c >= ' ' && c <= '~';
        column += printable ? 1 : 4;
        if (column > most) {
            printf("...");
            return;
        }
        printf(printable ? "%c" : "\\x%02x", c);
    }
}

void print_word(const char *word, size_t length)
{
    print_bytes(word, length, WORD_COLUMNS);
}

void print_half(const char *bytes, size_t length)
{
    print_bytes(bytes, length, HALF_COLUMNS);
}

void print_name(const char *name)
{
    print_bytes(name, strlen(name), SIZE_MAX);
}

void print_argument(const char *name)
{
    const char *const plain = "ABCDEFGHIJKLMNOPQRSTUVWXYZabcdefghijklmnopqrstuvwxyz0123456789._/-";
    printf("%s", strspn(name, plain) == strlen(name) ? name : "FILE");
}

void print_line(const struct line *line)
{
    print_bytes(line->text, line->length, LINE_COLUMNS);
}

static int blank(char c)
{
    return c == ' ' || c == '\t' || c == '\r' || c == '\v' || c == '\f';
}

size_t split(struct line *line, struct word words[MOST_WORDS])
{
    size_t count = 0, i = 0;
    for (;;) {
        while (i < line->length && blank(line->text[i]))
            i++;
        if (i == line->length)
            return count;
        const size_t start = i;
        while (i < line->length && !blank(line->text[i]))
            i++;
        if (count < MOST_WORDS) {
            words[count].text = line->text + start;
            words[count].length = i - start;
        }
        count++;
        if (i < line->length)
            line->text[i++] = 0;
    }
}

int is_word(const struct word *word, const char *letters)
{
    return word->length == strlen(letters) && memcmp(word->text, letters, word->length) == 0;
}

int is_digits(const struct word *word)
{
    for (size_t i = 0; i < word->length; i++)
        if (word->text[i] < '0' || word->text[i] > '9')
            return 0;
    return word->length > 0;
}

int is_number(const struct word *word, uint64_t *number)
{
    uint64_t value = 0;
    if (!is_digits(word))
        return 0;
    for (size_t i = 0; i < word->length; i++) {
        const uint64_t digit = (uint64_t)(word->text[i] - '0');
        if (value > (UINT64_MAX - digit) / 10)
            return 0;
        value = 10 * value + digit;
    }
    *number = value;
    return 1;
}
