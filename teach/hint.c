#include "hint.h"

#include <string.h>

#define MOST_LETTERS 10

static const struct {
    const char *word, *command;
} others[] = {
    {"box", "pick"},      {"pair", "pick"},      {"hand", "pick"},      {"put", "pick"},
    {"automatic", "auto"}, {"next", "auto"},     {"rest", "all"},       {"finish", "all"},
    {"back", "undo"},     {"take-back", "undo"}, {"takeback", "undo"},  {"take", "undo"},
    {"reset", "clear"},   {"restart", "clear"},  {"partners", "row"},   {"who", "row"},
    {"ask", "why"},       {"explain", "why"},    {"picture", "show"},   {"strip", "show"},
    {"loose", "show"},    {"boxes", "show"},     {"list", "show"},      {"rows", "show"},
    {"seed", "draws"},    {"save", "log"},       {"write", "log"},      {"compare", "replay"},
    {"read", "replay"},   {"exit", "quit"},      {"bye", "quit"},       {"leave", "quit"},
    {"end", "quit"},      {"stop", "quit"},
    {"q", "quit"},        {"yes", "quit"},       {"y", "quit"},         {"?", "help"},
    {"commands", "help"},
};

static char lower(char c)
{
    return c >= 'A' && c <= 'Z' ? (char)(c - 'A' + 'a') : c;
}

/* Copies a word in lower case; returns 0 if it is too long. */
static size_t copy_lower(char letters[MOST_LETTERS + 1], const struct word *word)
{
    if (word->length > MOST_LETTERS)
        return 0;
    for (size_t i = 0; i < word->length; i++)
        letters[i] = lower(word->text[i]);
    letters[word->length] = 0;
    return word->length;
}

const char *other_word(const struct word *word)
{
    char letters[MOST_LETTERS + 1];
    if (copy_lower(letters, word) == 0)
        return NULL;
    for (size_t i = 0; i < sizeof others / sizeof others[0]; i++)
        if (strcmp(letters, others[i].word) == 0)
            return others[i].command;
    return NULL;
}

int outside(const struct word *word)
{
    static const char *const words[] = {"open", "sheet", "desk", "load", "ls", "cat", "cd"};
    if (word->text[0] == '.' && word->text[1] == '/')
        return 1;
    for (size_t i = 0; i < sizeof words / sizeof words[0]; i++)
        if (is_word(word, words[i]))
            return 1;
    return 0;
}

int nearly(const struct word *word, const char *name)
{
    char a[MOST_LETTERS + 1];
    const size_t length = copy_lower(a, word), other = strlen(name);
    size_t i = 0;
    if (length == 0 || strlen(a) != length || other > MOST_LETTERS)
        return 0;
    while (i < length && i < other && a[i] == name[i])
        i++;
    if (i == length && i == other)
        return 1;
    if (length == 1 || other == 1)
        return 0;
    if (length == other + 1)
        return strcmp(a + i + 1, name + i) == 0;
    if (other == length + 1)
        return strcmp(a + i, name + i + 1) == 0;
    if (length != other)
        return 0;
    return strcmp(a + i + 1, name + i + 1) == 0 ||
           (a[i] == name[i + 1] && a[i + 1] == name[i] && strcmp(a + i + 2, name + i + 2) == 0);
}

int in_capitals(const struct word *word, const char *name)
{
    char letters[MOST_LETTERS + 1];
    return copy_lower(letters, word) == strlen(name) && strcmp(letters, name) == 0;
}

int is_plain(const struct word *word)
{
    for (size_t i = 0; i < word->length; i++)
        if (word->text[i] < ' ' || word->text[i] > '~')
            return 0;
    return 1;
}

char letter_for_digit(const struct word *word)
{
    char letter = 0;
    for (size_t i = 0; i < word->length; i++) {
        const char c = word->text[i];
        if (c == 'O' || c == 'o' || c == 'I' || c == 'l')
            letter = c;
        else if (c < '0' || c > '9')
            return 0;
    }
    return letter;
}
