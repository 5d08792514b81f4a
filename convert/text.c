#include "text.h"

#include <errno.h>
#include <stdlib.h>

#define FIRST_ROOM 65536u

int text_read(struct text *text, FILE *file)
{
    size_t room = FIRST_ROOM;
    text->length = 0;
    text->bytes = malloc(room);
    while (text->bytes != NULL) {
        errno = 0;
        text->length += fread(text->bytes + text->length, 1, room - text->length, file);
        if (text->length < room) {
            if (!ferror(file))
                return 1;
            break;
        }
        uint8_t *const more = room <= SIZE_MAX / 2 ? realloc(text->bytes, 2 * room) : NULL;
        if (more == NULL) {
            errno = ENOMEM;
            break;
        }
        text->bytes = more;
        room *= 2;
    }
    const int error = errno;
    free(text->bytes);
    text->bytes = NULL;
    errno = error;
    return 0;
}

int is_seed(const char *word, uint32_t *seed)
{
    uint64_t value = 0;
    const char *digit = word;
    for (; *digit >= '0' && *digit <= '9' && value <= UINT32_MAX; digit++)
        value = 10 * value + (uint64_t)(*digit - '0');
    if (digit == word || *digit != '\0' || value > UINT32_MAX)
        return 0;
    *seed = (uint32_t)value;
    return 1;
}
