/* The one reader of statements, instructions and values: a text is held against a pattern. */
#include "match.h"

#include <ctype.h>
#include <errno.h>
#include <stdlib.h>
#include <string.h>

/* Reads a number of at most 64 bits; NULL where there is none, else what stands behind it. */
static const char *number_read(const char *text, uint64_t *number)
{
    bool minus = *text == '-';
    text += minus;
    bool hexadecimal = strncmp(text, "0x", 2) == 0;
    text += hexadecimal ? 2 : 0;
    char *end;
    if (hexadecimal ? !isxdigit((unsigned char)*text) : !isdigit((unsigned char)*text))
        return NULL;
    errno = 0;
    *number = strtoull(text, &end, hexadecimal ? 16 : 10);
    if (minus)
        *number = -*number;
    return errno == 0 ? end : NULL;
}

bool matches(const char *text, const char *pattern, struct found *found)
{
    size_t numbers = 0;
    for (; *pattern != '\0' && *pattern != '*'; pattern++) {
        if (*pattern == '#')
            text = number_read(text, &found->numbers[numbers++]);
        else
            text = *text == *pattern ? text + 1 : NULL;
        if (text == NULL)
            return false;
    }
    found->rest = text;
    return *pattern == '*' || *text == '\0';
}
