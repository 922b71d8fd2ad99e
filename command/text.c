#define _POSIX_C_SOURCE 200809L
#include "text.h"

#include <stdbool.h>
#include <stdlib.h>
#include <string.h>
#include <unistd.h>

static bool is_colourful(FILE *stream)
{
    const char *none = getenv("NO_COLOR"), *terminal = getenv("TERM");
    return isatty(fileno(stream)) && !(none && *none) && !(terminal && strcmp(terminal, "dumb") == 0);
}

/* Of standard output and standard error; each is asked once. */
static bool wants_colour(FILE *stream)
{
    static enum { UNKNOWN, PLAIN, COLOURFUL } known[2];
    int which = stream == stdout ? 0 : 1;
    if (known[which] == UNKNOWN)
        known[which] = is_colourful(stream) ? COLOURFUL : PLAIN;
    return known[which] == COLOURFUL;
}

void print_coloured(FILE *stream, enum colour colour, const char *words)
{
    static const char *const codes[] = {[RED] = "1;31", [GREEN] = "32"};
    if (wants_colour(stream))
        fprintf(stream, "\033[%sm%s\033[0m", codes[colour], words);
    else
        fputs(words, stream);
}

static void print_bytes(FILE *stream, const char *bytes, size_t length, int last)
{
    for (size_t i = 0; i < length; i++) {
        unsigned char byte = (unsigned char)bytes[i];
        if (byte < ' ' || byte == 0x7F || byte > last)
            fprintf(stream, "<%02X>", byte);
        else
            putc(byte, stream);
    }
}

void print_safely(FILE *stream, const char *bytes, size_t length)
{
    print_bytes(stream, bytes, length, 0xFF);
}

void print_ascii(FILE *stream, const char *bytes, size_t length)
{
    print_bytes(stream, bytes, length, 0x7E);
}

void print_count(FILE *stream, unsigned long count, const char *one, const char *many)
{
    fprintf(stream, "%lu %s", count, count == 1 ? one : many);
}
