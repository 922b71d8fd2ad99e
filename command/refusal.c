#include "refusal.h"

#include "files.h"
#include "json.h"
#include "status.h"
#include "text.h"
#include "words.h"

#include <stdio.h>
#include <string.h>

/* So much of a long line is shown, and so much of it before a mark. */
enum { SHOWN_BYTES = 120, SHOWN_BEFORE = 80 };

/* A line of the text, without the LF, or CR and LF, that ends it, and whether one does. */
struct line {
    const char *bytes; /* null where the text ends before it */
    size_t length;
    bool ended;
};

static struct line line_of(const struct text *text, uint32_t number)
{
    const char *at = (const char *)text->bytes, *end = at + text->length;
    for (; number > 0 && at < end; number--) {
        const char *ending = memchr(at, '\n', (size_t)(end - at));
        if (number == 1) {
            bool has_cr = ending && ending > at && ending[-1] == '\r';
            return (struct line){at, (size_t)((ending ? ending : end) - at) - (has_cr ? 1 : 0), ending != NULL};
        }
        at = ending ? ending + 1 : end;
    }
    return (struct line){NULL, 0, false};
}

/* Where the byte stands that the text is refused for with 3: behind the longest front that is not. It is looked for in its
   line alone: a front that ends between a CR and its LF is refused for that CR. */
static const char *bad_byte(const struct text *text, struct line line)
{
    size_t good = (size_t)(line.bytes - (const char *)text->bytes), bad = good + line.length;
    while (good + 1 < bad) {
        size_t middle = good + (bad - good) / 2;
        if (dovetenon_reading_number(dovetenon_page(text->bytes, middle)) == DOVETENON_BAD_BYTE)
            bad = middle;
        else
            good = middle;
    }
    return (const char *)&text->bytes[good];
}

/* The byte to be marked in a line, or null: only 3 has a place that the proved answers tell. */
static const char *marked(const struct text *text, uint16_t number, struct line line)
{
    return number == DOVETENON_BAD_BYTE ? bad_byte(text, line) : NULL;
}

/* Shows the line, and a mark below it. */
static void show_line(uint32_t number, struct line line, const char *mark)
{
    if (!line.bytes) {
        fprintf(stderr, "%5lu | (the text ends before this line)\n", (unsigned long)number);
        return;
    }
    size_t before = mark ? (size_t)(mark - line.bytes) : 0;
    size_t from = before > SHOWN_BEFORE ? before - SHOWN_BEFORE : 0;
    size_t length = line.length - from > SHOWN_BYTES ? SHOWN_BYTES : line.length - from;
    fprintf(stderr, "%5lu | %s", (unsigned long)number, from > 0 ? "..." : "");
    print_ascii(stderr, line.bytes + from, length);
    fputs(from + length < line.length ? "...\n" : line.ended ? "\n" : "<no LF>\n", stderr);
    if (mark) {
        fprintf(stderr, "      | %*s", (int)(before - from) + (from > 0 ? 3 : 0), "");
        print_coloured(stderr, GREEN, "^~~~");
        fputs("\n", stderr);
    }
}

static void tell_json(const struct text *text, uint16_t number, uint32_t line, struct line shown, const char *mark)
{
    json_begin(NULL);
    json_word("file", text->file);
    json_word("result", "refused");
    json_number("number", number);
    json_number("line", line);
    if (mark)
        json_number("column", (unsigned long)(mark - shown.bytes) + 1);
    json_word("means", refusal_words(number)->means);
    json_word("help", refusal_words(number)->help);
    json_end();
    json_line();
}

/* Tells where, the number, and what it means. */
static void tell_first(const char *file, uint32_t line, uint16_t number)
{
    fflush(stdout);
    print_safely(stderr, shown_name(file), strlen(shown_name(file)));
    if (line > 0)
        fprintf(stderr, ":%lu", (unsigned long)line);
    fputs(": ", stderr);
    print_coloured(stderr, RED, "refused");
    fprintf(stderr, " with %d: %s\n", number, refusal_words(number)->means);
}

void tell_number(const char *file, uint16_t number)
{
    tell_first(file, 0, number);
    fprintf(stderr, "help: %s\n", refusal_words(number)->help);
}

int tell_refusal(const struct text *text, uint16_t number, uint32_t line, bool json)
{
    struct line shown = line_of(text, line);
    const char *mark = marked(text, number, shown);
    if (json) {
        tell_json(text, number, line, shown, mark);
    } else {
        tell_first(text->file, line, number);
        if (line > 0)
            show_line(line, shown, mark);
        fprintf(stderr, "help: %s\n", refusal_words(number)->help);
    }
    /* A file that is too long counts among those that cannot be used. */
    return number == DOVETENON_TEXT_TOO_LONG ? STATUS_TROUBLE : STATUS_REFUSED;
}
