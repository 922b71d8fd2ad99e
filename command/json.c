#include "json.h"

#include <stdbool.h>
#include <stdio.h>
#include <string.h>

/* Whether nothing stands yet in the innermost object or array. */
static bool first = true;

/* How many bytes from here on are one character of UTF-8; 0 where they are none. */
static size_t character(const unsigned char *bytes, size_t length)
{
    size_t size = bytes[0] < 0x80 ? 1 : bytes[0] < 0xC2 ? 0 : bytes[0] < 0xE0 ? 2 : bytes[0] < 0xF0 ? 3 : bytes[0] < 0xF5 ? 4 : 0;
    if (size > length)
        return 0;
    for (size_t i = 1; i < size; i++)
        if ((bytes[i] & 0xC0) != 0x80)
            return 0;
    /* Too many bytes for the character, a surrogate, or past the last one. */
    bool none = (bytes[0] == 0xE0 && bytes[1] < 0xA0) || (bytes[0] == 0xED && bytes[1] > 0x9F)
             || (bytes[0] == 0xF0 && bytes[1] < 0x90) || (bytes[0] == 0xF4 && bytes[1] > 0x8F);
    return none ? 0 : size;
}

/* What is not UTF-8 becomes the replacement character. */
static void print_string(const char *at, size_t length)
{
    const unsigned char *bytes = (const unsigned char *)at;
    putchar('"');
    for (size_t i = 0; i < length;) {
        size_t size = character(bytes + i, length - i);
        if (size == 0)
            fputs("\\ufffd", stdout);
        else if (bytes[i] < ' ' || bytes[i] == 0x7F)
            printf("\\u%04x", bytes[i]);
        else if (bytes[i] == '"' || bytes[i] == '\\')
            printf("\\%c", bytes[i]);
        else
            fwrite(bytes + i, 1, size, stdout);
        i += size == 0 ? 1 : size;
    }
    putchar('"');
}

static void member(const char *key)
{
    if (!first)
        putchar(',');
    if (key)
        printf("\"%s\":", key);
    first = false;
}

static void open_with(const char *key, char sign)
{
    member(key);
    putchar(sign);
    first = true;
}

static void close_with(char sign)
{
    putchar(sign);
    first = false;
}

void json_begin(const char *key) { open_with(key, '{'); }
void json_end(void) { close_with('}'); }
void json_array(const char *key) { open_with(key, '['); }
void json_array_end(void) { close_with(']'); }

void json_number(const char *key, unsigned long number)
{
    member(key);
    printf("%lu", number);
}

void json_bytes(const char *key, const char *bytes, size_t length)
{
    member(key);
    print_string(bytes, length);
}

void json_word(const char *key, const char *word)
{
    json_bytes(key, word, strlen(word));
}

void json_line(void)
{
    putchar('\n');
    first = true;
}
