#include "policy.h"

#include "files.h"
#include "refusal.h"
#include "status.h"

#include <string.h>

/* Of a thing in the list. */
enum { THING_KIND, THING_LINE, THING_START, THING_LENGTH, THING_WORDS };

/* Of the names that were found. */
enum { NAMES_KEPT = 4096, LONGEST_IDENTIFIER = 128 };

bool read_text(const char *file, struct text *text)
{
    text->file = file;
    return read_file(file, text->bytes, sizeof text->bytes, &text->length);
}

/* Numbers what the list has: a thing's number is how many of its kind stand before it. */
static void index_list(struct policy *policy)
{
    uint32_t counts[KINDS] = {0};
    policy->count = policy->list_len / THING_WORDS;
    for (size_t i = 0; i < policy->count; i++) {
        const uint32_t *words = &policy->list[i * THING_WORDS];
        struct thing *thing = &policy->things[i];
        *thing = (struct thing){
            .kind = words[THING_KIND],
            .line = words[THING_LINE],
            .number = counts[words[THING_KIND]]++,
            .name = (const char *)&policy->text.bytes[words[THING_START]],
            .length = words[THING_LENGTH],
        };
        policy->numbered[thing->kind][thing->number] = thing;
    }
}

int read_policy(const char *file, bool json, struct policy *policy)
{
    struct text *text = &policy->text;
    if (!read_text(file, text))
        return STATUS_TROUBLE;
    uint64_t reading = dovetenon_read(text->bytes, text->length, policy->table, DOVETENON_TABLE_WORDS);
    if (dovetenon_reading_class(reading) != DOVETENON_READING_ACCEPTED)
        return tell_refusal(text, dovetenon_reading_number(reading), dovetenon_reading_line(reading), json);
    uint64_t listing = dovetenon_list(text->bytes, text->length, policy->list, DOVETENON_LIST_WORDS);
    if (dovetenon_listing_class(listing) != DOVETENON_LISTING_LISTED)
        return tell_refusal(text, dovetenon_listing_number(listing), dovetenon_listing_line(listing), json);
    policy->list_len = dovetenon_listing_words(listing);
    index_list(policy);
    return STATUS_GOOD;
}

const struct thing *thing_numbered(const struct policy *policy, uint32_t kind, uint32_t number)
{
    return policy->numbered[kind][number];
}

/* A name and what was found for it. A log names the same functions over and over, and finding goes through the whole list. */
struct known {
    uint32_t kind; /* 0 where there is none */
    size_t length, number;
    char name[LONGEST_IDENTIFIER];
};

/* The place for a name among those that are kept; another one may have it. */
static struct known *place_for(uint32_t kind, const char *name, size_t length)
{
    static struct known kept[NAMES_KEPT];
    uint32_t hash = kind;
    for (size_t i = 0; i < length; i++)
        hash = hash * 31 + (unsigned char)name[i];
    return &kept[hash % NAMES_KEPT];
}

static size_t find(const struct policy *policy, uint32_t kind, const char *name, size_t length)
{
    return dovetenon_find(policy->text.bytes, policy->text.length, policy->list, policy->list_len, kind,
                          (const uint8_t *)name, length);
}

size_t number_named(const struct policy *policy, uint32_t kind, const char *name, size_t length)
{
    if (length > LONGEST_IDENTIFIER)
        return find(policy, kind, name, length);
    struct known *known = place_for(kind, name, length);
    if (known->kind != kind || known->length != length || memcmp(known->name, name, length) != 0) {
        *known = (struct known){.kind = kind, .length = length, .number = find(policy, kind, name, length)};
        memcpy(known->name, name, length);
    }
    return known->number;
}
