/* A policy file, read by the proved functions. */
#ifndef POLICY_H
#define POLICY_H

#include "dovetenon.h"

/* The bytes of a file: one more than the reader takes, so that it sees where there are too many. */
struct text {
    const char *file;
    uint8_t bytes[DOVETENON_TEXT_BYTES + 1];
    size_t length;
};

/* Reads the bytes. False where they cannot be read: that is then told. */
bool read_text(const char *file, struct text *text);

/* What a policy names, at most: docs/FORMAT.md, "Limits". */
enum { MOST_THINGS = DOVETENON_LIST_WORDS / 4, MOST_OF_A_KIND = 1024, KINDS = DOVETENON_KIND_ENTRY + 1 };

/* Something that a policy names. */
struct thing {
    uint32_t kind, line, number;
    const char *name;
    size_t length;
};

struct policy {
    struct text text;
    uint16_t table[DOVETENON_TABLE_WORDS];
    uint32_t list[DOVETENON_LIST_WORDS];
    size_t list_len;                     /* in words */
    struct thing things[MOST_THINGS];    /* those of the list, in file order */
    size_t count;
    const struct thing *numbered[KINDS][MOST_OF_A_KIND]; /* the same by kind and number */
};

/* Reads a file that must be accepted. Answers the status; what is wrong is told. */
int read_policy(const char *file, bool json, struct policy *policy);

/* The thing of a kind by a number below its count, as every number is that the proved functions give. */
const struct thing *thing_numbered(const struct policy *policy, uint32_t kind, uint32_t number);

/* The number of a kind's thing by its name; where there is none, a number that is not below the count. It remembers, so it
   is for one policy in a run. */
size_t number_named(const struct policy *policy, uint32_t kind, const char *name, size_t length);

#endif
