/* Where the words of a table stand: docs/TABLE.md. */
#ifndef LAYOUT_H
#define LAYOUT_H

#include <stdint.h>

enum {
    LAYOUT_OBJECTS = 32,      /* the domain of each object */
    LAYOUT_FUNCTIONS = 1056,  /* the domain of each function */
    LAYOUT_ENTRIES = 2080,
    LAYOUT_DESCRIPTORS = 7712
};

/* Of a context, the front of an entry and of a descriptor. */
enum { CONTEXT_ELEMENTS = 0, CONTEXT_UID = 1, CONTEXT_GID = 2, CONTEXT_NAMESPACE = 3, CONTEXT_PATTERN = 4 };

/* Of an element of a pattern: 0 is `all`, n + 1 function n, and from here up are the subject domains. */
enum { FIRST_DOMAIN = 1025 };

/* Of an entry. */
enum { ENTRY_SUBJECT = 20, ENTRY_READS = 21, ENTRY_WRITES = 22, ENTRY_CALL = 24, ENTRY_RETURN = 33, ENTRY_WORDS = 44 };

/* Of a descriptor. */
enum { DESCRIPTOR_OBJECTS = 20, DESCRIPTOR_WORDS = 32 };

/* The counts of a well-formed table. */
struct figures {
    unsigned object_domains, subject_domains, objects, functions, entries, descriptors;
};
struct figures figures_of(const uint16_t *table);

/* An entry, and a descriptor, by its number. */
const uint16_t *entry_block(const uint16_t *table, unsigned entry);
const uint16_t *descriptor_block(const uint16_t *table, unsigned descriptor);

#endif
