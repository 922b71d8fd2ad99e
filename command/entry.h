/* How an entry is called. */
#ifndef ENTRY_H
#define ENTRY_H

#include "policy.h"

/* Prints its number, line and subject: entry 0 (line 10, Bill). */
void print_entry(const struct thing *entry);

/* The same as members of a JSON object. */
void json_entry(const struct thing *entry);

#endif
