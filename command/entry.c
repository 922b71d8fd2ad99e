#include "entry.h"

#include "json.h"

#include <stdio.h>

void print_entry(const struct thing *entry)
{
    printf("entry %lu (line %lu, %.*s)", (unsigned long)entry->number, (unsigned long)entry->line, (int)entry->length, entry->name);
}

void json_entry(const struct thing *entry)
{
    json_number("entry", entry->number);
    json_number("line", entry->line);
    json_bytes("subject", entry->name, entry->length);
}
