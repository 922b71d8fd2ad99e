/* Printing for people: colours, and bytes of any kind. */
#ifndef TEXT_H
#define TEXT_H

#include <stddef.h>
#include <stdio.h>

enum colour { RED, GREEN };

/* Prints the words in colour where the stream is a terminal that wants it, and plainly elsewhere. */
void print_coloured(FILE *stream, enum colour colour, const char *words);

/* Prints the bytes; those that could move a terminal's cursor as their number, <1B>. */
void print_safely(FILE *stream, const char *bytes, size_t length);

/* As that, with every byte beyond ASCII as its number too. */
void print_ascii(FILE *stream, const char *bytes, size_t length);

/* Prints a count and what it counts: 1 entry, 2 entries. */
void print_count(FILE *stream, unsigned long count, const char *one, const char *many);

#endif
