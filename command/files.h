/* Files as they come and go, and what is said of them. */
#ifndef FILES_H
#define FILES_H

#include <stdbool.h>
#include <stddef.h>
#include <stdio.h>

/* What a file is called in a message: "-" is standard input. */
const char *shown_name(const char *name);

/* Says on standard error what is wrong with a file, behind what was printed so far. */
void complain(const char *name, const char *why);

/* Opens a file, or standard input for "-". Null where it cannot be: that is then told. */
FILE *open_file(const char *name);

/* Reads a file into the room lent, and no further. False where it cannot be read: that is then told. */
bool read_file(const char *name, void *bytes, size_t room, size_t *length);

/* Writes to a file, whole or not at all; or to standard output where the name is null or "-". False where it cannot be
   written: that is then told. */
bool write_file(const char *name, const void *bytes, size_t length);

/* Closes standard output: nothing is printed after it. Whether all that was printed has gone out; if not, that is told. */
bool finish_output(void);

#endif
