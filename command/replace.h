/* Files replaced whole. */
#ifndef REPLACE_H
#define REPLACE_H

#include <stdbool.h>
#include <stddef.h>

/* Writes the bytes beside the file and then puts them in its place, so that it is never half written; a device or a pipe
   is written as it stands. False, with errno, where that cannot be: the file is then as it was. */
bool replace_file(const char *name, const void *bytes, size_t length);

/* What stands at a name. */
enum kind { NO_FILE, PLAIN_FILE, OTHER_FILE };

/* Of a plain file it tells the permissions too. */
enum kind file_kind(const char *name, unsigned *permissions);

#endif
