/* statx, since its struct is the same on every machine: this may be compiled by the headers of another one. */
#define _GNU_SOURCE
#include "replace.h"

#include <fcntl.h>
#include <sys/stat.h>

enum kind file_kind(const char *name, unsigned *permissions)
{
    struct statx found;
    if (statx(AT_FDCWD, name, 0, STATX_TYPE | STATX_MODE, &found) != 0)
        return NO_FILE;
    *permissions = found.stx_mode & 0777;
    return S_ISREG(found.stx_mode) ? PLAIN_FILE : OTHER_FILE;
}
