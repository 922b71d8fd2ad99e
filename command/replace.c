#define _XOPEN_SOURCE 700
#include "replace.h"

#include <errno.h>
#include <fcntl.h>
#include <limits.h>
#include <stdio.h>
#include <stdlib.h>
#include <sys/stat.h>
#include <unistd.h>

static bool write_all(int file, const char *bytes, size_t length)
{
    while (length > 0) {
        ssize_t more = write(file, bytes, length);
        if (more < 0 && errno != EINTR)
            return false;
        if (more > 0) {
            bytes += more;
            length -= (size_t)more;
        }
    }
    return true;
}

static bool write_device(const char *name, const void *bytes, size_t length)
{
    int file = open(name, O_WRONLY);
    if (file < 0)
        return false;
    bool good = write_all(file, bytes, length);
    return close(file) == 0 && good;
}

/* The permissions of a file that is new. */
static mode_t usual_permissions(void)
{
    mode_t without = umask(0);
    umask(without);
    return 0666 & ~without;
}

/* Whether the bytes are on the disk, under the draft's name. Closes the file. */
static bool write_draft(int file, const void *bytes, size_t length, mode_t permissions)
{
    bool good = write_all(file, bytes, length) && fchmod(file, permissions) == 0 && fsync(file) == 0;
    int fault = errno;
    if (close(file) == 0 && !good)
        errno = fault;
    return good;
}

static bool write_beside(const char *place, const void *bytes, size_t length, mode_t permissions)
{
    char draft[PATH_MAX];
    if (snprintf(draft, sizeof draft, "%s.XXXXXX", place) >= (int)sizeof draft) {
        errno = ENAMETOOLONG;
        return false;
    }
    int file = mkstemp(draft);
    if (file < 0)
        return false;
    if (write_draft(file, bytes, length, permissions) && rename(draft, place) == 0)
        return true;
    int fault = errno;
    unlink(draft);
    errno = fault;
    return false;
}

bool replace_file(const char *name, const void *bytes, size_t length)
{
    unsigned permissions;
    switch (file_kind(name, &permissions)) {
    case NO_FILE:
        return write_beside(name, bytes, length, usual_permissions());
    case OTHER_FILE:
        return write_device(name, bytes, length);
    default:
        break;
    }
    /* The file that a link leads to is replaced, and not the link. */
    char place[PATH_MAX];
    return realpath(name, place) && write_beside(place, bytes, length, permissions);
}
