#include "files.h"

#include "replace.h"
#include "text.h"

#include <errno.h>
#include <string.h>

const char *shown_name(const char *name)
{
    return strcmp(name, "-") == 0 ? "standard input" : name;
}

static void say(const char *name, const char *why)
{
    fputs("dovetenon: ", stderr);
    print_safely(stderr, name, strlen(name));
    fprintf(stderr, ": %s\n", why);
}

void complain(const char *name, const char *why)
{
    fflush(stdout);
    say(name, why);
}

FILE *open_file(const char *name)
{
    FILE *file = strcmp(name, "-") == 0 ? stdin : fopen(name, "rb");
    if (!file)
        complain(shown_name(name), strerror(errno));
    return file;
}

bool read_file(const char *name, void *bytes, size_t room, size_t *length)
{
    FILE *file = open_file(name);
    if (!file)
        return false;
    *length = fread(bytes, 1, room, file);
    bool good = !ferror(file);
    if (!good)
        complain(shown_name(name), strerror(errno));
    if (file != stdin)
        fclose(file);
    return good;
}

bool write_file(const char *name, const void *bytes, size_t length)
{
    if (!name || strcmp(name, "-") == 0) {
        fwrite(bytes, 1, length, stdout);
        return true; /* until finish_output */
    }
    bool good = replace_file(name, bytes, length);
    if (!good)
        complain(name, strerror(errno));
    return good;
}

bool finish_output(void)
{
    bool good = fflush(stdout) == 0 && !ferror(stdout);
    int fault = errno;
    if (fclose(stdout) != 0 && good) {
        fault = errno;
        good = false;
    }
    if (!good)
        say("standard output", strerror(fault));
    return good;
}
