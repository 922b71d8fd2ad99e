/* The arguments of the command. */
#ifndef ARGUMENTS_H
#define ARGUMENTS_H

#include <stdbool.h>

enum { MOST_OPERANDS = 2 };

/* Whether a subcommand takes -o OUT. */
enum out { OUT_NEVER, OUT_MAY, OUT_MUST };

struct arguments;

struct subcommand {
    const char *name;
    int (*run)(const struct arguments *arguments); /* answers the status */
    int operands;
    bool json;
    enum out out;
    const char *usage;
};

struct arguments {
    const struct subcommand *subcommand;
    const char *operands[MOST_OPERANDS]; /* files, in the order of the usage */
    const char *out;                     /* null where there is none */
    bool json, help, version;
};

/* Reads them. False where they are not as the usage says: that is then told. */
bool read_arguments(int count, char **words, struct arguments *arguments);

/* Prints the help, or the version. */
void print_help(void);
void print_version(void);

#endif
