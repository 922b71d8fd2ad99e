/* The six subcommands; each answers the status. */
#ifndef SUBCOMMANDS_H
#define SUBCOMMANDS_H

struct arguments;

int check(const struct arguments *arguments);
int fill(const struct arguments *arguments);
int table(const struct arguments *arguments);
int show(const struct arguments *arguments);
int judge(const struct arguments *arguments);
int names(const struct arguments *arguments);

#endif
