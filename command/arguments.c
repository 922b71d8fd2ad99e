#include "arguments.h"

#include "subcommands.h"
#include "text.h"

#include <stdio.h>
#include <string.h>

static const struct subcommand subcommands[] = {
    {"check", check, 1, true, OUT_NEVER, "check [--json] FILE"},
    {"fill", fill, 1, false, OUT_MAY, "fill [-o OUT] FILE"},
    {"table", table, 1, false, OUT_MUST, "table -o OUT FILE"},
    {"show", show, 1, false, OUT_NEVER, "show TABLE"},
    {"judge", judge, 2, true, OUT_NEVER, "judge [--json] FILE EVENTS"},
    {"names", names, 1, true, OUT_NEVER, "names [--json] FILE"},
};
enum { SUBCOMMANDS = sizeof subcommands / sizeof *subcommands };

static const char help[] =
    "\n"
    "  check   whether a policy file is accepted, its figures, and whether two entries clash\n"
    "  fill    the file with every default written\n"
    "  table   the words of its table, low byte first\n"
    "  show    a table as readable text, with numbers\n"
    "  judge   a verdict on each event, one event a line\n"
    "  names   its domains, functions, objects and entries, with their numbers and lines\n"
    "\n"
    "  -o OUT     write to OUT, whole or not at all; FILE itself may be OUT\n"
    "  --json     one JSON object a line\n"
    "  --help     print this\n"
    "  --version  print the version\n"
    "  -          as a file: standard input, or for OUT standard output\n"
    "\n"
    "Status: 0 good; 1 refused, or a violation; 2 wrong arguments or a file that cannot be used; 3 a clash.\n"
    "The format of files and of events is in docs/FORMAT.md, every number in docs/REFUSALS.md.\n";

void print_help(void)
{
    for (int i = 0; i < SUBCOMMANDS; i++)
        printf("%s dovetenon %s\n", i == 0 ? "usage:" : "      ", subcommands[i].usage);
    fputs(help, stdout);
}

void print_version(void)
{
    puts("dovetenon 1.0");
}

static bool wrong(const struct arguments *arguments, const char *why, const char *word)
{
    fputs("dovetenon: ", stderr);
    fputs(why, stderr);
    print_safely(stderr, word, strlen(word));
    const char *usage = arguments->subcommand ? arguments->subcommand->usage
                                              : "check|fill|table|show|judge|names [--json] [-o OUT] FILE [EVENTS]; --help tells more";
    fprintf(stderr, "\nusage: dovetenon %s\n", usage);
    return false;
}

static bool take_subcommand(const char *word, struct arguments *arguments)
{
    for (int i = 0; i < SUBCOMMANDS; i++)
        if (strcmp(word, subcommands[i].name) == 0) {
            arguments->subcommand = &subcommands[i];
            return true;
        }
    return wrong(arguments, "no such subcommand: ", word);
}

/* Takes a word that is no option: the subcommand, then its operands. */
static bool take_operand(const char *word, struct arguments *arguments)
{
    if (!arguments->subcommand)
        return take_subcommand(word, arguments);
    for (int i = 0; i < arguments->subcommand->operands; i++)
        if (!arguments->operands[i]) {
            arguments->operands[i] = word;
            return true;
        }
    return wrong(arguments, "one argument too many: ", word);
}

/* Takes an option, and after -o the word behind it; answers how many words it took, 0 where it is wrong. */
static int take_option(char **words, struct arguments *arguments)
{
    if (strcmp(words[0], "-o") == 0 && words[1] && !arguments->out) {
        arguments->out = words[1];
        return 2;
    }
    bool *flag = strcmp(words[0], "--json") == 0    ? &arguments->json
               : strcmp(words[0], "--help") == 0    ? &arguments->help
               : strcmp(words[0], "--version") == 0 ? &arguments->version
                                                    : NULL;
    if (flag) {
        *flag = true;
        return 1;
    }
    const char *why = strcmp(words[0], "-o") != 0 ? "no such option: " : words[1] ? "given twice: " : "a file is due after ";
    wrong(arguments, why, words[0]);
    return 0;
}

/* Whether they are all there, and go together. */
static bool complete(const struct arguments *arguments)
{
    const struct subcommand *subcommand = arguments->subcommand;
    if (!subcommand)
        return wrong(arguments, "a subcommand is due", "");
    if (!arguments->operands[subcommand->operands - 1])
        return wrong(arguments, "an argument is missing", "");
    if (arguments->json && !subcommand->json)
        return wrong(arguments, "it does not go with this subcommand: ", "--json");
    if (arguments->out && subcommand->out == OUT_NEVER)
        return wrong(arguments, "it does not go with this subcommand: ", "-o");
    if (!arguments->out && subcommand->out == OUT_MUST)
        return wrong(arguments, "it is missing: ", "-o OUT");
    if (subcommand->operands == 2 && strcmp(arguments->operands[0], "-") == 0 && strcmp(arguments->operands[1], "-") == 0)
        return wrong(arguments, "only one of them can be standard input", "");
    return true;
}

bool read_arguments(int count, char **words, struct arguments *arguments)
{
    *arguments = (struct arguments){0};
    bool options = true; /* none follow a -- */
    for (int i = 1; i < count;) {
        bool option = options && words[i][0] == '-' && words[i][1] != '\0';
        int took = 1;
        if (option && strcmp(words[i], "--") == 0)
            options = false;
        else if (option)
            took = take_option(&words[i], arguments);
        else
            took = take_operand(words[i], arguments);
        if (took == 0)
            return false;
        i += took;
    }
    return arguments->help || arguments->version || complete(arguments);
}
