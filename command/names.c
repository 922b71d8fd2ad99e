/* dovetenon names: what a file names, with numbers and lines. */
#include "arguments.h"
#include "json.h"
#include "policy.h"
#include "status.h"
#include "subcommands.h"

#include <stdio.h>

static const char *const kinds[] = {
    [DOVETENON_KIND_OBJECT_DOMAIN] = "object domain",
    [DOVETENON_KIND_OBJECT] = "object",
    [DOVETENON_KIND_SUBJECT_DOMAIN] = "subject domain",
    [DOVETENON_KIND_FUNCTION] = "function",
    [DOVETENON_KIND_ENTRY] = "entry",
};

static void print_thing(const struct thing *thing)
{
    printf("%-14s %4lu  line %5lu  ", kinds[thing->kind], (unsigned long)thing->number, (unsigned long)thing->line);
    fwrite(thing->name, 1, thing->length, stdout);
    putchar('\n');
}

static void json_thing(const struct thing *thing)
{
    json_begin(NULL);
    json_word("kind", kinds[thing->kind]);
    json_number("number", thing->number);
    json_number("line", thing->line);
    json_bytes("name", thing->name, thing->length);
    json_end();
    json_line();
}

int names(const struct arguments *arguments)
{
    static struct policy policy;
    int status = read_policy(arguments->operands[0], arguments->json, &policy);
    if (status != STATUS_GOOD)
        return status;
    for (size_t i = 0; i < policy.count; i++)
        (arguments->json ? json_thing : print_thing)(&policy.things[i]);
    return STATUS_GOOD;
}
