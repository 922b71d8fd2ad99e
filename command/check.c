/* dovetenon check: what is wrong with a file, or its figures and whether entries clash. */
#include "arguments.h"
#include "entry.h"
#include "files.h"
#include "json.h"
#include "layout.h"
#include "policy.h"
#include "refusal.h"
#include "status.h"
#include "subcommands.h"
#include "text.h"

#include <string.h>

/* One line of figures. */
static void print_figures(const char *file, struct figures figures)
{
    print_safely(stdout, file, strlen(file));
    fputs(": ", stdout);
    print_coloured(stdout, GREEN, "accepted");
    fputs(": ", stdout);
    print_count(stdout, figures.object_domains, "object domain, ", "object domains, ");
    print_count(stdout, figures.subject_domains, "subject domain, ", "subject domains, ");
    print_count(stdout, figures.functions, "function, ", "functions, ");
    print_count(stdout, figures.objects, "object, ", "objects, ");
    print_count(stdout, figures.entries, "entry, ", "entries, ");
    print_count(stdout, figures.descriptors, "descriptor\n", "descriptors\n");
}

static void json_figures(const char *file, struct figures figures)
{
    json_begin(NULL);
    json_word("file", file);
    json_word("result", "accepted");
    json_number("object_domains", figures.object_domains);
    json_number("subject_domains", figures.subject_domains);
    json_number("functions", figures.functions);
    json_number("objects", figures.objects);
    json_number("entries", figures.entries);
    json_number("descriptors", figures.descriptors);
    json_end();
    json_line();
}

/* The two entries, and the moment that both claim. */
static void print_clash(const struct policy *policy, const char *file, uint64_t report, const uint16_t *witness)
{
    const struct thing *lower = thing_numbered(policy, DOVETENON_KIND_ENTRY, dovetenon_report_lower(report));
    const struct thing *higher = thing_numbered(policy, DOVETENON_KIND_ENTRY, dovetenon_report_higher(report));
    print_safely(stdout, file, strlen(file));
    printf(":%lu: ", (unsigned long)higher->line);
    print_coloured(stdout, RED, "clash");
    fputs(": ", stdout);
    print_entry(lower);
    fputs(" and ", stdout);
    print_entry(higher);
    fputs(" both match\n      ", stdout);
    for (unsigned i = 0; i < dovetenon_report_depth(report); i++) {
        const struct thing *frame = thing_numbered(policy, DOVETENON_KIND_FUNCTION, witness[i]);
        printf("%s%.*s", i > 0 ? " > " : "", (int)frame->length, frame->name);
    }
    printf(", uid %lu, gid 0, ns 0\n", (unsigned long)dovetenon_report_uid(report));
}

static void json_claimant(const struct policy *policy, uint8_t number)
{
    json_begin(NULL);
    json_entry(thing_numbered(policy, DOVETENON_KIND_ENTRY, number));
    json_end();
}

static void json_clash(const struct policy *policy, const char *file, uint64_t report, const uint16_t *witness)
{
    json_begin(NULL);
    json_word("file", file);
    json_word("result", "clash");
    json_array("entries");
    json_claimant(policy, dovetenon_report_lower(report));
    json_claimant(policy, dovetenon_report_higher(report));
    json_array_end();
    json_array("stack");
    for (unsigned i = 0; i < dovetenon_report_depth(report); i++) {
        const struct thing *frame = thing_numbered(policy, DOVETENON_KIND_FUNCTION, witness[i]);
        json_bytes(NULL, frame->name, frame->length);
    }
    json_array_end();
    json_number("uid", dovetenon_report_uid(report));
    json_number("gid", 0);
    json_number("namespace", 0);
    json_end();
    json_line();
}

static void tell_clear(const char *file, bool json)
{
    if (json) {
        json_begin(NULL);
        json_word("file", file);
        json_word("result", "clear");
        json_end();
        json_line();
        return;
    }
    print_safely(stdout, file, strlen(file));
    fputs(": ", stdout);
    print_coloured(stdout, GREEN, "clear");
    fputs(": no two entries claim one moment\n", stdout);
}

/* The overlap report; answers the status. */
static int tell_overlap(const struct policy *policy, const char *file, bool json)
{
    uint16_t witness[DOVETENON_WITNESS_WORDS];
    uint64_t report = dovetenon_overlap(policy->table, DOVETENON_TABLE_WORDS, witness, DOVETENON_WITNESS_WORDS);
    switch (dovetenon_report_class(report)) {
    case DOVETENON_REPORT_CLEAR:
        tell_clear(file, json);
        return STATUS_GOOD;
    case DOVETENON_REPORT_CLASH:
        (json ? json_clash : print_clash)(policy, file, report, witness);
        return STATUS_CLASH;
    default:
        tell_number(file, dovetenon_report_number(report));
        return STATUS_REFUSED;
    }
}

int check(const struct arguments *arguments)
{
    static struct policy policy;
    int status = read_policy(arguments->operands[0], arguments->json, &policy);
    if (status != STATUS_GOOD)
        return status;
    const char *file = arguments->json ? arguments->operands[0] : shown_name(arguments->operands[0]);
    (arguments->json ? json_figures : print_figures)(file, figures_of(policy.table));
    return tell_overlap(&policy, file, arguments->json);
}
