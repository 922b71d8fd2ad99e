/* dovetenon judge: a verdict on each event, as they come. */
#include "arguments.h"
#include "event.h"
#include "files.h"
#include "policy.h"
#include "status.h"
#include "subcommands.h"
#include "text.h"
#include "verdict.h"

#include <errno.h>
#include <string.h>

/* The longest line of events; no event with 64 frames in each stack needs a third of it. */
enum { LINE_BYTES = 65536 };

struct lines {
    const char *name;
    FILE *file;
    unsigned long number;
    char bytes[LINE_BYTES];
    size_t length;
};

/* Whether there is another line; it is then there without the LF, or CR and LF, that ends it. If not, the fault says why, unless the file has ended. */
static bool next_line(struct lines *lines, const char **fault)
{
    int byte;
    lines->length = 0;
    lines->number++;
    while ((byte = getc(lines->file)) != EOF && byte != '\n') {
        if (lines->length == sizeof lines->bytes) {
            *fault = "it has more than 65,536 bytes";
            return false;
        }
        lines->bytes[lines->length++] = (char)byte;
    }
    if (byte == '\n' && lines->length > 0 && lines->bytes[lines->length - 1] == '\r')
        lines->length--;
    if (!ferror(lines->file))
        return byte == '\n' || lines->length > 0;
    *fault = strerror(errno);
    return false;
}

static uint32_t verdict_on(const struct policy *policy, const struct event *event)
{
    const struct moment *running = &event->running, *allocation = &event->allocation;
    return dovetenon_judge_known(policy->table, DOVETENON_TABLE_WORDS, event->operation, event->target,
                                 running->stack, running->frames, running->uid, running->gid, running->ns,
                                 allocation->stack, allocation->frames, allocation->uid, allocation->gid, allocation->ns);
}

/* Judges every event, while someone takes the verdicts. Answers what ended it before the end, or null. */
static const char *judge_lines(const struct policy *policy, struct lines *lines, bool json, struct totals *totals)
{
    const char *fault = NULL;
    struct event event;
    while (!ferror(stdout) && next_line(lines, &fault)) {
        if (is_skipped(lines->bytes, lines->length))
            continue;
        fault = read_event(policy, lines->bytes, lines->length, &event);
        if (fault)
            break;
        uint32_t verdict = verdict_on(policy, &event);
        count_verdict(totals, verdict);
        if (json)
            json_verdict(policy, verdict, lines->number);
        else
            print_verdict(policy, verdict);
    }
    return fault;
}

static void complain_of_line(const struct lines *lines, const char *fault)
{
    if (ferror(lines->file)) {
        complain(lines->name, fault);
        return;
    }
    fflush(stdout);
    print_safely(stderr, lines->name, strlen(lines->name));
    fprintf(stderr, ":%lu: not an event: %s\n", lines->number, fault);
}

int judge(const struct arguments *arguments)
{
    static struct policy policy;
    static struct lines lines;
    struct totals totals = {0};
    int status = read_policy(arguments->operands[0], arguments->json, &policy);
    if (status != STATUS_GOOD)
        return status;
    lines.name = shown_name(arguments->operands[1]);
    lines.file = open_file(arguments->operands[1]);
    if (!lines.file)
        return STATUS_TROUBLE;
    const char *fault = judge_lines(&policy, &lines, arguments->json, &totals);
    if (fault)
        complain_of_line(&lines, fault);
    else if (!ferror(stdout))
        (arguments->json ? json_totals : print_totals)(&totals);
    if (lines.file != stdin)
        fclose(lines.file);
    return fault ? STATUS_TROUBLE : totals.allowed < totals.events ? STATUS_REFUSED : STATUS_GOOD;
}
