#include "verdict.h"

#include "entry.h"
#include "json.h"
#include "text.h"
#include "words.h"

void count_verdict(struct totals *totals, uint32_t verdict)
{
    uint16_t number = dovetenon_verdict_number(verdict);
    totals->events++;
    if (dovetenon_is_allowed(verdict)) {
        totals->allowed++;
    } else if (dovetenon_verdict_class(verdict) == DOVETENON_VERDICT_VIOLATION) {
        totals->violations++;
        totals->seen[number <= MOST_VIOLATIONS ? number : 0] = true;
    } else {
        totals->refused++;
    }
}

static const struct thing *granting(const struct policy *policy, uint32_t verdict)
{
    return thing_numbered(policy, DOVETENON_KIND_ENTRY, dovetenon_verdict_entry(verdict));
}

void print_verdict(const struct policy *policy, uint32_t verdict)
{
    int number = dovetenon_verdict_number(verdict);
    switch (dovetenon_verdict_class(verdict)) {
    case DOVETENON_VERDICT_INSIDE:
        print_coloured(stdout, GREEN, "allowed");
        fputs(" inside one domain\n", stdout);
        break;
    case DOVETENON_VERDICT_GRANTED:
        print_coloured(stdout, GREEN, "allowed");
        fputs(" by ", stdout);
        print_entry(granting(policy, verdict));
        fputs("\n", stdout);
        break;
    case DOVETENON_VERDICT_VIOLATION:
        print_coloured(stdout, RED, "violation");
        printf(" %d: %s\n", number, violation_words(number)->means);
        break;
    default:
        print_coloured(stdout, RED, "refused");
        printf(" with %d: %s\n", number, refusal_words(number)->means);
    }
}

static void json_words(const char *verdict, int number, const struct words *words)
{
    json_word("verdict", verdict);
    json_number("number", (unsigned long)number);
    json_word("means", words->means);
    json_word("help", words->help);
}

void json_verdict(const struct policy *policy, uint32_t verdict, unsigned long line)
{
    int number = dovetenon_verdict_number(verdict);
    json_begin(NULL);
    json_number("event", line);
    switch (dovetenon_verdict_class(verdict)) {
    case DOVETENON_VERDICT_INSIDE:
        json_word("verdict", "allowed inside one domain");
        break;
    case DOVETENON_VERDICT_GRANTED:
        json_word("verdict", "allowed by an entry");
        json_entry(granting(policy, verdict));
        break;
    case DOVETENON_VERDICT_VIOLATION:
        json_words("violation", number, violation_words(number));
        break;
    default:
        json_words("refused", number, refusal_words(number));
    }
    json_end();
    json_line();
}

void print_totals(const struct totals *totals)
{
    print_count(stdout, totals->events, "event: ", "events: ");
    printf("%lu allowed, ", totals->allowed);
    print_count(stdout, totals->violations, "violation, ", "violations, ");
    printf("%lu refused\n", totals->refused);
    fflush(stdout);
    for (int number = 1; number <= MOST_VIOLATIONS; number++)
        if (totals->seen[number])
            fprintf(stderr, "help: violation %d: %s\n", number, violation_words(number)->help);
}

void json_totals(const struct totals *totals)
{
    json_begin(NULL);
    json_number("events", totals->events);
    json_number("allowed", totals->allowed);
    json_number("violations", totals->violations);
    json_number("refused", totals->refused);
    json_end();
    json_line();
}
