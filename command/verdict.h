/* Verdicts in words, and their total. */
#ifndef VERDICT_H
#define VERDICT_H

#include "policy.h"

enum { MOST_VIOLATIONS = DOVETENON_NONE_GRANTS };

struct totals {
    unsigned long events, allowed, violations, refused;
    bool seen[MOST_VIOLATIONS + 1]; /* the violations, by number */
};

void count_verdict(struct totals *totals, uint32_t verdict);

/* One line for a verdict. */
void print_verdict(const struct policy *policy, uint32_t verdict);

/* The same as JSON, with the line of its event. */
void json_verdict(const struct policy *policy, uint32_t verdict, unsigned long line);

/* The total; for people also what to do about the violations that there were, on standard error. */
void print_totals(const struct totals *totals);
void json_totals(const struct totals *totals);

#endif
