/* Lines of events: "Events, for `dovetenon judge`" in docs/FORMAT.md is their grammar. */
#ifndef EVENT_H
#define EVENT_H

#include "policy.h"

/* One frame more than the judge takes, so that it sees where there are too many. */
enum { FRAMES_KEPT = DOVETENON_FRAMES + 1 };

struct moment {
    uint16_t stack[FRAMES_KEPT];
    size_t frames;
    uint32_t uid, gid, ns;
};

struct event {
    uint16_t operation, target;
    struct moment running, allocation;
};

/* Whether a line holds no event: nothing, only spaces, or spaces and then #. */
bool is_skipped(const char *line, size_t length);

/* Reads the event of a line, names by the policy. Answers null, or what is wrong with the line. */
const char *read_event(const struct policy *policy, const char *line, size_t length, struct event *event);

#endif
