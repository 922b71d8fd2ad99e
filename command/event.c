#include "event.h"

#include <string.h>

/* What is left of a line. */
struct rest {
    const char *at, *end;
};

struct word {
    const char *at;
    size_t length;
};

static bool is_space(char byte)
{
    return byte == ' ' || byte == '\t';
}

/* The next word, which is empty at the line's end; it stays there. */
static struct word peek(struct rest *rest)
{
    while (rest->at < rest->end && is_space(*rest->at))
        rest->at++;
    const char *end = rest->at;
    while (end < rest->end && !is_space(*end))
        end++;
    return (struct word){rest->at, (size_t)(end - rest->at)};
}

static struct word take(struct rest *rest)
{
    struct word word = peek(rest);
    rest->at += word.length;
    return word;
}

static bool is(struct word word, const char *expected)
{
    return word.length == strlen(expected) && memcmp(word.at, expected, word.length) == 0;
}

/* Takes the next word if it is this one. */
static bool took(struct rest *rest, const char *expected)
{
    bool here = is(peek(rest), expected);
    if (here)
        take(rest);
    return here;
}

static bool is_number(struct word word)
{
    for (size_t i = 0; i < word.length; i++)
        if (word.at[i] < '0' || word.at[i] > '9')
            return false;
    return word.length > 0;
}

/* The number that a word of digits is. False where it is none, or over the most. */
static bool number(struct word word, uint32_t most, uint32_t *number)
{
    uint64_t value = 0;
    for (size_t i = 0; i < word.length && value <= most; i++)
        value = value * 10 + (uint64_t)(word.at[i] - '0');
    *number = (uint32_t)value;
    return is_number(word) && value <= most;
}

/* Whether a word stands where a name is due, but is one of the grammar's own, or none. */
static bool is_no_name(struct word word)
{
    return word.length == 0 || is(word, ">") || is(word, "from") || is(word, "at") || is(word, "uid") || is(word, "gid")
        || is(word, "ns") || is(word, "allocated");
}

/* The number of a function or object, by its name or as it stands. A name that is not listed has no number below the count. */
static bool numbered(const struct policy *policy, uint32_t kind, struct word word, uint16_t *answer)
{
    uint32_t value;
    if (is_no_name(word))
        return false;
    if (!is_number(word))
        value = (uint32_t)number_named(policy, kind, word.at, word.length);
    else if (!number(word, UINT16_MAX, &value))
        return false;
    *answer = (uint16_t)value;
    return true;
}

static const char *read_operation(struct rest *rest, struct event *event)
{
    static const struct {
        const char *name;
        uint16_t number;
    } operations[] = {
        {"read", DOVETENON_READ}, {"write", DOVETENON_WRITE}, {"call", DOVETENON_CALL}, {"return", DOVETENON_RETURN}};
    struct word word = take(rest);
    uint32_t value = 0;
    bool known = number(word, UINT16_MAX, &value);
    for (size_t i = 0; i < sizeof operations / sizeof *operations; i++)
        if (is(word, operations[i].name)) {
            known = true;
            value = operations[i].number;
        }
    event->operation = (uint16_t)value;
    return known ? NULL : "an operation is due: read, write, call or return";
}

static const char *read_target(const struct policy *policy, struct rest *rest, struct event *event)
{
    bool object = event->operation == DOVETENON_READ || event->operation == DOVETENON_WRITE;
    uint32_t kind = object ? DOVETENON_KIND_OBJECT : DOVETENON_KIND_FUNCTION;
    if (numbered(policy, kind, take(rest), &event->target))
        return NULL;
    return object ? "an object is due: its identifier, or a number up to 65,535"
                  : "a function is due: its identifier, or a number up to 65,535";
}

/* Frames, base first. More than the judge takes are all the same to it. */
static const char *read_stack(const struct policy *policy, struct rest *rest, struct moment *moment)
{
    do {
        uint16_t frame;
        if (!numbered(policy, DOVETENON_KIND_FUNCTION, take(rest), &frame))
            return "a frame is due: a function's identifier, or a number up to 65,535";
        if (moment->frames < FRAMES_KEPT)
            moment->stack[moment->frames++] = frame;
    } while (took(rest, ">"));
    return NULL;
}

/* A stack, and perhaps uid, gid and namespace. */
static const char *read_moment(const struct policy *policy, struct rest *rest, struct moment *moment)
{
    const char *fault = read_stack(policy, rest, moment);
    if (fault)
        return fault;
    if (took(rest, "uid") && !number(take(rest), UINT32_MAX, &moment->uid))
        return "a number up to 4,294,967,295 is due behind uid";
    if (took(rest, "gid") && !number(take(rest), UINT32_MAX, &moment->gid))
        return "a number up to 4,294,967,295 is due behind gid";
    if (took(rest, "ns") && !number(take(rest), UINT32_MAX, &moment->ns))
        return "a number up to 4,294,967,295 is due behind ns";
    return NULL;
}

bool is_skipped(const char *line, size_t length)
{
    struct rest rest = {line, line + length};
    struct word word = peek(&rest);
    return word.length == 0 || word.at[0] == '#';
}

/* Bytes that stand in no event. Above all a CR, which would make another name of the last one. */
static const char *read_bytes(const char *line, size_t length)
{
    for (size_t i = 0; i < length; i++)
        if (line[i] != '\t' && (line[i] < 0x20 || line[i] > 0x7E))
            return "a byte that is no tab and not 0x20 to 0x7E";
    return NULL;
}

const char *read_event(const struct policy *policy, const char *line, size_t length, struct event *event)
{
    struct rest rest = {line, line + length};
    *event = (struct event){0};
    const char *fault = read_bytes(line, length);
    if (!fault)
        fault = read_operation(&rest, event);
    if (!fault)
        fault = read_target(policy, &rest, event);
    if (!fault && !took(&rest, "from") && !took(&rest, "at"))
        fault = "from or at is due";
    if (!fault)
        fault = read_moment(policy, &rest, &event->running);
    if (!fault && took(&rest, "allocated"))
        fault = took(&rest, "at") ? read_moment(policy, &rest, &event->allocation) : "at is due behind allocated";
    if (!fault && peek(&rest).length > 0)
        fault = "the event has ended, and more follows: uid goes before gid, gid before ns, and allocated at after them";
    return fault;
}
