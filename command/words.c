/* The sentences are those of docs/REFUSALS.md, word for word; command/test holds them to it. */
#include "words.h"

#include <stddef.h>

static const struct words refusals[] = {
    {1, "the table lent has fewer than 16,384 words", "Lend 16,384 words or more."},
    {2, "the text has more than 65,536 bytes",
     "Take out comments, or shorten paths: the limit is 65,536 bytes, CRs and LFs counted."},
    {3, "a byte that is not LF, not 0x20 to 0x7E, and no CR directly before LF",
     "Mostly a tab, a letter beyond ASCII in a comment, or a CR with no LF behind it. "
     "Replace it; end lines with LF, or with CR and LF."},
    {4, "layout: a line that is not as the format asks, or not the one due",
     "another key is due there, it stands at another column, its spaces are wrong, its value is of another shape, or LF is missing. "
     "Compare it with the table of keys."},
    {5, "a name, variable, uid, gid, namespace or identifier is malformed", "See \"Names, numbers, identifiers\" in `docs/FORMAT.md`."},
    {6, "a count passes its limit", "Split the policy, join domains, or write fewer items."},
    {7, "a name or identifier stands twice", "Rename one of the two, or take it out. Domain names differ over both maps."},
    {8, "a name that its map lacks", "List the domain or function, or mend the spelling."},
    {9, "a field is empty that has no \"none\"", "Write the value, or indent the block to its column."},
    {10, "a variable in an object context that its entry does not bind",
     "A variable in an `object_context` must be the very one that `execution_context` of the same entry has at the same key. "
     "Bind it there, or write `all`."},
    {11, "two entries with one principal",
     "Join the two entries into one, or tell them apart by subject, `call_context`, uid, gid or namespace. "
     "Names of variables do not tell entries apart."},
    {20, "the table is not well formed", "Read the file again: what the reader writes is well formed."},
    {21, "the stack has no frame or more than 64", "One of more than 64 frames cannot be judged; treat it as not allowed."},
    {22, "the allocation stack has more than 64 frames", "One of more than 64 frames cannot be judged; treat it as not allowed."},
    {23, "the operation is not 1 to 4", "operations are read 1, write 2, call 3, return 4."},
    {30, "the output lent is shorter than the filled text", "Lend 65,536 bytes: no filled text is longer."},
    {31, "the filled text has more than 65,536 bytes", "Use fewer items with defaults, or shorter identifiers."},
    {40, "the witness lent has fewer than 30 words", "Lend 30 words or more."},
};

static const struct words violations[] = {
    {1, "the running function is not listed", "list it in a subject domain, or find out why it runs"},
    {2, "the target is not listed", "list the function or object, or find out why it is reached"},
    {3, "no entry matches: none has this subject, stack, uid, gid and namespace", "write an entry for that moment, or find out how it came about"},
    {4, "entries match, but none of them grants this",
     "add the domain to an entry that matches; for an object look at its `object_context` too"},
};

static const struct words *with_number(const struct words *all, size_t count, int number)
{
    static const struct words none = {0, "a number that this program does not know", "Ask whoever built it."};
    for (size_t i = 0; i < count; i++)
        if (all[i].number == number)
            return &all[i];
    return &none;
}

const struct words *refusal_words(int number)
{
    return with_number(refusals, sizeof refusals / sizeof *refusals, number);
}

const struct words *violation_words(int number)
{
    return with_number(violations, sizeof violations / sizeof *violations, number);
}
