/* Dovetenon's proved functions, for C and for whatever calls C.

   `command/library` writes them to target/staticlib/libexport.a, for
   x86-64. docs/PROMISES.md says what is proved of each, docs/TABLE.md what the
   words of a table are; include/example.c calls them.

   A pointer is never null and stands on a boundary of its type; its length
   counts words or bytes and may be 0. Nothing may change a stretch while it is
   lent, and a stretch that a function writes overlaps no other. The functions
   keep nothing between calls. What is lent as const is never written.

   An answer is one number. Bits 0 to 15 hold a value, bits 16 to 31 the
   answer's class, the bits above what else it tells; every bit not named here
   is 0. Class 0 is no answer at all: no function ever gives it, so a zeroed
   answer means neither allowed, nor accepted, nor clear. Ask for the class that
   you want, and take every other one for a refusal. */
#ifndef DOVETENON_H
#define DOVETENON_H

#include <stdbool.h>
#include <stddef.h>
#include <stdint.h>

/* The version of this interface. 2: the judge takes the namespace of the moment
   and that of the allocation. 1: before, without them. */
#define DOVETENON_INTERFACE 2

#ifdef __cplusplus
extern "C" {
#endif

/* How much may be lent, or must be. */
enum {
    DOVETENON_TABLE_WORDS = 16384,  /* of a table, at least */
    DOVETENON_FRAMES = 64,          /* of a stack, at most */
    DOVETENON_WITNESS_WORDS = 30,   /* of a witness, at least */
    DOVETENON_TEXT_BYTES = 65536,   /* of a text, and of a filled one, at most */
    DOVETENON_LIST_WORDS = 9728     /* that the list of a text's names takes, at most */
};

/* The numbers of refusals: class 1 of every answer but a name. */
enum {
    DOVETENON_TABLE_TOO_SHORT = 1,    /* table under 16,384 words */
    DOVETENON_TEXT_TOO_LONG = 2,      /* text over 65,536 bytes */
    DOVETENON_BAD_BYTE = 3,           /* byte other than LF, 0x20 to 0x7E, and CR directly before LF */
    DOVETENON_LAYOUT = 4,             /* layout, key, missing key, no LF at the end, empty text */
    DOVETENON_SCALAR = 5,             /* scalar malformed, list elements too */
    DOVETENON_COUNT = 6,              /* a count over its limit */
    DOVETENON_TWICE = 7,              /* domain name, identifier of one map, or name in one list twice */
    DOVETENON_UNKNOWN = 8,            /* domain or function its map lacks */
    DOVETENON_EMPTY_FIELD = 9,        /* empty field with no "none" */
    DOVETENON_UNBOUND = 10,           /* object context variable not the one bound by its entry's same key */
    DOVETENON_SAME_PRINCIPAL = 11,    /* two entries with the same principal */
    DOVETENON_TABLE_ILL_FORMED = 20,  /* table not well formed */
    DOVETENON_STACK = 21,             /* stack of 0 or over 64 frames */
    DOVETENON_ALLOCATION_STACK = 22,  /* allocation stack over 64 frames */
    DOVETENON_OPERATION = 23,         /* operation not 1 to 4 */
    DOVETENON_OUTPUT_TOO_SHORT = 30,  /* output shorter than the filled text */
    DOVETENON_FILLED_TOO_LONG = 31,   /* filled text over 65,536 bytes */
    DOVETENON_WITNESS_TOO_SHORT = 40  /* witness under 30 words */
};

/* ---- The table */

/* Whether the table is well formed: it has at least 16,384 words, the mark,
   counts within the limits (patterns 1 to 16), every number it holds below its
   count, no two entries with one principal, object variables bound to the uid,
   gid and namespace of their entry's principal, and zeros in unused words and
   bits up to 16,384. Words past 16,384 are not looked at. */
bool dovetenon_well_formed(const uint16_t *table, size_t table_len);

/* ---- The judge */

/* The operations. */
enum {
    DOVETENON_READ = 1,
    DOVETENON_WRITE = 2,
    DOVETENON_CALL = 3,
    DOVETENON_RETURN = 4
};

/* The verdict on one event under a table.

   The event is one of the operations, with a target (the number of an object
   for read and write, of a function for call and return), a stack of function
   numbers (base first, running function last), uid, gid and namespace, and the
   allocation's stack, uid, gid and namespace. An empty allocation stack means a
   static object; its uid, gid and namespace are then not looked at. For call and
   return no allocation data is looked at, beyond refusal 22. A number not below
   its count means unlisted. A namespace is `ns` here, since `namespace` is a word
   of C++.

   Refusals come first, 20 to 23 in that order. Then, in this order: violation
   1, violation 2, allowed inside one domain, allowed by an entry, violation 3,
   violation 4. */
uint32_t dovetenon_judge(const uint16_t *table, size_t table_len,
                         uint16_t operation, uint16_t target,
                         const uint16_t *stack, size_t stack_len,
                         uint32_t uid, uint32_t gid, uint32_t ns,
                         const uint16_t *allocation, size_t allocation_len,
                         uint32_t allocation_uid, uint32_t allocation_gid,
                         uint32_t allocation_ns);

/* The same by the words as they stand, without testing first that the table is
   well formed: for callers that tested once with dovetenon_well_formed and ask
   many times. On a well-formed table it answers as dovetenon_judge does. */
uint32_t dovetenon_judge_known(const uint16_t *table, size_t table_len,
                               uint16_t operation, uint16_t target,
                               const uint16_t *stack, size_t stack_len,
                               uint32_t uid, uint32_t gid, uint32_t ns,
                               const uint16_t *allocation, size_t allocation_len,
                               uint32_t allocation_uid, uint32_t allocation_gid,
                               uint32_t allocation_ns);

/* The classes of a verdict, and what its value is. */
enum {
    DOVETENON_VERDICT_REFUSED = 1,    /* the number of the refusal, 20 to 23 */
    DOVETENON_VERDICT_VIOLATION = 2,  /* the number of the violation, 1 to 4 */
    DOVETENON_VERDICT_INSIDE = 3,     /* allowed inside one domain (call, return): 0 */
    DOVETENON_VERDICT_GRANTED = 4     /* allowed: the lowest matching entry that grants */
};

/* The numbers of violations. */
enum {
    DOVETENON_TOP_UNLISTED = 1,      /* the stack's top is unlisted */
    DOVETENON_TARGET_UNLISTED = 2,   /* the target is unlisted */
    DOVETENON_NO_ENTRY_MATCHES = 3,  /* no entry matches */
    DOVETENON_NONE_GRANTS = 4        /* none that match grants it */
};

static inline uint32_t dovetenon_verdict_class(uint32_t verdict)
{
    return verdict >> 16;
}

/* The only question that an enforcer must ask. */
static inline bool dovetenon_is_allowed(uint32_t verdict)
{
    return dovetenon_verdict_class(verdict) == DOVETENON_VERDICT_INSIDE
        || dovetenon_verdict_class(verdict) == DOVETENON_VERDICT_GRANTED;
}

/* Of a verdict that is refused or a violation. */
static inline uint16_t dovetenon_verdict_number(uint32_t verdict)
{
    return (uint16_t)(verdict & 0xFFFF);
}

/* Of a verdict that is granted. */
static inline uint16_t dovetenon_verdict_entry(uint32_t verdict)
{
    return (uint16_t)(verdict & 0xFFFF);
}

/* ---- The overlap report */

/* The first pair of entries of a table that claim one moment, the lower entry
   least, then the higher least. Refused with 20, then 40.

   On a clash the witness holds the stack from its base, then zeros to word 30:
   the shortest stack that both entries match and, among the shortest, the one
   with the lowest function numbers from the base up. When clear, its first 30
   words are zero. Words past 30 never change, and on refusal no word does. */
uint64_t dovetenon_overlap(const uint16_t *table, size_t table_len,
                           uint16_t *witness, size_t witness_len);

/* The classes of a report, and what else it tells. */
enum {
    DOVETENON_REPORT_REFUSED = 1,  /* the number of the refusal, 20 or 40 */
    DOVETENON_REPORT_CLASH = 2,    /* the pair, the stack's depth, the uid */
    DOVETENON_REPORT_CLEAR = 3
};

static inline uint32_t dovetenon_report_class(uint64_t report)
{
    return (uint32_t)(report >> 16 & 0xFFFF);
}

/* Of a report that is refused. */
static inline uint16_t dovetenon_report_number(uint64_t report)
{
    return (uint16_t)(report & 0xFFFF);
}

/* Of a clash: the pair of entries, .. */
static inline uint8_t dovetenon_report_lower(uint64_t report)
{
    return (uint8_t)(report >> 32 & 0xFF);
}

static inline uint8_t dovetenon_report_higher(uint64_t report)
{
    return (uint8_t)(report >> 40 & 0xFF);
}

/* .. how many words of the witness are the stack, 1 to 30, .. */
static inline uint8_t dovetenon_report_depth(uint64_t report)
{
    return (uint8_t)(report >> 48 & 0xFF);
}

/* .. and the uid at which both match: 1 if either entry says `user`, else 0.
   Gid and namespace are 0. */
static inline uint32_t dovetenon_report_uid(uint64_t report)
{
    return (uint32_t)(report >> 56 & 1);
}

/* ---- The reader */

/* Reads a policy text into a table. LF, or CR and LF, ends each of its lines;
   one text may have both.

   Refused with 1, then 2, then 3, then the first line with 4, 9 or 5, in that
   order on one line, then 6, 7, 8, 10, 11, each over the whole file and with
   the smallest line at fault.

   On 1 no word of the table changes. On 2 to 11 its first 16,384 words are
   zero, which no function takes for a table. When accepted, they are the words
   of the policy, well formed. What they held before makes no difference. Words
   past 16,384 never change.

   It wants 1 MB of stack. */
uint64_t dovetenon_read(const uint8_t *text, size_t text_len,
                        uint16_t *table, size_t table_len);

/* What the reader refuses a text with before it looks at counts and names: 2,
   then 3, then the first line with 4, 9 or 5, in that order on one line. */
uint64_t dovetenon_page(const uint8_t *text, size_t text_len);

/* The classes of a reading, whether of the text or of its page alone. */
enum {
    DOVETENON_READING_REFUSED = 1,  /* the number of the refusal, and its line */
    DOVETENON_READING_ACCEPTED = 2  /* none of these refusals */
};

static inline uint32_t dovetenon_reading_class(uint64_t reading)
{
    return (uint32_t)(reading >> 16 & 0xFFFF);
}

/* Of a reading that is refused. */
static inline uint16_t dovetenon_reading_number(uint64_t reading)
{
    return (uint16_t)(reading & 0xFFFF);
}

/* The line at fault, from 1; 0 for refusals 1 and 2, which have none. */
static inline uint32_t dovetenon_reading_line(uint64_t reading)
{
    return (uint32_t)(reading >> 32);
}

/* ---- The filler */

/* Writes a policy text with every default filled in, without its skipped lines
   and with LF alone at the end of each line. What it writes is read into the
   same table.

   Refused with 2 to 11 as dovetenon_read does, then 31, then 30.

   On refusal no byte of the output changes. When written, the filled text
   stands at its front; bytes past the filled text never change.

   It wants 1 MB of stack. */
uint64_t dovetenon_fill(const uint8_t *text, size_t text_len,
                        uint8_t *out, size_t out_len);

/* The classes of a filling, and what else it tells. */
enum {
    DOVETENON_FILLING_REFUSED = 1,  /* the number of the refusal, and its line */
    DOVETENON_FILLING_WRITTEN = 2   /* the size of the filled text */
};

static inline uint32_t dovetenon_filling_class(uint64_t filling)
{
    return (uint32_t)(filling >> 16 & 0xFFFF);
}

/* Of a filling that is refused. */
static inline uint16_t dovetenon_filling_number(uint64_t filling)
{
    return (uint16_t)(filling & 0xFFFF);
}

/* The line at fault, from 1; 0 for refusals 2, 30 and 31, which have none. */
static inline uint32_t dovetenon_filling_line(uint64_t filling)
{
    return (uint32_t)(filling >> 32);
}

/* Of a filling that is written: how many bytes of the output are the text. */
static inline uint32_t dovetenon_filling_size(uint64_t filling)
{
    return (uint32_t)(filling >> 32);
}

/* ---- Name lookup */

/* The maps. */
enum {
    DOVETENON_OBJECT_MAP = 1,
    DOVETENON_SUBJECT_MAP = 2
};

/* Where the name of a domain stands in a policy text: the domains of each map
   are numbered from 0 in file order, as the table has them.

   The name is text[start] up to, not including, text[start + length]: no copy,
   and no zero byte behind it. There is none where dovetenon_read refuses the
   text with 2 to 11, where the number is not below that map's count, and where
   map is neither of the two.

   It reads the whole text at each call, and wants 1 MB of stack. */
uint64_t dovetenon_name(const uint8_t *text, size_t text_len,
                        uint16_t map, size_t domain);

/* The classes of a name, and what else it tells. */
enum {
    DOVETENON_NAME_NONE = 1,  /* no name: start and length are 0 */
    DOVETENON_NAME_FOUND = 2  /* where it starts, and its length */
};

static inline uint32_t dovetenon_name_class(uint64_t name)
{
    return (uint32_t)(name >> 16 & 0xFFFF);
}

/* Of a name that is found: where it starts in the text, .. */
static inline uint32_t dovetenon_name_start(uint64_t name)
{
    return (uint32_t)(name >> 32);
}

/* .. and how many bytes it has, 1 to 64. */
static inline uint16_t dovetenon_name_length(uint64_t name)
{
    return (uint16_t)(name & 0xFFFF);
}

/* ---- Names */

/* What a policy text names. Each kind is numbered from 0 in file order, with
   the numbers that the table, the judge and the report have. */
enum {
    DOVETENON_KIND_OBJECT_DOMAIN = 1,
    DOVETENON_KIND_OBJECT = 2,
    DOVETENON_KIND_SUBJECT_DOMAIN = 3,
    DOVETENON_KIND_FUNCTION = 4,
    DOVETENON_KIND_ENTRY = 5
};

/* Lists where the names of a policy text stand, in file order. A thing is four
   words: its kind, its line, where its name starts in the text and how many
   bytes the name has. The name of an entry is its subject; its line is that of
   its `principal`.

   Refused with 2 to 11 as dovetenon_read does; no word of the list changes
   then. When listed, the answer tells how many words the list takes. If fewer
   are lent, none changes; else the list stands at their front, and words past
   it never change.

   It wants 1 MB of stack. */
uint64_t dovetenon_list(const uint8_t *text, size_t text_len,
                        uint32_t *list, size_t list_len);

/* The classes of a listing, and what else it tells. */
enum {
    DOVETENON_LISTING_REFUSED = 1,  /* the number of the refusal, and its line */
    DOVETENON_LISTING_LISTED = 2    /* how many words the list takes */
};

static inline uint32_t dovetenon_listing_class(uint64_t listing)
{
    return (uint32_t)(listing >> 16 & 0xFFFF);
}

/* Of a listing that is refused. */
static inline uint16_t dovetenon_listing_number(uint64_t listing)
{
    return (uint16_t)(listing & 0xFFFF);
}

/* The line at fault, from 1; 0 for refusal 2, which has none. */
static inline uint32_t dovetenon_listing_line(uint64_t listing)
{
    return (uint32_t)(listing >> 32);
}

/* Of a listing that is listed: how many words the list takes. */
static inline uint32_t dovetenon_listing_words(uint64_t listing)
{
    return (uint32_t)(listing >> 32);
}

/* The number of the first thing of a kind with this name, by the list of the
   text; where there is none, how many of the kind there are, which is the
   number of nothing. Lend as many words as the list takes. Of any other words
   each whole four is taken for a thing, and of its name what stands within the
   text. */
size_t dovetenon_find(const uint8_t *text, size_t text_len,
                      const uint32_t *list, size_t list_len,
                      uint32_t kind,
                      const uint8_t *name, size_t name_len);

#ifdef __cplusplus
}
#endif

#endif
