/* The worked example of README.md, from C: its text read into a table, what
   becomes of seven events under that table, the overlap report of it and of the
   table of a longer text, and a text without its last byte; then its text filled
   in, and not filled in where too few bytes are lent.

     cc -std=c11 -Iinclude include/example.c target/staticlib/libexport.a */
#include "dovetenon.h"
#include <stdio.h>
#include <string.h>

/* The functions and the object of the file. */
enum { MAIN, ADD, SUM };
enum { KWH };

static uint16_t table[DOVETENON_TABLE_WORDS];

static const char text[] =
    "object_map:\n"
    "- name: Meter\n"
    "  objects: [GLOBAL|m.c|4|kwh]\n"
    "subject_map:\n"
    "- name: Main\n"
    "  subjects: [m.c|main]\n"
    "- name: Bill\n"
    "  subjects: [b.c|add, b.c|sum]\n"
    "privileges:\n"
    "- principal:\n"
    "    subject: Bill\n"
    "    execution_context:\n"
    "      uid: U\n"
    "  can_call: []\n"
    "  can_return: [Main]\n"
    "  can_read:\n"
    "  - objects: [Meter]\n"
    "  can_write:\n";

/* An entry that claims moments of the one above. */
static const char another[] =
    "- principal:\n"
    "    subject: Bill\n"
    "    execution_context:\n"
    "      call_context: [m.c|main, all]\n"
    "      uid: user\n";

/* Judges an event at uid 5 whose target, if it is an object, is static. */
static void judge(const char *event, uint16_t operation, uint16_t target, const uint16_t *stack, size_t frames)
{
    printf("%s: ", event);
    uint32_t verdict = dovetenon_judge(table, DOVETENON_TABLE_WORDS, operation, target,
                                       stack, frames, 5, 0, 0, stack, 0, 0, 0, 0);
    switch (dovetenon_verdict_class(verdict)) {
    case DOVETENON_VERDICT_INSIDE:
        printf("allowed inside one domain\n");
        break;
    case DOVETENON_VERDICT_GRANTED:
        printf("allowed by entry %d\n", dovetenon_verdict_entry(verdict));
        break;
    case DOVETENON_VERDICT_VIOLATION:
        printf("violation %d\n", dovetenon_verdict_number(verdict));
        break;
    default:
        printf("refused, %d\n", dovetenon_verdict_number(verdict));
    }
}

/* Tells which entries of the table claim one moment, and which moment. */
static void report(void)
{
    uint16_t witness[DOVETENON_WITNESS_WORDS];
    uint64_t report = dovetenon_overlap(table, DOVETENON_TABLE_WORDS, witness, DOVETENON_WITNESS_WORDS);
    switch (dovetenon_report_class(report)) {
    case DOVETENON_REPORT_CLEAR:
        printf("clear\n");
        break;
    case DOVETENON_REPORT_CLASH:
        printf("entries %d and %d clash, at uid %d and functions", dovetenon_report_lower(report),
               dovetenon_report_higher(report), (int)dovetenon_report_uid(report));
        for (int i = 0; i < dovetenon_report_depth(report); i++)
            printf(" %d", witness[i]);
        printf("\n");
        break;
    default:
        printf("refused, %d\n", dovetenon_report_number(report));
    }
}

/* Tells what came of reading a text, or its page. */
static void tell(uint64_t reading)
{
    if (dovetenon_reading_class(reading) == DOVETENON_READING_ACCEPTED)
        printf("accepted\n");
    else
        printf("refused, %d, line %d\n", dovetenon_reading_number(reading), (int)dovetenon_reading_line(reading));
}

/* Reads a text into the table. A refused one leaves words by which nothing is
   allowed. */
static void read_text(const char *bytes, size_t length)
{
    tell(dovetenon_read((const uint8_t *)bytes, length, table, DOVETENON_TABLE_WORDS));
}

/* Writes the text with every default filled in, if it has room. */
static void fill_text(size_t room)
{
    static uint8_t filled[DOVETENON_TEXT_BYTES];
    uint64_t filling = dovetenon_fill((const uint8_t *)text, sizeof text - 1, filled, room);
    if (dovetenon_filling_class(filling) == DOVETENON_FILLING_WRITTEN)
        fwrite(filled, 1, dovetenon_filling_size(filling), stdout);
    else
        printf("refused, %d, line %d\n", dovetenon_filling_number(filling), (int)dovetenon_filling_line(filling));
}

int main(void)
{
    const uint16_t in_main[] = {MAIN};
    const uint16_t in_add[] = {MAIN, ADD};
    const uint16_t in_unlisted[] = {MAIN, 9};
    read_text(text, sizeof text - 1);
    judge("add returns to main", DOVETENON_RETURN, MAIN, in_add, 2);
    judge("add calls sum", DOVETENON_CALL, SUM, in_add, 2);
    judge("add calls main", DOVETENON_CALL, MAIN, in_add, 2);
    judge("main calls add", DOVETENON_CALL, ADD, in_main, 1);
    judge("function 9 calls main", DOVETENON_CALL, MAIN, in_unlisted, 2);
    judge("add reads object 7", DOVETENON_READ, 7, in_add, 2);
    judge("add reads kwh", DOVETENON_READ, KWH, in_add, 2);
    report();

    char longer[sizeof text + sizeof another];
    memcpy(longer, text, sizeof text - 1);
    memcpy(longer + sizeof text - 1, another, sizeof another - 1);
    read_text(longer, sizeof text + sizeof another - 2);
    report();

    tell(dovetenon_page((const uint8_t *)text, sizeof text - 2));
    read_text(text, sizeof text - 2);
    judge("add returns to main", DOVETENON_RETURN, MAIN, in_add, 2);

    fill_text(DOVETENON_TEXT_BYTES);
    fill_text(100);
    return 0;
}
