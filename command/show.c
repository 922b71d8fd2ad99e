/* dovetenon show: a table as a filled text with numbers for names. */
#include "arguments.h"
#include "dovetenon.h"
#include "files.h"
#include "layout.h"
#include "refusal.h"
#include "status.h"
#include "subcommands.h"
#include "text.h"

static uint16_t words[DOVETENON_TABLE_WORDS];

/* Prints an element of a list, behind a comma where it is not the first. */
static void print_element(bool *first, unsigned number)
{
    printf("%s%u", *first ? "" : ", ", number);
    *first = false;
}

/* The domains of a map with the numbers of their members, whose own domains stand in `members`. */
static void print_map(const char *map, const char *list, unsigned domains, const uint16_t *members, unsigned count)
{
    printf("%s:%s\n", map, domains == 0 ? " []" : "");
    for (unsigned domain = 0; domain < domains; domain++) {
        bool first = true;
        printf("- name: %u\n  %s: [", domain, list);
        for (unsigned member = 0; member < count; member++)
            if (members[member] == domain)
                print_element(&first, member);
        fputs("]\n", stdout);
    }
}

/* A grant over so many domains: a list of them, or all. */
static void print_grant(const uint16_t *grant, unsigned domains)
{
    if (grant[0] == 1) {
        fputs("all\n", stdout);
        return;
    }
    bool first = true;
    fputs("[", stdout);
    for (unsigned domain = 0; domain < domains; domain++)
        if (grant[1 + domain / 16] >> domain % 16 & 1)
            print_element(&first, domain);
    fputs("]\n", stdout);
}

/* An element of a pattern: functions by their numbers, domains by theirs. */
static void print_pattern_element(unsigned word)
{
    if (word == 0)
        fputs("all", stdout);
    else if (word < FIRST_DOMAIN)
        printf("%u", word - 1);
    else
        printf("domain %u", word - FIRST_DOMAIN);
}

static void print_context(const uint16_t *context)
{
    static const char *const sorts[] = {"all", "a variable", "root", "user"};
    fputs("      call_context: [", stdout);
    for (unsigned i = 0; i < context[CONTEXT_ELEMENTS]; i++) {
        fputs(i > 0 ? ", " : "", stdout);
        print_pattern_element(context[CONTEXT_PATTERN + i]);
    }
    printf("]\n      uid: %s\n      gid: %s\n", sorts[context[CONTEXT_UID]], sorts[context[CONTEXT_GID]]);
    printf("      namespace: %s\n", sorts[context[CONTEXT_NAMESPACE]]);
}

/* So many descriptors, from this one on. */
static void print_descriptors(const char *key, unsigned from, unsigned count, unsigned object_domains)
{
    printf("  %s:%s\n", key, count == 0 ? " []" : "");
    for (unsigned i = from; i < from + count; i++) {
        const uint16_t *block = descriptor_block(words, i);
        fputs("  - objects: ", stdout);
        print_grant(&block[DESCRIPTOR_OBJECTS], object_domains);
        fputs("    object_context:\n", stdout);
        print_context(block);
    }
}

static void print_privileges(struct figures figures)
{
    unsigned descriptors = 0; /* of the entries before this one */
    printf("privileges:%s\n", figures.entries == 0 ? " []" : "");
    for (unsigned entry = 0; entry < figures.entries; entry++) {
        const uint16_t *block = entry_block(words, entry);
        printf("# entry %u\n- principal:\n    subject: %d\n    execution_context:\n", entry, block[ENTRY_SUBJECT]);
        print_context(block);
        fputs("  can_call: ", stdout);
        print_grant(&block[ENTRY_CALL], figures.subject_domains);
        fputs("  can_return: ", stdout);
        print_grant(&block[ENTRY_RETURN], figures.subject_domains);
        print_descriptors("can_read", descriptors, block[ENTRY_READS], figures.object_domains);
        descriptors += block[ENTRY_READS];
        print_descriptors("can_write", descriptors, block[ENTRY_WRITES], figures.object_domains);
        descriptors += block[ENTRY_WRITES];
    }
}

/* Reads the words of a table; how many there are, or none where the file cannot be used: that is then told. */
static bool read_words(const char *file, size_t *count)
{
    static uint8_t bytes[2 * DOVETENON_TABLE_WORDS + 1];
    size_t length;
    if (!read_file(file, bytes, sizeof bytes, &length))
        return false;
    if (length == sizeof bytes) {
        complain(shown_name(file), "longer than a table, which has 32,768 bytes");
        return false;
    }
    *count = length / 2;
    for (size_t i = 0; i < *count; i++)
        words[i] = (uint16_t)(bytes[2 * i] | bytes[2 * i + 1] << 8);
    return true;
}

int show(const struct arguments *arguments)
{
    size_t count;
    if (!read_words(arguments->operands[0], &count))
        return STATUS_TROUBLE;
    if (!dovetenon_well_formed(words, count)) {
        tell_number(arguments->operands[0], DOVETENON_TABLE_ILL_FORMED);
        return STATUS_REFUSED;
    }
    struct figures figures = figures_of(words);
    print_map("object_map", "objects", figures.object_domains, &words[LAYOUT_OBJECTS], figures.objects);
    print_map("subject_map", "subjects", figures.subject_domains, &words[LAYOUT_FUNCTIONS], figures.functions);
    print_privileges(figures);
    return STATUS_GOOD;
}
