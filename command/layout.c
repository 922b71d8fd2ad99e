#include "layout.h"

const uint16_t *entry_block(const uint16_t *table, unsigned entry)
{
    return &table[LAYOUT_ENTRIES + entry * ENTRY_WORDS];
}

const uint16_t *descriptor_block(const uint16_t *table, unsigned descriptor)
{
    return &table[LAYOUT_DESCRIPTORS + descriptor * DESCRIPTOR_WORDS];
}

struct figures figures_of(const uint16_t *table)
{
    struct figures figures = {
        .object_domains = table[1],
        .subject_domains = table[2],
        .objects = table[3],
        .functions = table[4],
        .entries = table[5],
        .descriptors = 0,
    };
    for (unsigned entry = 0; entry < figures.entries; entry++) {
        const uint16_t *block = entry_block(table, entry);
        figures.descriptors += block[ENTRY_READS] + block[ENTRY_WRITES];
    }
    return figures;
}
