/* dovetenon table: the words of a file's table, low byte first. */
#include "arguments.h"
#include "files.h"
#include "policy.h"
#include "status.h"
#include "subcommands.h"

int table(const struct arguments *arguments)
{
    static struct policy policy;
    static uint8_t bytes[2 * DOVETENON_TABLE_WORDS];
    int status = read_policy(arguments->operands[0], false, &policy);
    if (status != STATUS_GOOD)
        return status;
    for (size_t i = 0; i < DOVETENON_TABLE_WORDS; i++) {
        bytes[2 * i] = (uint8_t)(policy.table[i] & 0xFF);
        bytes[2 * i + 1] = (uint8_t)(policy.table[i] >> 8);
    }
    return write_file(arguments->out, bytes, sizeof bytes) ? STATUS_GOOD : STATUS_TROUBLE;
}
