/* dovetenon fill: a file with every default written. */
#include "arguments.h"
#include "files.h"
#include "policy.h"
#include "refusal.h"
#include "status.h"
#include "subcommands.h"

int fill(const struct arguments *arguments)
{
    static struct text text;
    static uint8_t filled[DOVETENON_TEXT_BYTES];
    if (!read_text(arguments->operands[0], &text))
        return STATUS_TROUBLE;
    uint64_t filling = dovetenon_fill(text.bytes, text.length, filled, sizeof filled);
    if (dovetenon_filling_class(filling) != DOVETENON_FILLING_WRITTEN)
        return tell_refusal(&text, dovetenon_filling_number(filling), dovetenon_filling_line(filling), false);
    return write_file(arguments->out, filled, dovetenon_filling_size(filling)) ? STATUS_GOOD : STATUS_TROUBLE;
}
