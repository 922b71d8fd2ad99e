/* What is said of a refused text. */
#ifndef REFUSAL_H
#define REFUSAL_H

#include "policy.h"

/* Tells it: to people on standard error, with the line at fault; to programs on standard output. Answers the status. */
int tell_refusal(const struct text *text, uint16_t number, uint32_t line, bool json);

/* Tells a refusal that no line of a text is to blame for. */
void tell_number(const char *file, uint16_t number);

#endif
