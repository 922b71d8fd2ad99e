/* The words of refusals and violations. */
#ifndef WORDS_H
#define WORDS_H

/* What a number means, and what to do about it. */
struct words {
    int number;
    const char *means, *help;
};

/* Of a number that is not listed they say so. */
const struct words *refusal_words(int number);
const struct words *violation_words(int number);

#endif
