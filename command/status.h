/* How the program ends. */
#ifndef STATUS_H
#define STATUS_H

enum {
    STATUS_GOOD = 0,
    STATUS_REFUSED = 1, /* a refusal, or a violation */
    STATUS_TROUBLE = 2, /* with the arguments, or with a file */
    STATUS_CLASH = 3
};

#endif
