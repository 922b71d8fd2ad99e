/* The bridge: calls the proved C functions for `compare` and `bench`.

   Requests come on standard input and replies go to standard output, both in
   rounds: a length in bytes, then so many bytes. Each round of requests is
   answered by one round of replies. Numbers have 32 bits, or 64 where it says
   so, low byte first.

     request                            reply
     0 (what is here)                   length, text
     1 (lend) slot guard length bytes   none
     2 (show) slot                      length, bytes
     3 (call) call                      answer (64)
     4 (time) times count call ..       time (64), sum of answers (64)

   The text has a line 'native', 'emulated' or 'counted', the bridge's argument,
   and a line for each function that the library has.

   What is lent stays in its slot until something else is lent there. Its first
   and last `guard` bytes are the asker's canaries; a function gets what lies
   between. Show gives back all of it.

   A call is twelve numbers: the function, the slots of its three stretches and
   its eight other parameters, both in the order of the header, 0 where it has
   fewer. A parameter of 64 bits is two of them, its low half first.
   Time runs through its calls so many times over, inside this process, so that
   no pipe is measured, and tells nanoseconds. A bridge that is 'counted' has a
   second argument, the file in which an emulator counts its instructions
   (../counter/counter.c), and tells these instead.

   Whatever is wrong with a request ends the bridge with status 2. */

#include "dovetenon.h"

/* A library without one of these links too; its address is then 0. */
#pragma weak dovetenon_well_formed
#pragma weak dovetenon_judge
#pragma weak dovetenon_judge_known
#pragma weak dovetenon_overlap
#pragma weak dovetenon_page
#pragma weak dovetenon_read
#pragma weak dovetenon_fill
#pragma weak dovetenon_name
#pragma weak dovetenon_list
#pragma weak dovetenon_find

/* Of the C library, for x86-64 Linux. Its headers are not at hand everywhere. */
struct timespec { long seconds, nanoseconds; };
enum { MONOTONIC = 1, TO_READ = 0 };
int open(const char *path, int flags, ...);
long read(int file, void *bytes, size_t length);
long pread(int file, void *bytes, size_t length, long place);
long write(int file, const void *bytes, size_t length);
int clock_gettime(int clock, struct timespec *time);
void *realloc(void *bytes, size_t length);
void *memcpy(void *to, const void *from, size_t length);
size_t strlen(const char *text);
int strcmp(const char *one, const char *other);
_Noreturn void _exit(int status);

enum { WELL_FORMED, JUDGE, JUDGE_KNOWN, OVERLAP, PAGE, READ, FILL, NAME, LIST, FIND, FUNCTIONS };

static const struct {
    const char *name;
    void (*code)(void);
} functions[FUNCTIONS] = {
    [WELL_FORMED] = {"well_formed", (void (*)(void))dovetenon_well_formed},
    [JUDGE] = {"judge", (void (*)(void))dovetenon_judge},
    [JUDGE_KNOWN] = {"judge_known", (void (*)(void))dovetenon_judge_known},
    [OVERLAP] = {"overlap", (void (*)(void))dovetenon_overlap},
    [PAGE] = {"page", (void (*)(void))dovetenon_page},
    [READ] = {"read", (void (*)(void))dovetenon_read},
    [FILL] = {"fill", (void (*)(void))dovetenon_fill},
    [NAME] = {"name", (void (*)(void))dovetenon_name},
    [LIST] = {"list", (void (*)(void))dovetenon_list},
    [FIND] = {"find", (void (*)(void))dovetenon_find},
};

static _Noreturn void fail(const char *fault)
{
    long ignored = write(2, "bridge: ", 8);
    ignored = write(2, fault, strlen(fault));
    ignored = write(2, "\n", 1);
    (void)ignored;
    _exit(2);
}

/* ---- Bytes that grow */

struct bytes {
    unsigned char *at;
    size_t length, room;
};

/* Makes room for so many bytes in all. */
static void reserve(struct bytes *bytes, size_t length)
{
    if (length <= bytes->room)
        return;
    size_t room = length > 2 * bytes->room ? length : 2 * bytes->room;
    bytes->at = realloc(bytes->at, room);
    bytes->room = room;
    if (!bytes->at)
        fail("no memory");
}

static void add(struct bytes *bytes, const void *from, size_t length)
{
    reserve(bytes, bytes->length + length);
    memcpy(bytes->at + bytes->length, from, length);
    bytes->length += length;
}

/* ---- One round */

static struct bytes requests, replies;
static size_t taken; /* of the requests */

static const unsigned char *take(size_t length)
{
    if (length > requests.length - taken)
        fail("a request is cut off");
    taken += length;
    return requests.at + taken - length;
}

static uint32_t number(void)
{
    uint32_t number;
    memcpy(&number, take(sizeof number), sizeof number);
    return number;
}

static void reply_number(uint32_t number) { add(&replies, &number, sizeof number); }
static void reply_long(uint64_t number) { add(&replies, &number, sizeof number); }

/* ---- What is lent */

struct lent {
    struct bytes all;
    size_t guard;
};

static struct lent *slots;
static size_t slot_count;

static struct lent *slot_of(uint32_t slot)
{
    if (slot >= slot_count || !slots[slot].all.at)
        fail("nothing was lent in this slot");
    return &slots[slot];
}

static void lend(void)
{
    uint32_t slot = number(), guard = number(), length = number();
    const unsigned char *from = take(length);
    if (slot > 1u << 20 || guard == 0 || guard % sizeof(uint32_t) != 0 || length / 2 < guard)
        fail("this cannot be lent");
    if (slot >= slot_count) {
        size_t count = 2 * slot_count > slot ? 2 * slot_count : slot + 1;
        slots = realloc(slots, count * sizeof *slots);
        if (!slots)
            fail("no memory");
        for (; slot_count < count; slot_count++)
            slots[slot_count] = (struct lent){{0, 0, 0}, 0};
    }
    slots[slot].all.length = 0;
    slots[slot].guard = guard;
    add(&slots[slot].all, from, length);
}

static void show(void)
{
    const struct bytes *all = &slot_of(number())->all;
    reply_number((uint32_t)all->length);
    add(&replies, all->at, all->length);
}

static uint8_t *text(uint32_t slot)
{
    const struct lent *lent = slot_of(slot);
    return lent->all.at + lent->guard;
}

static size_t text_len(uint32_t slot)
{
    const struct lent *lent = slot_of(slot);
    return lent->all.length - 2 * lent->guard;
}

static uint16_t *words(uint32_t slot) { return (uint16_t *)(void *)text(slot); }
static size_t words_len(uint32_t slot) { return text_len(slot) / sizeof(uint16_t); }

static uint32_t *list(uint32_t slot) { return (uint32_t *)(void *)text(slot); }
static size_t list_len(uint32_t slot) { return text_len(slot) / sizeof(uint32_t); }

/* ---- Calls */

struct call {
    uint32_t function, slot[3], number[8];
};

static struct call call(void)
{
    struct call call;
    memcpy(&call, take(sizeof call), sizeof call);
    if (call.function >= FUNCTIONS || !functions[call.function].code)
        fail("this function is not here");
    return call;
}

static uint64_t answer(const struct call *call)
{
    const uint32_t *slot = call->slot, *number = call->number;
    switch (call->function) {
    case WELL_FORMED:
        return dovetenon_well_formed(words(slot[0]), words_len(slot[0]));
    case JUDGE:
        return dovetenon_judge(words(slot[0]), words_len(slot[0]),
                               (uint16_t)number[0], (uint16_t)number[1],
                               words(slot[1]), words_len(slot[1]),
                               number[2], number[3], number[4],
                               words(slot[2]), words_len(slot[2]),
                               number[5], number[6], number[7]);
    case JUDGE_KNOWN:
        return dovetenon_judge_known(words(slot[0]), words_len(slot[0]),
                                     (uint16_t)number[0], (uint16_t)number[1],
                                     words(slot[1]), words_len(slot[1]),
                                     number[2], number[3], number[4],
                                     words(slot[2]), words_len(slot[2]),
                                     number[5], number[6], number[7]);
    case OVERLAP:
        return dovetenon_overlap(words(slot[0]), words_len(slot[0]),
                                 words(slot[1]), words_len(slot[1]));
    case PAGE:
        return dovetenon_page(text(slot[0]), text_len(slot[0]));
    case READ:
        return dovetenon_read(text(slot[0]), text_len(slot[0]),
                              words(slot[1]), words_len(slot[1]));
    case FILL:
        return dovetenon_fill(text(slot[0]), text_len(slot[0]),
                              text(slot[1]), text_len(slot[1]));
    case NAME:
        return dovetenon_name(text(slot[0]), text_len(slot[0]), (uint16_t)number[0],
                              (size_t)number[2] << 32 | number[1]);
    case LIST:
        return dovetenon_list(text(slot[0]), text_len(slot[0]),
                              list(slot[1]), list_len(slot[1]));
    default:
        return dovetenon_find(text(slot[0]), text_len(slot[0]), list(slot[1]), list_len(slot[1]),
                              number[0], text(slot[2]), text_len(slot[2]));
    }
}

static void answer_one(void)
{
    struct call one = call();
    reply_long(answer(&one));
}

static int counter = -1; /* the file of the count, if there is one */

static uint64_t now(void)
{
    struct timespec time;
    uint64_t count;
    if (counter >= 0) {
        if (pread(counter, &count, sizeof count, 0) != sizeof count)
            fail("no count");
        return count;
    }
    if (clock_gettime(MONOTONIC, &time) != 0)
        fail("no clock");
    return (uint64_t)time.seconds * 1000000000 + (uint64_t)time.nanoseconds;
}

static void answer_timed(void)
{
    static struct bytes calls;
    uint32_t times = number(), count = number();
    calls.length = 0;
    for (uint32_t i = 0; i < count; i++) {
        struct call one = call();
        add(&calls, &one, sizeof one);
    }
    const struct call *all = (const void *)calls.at;
    uint64_t sum = 0, start = now();
    for (uint32_t time = 0; time < times; time++)
        for (uint32_t i = 0; i < count; i++)
            sum += answer(&all[i]);
    reply_long(now() - start);
    reply_long(sum);
}

static void what_is_here(const char *how)
{
    static struct bytes text;
    text.length = 0;
    add(&text, how, strlen(how));
    add(&text, "\n", 1);
    for (int i = 0; i < FUNCTIONS; i++)
        if (functions[i].code) {
            add(&text, functions[i].name, strlen(functions[i].name));
            add(&text, "\n", 1);
        }
    reply_number((uint32_t)text.length);
    add(&replies, text.at, text.length);
}

/* ---- Rounds */

/* Reads so many bytes; false at the end of the input. */
static bool get(void *to, size_t length)
{
    for (size_t got = 0; got < length;) {
        long more = read(0, (char *)to + got, length - got);
        if (more == 0 && got == 0)
            return false;
        if (more <= 0)
            fail("a round is cut off");
        got += (size_t)more;
    }
    return true;
}

static void put(const unsigned char *from, size_t length)
{
    while (length > 0) {
        long more = write(1, from, length);
        if (more <= 0)
            fail("no one reads the replies");
        from += more;
        length -= (size_t)more;
    }
}

int main(int count, char **arguments)
{
    bool counted = count > 1 && strcmp(arguments[1], "counted") == 0;
    if (count != (counted ? 3 : 2))
        fail("one argument, native or emulated, or two, counted and a file");
    if (counted && (counter = open(arguments[2], TO_READ)) < 0)
        fail("no counter");
    uint32_t length;
    while (get(&length, sizeof length)) {
        reserve(&requests, length);
        if (length > 0 && !get(requests.at, length))
            fail("a round is cut off");
        requests.length = length;
        taken = 0;
        replies.length = 0;
        reply_number(0); /* the length, known at the end */
        while (taken < requests.length)
            switch (number()) {
            case 0: what_is_here(arguments[1]); break;
            case 1: lend(); break;
            case 2: show(); break;
            case 3: answer_one(); break;
            case 4: answer_timed(); break;
            default: fail("a request of no kind");
            }
        length = (uint32_t)(replies.length - sizeof length);
        memcpy(replies.at, &length, sizeof length);
        put(replies.at, replies.length);
    }
    return 0;
}
