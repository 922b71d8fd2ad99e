/* dovetenon: Dovetenon's proved functions for people. It reads arguments and files, calls, and prints; it decides nothing. */
#define _XOPEN_SOURCE 700
#include "arguments.h"
#include "files.h"
#include "status.h"

#include <fcntl.h>
#include <signal.h>
#include <sys/resource.h>
#include <unistd.h>

/* What the proved functions want, and the program itself. */
enum { STACK_BYTES = 1088 << 10 };

/* Standard files that are closed are held, so that no other file is taken for one of them. */
static void hold_standard_files(void)
{
    for (int file = 0; file <= 2; file++)
        if (fcntl(file, F_GETFD) < 0 && open("/dev/null", file == 0 ? O_WRONLY : O_RDONLY) < 0)
            _exit(STATUS_TROUBLE);
}

/* Whether the stack may grow as far as it must. */
static bool has_stack(void)
{
    struct rlimit limit;
    if (getrlimit(RLIMIT_STACK, &limit) != 0 || limit.rlim_cur >= STACK_BYTES)
        return true;
    limit.rlim_cur = STACK_BYTES;
    return setrlimit(RLIMIT_STACK, &limit) == 0;
}

static int run(const struct arguments *arguments)
{
    if (arguments->help)
        print_help();
    else if (arguments->version)
        print_version();
    else
        return arguments->subcommand->run(arguments);
    return STATUS_GOOD;
}

int main(int count, char **words)
{
    /* A write that fails is told, and ends nothing in the middle. */
    hold_standard_files();
    signal(SIGPIPE, SIG_IGN);
    signal(SIGXFSZ, SIG_IGN);
    struct arguments arguments;
    if (!read_arguments(count, words, &arguments))
        return STATUS_TROUBLE;
    if (!has_stack()) {
        complain("the stack", "its limit is below 1,088 KB");
        return STATUS_TROUBLE;
    }
    int status = run(&arguments);
    return finish_output() ? status : STATUS_TROUBLE;
}
