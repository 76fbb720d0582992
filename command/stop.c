/* Signals that end a command. A part that is not finished is removed first; `offer` ends as at the end of its input, tells its tally and then stops. */
#define _GNU_SOURCE
#include "command.h"

#include <signal.h>
#include <unistd.h>

static const int watched[] = {SIGTERM, SIGINT, SIGHUP};
enum { WATCHED = sizeof watched / sizeof *watched };
static const char *volatile doomed;
static volatile sig_atomic_t gentle, asked;

static void on_signal(int number)
{
    const char *part = doomed;
    if (gentle && !asked) {
        asked = number;
        return;
    }
    if (part != NULL)
        unlink(part);
    signal(number, SIG_DFL);
    raise(number);
}

void watch_signals(void)
{
    for (size_t k = 0; k < WATCHED; k++) {
        struct sigaction before, ours = {.sa_handler = on_signal};
        /* what is ignored, as under nohup, stays so */
        if (sigaction(watched[k], NULL, &before) == 0 && before.sa_handler != SIG_IGN)
            sigaction(watched[k], &ours, NULL);
    }
    /* a file that grows past the limit is an error like others */
    signal(SIGXFSZ, SIG_IGN);
}

static void mask_signals(int how)
{
    sigset_t all;
    sigemptyset(&all);
    for (size_t k = 0; k < WATCHED; k++)
        sigaddset(&all, watched[k]);
    sigprocmask(how, &all, NULL);
}

void hold_signals(void)
{
    mask_signals(SIG_BLOCK);
}

void let_signals(void)
{
    mask_signals(SIG_UNBLOCK);
}

void remove_when_stopped(const char *path)
{
    doomed = path;
}

void end_gently(void)
{
    gentle = 1;
}

int stop_asked(void)
{
    return asked;
}

void stop_now(void)
{
    if (asked) {
        signal(asked, SIG_DFL);
        raise(asked);
    }
}
