#define _POSIX_C_SOURCE 200809L

#include "signals.h"

#include <signal.h>
#include <stddef.h>

static volatile sig_atomic_t came;

static void note(int signal_number)
{
    came = signal_number;
}

void signals_ignore(int makes)
{
    signal(SIGXFSZ, SIG_IGN);
    if (makes)
        signal(SIGPIPE, SIG_IGN);
}

/* One that was ignored when the program began stays so: nohup, a job in the background. */
static void catch_one(int signal_number)
{
    struct sigaction was, now = {.sa_handler = note};
    sigemptyset(&now.sa_mask);
    if (sigaction(signal_number, NULL, &was) == 0 && was.sa_handler != SIG_IGN)
        sigaction(signal_number, &now, NULL);
}

void signals_catch(void)
{
    catch_one(SIGINT);
    catch_one(SIGTERM);
    catch_one(SIGHUP);
}

int signals_came(void)
{
    return came != 0;
}

void signals_end(void)
{
    if (came == 0)
        return;
    signal(came, SIG_DFL);
    raise(came);
}
