/* crz: a zone in a file. See help.c, crz.1 or the README. */
#define _POSIX_C_SOURCE 200809L

#include <errno.h>
#include <fcntl.h>
#include <stdio.h>
#include <string.h>
#include <unistd.h>

#include "commands.h"
#include "help.h"
#include "nearest.h"
#include "signals.h"
#include "words.h"

#define OPTION(name) (1u << OPTION_##name)
#define EVERYWHERE (OPTION(HELP) | OPTION(VERSION))
#define READING (OPTION(WAIT) | OPTION(JSON))

struct command {
    const char *word;
    enum status (*run)(const struct request *request);
    unsigned options;
    int least, most; /* words behind its own */
    const char *takes;
    int makes; /* whether it leaves something behind */
};

static const struct command commands[] = {
    {"new", command_new, 0, 1, 1, "FILE", 1},
    {"call", command_call, READING | OPTION(EXPECT), 2, 2 + 2 * FIELDS, "FILE KIND FIELD N ..", 1},
    {"play", command_play, READING | OPTION(EXPECT) | OPTION(STOP) | OPTION(TABLE), 2, 2, "FILE SCRIPT", 1},
    {"show", command_show, READING, 1, 1, "FILE", 0},
    {"log", command_log, READING | OPTION(ACCOUNT) | OPTION(LOT) | OPTION(LAST) | OPTION(HEAD), 1, 1, "FILE", 0},
    {"verify", command_verify, OPTION(WAIT), 1, 1, "FILE", 0},
    {"statement", command_statement, READING, 2, 2, "FILE ACCOUNT", 0},
    {"due", command_due, READING, 1, 1, "FILE", 0},
    {"import", command_import, 0, 2, 2, "FILE IMAGE", 1},
    {"export", command_export, OPTION(WAIT), 2, 2, "FILE IMAGE", 1},
};

enum { COMMANDS = sizeof commands / sizeof commands[0] };

/* ── Descriptors ───────────────────────────────────────────────────────────────────────────────── */

/* A closed one of the first three would be given to the next file that is opened, the zone itself perhaps. */
static int fill_closed(int descriptor)
{
    if (fcntl(descriptor, F_GETFD) != -1 || errno != EBADF)
        return 0;
    int flags = descriptor == STDIN_FILENO ? O_WRONLY : O_RDWR; /* a closed input is no empty one */
    return open("/dev/null", flags) == descriptor ? 1 : -1;
}

/* Whether standard output can be written at all; before anything is done. */
static int output_open(void)
{
    int in = fill_closed(STDIN_FILENO), out = fill_closed(STDOUT_FILENO), err = fill_closed(STDERR_FILENO);
    int flags = fcntl(STDOUT_FILENO, F_GETFL);
    if (in < 0 || err < 0 || out != 0 || flags == -1 || (flags & O_ACCMODE) == O_RDONLY) {
        report(NULL, "standard output is closed or cannot be written; nothing was done");
        return 0;
    }
    return 1;
}

/* ── Words ─────────────────────────────────────────────────────────────────────────────────────── */

static const struct command *command_named(const char *word)
{
    for (size_t i = 0; i < COMMANDS; i++)
        if (strcmp(commands[i].word, word) == 0)
            return &commands[i];
    return NULL;
}

static void nearest_command(struct nearest *nearest)
{
    for (size_t i = 0; i < COMMANDS; i++)
        nearest_try(nearest, commands[i].word);
    nearest_try(nearest, "help");
    nearest_try(nearest, "--help");
    nearest_try(nearest, "--version");
}

static enum status no_command(const char *word)
{
    struct nearest nearest = nearest_to(word);
    char hint[64];
    nearest_command(&nearest);
    nearest_words(&nearest, hint, sizeof hint);
    if (kind_named(word) != NULL)
        report(NULL, "'%s' is a kind of call: 'crz call FILE %s ..'", word, word);
    else
        report(NULL, "%s is no command%s; 'crz help' lists them", quoted(word).text, hint);
    return STATUS_BAD_WORDS;
}

static enum status no_help(const char *word)
{
    struct nearest nearest = nearest_to(word);
    char hint[64];
    nearest_command(&nearest);
    nearest_kind(&nearest);
    nearest_words(&nearest, hint, sizeof hint);
    report(NULL, "%s is no command and no kind of call%s; 'crz help' lists them", quoted(word).text, hint);
    return STATUS_BAD_WORDS;
}

static int count_fits(const struct command *command, const struct request *request)
{
    if (request->count >= command->least && request->count <= command->most)
        return 1;
    if (request->count < command->least)
        report(NULL, "%s takes %s; 'crz help %s' tells more", command->word, command->takes, command->word);
    else
        report(NULL, "%s takes %s; %s is too much", command->word, command->takes,
            quoted(request->words[command->most]).text);
    return 0;
}

static int asks_help(const char *word)
{
    return strcmp(word, "help") == 0 || strcmp(word, "--help") == 0;
}

static enum status version(void)
{
    print_version();
    return STATUS_ACCEPTED;
}

static enum status help(const char *word)
{
    if (word != NULL && strcmp(word, "--version") == 0)
        return version();
    if (word != NULL && asks_help(word))
        word = NULL;
    if (word != NULL && command_named(word) == NULL && kind_named(word) == NULL)
        return no_help(word);
    print_help(word);
    return STATUS_ACCEPTED;
}

static enum status run(const struct command *command, int count, char **words)
{
    struct request request;
    if (options_read(&request, command->word, command->options | EVERYWHERE, words, count) != 0)
        return STATUS_BAD_WORDS;
    if (option_given(&request, OPTION_HELP))
        return help(command->word);
    if (option_given(&request, OPTION_VERSION))
        return version();
    if (!count_fits(command, &request))
        return STATUS_BAD_WORDS;
    signals_ignore(command->makes);
    return command->run(&request);
}

static enum status choose(int count, char **words)
{
    const char *word = count > 0 ? words[0] : "";
    const struct command *command = command_named(word);
    if (count == 0) {
        print_usage(stderr);
        return STATUS_BAD_WORDS;
    }
    if (command != NULL)
        return run(command, count - 1, words + 1);
    if (strcmp(word, "--version") == 0)
        return version();
    return asks_help(word) ? help(count > 1 ? words[1] : NULL) : no_command(word);
}

/* What the program ends with where the rest of its output goes out, or not. */
static enum status flushed(enum status status)
{
    if ((fflush(stdout) == 0 && !ferror(stdout)) || status > STATUS_REFUSED)
        return status;
    report(NULL, "standard output cannot be written: %s", strerror(errno));
    return STATUS_NOTHING_DONE;
}

int main(int argc, char **argv)
{
    if (!output_open())
        return STATUS_NOTHING_DONE;
    enum status status = flushed(choose(argc - 1, argv + 1));
    signals_end();
    return (int)status;
}
