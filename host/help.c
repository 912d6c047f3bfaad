#include "help.h"

#include <string.h>

#include "store.h"
#include "words.h"

/* The text of one command. */
struct help {
    const char *command;
    const char *text;
};

static const struct help helps[] = {
    {"new", "crz new FILE\n"
            "\n"
            "Makes a fresh zone in a new file: no money, no receipts, day 1, morning. A file that exists stays as it "
            "is.\n"},
    {"call",
        "crz call FILE KIND FIELD N ..  [--expect N] [--wait SECONDS] [--json]\n"
        "\n"
        "Makes one call and shows its answer, which is durable by then. A refused call is in the journal too.\n"
        "  --expect N       only if N is the journal's last sequence number: a retry cannot act twice\n"
        "  --wait SECONDS   how long to wait for another program, 10 if not given\n"
        "  --json           the answer as an object\n"
        "\n"
        "Money is in fen, prices, basis and premium in yuan per tonne, weights in kilograms; 1,234,567 is taken as\n"
        "1234567.\n"
        "The kinds, with their fields, who may make them and what they do:\n"},
    {"play",
        "crz play FILE SCRIPT  [--table] [--expect N] [--stop] [--wait SECONDS] [--json]\n"
        "\n"
        "Makes the calls of a script, one a line, each durable before its answer is shown. # begins a remark; the\n"
        "script - is standard input. Every bad line is named first, and then no call is made.\n"
        "  --table          make them in tables of up to 32 calls: a kill leaves all calls of a table or none, nobody\n"
        "                   else calls between them, and their answers are shown when all are durable. A refused call\n"
        "                   does not end its table. A long script takes less time this way\n"
        "  --expect N       the first call, or table, only if N is the journal's last sequence number\n"
        "  --stop           end at the first refused call; a table then ends with it\n"
        "  --wait SECONDS   how long to wait for another program, 10 if not given\n"
        "  --json           an object for each call, and one for the script\n"},
    {"show", "crz show FILE  [--json] [--wait SECONDS]\n"
             "\n"
             "The zone as it stands: day and phase, asks, accounts with money, and every registered receipt by its "
             "state;\n"
             "of a lot that is first paid also what is left to invoice and what the next confirmation pays.\n"},
    {"log", "crz log FILE  [--account N] [--lot N] [--last N] [--head] [--json] [--wait SECONDS]\n"
            "\n"
            "The journal in words, from its start. A call that was made in a table says which: 'table 65 to 96' has\n"
            "the calls with these sequence numbers.\n"
            "  --account N      lines that name the account, in their call or their answer\n"
            "  --lot N          lines that name the lot\n"
            "  --last N         the last N of these lines\n"
            "  --head           the last line's sequence number, time and hash, to be written down at the day close\n"},
    {"verify",
        "crz verify FILE  [--wait SECONDS]\n"
        "\n"
        "Checks the hash of every line, makes every call of the journal again, those of a table as a table, compares\n"
        "number, answer and the final image; then holds the history of a zone that started fresh against the image.\n"
        "Names the first bad line.\n"},
    {"statement",
        "crz statement FILE ACCOUNT  [--json] [--wait SECONDS]\n"
        "\n"
        "What was paid in, taken out, received and passed on, what is held for which lot, and how it adds up.\n"
        "Payments of a lot are shown with the premium of its receipt, what is held of a rest with the part that the\n"
        "next confirmation pays and what is left to invoice. A seller finds what it may still invoice for which lot,\n"
        "and what the confirmation of a pending invoice will pay.\n"},
    {"due", "crz due FILE  [--json] [--wait SECONDS]\n"
            "\n"
            "The lots that the next morning close works, with their full payment, who must lodge and what each side\n"
            "has. In an afternoon that is tomorrow's close.\n"
            "What somebody lacks is said of each lot by itself. Behind the lots stands what each account has to pay\n"
            "in before the morning close, for all of its due lots together: this is what to tell a mill. Whoever\n"
            "pays that in is no defaulting buyer in the close, whoever else is short, if no other call comes before\n"
            "it; after another call ask again. In an afternoon nobody has to: today's close is made, and what to\n"
            "pay in for tomorrow's is shown after the day close.\n"},
    {"import", "crz import FILE IMAGE\n"
               "\n"
               "Makes a new zone that starts with a raw image, as a host of its own keeps it. An image without\n"
               "premiums, of a program before 2.0.0, is taken too: every receipt gets premium 0, all else stays.\n"
               "An image of a program before 3.0.0 that has paid less of a rest than this one would is not taken: the\n"
               "message names the trades, which are to be finished there first.\n"},
    {"export", "crz export FILE IMAGE  [--wait SECONDS]\n"
               "\n"
               "Writes the zone's image into a new file, as the library has it in memory.\n"},
};

enum { HELPS = sizeof helps / sizeof helps[0] };

void print_usage(FILE *to)
{
    fputs("crz new FILE                 a fresh zone in a new file\n"
          "crz call FILE KIND FIELD N   make a call\n"
          "crz play FILE SCRIPT         make the calls of a script, one a line\n"
          "crz show FILE                the zone as it stands\n"
          "crz log FILE                 the journal in words\n"
          "crz verify FILE              check the journal and the image\n"
          "crz statement FILE ACCOUNT   what an account's money did\n"
          "crz due FILE                 what the next morning close works, and who has to pay in before it\n"
          "crz import FILE IMAGE        a new zone from a raw image\n"
          "crz export FILE IMAGE        the raw image into a new file\n"
          "crz help WORD                more on a command or a kind; 'crz help call' lists the kinds of call\n"
          "\n"
          "Ends with 0 accepted, 1 refused, 2 bad words, 3 nothing done (file, format, lock, disk),\n"
          "4 made but the answer could not be shown.\n",
        to);
}

void print_version(void)
{
    printf("crz %s, zone formats %d and %d, %s\n", CRZ_VERSION, STORE_FORMAT, STORE_FORMAT_TABLES, store_engine());
}

static void print_call_help(void)
{
    print_kinds();
    puts("\nThe fields:");
    print_ranges(~0u);
}

void print_help(const char *word)
{
    const struct kind_words *kind = word == NULL ? NULL : kind_named(word);
    if (word == NULL)
        print_usage(stdout);
    for (size_t i = 0; word != NULL && i < HELPS; i++)
        if (strcmp(helps[i].command, word) == 0)
            fputs(helps[i].text, stdout);
    if (word != NULL && strcmp(word, "call") == 0)
        print_call_help();
    if (kind != NULL) {
        print_kind(kind);
        print_ranges(kind->takes);
    }
}
