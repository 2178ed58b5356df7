/*
 * The command rigbasen: the bed plans of a region, on the command line. Every verdict, row, price and written byte comes from the
 * calls of rigbasen.h.
 */
#include "command.h"

#include <limits.h>
#include <signal.h>
#include <string.h>

const struct command commands[] = {
    {"check", carry_out_check, 0, 0, INT_MAX, "check [FILE..]",
     "Is each file a good one? A line for each: FILE: fine, or with which number it is refused.\n"},
    {"list", carry_out_list, OPTION_CSV | OPTION_JSON | OPTION_M | OPTION_LIMIT | OPTION_NAMES, 0, 1,
     "list [--csv | --json] [-m N] [--limit S] [--names FILE] [FILE]",
     "The m cheapest plans of a file, cheapest first: each plan's cost and the bed of each patient.\n"
     "  --csv, --json  for a spreadsheet, for a program\n"
     "  -m N           N plans, 1 to 64, instead of the file's m\n"
     "  --limit S      give up after S seconds, with status 3\n"
     "  --names FILE   names of clinics, a line for each: CLINIC NAME\n"},
    {"sheet", carry_out_sheet, OPTION_CSV | OPTION_JSON | OPTION_M | OPTION_LIMIT | OPTION_NAMES, 1, 2,
     "sheet [--csv | --json] [-m N] [--limit S] [--names FILE] CLINIC [FILE]",
     "One clinic's part of the list, in rows of its own: the beds of its patients, and its share of the cost. Options as for list.\n"},
    {"price", carry_out_price, 0, 1, INT_MAX, "price BED.. [FILE]",
     "What one plan costs, a bed for each patient in the order of the file; or that it is not allowed, and why.\n"
     "Arguments of digits alone are beds: a file with such a name is given as ./3.\n"},
    {"line", carry_out_line, 0, 1, 2, "line MEMBERS [FILE]",
     "The line of the table over some members, typed as they stand in the file: rigbasen line '(0 1)' FILE\n"},
    {"seal", carry_out_seal, OPTION_PARENTS | OPTION_M | OPTION_OUTPUT, 0, 1, "seal [--parents] [-m N] [-o FILE] [FILE]",
     "The file with its end line made. After a change, take the end line out and seal the file.\n"
     "An end line that is there must be the right one, and lines must be as many as the first line says.\n"
     "  --parents  with its parents made from its tables, whatever stood there\n"
     "  -m N       with another m, 1 to 64\n"
     "  -o FILE    where it goes; it may be the file that is read\n"},
    {"write", carry_out_seal, OPTION_PARENTS | OPTION_M | OPTION_OUTPUT, 0, 1, "write [--parents] [-m N] [-o FILE] [FILE]",
     "The same as seal.\n"},
    {"join", carry_out_join, OPTION_OUTPUT, 2, 2, "join [-o FILE] FIRST SECOND",
     "The file of two regions together. They must have no clinic in common.\n"
     "  -o FILE  where it goes\n"},
    {"parents", carry_out_parents, OPTION_OUTPUT, 0, 1, "parents [-o FILE] [FILE]",
     "The file with its parents made from its tables, whatever stood there. Run it where a file is refused with 10, or with 6 for\n"
     "its parents, and where a list takes very long. A file without an end line may be cut and is refused; for lines that\n"
     "were written by hand there is rigbasen seal --parents.\n"
     "  -o FILE  where it goes; it may be the file that is read\n"},
    {"why", carry_out_why, OPTION_LIMIT, 0, 1, "why [--limit S] [FILE]",
     "Why a file is refused, where, and what to do. Of a good file: its size, and whether its parents make a list slow.\n"
     "  --limit S  give up looking for the tables that allow no plan after S seconds in all; 10 without this option\n"},
    {NULL, NULL, 0, 0, 0, NULL, NULL},
};

static const char overview[] =
    "rigbasen: the bed plans of a region\n"
    "\n"
    "    rigbasen check [FILE..]         is each file a good one?\n"
    "    rigbasen list [FILE]            its m cheapest plans\n"
    "    rigbasen sheet CLINIC [FILE]    one clinic's part of that list\n"
    "    rigbasen price BED.. [FILE]     what one plan costs, a bed for each patient\n"
    "    rigbasen line MEMBERS [FILE]    the line of the table over some members: '(0 1)'\n"
    "    rigbasen seal [FILE]            the file with its end line made, with --parents its parents too (also: write)\n"
    "    rigbasen join FIRST SECOND      the file of two regions together\n"
    "    rigbasen parents [FILE]         the file with its parents made\n"
    "    rigbasen why [FILE]             why a file is refused, where, and what to do\n"
    "    rigbasen help [COMMAND]         this, or more of one command and its options\n"
    "    rigbasen --version\n"
    "\n"
    "FILE is the last argument; without it, or with -, standard input is read.\n"
    "The status is 0; 1 where a file is refused; 2 for wrong usage or where something cannot be read or written; 3 where a list does\n"
    "not come within --limit.\n";

static const struct command *command_of(const char *name)
{
    for (const struct command *command = commands; command->name != NULL; command++) {
        if (strcmp(command->name, name) == 0) {
            return command;
        }
    }
    fprintf(stderr, "rigbasen: there is no command '");
    put_text(stderr, (const uint8_t *)name, strlen(name));
    fprintf(stderr, "'; rigbasen help says which there are\n");
    return NULL;
}

static int show_help(const struct command *command)
{
    printf("rigbasen %s\n\n%s", command->usage, command->help);
    return STATUS_FINE;
}

static int help(int count, char **arguments)
{
    if (count == 0) {
        printf("%s", overview);
        return STATUS_FINE;
    }
    if (count > 1) {
        complain("help: one argument too many; usage: rigbasen help [COMMAND]");
        return STATUS_TROUBLE;
    }
    const struct command *command = command_of(arguments[0]);
    return command == NULL ? STATUS_TROUBLE : show_help(command);
}

/* The command was made with a header, and the library says to which it belongs. */
static int version(int shown)
{
    unsigned long long library = (unsigned long long)rigbasen_version();
    int same = library == RIGBASEN_VERSION_NUMBER;
    if (shown) {
        printf("rigbasen %s\n", RIGBASEN_VERSION);
    }
    if (!same) {
        complain("the library has version %llu.%llu.%llu, and this command belongs to %s",
                 library / 1000000, library / 1000 % 1000, library % 1000, RIGBASEN_VERSION);
    }
    return same ? STATUS_FINE : STATUS_TROUBLE;
}

static int carry_out(int count, char **arguments)
{
    struct request request;
    if (count < 2) {
        fprintf(stderr, "rigbasen: a command is missing; rigbasen help says which there are\n");
        return STATUS_TROUBLE;
    }
    if (strcmp(arguments[1], "help") == 0 || strcmp(arguments[1], "--help") == 0 || strcmp(arguments[1], "-h") == 0) {
        return help(count - 2, arguments + 2);
    }
    if (strcmp(arguments[1], "--version") == 0) {
        if (count > 2) {
            complain("--version: one argument too many; usage: rigbasen --version");
            return STATUS_TROUBLE;
        }
        return version(1);
    }
    const struct command *command = command_of(arguments[1]);
    if (command == NULL) {
        return STATUS_TROUBLE;
    }
    int status = read_arguments(command, count - 2, arguments + 2, &request);
    if (status != STATUS_FINE) {
        return status;
    }
    if ((request.given & OPTION_HELP) != 0) {
        return show_help(command);
    }
    return version(0) == STATUS_FINE ? command->carry_out(&request) : STATUS_TROUBLE;
}

int main(int count, char **arguments)
{
    /* A reader that has gone away and a file that may not grow are seen as writes that fail. */
    signal(SIGPIPE, SIG_IGN);
    signal(SIGXFSZ, SIG_IGN);
    return end_output(carry_out(count, arguments));
}
