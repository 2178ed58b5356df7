/* The arguments of a command: its options, and what is left. */
#include "command.h"

#include <string.h>

enum { LONGEST_LIMIT = 86400 };

static const struct {
    const char *name;
    unsigned option;
    int takes_value;
} options[] = {
    {"--csv", OPTION_CSV, 0},
    {"--json", OPTION_JSON, 0},
    {"-m", OPTION_M, 1},
    {"--limit", OPTION_LIMIT, 1},
    {"-o", OPTION_OUTPUT, 1},
    {"--names", OPTION_NAMES, 1},
    {"--parents", OPTION_PARENTS, 0},
    {"--help", OPTION_HELP, 0},
};

enum { OPTION_COUNT = sizeof options / sizeof options[0] };

/* One line: what is wrong, and how the command is used. */
int misused(const struct command *command, const char *what, const char *which)
{
    fprintf(stderr, "rigbasen: %s: %s", command->name, what);
    if (which != NULL) {
        fprintf(stderr, " '");
        put_text(stderr, (const uint8_t *)which, strlen(which));
        fprintf(stderr, "'");
    }
    fprintf(stderr, "; usage: rigbasen %s\n", command->usage);
    return STATUS_TROUBLE;
}

int all_digits(const char *text)
{
    return text[0] != '\0' && text[strspn(text, "0123456789")] == '\0';
}

uint64_t number_of_digits(const char *text, uint64_t most)
{
    uint64_t number = 0;
    for (; *text != '\0'; text++) {
        uint64_t digit = (uint64_t)(*text - '0');
        if (number > (most - digit) / 10 || digit > most) {
            return most + 1;
        }
        number = number * 10 + digit;
    }
    return number;
}

const char *last_argument(const struct request *request, int before)
{
    return request->count > before ? request->arguments[before] : "-";
}

/* Which option an argument is, and its value where it stands in the same argument (-m5, --limit=5); -1 for none. */
static int option_of(const char *argument, const char **value)
{
    for (int i = 0; i < OPTION_COUNT; i++) {
        size_t length = strlen(options[i].name);
        if (strncmp(argument, options[i].name, length) != 0) {
            continue;
        }
        int is_long = argument[1] == '-';
        if (argument[length] == '\0') {
            *value = NULL;
            return i;
        }
        if (options[i].takes_value && (!is_long || argument[length] == '=')) {
            *value = argument + length + is_long;
            return i;
        }
    }
    return -1;
}

/* Keeps an option's value in the request. */
static int keep_value(unsigned option, const char *value, struct request *request)
{
    const struct command *command = request->command;
    if (option == OPTION_M) {
        request->m = all_digits(value) ? number_of_digits(value, RIGBASEN_MOST_ROWS) : 0;
        if (request->m == 0 || request->m > RIGBASEN_MOST_ROWS) {
            return misused(command, "-m takes a number of 1 to 64, not", value);
        }
    } else if (option == OPTION_LIMIT) {
        request->limit = all_digits(value) ? (unsigned)number_of_digits(value, LONGEST_LIMIT) : 0;
        if (request->limit == 0 || request->limit > LONGEST_LIMIT) {
            return misused(command, "--limit takes whole seconds, 1 to 86400, not", value);
        }
    } else if (value[0] == '\0') {
        return misused(command, option == OPTION_OUTPUT ? "-o takes the name of a file" : "--names takes the name of a file", NULL);
    } else if (option == OPTION_OUTPUT) {
        request->output = value;
    } else {
        request->names = value;
    }
    return STATUS_FINE;
}

/* Takes the option at this place; moves on where its value is the next argument. */
static int take_option(int count, char **arguments, int *at, struct request *request)
{
    const char *value = NULL;
    const char *argument = arguments[*at];
    int which = option_of(argument, &value);
    if (which < 0 || (options[which].option & (request->command->options | OPTION_HELP)) == 0) {
        return misused(request->command, "it has no option", argument);
    }
    unsigned option = options[which].option;
    if ((request->given & option) != 0) {
        return misused(request->command, "given twice:", options[which].name);
    }
    request->given |= option;
    if (!options[which].takes_value) {
        return STATUS_FINE;
    }
    if (value == NULL) {
        *at += 1;
        if (*at >= count) {
            return misused(request->command, "a value is missing behind", argument);
        }
        value = arguments[*at];
    }
    return keep_value(option, value, request);
}

/* Options that have no place beside each other. */
static int judge_together(const struct request *request)
{
    if ((request->given & OPTION_CSV) != 0 && (request->given & OPTION_JSON) != 0) {
        return misused(request->command, "--csv and --json cannot both be had", NULL);
    }
    if ((request->given & OPTION_CSV) != 0 && (request->given & OPTION_NAMES) != 0) {
        return misused(request->command, "csv has no place for --names", NULL);
    }
    return STATUS_FINE;
}

int read_arguments(const struct command *command, int count, char **arguments, struct request *request)
{
    int options_end = 0;
    *request = (struct request){.command = command, .arguments = arguments};
    for (int at = 0; at < count; at++) {
        if (!options_end && strcmp(arguments[at], "--") == 0) {
            options_end = 1;
        } else if (!options_end && arguments[at][0] == '-' && arguments[at][1] != '\0') {
            int status = take_option(count, arguments, &at, request);
            if (status != STATUS_FINE) {
                return status;
            }
        } else {
            arguments[request->count++] = arguments[at];
        }
    }
    if ((request->given & OPTION_HELP) != 0) {
        return STATUS_FINE;
    }
    if (request->count < command->least) {
        return misused(command, "an argument is missing", NULL);
    }
    if (request->count > command->most) {
        return misused(command, "one argument too many:", arguments[command->most]);
    }
    return judge_together(request);
}
