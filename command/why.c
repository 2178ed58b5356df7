/* why: why a file is refused, where, and what to do. */
#include "why.h"

#include <stdarg.h>
#include <string.h>

enum { USUAL_LIMIT = 10, SHOWN_WHOLE = 100, SHOWN_BESIDE = 45 };

void find_lines(const struct file *file, struct lines *lines)
{
    lines->file = file;
    lines->count = 0;
    for (size_t at = 0; at < file->length && lines->count < MOST_LINES;) {
        const uint8_t *end = memchr(file->bytes + at, '\n', file->length - at);
        lines->start[lines->count++] = (uint32_t)at;
        at = end == NULL ? file->length : (size_t)(end - file->bytes) + 1;
    }
    lines->start[lines->count] = (uint32_t)file->length;
}

const uint8_t *line_bytes(const struct lines *lines, size_t line)
{
    return lines->file->bytes + lines->start[line - 1];
}

int line_is_ended(const struct lines *lines, size_t line)
{
    return lines->file->bytes[lines->start[line] - 1] == '\n';
}

size_t line_length(const struct lines *lines, size_t line)
{
    return lines->start[line] - lines->start[line - 1] - (size_t)line_is_ended(lines, line);
}

void find_fields(const struct lines *lines, size_t line, struct fields *fields)
{
    const uint8_t *bytes = line_bytes(lines, line);
    size_t length = line_length(lines, line);
    int closed = 0;
    fields->count = 0;
    fields->member_count = 0;
    for (size_t at = 0; at < length && fields->count < MOST_FIELDS; at++) {
        int digit = bytes[at] >= '0' && bytes[at] <= '9';
        closed = closed || bytes[at] == ')';
        if (!digit && bytes[at] != '-') {
            continue;
        }
        uint64_t value = digit ? 0 : RIGBASEN_NONE;
        fields->at[fields->count].column = at + 1;
        for (; digit && at < length && bytes[at] >= '0' && bytes[at] <= '9'; at++) {
            value = value * 10 + (uint64_t)(bytes[at] - '0');
        }
        at -= (size_t)digit;
        fields->at[fields->count++].value = value;
        fields->member_count += closed ? 0 : 1;
    }
}

/* One byte of a file as it is shown, and how wide it is there. */
static int put_byte(uint8_t byte, int shown)
{
    if (byte == '\\') {
        return shown ? printf("\\\\") : 2;
    }
    if (byte < ' ' || byte > '~') {
        return shown ? printf("\\x%02x", byte) : 4;
    }
    return shown ? printf("%c", byte) : 1;
}

/* The line, or of a long one what is around this column, and below it a mark at the column where there is one. */
static void show_around(const struct lines *lines, size_t line, size_t column)
{
    const uint8_t *bytes = line_bytes(lines, line);
    size_t length = line_length(lines, line);
    int whole = length <= SHOWN_WHOLE;
    size_t from = whole || column <= SHOWN_BESIDE ? 0 : column - SHOWN_BESIDE;
    size_t to = whole || length - from <= 2 * SHOWN_BESIDE ? length : from + 2 * SHOWN_BESIDE;
    int width = 6 + (from > 0 ? 4 : 0);
    printf("      %s", from > 0 ? "... " : "");
    for (size_t i = from; i < to; i++) {
        width += i + 1 < column ? put_byte(bytes[i], 0) : 0;
        put_byte(bytes[i], 1);
    }
    printf("%s\n", to < length ? " ..." : "");
    if (column > 0) {
        printf("%*s^\n", width, "");
    }
}

void show_line(const struct lines *lines, size_t line)
{
    show_around(lines, line, 0);
}

void say_place(const struct lines *lines, size_t line, size_t column, const char *format, ...)
{
    va_list rest;
    va_start(rest, format);
    printf("  line %zu", line);
    if (column > 0) {
        printf(", column %zu", column);
    }
    printf(": ");
    vprintf(format, rest);
    printf("\n");
    va_end(rest);
    if (line <= lines->count && line_length(lines, line) > 0) {
        show_around(lines, line, column);
    }
}

/* A text in which each FILE stands for the file's name. */
static void put_with_name(const struct file *file, const char *text, size_t length)
{
    static const char word[] = "FILE";
    size_t done = 0;
    for (size_t at = 0; at + strlen(word) <= length; at++) {
        if (memcmp(text + at, word, strlen(word)) == 0) {
            printf("%.*s", (int)(at - done), text + done);
            if (file->name == NULL) {
                printf("FILE");
            } else {
                put_argument(stdout, file->name);
            }
            done = at + strlen(word);
        }
    }
    printf("%.*s", (int)(length - done), text + done);
}

/* How a file that was changed gets its end line. */
static const char *how_to_seal(const struct file *file)
{
    return has_end_line(file) ? "take the end line out and seal it: sed '$d' FILE | rigbasen seal -o FILE"
                              : "and seal it: rigbasen seal -o FILE FILE";
}

void say_what_to_do(const struct file *file, const char *text)
{
    const char *sealing = strstr(text, "SEAL");
    printf("  what to do: ");
    put_with_name(file, text, sealing == NULL ? strlen(text) : (size_t)(sealing - text));
    if (sealing != NULL) {
        put_with_name(file, how_to_seal(file), strlen(how_to_seal(file)));
    }
    printf("\n");
}

void say_unplaced(void)
{
    printf("  where the fault is cannot be said\n");
}

static void explain_length(const struct file *file)
{
    if (file->whole > RIGBASEN_MOST_FILE_BYTES) {
        printf("  it has %llu bytes, and 65,535 are the most\n", (unsigned long long)file->whole);
    } else {
        printf("  it has more than 65,535 bytes, which are the most\n");
    }
    say_what_to_do(file, "see whether it is the right file: the largest region has a file of 35,038 bytes");
}

/* The text of a number up to where it guesses: why says what it is. */
static void show_number(const struct file *file, uint64_t number)
{
    const char *text = text_of(number);
    put_name(stdout, file);
    printf(": refused with %llu: %.*s\n", (unsigned long long)number, (int)strcspn(text, ";"), text);
}

int carry_out_why(const struct request *request)
{
    static struct file file;
    int status = read_file(last_argument(request, 0), &file);
    if (status != STATUS_FINE) {
        return status;
    }
    uint64_t number = check_file(&file);
    if (number == RIGBASEN_FINE) {
        unsigned limit = (request->given & OPTION_LIMIT) != 0 ? request->limit : USUAL_LIMIT;
        return explain_plans(&file, (uint64_t)limit * 1000);
    }
    show_number(&file, number);
    if (number == RIGBASEN_TOO_LONG) {
        explain_length(&file);
    } else if (number == RIGBASEN_LAYOUT) {
        explain_layout(&file);
    } else if (number >= RIGBASEN_COUNTS && number <= RIGBASEN_ANCESTORS) {
        explain_region(&file, &file, number);
    } else {
        say_unplaced();
    }
    return STATUS_REFUSED;
}
