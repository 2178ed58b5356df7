/* The walk over one line: where it leaves the layout, and in which words. Whether the line is at fault is asked of check. */
#include "why.h"

#include <stdarg.h>
#include <string.h>

/* What should stand at a place. */
enum wanted { WANT_OPEN, WANT_SPACE, WANT_NUMBER, WANT_CLOSE, WANT_MORE, WANT_LINE_END };

struct walk {
    const uint8_t *bytes;
    size_t length;
    size_t at;
    int ended; /* there is a line end behind it */
    struct fault *fault;
};

void set_fault(struct fault *fault, size_t column, enum remedy remedy, const char *format, ...)
{
    va_list rest;
    va_start(rest, format);
    vsnprintf(fault->words, sizeof fault->words, format, rest);
    va_end(rest);
    fault->column = column;
    fault->remedy = remedy;
    fault->complete = 0;
}

/* Is this one of the bytes that a region file has? */
static int known_byte(uint8_t byte)
{
    return (byte >= '0' && byte <= '9') || (byte >= 'a' && byte <= 'z') || byte == '(' || byte == ')' || byte == ' ' || byte == '-';
}

/* A byte that no region file has. */
static int unknown_byte(struct walk *walk, size_t at)
{
    uint8_t byte = walk->bytes[at];
    if (byte == '\r' && at + 1 == walk->length && walk->ended) {
        set_fault(walk->fault, at + 1, REMEDY_WINDOWS, "a Windows line end (byte 13 before the line end)");
    } else if (byte == '\r' && at + 1 < walk->length && walk->bytes[at + 1] == '(') {
        set_fault(walk->fault, at + 1, REMEDY_OLD_MAC, "byte 13 (carriage return) where a line end, byte 10, should be");
    } else if (byte == '\r') {
        set_fault(walk->fault, at + 1, REMEDY_EDIT, "byte 13 (carriage return), which no region file has");
    } else if (byte == '\t') {
        set_fault(walk->fault, at + 1, REMEDY_EDIT, "a tab (byte 9), which no region file has");
    } else if (byte >= 'A' && byte <= 'Z') {
        set_fault(walk->fault, at + 1, REMEDY_EDIT, "a capital letter '%c' (byte %d); a region file has small ones alone", byte, byte);
    } else if (byte > ' ' && byte <= '~') {
        set_fault(walk->fault, at + 1, REMEDY_EDIT, "'%c' (byte %d), which no region file has", byte, byte);
    } else {
        set_fault(walk->fault, at + 1, REMEDY_EDIT, "byte %d, which no region file has", byte);
    }
    return 0;
}

/* The line stops before its form is whole. */
static int stops_early(struct walk *walk, enum wanted wanted)
{
    size_t column = walk->length + 1;
    if (!walk->ended) {
        set_fault(walk->fault, column, REMEDY_RELOAD, "the file stops here, in the middle of a line: it is cut");
    } else if (wanted == WANT_CLOSE || wanted == WANT_MORE) {
        set_fault(walk->fault, column, REMEDY_EDIT, "a bracket ) is missing");
    } else if (wanted == WANT_OPEN) {
        set_fault(walk->fault, column, REMEDY_EDIT, "a bracket ( is missing");
    } else {
        set_fault(walk->fault, column, REMEDY_EDIT, "the line stops here, and a number is missing");
    }
    return 0;
}

/* A space where none should be: one too many, or before something that is too much. */
static const char *words_for_space(const struct walk *walk, enum wanted wanted)
{
    uint8_t next = walk->at + 1 < walk->length ? walk->bytes[walk->at + 1] : ')';
    int number_next = (next >= '0' && next <= '9') || next == '-';
    if (wanted == WANT_CLOSE && number_next) {
        return "a number too many";
    }
    return wanted == WANT_CLOSE && next == '(' ? "a list too many" : "a space too many";
}

static const char *words_for_open(enum wanted wanted)
{
    switch (wanted) {
    case WANT_SPACE:
        return "a space is missing";
    case WANT_CLOSE:
    case WANT_MORE:
        return "a bracket ) is missing";
    case WANT_LINE_END:
        return "a line end is missing";
    default:
        return "a bracket too many";
    }
}

/* The words for a byte that a region file has, but not at this place. */
static const char *words_for(const struct walk *walk, enum wanted wanted)
{
    uint8_t byte = walk->bytes[walk->at];
    int digit = byte >= '0' && byte <= '9';
    if (byte == ' ') {
        return words_for_space(walk, wanted);
    }
    if (byte == '(') {
        return words_for_open(wanted);
    }
    if (wanted == WANT_LINE_END) {
        return byte == ')' ? "a bracket too many" : "something stands behind the last bracket";
    }
    if (wanted == WANT_OPEN) {
        return "a bracket ( is missing";
    }
    if (byte == ')') {
        return "a number is missing";
    }
    if (digit || byte == '-') {
        return wanted == WANT_NUMBER ? "a hyphen where only a number may stand" : "a space is missing";
    }
    return wanted == WANT_NUMBER ? "a letter where a number should stand" : "a letter that does not belong here";
}

/* Something else stands here than should; gives 0. */
static int differs(struct walk *walk, enum wanted wanted)
{
    if (walk->at >= walk->length) {
        return stops_early(walk, wanted);
    }
    if (!known_byte(walk->bytes[walk->at])) {
        return unknown_byte(walk, walk->at);
    }
    set_fault(walk->fault, walk->at + 1, REMEDY_EDIT, "%s", words_for(walk, wanted));
    return 0;
}

static int next_is(const struct walk *walk, char byte)
{
    return walk->at < walk->length && walk->bytes[walk->at] == (uint8_t)byte;
}

static int take(struct walk *walk, char byte, enum wanted wanted)
{
    if (!next_is(walk, byte)) {
        return differs(walk, wanted);
    }
    walk->at++;
    return 1;
}

/* A number of 1 to 7 digits without a leading zero, or a hyphen where one may stand. */
static int take_number(struct walk *walk, int or_hyphen)
{
    size_t start = walk->at;
    if (or_hyphen && next_is(walk, '-')) {
        walk->at++;
        if (walk->at < walk->length && walk->bytes[walk->at] >= '0' && walk->bytes[walk->at] <= '9') {
            set_fault(walk->fault, start + 1, REMEDY_EDIT, "a hyphen before a number; no number is below 0");
            return 0;
        }
        return 1;
    }
    while (walk->at < walk->length && walk->bytes[walk->at] >= '0' && walk->bytes[walk->at] <= '9') {
        walk->at++;
    }
    size_t digits = walk->at - start;
    if (digits == 0) {
        return differs(walk, WANT_NUMBER);
    }
    if (digits > 1 && walk->bytes[start] == '0') {
        set_fault(walk->fault, start + 1, REMEDY_EDIT, "a leading zero");
        return 0;
    }
    if (digits > 7) {
        set_fault(walk->fault, start + 1, REMEDY_EDIT, "a number of %zu digits, and 7 are the most", digits);
        return 0;
    }
    return 1;
}

/* Numbers between brackets, at least one. */
static int take_list(struct walk *walk, int or_hyphen)
{
    if (!take(walk, '(', WANT_OPEN) || !take_number(walk, or_hyphen)) {
        return 0;
    }
    while (next_is(walk, ' ')) {
        walk->at++;
        if (next_is(walk, ')')) {
            set_fault(walk->fault, walk->at, REMEDY_EDIT, "a space too many");
            return 0;
        }
        if (!take_number(walk, or_hyphen)) {
            return 0;
        }
    }
    return take(walk, ')', WANT_MORE);
}

static int take_numbers(struct walk *walk, int count, int hyphens_from)
{
    for (int i = 0; i < count; i++) {
        if (!take(walk, ' ', WANT_SPACE) || !take_number(walk, i >= hyphens_from)) {
            return 0;
        }
    }
    return 1;
}

/* Before a patient could keep a bed its line had three fields. */
static int take_patient(struct walk *walk)
{
    if (!take_numbers(walk, 3, 2)) {
        return 0;
    }
    if (next_is(walk, ')')) {
        set_fault(walk->fault, walk->at + 1, REMEDY_OLD_FORM, "the fixed bed is missing, this is the old form (patient c d p)");
        return 0;
    }
    return take_numbers(walk, 1, 0);
}

static int take_table(struct walk *walk)
{
    if (!take(walk, ' ', WANT_SPACE) || !take_list(walk, 0)) {
        return 0;
    }
    if (next_is(walk, ')')) {
        set_fault(walk->fault, walk->at + 1, REMEDY_EDIT, "the list of entries is missing");
        return 0;
    }
    return take(walk, ' ', WANT_SPACE) && take_list(walk, 1);
}

/* The form behind its word, up to the line end. */
static int take_form(struct walk *walk, enum kind kind)
{
    int whole = kind == KIND_PATIENT ? take_patient(walk) : kind == KIND_TABLE ? take_table(walk)
        : take_numbers(walk, kind == KIND_REGION ? 3 : 1, 3);
    if (!whole || !take(walk, ')', WANT_CLOSE)) {
        return 0;
    }
    if (walk->at < walk->length) {
        return differs(walk, WANT_LINE_END);
    }
    if (walk->ended) {
        return 1;
    }
    if (kind == KIND_END) {
        set_fault(walk->fault, walk->length + 1, REMEDY_LAST_END, "the line end of the last line is missing");
    } else {
        set_fault(walk->fault, walk->length + 1, REMEDY_RELOAD,
                  "the file stops here, before a line end and without an end line: it is cut");
    }
    walk->fault->complete = 1;
    return 0;
}

/* The word of the form; the place moves behind it. */
static enum kind take_word(struct walk *walk)
{
    static const char *const words[] = {"region", "patient", "cost", "end"};
    static const enum kind kinds[] = {KIND_REGION, KIND_PATIENT, KIND_TABLE, KIND_END};
    size_t start = walk->at;
    while (walk->at < walk->length && walk->bytes[walk->at] >= 'a' && walk->bytes[walk->at] <= 'z') {
        walk->at++;
    }
    size_t length = walk->at - start;
    for (size_t i = 0; i < sizeof words / sizeof words[0]; i++) {
        if (length == strlen(words[i]) && memcmp(walk->bytes + start, words[i], length) == 0) {
            return kinds[i];
        }
    }
    if (walk->at == walk->length && !walk->ended) {
        stops_early(walk, WANT_SPACE);
    } else if (walk->at < walk->length && !known_byte(walk->bytes[walk->at])) {
        unknown_byte(walk, walk->at);
    } else {
        set_fault(walk->fault, start + 1, REMEDY_EDIT, "an unknown form; there are region, patient, cost and end");
    }
    return KIND_NONE;
}

/* May a line of this kind come behind one of that kind? */
static int in_order(struct walk *walk, enum kind kind, enum kind before)
{
    const char *words = NULL;
    if (before == KIND_NONE) {
        words = kind == KIND_REGION ? NULL : "the first line should be (region V T m)";
    } else if (kind == KIND_REGION) {
        words = "a second region line";
    } else if (kind == KIND_PATIENT && before == KIND_TABLE) {
        words = "a patient line behind a table line; all patients come first";
    }
    if (words != NULL) {
        set_fault(walk->fault, 2, REMEDY_EDIT, "%s", words);
    }
    return words == NULL;
}

/* Beginnings that say what the whole line, or the whole file, is. */
static int begins_well(struct walk *walk, enum kind before)
{
    const uint8_t *bytes = walk->bytes;
    if (before == KIND_END) {
        set_fault(walk->fault, 1, REMEDY_BEHIND,
                  walk->length == 0 ? "a blank line behind the end line" : "something stands behind the end line");
    } else if (before == KIND_NONE && walk->length >= 3 && memcmp(bytes, "\xEF\xBB\xBF", 3) == 0) {
        set_fault(walk->fault, 1, REMEDY_MARK, "a UTF-8 byte order mark (bytes 239, 187, 191)");
    } else if (before == KIND_NONE && walk->length >= 2 && (memcmp(bytes, "\xFF\xFE", 2) == 0 || memcmp(bytes, "\xFE\xFF", 2) == 0)) {
        set_fault(walk->fault, 1, REMEDY_OTHER_TEXT, "a UTF-16 byte order mark (bytes %d, %d)", bytes[0], bytes[1]);
    } else if (walk->length == 0) {
        set_fault(walk->fault, 1, REMEDY_EDIT, "a blank line");
    } else {
        return 1;
    }
    return 0;
}

enum kind walk_line(const struct lines *lines, size_t line, enum kind before, struct fault *fault)
{
    struct walk walk = {.bytes = line_bytes(lines, line), .length = line_length(lines, line), .fault = fault};
    walk.ended = line_is_ended(lines, line);
    fault->kind = KIND_NONE;
    if (!begins_well(&walk, before) || !take(&walk, '(', WANT_OPEN)) {
        return KIND_NONE;
    }
    enum kind kind = take_word(&walk);
    fault->kind = kind;
    if (kind == KIND_NONE || !in_order(&walk, kind, before) || !take_form(&walk, kind)) {
        return KIND_NONE;
    }
    return kind;
}
