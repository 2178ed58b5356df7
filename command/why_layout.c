/* Question 2: the walk finds a line, a column and words, and check must find the same line at fault. */
#include "why.h"

#include <string.h>

static const char *const remedies[REMEDY_COUNT] = {
    [REMEDY_EDIT] = "load the file again from where it came; if it was changed by hand, set the line right,\n"
                    "              SEAL",
    [REMEDY_RELOAD] = "load the file again from where it came",
    [REMEDY_WINDOWS] = "take them out of all lines: tr -d '\\r' < FILE > NEW",
    [REMEDY_OLD_MAC] = "make line ends of them: tr '\\r' '\\n' < FILE > NEW",
    [REMEDY_OLD_FORM] = "convert it with examples/add_fixed_field",
    [REMEDY_MARK] = "take it out: tail -c +4 FILE > NEW",
    [REMEDY_OTHER_TEXT] = "save the file as plain text: iconv -f UTF-16 -t ASCII FILE > NEW",
    [REMEDY_LAST_END] = "put a line end behind it: echo >> FILE",
    [REMEDY_BEHIND] = "take out what stands behind the end line",
    [REMEDY_SEAL] = "load the file again from where it came; if its lines were written by hand, put the end line behind them:\n"
                    "              rigbasen seal -o FILE FILE",
};

/* What check says of this line behind the first one and the one before it, with a true end line where it is none itself. */
static uint64_t number_of_line(const struct lines *lines, size_t line, enum kind kind)
{
    static struct file small;
    clear_text(&small);
    if (line > 1) {
        add_bytes(&small, line_bytes(lines, 1), line_length(lines, 1));
        add_text(&small, "\n");
    }
    if (line > 2) {
        add_bytes(&small, line_bytes(lines, line - 1), line_length(lines, line - 1));
        add_text(&small, "\n");
    }
    add_bytes(&small, line_bytes(lines, line), line_length(lines, line));
    add_text(&small, "\n");
    if (kind != KIND_END) {
        add_end_line(&small);
    }
    return check_file(&small);
}

/* Is the layout of a line good, as check has it? */
static int good_line(const struct lines *lines, size_t line, enum kind kind)
{
    uint64_t number = number_of_line(lines, line, kind);
    return number != RIGBASEN_LAYOUT && number != RIGBASEN_TOO_LONG;
}

/* The first line at fault as the walk has it; 0 where check accepts a line that the walk does not, or the other way round. */
static size_t find_fault(const struct lines *lines, struct fault *fault)
{
    enum kind before = KIND_NONE;
    for (size_t line = 1; line <= lines->count; line++) {
        enum kind kind = walk_line(lines, line, before, fault);
        if (kind != KIND_NONE) {
            if (!good_line(lines, line, kind)) {
                return 0;
            }
            before = kind;
            continue;
        }
        if (fault->complete) {
            return good_line(lines, line, fault->kind) ? line : 0;
        }
        uint64_t number = number_of_line(lines, line, fault->kind);
        /* All lines before are good, so that a last line which is too long to be asked about must be the one. */
        int must_be = number == RIGBASEN_TOO_LONG && line == lines->count;
        return number == RIGBASEN_LAYOUT || must_be ? line : 0;
    }
    set_fault(fault, 1, REMEDY_SEAL, "the file stops here, and there is no end line: it may be cut");
    return before == KIND_END ? 0 : lines->count + 1;
}

/* Has a patient line of the file a fixed bed? Then it is not of the old form, and only this one line lacks it. */
static int has_fixed_beds(const struct lines *lines)
{
    struct fault ignored;
    for (size_t line = 2; line <= lines->count; line++) {
        if (walk_line(lines, line, KIND_REGION, &ignored) == KIND_PATIENT) {
            return 1;
        }
    }
    return 0;
}

/* Lines written by hand have no end line yet: what check would say of the file with one. */
static uint64_t explain_completed(const struct file *file)
{
    static struct file completed;
    completed = *file;
    complete(&completed);
    uint64_t number = check_file(&completed);
    if (number == RIGBASEN_FINE) {
        printf("  with an end line put behind it check would find nothing wrong\n");
    } else {
        printf("  with an end line put behind it, it would be refused with %llu: %s\n", (unsigned long long)number, text_of(number));
    }
    if (number >= RIGBASEN_COUNTS && number <= RIGBASEN_ANCESTORS) {
        explain_region(file, &completed, number);
        return number;
    }
    return RIGBASEN_FINE;
}

void explain_layout(const struct file *file)
{
    static struct lines lines;
    struct fault fault = {0};
    if (file->length == 0) {
        printf("  line 1, column 1: the file is empty\n");
        say_what_to_do(file, remedies[REMEDY_RELOAD]);
        return;
    }
    find_lines(file, &lines);
    size_t line = find_fault(&lines, &fault);
    if (line == 0) {
        say_unplaced();
        return;
    }
    if (fault.remedy == REMEDY_OLD_FORM && has_fixed_beds(&lines)) {
        set_fault(&fault, fault.column, REMEDY_EDIT, "the fixed bed is missing; other patients' lines have it");
    }
    say_place(&lines, line, fault.column, "%s", fault.words);
    if (fault.remedy != REMEDY_SEAL || explain_completed(file) == RIGBASEN_FINE) {
        say_what_to_do(file, remedies[fault.remedy]);
    }
}
