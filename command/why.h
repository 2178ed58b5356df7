/* What the parts of why share. Lines and columns are counted from 1. */
#ifndef WHY_H
#define WHY_H

#include "command.h"

enum {
    MOST_LINES = RIGBASEN_MOST_FILE_BYTES + 1,
    MOST_FIELDS = RIGBASEN_MOST_FILE_BYTES / 2 + 1 /* of one line: a digit and a space each */
};

/* Where the lines of a file are. */
struct lines {
    const struct file *file;
    size_t count;
    uint32_t start[MOST_LINES + 1]; /* start[i] is where line i + 1 begins; behind the last one it is the file's length */
};

/* The numbers and hyphens of a line that is laid out as it should be. */
struct fields {
    size_t count;
    size_t member_count; /* of a table's line: those before the first closing bracket */
    struct {
        size_t column;
        uint64_t value; /* or RIGBASEN_NONE for a hyphen */
    } at[MOST_FIELDS];
};

/* why.c: lines, and how findings are shown. */
void find_lines(const struct file *file, struct lines *lines);
const uint8_t *line_bytes(const struct lines *lines, size_t line);
size_t line_length(const struct lines *lines, size_t line); /* without its end */
int line_is_ended(const struct lines *lines, size_t line);
void find_fields(const struct lines *lines, size_t line, struct fields *fields);
void say_place(const struct lines *lines, size_t line, size_t column, const char *format, ...); /* column 0: the line as a whole */
void show_line(const struct lines *lines, size_t line);
void say_what_to_do(const struct file *file, const char *text); /* FILE stands for the file's name; SEAL, last, for how it is sealed */
void say_unplaced(void);

/* What is to be done about a fault of layout. */
enum remedy {
    REMEDY_EDIT,
    REMEDY_RELOAD,
    REMEDY_WINDOWS,
    REMEDY_OLD_MAC,
    REMEDY_OLD_FORM,
    REMEDY_MARK,
    REMEDY_OTHER_TEXT,
    REMEDY_LAST_END,
    REMEDY_BEHIND,
    REMEDY_SEAL,
    REMEDY_COUNT
};

enum kind { KIND_NONE, KIND_REGION, KIND_PATIENT, KIND_TABLE, KIND_END };

struct fault {
    size_t column;
    enum kind kind; /* by its word */
    int complete; /* the form is whole, and only what should come behind it is missing */
    enum remedy remedy;
    char words[160];
};

/* why_line.c: what kind of line this is, behind one of that kind; KIND_NONE where it has a fault. */
enum kind walk_line(const struct lines *lines, size_t line, enum kind before, struct fault *fault);
void set_fault(struct fault *fault, size_t column, enum remedy remedy, const char *format, ...);

/* why_layout.c */
void explain_layout(const struct file *file);

/* why_region.c: questions 3 to 10 of a file, which is asked about with an end line where it has none. */
void explain_region(const struct file *file, const struct file *completed, uint64_t number);

/* why_plan.c: of a file that check accepts. Gives the status. */
int explain_plans(const struct file *file, uint64_t milliseconds);

#endif
