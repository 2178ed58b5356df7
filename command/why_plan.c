/* A file that check accepts: whether it has a plan, and if not which tables and fixed beds leave none; else how large it is. */
#include "why.h"

#include <string.h>

enum answer { NO, YES, LATE, TROUBLE };

enum { MOST_SHOWN = 12 }; /* of what is left when the time is over */

/* A part of a region: all its patients, but not all tables and fixed beds. */
struct part {
    const struct region *region;
    uint8_t tables[RIGBASEN_MOST_TABLES]; /* 1 for those that are kept */
    uint8_t fixed[RIGBASEN_MOST_PATIENTS];
    uint64_t deadline;
};

/* Has the part no allowed plan? One row is enough to know, and with made parents, which change no plan, it comes soonest. */
static enum answer allows_nothing(const struct part *part)
{
    static struct region smaller;
    static struct file file;
    static struct file made;
    static struct rows rows;
    uint64_t now = milliseconds_now();
    keep_tables(part->region, part->tables, &smaller);
    smaller.m = 1;
    for (size_t i = 0; i < smaller.patient_count; i++) {
        smaller.patients[i].fixed_bed = part->fixed[i] ? smaller.patients[i].fixed_bed : RIGBASEN_NONE;
    }
    if (now >= part->deadline) {
        return LATE;
    }
    if (write_region(&smaller, &file) != RIGBASEN_FINE || make_parents(&file, &made) != RIGBASEN_FINE) {
        complain("a smaller region is refused");
        return TROUBLE;
    }
    int status = ask_rows_within(&made, RIGBASEN_NONE, part->deadline - now, &rows);
    if (status != STATUS_FINE) {
        return status == STATUS_LATE ? LATE : TROUBLE;
    }
    return rows.number == RIGBASEN_NO_PLAN ? YES : rows.number == RIGBASEN_FINE ? NO : TROUBLE;
}

static void keep_first_tables(struct part *part, size_t count)
{
    for (size_t i = 0; i < RIGBASEN_MOST_TABLES; i++) {
        part->tables[i] = i < count;
    }
}

/* How many of the first tables it takes until no plan is left. More tables never allow more. */
static enum answer find_last_table(struct part *part, size_t *count)
{
    size_t some = 0;
    *count = part->region->table_count;
    while (*count - some > 1) {
        size_t middle = some + (*count - some) / 2;
        keep_first_tables(part, middle);
        enum answer answer = allows_nothing(part);
        if (answer > YES) {
            keep_first_tables(part, *count);
            return answer;
        }
        if (answer == YES) {
            *count = middle;
        } else {
            some = middle;
        }
    }
    keep_first_tables(part, *count);
    return YES;
}

/* Leaves out what can be left out, one after the other, so that still nothing is allowed. */
static enum answer leave_out(struct part *part, uint8_t *kept, size_t count)
{
    for (size_t i = 0; i < count; i++) {
        if (!kept[i]) {
            continue;
        }
        kept[i] = 0;
        enum answer answer = allows_nothing(part);
        kept[i] = answer != YES;
        if (answer > YES) {
            return answer;
        }
    }
    return YES;
}

/* The tables and fixed beds that are left, by their lines. */
static size_t show_part(const struct lines *lines, const struct part *part, int shown)
{
    size_t count = 0;
    for (size_t i = 0; i < part->region->patient_count; i++) {
        count += part->fixed[i];
        if (part->fixed[i] && shown) {
            printf("    line %zu, patient %zu stays in bed %llu\n", line_of_patient(i), i,
                   (unsigned long long)part->region->patients[i].fixed_bed);
            show_line(lines, line_of_patient(i));
        }
    }
    for (size_t i = 0; i < part->region->table_count; i++) {
        count += part->tables[i];
        if (part->tables[i] && shown) {
            printf("    line %zu\n", line_of_table(part->region->patient_count, i));
            show_line(lines, line_of_table(part->region->patient_count, i));
        }
    }
    return count;
}

static void show_late(uint64_t milliseconds)
{
    printf("  the search was given up after %llu s; --limit S gives it more\n", (unsigned long long)(milliseconds / 1000));
}

/* What leaves no plan. */
static int explain_no_plan(const struct file *file, struct part *part, uint64_t milliseconds)
{
    static struct lines lines;
    size_t count = 0;
    find_lines(file, &lines);
    put_name(stdout, file);
    printf(": refused with %d: %s\n", RIGBASEN_NO_PLAN, text_of(RIGBASEN_NO_PLAN));
    enum answer answer = find_last_table(part, &count);
    if (answer == YES) {
        say_place(&lines, line_of_table(part->region->patient_count, count - 1), 0,
                  count == 1 ? "with this table, the first, no plan is allowed"
                             : "the tables before this one leave a plan, and with it none is allowed");
        answer = leave_out(part, part->tables, part->region->table_count);
    }
    if (answer == YES) {
        answer = leave_out(part, part->fixed, part->region->patient_count);
    }
    if (answer == TROUBLE) {
        return STATUS_TROUBLE;
    }
    count = show_part(&lines, part, 0);
    if (answer == LATE) {
        show_late(milliseconds);
        printf("  of %zu tables and fixed beds that are left some allow nothing together%s\n", count, count > MOST_SHOWN ? "" : ":");
    } else if (count == 1) {
        printf("  this table alone allows nothing:\n");
    } else {
        printf("  these together allow nothing, and without any one of them there is a plan:\n");
    }
    show_part(&lines, part, answer != LATE || count <= MOST_SHOWN);
    say_what_to_do(file, "put a number for a hyphen in such a table, or a hyphen for such a fixed bed,\n"
                         "              SEAL");
    return STATUS_REFUSED;
}

/* How large a region and its largest tree are. */
struct size {
    double plans;
    size_t trees;
    size_t patients; /* of the largest tree, and the choices of beds that they have */
    double choices;
    size_t ancestors; /* of all patients */
};

static void measure(const struct region *region, struct size *size)
{
    size_t root[RIGBASEN_MOST_PATIENTS] = {0};
    size_t above[RIGBASEN_MOST_PATIENTS] = {0};
    size_t patients[RIGBASEN_MOST_PATIENTS] = {0};
    double choices[RIGBASEN_MOST_PATIENTS] = {0};
    *size = (struct size){.plans = 1};
    for (size_t i = 0; i < region->patient_count; i++) {
        const struct rigbasen_patient *patient = &region->patients[i];
        int is_root = patient->parent == RIGBASEN_NONE;
        double beds = patient->fixed_bed == RIGBASEN_NONE ? (double)patient->beds : 1;
        root[i] = is_root ? i : root[patient->parent];
        above[i] = is_root ? 0 : above[patient->parent] + 1;
        choices[root[i]] = is_root ? beds : choices[root[i]] * beds;
        patients[root[i]]++;
        size->plans *= beds;
        size->trees += (size_t)is_root;
        size->ancestors += above[i];
    }
    for (size_t i = 0; i < region->patient_count; i++) {
        int more = choices[i] > size->choices || (choices[i] >= size->choices && patients[i] > size->patients);
        size->patients = more ? patients[i] : size->patients;
        size->choices = more ? choices[i] : size->choices;
    }
}

/* A count, or from a million on the nearest power of ten. */
static void put_count(double count)
{
    int power = 0;
    if (count < 1e6) {
        printf("%.0f", count);
        return;
    }
    for (; count >= 3.1622776601683795; count /= 10) {
        power++;
    }
    printf("about 10^%d", power);
}

static void put_tree(const struct size *size)
{
    printf("%zu %s, ", size->patients, size->patients == 1 ? "patient" : "patients");
    put_count(size->choices);
    printf(size->choices > 1 ? " choices of beds\n" : " choice of beds\n");
}

/* Of a file with a plan: its size, and whether other parents would make the trees of the search smaller. */
static void show_size(const struct file *file, const struct region *region)
{
    static struct file made;
    static struct region of_made;
    struct size size;
    struct size after;
    measure(region, &size);
    printf("  %zu %s, ", region->patient_count, region->patient_count == 1 ? "patient" : "patients");
    printf("%zu %s, m %llu; at most ", region->table_count, region->table_count == 1 ? "table" : "tables", (unsigned long long)region->m);
    put_count(size.plans);
    printf(size.plans > 1 ? " plans\n" : " plan\n");
    printf(size.trees == 1 ? "  its only tree: " : "  its largest tree: ");
    put_tree(&size);
    if (make_parents(file, &made) != RIGBASEN_FINE || read_region(&made, &of_made) != RIGBASEN_FINE) {
        return;
    }
    measure(&of_made, &after);
    if (after.patients < size.patients || after.choices < size.choices) {
        printf("  with its parents made: ");
        put_tree(&after);
    } else if (after.ancestors < size.ancestors) {
        printf("  with its parents made its patients have %zu ancestors in all, and now %zu\n", after.ancestors, size.ancestors);
    } else {
        return;
    }
    say_what_to_do(file, "before list and sheet, which may take very long, have its parents made: rigbasen parents -o FILE FILE");
}

int explain_plans(const struct file *file, uint64_t milliseconds)
{
    static struct region region;
    static struct part part;
    if (read_region(file, &region) != RIGBASEN_FINE) {
        say_unplaced();
        return STATUS_REFUSED;
    }
    part.region = &region;
    part.deadline = milliseconds_now() + milliseconds;
    keep_first_tables(&part, region.table_count);
    for (size_t i = 0; i < region.patient_count; i++) {
        part.fixed[i] = region.patients[i].fixed_bed != RIGBASEN_NONE;
    }
    enum answer answer = allows_nothing(&part);
    if (answer == YES) {
        return explain_no_plan(file, &part, milliseconds);
    }
    if (answer == TROUBLE) {
        return STATUS_TROUBLE;
    }
    put_name(stdout, file);
    printf(answer == NO ? ": nothing is wrong with it\n" : ": check finds nothing wrong; whether there is an allowed plan is not known\n");
    if (answer == LATE) {
        show_late(milliseconds);
    }
    show_size(file, &region);
    return answer == NO ? STATUS_FINE : STATUS_LATE;
}
