/* Questions 3 to 10 of a file whose layout is good: check is asked about smaller files, made of the file's own lines. */
#include "why.h"

#include <string.h>

static const struct file *asked; /* the file, with an end line where it has none */
static struct lines lines;
static struct fields fields;
static struct file small;
static size_t patient_count;
static size_t table_count;

static const char set_right[] = "load the file again from where it came; if it was written or changed by hand, set this right,\n"
                                "              SEAL";

static size_t table_line(size_t table)
{
    return line_of_table(patient_count, table);
}

static void count_lines(void)
{
    find_lines(asked, &lines);
    patient_count = 0;
    table_count = 0;
    for (size_t line = 1; line <= lines.count; line++) {
        const uint8_t *bytes = line_bytes(&lines, line);
        patient_count += bytes[1] == 'p';
        table_count += bytes[1] == 'c';
    }
}

/* A smaller file is begun, with m 1; its lines follow, and then check is asked. */
static void begin(size_t patients, size_t tables)
{
    clear_text(&small);
    add_text(&small, "(region %zu %zu 1)\n", patients, tables);
}

static void add_lines(size_t from, size_t count)
{
    for (size_t line = from; line < from + count; line++) {
        add_bytes(&small, line_bytes(&lines, line), line_length(&lines, line));
        add_text(&small, "\n");
    }
}

static void add_value(const char *before, uint64_t value)
{
    if (value == RIGBASEN_NONE) {
        add_text(&small, "%s-", before);
    } else {
        add_text(&small, "%s%llu", before, (unsigned long long)value);
    }
}

static uint64_t ask(void)
{
    add_end_line(&small);
    return check_file(&small);
}

/* All patients and one table that is not the file's own: members of its line from one on, and so many entries of 0. */
static uint64_t ask_members(size_t from, size_t count, size_t entries)
{
    begin(patient_count, 1);
    add_lines(line_of_patient(0), patient_count);
    add_text(&small, "(cost ");
    for (size_t i = 0; i < count; i++) {
        add_value(i == 0 ? "(" : " ", fields.at[from + i].value);
    }
    add_text(&small, ") (");
    for (size_t i = 0; i < entries; i++) {
        add_text(&small, i == 0 ? "0" : " 0");
    }
    add_text(&small, "))\n");
    return ask();
}

/* The first table that alone, with all patients, is refused with this number; its fields are found. T where there is none. */
static size_t first_table(uint64_t number)
{
    for (size_t table = 0; table < table_count; table++) {
        begin(patient_count, 1);
        add_lines(line_of_patient(0), patient_count);
        add_lines(table_line(table), 1);
        if (ask() == number) {
            find_fields(&lines, table_line(table), &fields);
            return table;
        }
    }
    return table_count;
}

/* The bed count of a patient. */
static uint64_t beds_of(uint64_t patient)
{
    static struct fields of_patient;
    find_fields(&lines, line_of_patient((size_t)patient), &of_patient);
    return of_patient.at[1].value;
}

/* How many entries the members ask for. */
static uint64_t entries_asked(void)
{
    uint64_t product = 1;
    for (size_t i = 0; i < fields.member_count; i++) {
        product *= beds_of(fields.at[i].value);
    }
    return product;
}

static const char *many(uint64_t count)
{
    return count == 1 ? "" : "s";
}

static void explain_counts(const struct file *file)
{
    find_fields(&lines, 1, &fields);
    uint64_t patients = fields.at[0].value;
    uint64_t tables = fields.at[1].value;
    begin(patient_count, table_count);
    add_lines(2, patient_count + table_count);
    if (ask() == RIGBASEN_COUNTS) {
        say_unplaced();
        return;
    }
    say_place(&lines, 1, 0, "it says %llu patient%s and %llu table%s; found are %zu patient line%s and %zu table line%s",
              (unsigned long long)patients, many(patients), (unsigned long long)tables, many(tables),
              patient_count, many(patient_count), table_count, many(table_count));
    if (patient_count < patients || table_count < tables) {
        say_what_to_do(file, "lines are missing, the file may be cut: load it again from where it came. If they were taken out on\n"
                             "              purpose, count anew in line 1,\n"
                             "              SEAL");
    } else {
        say_what_to_do(file, "if a line was added on purpose, count it in line 1,\n"
                             "              SEAL");
    }
}

static void explain_sum(const struct file *file)
{
    size_t before = lines.start[lines.count - 1];
    find_fields(&lines, lines.count, &fields);
    clear_text(&small);
    add_bytes(&small, asked->bytes, before);
    uint64_t number = ask();
    if (number == RIGBASEN_SUM) {
        say_unplaced();
        return;
    }
    say_place(&lines, lines.count, 0,
              "the end line says %llu, and the sum is %llu: the file was damaged, or changed without a new end line",
              (unsigned long long)fields.at[0].value, (unsigned long long)sum_of(asked->bytes, before));
    if (number == RIGBASEN_FINE) {
        printf("  with the true sum check finds nothing else wrong\n");
    } else {
        printf("  with the true sum it would be refused with %llu: %s\n", (unsigned long long)number, text_of(number));
    }
    say_what_to_do(file, "load the file again from where it came; if it was changed on purpose,\n"
                         "              SEAL");
}

/* V is asked about with the patients alone, T with the tables alone, m alone. */
static void explain_limits(const struct file *file)
{
    int found = 0;
    find_fields(&lines, 1, &fields);
    begin(patient_count, 0);
    add_lines(line_of_patient(0), patient_count);
    if (ask() == RIGBASEN_LIMITS) {
        say_place(&lines, 1, fields.at[0].column, "V, the number of patients, is %zu; 1 to 32 are allowed", patient_count);
        found = 1;
    }
    begin(1, table_count);
    add_text(&small, "(patient 0 1 - -)\n");
    add_lines(table_line(0), table_count);
    if (ask() == RIGBASEN_LIMITS) {
        say_place(&lines, 1, fields.at[1].column, "T, the number of tables, is %zu; 0 to 64 are allowed", table_count);
        found = 1;
    }
    clear_text(&small);
    add_text(&small, "(region 1 0 %llu)\n(patient 0 1 - -)\n", (unsigned long long)fields.at[2].value);
    if (ask() == RIGBASEN_LIMITS) {
        say_place(&lines, 1, fields.at[2].column, "m, the number of plans wanted, is %llu; 1 to 64 are allowed",
                  (unsigned long long)fields.at[2].value);
        found = 1;
    }
    if (!found) {
        say_unplaced();
        return;
    }
    say_what_to_do(file, set_right);
}

/* Is this field of the patient at fault? It stands behind good patients, and its other fields are good. */
static int field_at_fault(size_t patient, int field)
{
    int with_beds = field == 1 || field == 3;
    begin(patient + 1, 0);
    for (size_t i = 0; i < patient; i++) {
        add_text(&small, "(patient 0 1 - -)\n");
    }
    add_value("(patient ", field == 0 ? fields.at[0].value : 0);
    add_value(" ", with_beds ? fields.at[1].value : 1);
    add_value(" ", field == 2 ? fields.at[2].value : RIGBASEN_NONE);
    add_value(" ", field == 3 ? fields.at[3].value : RIGBASEN_NONE);
    add_text(&small, ")\n");
    return ask() == RIGBASEN_PATIENTS;
}

static void say_field(size_t patient, int field)
{
    unsigned long long value = (unsigned long long)fields.at[field].value;
    size_t line = line_of_patient(patient);
    size_t column = fields.at[field].column;
    if (field == 0) {
        say_place(&lines, line, column, "patient %zu: the clinic is %llu; 0 to 15 are allowed", patient, value);
    } else if (field == 1) {
        say_place(&lines, line, column, "patient %zu: the bed count is %llu; 1 to 16 are allowed", patient, value);
    } else if (field == 2 && patient == 0) {
        say_place(&lines, line, column, "patient 0: the parent is %llu; the first patient's is -", value);
    } else if (field == 2) {
        say_place(&lines, line, column, "patient %zu: the parent is %llu; it is - or a patient before, 0 to %zu", patient, value,
                  patient - 1);
    } else {
        say_place(&lines, line, column, "patient %zu: the fixed bed is %llu; it is - or one of the beds, 0 to %llu", patient, value,
                  (unsigned long long)fields.at[1].value - 1);
    }
}

/* Would parents be made? A file without an end line gets it with them by seal. */
static void say_parents(const struct file *file)
{
    static struct file made;
    int sealed = has_end_line(file);
    uint64_t number = make_parents(asked, &made);
    if (number != RIGBASEN_FINE) {
        printf("  rigbasen %s would be refused too, with %llu: %s\n", sealed ? "parents" : "seal --parents", (unsigned long long)number,
               text_of(number));
        say_what_to_do(file, set_right);
    } else if (sealed) {
        say_what_to_do(file, "have the parents made, check then accepts the file: rigbasen parents -o FILE FILE");
    } else {
        say_what_to_do(file, "load the file again from where it came; if its lines were written by hand, have the parents made and the\n"
                             "              end line put behind them, check then accepts the file:\n"
                             "              rigbasen seal --parents -o FILE FILE");
    }
}

static void explain_patients(const struct file *file)
{
    size_t patient = 0;
    int parent = 0;
    int found = 0;
    for (; patient < patient_count; patient++) {
        begin(patient + 1, 0);
        add_lines(line_of_patient(0), patient + 1);
        if (ask() == RIGBASEN_PATIENTS) {
            break;
        }
    }
    if (patient < patient_count) {
        find_fields(&lines, line_of_patient(patient), &fields);
        for (int field = 0; field < 4; field++) {
            /* A fixed bed is judged by the bed count, where that is good. */
            if (field_at_fault(patient, field) && (field < 3 || !field_at_fault(patient, 1))) {
                say_field(patient, field);
                parent = parent || field == 2;
                found = 1;
            }
        }
    }
    if (!found) {
        say_unplaced();
    } else if (parent) {
        say_parents(file);
    } else {
        say_what_to_do(file, set_right);
    }
}

static void explain_members(const struct file *file)
{
    size_t table = first_table(RIGBASEN_MEMBERS);
    int found = 0;
    if (table < table_count && fields.member_count > RIGBASEN_MOST_MEMBERS) {
        say_place(&lines, table_line(table), fields.at[RIGBASEN_MOST_MEMBERS].column, "the table has %zu members; 1 to 4 are allowed",
                  fields.member_count);
        found = 1;
    }
    for (size_t i = 0; table < table_count && !found && i < fields.member_count; i++) {
        unsigned long long member = (unsigned long long)fields.at[i].value;
        if (ask_members(i, 1, 1) == RIGBASEN_MEMBERS) {
            say_place(&lines, table_line(table), fields.at[i].column, "the table has the member %llu; the patients are 0 to %zu",
                      member, patient_count - 1);
            found = 1;
        } else if (i > 0 && ask_members(i - 1, 2, 1) == RIGBASEN_MEMBERS) {
            say_place(&lines, table_line(table), fields.at[i].column, "the member %llu stands behind %llu; members rise", member,
                      (unsigned long long)fields.at[i - 1].value);
            found = 1;
        }
    }
    if (!found) {
        say_unplaced();
        return;
    }
    say_what_to_do(file, set_right);
}

/* No table alone is at fault: the first one with which all together are. */
static size_t first_too_many(size_t *entries)
{
    *entries = 0;
    for (size_t table = 0; table < table_count; table++) {
        begin(patient_count, table + 1);
        add_lines(line_of_patient(0), patient_count + table + 1);
        find_fields(&lines, table_line(table), &fields);
        *entries += fields.count - fields.member_count;
        if (ask() == RIGBASEN_ENTRY_COUNTS) {
            return table;
        }
    }
    return table_count;
}

static void explain_entry_counts(const struct file *file)
{
    size_t entries = 0;
    size_t table = first_table(RIGBASEN_ENTRY_COUNTS);
    if (table == table_count) {
        table = first_too_many(&entries);
        if (table == table_count) {
            say_unplaced();
            return;
        }
        say_place(&lines, table_line(table), 0, "with this table there are %zu entries; all tables together may have 4,096", entries);
        say_what_to_do(file, set_right);
        return;
    }
    entries = fields.count - fields.member_count;
    uint64_t asked = entries_asked();
    if (asked > RIGBASEN_MOST_ENTRIES) {
        say_place(&lines, table_line(table), 0, "the beds of the table's members ask for %llu entries; all tables together may have 4,096",
                  (unsigned long long)asked);
    } else if (ask_members(0, fields.member_count, (size_t)asked) == RIGBASEN_ENTRY_COUNTS) {
        say_unplaced();
        return;
    } else {
        say_place(&lines, table_line(table), 0, "the beds of the table's members ask for %llu entries; found are %zu",
                  (unsigned long long)asked, entries);
    }
    say_what_to_do(file, set_right);
}

/* Which beds an entry is for: the last member's bed moves fastest. */
static void beds_of_entry(size_t entry, char *text, size_t room)
{
    uint64_t beds[RIGBASEN_MOST_MEMBERS] = {0};
    size_t length = 0;
    for (size_t i = fields.member_count; i > 0; i--) {
        uint64_t count = beds_of(fields.at[i - 1].value);
        beds[i - 1] = entry % count;
        entry /= (size_t)count;
    }
    for (size_t i = 0; i < fields.member_count; i++) {
        length += (size_t)snprintf(text + length, room - length, "%spatient %llu in bed %llu", i == 0 ? "" : ", ",
                                   (unsigned long long)fields.at[i].value, (unsigned long long)beds[i]);
    }
}

/* Each entry is asked about alone, as the only one of a patient with one bed. */
static void explain_entries(const struct file *file)
{
    char beds[160] = "";
    size_t table = first_table(RIGBASEN_ENTRIES);
    for (size_t i = fields.member_count; table < table_count && i < fields.count; i++) {
        begin(1, 1);
        add_text(&small, "(patient 0 1 - -)\n");
        add_value("(cost (0) (", fields.at[i].value);
        add_text(&small, "))\n");
        if (ask() == RIGBASEN_ENTRIES) {
            beds_of_entry(i - fields.member_count, beds, sizeof beds);
            say_place(&lines, table_line(table), fields.at[i].column, "the entry for %s is %llu; 1,000,000 is the most", beds,
                      (unsigned long long)fields.at[i].value);
            say_what_to_do(file, set_right);
            return;
        }
    }
    say_unplaced();
}

/* All patients, and a table over these two alone. */
static uint64_t ask_pair(uint64_t first, uint64_t second)
{
    begin(patient_count, 1);
    add_lines(line_of_patient(0), patient_count);
    add_value("(cost (", first);
    add_value(" ", second);
    add_text(&small, ") (0");
    for (uint64_t rest = beds_of(first) * beds_of(second); rest > 1; rest--) {
        add_text(&small, " 0");
    }
    add_text(&small, "))\n");
    return ask();
}

static void explain_ancestors(const struct file *file)
{
    size_t table = first_table(RIGBASEN_ANCESTORS);
    for (size_t i = 0; table < table_count && i < fields.member_count; i++) {
        for (size_t j = i + 1; j < fields.member_count; j++) {
            uint64_t first = fields.at[i].value;
            uint64_t second = fields.at[j].value;
            if (ask_pair(first, second) == RIGBASEN_ANCESTORS) {
                say_place(&lines, table_line(table), fields.at[j].column,
                          "the table joins patients %llu and %llu, of whom neither is an ancestor of the other",
                          (unsigned long long)first, (unsigned long long)second);
                say_parents(file);
                return;
            }
        }
    }
    say_unplaced();
}

void explain_region(const struct file *file, const struct file *completed, uint64_t number)
{
    static void (*const explain[])(const struct file *) = {
        [RIGBASEN_COUNTS] = explain_counts,
        [RIGBASEN_SUM] = explain_sum,
        [RIGBASEN_LIMITS] = explain_limits,
        [RIGBASEN_PATIENTS] = explain_patients,
        [RIGBASEN_MEMBERS] = explain_members,
        [RIGBASEN_ENTRY_COUNTS] = explain_entry_counts,
        [RIGBASEN_ENTRIES] = explain_entries,
        [RIGBASEN_ANCESTORS] = explain_ancestors,
    };
    asked = completed;
    count_lines();
    explain[number](file);
}
