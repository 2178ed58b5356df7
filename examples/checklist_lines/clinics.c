/*
 * Line five of the checklist on a site's own file: prices of other clinics are changed, and the sheet of a clinic that no table joins
 * to them is printed before and after. Where there is no such clinic, the file is joined with a region that has a clinic of its own.
 */
#include "site.h"

enum { ROWS_SHOWN = 3, CLINICS_SHOWN = 3 };

static int has_clinic(const struct region_arrays *region, uint64_t clinic)
{
    for (size_t i = 0; i < region->patient_count; i++) {
        if (region->patients[i].clinic == clinic) {
            return 1;
        }
    }
    return 0;
}

/* How many members of a table are of the clinic. */
static size_t members_of(const struct region_arrays *region, const struct rigbasen_table *table, uint64_t clinic)
{
    size_t count = 0;
    for (size_t j = 0; j < table->member_count; j++) {
        count += region->patients[table->members[j]].clinic == clinic;
    }
    return count;
}

/* Are there other clinics, and does no table join this one to them? */
static int apart(const struct region_arrays *region, uint64_t clinic)
{
    int others = 0;
    for (size_t i = 0; i < region->patient_count; i++) {
        others = others || region->patients[i].clinic != clinic;
    }
    for (size_t i = 0; i < region->table_count; i++) {
        size_t members = members_of(region, &region->tables[i], clinic);
        if (members > 0 && members < region->tables[i].member_count) {
            return 0;
        }
    }
    return others;
}

/* Other prices in all tables without a member of the clinic; what is forbidden stays so. How many were changed. */
static size_t change_prices(struct region_arrays *region, uint64_t clinic)
{
    size_t changed = 0;
    size_t start = 0;
    for (size_t i = 0; i < region->table_count; i++) {
        size_t end = start + (size_t)region->tables[i].entry_count;
        int elsewhere = members_of(region, &region->tables[i], clinic) == 0;
        for (size_t place = start; elsewhere && place < end; place++) {
            uint64_t price = region->entries[place];
            if (price != RIGBASEN_NONE) {
                uint64_t other = (price * 7 + place * 13 + 5) % 1000;
                region->entries[place] = other == price ? other + 1 : other;
                changed++;
            }
        }
        start = end;
    }
    return changed;
}

/* Where the other clinics have no prices: a table over the first of their patients, as far as there is room. How many prices it has. */
static size_t add_prices(struct region_arrays *region, uint64_t clinic)
{
    uint64_t patient = 0;
    while (region->patients[patient].clinic == clinic) {
        patient++;
    }
    size_t beds = (size_t)region->patients[patient].beds;
    if (region->table_count == RIGBASEN_MOST_TABLES || region->entry_count + beds > RIGBASEN_MOST_ENTRIES) {
        return 0;
    }
    struct rigbasen_table table = {1, {patient, 0, 0, 0}, beds};
    region->tables[region->table_count++] = table;
    for (size_t bed = 0; bed < beds; bed++) {
        region->entries[region->entry_count++] = 100 - bed;
    }
    return beds;
}

/* In all tables without a member of the clinic, every entry forbidden but that of the cheapest plan. */
static void forbid_elsewhere(struct region_arrays *region, uint64_t clinic, const uint8_t *cheapest)
{
    size_t start = 0;
    for (size_t i = 0; i < region->table_count; i++) {
        const struct rigbasen_table *table = &region->tables[i];
        size_t kept = 0;
        for (size_t j = 0; j < table->member_count; j++) {
            kept = kept * (size_t)region->patients[table->members[j]].beds + cheapest[table->members[j]];
        }
        int elsewhere = members_of(region, table, clinic) == 0;
        for (size_t place = 0; elsewhere && place < table->entry_count; place++) {
            region->entries[start + place] = place == kept ? region->entries[start + place] : RIGBASEN_NONE;
        }
        start += (size_t)table->entry_count;
    }
}

/* A clinic's sheet, which must come and have a row. */
static void sheet_due(const struct region_file *file, uint64_t clinic, struct areas *areas)
{
    memset(areas, 0, sizeof *areas);
    uint64_t number = sheet_of_clinic(file, clinic, areas);
    if (number != RIGBASEN_FINE || rows_of(areas) == 0) {
        wrong("the sheet of clinic %" PRIu64 ": %" PRIu64 ", %" PRIu64 " rows", clinic, number, rows_of(areas));
    }
}

/* Of two sheets of a clinic one must be the beginning of the other. */
static void compare_sheets(const struct areas *before, const struct areas *after, uint64_t clinic, size_t width, int show)
{
    uint64_t rows = rows_of(before) < rows_of(after) ? rows_of(before) : rows_of(after);
    for (uint64_t r = 0; r < rows; r++) {
        uint64_t cost = rigbasen_number_at(before->costs, (size_t)r);
        uint64_t later = rigbasen_number_at(after->costs, (size_t)r);
        if (cost != later || memcmp(before->beds + r * width, after->beds + r * width, width) != 0) {
            wrong("clinic %" PRIu64 " shows other prices: row %" PRIu64 " of its sheet costs %" PRIu64 " and then %" PRIu64
                  ", or has other beds", clinic, r, cost, later);
            return;
        }
        if (show && r < ROWS_SHOWN) {
            printf("row clinic %" PRIu64 ": ", clinic);
            print_row(after, r, width);
        }
    }
}

/* A clinic that is apart: its sheet, then with other prices elsewhere, then with much forbidden elsewhere. 1 where it was tried.
   The first clinics are shown, and of the very first the rows. */
static int change_elsewhere(const struct region_file *file, const struct region_arrays *region, uint64_t clinic,
                            const uint8_t *cheapest, int place)
{
    static struct region_arrays copy;
    static struct region_file changed;
    static struct areas sheets[3];
    size_t width = patients_of_clinic(file, clinic);
    copy = *region;
    size_t prices = change_prices(&copy, clinic);
    prices += prices == 0 ? add_prices(&copy, clinic) : 0;
    if (prices == 0) {
        return 0;
    }
    sheet_due(file, clinic, &sheets[0]);
    write_copy(&copy, &changed);
    sheet_due(&changed, clinic, &sheets[1]);
    compare_sheets(&sheets[0], &sheets[1], clinic, width, place == 0);
    copy = *region;
    forbid_elsewhere(&copy, clinic, cheapest);
    write_copy(&copy, &changed);
    sheet_due(&changed, clinic, &sheets[2]);
    compare_sheets(&sheets[0], &sheets[2], clinic, width, 0);
    if (place < CLINICS_SHOWN) {
        printf("saw clinic %" PRIu64 ": %zu prices elsewhere changed, then all forbidden there but the cheapest plan's; of its sheets,"
               " with %" PRIu64 ", %" PRIu64 " and %" PRIu64 " rows, the shorter are the beginning of the longer\n",
               clinic, prices, rows_of(&sheets[0]), rows_of(&sheets[1]), rows_of(&sheets[2]));
    }
    return 1;
}

/* The other region, with all its patients in the first clinic that the site does not have, which is handed back. */
static uint64_t other_region(const struct region_arrays *region, const char *name, struct region_file *other)
{
    static struct region_arrays arrays;
    uint64_t clinic = 0;
    while (clinic < RIGBASEN_MOST_CLINICS && has_clinic(region, clinic)) {
        clinic++;
    }
    read_region(name, other);
    if (clinic < RIGBASEN_MOST_CLINICS && read_arrays(other, &arrays) == RIGBASEN_FINE) {
        for (size_t i = 0; i < arrays.patient_count; i++) {
            arrays.patients[i].clinic = clinic;
        }
        write_copy(&arrays, other);
    }
    return clinic;
}

/* The clinic's sheet in one file and in another. */
static void compare_files(const struct region_file *one, const struct region_file *another, uint64_t clinic, int show)
{
    static struct areas sheets[2];
    sheet_due(one, clinic, &sheets[0]);
    sheet_due(another, clinic, &sheets[1]);
    compare_sheets(&sheets[0], &sheets[1], clinic, patients_of_clinic(one, clinic), show);
}

/* No clinic is apart: the site's region joined with another, whose clinic is apart from all of the site's. */
static void join_other(const struct region_file *file, const struct region_arrays *region, const char *name)
{
    static struct region_file other;
    static struct region_file joined;
    static struct region_arrays copy;
    uint8_t result[RIGBASEN_JOIN_RESULT_BYTES];
    uint64_t own = other_region(region, name, &other);
    if (own == RIGBASEN_MOST_CLINICS) {
        printf("untried every clinic is joined to another, and all %d are there, so that no region can be joined to it\n",
               RIGBASEN_MOST_CLINICS);
        return;
    }
    uint64_t number = join_files(file, &other, &joined, result);
    if (number == RIGBASEN_JOINED_SIZE) {
        printf("untried there is no clinic with others that no table joins to it, and with a region of %zu patients beside it: %s\n",
               patients_of_region(&other), rigbasen_text(number));
        return;
    }
    for (uint64_t clinic = 0; clinic < RIGBASEN_MOST_CLINICS; clinic++) {
        if (has_clinic(region, clinic)) {
            compare_files(file, &joined, clinic, clinic == region->patients[0].clinic);
        }
    }
    compare_files(&other, &joined, own, 1);
    read_arrays(&joined, &copy);
    size_t prices = change_prices(&copy, own);
    write_copy(&copy, &joined);
    compare_files(&other, &joined, own, 0);
    printf("saw no clinic with others that no table joins to it, so a region with clinic %" PRIu64 " joined to the file: each clinic's"
           " sheet begins as in its own file, that of clinic %" PRIu64 " also with %zu prices of the site changed\n", own, own, prices);
}

void change_clinics(const struct region_file *file, const struct region_arrays *region, const char *other_name)
{
    static struct areas areas;
    int tried = 0;
    uint64_t number = list_region(file, &areas);
    if (number != RIGBASEN_FINE) {
        printf("untried list gives %" PRIu64 ": %s, so no sheet is printed\n", number, rigbasen_text(number));
        return;
    }
    for (uint64_t clinic = 0; clinic < RIGBASEN_MOST_CLINICS; clinic++) {
        if (has_clinic(region, clinic) && apart(region, clinic)) {
            tried += change_elsewhere(file, region, clinic, areas.beds, tried);
        }
    }
    if (tried > CLINICS_SHOWN) {
        printf("saw the same of %d clinics more\n", tried - CLINICS_SHOWN);
    }
    if (tried == 0) {
        join_other(file, region, other_name);
    }
}
