/*
 * Line three of the checklist on a site's own file: forbid every bed of one patient, for each patient in turn. The search for a plan
 * that there is not can take very long; then the same is tried with all other patients in the beds of the cheapest plan.
 */
#define _POSIX_C_SOURCE 200112L
#include <signal.h>
#include <sys/types.h>
#include <sys/wait.h>
#include <unistd.h>

#include "site.h"

/* How long one patient may take, in seconds, and after how many who took longer it is not tried any more. */
enum { SECONDS = 1, MOST_SLOW = 3 };

static void take_out_table(struct region_arrays *region, size_t table)
{
    size_t start = 0;
    size_t count = (size_t)region->tables[table].entry_count;
    for (size_t i = 0; i < table; i++) {
        start += (size_t)region->tables[i].entry_count;
    }
    memmove(region->entries + start, region->entries + start + count,
            (region->entry_count - start - count) * sizeof region->entries[0]);
    memmove(region->tables + table, region->tables + table + 1, (region->table_count - table - 1) * sizeof region->tables[0]);
    region->entry_count -= count;
    region->table_count--;
}

/* Is there no room for one table more, over this patient? */
static int full(const struct region_arrays *region, uint64_t patient)
{
    return region->table_count == RIGBASEN_MOST_TABLES
        || region->entry_count + region->patients[patient].beds > RIGBASEN_MOST_ENTRIES;
}

/* One table more, over one patient; where there is no room for it, in the place of the one with the most entries. */
static void add_table(struct region_arrays *region, uint64_t patient, const uint64_t *entries)
{
    struct rigbasen_table table = {1, {patient, 0, 0, 0}, region->patients[patient].beds};
    if (full(region, patient)) {
        size_t largest = 0;
        for (size_t i = 1; i < region->table_count; i++) {
            largest = region->tables[i].entry_count > region->tables[largest].entry_count ? i : largest;
        }
        take_out_table(region, largest);
    }
    memcpy(region->entries + region->entry_count, entries, (size_t)table.entry_count * sizeof entries[0]);
    region->entry_count += (size_t)table.entry_count;
    region->tables[region->table_count++] = table;
}

/* No plan may be left, and none may be written: list and sheet give 13, and what was the cheapest plan is not allowed. */
static void forbid_every_bed(const struct region_arrays *region, uint64_t patient, const uint8_t *cheapest)
{
    static struct region_arrays copy;
    static struct region_file file;
    static struct areas areas;
    uint64_t entries[RIGBASEN_MOST_BEDS];
    uint64_t cost = 0;
    for (size_t bed = 0; bed < RIGBASEN_MOST_BEDS; bed++) {
        entries[bed] = RIGBASEN_NONE;
    }
    copy = *region;
    add_table(&copy, patient, entries);
    write_copy(&copy, &file);
    memset(&areas, PATTERN, sizeof areas);
    uint64_t number = list_region(&file, &areas);
    if (number != RIGBASEN_NO_PLAN || !no_rows(&areas)) {
        wrong("no bed for patient %" PRIu64 ": list gives %" PRIu64 " and %" PRIu64 " rows", patient, number, rows_of(&areas));
    }
    memset(&areas, PATTERN, sizeof areas);
    number = sheet_of_clinic(&file, region->patients[patient].clinic, &areas);
    if (number != RIGBASEN_NO_PLAN || !no_rows(&areas)) {
        wrong("no bed for patient %" PRIu64 ": sheet gives %" PRIu64 " and %" PRIu64 " rows", patient, number, rows_of(&areas));
    }
    if (cheapest != NULL && price_of(&file, cheapest, region->patient_count, &cost)) {
        wrong("no bed for patient %" PRIu64 ": the plan that was cheapest is allowed, at %" PRIu64, patient, cost);
    }
}

/* All beds of a patient forbidden but the cheapest plan's, which gets the highest price: every row must have that bed. */
static void allow_one_bed(const struct region_arrays *region, uint64_t patient, const uint8_t *cheapest)
{
    static struct region_arrays copy;
    static struct region_file file;
    static struct areas areas;
    uint64_t entries[RIGBASEN_MOST_BEDS];
    for (size_t bed = 0; bed < RIGBASEN_MOST_BEDS; bed++) {
        entries[bed] = bed == cheapest[patient] ? HIGHEST_PRICE : RIGBASEN_NONE;
    }
    copy = *region;
    add_table(&copy, patient, entries);
    write_copy(&copy, &file);
    uint64_t number = list_region(&file, &areas);
    uint64_t rows = number == RIGBASEN_FINE ? rows_of(&areas) : 0;
    if (rows == 0) {
        wrong("patient %" PRIu64 " with one bed, at the highest price: list gives %" PRIu64, patient, number);
    }
    for (uint64_t r = 0; r < rows; r++) {
        uint8_t bed = areas.beds[r * region->patient_count + patient];
        if (bed != cheapest[patient] || rigbasen_number_at(areas.costs, (size_t)r) < HIGHEST_PRICE) {
            wrong("patient %" PRIu64 " has bed %d in row %" PRIu64 ", or not its price", patient, bed, r);
            return;
        }
    }
    if (patient == 0 && rows > 0) {
        printf("row patient 0 with bed %d alone, at the highest price: ", cheapest[0]);
        print_row(&areas, 0, region->patient_count);
    }
}

static void forbid_patient(const struct region_arrays *region, uint64_t patient, const uint8_t *cheapest)
{
    forbid_every_bed(region, patient, cheapest);
    if (cheapest != NULL) {
        allow_one_bed(region, patient, cheapest);
    }
}

/* The same in a process of its own, which is ended after a while: 0 then. */
static int forbidden_in_time(const struct region_arrays *region, uint64_t patient, const uint8_t *cheapest)
{
    int status = 0;
    fflush(stdout);
    pid_t child = fork();
    if (child == 0) {
        alarm(SECONDS);
        forbid_patient(region, patient, cheapest);
        fflush(stdout);
        _exit(faults == 0 ? 0 : 1);
    }
    if (child < 0 || waitpid(child, &status, 0) != child) {
        perror("checklist_site");
        exit(2);
    }
    if (WIFSIGNALED(status) && WTERMSIG(status) == SIGALRM) {
        return 0;
    }
    if (!WIFEXITED(status)) {
        wrong("no bed for patient %" PRIu64 ": the process that tried it was ended", patient);
    }
    faults += WIFEXITED(status) && WEXITSTATUS(status) != 0;
    return 1;
}

/* All patients but one in the beds of the cheapest plan. */
static void keep_others(const struct region_arrays *region, uint64_t patient, const uint8_t *cheapest)
{
    static struct region_arrays kept;
    kept = *region;
    for (size_t i = 0; i < kept.patient_count; i++) {
        kept.patients[i].fixed_bed = i == patient ? kept.patients[i].fixed_bed : cheapest[i];
    }
    forbid_patient(&kept, patient, cheapest);
}

void forbid(const struct region_file *file, const struct region_arrays *region)
{
    static struct areas areas;
    int replaced = 0;
    int slow = 0;
    size_t kept = 0;
    const uint8_t *cheapest = list_region(file, &areas) == RIGBASEN_FINE ? areas.beds : NULL;
    for (uint64_t patient = 0; patient < region->patient_count && faults == 0; patient++) {
        replaced += full(region, patient);
        if (cheapest == NULL) {
            forbid_patient(region, patient, NULL);
        } else if (slow >= MOST_SLOW || !forbidden_in_time(region, patient, cheapest)) {
            slow++;
            kept++;
            keep_others(region, patient, cheapest);
        }
    }
    printf("saw 13 for each of the %zu patients", region->patient_count);
    if (replaced > 0) {
        printf(", %d times with the new table in the place of another, since there was no room", replaced);
    }
    if (kept > 0) {
        printf(", for %zu with all others in the beds of the cheapest plan, since it took more than %d s", kept, SECONDS);
    }
    printf(cheapest == NULL ? "; the file itself has no allowed plan\n"
                            : "; with one bed left, at the highest price, every row has it\n");
}
