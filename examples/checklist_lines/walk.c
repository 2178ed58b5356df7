/*
 * Line four of the checklist on a site's own file: its plans are walked one by one and priced from its tables and by the price call,
 * sorted, and compared with the list. Where there are too many, in copies in which most patients keep the beds of the cheapest plan.
 */
#include "site.h"

/* How many plans of the file are walked at most, and how many of each copy where the file has more. */
enum { MOST_PLANS = 20000, MOST_COPY_PLANS = 2000, ROWS_SHOWN = 4 };

struct plan {
    uint64_t cost;
    uint8_t beds[RIGBASEN_MOST_PATIENTS];
};

/* The allowed plans of one walk. */
static struct plan plans[MOST_PLANS];
static size_t allowed_count;

/* The price from the tables: the entries stand table after table, the last member's bed moves fastest. 0 where it is not allowed. */
static int price_by_tables(const struct region_arrays *region, const uint8_t *beds, uint64_t *cost)
{
    const uint64_t *entries = region->entries;
    int allowed = 1;
    *cost = 0;
    for (size_t i = 0; i < region->patient_count; i++) {
        uint64_t fixed = region->patients[i].fixed_bed;
        allowed = allowed && (fixed == RIGBASEN_NONE || fixed == beds[i]);
    }
    for (size_t i = 0; i < region->table_count; i++) {
        const struct rigbasen_table *table = &region->tables[i];
        uint64_t place = 0;
        for (size_t j = 0; j < table->member_count; j++) {
            place = place * region->patients[table->members[j]].beds + beds[table->members[j]];
        }
        allowed = allowed && entries[place] != RIGBASEN_NONE;
        *cost += allowed ? entries[place] : 0;
        entries += table->entry_count;
    }
    *cost = allowed ? *cost : 0;
    return allowed;
}

/* Cheapest first, then in order of the beds. */
static int compare_plans(const void *left, const void *right)
{
    const struct plan *one = (const struct plan *)left;
    const struct plan *other = (const struct plan *)right;
    if (one->cost != other->cost) {
        return one->cost < other->cost ? -1 : 1;
    }
    return memcmp(one->beds, other->beds, sizeof one->beds);
}

/* The next plan, of the patients whose beds are walked; 0 after the last. */
static int next_plan(const struct region_arrays *region, const int *walked, uint8_t *beds)
{
    for (size_t i = region->patient_count; i > 0; i--) {
        if (walked[i - 1]) {
            beds[i - 1]++;
            if (beds[i - 1] < region->patients[i - 1].beds) {
                return 1;
            }
            beds[i - 1] = 0;
        }
    }
    return 0;
}

/* All plans of the patients who are walked, each priced in both ways; the allowed ones are collected and sorted. */
static size_t walk_plans(const struct region_file *file, const struct region_arrays *region, const int *walked)
{
    struct plan plan = {0, {0}};
    size_t count = 0;
    allowed_count = 0;
    for (size_t i = 0; i < region->patient_count; i++) {
        plan.beds[i] = walked[i] ? 0 : (uint8_t)region->patients[i].fixed_bed;
    }
    do {
        uint64_t by_call = 0;
        int allowed = price_by_tables(region, plan.beds, &plan.cost);
        if (price_of(file, plan.beds, region->patient_count, &by_call) != allowed || by_call != plan.cost) {
            wrong("plan %zu of the walk costs %" PRIu64 " by its tables and %" PRIu64 " by price, or one forbids it",
                  count, plan.cost, by_call);
            return count;
        }
        if (allowed) {
            plans[allowed_count++] = plan;
        }
        count++;
    } while (next_plan(region, walked, plan.beds));
    qsort(plans, allowed_count, sizeof plans[0], compare_plans);
    return count;
}

/* The list of the file beside the walked plans. */
static void compare_list(const struct region_file *file, const struct region_arrays *region, int show)
{
    static struct areas areas;
    size_t width = region->patient_count;
    uint64_t due = allowed_count < region->m ? allowed_count : region->m;
    uint64_t number = list_region(file, &areas);
    if (number != (due == 0 ? RIGBASEN_NO_PLAN : RIGBASEN_FINE) || rows_of(&areas) != due) {
        wrong("list gives %" PRIu64 " and %" PRIu64 " rows, and the walk finds %" PRIu64, number, rows_of(&areas), due);
        return;
    }
    for (uint64_t r = 0; r < due; r++) {
        uint64_t cost = rigbasen_number_at(areas.costs, (size_t)r);
        if (cost != plans[r].cost || memcmp(areas.beds + r * width, plans[r].beds, width) != 0) {
            wrong("row %" PRIu64 " of the list is another than the walk's, at %" PRIu64 " and %" PRIu64, r, cost, plans[r].cost);
            return;
        }
        if (show && r < ROWS_SHOWN) {
            printf("row ");
            print_row(&areas, r, width);
        }
    }
}

/* The file itself with its own m, and with the most rows that there can be. */
static void walk_file(const struct region_file *file, const struct region_arrays *region)
{
    static struct region_arrays copy;
    static struct region_file copied;
    int walked[RIGBASEN_MOST_PATIENTS];
    for (size_t i = 0; i < RIGBASEN_MOST_PATIENTS; i++) {
        walked[i] = 1;
    }
    size_t count = walk_plans(file, region, walked);
    if (faults == 0) {
        compare_list(file, region, 1);
        copy = *region;
        copy.m = RIGBASEN_MOST_ROWS;
        write_copy(&copy, &copied);
        compare_list(&copied, &copy, 0);
    }
    printf("saw all %zu plans walked, %zu of them allowed, each priced from the tables and by price; the list has the first of them,"
           " with m %" PRIu64 " and with m %d\n", count, allowed_count, region->m, RIGBASEN_MOST_ROWS);
}

/* Does a table have this patient and one of the group? */
static int shares_table(const struct region_arrays *region, size_t patient, const int *group)
{
    for (size_t i = 0; i < region->table_count; i++) {
        int has_patient = 0;
        int has_group = 0;
        for (size_t j = 0; j < region->tables[i].member_count; j++) {
            has_patient = has_patient || region->tables[i].members[j] == patient;
            has_group = has_group || group[region->tables[i].members[j]];
        }
        if (has_patient && has_group) {
            return 1;
        }
    }
    return 0;
}

/* The next patient of a group of those who are left: one who shares a table with it, else the first; V where none has room. */
static size_t next_of_group(const struct region_arrays *region, const int *left, const int *group, uint64_t product)
{
    size_t first = region->patient_count;
    for (size_t i = region->patient_count; i > 0; i--) {
        if (left[i - 1] && product * region->patients[i - 1].beds <= MOST_COPY_PLANS) {
            first = i - 1;
        }
    }
    for (size_t i = first; i < region->patient_count; i++) {
        if (left[i] && product * region->patients[i].beds <= MOST_COPY_PLANS && shares_table(region, i, group)) {
            return i;
        }
    }
    return first;
}

/* One copy: the patients of a group choose, all others keep the beds of the cheapest plan. The group is taken from those left. */
static size_t walk_copy(const struct region_arrays *region, const uint8_t *cheapest, int *left, int show)
{
    static struct region_arrays copy;
    static struct region_file file;
    int group[RIGBASEN_MOST_PATIENTS] = {0};
    uint64_t product = 1;
    copy = *region;
    copy.m = RIGBASEN_MOST_ROWS;
    for (size_t i = next_of_group(region, left, group, product); i < region->patient_count;
         i = next_of_group(region, left, group, product)) {
        product *= region->patients[i].beds;
        left[i] = 0;
        group[i] = 1;
    }
    for (size_t i = 0; i < region->patient_count; i++) {
        copy.patients[i].fixed_bed = group[i] ? RIGBASEN_NONE : cheapest[i];
    }
    write_copy(&copy, &file);
    size_t count = walk_plans(&file, &copy, group);
    if (faults == 0) {
        compare_list(&file, &copy, show);
    }
    return count;
}

/* Too many plans: copies in each of which a few patients choose, until each who has a choice has had it. */
static void walk_copies(const struct region_file *file, const struct region_arrays *region)
{
    static struct areas areas;
    int left[RIGBASEN_MOST_PATIENTS];
    int some = 1;
    size_t copies = 0;
    size_t count = 0;
    uint64_t number = list_region(file, &areas);
    if (number != RIGBASEN_FINE) {
        printf("untried it has more than %d plans, and list gives %" PRIu64 ": there is no cheapest plan in which patients could"
               " keep their beds\n", MOST_PLANS, number);
        return;
    }
    for (size_t i = 0; i < region->patient_count; i++) {
        left[i] = region->patients[i].fixed_bed == RIGBASEN_NONE;
    }
    while (some && faults == 0) {
        count += walk_copy(region, areas.beds, left, copies == 0);
        copies++;
        some = 0;
        for (size_t i = 0; i < region->patient_count; i++) {
            some = some || left[i];
        }
    }
    printf("saw more than %d plans, so %zu copies in which all but a few patients keep the beds of the cheapest plan, each patient free"
           " in one: %zu plans walked, each priced from the tables and by price; each list has the first of them, with m %d\n",
           MOST_PLANS, copies, count, RIGBASEN_MOST_ROWS);
}

void walk(const struct region_file *file, const struct region_arrays *region)
{
    uint64_t product = 1;
    for (size_t i = 0; i < region->patient_count && product <= MOST_PLANS; i++) {
        product *= region->patients[i].beds;
    }
    if (product <= MOST_PLANS) {
        walk_file(file, region);
    } else {
        walk_copies(file, region);
    }
}
