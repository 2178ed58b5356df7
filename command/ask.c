/* check, price and line. */
#include "command.h"

#include <string.h>

/* Each file of several is asked; standard input can be read once. */
int carry_out_check(const struct request *request)
{
    static struct file file;
    int worst = STATUS_FINE;
    int from_input = 0;
    for (int i = 0; i < request->count; i++) {
        from_input += strcmp(request->arguments[i], "-") == 0;
    }
    if (from_input > 1) {
        return misused(request->command, "given twice:", "-");
    }
    for (int i = 0; i == 0 || i < request->count; i++) {
        int status = read_file(last_argument(request, i), &file);
        if (status == STATUS_FINE) {
            uint64_t number = check_file(&file);
            if (number == RIGBASEN_FINE) {
                put_name(stdout, &file);
                printf(": fine\n");
            } else {
                put_refusal(stdout, &file, NULL, number, NULL);
                status = STATUS_REFUSED;
            }
        }
        worst = status > worst ? status : worst;
    }
    return worst;
}

static uint64_t price_of(const struct file *file, const uint8_t *plan, size_t count, uint8_t *result)
{
    return rigbasen_price(file->bytes, file->length, plan, count, result, RIGBASEN_PRICE_RESULT_BYTES);
}

/* Is the plan allowed in this smaller region? */
static int allowed_in(const struct region *region, const uint8_t *plan)
{
    static struct file file;
    uint8_t result[RIGBASEN_PRICE_RESULT_BYTES] = {0};
    return write_region(region, &file) == RIGBASEN_FINE
        && price_of(&file, plan, region->patient_count, result) == RIGBASEN_FINE && rigbasen_number_at(result, 0) == 1;
}

static void free_all(struct region *region)
{
    for (size_t i = 0; i < region->patient_count; i++) {
        region->patients[i].fixed_bed = RIGBASEN_NONE;
    }
}

/* The first patient who stays in another bed, found in regions where nobody else stays and no table forbids; or V. */
static size_t patient_who_stays(const struct region *region, const uint8_t *plan)
{
    static struct region smaller;
    static const uint8_t none[RIGBASEN_MOST_TABLES] = {0};
    keep_tables(region, none, &smaller);
    for (size_t i = 0; i < region->patient_count; i++) {
        free_all(&smaller);
        smaller.patients[i].fixed_bed = region->patients[i].fixed_bed;
        if (!allowed_in(&smaller, plan)) {
            return i;
        }
    }
    return region->patient_count;
}

/* The first table that forbids the plan, found in regions where it is alone and nobody stays; or T. */
static size_t table_that_forbids(const struct region *region, const uint8_t *plan)
{
    static struct region smaller;
    for (size_t i = 0; i < region->table_count; i++) {
        uint8_t kept[RIGBASEN_MOST_TABLES] = {0};
        kept[i] = 1;
        keep_tables(region, kept, &smaller);
        free_all(&smaller);
        if (!allowed_in(&smaller, plan)) {
            return i;
        }
    }
    return region->table_count;
}

/* Why a plan is not allowed. */
static void show_not_allowed(const struct file *file, const uint8_t *plan)
{
    static struct region region;
    printf("not allowed");
    if (read_region(file, &region) == RIGBASEN_FINE) {
        size_t patient = patient_who_stays(&region, plan);
        size_t table = table_that_forbids(&region, plan);
        if (patient < region.patient_count) {
            printf(": patient %zu stays in bed %llu", patient, (unsigned long long)region.patients[patient].fixed_bed);
        } else if (table < region.table_count) {
            const struct rigbasen_table *found = &region.tables[table];
            printf(": the table over (");
            for (uint64_t i = 0; i < found->member_count; i++) {
                printf(i == 0 ? "%llu" : " %llu", (unsigned long long)found->members[i]);
            }
            printf(") in line %zu forbids it", line_of_table(region.patient_count, table));
        }
    }
    printf("\n");
}

/* For question 14: what the plan has and what the file asks for. */
static const char *misfit_of(const struct file *file, const uint8_t *plan, size_t count)
{
    static struct region region;
    static char text[128];
    if (read_region(file, &region) != RIGBASEN_FINE) {
        return NULL;
    }
    if (count != region.patient_count) {
        snprintf(text, sizeof text, " (patients: %zu; beds given: %s%zu)", region.patient_count,
                 count > RIGBASEN_MOST_PATIENTS ? "more than " : "", count > RIGBASEN_MOST_PATIENTS ? count - 1 : count);
        return text;
    }
    for (size_t i = 0; i < count; i++) {
        if (plan[i] >= region.patients[i].beds) {
            snprintf(text, sizeof text, " (the highest bed of patient %zu is %llu)", i, (unsigned long long)region.patients[i].beds - 1);
            return text;
        }
    }
    return NULL;
}

/* The beds that were given: how many, one more than there can be where there are more. A bed too large for a byte is too large. */
static size_t take_beds(const struct request *request, int given, uint8_t *plan)
{
    size_t count = 0;
    for (int i = 0; i < given && count <= RIGBASEN_MOST_PATIENTS; i++) {
        plan[count++] = (uint8_t)number_of_digits(request->arguments[i], UINT8_MAX - 1);
    }
    return count;
}

int carry_out_price(const struct request *request)
{
    static struct file file;
    uint8_t plan[RIGBASEN_MOST_PATIENTS + 1];
    uint8_t result[RIGBASEN_PRICE_RESULT_BYTES] = {0};
    int given = 0;
    while (given < request->count && all_digits(request->arguments[given])) {
        given++;
    }
    if (given == 0) {
        return misused(request->command, "not a bed's number:", request->arguments[0]);
    }
    if (request->count > given + 1) {
        return misused(request->command, "the file is the last argument, and this is not a bed's number:", request->arguments[given]);
    }
    int status = read_file(last_argument(request, given), &file);
    if (status != STATUS_FINE) {
        return status;
    }
    size_t count = take_beds(request, given, plan);
    uint64_t number = price_of(&file, plan, count, result);
    if (number != RIGBASEN_FINE) {
        return refuse(request, &file, number, number == RIGBASEN_PLAN_MISFIT ? misfit_of(&file, plan, count) : NULL);
    }
    if (rigbasen_number_at(result, 0) == 1) {
        printf("cost %llu\n", (unsigned long long)rigbasen_number_at(result, 1));
    } else {
        show_not_allowed(&file, plan);
    }
    return STATUS_FINE;
}

int carry_out_line(const struct request *request)
{
    static struct file file;
    const char *typed = request->arguments[0];
    uint8_t result[RIGBASEN_LINE_RESULT_BYTES] = {0};
    int status = read_file(last_argument(request, 1), &file);
    if (status != STATUS_FINE) {
        return status;
    }
    uint64_t number = rigbasen_line(file.bytes, file.length, (const uint8_t *)typed, strlen(typed), result, sizeof result);
    if (number != RIGBASEN_FINE) {
        return refuse(request, &file, number, NULL);
    }
    size_t start = (size_t)rigbasen_number_at(result, 0);
    size_t length = (size_t)rigbasen_number_at(result, 1);
    if (length == 0) {
        printf("no table is over %s\n", typed);
    } else {
        printf("%.*s\n", (int)length, (const char *)file.bytes + start);
    }
    return STATUS_FINE;
}
