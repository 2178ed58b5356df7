/*
 * A small ward screen: ward_screen FILE CLINIC BED ..
 * Checks the file, lists its plans, prints the clinic's sheet, and prices the plan of the given beds, one for each patient.
 * For the support desk: ward_screen FILE over '(0 1)'
 * Reads out the line of the table over these members, as it stands in the file.
 * Ends with 0, with 1 where a call refused, with 2 where it could not be asked.
 */
#include <inttypes.h>
#include <stdio.h>

#include "on_screen.h"
#include "region_file.h"
#include "rigbasen.h"

/* How many calls refused. */
static int refusals = 0;

/* Says what a call answered; 1 where it refused. */
static int refused(const char *call, uint64_t number)
{
    if (number == RIGBASEN_FINE) {
        return 0;
    }
    printf("%s: refused with %" PRIu64 ": %s\n", call, number, meaning(number));
    refusals++;
    return 1;
}

static void show_check(const struct region_file *file)
{
    if (!refused("check", rigbasen_check(file->bytes, file->length))) {
        printf("check: fine\n");
    }
}

static void show_list(const struct region_file *file)
{
    static struct areas areas;
    if (!refused("list", list_region(file, &areas))) {
        printf("list: ");
        show_rows(&areas, patients_of_region(file));
    }
}

static void show_sheet(const struct region_file *file, uint64_t clinic)
{
    static struct areas areas;
    if (!refused("sheet", sheet_of_clinic(file, clinic, &areas))) {
        printf("sheet of clinic %" PRIu64 ": ", clinic);
        show_rows(&areas, patients_of_clinic(file, clinic));
    }
}

/* A forbidden plan is a good question with the answer "not allowed". */
static void show_price(const struct region_file *file, const uint8_t *plan, size_t count)
{
    uint8_t result[RIGBASEN_PRICE_RESULT_BYTES];
    if (refused("price", rigbasen_price(file->bytes, file->length, plan, count, result, sizeof result))) {
        return;
    }
    if (rigbasen_number_at(result, 0) == 1) {
        printf("price: %" PRIu64 " for beds", rigbasen_number_at(result, 1));
    } else {
        printf("price: not allowed, beds");
    }
    show_beds(plan, count);
}

/* The line is shown where it stands in the file. That no table is over the members is a good answer too. */
static void show_line(const struct region_file *file, const char *typed)
{
    uint8_t result[RIGBASEN_LINE_RESULT_BYTES];
    if (refused("line", line_over(file, typed, result))) {
        return;
    }
    const uint8_t *line = file->bytes + rigbasen_number_at(result, 0);
    uint64_t length = rigbasen_number_at(result, 1);
    if (length == 0) {
        printf("line: no table is over %s\n", typed);
    } else {
        printf("line: %.*s\n", (int)length, (const char *)line);
    }
}

/* The whole screen: what was given behind the file is a clinic and beds. */
static void show_screen(const struct region_file *file, int count, char **given)
{
    static uint8_t plan[RIGBASEN_MOST_PATIENTS + 1];
    uint64_t clinic = read_number(given[0], UINT64_MAX);
    for (int i = 1; i < count; i++) {
        plan[i - 1] = (uint8_t)read_number(given[i], 255);
    }
    show_check(file);
    show_list(file);
    show_sheet(file, clinic);
    show_price(file, plan, (size_t)(count - 1));
}

int main(int count, char **arguments)
{
    static struct region_file file;
    int over = count > 2 && strcmp(arguments[2], "over") == 0;
    if (over ? count != 4 : count < 3 || count - 3 > RIGBASEN_MOST_PATIENTS + 1) {
        fprintf(stderr, "ward_screen FILE CLINIC BED .., or ward_screen FILE over '(0 1)'\n");
        return 2;
    }
    read_region(arguments[1], &file);
    if (over) {
        show_line(&file, arguments[3]);
    } else {
        show_screen(&file, count - 2, arguments + 2);
    }
    return refusals == 0 ? 0 : 1;
}
