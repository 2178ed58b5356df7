/*
 * Lines three to five of the checklist on a site's own file, which check accepts.
 *     forbid FILE          every bed of one patient forbidden, for each patient in turn
 *     walk FILE            all plans of the file, or of copies in which some patients keep their beds, beside the list
 *     clinics FILE OTHER   prices of other clinics changed, and sheets compared; where no clinic is apart, FILE joined with OTHER
 * Each line that is printed begins with saw, row, wrong or untried. Ends with 0, with 1 where something was wrong.
 */
#include <stdarg.h>

#include "site.h"

int faults = 0;

void wrong(const char *format, ...)
{
    va_list values;
    va_start(values, format);
    printf("wrong ");
    vprintf(format, values);
    printf("\n");
    va_end(values);
    faults++;
}

int no_rows(const struct areas *areas)
{
    int untouched = 1;
    for (size_t i = 0; i < sizeof areas->beds; i++) {
        untouched = untouched && areas->beds[i] == PATTERN;
    }
    for (size_t i = 0; i < sizeof areas->costs; i++) {
        untouched = untouched && areas->costs[i] == PATTERN;
    }
    return untouched && rows_of(areas) == 0;
}

void print_row(const struct areas *areas, uint64_t row, size_t width)
{
    printf("(row %" PRIu64 " (", rigbasen_number_at(areas->costs, (size_t)row));
    for (size_t i = 0; i < width; i++) {
        printf(i == 0 ? "%d" : " %d", areas->beds[row * width + i]);
    }
    printf("))\n");
}

void write_copy(const struct region_arrays *copy, struct region_file *file)
{
    uint64_t number = write_arrays(copy, file);
    uint64_t check = rigbasen_check(file->bytes, file->length);
    if (number != RIGBASEN_FINE || check != RIGBASEN_FINE) {
        wrong("a changed copy: write gives %" PRIu64 ", check then %" PRIu64, number, check);
    }
}

int price_of(const struct region_file *file, const uint8_t *plan, size_t patients, uint64_t *cost)
{
    uint8_t result[RIGBASEN_PRICE_RESULT_BYTES];
    uint64_t number = rigbasen_price(file->bytes, file->length, plan, patients, result, sizeof result);
    if (number != RIGBASEN_FINE) {
        wrong("price gives %" PRIu64, number);
    }
    *cost = rigbasen_number_at(result, 1);
    return rigbasen_number_at(result, 0) == 1;
}

int main(int count, char **arguments)
{
    static struct region_file file;
    static struct region_arrays region;
    int forbids = count == 3 && strcmp(arguments[1], "forbid") == 0;
    int walks = count == 3 && strcmp(arguments[1], "walk") == 0;
    int changes = count == 4 && strcmp(arguments[1], "clinics") == 0;
    if (!forbids && !walks && !changes) {
        fprintf(stderr, "checklist_site forbid FILE, walk FILE, or clinics FILE OTHER\n");
        return 2;
    }
    read_region(arguments[2], &file);
    uint64_t number = read_arrays(&file, &region);
    if (number != RIGBASEN_FINE) {
        wrong("read gives %" PRIu64, number);
    } else if (forbids) {
        forbid(&file, &region);
    } else if (walks) {
        walk(&file, &region);
    } else {
        change_clinics(&file, &region, arguments[3]);
    }
    return faults == 0 ? 0 : 1;
}
