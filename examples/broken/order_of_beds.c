/* The cheapest plans in a wrong order: by their beds, whatever they cost. */
#include "broken.h"

struct row {
    uint8_t beds[RIGBASEN_MOST_PATIENTS];
    uint8_t cost[RIGBASEN_NUMBER_BYTES];
};

static int compare_beds(const void *left, const void *right)
{
    return memcmp(((const struct row *)left)->beds, ((const struct row *)right)->beds, RIGBASEN_MOST_PATIENTS);
}

uint64_t rigbasen_list(const uint8_t *file, size_t file_length, uint8_t *beds, size_t beds_length,
                       uint8_t *costs, size_t costs_length, uint8_t *result, size_t result_length)
{
    static struct region_file lent;
    static struct row rows[RIGBASEN_MOST_ROWS];
    lend(file, file_length, &lent);
    uint64_t number = proved_list(file, file_length, beds, beds_length, costs, costs_length, result, result_length);
    if (number != RIGBASEN_FINE) {
        return number;
    }
    size_t width = patients_of_region(&lent);
    size_t count = (size_t)rigbasen_number_at(result, 0);
    memset(rows, 0, sizeof rows);
    for (size_t r = 0; r < count; r++) {
        memcpy(rows[r].beds, beds + r * width, width);
        memcpy(rows[r].cost, costs + r * RIGBASEN_NUMBER_BYTES, RIGBASEN_NUMBER_BYTES);
    }
    qsort(rows, count, sizeof rows[0], compare_beds);
    for (size_t r = 0; r < count; r++) {
        memcpy(beds + r * width, rows[r].beds, width);
        memcpy(costs + r * RIGBASEN_NUMBER_BYTES, rows[r].cost, RIGBASEN_NUMBER_BYTES);
    }
    return number;
}
