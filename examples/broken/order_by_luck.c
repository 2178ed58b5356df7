/* The order of equal costs is luck: after every second list they come in the opposite order of beds. COUNTER names a file. */
#include "broken.h"

/* How many lists there were before, in this process and others. */
static unsigned long lists_before(void)
{
    unsigned long count = 0;
    FILE *counter = fopen(COUNTER, "r");
    if (counter != NULL) {
        count = fscanf(counter, "%lu", &count) == 1 ? count : 0;
        fclose(counter);
    }
    counter = fopen(COUNTER, "w");
    if (counter != NULL) {
        fprintf(counter, "%lu\n", count + 1);
        fclose(counter);
    }
    return count;
}

/* Turns rows of one cost round. */
static void turn(uint8_t *beds, size_t width, size_t first, size_t last)
{
    uint8_t row[RIGBASEN_MOST_PATIENTS];
    while (first < last) {
        memcpy(row, beds + first * width, width);
        memcpy(beds + first * width, beds + last * width, width);
        memcpy(beds + last * width, row, width);
        first++;
        last--;
    }
}

uint64_t rigbasen_list(const uint8_t *file, size_t file_length, uint8_t *beds, size_t beds_length,
                       uint8_t *costs, size_t costs_length, uint8_t *result, size_t result_length)
{
    static struct region_file lent;
    uint64_t number = proved_list(file, file_length, beds, beds_length, costs, costs_length, result, result_length);
    if (number != RIGBASEN_FINE || lists_before() / 2 % 2 == 0) {
        return number;
    }
    lend(file, file_length, &lent);
    size_t rows = (size_t)rigbasen_number_at(result, 0);
    size_t first = 0;
    for (size_t r = 1; r <= rows; r++) {
        if (r == rows || rigbasen_number_at(costs, r) != rigbasen_number_at(costs, first)) {
            turn(beds, patients_of_region(&lent), first, r - 1);
            first = r;
        }
    }
    return number;
}
