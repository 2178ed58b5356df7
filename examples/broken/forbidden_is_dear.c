/* A forbidden bed is only a dear one: where no plan is allowed, the cheapest forbidden ones are listed. */
#include "broken.h"

uint64_t rigbasen_list(const uint8_t *file, size_t file_length, uint8_t *beds, size_t beds_length,
                       uint8_t *costs, size_t costs_length, uint8_t *result, size_t result_length)
{
    static struct region_file lent;
    static struct region_arrays region;
    uint64_t number = proved_list(file, file_length, beds, beds_length, costs, costs_length, result, result_length);
    lend(file, file_length, &lent);
    if (number != RIGBASEN_NO_PLAN) {
        return number;
    }
    read_arrays(&lent, &region);
    for (size_t i = 0; i < region.entry_count; i++) {
        region.entries[i] = region.entries[i] == RIGBASEN_NONE ? 1000000 : region.entries[i];
    }
    write_arrays(&region, &lent);
    return proved_list(lent.bytes, lent.length, beds, beds_length, costs, costs_length, result, result_length);
}
