/* Other clinics show through in a sheet: what they pay in the cheapest plan is added to the clinic's own costs. */
#include "broken.h"

uint64_t rigbasen_sheet(const uint8_t *file, size_t file_length, uint64_t clinic, uint8_t *beds, size_t beds_length,
                        uint8_t *costs, size_t costs_length, uint8_t *result, size_t result_length)
{
    static struct region_file lent;
    static struct areas listed;
    lend(file, file_length, &lent);
    uint64_t number = proved_sheet(file, file_length, clinic, beds, beds_length, costs, costs_length, result, result_length);
    if (number != RIGBASEN_FINE || list_region(&lent, &listed) != RIGBASEN_FINE) {
        return number;
    }
    uint64_t others = rigbasen_number_at(listed.costs, 0) - rigbasen_number_at(costs, 0);
    for (size_t r = 0; r < rigbasen_number_at(result, 0); r++) {
        put_number(costs, r, rigbasen_number_at(costs, r) + others);
    }
    return number;
}
