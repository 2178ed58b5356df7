/* The search stops one plan early. */
#include "broken.h"

uint64_t rigbasen_list(const uint8_t *file, size_t file_length, uint8_t *beds, size_t beds_length,
                       uint8_t *costs, size_t costs_length, uint8_t *result, size_t result_length)
{
    uint64_t number = proved_list(file, file_length, beds, beds_length, costs, costs_length, result, result_length);
    if (number == RIGBASEN_FINE && rigbasen_number_at(result, 0) > 1) {
        put_number(result, 0, rigbasen_number_at(result, 0) - 1);
    }
    return number;
}
