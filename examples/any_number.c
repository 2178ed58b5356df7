/*
 * Stands in for the library, to see what a program says of a number: every call of a file gives the one in the variable NUMBER,
 * and join names the file of the variable WHICH: 1, 2, or neither.
 */
#include <stdlib.h>
#include <string.h>

#include "rigbasen.h"

static uint64_t number(void)
{
    const char *text = getenv("NUMBER");
    return text == NULL ? RIGBASEN_FINE : strtoull(text, NULL, 10);
}

uint64_t rigbasen_check(const uint8_t *file, size_t file_length)
{
    (void)file, (void)file_length;
    return number();
}

uint64_t rigbasen_list(const uint8_t *file, size_t file_length, uint8_t *beds, size_t beds_length,
                       uint8_t *costs, size_t costs_length, uint8_t *result, size_t result_length)
{
    (void)file, (void)file_length, (void)beds, (void)beds_length;
    (void)costs, (void)costs_length, (void)result, (void)result_length;
    return number();
}

uint64_t rigbasen_sheet(const uint8_t *file, size_t file_length, uint64_t clinic, uint8_t *beds, size_t beds_length,
                        uint8_t *costs, size_t costs_length, uint8_t *result, size_t result_length)
{
    (void)clinic;
    return rigbasen_list(file, file_length, beds, beds_length, costs, costs_length, result, result_length);
}

uint64_t rigbasen_price(const uint8_t *file, size_t file_length, const uint8_t *plan, size_t plan_length,
                        uint8_t *result, size_t result_length)
{
    (void)file, (void)file_length, (void)plan, (void)plan_length, (void)result, (void)result_length;
    return number();
}

uint64_t rigbasen_line(const uint8_t *file, size_t file_length, const uint8_t *typed, size_t typed_length,
                       uint8_t *result, size_t result_length)
{
    return rigbasen_price(file, file_length, typed, typed_length, result, result_length);
}

uint64_t rigbasen_write(const uint8_t *patients, size_t patients_length, const uint8_t *tables, size_t tables_length,
                        const uint8_t *entries, size_t entries_length, uint64_t m,
                        uint8_t *output, size_t output_length, uint8_t *result, size_t result_length)
{
    (void)patients, (void)patients_length, (void)tables, (void)tables_length, (void)entries, (void)entries_length;
    (void)m, (void)output, (void)output_length, (void)result, (void)result_length;
    return number();
}

uint64_t rigbasen_join(const uint8_t *first, size_t first_length, const uint8_t *second, size_t second_length,
                       uint8_t *output, size_t output_length, uint8_t *result, size_t result_length)
{
    const char *which = getenv("WHICH");
    (void)first, (void)first_length, (void)second, (void)second_length, (void)output, (void)output_length;
    memset(result, 0, result_length);
    result[RIGBASEN_NUMBER_BYTES] = (uint8_t)(which == NULL ? 0 : atoi(which));
    return number();
}

uint64_t rigbasen_parents(const uint8_t *file, size_t file_length, uint8_t *output, size_t output_length,
                          uint8_t *result, size_t result_length)
{
    (void)file, (void)file_length, (void)output, (void)output_length;
    memset(result, 0, result_length);
    return number();
}

uint64_t rigbasen_read(const uint8_t *file, size_t file_length, uint8_t *patients, size_t patients_length,
                       uint8_t *tables, size_t tables_length, uint8_t *entries, size_t entries_length,
                       uint8_t *result, size_t result_length)
{
    (void)file, (void)file_length, (void)patients, (void)patients_length;
    (void)tables, (void)tables_length, (void)entries, (void)entries_length;
    memset(result, 0, result_length);
    return number();
}

uint64_t rigbasen_version(void)
{
    return RIGBASEN_VERSION_NUMBER;
}
