/*
 * What the broken planners share. Each file here answers wrongly in one way and leaves the rest to the proved calls, which are renamed
 * for it: rigbasen_list to proved_list, and so on.
 */
#ifndef BROKEN_H
#define BROKEN_H

#include "region_file.h"
#include "rigbasen.h"

static inline void lend(const uint8_t *bytes, size_t length, struct region_file *file)
{
    file->length = length < sizeof file->bytes ? length : sizeof file->bytes;
    memcpy(file->bytes, bytes, file->length);
}

static inline void put_number(uint8_t *area, size_t i, uint64_t number)
{
    for (size_t j = 0; j < RIGBASEN_NUMBER_BYTES; j++) {
        area[i * RIGBASEN_NUMBER_BYTES + j] = (uint8_t)(number >> (8 * j));
    }
}

uint64_t proved_list(const uint8_t *file, size_t file_length, uint8_t *beds, size_t beds_length,
                     uint8_t *costs, size_t costs_length, uint8_t *result, size_t result_length);

uint64_t proved_sheet(const uint8_t *file, size_t file_length, uint64_t clinic, uint8_t *beds, size_t beds_length,
                      uint8_t *costs, size_t costs_length, uint8_t *result, size_t result_length);

uint64_t proved_price(const uint8_t *file, size_t file_length, const uint8_t *plan, size_t plan_length,
                      uint8_t *result, size_t result_length);

#endif
