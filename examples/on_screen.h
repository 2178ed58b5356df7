/* What the programs for a screen show: what a refusal means, and rows. */
#ifndef ON_SCREEN_H
#define ON_SCREEN_H

#include <inttypes.h>
#include <stdio.h>

#include "region_file.h"
#include "rigbasen.h"

/* The text of a number. A library that is newer than this screen may ask a question that has none in the header. */
static inline const char *meaning(uint64_t number)
{
    const char *text = rigbasen_text(number);
    return text != NULL ? text : "a question that this screen has no text for";
}

static inline void show_beds(const uint8_t *beds, size_t count)
{
    for (size_t i = 0; i < count; i++) {
        printf(" %d", beds[i]);
    }
    printf("\n");
}

/* Rows of so many beds, each with its cost. */
static inline void show_rows(const struct areas *areas, size_t width)
{
    uint64_t rows = rigbasen_number_at(areas->result, 0);
    printf("%" PRIu64 " rows\n", rows);
    for (uint64_t r = 0; r < rows; r++) {
        printf("  cost %" PRIu64 ", beds", rigbasen_number_at(areas->costs, (size_t)r));
        show_beds(areas->beds + r * width, width);
    }
}

#endif
