/* What the lines on a site's own file share. */
#ifndef SITE_H
#define SITE_H

#include <inttypes.h>
#include <stdio.h>

#include "region_file.h"
#include "rigbasen.h"

/* What lent areas hold beforehand, and the highest price of an entry. */
enum { PATTERN = 0x5A, HIGHEST_PRICE = 1000000 };

/* How many things were wrong. */
extern int faults;

/* Says what is wrong, and counts it. */
void wrong(const char *format, ...);

static inline uint64_t rows_of(const struct areas *areas)
{
    return rigbasen_number_at(areas->result, 0);
}

/* Has a call left no row in areas that held the pattern: no bed, no cost, and a row count of 0? */
int no_rows(const struct areas *areas);

/* One row of so many beds, in the printing program's form, with its line end. */
void print_row(const struct areas *areas, uint64_t row, size_t width);

/* A changed copy of the site's region as a file, which must be a good one. */
void write_copy(const struct region_arrays *copy, struct region_file *file);

/* Is the plan allowed, and what does it cost? */
int price_of(const struct region_file *file, const uint8_t *plan, size_t patients, uint64_t *cost);

/* The lines. */
void forbid(const struct region_file *file, const struct region_arrays *region);
void walk(const struct region_file *file, const struct region_arrays *region);
void change_clinics(const struct region_file *file, const struct region_arrays *region, const char *other_name);

#endif
