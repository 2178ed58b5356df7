/* What the programs here share: reading a region file, its arrays, and the calls with areas of the largest region. */
#ifndef REGION_FILE_H
#define REGION_FILE_H

#include <errno.h>
#include <stdio.h>
#include <stdlib.h>
#include <string.h>

#include "rigbasen.h"

/* A file as it is lent to the calls. One byte more than a region file may have, so that a longer one is seen to be too long. */
struct region_file {
    uint8_t bytes[RIGBASEN_MOST_FILE_BYTES + 1];
    size_t length;
};

/* The areas that list and sheet write to, long enough for every region. */
struct areas {
    uint8_t beds[RIGBASEN_BEDS_BYTES];
    uint8_t costs[RIGBASEN_COSTS_BYTES];
    uint8_t result[RIGBASEN_ROWS_RESULT_BYTES];
};

/* Reads a file, or ends the program. */
static inline void read_region(const char *name, struct region_file *file)
{
    FILE *stream = fopen(name, "rb");
    if (stream == NULL) {
        perror(name);
        exit(2);
    }
    file->length = fread(file->bytes, 1, sizeof file->bytes, stream);
    if (ferror(stream)) {
        perror(name);
        exit(2);
    }
    fclose(stream);
}

/* A region in arrays, long enough for every region, and how much of each is used. */
struct region_arrays {
    struct rigbasen_patient patients[RIGBASEN_MOST_PATIENTS];
    struct rigbasen_table tables[RIGBASEN_MOST_TABLES];
    uint64_t entries[RIGBASEN_MOST_ENTRIES];
    size_t patient_count;
    size_t table_count;
    size_t entry_count;
    uint64_t m;
};

/* A file into arrays. On a refusal all counts are 0. */
static inline uint64_t read_arrays(const struct region_file *file, struct region_arrays *region)
{
    uint8_t result[RIGBASEN_READ_RESULT_BYTES];
    uint64_t number = rigbasen_read(file->bytes, file->length, (uint8_t *)region->patients, sizeof region->patients,
                                    (uint8_t *)region->tables, sizeof region->tables,
                                    (uint8_t *)region->entries, sizeof region->entries, result, sizeof result);
    region->patient_count = (size_t)rigbasen_number_at(result, 0);
    region->table_count = (size_t)rigbasen_number_at(result, 1);
    region->m = rigbasen_number_at(result, 2);
    region->entry_count = (size_t)rigbasen_number_at(result, 3);
    return number;
}

/* Arrays into a file. On a refusal it has no bytes. */
static inline uint64_t write_arrays(const struct region_arrays *region, struct region_file *file)
{
    uint8_t result[RIGBASEN_WRITE_RESULT_BYTES];
    uint64_t number = rigbasen_write((const uint8_t *)region->patients, region->patient_count * sizeof region->patients[0],
                                     (const uint8_t *)region->tables, region->table_count * sizeof region->tables[0],
                                     (const uint8_t *)region->entries, region->entry_count * sizeof region->entries[0], region->m,
                                     file->bytes, RIGBASEN_WRITTEN_BYTES, result, sizeof result);
    file->length = (size_t)rigbasen_number_at(result, 0);
    return number;
}

/* V: how many beds a row of the list has. 0 where the file is refused. */
static inline size_t patients_of_region(const struct region_file *file)
{
    static struct region_arrays region;
    read_arrays(file, &region);
    return region.patient_count;
}

/* k: how many beds a row of the clinic's sheet has. 0 where the file is refused. */
static inline size_t patients_of_clinic(const struct region_file *file, uint64_t clinic)
{
    static struct region_arrays region;
    size_t count = 0;
    read_arrays(file, &region);
    for (size_t i = 0; i < region.patient_count; i++) {
        count += region.patients[i].clinic == clinic;
    }
    return count;
}

/* The calls, with the areas of the largest region. */
static inline uint64_t list_region(const struct region_file *file, struct areas *areas)
{
    return rigbasen_list(file->bytes, file->length, areas->beds, sizeof areas->beds,
                         areas->costs, sizeof areas->costs, areas->result, sizeof areas->result);
}

static inline uint64_t sheet_of_clinic(const struct region_file *file, uint64_t clinic, struct areas *areas)
{
    return rigbasen_sheet(file->bytes, file->length, clinic, areas->beds, sizeof areas->beds,
                          areas->costs, sizeof areas->costs, areas->result, sizeof areas->result);
}

/* The line over these members, into a result area of RIGBASEN_LINE_RESULT_BYTES. */
static inline uint64_t line_over(const struct region_file *file, const char *typed, uint8_t *result)
{
    return rigbasen_line(file->bytes, file->length, (const uint8_t *)typed, strlen(typed), result, RIGBASEN_LINE_RESULT_BYTES);
}

/* Two files joined into a third, with a result area of RIGBASEN_JOIN_RESULT_BYTES. On a refusal the third has no bytes. */
static inline uint64_t join_files(const struct region_file *first, const struct region_file *second,
                                  struct region_file *joined, uint8_t *result)
{
    uint64_t number = rigbasen_join(first->bytes, first->length, second->bytes, second->length,
                                    joined->bytes, RIGBASEN_WRITTEN_BYTES, result, RIGBASEN_JOIN_RESULT_BYTES);
    joined->length = (size_t)rigbasen_number_at(result, 0);
    return number;
}

/* A file with its parents made, into another. On a refusal that one has no bytes. */
static inline uint64_t make_parents(const struct region_file *file, struct region_file *made)
{
    uint8_t result[RIGBASEN_PARENTS_RESULT_BYTES];
    uint64_t number = rigbasen_parents(file->bytes, file->length, made->bytes, RIGBASEN_WRITTEN_BYTES, result, sizeof result);
    made->length = (size_t)rigbasen_number_at(result, 0);
    return number;
}

/* A whole number of an argument, at most so large; or ends the program. */
static inline uint64_t read_number(const char *argument, uint64_t most)
{
    char *rest = NULL;
    errno = 0;
    unsigned long long number = strtoull(argument, &rest, 10);
    if (argument[0] < '0' || argument[0] > '9' || *rest != '\0' || errno != 0 || number > most) {
        fprintf(stderr, "%s: not a number of 0 to %llu\n", argument, (unsigned long long)most);
        exit(2);
    }
    return number;
}

#endif
