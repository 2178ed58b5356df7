/* Regions in the arrays of rigbasen_read, parts of them, and files made of parts of text. */
#include "command.h"

#include <stdarg.h>
#include <string.h>

enum { SUM_MODULUS = 65521 };

uint64_t check_file(const struct file *file)
{
    return rigbasen_check(file->bytes, file->length);
}

uint64_t read_region(const struct file *file, struct region *region)
{
    uint8_t result[RIGBASEN_READ_RESULT_BYTES] = {0};
    uint64_t number = rigbasen_read(file->bytes, file->length, (uint8_t *)region->patients, sizeof region->patients,
                                    (uint8_t *)region->tables, sizeof region->tables,
                                    (uint8_t *)region->entries, sizeof region->entries, result, sizeof result);
    region->patient_count = (size_t)rigbasen_number_at(result, 0);
    region->table_count = (size_t)rigbasen_number_at(result, 1);
    region->m = rigbasen_number_at(result, 2);
    region->entry_count = (size_t)rigbasen_number_at(result, 3);
    return number;
}

uint64_t write_region(const struct region *region, struct file *file)
{
    uint8_t result[RIGBASEN_WRITE_RESULT_BYTES] = {0};
    uint64_t number = rigbasen_write((const uint8_t *)region->patients, region->patient_count * sizeof region->patients[0],
                                     (const uint8_t *)region->tables, region->table_count * sizeof region->tables[0],
                                     (const uint8_t *)region->entries, region->entry_count * sizeof region->entries[0], region->m,
                                     file->bytes, sizeof file->bytes, result, sizeof result);
    file->length = (size_t)rigbasen_number_at(result, 0);
    return number;
}

uint64_t make_parents(const struct file *file, struct file *made)
{
    uint8_t result[RIGBASEN_PARENTS_RESULT_BYTES] = {0};
    uint64_t number = rigbasen_parents(file->bytes, file->length, made->bytes, sizeof made->bytes, result, sizeof result);
    made->name = file->name;
    made->length = (size_t)rigbasen_number_at(result, 0);
    return number;
}

/* The same file with another m. */
uint64_t set_m(const struct file *file, uint64_t m, struct file *changed)
{
    static struct region region;
    uint64_t number = read_region(file, &region);
    changed->name = file->name;
    if (number != RIGBASEN_FINE) {
        return number;
    }
    region.m = m;
    return write_region(&region, changed);
}

/* The region with those of its tables alone that are kept. */
void keep_tables(const struct region *region, const uint8_t *kept, struct region *smaller)
{
    const uint64_t *entries = region->entries;
    smaller->patient_count = region->patient_count;
    memcpy(smaller->patients, region->patients, sizeof smaller->patients);
    smaller->m = region->m;
    smaller->table_count = 0;
    smaller->entry_count = 0;
    for (size_t i = 0; i < region->table_count; i++) {
        size_t count = (size_t)region->tables[i].entry_count;
        if (kept[i]) {
            smaller->tables[smaller->table_count++] = region->tables[i];
            memcpy(smaller->entries + smaller->entry_count, entries, count * sizeof *entries);
            smaller->entry_count += count;
        }
        entries += count;
    }
}

/* Lines are counted from 1; the first is the region's. */
size_t line_of_patient(size_t patient)
{
    return 2 + patient;
}

size_t line_of_table(size_t patient_count, size_t table)
{
    return 2 + patient_count + table;
}

void clear_text(struct file *text)
{
    text->name = NULL;
    text->length = 0;
}

/* A text that becomes too long has one byte more than a file may have: check says so. */
void add_bytes(struct file *text, const uint8_t *bytes, size_t length)
{
    size_t room = sizeof text->bytes - text->length;
    size_t taken = length < room ? length : room;
    memcpy(text->bytes + text->length, bytes, taken);
    text->length += taken;
}

/* For short parts. */
void add_text(struct file *text, const char *format, ...)
{
    char part[128];
    va_list rest;
    va_start(rest, format);
    int length = vsnprintf(part, sizeof part, format, rest);
    va_end(rest);
    if (length > 0) {
        add_bytes(text, (const uint8_t *)part, (size_t)length < sizeof part ? (size_t)length : sizeof part - 1);
    }
}

uint64_t sum_of(const uint8_t *bytes, size_t length)
{
    uint64_t sum = 0;
    for (size_t i = 0; i < length; i++) {
        sum += bytes[i];
    }
    return sum % SUM_MODULUS;
}

void add_end_line(struct file *text)
{
    add_text(text, "(end %llu)\n", (unsigned long long)sum_of(text->bytes, text->length));
}

/* Where the last line starts. */
static size_t last_line(const struct file *file)
{
    size_t start = file->length - (file->length > 0 && file->bytes[file->length - 1] == '\n');
    while (start > 0 && file->bytes[start - 1] != '\n') {
        start--;
    }
    return start;
}

/* Is the last line an end line, be its number right or wrong? */
int has_end_line(const struct file *file)
{
    static const char beginning[] = "(end";
    size_t start = last_line(file);
    return file->length - start >= strlen(beginning) && memcmp(file->bytes + start, beginning, strlen(beginning)) == 0;
}

/* Puts an end line behind a file that has none. */
void complete(struct file *file)
{
    if (!has_end_line(file)) {
        add_end_line(file);
    }
}
