/* The entries of a table of two members are read in a wrong order: the first member's bed moves fastest. */
#include "broken.h"

/* The file as it is misread. */
static void misread(const uint8_t *bytes, size_t length, struct region_file *file)
{
    static struct region_arrays region;
    static uint64_t entries[RIGBASEN_MOST_ENTRIES];
    size_t start = 0;
    lend(bytes, length, file);
    if (read_arrays(file, &region) != RIGBASEN_FINE) {
        return;
    }
    for (size_t i = 0; i < region.table_count; i++) {
        const struct rigbasen_table *table = &region.tables[i];
        size_t first = (size_t)region.patients[table->members[0]].beds;
        size_t second = (size_t)table->entry_count / first;
        memcpy(entries, region.entries + start, (size_t)table->entry_count * sizeof entries[0]);
        for (size_t place = 0; table->member_count == 2 && place < table->entry_count; place++) {
            region.entries[start + place] = entries[place % second * first + place / second];
        }
        start += (size_t)table->entry_count;
    }
    write_arrays(&region, file);
}

uint64_t rigbasen_list(const uint8_t *file, size_t file_length, uint8_t *beds, size_t beds_length,
                       uint8_t *costs, size_t costs_length, uint8_t *result, size_t result_length)
{
    static struct region_file wrong;
    misread(file, file_length, &wrong);
    return proved_list(wrong.bytes, wrong.length, beds, beds_length, costs, costs_length, result, result_length);
}

uint64_t rigbasen_sheet(const uint8_t *file, size_t file_length, uint64_t clinic, uint8_t *beds, size_t beds_length,
                        uint8_t *costs, size_t costs_length, uint8_t *result, size_t result_length)
{
    static struct region_file wrong;
    misread(file, file_length, &wrong);
    return proved_sheet(wrong.bytes, wrong.length, clinic, beds, beds_length, costs, costs_length, result, result_length);
}

uint64_t rigbasen_price(const uint8_t *file, size_t file_length, const uint8_t *plan, size_t plan_length,
                        uint8_t *result, size_t result_length)
{
    static struct region_file wrong;
    misread(file, file_length, &wrong);
    return proved_price(wrong.bytes, wrong.length, plan, plan_length, result, result_length);
}
