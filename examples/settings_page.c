/*
 * A settings page in small: it holds a ward in arrays, saves it as a region file, and shows that file and its plans.
 * It opens the saved file, saves it unchanged, which gives the same bytes, and then with another price.
 * Then it makes mistakes, and says in words why each is not saved. Ends with 1 where a call answers something else.
 */
#include <inttypes.h>
#include <stdio.h>

#include "on_screen.h"
#include "region_file.h"
#include "rigbasen.h"

enum { PATIENTS = 3, TABLES = 3, ENTRIES = 9 };

/* What the fields of the page hold. */
struct ward {
    struct rigbasen_patient patients[PATIENTS];
    struct rigbasen_table tables[TABLES];
    uint64_t entries[ENTRIES];
    uint64_t m;
};

/* Patients 0 and 1 are of clinic 0, and not both in bed 1; patient 2 is of clinic 1, and stays in bed 0, though bed 2 is cheaper. */
static const struct ward three_patients = {
    {{0, 2, RIGBASEN_NONE, RIGBASEN_NONE}, {0, 2, 0, RIGBASEN_NONE}, {1, 3, RIGBASEN_NONE, 0}},
    {{1, {0, 0, 0, 0}, 2}, {2, {0, 1, 0, 0}, 4}, {1, {2, 0, 0, 0}, 3}},
    {3, 1, 0, 2, 1, RIGBASEN_NONE, 5, RIGBASEN_NONE, 4},
    4,
};

/* Saves a ward in an area of so many bytes. On a refusal the file has no bytes. */
static uint64_t save(const struct ward *ward, struct region_file *file, size_t room)
{
    uint8_t result[RIGBASEN_WRITE_RESULT_BYTES];
    uint64_t number = rigbasen_write((const uint8_t *)ward->patients, sizeof ward->patients,
                                     (const uint8_t *)ward->tables, sizeof ward->tables,
                                     (const uint8_t *)ward->entries, sizeof ward->entries, ward->m,
                                     file->bytes, room, result, sizeof result);
    file->length = (size_t)rigbasen_number_at(result, 0);
    return number;
}

/* Of a lent region question 2 asks something else than of a file. */
static const char *why(uint64_t number)
{
    return number == RIGBASEN_LAYOUT ? "there are not as many entries as the tables count" : meaning(number);
}

/* Saves what a mistake has made of the ward; 1 where the refusal is another than this. */
static int mistaken(const char *mistake, const struct ward *ward, size_t room, uint64_t refusal)
{
    static struct region_file file;
    uint64_t number = save(ward, &file, room);
    printf("%s: not saved, %" PRIu64 ": %s\n", mistake, number, why(number));
    return number != refusal || file.length != 0;
}

static int show_mistakes(size_t needed)
{
    struct ward ward = three_patients;
    int wrong = mistaken("an area one byte shorter", &ward, needed - 1, RIGBASEN_SHORT_OUTPUT);
    ward.patients[2].fixed_bed = 3;
    wrong += mistaken("bed 3 fixed, of the beds 0 to 2", &ward, needed, RIGBASEN_PATIENTS);
    ward.patients[2].fixed_bed = 0;
    ward.entries[0] = 1000001;
    wrong += mistaken("a price of 1000001", &ward, needed, RIGBASEN_ENTRIES);
    ward.patients[0].parent = 1;
    wrong += mistaken("then a parent who comes later", &ward, needed, RIGBASEN_PATIENTS);
    ward.m = 0;
    wrong += mistaken("then no plans wanted", &ward, needed, RIGBASEN_LIMITS);
    ward.tables[2].entry_count = 4;
    wrong += mistaken("then an entry that is counted and not there", &ward, needed, RIGBASEN_LAYOUT);
    return wrong;
}

/* A file as it was written, and its plans; 1 where it is refused. */
static int show_file(const struct region_file *file)
{
    static struct areas areas;
    printf("%zu bytes:\n%.*s", file->length, (int)file->length, (const char *)file->bytes);
    if (rigbasen_check(file->bytes, file->length) != RIGBASEN_FINE || list_region(file, &areas) != RIGBASEN_FINE) {
        printf("the file is refused\n");
        return 1;
    }
    printf("list: ");
    show_rows(&areas, patients_of_region(file));
    return 0;
}

/* Opens a saved file, changes the first price of its first table, and saves it again; 1 where a call refuses. */
static int change_price(const struct region_file *file, uint64_t price)
{
    static struct region_arrays region;
    static struct region_file again;
    uint64_t number = read_arrays(file, &region);
    if (number != RIGBASEN_FINE) {
        printf("not opened, %" PRIu64 ": %s\n", number, meaning(number));
        return 1;
    }
    printf("opened: %zu patients, %zu tables, %zu entries, %" PRIu64 " plans wanted\n",
           region.patient_count, region.table_count, region.entry_count, region.m);
    if (write_arrays(&region, &again) != RIGBASEN_FINE || again.length != file->length
        || memcmp(again.bytes, file->bytes, file->length) != 0) {
        printf("saved unchanged, it is another file\n");
        return 1;
    }
    printf("bed 0 of patient %" PRIu64 " at %" PRIu64 " instead of %" PRIu64 ", saved again, ",
           region.tables[0].members[0], price, region.entries[0]);
    region.entries[0] = price;
    number = write_arrays(&region, &again);
    if (number != RIGBASEN_FINE) {
        printf("not saved, %" PRIu64 ": %s\n", number, why(number));
        return 1;
    }
    return show_file(&again);
}

int main(void)
{
    static struct region_file file;
    uint64_t number = save(&three_patients, &file, RIGBASEN_WRITTEN_BYTES);
    if (number != RIGBASEN_FINE) {
        printf("not saved, %" PRIu64 ": %s\n", number, why(number));
        return 1;
    }
    printf("saved, ");
    return show_file(&file) == 0 && change_price(&file, 0) == 0 && show_mistakes(file.length) == 0 ? 0 : 1;
}
