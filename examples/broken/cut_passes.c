/* A cut file passes: list takes one that ends at a line end as if the first line counted what is there. */
#include "broken.h"

/* How many lines begin so. */
static size_t lines_with(const struct region_file *file, const char *text)
{
    size_t count = 0;
    size_t length = strlen(text);
    for (size_t at = 0; at + length <= file->length; at++) {
        count += (at == 0 || file->bytes[at - 1] == '\n') && memcmp(file->bytes + at, text, length) == 0;
    }
    return count;
}

/* The file with its counts and its end line made true. */
static void mend(const struct region_file *cut, struct region_file *mended)
{
    unsigned patients = 0;
    unsigned tables = 0;
    unsigned m = 0;
    unsigned long sum = 0;
    *mended = *cut;
    mended->bytes[mended->length] = 0;
    if (sscanf((const char *)mended->bytes, "(region %u %u %u)", &patients, &tables, &m) != 3) {
        return;
    }
    size_t first = (size_t)(strchr((const char *)mended->bytes, '\n') + 1 - (const char *)mended->bytes);
    int length = snprintf((char *)mended->bytes, 64, "(region %zu %zu %u)\n", lines_with(cut, "(patient "), lines_with(cut, "(cost "), m);
    memcpy(mended->bytes + length, cut->bytes + first, cut->length - first);
    mended->length = (size_t)length + cut->length - first;
    for (size_t i = 0; i < mended->length; i++) {
        sum += mended->bytes[i];
    }
    mended->length += (size_t)sprintf((char *)mended->bytes + mended->length, "(end %lu)\n", sum % 65521);
}

uint64_t rigbasen_list(const uint8_t *file, size_t file_length, uint8_t *beds, size_t beds_length,
                       uint8_t *costs, size_t costs_length, uint8_t *result, size_t result_length)
{
    static struct region_file cut;
    static struct region_file mended;
    uint64_t number = proved_list(file, file_length, beds, beds_length, costs, costs_length, result, result_length);
    if (number != RIGBASEN_LAYOUT || file_length == 0 || file_length > RIGBASEN_WRITTEN_BYTES || file[file_length - 1] != '\n') {
        return number;
    }
    lend(file, file_length, &cut);
    mend(&cut, &mended);
    return proved_list(mended.bytes, mended.length, beds, beds_length, costs, costs_length, result, result_length);
}
