/* seal, join and parents: files that the proved calls write. */
#include "command.h"

#include <string.h>

/* An end line is put behind a file that has none, and parents are made where they are asked for. Then the file is read and written. */
int carry_out_seal(const struct request *request)
{
    static struct file file;
    static struct file made;
    static struct file written;
    static struct region region;
    int with_parents = (request->given & OPTION_PARENTS) != 0;
    int status = read_file(last_argument(request, 0), &file);
    if (status != STATUS_FINE) {
        return status;
    }
    complete(&file);
    uint64_t number = with_parents ? make_parents(&file, &made) : RIGBASEN_FINE;
    if (number == RIGBASEN_FINE) {
        number = read_region(with_parents ? &made : &file, &region);
    }
    if (number == RIGBASEN_FINE) {
        region.m = (request->given & OPTION_M) != 0 ? request->m : region.m;
        number = write_region(&region, &written);
    }
    if (number != RIGBASEN_FINE) {
        return refuse(request, &file, number,
                      number == RIGBASEN_SUM ? "; if it was changed on purpose, take its end line out and seal it again" : NULL);
    }
    return save_file(request->output, &written);
}

/* Says which file is refused, or both where it is about the two together. */
static int refuse_joining(const struct file *first, const struct file *second, uint64_t number, uint64_t which)
{
    fprintf(stderr, "rigbasen: ");
    if (which == RIGBASEN_FIRST_FILE) {
        put_refusal(stderr, first, ", the first file", number, NULL);
    } else if (which == RIGBASEN_SECOND_FILE) {
        put_refusal(stderr, second, ", the second file", number, NULL);
    } else {
        put_name(stderr, first);
        fprintf(stderr, " and ");
        put_refusal(stderr, second, NULL, number, NULL);
    }
    return STATUS_REFUSED;
}

int carry_out_join(const struct request *request)
{
    static struct file first;
    static struct file second;
    static struct file joined;
    uint8_t result[RIGBASEN_JOIN_RESULT_BYTES] = {0};
    if (strcmp(request->arguments[0], "-") == 0 && strcmp(request->arguments[1], "-") == 0) {
        return misused(request->command, "given twice:", "-");
    }
    int status = read_file(request->arguments[0], &first);
    if (status == STATUS_FINE) {
        status = read_file(request->arguments[1], &second);
    }
    if (status != STATUS_FINE) {
        return status;
    }
    uint64_t number = rigbasen_join(first.bytes, first.length, second.bytes, second.length,
                                    joined.bytes, sizeof joined.bytes, result, sizeof result);
    if (number != RIGBASEN_FINE) {
        return refuse_joining(&first, &second, number, rigbasen_number_at(result, 1));
    }
    joined.length = (size_t)rigbasen_number_at(result, 0);
    return save_file(request->output, &joined);
}

/* A file that stops before its end line may be cut, so it is refused as every cut is; seal is there for lines written by hand. */
int carry_out_parents(const struct request *request)
{
    static struct file file;
    static struct file made;
    int status = read_file(last_argument(request, 0), &file);
    if (status != STATUS_FINE) {
        return status;
    }
    uint64_t number = make_parents(&file, &made);
    if (number != RIGBASEN_FINE) {
        return refuse(request, &file, number, NULL);
    }
    return save_file(request->output, &made);
}
