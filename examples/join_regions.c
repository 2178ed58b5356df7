/*
 * Joins two regions that share a planner: join_regions FIRST SECOND > JOINED
 * Writes the joined file to standard output. Where it is not made, nothing is written there, and standard error says which file
 * is refused and why. Ends with 0, with 1 where the call refused, with 2 where it could not be asked or the file not be written.
 */
#include <inttypes.h>
#include <stdio.h>

#include "on_screen.h"
#include "region_file.h"
#include "rigbasen.h"

/* A number of 1 to 10 is about one of the two files, every other about both. */
static void say_refusal(uint64_t number, uint64_t which, char **names)
{
    if (which == RIGBASEN_NEITHER_FILE) {
        fprintf(stderr, "%s and %s: not joined, %" PRIu64 ": %s\n", names[0], names[1], number, meaning(number));
    } else {
        const char *place = which == RIGBASEN_FIRST_FILE ? "first" : "second";
        fprintf(stderr, "%s, the %s file: refused with %" PRIu64 ": %s\n", names[which - 1], place, number, meaning(number));
    }
}

int main(int count, char **arguments)
{
    static struct region_file files[2];
    static struct region_file joined;
    uint8_t result[RIGBASEN_JOIN_RESULT_BYTES];
    if (count != 3) {
        fprintf(stderr, "join_regions FIRST SECOND > JOINED\n");
        return 2;
    }
    read_region(arguments[1], &files[0]);
    read_region(arguments[2], &files[1]);
    uint64_t number = join_files(&files[0], &files[1], &joined, result);
    if (number != RIGBASEN_FINE) {
        say_refusal(number, rigbasen_number_at(result, 1), arguments + 1);
        return 1;
    }
    if (fwrite(joined.bytes, 1, joined.length, stdout) != joined.length || fflush(stdout) != 0) {
        perror("standard output");
        return 2;
    }
    return 0;
}
