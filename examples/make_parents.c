/*
 * Fills in the parents of a region file, whatever stands there: make_parents FILE > MADE
 * Writes the file with its parents made to standard output. Where it is refused, nothing is written there, and standard error says
 * why. Ends with 0, with 1 where the call refused, with 2 where it could not be asked or the file not be written.
 */
#include <inttypes.h>
#include <stdio.h>

#include "on_screen.h"
#include "region_file.h"
#include "rigbasen.h"

/* What a refusal means here: nothing is asked of the file's own parents. */
static const char *meaning_here(uint64_t number)
{
    return number == RIGBASEN_PATIENTS ? "a patient's clinic, bed count or fixed bed is out of range" : meaning(number);
}

int main(int count, char **arguments)
{
    static struct region_file file;
    static struct region_file made;
    if (count != 2) {
        fprintf(stderr, "make_parents FILE > MADE\n");
        return 2;
    }
    read_region(arguments[1], &file);
    uint64_t number = make_parents(&file, &made);
    if (number != RIGBASEN_FINE) {
        fprintf(stderr, "%s: refused with %" PRIu64 ": %s\n", arguments[1], number, meaning_here(number));
        return 1;
    }
    if (fwrite(made.bytes, 1, made.length, stdout) != made.length || fflush(stdout) != 0) {
        perror("standard output");
        return 2;
    }
    return 0;
}
