/*
 * The calls that the checklist makes.
 *     version              the library's version and the header's; status 1 where they differ
 *     check FILE           fine, or why it is refused; status 1 then
 *     cuts FILE            lends every cut of the file, short of the whole, to the six calls of a file, to parents, and to join with
 *                          the whole; of a long file every cut to check, and the cuts at line ends and some others to the rest
 *     print FILE           the list and the clinics' sheets by the calls, in the printing program's form
 *     list FILE            the list alone
 *     price FILE BED ..    what the plan costs
 *     join FIRST SECOND    the two files joined
 *     parents FILE         the file with its parents made
 *     seal                 standard input with its end line put behind it
 */
#include <inttypes.h>
#include <stdio.h>

#include "on_screen.h"
#include "region_file.h"
#include "rigbasen.h"

/* What lent areas hold beforehand; the longest file of which every cut goes to every call; how many cuts of a longer one, besides. */
enum { PATTERN = 0x5A, LONG_FILE = 16384, SOME_CUTS = 200 };

/* Are all bytes of an area this one? */
static int all(const uint8_t *bytes, size_t length, uint8_t byte)
{
    for (size_t i = 0; i < length; i++) {
        if (bytes[i] != byte) {
            return 0;
        }
    }
    return 1;
}

/* Did a call of list or sheet refuse, with no bed and no cost written and no rows? */
static int refused_clean(uint64_t number, const struct areas *areas)
{
    return number != RIGBASEN_FINE && all(areas->beds, sizeof areas->beds, PATTERN)
        && all(areas->costs, sizeof areas->costs, PATTERN) && all(areas->result, sizeof areas->result, 0);
}

/* Does read refuse this cut, and leave its arrays as they were? */
static int unread_clean(const struct region_file *cut)
{
    static uint8_t arrays[3][64];
    uint8_t result[RIGBASEN_READ_RESULT_BYTES];
    memset(arrays, PATTERN, sizeof arrays);
    memset(result, PATTERN, sizeof result);
    uint64_t number = rigbasen_read(cut->bytes, cut->length, arrays[0], sizeof arrays[0], arrays[1], sizeof arrays[1],
                                    arrays[2], sizeof arrays[2], result, sizeof result);
    return number != RIGBASEN_FINE && number != RIGBASEN_SHORT_AREA && all(arrays[0], sizeof arrays, PATTERN)
        && all(result, sizeof result, 0);
}

/* Do list, sheet, price, line and read refuse this cut? */
static int cut_refused(const struct region_file *cut, uint64_t clinic, size_t patients)
{
    static const uint8_t plan[RIGBASEN_MOST_PATIENTS] = {0};
    struct areas areas;
    uint8_t result[RIGBASEN_PRICE_RESULT_BYTES];
    uint8_t line[RIGBASEN_LINE_RESULT_BYTES];
    memset(&areas, PATTERN, sizeof areas);
    if (!refused_clean(list_region(cut, &areas), &areas)) {
        return 0;
    }
    memset(&areas, PATTERN, sizeof areas);
    if (!refused_clean(sheet_of_clinic(cut, clinic, &areas), &areas)) {
        return 0;
    }
    memset(result, PATTERN, sizeof result);
    uint64_t price = rigbasen_price(cut->bytes, cut->length, plan, patients, result, sizeof result);
    if (price == RIGBASEN_FINE || !all(result, sizeof result, 0)) {
        return 0;
    }
    memset(line, PATTERN, sizeof line);
    return line_over(cut, "(0)", line) != RIGBASEN_FINE && all(line, sizeof line, 0) && unread_clean(cut);
}

/* Does join refuse a file of the two, name it, and write nothing? */
static int named_clean(const struct region_file *first, const struct region_file *second, uint64_t named)
{
    uint8_t output[512];
    uint8_t result[RIGBASEN_JOIN_RESULT_BYTES];
    memset(output, PATTERN, sizeof output);
    memset(result, PATTERN, sizeof result);
    uint64_t number = rigbasen_join(first->bytes, first->length, second->bytes, second->length,
                                    output, sizeof output, result, sizeof result);
    return number != RIGBASEN_FINE && all(output, sizeof output, PATTERN)
        && rigbasen_number_at(result, 0) == 0 && rigbasen_number_at(result, 1) == named;
}

/* Does parents refuse the file itself, and write nothing? */
static int unmade_clean(const struct region_file *file)
{
    uint8_t output[512];
    uint8_t result[RIGBASEN_PARENTS_RESULT_BYTES];
    memset(output, PATTERN, sizeof output);
    memset(result, PATTERN, sizeof result);
    uint64_t number = rigbasen_parents(file->bytes, file->length, output, sizeof output, result, sizeof result);
    return number != RIGBASEN_FINE && number != RIGBASEN_SHORT_OUTPUT && all(output, sizeof output, PATTERN)
        && all(result, sizeof result, 0);
}

/* Is this cut one for all calls: of a long file those at a line end, those short of one by a byte, and some between? */
static int for_all_calls(const struct region_file *file, size_t length)
{
    int at_line_end = length > 0 && file->bytes[length - 1] == '\n';
    return file->length <= LONG_FILE || at_line_end || file->bytes[length] == '\n' || length % (file->length / SOME_CUTS) == 0;
}

/* Does join refuse the cut before and behind the whole file? A whole file that is refused for its parents is named before a cut. */
static int unjoined(const struct region_file *file, const struct region_file *cut, uint64_t check)
{
    return named_clean(cut, file, RIGBASEN_FIRST_FILE)
        && named_clean(file, cut, check == RIGBASEN_FINE ? RIGBASEN_SECOND_FILE : RIGBASEN_FIRST_FILE);
}

/* The file must be a good one, or one of which only the parents are wrong. */
static int try_cuts(const struct region_file *file)
{
    static struct region_file cut;
    static struct region_file made;
    static struct region_arrays region;
    size_t by_all = 0;
    uint64_t check = rigbasen_check(file->bytes, file->length);
    int for_parents = check == RIGBASEN_PATIENTS || check == RIGBASEN_ANCESTORS;
    if (make_parents(file, &made) != RIGBASEN_FINE || !(check == RIGBASEN_FINE || for_parents)) {
        printf("the whole file is refused\n");
        return 1;
    }
    read_arrays(&made, &region);
    cut = *file;
    for (cut.length = 0; cut.length < file->length; cut.length++) {
        int refused = rigbasen_check(cut.bytes, cut.length) != RIGBASEN_FINE;
        if (refused && for_all_calls(file, cut.length)) {
            refused = unjoined(file, &cut, check) && unmade_clean(&cut)
                && cut_refused(&cut, region.patients[0].clinic, region.patient_count);
            by_all++;
        }
        if (!refused) {
            printf("the first %zu bytes are not refused\n", cut.length);
            return 1;
        }
    }
    printf(by_all == file->length ? "%zu cuts refused by every call" : "%zu cuts refused by check, %zu of them by every call",
           file->length, by_all);
    printf("\n");
    return 0;
}

static void print_rows(const struct areas *areas, size_t width)
{
    uint64_t rows = rigbasen_number_at(areas->result, 0);
    printf("%" PRIu64 ")\n", rows);
    for (uint64_t r = 0; r < rows; r++) {
        printf("(row %" PRIu64 " (", rigbasen_number_at(areas->costs, (size_t)r));
        for (size_t i = 0; i < width; i++) {
            printf(i == 0 ? "%d" : " %d", areas->beds[r * width + i]);
        }
        printf("))\n");
    }
}

/* The list, or the number with which it is refused, which is handed back. */
static uint64_t show_list(const struct region_file *file)
{
    static struct areas areas;
    uint64_t number = list_region(file, &areas);
    if (number != RIGBASEN_FINE) {
        printf("(refused %" PRIu64 ")\n", number);
    } else {
        printf("(list ");
        print_rows(&areas, patients_of_region(file));
    }
    return number;
}

static int print_list(const struct region_file *file)
{
    show_list(file);
    return 0;
}

static int print_check(const struct region_file *file)
{
    uint64_t number = rigbasen_check(file->bytes, file->length);
    printf(number == RIGBASEN_FINE ? "fine\n" : "refused with %" PRIu64 ": %s\n", number, meaning(number));
    return number == RIGBASEN_FINE ? 0 : 1;
}

static int print_version(void)
{
    uint64_t version = rigbasen_version();
    printf("library %" PRIu64 ".%" PRIu64 ".%" PRIu64 ", header %s\n",
           version / 1000000, version / 1000 % 1000, version % 1000, RIGBASEN_VERSION);
    return version == RIGBASEN_VERSION_NUMBER ? 0 : 1;
}

static int print_answers(const struct region_file *file)
{
    static struct areas areas;
    if (show_list(file) != RIGBASEN_FINE) {
        return 0;
    }
    for (uint64_t clinic = 0; clinic < RIGBASEN_MOST_CLINICS; clinic++) {
        uint64_t number = sheet_of_clinic(file, clinic, &areas);
        if (number == RIGBASEN_FINE) {
            printf("(sheet %" PRIu64 " ", clinic);
            print_rows(&areas, patients_of_clinic(file, clinic));
        } else if (number != RIGBASEN_NO_SUCH_CLINIC) {
            printf("sheet %" PRIu64 " is refused with %" PRIu64 "\n", clinic, number);
            return 1;
        }
    }
    return 0;
}

static int print_price(const struct region_file *file, int count, char **beds)
{
    uint8_t plan[RIGBASEN_MOST_PATIENTS];
    uint8_t result[RIGBASEN_PRICE_RESULT_BYTES];
    if ((size_t)count > sizeof plan) {
        return 2;
    }
    for (int i = 0; i < count; i++) {
        plan[i] = (uint8_t)read_number(beds[i], 255);
    }
    uint64_t number = rigbasen_price(file->bytes, file->length, plan, (size_t)count, result, sizeof result);
    if (number != RIGBASEN_FINE) {
        printf("refused %" PRIu64 "\n", number);
    } else if (rigbasen_number_at(result, 0) == 0) {
        printf("forbidden\n");
    } else {
        printf("%" PRIu64 "\n", rigbasen_number_at(result, 1));
    }
    return 0;
}

static int print_joined(const char *first_name, const char *second_name)
{
    static struct region_file first;
    static struct region_file second;
    static struct region_file joined;
    uint8_t result[RIGBASEN_JOIN_RESULT_BYTES];
    read_region(first_name, &first);
    read_region(second_name, &second);
    uint64_t number = join_files(&first, &second, &joined, result);
    if (number != RIGBASEN_FINE) {
        printf("refused %" PRIu64 "\n", number);
        return 1;
    }
    return fwrite(joined.bytes, 1, joined.length, stdout) == joined.length ? 0 : 2;
}

static int print_made(const struct region_file *file)
{
    static struct region_file made;
    uint64_t number = make_parents(file, &made);
    if (number != RIGBASEN_FINE) {
        printf("refused %" PRIu64 "\n", number);
        return 1;
    }
    return fwrite(made.bytes, 1, made.length, stdout) == made.length ? 0 : 2;
}

static int seal(void)
{
    unsigned long sum = 0;
    for (int byte = getchar(); byte != EOF; byte = getchar()) {
        sum = (sum + (unsigned long)byte) % 65521;
        putchar(byte);
    }
    printf("(end %lu)\n", sum);
    return 0;
}

/* Carries out a command of one file; -1 where there is no such command. */
static int ask_of_file(const char *command, const char *name)
{
    static const struct {
        const char *name;
        int (*ask)(const struct region_file *file);
    } commands[] = {{"check", print_check}, {"cuts", try_cuts}, {"print", print_answers}, {"list", print_list}, {"parents", print_made}};
    static struct region_file file;
    for (size_t i = 0; i < sizeof commands / sizeof commands[0]; i++) {
        if (strcmp(command, commands[i].name) == 0) {
            read_region(name, &file);
            return commands[i].ask(&file);
        }
    }
    return -1;
}

/* Carries out a command, which has so many arguments behind it. */
static int carry_out(const char *command, int count, char **behind)
{
    static struct region_file file;
    if (strcmp(command, "seal") == 0 && count == 0) {
        return seal();
    }
    if (strcmp(command, "version") == 0 && count == 0) {
        return print_version();
    }
    if (strcmp(command, "price") == 0 && count > 0) {
        read_region(behind[0], &file);
        return print_price(&file, count - 1, behind + 1);
    }
    if (strcmp(command, "join") == 0 && count == 2) {
        return print_joined(behind[0], behind[1]);
    }
    int status = count == 1 ? ask_of_file(command, behind[0]) : -1;
    if (status < 0) {
        fprintf(stderr, "checklist_calls version, check FILE, cuts FILE, print FILE, list FILE, price FILE BED .., join FIRST SECOND,"
                        " parents FILE, or seal\n");
        return 2;
    }
    return status;
}

int main(int count, char **arguments)
{
    return count < 2 ? carry_out("", 0, arguments) : carry_out(arguments[1], count - 2, arguments + 2);
}
