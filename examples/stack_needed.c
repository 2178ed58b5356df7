/*
 * How much stack each call takes: stack_needed FILE ..
 * Each call runs in a thread whose stack holds one pattern beforehand; what is changed afterwards was needed.
 * Ends with 1 where a call took more than the header says.
 */
#define _POSIX_C_SOURCE 200112L
#include <pthread.h>
#include <stdio.h>

#include "region_file.h"
#include "rigbasen.h"

enum { STACK = 4 * RIGBASEN_STACK_BYTES, PATTERN = 0xA5 };

static struct region_file file;
static struct region_file halves[2];
static struct region_file written;
static struct areas areas;
static struct region_arrays region; /* what the file holds */
static struct region_arrays arrays;

static void *run_nothing(void *unused)
{
    return unused;
}

static void *run_check(void *unused)
{
    rigbasen_check(file.bytes, file.length);
    return unused;
}

static void *run_list(void *unused)
{
    list_region(&file, &areas);
    return unused;
}

/* For the first patient's clinic. */
static void *run_sheet(void *unused)
{
    sheet_of_clinic(&file, region.patients[0].clinic, &areas);
    return unused;
}

/* The plan of the first bed for each patient. */
static void *run_price(void *unused)
{
    static const uint8_t plan[RIGBASEN_MOST_PATIENTS] = {0};
    static uint8_t result[RIGBASEN_PRICE_RESULT_BYTES];
    rigbasen_price(file.bytes, file.length, plan, region.patient_count, result, sizeof result);
    return unused;
}

/* Of members that no table has, so that every line is looked at. */
static void *run_line(void *unused)
{
    static uint8_t result[RIGBASEN_LINE_RESULT_BYTES];
    line_over(&file, "(31 0)", result);
    return unused;
}

/* Writes a region: patients in a chain, two of a clinic, each with a fixed bed, and tables over two of them with 64 entries each. */
static void write_chain(uint64_t first_clinic, size_t patient_count, size_t table_count, struct region_file *into)
{
    static struct region_arrays chain;
    for (uint64_t i = 0; i < patient_count; i++) {
        struct rigbasen_patient patient = {first_clinic + i / 2, 8, i == 0 ? RIGBASEN_NONE : i - 1, i % 8};
        chain.patients[i] = patient;
    }
    for (uint64_t i = 0; i < table_count; i++) {
        struct rigbasen_table table = {2, {i / 3, i / 3 + 1, 0, 0}, 64};
        chain.tables[i] = table;
    }
    chain.patient_count = patient_count;
    chain.table_count = table_count;
    chain.entry_count = table_count * 64;
    chain.m = RIGBASEN_MOST_ROWS;
    if (write_arrays(&chain, into) != RIGBASEN_FINE) {
        fprintf(stderr, "write refused a large region\n");
        exit(2);
    }
}

/* The most of everything. */
static void *run_write(void *unused)
{
    write_chain(0, RIGBASEN_MOST_PATIENTS, RIGBASEN_MOST_TABLES, &written);
    return unused;
}

/* Two halves of the most of everything, which stand ready. */
static void *run_join(void *unused)
{
    static uint8_t result[RIGBASEN_JOIN_RESULT_BYTES];
    if (join_files(&halves[0], &halves[1], &written, result) != RIGBASEN_FINE) {
        fprintf(stderr, "join refused the largest regions\n");
        exit(2);
    }
    return unused;
}

static void *run_parents(void *unused)
{
    make_parents(&file, &written);
    return unused;
}

static void *run_read(void *unused)
{
    read_arrays(&file, &arrays);
    return unused;
}

/* How many bytes of its stack a thread changed that runs this. */
static size_t stack_of(void *(*run)(void *))
{
    static uint8_t *stack = NULL;
    pthread_attr_t attributes;
    pthread_t thread;
    if (stack == NULL && posix_memalign((void **)&stack, 4096, STACK) != 0) {
        exit(2);
    }
    memset(stack, PATTERN, STACK);
    if (pthread_attr_init(&attributes) != 0 || pthread_attr_setstack(&attributes, stack, STACK) != 0
        || pthread_create(&thread, &attributes, run, NULL) != 0 || pthread_join(thread, NULL) != 0) {
        fprintf(stderr, "no thread\n");
        exit(2);
    }
    size_t unchanged = 0;
    while (unchanged < STACK && stack[unchanged] == PATTERN) {
        unchanged++;
    }
    return STACK - unchanged;
}

int main(int count, char **arguments)
{
    static const char *const names[] = {"check", "list", "sheet", "price", "line", "write", "join", "parents", "read"};
    static void *(*const calls[])(void *) = {run_check, run_list, run_sheet, run_price, run_line, run_write, run_join, run_parents,
                                             run_read};
    enum { CALLS = sizeof calls / sizeof calls[0] };
    size_t most[CALLS] = {0};
    int over = 0;
    if (count < 2) {
        fprintf(stderr, "stack_needed FILE ..\n");
        return 2;
    }
    for (int half = 0; half < 2; half++) {
        write_chain((uint64_t)half * RIGBASEN_MOST_CLINICS / 2, RIGBASEN_MOST_PATIENTS / 2, RIGBASEN_MOST_TABLES / 2, &halves[half]);
    }
    for (int i = 1; i < count; i++) {
        read_region(arguments[i], &file);
        read_arrays(&file, &region);
        size_t own = stack_of(run_nothing);
        for (int call = 0; call < CALLS; call++) {
            size_t taken = stack_of(calls[call]) - own;
            most[call] = taken > most[call] ? taken : most[call];
        }
    }
    for (int call = 0; call < CALLS; call++) {
        printf("%s took %zu bytes of stack\n", names[call], most[call]);
        over = over || most[call] > RIGBASEN_STACK_BYTES;
    }
    return over;
}
