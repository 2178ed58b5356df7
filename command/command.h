/* What the parts of the command share. Each part includes it first: it asks for POSIX. */
#ifndef COMMAND_H
#define COMMAND_H

#define _XOPEN_SOURCE 700

#include <stdint.h>
#include <stdio.h>

#include "rigbasen.h"

/* How the command ends. */
enum status {
    STATUS_FINE = 0,
    STATUS_REFUSED = 1,
    STATUS_TROUBLE = 2, /* wrong usage, or something could not be read or written */
    STATUS_LATE = 3     /* no answer within the limit */
};

/* ---- What is asked for. */

enum option {
    OPTION_CSV = 1,
    OPTION_JSON = 2,
    OPTION_M = 4,
    OPTION_LIMIT = 8,
    OPTION_OUTPUT = 16,
    OPTION_NAMES = 32,
    OPTION_PARENTS = 64,
    OPTION_HELP = 128
};

struct request;

struct command {
    const char *name;
    int (*carry_out)(const struct request *request);
    unsigned options;
    int least; /* arguments */
    int most;
    const char *usage;
    const char *help;
};

struct request {
    const struct command *command;
    char **arguments; /* those that are no options */
    int count;
    unsigned given;     /* the options that were given */
    uint64_t m;
    unsigned limit;     /* seconds */
    const char *output;
    const char *names;
};

/* arguments.c */
int read_arguments(const struct command *command, int count, char **arguments, struct request *request);
int misused(const struct command *command, const char *what, const char *which);
int all_digits(const char *text);
uint64_t number_of_digits(const char *text, uint64_t most); /* a larger number counts as most + 1 */
const char *last_argument(const struct request *request, int before); /* the file behind so many arguments, or - */

/* rigbasen.c */
extern const struct command commands[];

/* ---- Files. */

/* One byte more than a region file may have, so that a longer one is seen to be too long. */
struct file {
    const char *name; /* null for standard input */
    uint64_t whole;   /* how long it is on the disk; 0 where that is not known */
    size_t length;
    uint8_t bytes[RIGBASEN_MOST_FILE_BYTES + 1];
};

/* input.c */
int read_file(const char *name, struct file *file);
int save_file(const char *output, const struct file *file);
int end_output(int status);

/* words.c: what people read. Nothing of a file or a name reaches the terminal as a control byte. */
void complain(const char *format, ...);
void put_text(FILE *stream, const uint8_t *text, size_t length);
void put_name(FILE *stream, const struct file *file);
void put_argument(FILE *stream, const char *name);
void put_json(const char *text, size_t length);
const char *text_of(uint64_t number);
const char *name_of(const struct file *file);
void put_refusal(FILE *stream, const struct file *file, const char *which, uint64_t number, const char *more);
int refuse(const struct request *request, const struct file *file, uint64_t number, const char *more);

/* ---- Regions. */

/* A region as rigbasen_read leaves it. */
struct region {
    size_t patient_count;
    size_t table_count;
    size_t entry_count;
    uint64_t m;
    struct rigbasen_patient patients[RIGBASEN_MOST_PATIENTS];
    struct rigbasen_table tables[RIGBASEN_MOST_TABLES];
    uint64_t entries[RIGBASEN_MOST_ENTRIES];
};

/* region.c: the calls on such regions, regions that are a part of others, and files made of parts of text. */
uint64_t read_region(const struct file *file, struct region *region);
uint64_t write_region(const struct region *region, struct file *file);
uint64_t make_parents(const struct file *file, struct file *made);
uint64_t set_m(const struct file *file, uint64_t m, struct file *changed);
void keep_tables(const struct region *region, const uint8_t *kept, struct region *smaller);
size_t line_of_patient(size_t patient);
size_t line_of_table(size_t patient_count, size_t table);
void clear_text(struct file *text);
void add_text(struct file *text, const char *format, ...);
void add_bytes(struct file *text, const uint8_t *bytes, size_t length);
void add_end_line(struct file *text);
int has_end_line(const struct file *file);
void complete(struct file *file);
uint64_t sum_of(const uint8_t *bytes, size_t length);
uint64_t check_file(const struct file *file);

/* ---- Rows. */

/* What list or sheet answers. */
struct rows {
    uint64_t number;
    uint8_t result[RIGBASEN_ROWS_RESULT_BYTES];
    uint8_t costs[RIGBASEN_COSTS_BYTES];
    uint8_t beds[RIGBASEN_BEDS_BYTES];
};

/* limit.c: list where the clinic is RIGBASEN_NONE, else the clinic's sheet. */
void ask_rows(const struct file *file, uint64_t clinic, struct rows *rows);
int ask_rows_within(const struct file *file, uint64_t clinic, uint64_t milliseconds, struct rows *rows);
uint64_t milliseconds_now(void);

/* names.c */
struct names {
    const uint8_t *name[RIGBASEN_MOST_CLINICS]; /* null where the clinic has none */
    size_t length[RIGBASEN_MOST_CLINICS];
};
int read_names(const char *name, struct names *names);

/* show.c: rows as a table, as csv and as json. */
struct shown {
    const struct request *request;
    const struct file *file;
    const struct region *region;
    const struct rows *rows;
    const struct names *names; /* null where none are given */
    uint64_t clinic;           /* RIGBASEN_NONE for the list */
    size_t width;              /* how many patients a row has, */
    size_t patients[RIGBASEN_MOST_PATIENTS]; /* and which */
};
void show_rows(const struct shown *shown);

/* ---- The commands. */
int carry_out_check(const struct request *request);   /* ask.c */
int carry_out_price(const struct request *request);
int carry_out_line(const struct request *request);
int carry_out_list(const struct request *request);    /* rows.c */
int carry_out_sheet(const struct request *request);
int carry_out_seal(const struct request *request);    /* written.c */
int carry_out_join(const struct request *request);
int carry_out_parents(const struct request *request);
int carry_out_why(const struct request *request);     /* why.c */

#endif
