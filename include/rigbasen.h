/*
 * Rigbasen: the bed plans of a region. Six calls over one region file, three that make such a file, and one that tells the version.
 *
 *     rigbasen_check   is the file a good one?
 *     rigbasen_list    its m cheapest plans
 *     rigbasen_sheet   one clinic's part of that list
 *     rigbasen_price   what one plan costs
 *     rigbasen_line    the line of the table over some members
 *     rigbasen_read    the patients, tables and entries of the file, in arrays
 *     rigbasen_write   the file of such arrays
 *     rigbasen_join    the file of two regions together
 *     rigbasen_parents the same file with its parents made
 *     rigbasen_version which version of the library is linked
 *
 * Each but the last gives RIGBASEN_FINE or the number of the first question that is answered "no"; rigbasen_text has it in words.
 * Link with librigbasen, on x86-64. C99 or later, and C++.
 */
#ifndef RIGBASEN_H
#define RIGBASEN_H

#include <stddef.h>
#include <stdint.h>

#ifdef __cplusplus
extern "C" {
#endif

/* The version that this header belongs to; rigbasen_version() gives the number of the library's own. */
#define RIGBASEN_VERSION "1.8.0"
#define RIGBASEN_VERSION_NUMBER 1008000 /* major * 1,000,000 + minor * 1,000 + patch */

/* The largest region. */
#define RIGBASEN_MOST_FILE_BYTES 65535
#define RIGBASEN_MOST_PATIENTS 32
#define RIGBASEN_MOST_BEDS 16 /* of one patient */
#define RIGBASEN_MOST_CLINICS 16
#define RIGBASEN_MOST_ROWS 64 /* the largest m */
#define RIGBASEN_MOST_TABLES 64
#define RIGBASEN_MOST_MEMBERS 4 /* of one table */
#define RIGBASEN_MOST_ENTRIES 4096 /* of all tables together */

/* How many bytes a cost, a result number or a number of a lent region has, lowest byte first. */
#define RIGBASEN_NUMBER_BYTES 8

/* Areas of these sizes are long enough for every region. */
#define RIGBASEN_BEDS_BYTES (RIGBASEN_MOST_ROWS * RIGBASEN_MOST_PATIENTS)
#define RIGBASEN_COSTS_BYTES (RIGBASEN_MOST_ROWS * RIGBASEN_NUMBER_BYTES)
#define RIGBASEN_ROWS_RESULT_BYTES RIGBASEN_NUMBER_BYTES        /* list and sheet: the row count */
#define RIGBASEN_PRICE_RESULT_BYTES (2 * RIGBASEN_NUMBER_BYTES) /* price: allowed, then the total */
#define RIGBASEN_LINE_RESULT_BYTES (2 * RIGBASEN_NUMBER_BYTES)  /* line: where it starts in the file, then its length */
#define RIGBASEN_WRITTEN_BYTES 35038                            /* write, join and parents: the output area */
#define RIGBASEN_WRITE_RESULT_BYTES RIGBASEN_NUMBER_BYTES       /* write: the byte count */
#define RIGBASEN_JOIN_RESULT_BYTES (2 * RIGBASEN_NUMBER_BYTES)  /* join: the byte count, then which file is refused */
#define RIGBASEN_PARENTS_RESULT_BYTES RIGBASEN_NUMBER_BYTES     /* parents: the byte count */
#define RIGBASEN_READ_RESULT_BYTES (4 * RIGBASEN_NUMBER_BYTES)  /* read: V, T, m, then how many entries there are */
#define RIGBASEN_PATIENTS_BYTES (RIGBASEN_MOST_PATIENTS * 4 * RIGBASEN_NUMBER_BYTES) /* read: the three areas */
#define RIGBASEN_TABLES_BYTES (RIGBASEN_MOST_TABLES * 6 * RIGBASEN_NUMBER_BYTES)
#define RIGBASEN_ENTRIES_BYTES (RIGBASEN_MOST_ENTRIES * RIGBASEN_NUMBER_BYTES)

/* Stack that is enough for every call. */
#define RIGBASEN_STACK_BYTES (128 * 1024)

/* The number that a call gives: the first question that is answered "no". */
enum rigbasen_number {
    RIGBASEN_FINE = 0,           /* every question of the call is answered yes */
    RIGBASEN_TOO_LONG = 1,       /* is the file at most 65,535 bytes? */
    RIGBASEN_LAYOUT = 2,         /* is it laid out as a region file? (a cut or empty one is not, nor one of the old form, see below);
                                    write: are the lent areas whole? */
    RIGBASEN_COUNTS = 3,         /* are there V patient lines and T table lines? */
    RIGBASEN_SUM = 4,            /* is the end line's number the true sum? */
    RIGBASEN_LIMITS = 5,         /* is V 1 to 32, T 0 to 64, m 1 to 64? */
    RIGBASEN_PATIENTS = 6,       /* is each clinic 0 to 15, each bed count 1 to 16, each parent - or a smaller number than the patient's own,
                                    each fixed bed - or below the bed count? parents: the same of all but the parents */
    RIGBASEN_MEMBERS = 7,        /* has each table 1 to 4 members, all below V, strictly rising? */
    RIGBASEN_ENTRY_COUNTS = 8,   /* has each table the entries that its members' beds ask for, at most 4,096 in all? */
    RIGBASEN_ENTRIES = 9,        /* is each entry that is a number at most 1,000,000? */
    RIGBASEN_ANCESTORS = 10,     /* of any two members of a table, is one an ancestor of the other? */
    RIGBASEN_NO_SUCH_CLINIC = 11, /* sheet: has the clinic asked for a patient in the file? */
    RIGBASEN_SHORT_AREA = 12,    /* list, sheet, price, read: are the lent areas long enough? line, write, join, parents: is the result area? */
    RIGBASEN_NO_PLAN = 13,       /* list, sheet: is there an allowed plan? */
    RIGBASEN_PLAN_MISFIT = 14,   /* price: are there exactly V beds, each below its patient's count? */
    RIGBASEN_SHORT_OUTPUT = 15,  /* write, join, parents: is the output area long enough? */
    RIGBASEN_COMMON_CLINIC = 16, /* join: have the two files no clinic in common? */
    RIGBASEN_JOINED_SIZE = 17,   /* join: have both together at most 32 patients, 64 tables and 4,096 entries? */
    RIGBASEN_TYPED_MEMBERS = 21  /* line: do the typed members have the layout of a member list? */
};

/*
 * The old form: a patient line had three fields and no fixed bed, `(patient c d p)`. Such a file gets 2. To convert it, each
 * patient line gains ` -` before its bracket, `(patient c d p -)`, and the end line its new sum: examples/add_fixed_field does it.
 */

/*
 * Questions 1 to 10 of a file.
 */
uint64_t rigbasen_check(const uint8_t *file, size_t file_length);

/*
 * The list: the m allowed plans of least cost, cheapest first, equal costs in order of the beds; all of them if there are fewer.
 * A plan is allowed where no table forbids it and each patient with a fixed bed has that bed. Questions 1 to 10, 12, 13.
 *
 * Row r has its V beds in beds[r * V] to beds[r * V + V - 1], one byte a patient in file order,
 * and its cost in the 8 bytes from costs[r * 8] on. The row count is in the first 8 bytes of result.
 *
 * Question 12 asks for at least m * V bytes of beds, m * 8 bytes of costs and 8 bytes of result.
 */
uint64_t rigbasen_list(const uint8_t *file, size_t file_length,
                       uint8_t *beds, size_t beds_length,
                       uint8_t *costs, size_t costs_length,
                       uint8_t *result, size_t result_length);

/*
 * The sheet of one clinic: of the list's rows, those whose beds for the clinic's k patients have not come before.
 * Questions 1 to 13. Question 12 asks for the same areas as list. A clinic number above 15 has no patient: 11.
 *
 * Row r has its k beds from beds[r * k] on, the clinic's patients in file order, and from costs[r * 8] on the clinic's own cost:
 * its share of the cost of the list's row where these beds first came. Each table counts for the clinic of its lowest-numbered
 * member, so in every row of the list the shares of all clinics add up to the row's cost. Where a table joins the clinic to others,
 * a later row of the list with the same beds for the clinic may have another share; the sheet has the first.
 */
uint64_t rigbasen_sheet(const uint8_t *file, size_t file_length, uint64_t clinic,
                        uint8_t *beds, size_t beds_length,
                        uint8_t *costs, size_t costs_length,
                        uint8_t *result, size_t result_length);

/*
 * The price of one plan: a bed for each patient, one byte each, in file order. Questions 1 to 10, 12, 14.
 *
 * The first 8 bytes of result are 1 where the plan is allowed and 0 where it is not: a table forbids it, or a patient has another
 * bed than the fixed one. The next 8 are its total, 0 for a plan that is not allowed, which is no refusal: the number is 0.
 * Question 12 asks for 16 bytes of result.
 */
uint64_t rigbasen_price(const uint8_t *file, size_t file_length,
                        const uint8_t *plan, size_t plan_length,
                        uint8_t *result, size_t result_length);

/*
 * The line of the table over some members, found by the members as they are typed. Questions 1 to 10, 12, 21.
 *
 * What is typed has the layout of a table's member list, brackets included: `(0 1)`. One or more numbers of 1 to 7 digits without
 * a leading zero, single spaces between them, and nothing before or after, not even a line end. Else the number is 21.
 * It need not be the member list of any table: `(1 0)`, five members, or a member that no patient has, are fine and find nothing.
 *
 * The first 8 bytes of result are where the line starts in the file, the next 8 its length without its line end: it is the bytes
 * from file + start on, the caller's own, good for as long as those are. Of several tables over these members, in this order, it
 * is the first. Where there is none the number is 0 all the same, the start is the file's length, and the length is 0, which no
 * line has. Question 12 asks for 16 bytes of result.
 */
uint64_t rigbasen_line(const uint8_t *file, size_t file_length,
                       const uint8_t *typed, size_t typed_length,
                       uint8_t *result, size_t result_length);

/* Stands for `-`: a patient without a parent, a patient without a fixed bed, a forbidden entry. */
#define RIGBASEN_NONE UINT64_MAX

/* A patient and a table as read leaves them and write takes them: an array of them is such an area. (x86-64 has the lowest byte first.) */
struct rigbasen_patient {
    uint64_t clinic;
    uint64_t beds;      /* how many there are */
    uint64_t parent;    /* or RIGBASEN_NONE */
    uint64_t fixed_bed; /* the bed that the patient keeps, or RIGBASEN_NONE where any will do */
};

struct rigbasen_table {
    uint64_t member_count;
    uint64_t members[RIGBASEN_MOST_MEMBERS]; /* those past the count are ignored by write and left 0 by read */
    uint64_t entry_count;
};

/*
 * Writes the file of a region, end line included: what check then finds good. Questions 2, 5 to 10, 12, 15.
 *
 * A patient is four numbers of 8 bytes, a table six, as in the structures above; an entry is one, or RIGBASEN_NONE.
 * The entries are those of the first table, then those of the next, and so on. V and T are how many patients and tables are lent.
 * The file stands at the beginning of output, and its byte count in the first 8 bytes of result.
 *
 * A program from when a patient had three numbers must be changed and built anew: four of those are as long as three of these,
 * which question 2 does not see, and in an initialiser of three values the fixed bed is 0, a bed.
 *
 * Question 2 asks here whether the areas are whole: 32 bytes a patient, 48 a table, 8 an entry, and as many entries as the tables
 * count together. Every number is judged as it is lent, however large. Question 12 asks for 8 bytes of result,
 * and then 15 for as many bytes of output as the file has.
 */
uint64_t rigbasen_write(const uint8_t *patients, size_t patients_length,
                        const uint8_t *tables, size_t tables_length,
                        const uint8_t *entries, size_t entries_length, uint64_t m,
                        uint8_t *output, size_t output_length,
                        uint8_t *result, size_t result_length);

/*
 * Reads a file into the arrays that write takes: the mirror of rigbasen_write. Questions 1 to 10, 12.
 *
 * Patients, tables and entries stand in file order from the beginning of their areas on, a patient as four numbers of 8 bytes, a table
 * as six, as in the structures above, an entry as one, or RIGBASEN_NONE. The places of a table past its member count are 0. The
 * first 8 bytes of result are V, then come T, m and N, 8 bytes each: how many patients, tables, plans wanted and entries there are. So a
 * program knows how wide a row of the list is, V, and how wide one of a clinic's sheet: as many as patients have that clinic.
 *
 * Writing what was read gives the file back, byte for byte: rigbasen_write of the first 32 V bytes of patients, the first 48 T of
 * tables, the first 8 N of entries, and m. Change a field in between, and it writes the changed file.
 *
 * Question 12 asks for at least 32 V bytes of patients, 48 T of tables, 8 N of entries and 32 of result; RIGBASEN_PATIENTS_BYTES,
 * RIGBASEN_TABLES_BYTES and RIGBASEN_ENTRIES_BYTES suffice for every file.
 */
uint64_t rigbasen_read(const uint8_t *file, size_t file_length,
                       uint8_t *patients, size_t patients_length,
                       uint8_t *tables, size_t tables_length,
                       uint8_t *entries, size_t entries_length,
                       uint8_t *result, size_t result_length);

/* Which file a number of 1 to 10 of join is about. */
#define RIGBASEN_NEITHER_FILE 0
#define RIGBASEN_FIRST_FILE 1
#define RIGBASEN_SECOND_FILE 2

/*
 * Joins two regions that share a planner: writes one file of both, which check then finds good.
 * Questions 1 to 10 of the first file, then 1 to 10 of the second, then 12, 16, 17, 15.
 *
 * The second's patients come behind the first's and its tables behind the first's tables. Where the first has v patients, patient 0
 * of the second becomes patient v, and so on: each parent and each member of the second is v more. Clinics, bed counts, fixed beds and
 * entries stay as they are, m is the smaller of the two, and the end line has the true sum.
 *
 * The list of the joined file is the first m pairs of a row of the first's list and a row of the second's, by their costs added up;
 * at equal costs in order of the first's beds, then of the second's. Where either file has no allowed plan the joined one has none;
 * that is no refusal here, the file is written, and list then answers 13.
 *
 * The file stands at the beginning of output, and its byte count in the first 8 bytes of result. The next 8 bytes say, on a refusal
 * too, which file a number of 1 to 10 is about: RIGBASEN_FIRST_FILE or RIGBASEN_SECOND_FILE; for every other number, 0 included,
 * RIGBASEN_NEITHER_FILE. Of two bad files the first is named. (A shorter result area is untouched, so there a number of 1 to 10 does
 * not tell which file it is about; check does.)
 *
 * A clinic keeps its number, so question 16 refuses two files in which patients have the same one: give one of them another first.
 * Question 12 asks for 16 bytes of result, and 15 for as many bytes of output as the joined file has; RIGBASEN_WRITTEN_BYTES always
 * suffice.
 */
uint64_t rigbasen_join(const uint8_t *first, size_t first_length,
                       const uint8_t *second, size_t second_length,
                       uint8_t *output, size_t output_length,
                       uint8_t *result, size_t result_length);

/*
 * Fills in the parents of a file, whatever stands there, and writes it: check then finds it good. Questions 1 to 9, 12, 15.
 *
 * A file's own parents are not looked at, but for their layout: `-`, or any number of 1 to 7 digits. So of question 6 all but the
 * parents is asked, and 10 is not. Two patients are neighbours where a table has both as members. From the last patient to the first,
 * the parent is the highest-numbered earlier neighbour, `-` where there is none, and all earlier neighbours become neighbours of each
 * other. Any other parents that check accepts for these tables and patient numbers give each patient the same ancestors and perhaps
 * more. The parents do not depend on m, clinics, beds, fixed beds or entries, and all of these stay; the end line has the true sum.
 *
 * Parents change no plan and no cost: for a file that check accepts, list, sheet and price answer the same before and after. They
 * change how long list and sheet take, see "Time" below. Given its own output, the call writes the same bytes.
 *
 * The file stands at the beginning of output, and its byte count in the first 8 bytes of result. Question 12 asks for 8 bytes of
 * result, and 15 for as many bytes of output as the written file has: it may be longer than the one read, and RIGBASEN_WRITTEN_BYTES
 * always suffice.
 */
uint64_t rigbasen_parents(const uint8_t *file, size_t file_length,
                          uint8_t *output, size_t output_length,
                          uint8_t *result, size_t result_length);

/* The library's own version, as RIGBASEN_VERSION_NUMBER: another than the header's means that the two do not belong together. */
uint64_t rigbasen_version(void);

/* ---- What every caller needs, in C; nothing below is proved. */

/* Number i of a lent area. */
static inline uint64_t rigbasen_number_at(const uint8_t *area, size_t i)
{
    uint64_t number = 0;
    for (size_t j = RIGBASEN_NUMBER_BYTES; j > 0; j--) {
        number = number * 256 + area[i * RIGBASEN_NUMBER_BYTES + j - 1];
    }
    return number;
}

/* What a number means, in words for a ward; a null pointer for a number that this header does not know. */
static inline const char *rigbasen_text(uint64_t number)
{
    switch (number) {
    case RIGBASEN_FINE:
        return "fine";
    case RIGBASEN_TOO_LONG:
        return "the file is longer than 65,535 bytes";
    case RIGBASEN_LAYOUT:
        return "the file is not laid out as a region file; it may be cut short, or of the old form without fixed beds";
    case RIGBASEN_COUNTS:
        return "the patient lines or table lines are not as many as the first line says";
    case RIGBASEN_SUM:
        return "the sum in the end line is wrong; the file was damaged";
    case RIGBASEN_LIMITS:
        return "the number of patients, of tables or of plans wanted is out of range";
    case RIGBASEN_PATIENTS:
        return "a patient's clinic, bed count, parent or fixed bed is out of range";
    case RIGBASEN_MEMBERS:
        return "a table's members are too many, unknown or not in rising order";
    case RIGBASEN_ENTRY_COUNTS:
        return "a table has too few or too many entries, or all tables together have more than 4,096";
    case RIGBASEN_ENTRIES:
        return "an entry is above 1,000,000";
    case RIGBASEN_ANCESTORS:
        return "a table joins two patients of whom neither is an ancestor of the other";
    case RIGBASEN_NO_SUCH_CLINIC:
        return "the clinic has no patient in the file";
    case RIGBASEN_SHORT_AREA:
        return "a lent area is too short";
    case RIGBASEN_NO_PLAN:
        return "there is no allowed plan";
    case RIGBASEN_PLAN_MISFIT:
        return "the plan has not one bed for each patient, each below its patient's count";
    case RIGBASEN_SHORT_OUTPUT:
        return "the area for the file is too short";
    case RIGBASEN_COMMON_CLINIC:
        return "the two files have a clinic in common; in one of them it must get another number first";
    case RIGBASEN_JOINED_SIZE:
        return "together the two files have more than 32 patients, 64 tables or 4,096 entries";
    case RIGBASEN_TYPED_MEMBERS:
        return "what was typed is no member list; one is typed as it stands in the file, such as (0 1)";
    }
    return NULL;
}

/*
 * What is proved, for every file, clinic number, plan, typed text, lent region and areas of any length:
 * the call comes back, its number is the first "no", and every byte of every lent area afterwards is the one described here.
 * On a refusal beds, costs, output and read's three areas are untouched, and a result area that is long enough gets zeros, but for which
 * file join refuses; a shorter one is untouched.
 * Bytes beyond the rows, the written file, what is read and the result's numbers are untouched. No call depends on an earlier one.
 *
 * What the caller sees to:
 * - Each pointer points to as many bytes as its length says, readable, and writable where it is not const.
 *   None is null; for a length of 0 any other pointer will do.
 * - The areas that a call writes overlap none of its other areas, and nobody else writes to any of them meanwhile.
 *   (The library has no variables of its own, so threads may call at once, each with its own areas.)
 * - RIGBASEN_STACK_BYTES of stack are free: the work area is there. By measure, check and line take about 34,000 bytes, read 37,000,
 *   price 40,000, parents 62,000, write 63,000, join 95,000, list up to 119,000 and sheet up to 123,000, the most where
 *   32 patients are one tree. No question asks for it: on a smaller stack the program is ended by a segmentation fault at the stack's
 *   guard page, and where there is none, as under some fibers, memory beside the stack is overwritten. So give a thread that calls at
 *   least so much, by pthread_attr_setstacksize; the usual stack of a program or a thread has megabytes.
 * - Time. A call always ends, but where one tree holds many patients under many tables, list and sheet can take very long.
 *   Parents that join patients whom no table joins make such a tree for nothing: list can then take minutes and far longer, and with
 *   the parents of rigbasen_parents milliseconds. Call it first, and give list its output.
 */

#ifdef __cplusplus
}
#endif

#endif
