/* list and sheet: the question, and what is shown of the answer. */
#include "command.h"

#include <string.h>

static struct names names;

/* Asks, within the limit where there is one. */
static int ask(const struct request *request, const struct file *file, uint64_t clinic, struct rows *rows)
{
    if ((request->given & OPTION_LIMIT) == 0) {
        ask_rows(file, clinic, rows);
        return STATUS_FINE;
    }
    int status = ask_rows_within(file, clinic, (uint64_t)request->limit * 1000, rows);
    if (status == STATUS_LATE) {
        fprintf(stderr, "rigbasen: ");
        put_name(stderr, file);
        fprintf(stderr, ": no %s within %u s", clinic == RIGBASEN_NONE ? "list" : "sheet", request->limit);
        if (file->name != NULL) {
            fprintf(stderr, " (rigbasen why ");
            put_argument(stderr, file->name);
            fprintf(stderr, " says how large its trees are)");
        }
        fprintf(stderr, "\n");
    }
    return status;
}

/* For question 11: which clinics there are. */
static const char *clinics_of(const struct file *file)
{
    static struct region region;
    static char text[128];
    unsigned present = 0;
    size_t length = 0;
    if (read_region(file, &region) != RIGBASEN_FINE) {
        return NULL;
    }
    for (size_t i = 0; i < region.patient_count; i++) {
        present |= 1u << region.patients[i].clinic;
    }
    for (unsigned clinic = 0; clinic < RIGBASEN_MOST_CLINICS; clinic++) {
        if ((present >> clinic & 1u) != 0) {
            const char *before = length == 0 ? " (clinics with patients: " : ", ";
            length += (size_t)snprintf(text + length, sizeof text - length, "%s%u", before, clinic);
        }
    }
    snprintf(text + length, sizeof text - length, ")");
    return text;
}

/* V, the clinics and the width of a row come from what the call reads. */
static int show_answer(const struct request *request, const struct file *file, uint64_t clinic, const struct rows *rows)
{
    static struct region region;
    static struct shown shown;
    uint64_t number = read_region(file, &region);
    if (number != RIGBASEN_FINE) {
        return refuse(request, file, number, NULL);
    }
    shown = (struct shown){.request = request, .file = file, .region = &region, .rows = rows, .clinic = clinic};
    shown.names = request->names == NULL ? NULL : &names;
    for (size_t i = 0; i < region.patient_count; i++) {
        if (clinic == RIGBASEN_NONE || region.patients[i].clinic == clinic) {
            shown.patients[shown.width++] = i;
        }
    }
    show_rows(&shown);
    return STATUS_FINE;
}

/* The region file, and the names where they are given. */
static int read_both(const struct request *request, const char *name, struct file *file)
{
    if (request->names == NULL) {
        return read_file(name, file);
    }
    if (strcmp(request->names, "-") == 0 && strcmp(name, "-") == 0) {
        return misused(request->command, "standard input cannot be both the file and the names", NULL);
    }
    int status = read_names(request->names, &names);
    return status == STATUS_FINE ? read_file(name, file) : status;
}

static int answer(const struct request *request, const char *name, uint64_t clinic)
{
    static struct file given;
    static struct file changed;
    static struct rows rows;
    const struct file *file = &given;
    int status = read_both(request, name, &given);
    if (status != STATUS_FINE) {
        return status;
    }
    if ((request->given & OPTION_M) != 0) {
        uint64_t number = set_m(&given, request->m, &changed);
        if (number != RIGBASEN_FINE) {
            return refuse(request, &given, number, NULL);
        }
        file = &changed;
    }
    status = ask(request, file, clinic, &rows);
    if (status != STATUS_FINE) {
        return status;
    }
    if (rows.number != RIGBASEN_FINE) {
        return refuse(request, &given, rows.number, rows.number == RIGBASEN_NO_SUCH_CLINIC ? clinics_of(file) : NULL);
    }
    return show_answer(request, file, clinic, &rows);
}

int carry_out_list(const struct request *request)
{
    return answer(request, last_argument(request, 0), RIGBASEN_NONE);
}

/* A clinic above the largest has no patient; the call says so of the number behind the largest too. */
int carry_out_sheet(const struct request *request)
{
    const char *clinic = request->arguments[0];
    if (!all_digits(clinic)) {
        return misused(request->command, "not a clinic's number:", clinic);
    }
    return answer(request, last_argument(request, 1), number_of_digits(clinic, RIGBASEN_MOST_CLINICS));
}
