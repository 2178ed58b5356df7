/* Rows as a table for people, as csv and as json. */
#include "command.h"

#include <string.h>

static unsigned long long cost_of(const struct shown *shown, size_t row)
{
    return (unsigned long long)rigbasen_number_at(shown->rows->costs, row);
}

static unsigned bed_of(const struct shown *shown, size_t row, size_t place)
{
    return shown->rows->beds[row * shown->width + place];
}

static size_t row_count(const struct shown *shown)
{
    return (size_t)rigbasen_number_at(shown->rows->result, 0);
}

static const struct rigbasen_patient *patient_at(const struct shown *shown, size_t place)
{
    return &shown->region->patients[shown->patients[place]];
}

/* The rows of the list are plans; a sheet numbers its own. */
static const char *row_name(const struct shown *shown)
{
    return shown->clinic == RIGBASEN_NONE ? "plan" : "row";
}

/* A column is as wide as the longest of its numbers: the patient's, the clinic's, the highest bed's. */
static int column_width(const struct shown *shown, size_t place)
{
    const struct rigbasen_patient *patient = patient_at(shown, place);
    return shown->patients[place] > 9 || patient->clinic > 9 || patient->beds > 10 ? 2 : 1;
}

static void put_clinic(const struct shown *shown, uint64_t clinic)
{
    if (shown->names != NULL && shown->names->name[clinic] != NULL) {
        put_text(stdout, shown->names->name[clinic], shown->names->length[clinic]);
    } else {
        printf("clinic %llu", (unsigned long long)clinic);
    }
}

/* The first line. Where there are fewer plans than were wanted it says that these are all. */
static void show_title(const struct shown *shown)
{
    size_t rows = row_count(shown);
    put_name(stdout, shown->file);
    printf(": ");
    if (shown->clinic != RIGBASEN_NONE) {
        put_clinic(shown, shown->clinic);
        printf(rows == 1 ? ", 1 row of its own\n\n" : ", %zu rows of its own, cheapest plan first\n\n", rows);
    } else if (rows < shown->region->m) {
        printf(rows == 1 ? "the only allowed plan\n\n" : "all %zu allowed plans, cheapest first\n\n", rows);
    } else {
        printf(rows == 1 ? "1 plan, the cheapest\n\n" : "%zu plans, cheapest first\n\n", rows);
    }
}

/* The lines of patients and, for the list, of their clinics. */
static void show_heads(const struct shown *shown, int cost_width)
{
    printf("%s  %*s  patient", row_name(shown), cost_width, "cost");
    for (size_t i = 0; i < shown->width; i++) {
        printf("  %*zu", column_width(shown, i), shown->patients[i]);
    }
    printf("\n");
    if (shown->clinic != RIGBASEN_NONE) {
        return;
    }
    printf("      %*s  clinic ", cost_width, "");
    for (size_t i = 0; i < shown->width; i++) {
        printf("  %*llu", column_width(shown, i), (unsigned long long)patient_at(shown, i)->clinic);
    }
    printf("\n");
}

/* With names: a line for each clinic that has a patient here. */
static void show_legend(const struct shown *shown)
{
    printf("\n");
    for (uint64_t clinic = 0; clinic < RIGBASEN_MOST_CLINICS; clinic++) {
        size_t i = 0;
        while (i < shown->width && patient_at(shown, i)->clinic != clinic) {
            i++;
        }
        if (i == shown->width) {
            continue;
        }
        printf("clinic %llu: ", (unsigned long long)clinic);
        if (shown->names->name[clinic] == NULL) {
            printf("(no name)");
        } else {
            put_text(stdout, shown->names->name[clinic], shown->names->length[clinic]);
        }
        printf("\n");
    }
}

static void show_table(const struct shown *shown)
{
    int cost_width = 4;
    for (size_t row = 0; row < row_count(shown); row++) {
        int width = snprintf(NULL, 0, "%llu", cost_of(shown, row));
        cost_width = width > cost_width ? width : cost_width;
    }
    show_title(shown);
    show_heads(shown, cost_width);
    for (size_t row = 0; row < row_count(shown); row++) {
        printf("%*zu  %*llu         ", (int)strlen(row_name(shown)), row + 1, cost_width, cost_of(shown, row));
        for (size_t i = 0; i < shown->width; i++) {
            printf("  %*u", column_width(shown, i), bed_of(shown, row, i));
        }
        printf("\n");
    }
    if (shown->names != NULL) {
        show_legend(shown);
    }
}

static void show_csv(const struct shown *shown)
{
    printf("%s,cost", row_name(shown));
    for (size_t i = 0; i < shown->width; i++) {
        printf(",patient %zu", shown->patients[i]);
    }
    printf("\n");
    for (size_t row = 0; row < row_count(shown); row++) {
        printf("%zu,%llu", row + 1, cost_of(shown, row));
        for (size_t i = 0; i < shown->width; i++) {
            printf(",%u", bed_of(shown, row, i));
        }
        printf("\n");
    }
}

/* What stands before the rows. */
static void show_json_heads(const struct shown *shown)
{
    printf("{\"file\": ");
    put_json(name_of(shown->file), strlen(name_of(shown->file)));
    if (shown->clinic != RIGBASEN_NONE) {
        printf(", \"clinic\": %llu", (unsigned long long)shown->clinic);
    }
    printf(", \"patients\": [");
    for (size_t i = 0; i < shown->width; i++) {
        uint64_t clinic = patient_at(shown, i)->clinic;
        printf("%s{\"patient\": %zu, \"clinic\": %llu", i == 0 ? "" : ", ", shown->patients[i], (unsigned long long)clinic);
        if (shown->names != NULL && shown->names->name[clinic] != NULL) {
            printf(", \"clinic_name\": ");
            put_json((const char *)shown->names->name[clinic], shown->names->length[clinic]);
        }
        printf("}");
    }
    printf("], \"%ss\": [\n", row_name(shown));
}

/* A line a row. */
static void show_json(const struct shown *shown)
{
    show_json_heads(shown);
    for (size_t row = 0; row < row_count(shown); row++) {
        printf("  {\"cost\": %llu, \"beds\": [", cost_of(shown, row));
        for (size_t i = 0; i < shown->width; i++) {
            printf(i == 0 ? "%u" : ", %u", bed_of(shown, row, i));
        }
        printf(row + 1 < row_count(shown) ? "]},\n" : "]}\n");
    }
    printf("]}\n");
}

void show_rows(const struct shown *shown)
{
    if ((shown->request->given & OPTION_JSON) != 0) {
        show_json(shown);
    } else if ((shown->request->given & OPTION_CSV) != 0) {
        show_csv(shown);
    } else {
        show_table(shown);
    }
}
