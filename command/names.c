/* The names of clinics: a text file with lines CLINIC NAME. */
#include "command.h"

#include <string.h>

/* Takes one line, without its end; 0 where it is no clinic and a name. */
static int take_name(const uint8_t *line, size_t length, struct names *names)
{
    size_t digits = 0;
    uint64_t clinic = 0;
    while (digits < length && digits < 3 && line[digits] >= '0' && line[digits] <= '9') {
        clinic = clinic * 10 + (uint64_t)(line[digits] - '0');
        digits++;
    }
    size_t start = digits;
    while (start < length && (line[start] == ' ' || line[start] == '\t')) {
        start++;
    }
    while (length > start && (line[length - 1] == ' ' || line[length - 1] == '\t')) {
        length--;
    }
    if (digits == 0 || start == digits || start == length || clinic >= RIGBASEN_MOST_CLINICS || names->name[clinic] != NULL) {
        return 0;
    }
    names->name[clinic] = line + start;
    names->length[clinic] = length - start;
    return 1;
}

static int wrong_names(const struct file *file, size_t line)
{
    fprintf(stderr, "rigbasen: ");
    put_name(stderr, file);
    if (line == 0) {
        fprintf(stderr, ": a file of names has at most 65,535 bytes\n");
    } else {
        fprintf(stderr, ": line %zu is not a clinic of 0 to 15 that has no name yet, a space and its name\n", line);
    }
    return STATUS_TROUBLE;
}

/* Reads the names. Blank lines and line ends of Windows do no harm here. */
int read_names(const char *name, struct names *names)
{
    static struct file file;
    memset(names, 0, sizeof *names);
    int status = read_file(name, &file);
    if (status != STATUS_FINE) {
        return status;
    }
    if (file.length > RIGBASEN_MOST_FILE_BYTES) {
        return wrong_names(&file, 0);
    }
    size_t number = 1;
    for (size_t at = 0; at < file.length; number++) {
        const uint8_t *line = file.bytes + at;
        const uint8_t *end = memchr(line, '\n', file.length - at);
        size_t length = end == NULL ? file.length - at : (size_t)(end - line);
        at += length + 1;
        length -= length > 0 && line[length - 1] == '\r';
        if (length > 0 && !take_name(line, length, names)) {
            return wrong_names(&file, number);
        }
    }
    return STATUS_FINE;
}
