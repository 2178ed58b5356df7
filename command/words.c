/* What people read: names and texts with every control byte escaped, and refusals. */
#include "command.h"

#include <stdarg.h>
#include <string.h>

void complain(const char *format, ...)
{
    va_list rest;
    va_start(rest, format);
    fprintf(stderr, "rigbasen: ");
    vfprintf(stderr, format, rest);
    fprintf(stderr, "\n");
    va_end(rest);
}

/* How many bytes the UTF-8 character here has that may be shown; 0 where there is none. The controls of U+0080 to U+009F are none. */
static size_t character_length(const uint8_t *text, size_t length)
{
    uint8_t first = text[0];
    if (first < 0x80) {
        return first >= 0x20 && first != 0x7F;
    }
    size_t count = first >= 0xC2 && first <= 0xDF ? 2 : first >= 0xE0 && first <= 0xEF ? 3 : first >= 0xF0 && first <= 0xF4 ? 4 : 0;
    if (count == 0 || count > length) {
        return 0;
    }
    for (size_t i = 1; i < count; i++) {
        if ((text[i] & 0xC0) != 0x80) {
            return 0;
        }
    }
    int control = first == 0xC2 && text[1] < 0xA0;
    int overlong = (first == 0xE0 && text[1] < 0xA0) || (first == 0xF0 && text[1] < 0x90);
    int no_character = (first == 0xED && text[1] >= 0xA0) || (first == 0xF4 && text[1] >= 0x90);
    return control || overlong || no_character ? 0 : count;
}

void put_text(FILE *stream, const uint8_t *text, size_t length)
{
    for (size_t at = 0; at < length;) {
        size_t count = character_length(text + at, length - at);
        if (count == 0) {
            fprintf(stream, "\\x%02x", text[at]);
            at++;
        } else {
            fwrite(text + at, 1, count, stream);
            at += count;
        }
    }
}

const char *name_of(const struct file *file)
{
    return file->name == NULL ? "standard input" : file->name;
}

void put_name(FILE *stream, const struct file *file)
{
    put_text(stream, (const uint8_t *)name_of(file), strlen(name_of(file)));
}

/* A file's name as it is typed in a shell. */
void put_argument(FILE *stream, const char *name)
{
    static const char plain[] = "abcdefghijklmnopqrstuvwxyzABCDEFGHIJKLMNOPQRSTUVWXYZ0123456789._/+-,:@%=";
    const char *before = name[0] == '-' ? "./" : "";
    if (name[strspn(name, plain)] == '\0' && name[0] != '\0') {
        fprintf(stream, "%s%s", before, name);
        return;
    }
    fprintf(stream, "'%s", before);
    for (; *name != '\0'; name += strcspn(name, "'") == 0 ? 1 : strcspn(name, "'")) {
        if (*name == '\'') {
            fprintf(stream, "'\\''");
        } else {
            put_text(stream, (const uint8_t *)name, strcspn(name, "'"));
        }
    }
    fprintf(stream, "'");
}

/* A string of json. Bytes that are no character stand as the replacement character. */
void put_json(const char *text, size_t length)
{
    const uint8_t *bytes = (const uint8_t *)text;
    putchar('"');
    for (size_t at = 0; at < length;) {
        size_t count = character_length(bytes + at, length - at);
        if (bytes[at] == '"' || bytes[at] == '\\') {
            printf("\\%c", bytes[at]);
            count = 1;
        } else if (count > 0) {
            fwrite(bytes + at, 1, count, stdout);
        } else if (bytes[at] < 0x80) {
            printf("\\u%04x", bytes[at]);
            count = 1;
        } else {
            printf("\\ufffd");
            count = 1;
        }
        at += count;
    }
    putchar('"');
}

const char *text_of(uint64_t number)
{
    const char *text = rigbasen_text(number);
    return text == NULL ? "a question that this command has no text for" : text;
}

/* Does why say more of this number? */
static int why_knows(uint64_t number)
{
    return (number >= RIGBASEN_TOO_LONG && number <= RIGBASEN_ANCESTORS) || number == RIGBASEN_NO_PLAN;
}

/* One line without its end mark: FILE: refused with 4: TEXT. Which file of two, and what more there is to say, may be null. */
void put_refusal(FILE *stream, const struct file *file, const char *which, uint64_t number, const char *more)
{
    put_name(stream, file);
    fprintf(stream, "%s: refused with %llu: %s%s", which == NULL ? "" : which, (unsigned long long)number, text_of(number),
            more == NULL ? "" : more);
    if (why_knows(number) && file->name != NULL) {
        fprintf(stream, " (rigbasen why ");
        put_argument(stream, file->name);
        fprintf(stream, " says more)");
    }
    fprintf(stream, "\n");
}

/* A refusal of every command but check and why. */
int refuse(const struct request *request, const struct file *file, uint64_t number, const char *more)
{
    fprintf(stderr, "rigbasen: ");
    put_refusal(stderr, file, NULL, number, more);
    if ((request->given & OPTION_JSON) != 0) {
        printf("{\"file\": ");
        put_json(name_of(file), strlen(name_of(file)));
        printf(", \"refused\": %llu, \"text\": ", (unsigned long long)number);
        put_json(text_of(number), strlen(text_of(number)));
        printf("}\n");
    }
    return STATUS_REFUSED;
}
