/* Files in and out. */
#include "command.h"

#include <errno.h>
#include <fcntl.h>
#include <limits.h>
#include <stdlib.h>
#include <string.h>
#include <sys/stat.h>
#include <unistd.h>

/* Says what could not be done with a file. */
static int trouble(const char *name, int error)
{
    const char *shown = name == NULL ? "standard input" : name;
    fflush(stdout); /* what was said of files before comes first */
    fprintf(stderr, "rigbasen: ");
    put_text(stderr, (const uint8_t *)shown, strlen(shown));
    fprintf(stderr, ": %s\n", error == 0 ? "it could not be written" : strerror(error));
    return STATUS_TROUBLE;
}

/* Reads a file, or standard input for a hyphen: all of it, or one byte more than a region file may have. */
int read_file(const char *name, struct file *file)
{
    struct stat about;
    int from_input = strcmp(name, "-") == 0;
    int descriptor = from_input ? STDIN_FILENO : open(name, O_RDONLY);
    file->name = from_input ? NULL : name;
    file->whole = 0;
    file->length = 0;
    if (descriptor == -1) {
        return trouble(file->name, errno);
    }
    ssize_t got = 1;
    while (got != 0 && file->length < sizeof file->bytes) {
        got = read(descriptor, file->bytes + file->length, sizeof file->bytes - file->length);
        if (got < 0 && errno != EINTR) {
            int status = trouble(file->name, errno);
            close(descriptor);
            return status;
        }
        file->length += got > 0 ? (size_t)got : 0;
    }
    if (!from_input && fstat(descriptor, &about) == 0 && S_ISREG(about.st_mode)) {
        file->whole = (uint64_t)about.st_size;
    }
    if (!from_input) {
        close(descriptor);
    }
    return STATUS_FINE;
}

/* Writes all bytes; 0, or the error's number. */
static int write_all(int descriptor, const struct file *file)
{
    size_t done = 0;
    while (done < file->length) {
        ssize_t wrote = write(descriptor, file->bytes + done, file->length - done);
        if (wrote < 0 && errno != EINTR) {
            return errno;
        }
        done += wrote > 0 ? (size_t)wrote : 0;
    }
    return 0;
}

/* A device or a pipe is written to as it stands. */
static int save_there(const char *output, const struct file *file)
{
    int descriptor = open(output, O_WRONLY);
    if (descriptor == -1) {
        return trouble(output, errno);
    }
    int error = write_all(descriptor, file);
    if (close(descriptor) != 0 && error == 0) {
        error = errno;
    }
    return error == 0 ? STATUS_FINE : trouble(output, error);
}

/* The permissions that the new file gets: those of the old one, or what a new file has here. */
static mode_t mode_of(const struct stat *old)
{
    if (old != NULL) {
        return old->st_mode & 0777;
    }
    mode_t mask = umask(0);
    umask(mask);
    return 0666 & ~mask;
}

/* Writes a temporary file beside the one that is wanted, and renames it when it is whole. */
static int save_beside(const char *output, const char *target, const struct file *file, const struct stat *old)
{
    static char beside[PATH_MAX + 8];
    int length = snprintf(beside, sizeof beside, "%s.XXXXXX", target);
    if (length < 0 || (size_t)length >= sizeof beside) {
        return trouble(output, ENAMETOOLONG);
    }
    int descriptor = mkstemp(beside);
    if (descriptor == -1) {
        return trouble(output, errno);
    }
    int error = write_all(descriptor, file);
    if (error == 0 && (fchmod(descriptor, mode_of(old)) != 0 || fsync(descriptor) != 0)) {
        error = errno;
    }
    if (close(descriptor) != 0 && error == 0) {
        error = errno;
    }
    if (error == 0 && rename(beside, target) != 0) {
        error = errno;
    }
    if (error != 0) {
        unlink(beside);
        return trouble(output, error);
    }
    return STATUS_FINE;
}

/* Puts a file where it is wanted: standard output, or a file, which then is either the new one or as it was. */
int save_file(const char *output, const struct file *file)
{
    static char target[PATH_MAX];
    struct stat about;
    if (output == NULL || strcmp(output, "-") == 0) {
        fwrite(file->bytes, 1, file->length, stdout);
        return STATUS_FINE;
    }
    if (stat(output, &about) != 0) {
        return errno == ENOENT ? save_beside(output, output, file, NULL) : trouble(output, errno);
    }
    if (S_ISDIR(about.st_mode)) {
        return trouble(output, EISDIR);
    }
    if (!S_ISREG(about.st_mode)) {
        return save_there(output, file);
    }
    /* A link stays one: the file that it leads to is the one that is replaced. */
    return realpath(output, target) == NULL ? trouble(output, errno) : save_beside(output, target, file, &about);
}

/* The last thing: what was printed must have been written. */
int end_output(int status)
{
    errno = 0;
    if (fflush(stdout) != 0 || ferror(stdout)) {
        int error = errno;
        fprintf(stderr, "rigbasen: standard output: %s\n", error == 0 ? "it could not be written" : strerror(error));
        return STATUS_TROUBLE;
    }
    return status;
}
