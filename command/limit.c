/* List and sheet, as they are or in a child process that is ended when its time is over. */
#include "command.h"

#include <errno.h>
#include <poll.h>
#include <signal.h>
#include <string.h>
#include <sys/wait.h>
#include <time.h>
#include <unistd.h>

void ask_rows(const struct file *file, uint64_t clinic, struct rows *rows)
{
    if (clinic == RIGBASEN_NONE) {
        rows->number = rigbasen_list(file->bytes, file->length, rows->beds, sizeof rows->beds,
                                     rows->costs, sizeof rows->costs, rows->result, sizeof rows->result);
    } else {
        rows->number = rigbasen_sheet(file->bytes, file->length, clinic, rows->beds, sizeof rows->beds,
                                      rows->costs, sizeof rows->costs, rows->result, sizeof rows->result);
    }
}

uint64_t milliseconds_now(void)
{
    struct timespec now;
    clock_gettime(CLOCK_MONOTONIC, &now);
    return (uint64_t)now.tv_sec * 1000 + (uint64_t)now.tv_nsec / 1000000;
}

/* The child: its answer goes into the pipe. It ends itself, should nobody be there any more to end it. */
static void answer(const struct file *file, uint64_t clinic, uint64_t milliseconds, struct rows *rows, int into)
{
    sigset_t alarm_alone;
    sigemptyset(&alarm_alone);
    sigaddset(&alarm_alone, SIGALRM);
    signal(SIGALRM, SIG_DFL);
    sigprocmask(SIG_UNBLOCK, &alarm_alone, NULL);
    alarm((unsigned)(milliseconds / 1000 + 2));
    ask_rows(file, clinic, rows);
    size_t done = 0;
    while (done < sizeof *rows) {
        ssize_t wrote = write(into, (const uint8_t *)rows + done, sizeof *rows - done);
        if (wrote < 0 && errno != EINTR) {
            _exit(STATUS_TROUBLE);
        }
        done += wrote > 0 ? (size_t)wrote : 0;
    }
    _exit(STATUS_FINE);
}

/* Reads the child's answer until the deadline. */
static int wait_for_answer(int from, uint64_t deadline, struct rows *rows)
{
    size_t done = 0;
    while (done < sizeof *rows) {
        struct pollfd ready = {.fd = from, .events = POLLIN};
        uint64_t now = milliseconds_now();
        int found = poll(&ready, 1, now < deadline ? (int)(deadline - now) : 0);
        if (found == 0) {
            return STATUS_LATE;
        }
        ssize_t got = found < 0 ? -1 : read(from, (uint8_t *)rows + done, sizeof *rows - done);
        if (got == 0 || (got < 0 && errno != EINTR)) {
            complain("the call ended without an answer");
            return STATUS_TROUBLE;
        }
        done += got > 0 ? (size_t)got : 0;
    }
    return STATUS_FINE;
}

int ask_rows_within(const struct file *file, uint64_t clinic, uint64_t milliseconds, struct rows *rows)
{
    int ends[2];
    uint64_t deadline = milliseconds_now() + milliseconds;
    if (pipe(ends) != 0) {
        complain("no pipe: %s", strerror(errno));
        return STATUS_TROUBLE;
    }
    pid_t child = fork();
    if (child == 0) {
        close(ends[0]);
        answer(file, clinic, milliseconds, rows, ends[1]);
    }
    close(ends[1]);
    if (child == -1) {
        complain("no child process: %s", strerror(errno));
        close(ends[0]);
        return STATUS_TROUBLE;
    }
    int status = wait_for_answer(ends[0], deadline, rows);
    close(ends[0]);
    kill(child, SIGKILL);
    while (waitpid(child, NULL, 0) == -1 && errno == EINTR) {
    }
    return status;
}
