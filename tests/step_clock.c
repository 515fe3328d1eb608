// Lets the real clock of a program step, as if it was set: the file that STEPPED_CLOCK names has the seconds that are added to it. With
// SHORT_WAITS a wait in ppoll that ends without an event takes a hundredth of its time, and the clock since boot has all of it.
#define _GNU_SOURCE
#include <fcntl.h>
#include <poll.h>
#include <signal.h>
#include <stdlib.h>
#include <sys/syscall.h>
#include <time.h>
#include <unistd.h>

static time_t skipped;

static long stepped(void) {
    char text[32] = {0};
    const char *path = getenv("STEPPED_CLOCK");
    int file = path ? open(path, O_RDONLY) : -1;
    if (file < 0) return 0;
    if (read(file, text, sizeof text - 1) < 0) text[0] = 0;
    close(file);
    return atol(text);
}

int clock_gettime(clockid_t clock, struct timespec *time) {
    int status = (int)syscall(SYS_clock_gettime, clock, time);
    if (status == 0 && clock == CLOCK_REALTIME) time->tv_sec += stepped();
    if (status == 0 && clock == CLOCK_BOOTTIME) time->tv_sec += skipped;
    return status;
}

int ppoll(struct pollfd *files, nfds_t many, const struct timespec *most, const sigset_t *mask) {
    struct timespec wait = *most;
    if (getenv("SHORT_WAITS")) wait = (struct timespec){.tv_sec = most->tv_sec / 100, .tv_nsec = most->tv_sec % 100 * 10000000};
    int status = (int)syscall(SYS_ppoll, files, many, &wait, mask, 8);
    // a second more, for the fractions
    if (status == 0 && getenv("SHORT_WAITS")) skipped += most->tv_sec + 1;
    return status;
}
