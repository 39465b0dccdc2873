/* What `.ci/orders` and `.ci/load` put before calls of the system. Files of the folder SHIMS say how: `step`, by how many seconds the
 * system's time is wrong; `broken`, which call of fsync from then on fails, once; `slow`, how many seconds each such call takes longer, and
 * `slower`, how many milliseconds; `syncs`, where it is there, gets an octet more by each such call. The time since the host started stays
 * as it is. */
#define _GNU_SOURCE
#include <errno.h>
#include <fcntl.h>
#include <stdatomic.h>
#include <stdio.h>
#include <stdlib.h>
#include <sys/syscall.h>
#include <sys/time.h>
#include <time.h>
#include <unistd.h>

static atomic_long syncs;

/* The number in this file, 0 where there is none. */
static long number_in(const char *name) {
    const char *folder = getenv("SHIMS");
    char path[4096], text[32];
    int before = errno;
    long number = 0;
    snprintf(path, sizeof path, "%s/%s", folder ? folder : "/nowhere", name);
    int file = open(path, O_RDONLY | O_CLOEXEC);
    if (file >= 0) {
        ssize_t length = read(file, text, sizeof text - 1);
        text[length > 0 ? length : 0] = 0;
        number = atol(text);
        close(file);
    }
    errno = before;
    return number;
}

int clock_gettime(clockid_t clock, struct timespec *time) {
    if (syscall(SYS_clock_gettime, clock, time))
        return -1;
    if (clock == CLOCK_REALTIME || clock == CLOCK_REALTIME_COARSE || clock == CLOCK_TAI)
        time->tv_sec += number_in("step");
    return 0;
}

int gettimeofday(struct timeval *restrict time, void *restrict zone) {
    struct timespec now;
    (void)zone;
    if (clock_gettime(CLOCK_REALTIME, &now))
        return -1;
    time->tv_sec = now.tv_sec;
    time->tv_usec = now.tv_nsec / 1000;
    return 0;
}

time_t time(time_t *place) {
    struct timespec now;
    if (clock_gettime(CLOCK_REALTIME, &now))
        return -1;
    if (place)
        *place = now.tv_sec;
    return now.tv_sec;
}

/* An octet more in the file of counted calls. */
static void count_sync(void) {
    const char *folder = getenv("SHIMS");
    char path[4096];
    int before = errno;
    snprintf(path, sizeof path, "%s/syncs", folder ? folder : "/nowhere");
    int file = open(path, O_WRONLY | O_APPEND | O_CLOEXEC);
    if (file >= 0) {
        while (write(file, ".", 1) < 0 && errno == EINTR)
            ;
        close(file);
    }
    errno = before;
}

static int synced(long call, int file) {
    long slower = number_in("slower");
    struct timespec longer = {number_in("slow") + slower / 1000, slower % 1000 * 1000000};
    long broken = number_in("broken");
    count_sync();
    if (longer.tv_sec || longer.tv_nsec)
        nanosleep(&longer, NULL);
    if (broken && atomic_fetch_add(&syncs, 1) + 1 == broken) {
        errno = EIO;
        return -1;
    }
    return syscall(call, file);
}

int fsync(int file) { return synced(SYS_fsync, file); }

int fdatasync(int file) { return synced(SYS_fdatasync, file); }
