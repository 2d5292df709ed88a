/* Loaded before the C library, these functions stand in for its own and fail by a schedule that is
   drawn from the number in FAULTS_SEED: reads and writes are interrupted, not ready or short, and in
   some schedules one at the end fails for good. The file FAULTS_LOG gets a line for each read of
   standard input, `read HANDED TAKEN` with the bytes that were read and written before it, the place
   and the number of a final error, and `busy` where no pause followed a call that was not ready. */

#define _GNU_SOURCE
#include <errno.h>
#include <fcntl.h>
#include <stdint.h>
#include <stdio.h>
#include <stdlib.h>
#include <sys/syscall.h>
#include <time.h>
#include <unistd.h>

enum place { SHEET, INPUT, OUTPUT, PLACES };

static const char *const names[PLACES] = { "sheet", "input", "output" };
/* Calls before the final error at a place; if negative, none comes. */
static long left[PLACES] = { -1, -1, -1 };
static int final;
/* The most bytes of a short read or write. */
static size_t most;
static size_t handed, taken;
static int not_ready;
static int told;
static uint64_t state;

static size_t below(size_t bound)
{
    state ^= state >> 12;
    state ^= state << 25;
    state ^= state >> 27;
    return (size_t)((state * UINT64_C(0x2545F4914F6CDD1D)) >> 32) % bound;
}

__attribute__((constructor)) static void begin(void)
{
    static const size_t sizes[] = { 1, 4, 30, 5000 };
    const char *seed = getenv("FAULTS_SEED"), *log = getenv("FAULTS_LOG");
    size_t place, count;
    if (!seed || !log)
        abort();
    told = open(log, O_WRONLY | O_CREAT | O_TRUNC | O_CLOEXEC, 0644);
    state = strtoull(seed, NULL, 10) * UINT64_C(0x9E3779B97F4A7C15) | 1;
    for (count = 0; count < 8; count++)
        below(2);
    most = sizes[below(4)];
    place = below(PLACES + 1);
    if (place < PLACES)
        left[place] = (long)below(below(2) ? 4 : 40);
    do
        final = 1 + (int)below(EHWPOISON);
    while (final == EINTR || final == EAGAIN);
}

/* Whether a call at this place fails. */
static int fails(enum place place)
{
    if (not_ready)
        dprintf(told, "busy\n");
    not_ready = 0;
    if (left[place] >= 0 && left[place]-- == 0) {
        dprintf(told, "%s %d\n", names[place], final);
        errno = final;
        return 1;
    }
    switch (below(5)) {
    case 0:
        errno = EINTR;
        return 1;
    case 1:
        not_ready = 1;
        errno = EAGAIN;
        return 1;
    default:
        return 0;
    }
}

/* So many bytes or fewer. */
static size_t some(size_t count)
{
    if (count == 0)
        return 0;
    return 1 + below(count < most ? count : most);
}

ssize_t read(int file, void *bytes, size_t count)
{
    enum place place = file == STDIN_FILENO ? INPUT : SHEET;
    ssize_t got;
    if (place == INPUT)
        dprintf(told, "read %zu %zu\n", handed, taken);
    if (fails(place))
        return -1;
    got = syscall(SYS_read, file, bytes, some(count));
    if (place == INPUT && got > 0)
        handed += (size_t)got;
    return got;
}

ssize_t write(int file, const void *bytes, size_t count)
{
    ssize_t put;
    if (file != STDOUT_FILENO)
        return syscall(SYS_write, file, bytes, count);
    if (fails(OUTPUT))
        return -1;
    put = syscall(SYS_write, file, bytes, some(count));
    if (put > 0)
        taken += (size_t)put;
    return put;
}

/* A pause is over at once, and interrupted now and then. */
int nanosleep(const struct timespec *pause, struct timespec *rest)
{
    not_ready = 0;
    if (below(4) != 0)
        return 0;
    if (rest)
        *rest = *pause;
    errno = EINTR;
    return -1;
}
