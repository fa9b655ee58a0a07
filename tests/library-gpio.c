/* A GPIO character device and a clock of its own for examples/c/gpio.c, linked with -Wl,--wrap: each fall and rise of the edge
   file that the first word names is an event, which comes some time after its instant. */
#define _POSIX_C_SOURCE 200809L
#include <inttypes.h>
#include <linux/gpio.h>
#include <poll.h>
#include <stdio.h>
#include <string.h>
#include <time.h>

/* An hour after the start of the system, in microseconds, and how long an event is on its way at most. */
enum { MOST_DELAY = 4000 };
static uint64_t clock_now = 3600000000u;
static FILE *file;
static struct gpio_v2_line_event event;
static uint64_t comes_at;

/* Takes the next event, where there is one. */
static int take(void) {
    static uint64_t start = 3600000000u, random_state = 1;
    uint64_t t;
    char line[64], level[4];
    while (event.id == 0 && fgets(line, sizeof line, file)) {
        if (sscanf(line, "%" SCNu64 " %3s", &t, level) != 2 || strcmp(level, "end") == 0) continue;
        random_state = random_state * 6364136223846793005u + 1442695040888963407u;
        event.timestamp_ns = (start + t) * 1000 + random_state % 1000;
        event.seqno++;
        event.id = level[0] == '0' ? GPIO_V2_LINE_EVENT_FALLING_EDGE : GPIO_V2_LINE_EVENT_RISING_EDGE;
        comes_at = start + t + (random_state >> 33) % MOST_DELAY;
    }
    return event.id != 0;
}

int __wrap_open(const char *name, int flags, ...) {
    (void)flags;
    file = fopen(name, "r");
    return file ? 5 : -1;
}

int __wrap_ioctl(int device, unsigned long number, struct gpio_v2_line_request *request) {
    request->fd = 6;
    return device == 5 && number == GPIO_V2_GET_LINE_IOCTL && request->num_lines == 1 && request->offsets[0] == 17 ? 0 : -1;
}

int __wrap_clock_gettime(clockid_t which, struct timespec *time) {
    time->tv_sec = (time_t)(clock_now / 1000000), time->tv_nsec = (long)(clock_now % 1000000) * 1000;
    return which == CLOCK_MONOTONIC ? 0 : -1;
}

/* An event that comes within the time-out, or the time-out; the end of the file where neither comes. */
int __wrap_poll(struct pollfd *lines, nfds_t count, int timeout) {
    (void)lines, (void)count;
    uint64_t until = clock_now + (uint64_t)timeout * 1000;
    if (take() && (timeout < 0 || comes_at <= until)) {
        clock_now = comes_at > clock_now ? comes_at : clock_now;
        return 1;
    }
    if (timeout < 0) return 1;
    clock_now = until;
    return 0;
}

ssize_t __wrap_read(int line, void *to, size_t count) {
    if (line != 6 || count != sizeof event || event.id == 0) return 0;
    memcpy(to, &event, count);
    event.id = 0;
    return (ssize_t)count;
}
