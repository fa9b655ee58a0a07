/* A receiver of the CEC line on Linux: `gpio /dev/gpiochip0 17` takes each edge of that line from an event of the GPIO character
   device, and prints what was read, as `hdminet mon` does, at instants of the system's clock. The pin has to bear the line's
   level, 3.3 volts. */
#define _POSIX_C_SOURCE 200809L
#include "hdminet_wire.h"

#include <fcntl.h>
#include <inttypes.h>
#include <linux/gpio.h>
#include <poll.h>
#include <stdio.h>
#include <stdlib.h>
#include <sys/ioctl.h>
#include <time.h>
#include <unistd.h>

/* How many microseconds after its instant a wake is called: an edge before it is there by then. */
enum { LATE = 5000 };

static hdminet_receiver receiver;
/* The instant of the clock that the receiver counts as 0, in microseconds. */
static uint64_t origin;

static uint64_t now(void) {
    struct timespec time;
    clock_gettime(CLOCK_MONOTONIC, &time);
    return (uint64_t)time.tv_sec * 1000000 + (uint64_t)time.tv_nsec / 1000 - origin;
}

static void print(const hdminet_reading *reading) {
    static const char *endings[] = {"", "complete", "short", "silent", "bad-start", "long", "open"};
    uint8_t frame[16], text[96];
    printf("%" PRIu64 " %" PRIu64 " %s", origin + reading->begin, origin + reading->at, endings[reading->ending]);
    hdminet_answer bytes = hdminet_reading_frame(reading, frame, sizeof frame);
    if (bytes.code == HDMINET_DONE) {
        hdminet_answer spelled = hdminet_frame_text(frame, bytes.length, text, sizeof text);
        bool to_all = frame[0] % 16 == 15, last = reading->bits[reading->count - 1];
        printf(" %.*s %s", (int)spelled.length, (char *)text, to_all ? (last ? "ok" : "refused") : (last ? "nack" : "ack"));
    }
    puts("");
}

/* An edge, or a wake with the level as it was. */
static void hear(uint64_t t, bool is_low) {
    hdminet_reading reading = {0};
    hdminet_heard heard = hdminet_receiver_hear(&receiver, t, is_low, &reading);
    if (heard.code == HDMINET_DONE && heard.kind >= 2) print(&reading);
}

/* The timer of an edge at t: the wakes that are due before it. */
static void wake(uint64_t t) {
    hdminet_instant next;
    while ((next = hdminet_receiver_wakes_at(&receiver)).code == HDMINET_DONE && next.at < t) hear(next.at, receiver.is_low);
}

static void edge(uint64_t clock, bool is_low) {
    static uint64_t last;
    /* Of two edges in one microsecond the second counts a microsecond later. */
    last = clock > last ? clock : last + 1;
    wake(last - origin);
    /* While the line rests a receiver may begin anew, so that its instants stay small. */
    if (receiver.place == 0 && !receiver.is_low) receiver = hdminet_receiver_new(), origin = last;
    hear(last - origin, is_low);
}

static int line_of(const char *chip, unsigned line) {
    struct gpio_v2_line_request request = {.offsets = {line}, .num_lines = 1, .consumer = "hdminet"};
    request.config.flags = GPIO_V2_LINE_FLAG_INPUT | GPIO_V2_LINE_FLAG_EDGE_RISING | GPIO_V2_LINE_FLAG_EDGE_FALLING;
    int device = open(chip, O_RDONLY);
    if (device < 0 || ioctl(device, GPIO_V2_GET_LINE_IOCTL, &request) < 0) perror(chip), exit(1);
    return request.fd;
}

int main(int count, char **words) {
    if (count != 3) return fputs("usage: gpio CHIP LINE\n", stderr), 2;
    struct pollfd line = {.fd = line_of(words[1], (unsigned)atoi(words[2])), .events = POLLIN};
    struct gpio_v2_line_event event;
    uint32_t seen = 0;
    receiver = hdminet_receiver_new();
    for (;;) {
        hdminet_instant next = hdminet_receiver_wakes_at(&receiver);
        int64_t left = (int64_t)(next.at + LATE - now());
        int events = poll(&line, 1, next.code != HDMINET_DONE ? -1 : left > 0 ? (int)(left / 1000) + 1 : 0);
        if (events == 0) {
            hear(next.at, receiver.is_low);
        } else if (read(line.fd, &event, sizeof event) == sizeof event) {
            /* Where the kernel had no room for an event, what was read up to then is given up. */
            if (event.seqno != ++seen) receiver = hdminet_receiver_new(), seen = event.seqno;
            edge(event.timestamp_ns / 1000, event.id == GPIO_V2_LINE_EVENT_FALLING_EDGE);
        } else {
            return 1;
        }
        fflush(stdout);
    }
}
