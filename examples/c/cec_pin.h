/* The CEC pin of a device, as firmware has it: it is set and read, an edge of the line interrupts, and a timer comes once. A firmware
   that is written over this header runs on a board and, unchanged, in an emulated room on the host, by a session of `hdminet live` (docs/live.md)
   or, with -DCEC_LIBRARY, of libhdminet (docs/library.md). examples/c/follower.c is one.

   On the host the program reads a topology, a line `script` and a script with a device `dut` of the kind outside, and writes the
   trace; its argument is how late interrupts come, in microseconds. On a Raspberry Pi Pico (PICO_BOARD is defined by its SDK) the
   line is at the pin CEC_GPIO, pulled up by 27 kilohms to 3.3 volts. No board was tried. */
#ifndef CEC_PIN_H
#define CEC_PIN_H

#ifndef PICO_BOARD
#define _POSIX_C_SOURCE 200809L
#endif

#include <stdbool.h>
#include <stdint.h>

/* What the firmware calls. Times are microseconds since its power. */
static void cec_pin_set(bool is_low);  /* pulls the line low, or lets it go */
static bool cec_pin_is_low(void);      /* whether the line is low, whoever pulls it */
static uint64_t cec_now(void);
static void cec_timer_at(uint64_t t);  /* sets the timer, in the place of what was set */

/* What the firmware has. They do not interrupt each other. */
static void firmware_begin(void);                     /* it has its power; the line is high */
static void firmware_edge(uint64_t t, bool is_low);   /* an edge of the line was at t */
static void firmware_timer(void);                     /* the timer has come */

#ifdef PICO_BOARD

#include "hardware/gpio.h"
#include "pico/stdlib.h"

#ifndef CEC_GPIO
#define CEC_GPIO 2
#endif

static alarm_id_t cec_alarm = -1;

static void cec_pin_set(bool is_low) { gpio_set_dir(CEC_GPIO, is_low ? GPIO_OUT : GPIO_IN); }
static bool cec_pin_is_low(void) { return !gpio_get(CEC_GPIO); }
static uint64_t cec_now(void) { return time_us_64(); }

static int64_t cec_on_alarm(alarm_id_t alarm, void *none) {
    (void)alarm, (void)none;
    firmware_timer();
    return 0;
}

static void cec_timer_at(uint64_t t) {
    if (cec_alarm >= 0) cancel_alarm(cec_alarm);
    cec_alarm = add_alarm_at(from_us_since_boot(t), cec_on_alarm, NULL, true);
}

static void cec_on_edge(uint gpio, uint32_t events) {
    (void)gpio;
    firmware_edge(cec_now(), (events & GPIO_IRQ_EDGE_FALL) != 0);
}

int main(void) {
    gpio_init(CEC_GPIO);
    gpio_put(CEC_GPIO, 0);
    gpio_set_dir(CEC_GPIO, GPIO_IN);
    firmware_begin();
    gpio_set_irq_enabled_with_callback(CEC_GPIO, GPIO_IRQ_EDGE_FALL | GPIO_IRQ_EDGE_RISE, true, cec_on_edge);
    for (;;) tight_loop_contents();
}

#else

#include <inttypes.h>
#include <stdio.h>
#include <stdlib.h>
#include <string.h>
#include <unistd.h>

/* How many edges wait for their interrupts, how long a line of a session may be, and a topology. */
enum { CEC_MOST_EDGES = 64, CEC_MOST_LINE = 4200, CEC_MOST_TOPOLOGY = 8192 };

static uint64_t cec_instant, cec_latency, cec_timer = UINT64_MAX;
static bool cec_level_is_low;
static struct { uint64_t t; bool is_low; } cec_edges[CEC_MOST_EDGES];
static size_t cec_waiting;

static void cec_stop(const char *why) {
    fprintf(stderr, "%s\n", why);
    exit(2);
}

/* Takes what the session tells: edges wait for their interrupts, the trace is written, and the horizon is the instant that it is. Returns
   whether it is the answer. */
static bool cec_told(const char *told) {
    if (*told == '!') cec_stop(told);
    if (*told == '=') cec_instant = strtoull(told + 2, NULL, 10);
    else if (*told != '~') fputs(told, stdout);
    else if (cec_waiting < CEC_MOST_EDGES) {
        char *level;
        cec_edges[cec_waiting].t = strtoull(told + 2, &level, 10);
        cec_level_is_low = cec_edges[cec_waiting++].is_low = level[1] == '0';
    }
    return *told == '=';
}

#ifdef CEC_LIBRARY

#include "hdminet.h"

static hdminet_live cec_live = HDMINET_LIVE_CLOSED;
static uint8_t cec_room[1 << 16];

/* Takes each line of a text that the library has put. */
static void cec_take(hdminet_answer answer) {
    char told[CEC_MOST_LINE];
    if (answer.code != HDMINET_DONE) {
        snprintf(told, sizeof told, "the library answers %" PRIu32 ", line %" PRIu64, answer.code, answer.line);
        cec_stop(told);
    }
    for (size_t at = 0, length; at < answer.length; at += length) {
        const uint8_t *end = memchr(cec_room + at, '\n', answer.length - at);
        length = (size_t)(end - (cec_room + at)) + 1;
        snprintf(told, sizeof told, "%.*s", (int)length, (const char *)cec_room + at);
        cec_told(told);
    }
}

static void cec_open(const char *topology) {
    cec_take(hdminet_live_open(&cec_live, (const uint8_t *)topology, strlen(topology), cec_room, sizeof cec_room));
}

static void cec_line(const char *line) { cec_take(hdminet_live_line(&cec_live, (const uint8_t *)line, strlen(line), cec_room, sizeof cec_room)); }

#else

static FILE *cec_to, *cec_from; /* the session */

/* Starts `hdminet live`, of the program that HDMINET names, or the one in the PATH. */
static void cec_open(const char *topology) {
    const char *program = getenv("HDMINET");
    int to[2], from[2];
    if (pipe(to) != 0 || pipe(from) != 0) cec_stop("no pipe");
    pid_t child = fork();
    if (child < 0) cec_stop("no process");
    if (child == 0) {
        dup2(to[0], 0), dup2(from[1], 1);
        close(to[1]), close(from[0]);
        execlp(program ? program : "hdminet", "hdminet", "live", (char *)NULL);
        _exit(127);
    }
    close(to[0]), close(from[1]);
    cec_to = fdopen(to[1], "w"), cec_from = fdopen(from[0], "r");
    fprintf(cec_to, "%sscript\n", topology);
}

/* Sends a line, and reads what is told for it. */
static void cec_line(const char *line) {
    char told[CEC_MOST_LINE];
    fprintf(cec_to, "%s\n", line);
    fflush(cec_to);
    while (fgets(told, sizeof told, cec_from)) {
        if (cec_told(told)) return;
    }
    cec_stop("the session has ended");
}

#endif

static void cec_ask(const char *words, uint64_t t, const char *rest) {
    char line[64];
    snprintf(line, sizeof line, "%s %" PRIu64 "%s", words, t, rest);
    cec_line(line);
}

static void cec_pin_set(bool is_low) { cec_ask("pin", cec_instant, is_low ? " 0" : " 1"); }
static bool cec_pin_is_low(void) { return cec_level_is_low; }
static uint64_t cec_now(void) { return cec_instant; }
static void cec_timer_at(uint64_t t) { cec_timer = t; }

/* Calls what is due: interrupts, and then the timer. */
static void cec_call(void) {
    while (cec_waiting && cec_edges[0].t + cec_latency <= cec_instant) {
        uint64_t t = cec_edges[0].t;
        bool is_low = cec_edges[0].is_low;
        memmove(cec_edges, cec_edges + 1, --cec_waiting * sizeof *cec_edges);
        firmware_edge(t, is_low);
    }
    if (cec_timer <= cec_instant) {
        cec_timer = UINT64_MAX;
        firmware_timer();
    }
}

int main(int count, char **words) {
    char line[CEC_MOST_LINE], topology[CEC_MOST_TOPOLOGY] = "";
    uint64_t end = 0;
    if (count != 2) cec_stop("usage: PROGRAM LATENCY < ROOM");
    cec_latency = strtoull(words[1], NULL, 10);
    while (fgets(line, sizeof line, stdin) && strcmp(line, "script\n") != 0) {
        if (strlen(topology) + strlen(line) >= sizeof topology) cec_stop("the topology is too long");
        strcat(topology, line);
    }
    cec_open(topology);
    while (end == 0 && fgets(line, sizeof line, stdin)) {
        line[strcspn(line, "\n")] = 0;
        if (strncmp(line, "end ", 4) == 0) end = strtoull(line + 4, NULL, 10);
        else cec_line(line);
    }
    firmware_begin();
    while (cec_instant < end) {
        uint64_t next = cec_timer < end ? cec_timer : end;
        if (cec_waiting && cec_edges[0].t + cec_latency < next) next = cec_edges[0].t + cec_latency;
        if (next > cec_instant) cec_ask("edge", next, "");
        cec_call();
    }
    cec_ask("end", end, "");
    return 0;
}

#endif
#endif
