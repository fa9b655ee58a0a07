/* What the parts of the library share: shim.c has the devices of the room, waits.c its time, threads.c what threads wait for of each other. */
#ifndef HDMINET_SHIM_H
#define HDMINET_SHIM_H
#include <dlfcn.h>
#include <stdint.h>
#include <sys/types.h>
#include <time.h>

/* What a packet asks (server.py). */
enum { OPEN = 1, CALL = 2, WAIT = 4, BEGIN = 5, END = 6, WAKE = 7 };
/* The greatest structure of a call, and how many handles one wait has. */
enum { MOST_BYTES = 256, MOST_WATCHED = 16 };
/* Which of reading, events and writing are ready. */
enum { READS = 1, EVENTS = 2, WRITES = 4 };

struct question {
    uint32_t asked, handle, call, nonblock, size, process, thread, is_beside;
    uint8_t bytes[MOST_BYTES];
};
struct answer {
    int32_t result;
    uint32_t handle, size;
    uint8_t bytes[MOST_BYTES];
};
enum { QUESTION_HEAD = 8 * sizeof(uint32_t), ANSWER_HEAD = 3 * sizeof(uint32_t) };

/* An open descriptor, by its number and 1; the handle at the server; the connection whose end tells the server that it is closed. */
struct seat {
    int descriptor, link;
    uint32_t handle;
};

/* A handle that is waited for: which of reading, events and writing are asked, and then which are ready. */
struct interest {
    uint32_t handle, ready;
};
#define FOR_EVER UINT64_MAX

/* A function of the C library, below the one of this library. */
#define BELOW_AS(below, name)                              \
    static __typeof__(&name) below;                        \
    if (!below)                                            \
    below = (__typeof__(&name))dlsym(RTLD_NEXT, #name)
#define BELOW(name) BELOW_AS(below, name)

/* What the parts share is nobody else's. */
#pragma GCC visibility push(hidden)

/* shim.c: the seat of a descriptor, where it is one; whether the process has any; a connection to the server, and its end; a question, with what stands
 * there of the process and the thread; a question that is sent, with a descriptor or with -1; the next answer to it, or -1. */
int find(int descriptor, struct seat *found);
int has_seat(void);
int connection(void);
int close_below(int descriptor);
struct question question_of(uint32_t asked, uint32_t handle, uint32_t call);
int send_question(int link, const struct question *question, int descriptor);
ssize_t receive_answer(int link, struct answer *answer);

/* waits.c: a lock of the library's own; whether the process lives in the room's time, and whether what waits does so in packets to the server. */
void hold(void);
void let_go(void);
int is_in_room_time(void);
int waits_in_room(void);

/* waits.c: the room's instant so many microseconds from now, and of a time of one of its clocks; whether that is CLOCK_REALTIME; how many microseconds there
 * are until an instant, and in a time. */
int is_of_real(const struct timespec *at);
uint64_t in(uint64_t micros), instant_of(const struct timespec *at), until(uint64_t instant), micros_of(const struct timespec *of);

/* waits.c: waits for so many microseconds, or until one of these handles is ready, a descriptor (or -1) can be read, or another thread wakes the wait of this
 * number (or 0). Says which handles are ready, and returns 0 where the time is over. Before something is read that is not there yet; after a descriptor is
 * closed. */
int wait_in_room(uint64_t micros, struct interest *of, uint32_t count, int descriptor, uint32_t serial);
int until_readable(int descriptor);
void unwatch(int descriptor);

/* threads.c: whether the process has several threads, in the room's time. */
int has_threads(void);

#pragma GCC visibility pop
#endif
