/* The room's time, for the programs of cec-device: clocks, and what waits for a time or a descriptor (threads.c: for another thread).
 *
 * Where HDMINET_CEC_CLOCK names a file, clocks tell the room's time, and what waits does so in it. Each wait is a packet to the server, whose answer is its
 * end. The server goes on with the room while every thread waits, and answers one at a time, so nothing hangs on the load of the machine.
 *
 * A process counts once it has opened a device, and from then on to its end where it has several threads. One without a device waits by the clock on the
 * wall: one of several threads through the server too, so that its threads wait in the room's time once a device is opened. */
#define _GNU_SOURCE
#include "shim.h"
#include <errno.h>
#include <fcntl.h>
#include <poll.h>
#include <pthread.h>
#include <sched.h>
#include <signal.h>
#include <stdio.h>
#include <stdlib.h>
#include <string.h>
#include <sys/epoll.h>
#include <sys/mman.h>
#include <sys/select.h>
#include <sys/socket.h>
#include <sys/time.h>
#include <time.h>
#include <unistd.h>

/* How often in a row a thread gives its turn away (sched_yield) before that takes time, and how long then, in microseconds: it may wait for what comes in
 * time. */
enum { YIELDS = 100, YIELD = 100 };
static __thread int yields;

/* A lock of the library's own. No signal's handler comes in between, since one may post a semaphore. */
static pthread_mutex_t own = PTHREAD_MUTEX_INITIALIZER;
static __thread sigset_t signals_before;
void hold(void)
{
    sigset_t all;
    BELOW(pthread_mutex_lock);
    sigfillset(&all);
    sigset_t before;
    pthread_sigmask(SIG_SETMASK, &all, &before);
    below(&own);
    signals_before = before;
}
void let_go(void)
{
    BELOW(pthread_mutex_unlock);
    sigset_t before = signals_before;
    below(&own);
    pthread_sigmask(SIG_SETMASK, &before, 0);
}

/* The room's time: where the clocks began, in nanoseconds, and how many microseconds the room has come since. */
static volatile struct {
    uint64_t monotonic, real, micros;
} *room_clock;

int is_in_room_time(void)
{
    static int is_tried;
    const char *path = is_tried ? 0 : getenv("HDMINET_CEC_CLOCK");
    if (path) {
        BELOW(open);
        int file = below(path, O_RDONLY | O_CLOEXEC);
        void *at = file < 0 ? MAP_FAILED : mmap(0, sizeof *room_clock, PROT_READ, MAP_SHARED, file, 0);
        if (file >= 0)
            close_below(file);
        room_clock = at == MAP_FAILED ? 0 : at;
    }
    is_tried = 1;
    return room_clock != 0;
}
int waits_in_room(void) { return is_in_room_time() && (has_seat() || has_threads()); }

int wait_in_room(uint64_t micros, struct interest *of, uint32_t count, int descriptor, uint32_t serial)
{
    struct question question = question_of(WAIT, 0, 0);
    struct answer answer;
    int link = connection(), ready = -1;
    yields = 0;
    if (link < 0)
        return -1;
    question.size = 16 + count * sizeof *of;
    memcpy(question.bytes, &micros, 8);
    memcpy(question.bytes + 8, &serial, 4);
    memcpy(question.bytes + 12, &count, 4);
    if (count)
        memcpy(question.bytes + 16, of, count * sizeof *of);
    if (!send_question(link, &question, descriptor) && receive_answer(link, &answer) >= 0) {
        for (uint32_t i = 0; i < count; i++)
            memcpy(&of[i].ready, answer.bytes + 4 * i, 4);
        ready = answer.result;
    } else if (errno != EINTR)
        errno = ENODEV;
    close_below(link);
    return ready;
}
uint64_t in(uint64_t micros) { return micros == FOR_EVER ? FOR_EVER : room_clock->micros + micros; }
uint64_t until(uint64_t instant)
{
    uint64_t now = room_clock->micros;
    return instant == FOR_EVER ? FOR_EVER : instant > now ? instant - now : 0;
}
uint64_t micros_of(const struct timespec *of) { return of->tv_sec * 1000000ULL + (of->tv_nsec + 999) / 1000; }
/* CLOCK_REALTIME is decades ahead of CLOCK_MONOTONIC, so the time says whose it is. */
int is_of_real(const struct timespec *at) { return at->tv_sec * 1000000000ULL > room_clock->real / 2; }
uint64_t instant_of(const struct timespec *at)
{
    uint64_t began = (is_of_real(at) ? room_clock->real : room_clock->monotonic) / 1000, micros = micros_of(at);
    return micros > began ? micros - began : 0;
}

int clock_gettime(clockid_t which, struct timespec *to)
{
    if (!is_in_room_time() || (which != CLOCK_REALTIME && which != CLOCK_MONOTONIC)) {
        BELOW(clock_gettime);
        return below(which, to);
    }
    uint64_t now = (which == CLOCK_REALTIME ? room_clock->real : room_clock->monotonic) + room_clock->micros * 1000;
    to->tv_sec = now / 1000000000;
    to->tv_nsec = now % 1000000000;
    return 0;
}
int gettimeofday(struct timeval *restrict to, void *restrict zone)
{
    (void)zone;
    struct timespec now;
    clock_gettime(CLOCK_REALTIME, &now);
    to->tv_sec = now.tv_sec;
    to->tv_usec = now.tv_nsec / 1000;
    return 0;
}
time_t time(time_t *to)
{
    struct timespec now;
    clock_gettime(CLOCK_REALTIME, &now);
    if (to)
        *to = now.tv_sec;
    return now.tv_sec;
}
int timespec_get(struct timespec *to, int base)
{
    return base == TIME_UTC && !clock_gettime(CLOCK_REALTIME, to) ? base : 0;
}
int usleep(useconds_t micros)
{
    BELOW(usleep);
    return waits_in_room() ? wait_in_room(micros, 0, 0, -1, 0) : below(micros);
}
unsigned sleep(unsigned seconds)
{
    BELOW(sleep);
    if (!waits_in_room())
        return below(seconds);
    wait_in_room(seconds * 1000000ULL, 0, 0, -1, 0);
    return 0;
}
int clock_nanosleep(clockid_t which, int flags, const struct timespec *of, struct timespec *left)
{
    BELOW(clock_nanosleep);
    if (!is_in_room_time() || (which != CLOCK_REALTIME && which != CLOCK_MONOTONIC))
        return below(which, flags, of, left);
    uint64_t micros = micros_of(of);
    if (flags & TIMER_ABSTIME) {
        uint64_t now = (which == CLOCK_REALTIME ? room_clock->real : room_clock->monotonic) / 1000 + room_clock->micros;
        micros = micros > now ? micros - now : 0;
    }
    if (waits_in_room())
        return wait_in_room(micros, 0, 0, -1, 0) < 0 ? errno : 0;
    struct timespec later = { micros / 1000000, micros % 1000000 * 1000 };
    return below(CLOCK_MONOTONIC, 0, &later, left);
}
int nanosleep(const struct timespec *of, struct timespec *left)
{
    BELOW(nanosleep);
    return waits_in_room() ? wait_in_room(of->tv_sec * 1000000ULL + of->tv_nsec / 1000, 0, 0, -1, 0) : below(of, left);
}
int sched_yield(void)
{
    BELOW(sched_yield);
    if (!has_threads())
        return below();
    int before = yields, result = wait_in_room(before < YIELDS ? 0 : YIELD, 0, 0, -1, 0);
    yields = before + 1;
    return result < 0 ? -1 : 0;
}

/* Descriptors. */

/* Whether a descriptor may be written to: one of a device of the room while its adapter has an address. */
static int may_write(int descriptor)
{
    struct seat seat;
    if (!find(descriptor, &seat))
        return 1;
    struct interest asked = { seat.handle, WRITES };
    return wait_in_room(0, &asked, 1, -1, 0) < 0 || asked.ready & WRITES;
}
/* By the clock on the wall `poll` waits in the kernel, where a connection can always be written to. So what may not be written to is not asked, and
 * looked at again each SLICE of milliseconds. */
enum { SLICE = 20, MOST_POLLED = 64 };
static int poll_by_wall(struct pollfd *asked, nfds_t count, int limit)
{
    BELOW(poll);
    struct pollfd now[MOST_POLLED];
    if (count > MOST_POLLED)
        return below(asked, count, limit);
    for (;;) {
        int waits_to_write = 0;
        for (nfds_t i = 0; i < count; i++) {
            now[i] = asked[i];
            if (asked[i].events & POLLOUT && !may_write(asked[i].fd)) {
                now[i].events &= ~POLLOUT;
                waits_to_write = 1;
            }
        }
        int slice = waits_to_write && (limit < 0 || limit > SLICE) ? SLICE : limit;
        int ready = below(now, count, slice);
        limit -= limit > 0 ? slice : 0;
        if (ready || !waits_to_write || !limit) {
            for (nfds_t i = 0; i < count; i++)
                asked[i].revents = now[i].revents;
            return ready;
        }
    }
}
/* `select` by the clock on the wall, in the same way. */
static int select_by_wall(int count, fd_set *reads, fd_set *writes, fd_set *events, struct timeval *limit)
{
    BELOW(select);
    struct timeval left = limit ? *limit : (struct timeval){ 0, 0 };
    for (;;) {
        fd_set read_now, write_now, event_now;
        int waits_to_write = 0;
        if (reads)
            read_now = *reads;
        if (events)
            event_now = *events;
        write_now = *writes;
        for (int at = 0; at < count; at++)
            if (FD_ISSET(at, writes) && !may_write(at)) {
                FD_CLR(at, &write_now);
                waits_to_write = 1;
            }
        struct timeval slice = { 0, SLICE * 1000 };
        if (limit && (!waits_to_write || timercmp(&left, &slice, <)))
            slice = left;
        if (limit)
            timersub(&left, &slice, &left);
        int ready = below(count, reads ? &read_now : 0, &write_now, events ? &event_now : 0, limit || waits_to_write ? &slice : 0);
        if (ready || !waits_to_write || (limit && !timerisset(&left))) {
            if (reads)
                *reads = read_now;
            if (events)
                *events = event_now;
            *writes = write_now;
            return ready;
        }
    }
}

/* A descriptor that can be read while one of these can be what is asked of it; -1 where there is none. */
static int descriptor_of(const struct pollfd *asked, nfds_t count)
{
    int all = epoll_create1(EPOLL_CLOEXEC);
    for (nfds_t i = 0; all >= 0 && i < count; i++) {
        struct epoll_event event = { .events = 0 };
        for (nfds_t other = 0; other < count; other++)
            if (asked[other].fd == asked[i].fd)
                event.events |= asked[other].events;
        if (asked[i].fd >= 0) {
            BELOW(epoll_ctl);
            below(all, EPOLL_CTL_ADD, asked[i].fd, &event);
        }
    }
    return all;
}
/* The interest in a seat, of the bits of `poll`, and the other way round; epoll has the same bits. */
static struct interest interest_in(const struct seat *seat, uint32_t events)
{
    return (struct interest){ seat->handle, (events & POLLIN ? READS : 0) | (events & POLLPRI ? EVENTS : 0) | (events & POLLOUT ? WRITES : 0) };
}
static uint32_t events_of(uint32_t ready) { return (ready & READS ? POLLIN : 0) | (ready & EVENTS ? POLLPRI : 0) | (ready & WRITES ? POLLOUT : 0); }

/* `poll` in the room's time, of devices of the room and of others. */
static int poll_in_room(struct pollfd *asked, nfds_t count, uint64_t micros)
{
    BELOW(poll);
    struct interest watched[MOST_WATCHED];
    struct seat seat;
    nfds_t at[MOST_WATCHED];
    int watching = 0, has_others = 0, ready, result;
    struct pollfd *others = calloc(count + 1, sizeof *others);
    if (!others)
        return -1;
    uint64_t limit = in(micros);
    for (nfds_t i = 0; i < count; i++) {
        others[i] = asked[i];
        asked[i].revents = 0;
        if (watching < MOST_WATCHED && find(asked[i].fd, &seat)) {
            at[watching] = i;
            watched[watching++] = interest_in(&seat, asked[i].events);
            others[i].fd = -1;
        } else
            has_others |= asked[i].fd >= 0;
    }
    do {
        struct interest now[MOST_WATCHED];
        memcpy(now, watched, sizeof now);
        ready = has_others ? below(others, count, 0) : 0;
        int all = has_others && !ready ? descriptor_of(others, count) : -1;
        result = ready < 0 || (ready && !watching) ? ready : wait_in_room(ready ? 0 : until(limit), now, watching, all, 0);
        if (all >= 0)
            close_below(all);
        if (has_others && result > 0)
            ready = below(others, count, 0);
        for (int i = 0; i < watching && result > 0; i++) {
            asked[at[i]].revents = events_of(now[i].ready);
            ready += now[i].ready != 0;
        }
        /* What can be read may be read by another thread first. */
    } while (result > 0 && !ready);
    for (nfds_t i = 0; i < count; i++)
        if (others[i].fd >= 0)
            asked[i].revents = others[i].revents;
    free(others);
    return result < 0 ? -1 : ready;
}
int poll(struct pollfd *asked, nfds_t count, int limit)
{
    BELOW(poll);
    if (waits_in_room())
        return poll_in_room(asked, count, limit < 0 ? FOR_EVER : limit * 1000ULL);
    return has_seat() ? poll_by_wall(asked, count, limit) : below(asked, count, limit);
}
int ppoll(struct pollfd *asked, nfds_t count, const struct timespec *limit, const sigset_t *mask)
{
    BELOW(ppoll);
    if (!waits_in_room())
        return below(asked, count, limit, mask);
    return poll(asked, count, limit ? limit->tv_sec * 1000 + (limit->tv_nsec + 999999) / 1000000 : -1);
}

int select(int count, fd_set *restrict reads, fd_set *restrict writes, fd_set *restrict events, struct timeval *restrict limit)
{
    BELOW(select);
    if (!waits_in_room())
        return writes && has_seat() ? select_by_wall(count, reads, writes, events, limit) : below(count, reads, writes, events, limit);
    static const short errors = POLLHUP | POLLERR;
    struct {
        fd_set *set;
        short asked, ready;
    } kinds[] = { { reads, POLLIN, POLLIN | errors }, { writes, POLLOUT, POLLOUT | POLLERR }, { events, POLLPRI, POLLPRI } };
    struct pollfd asked[FD_SETSIZE];
    int asking = 0, ready = 0;
    for (int at = 0; at < count && at < FD_SETSIZE; at++) {
        asked[asking] = (struct pollfd){ .fd = at };
        for (int kind = 0; kind < 3; kind++)
            if (kinds[kind].set && FD_ISSET(at, kinds[kind].set))
                asked[asking].events |= kinds[kind].asked;
        asking += asked[asking].events != 0;
    }
    if (poll_in_room(asked, asking, limit ? limit->tv_sec * 1000000ULL + limit->tv_usec : FOR_EVER) < 0)
        return -1;
    for (int kind = 0; kind < 3; kind++)
        if (kinds[kind].set)
            FD_ZERO(kinds[kind].set);
    for (int i = 0; i < asking; i++) {
        if (asked[i].revents & POLLNVAL) {
            errno = EBADF;
            return -1;
        }
        for (int kind = 0; kind < 3; kind++)
            if (asked[i].events & kinds[kind].asked && asked[i].revents & kinds[kind].ready) {
                FD_SET(asked[i].fd, kinds[kind].set);
                ready++;
            }
    }
    return ready;
}
int pselect(int count, fd_set *restrict reads, fd_set *restrict writes, fd_set *restrict events, const struct timespec *restrict limit,
    const sigset_t *restrict mask)
{
    BELOW(pselect);
    if (!waits_in_room())
        return below(count, reads, writes, events, limit, mask);
    struct timeval left = { limit ? limit->tv_sec : 0, limit ? (limit->tv_nsec + 999) / 1000 : 0 };
    return select(count, reads, writes, events, limit ? &left : 0);
}

/* What is watched of the room's devices by epoll in the room's time; all else is the kernel's. */
static struct watched {
    int epoll, descriptor;
    struct epoll_event event;
} watched_by_epoll[MOST_WATCHED];
int epoll_ctl(int epoll, int how, int descriptor, struct epoll_event *event)
{
    BELOW(epoll_ctl);
    if (!is_in_room_time() || !find(descriptor, 0))
        return below(epoll, how, descriptor, event);
    hold();
    struct watched *place = 0, *found = 0;
    for (int i = MOST_WATCHED - 1; i >= 0; i--) {
        struct watched *at = &watched_by_epoll[i];
        if (at->descriptor == descriptor + 1 && at->epoll == epoll)
            found = at;
        if (!at->descriptor)
            place = at;
    }
    int fault = how == EPOLL_CTL_ADD ? found ? EEXIST : place ? 0 : ENOSPC : found ? 0 : ENOENT;
    if (!fault && how == EPOLL_CTL_DEL)
        found->descriptor = 0;
    else if (!fault)
        *(found ? found : place) = (struct watched){ epoll, descriptor + 1, *event };
    let_go();
    errno = fault ? fault : errno;
    return fault ? -1 : 0;
}
void unwatch(int descriptor)
{
    hold();
    for (int i = 0; i < MOST_WATCHED; i++)
        if (watched_by_epoll[i].descriptor == descriptor + 1)
            watched_by_epoll[i].descriptor = 0;
    let_go();
}
int epoll_wait(int epoll, struct epoll_event *events, int most, int limit)
{
    BELOW(epoll_wait);
    if (!waits_in_room())
        return below(epoll, events, most, limit);
    uint64_t over = in(limit < 0 ? FOR_EVER : limit * 1000ULL);
    int ready, result;
    do {
        struct interest of[MOST_WATCHED];
        epoll_data_t data[MOST_WATCHED];
        struct seat seat;
        int count = 0;
        for (int i = 0; i < MOST_WATCHED; i++)
            if (watched_by_epoll[i].epoll == epoll && find(watched_by_epoll[i].descriptor - 1, &seat)) {
                data[count] = watched_by_epoll[i].event.data;
                of[count++] = interest_in(&seat, watched_by_epoll[i].event.events);
            }
        ready = below(epoll, events, most, 0);
        result = ready < 0 || (ready && !count) ? ready : wait_in_room(ready ? 0 : until(over), of, count, ready ? -1 : epoll, 0);
        if (result > 0 && !ready)
            ready = below(epoll, events, most, 0);
        for (int i = 0; i < count && result > 0 && ready < most; i++)
            if (of[i].ready)
                events[ready++] = (struct epoll_event){ events_of(of[i].ready), data[i] };
    } while (result > 0 && !ready);
    return result < 0 ? -1 : ready;
}
int epoll_pwait(int epoll, struct epoll_event *events, int most, int limit, const sigset_t *mask)
{
    BELOW(epoll_pwait);
    return waits_in_room() ? epoll_wait(epoll, events, most, limit) : below(epoll, events, most, limit, mask);
}

/* A thread that reads what is not there yet waits for it; a program of one thread is at work meanwhile. */
int until_readable(int descriptor)
{
    BELOW(poll);
    struct pollfd asked = { descriptor, POLLIN, 0 };
    while (has_threads() && !(fcntl(descriptor, F_GETFL) & O_NONBLOCK) && !below(&asked, 1, 0))
        if (wait_in_room(FOR_EVER, 0, 0, descriptor, 0) < 0)
            return -1;
    return 0;
}
#define RECEIVES(name, result, parameters, ...)            \
    result name parameters                                 \
    {                                                      \
        BELOW(name);                                       \
        return until_readable(descriptor) ? -1 : below(__VA_ARGS__); \
    }
RECEIVES(recv, ssize_t, (int descriptor, void *to, size_t count, int flags), descriptor, to, count, flags)
RECEIVES(recvmsg, ssize_t, (int descriptor, struct msghdr *to, int flags), descriptor, to, flags)
RECEIVES(recvfrom, ssize_t, (int descriptor, void *restrict to, size_t count, int flags, struct sockaddr *restrict from, socklen_t *restrict size), descriptor,
    to, count, flags, from, size)
RECEIVES(accept, int, (int descriptor, struct sockaddr *restrict from, socklen_t *restrict size), descriptor, from, size)
RECEIVES(accept4, int, (int descriptor, struct sockaddr *restrict from, socklen_t *restrict size, int flags), descriptor, from, size, flags)

/* The same of the C library's files, where nothing is left in the buffer. */
static void until_filled(FILE *file)
{
    int saved = errno;
    while (has_threads() && file->_IO_read_ptr >= file->_IO_read_end && until_readable(fileno(file)) && errno == EINTR)
        ;
    errno = saved;
}
#define READS_FILE(name, result, parameters, ...)          \
    result name parameters                                 \
    {                                                      \
        BELOW(name);                                       \
        until_filled(file);                                \
        return below(__VA_ARGS__);                         \
    }
READS_FILE(getc, int, (FILE *file), file)
READS_FILE(fgetc, int, (FILE *file), file)
READS_FILE(fgets, char *, (char *restrict to, int count, FILE *restrict file), to, count, file)
READS_FILE(fread, size_t, (void *restrict to, size_t size, size_t count, FILE *restrict file), to, size, count, file)
READS_FILE(getdelim, ssize_t, (char **restrict to, size_t *restrict size, int end, FILE *restrict file), to, size, end, file)
READS_FILE(getline, ssize_t, (char **restrict to, size_t *restrict size, FILE *restrict file), to, size, file)
int getchar(void) { return getc(stdin); }
