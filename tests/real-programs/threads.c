/* Threads that wait in each way that the room's time knows (docs/real-programs.md). Each line is a way, and how long it took, in milliseconds. A word `outside`
 * after the name: the device is not opened, so that the waits are by the clock on the wall, where one thread may come too late for another: that is said by
 * a line with `!`, and each way ends all the same. */
#define _GNU_SOURCE
#include <errno.h>
#include <fcntl.h>
#include <linux/cec.h>
#include <linux/futex.h>
#include <poll.h>
#include <pthread.h>
#include <sched.h>
#include <semaphore.h>
#include <stdint.h>
#include <stdio.h>
#include <stdlib.h>
#include <string.h>
#include <sys/epoll.h>
#include <sys/eventfd.h>
#include <sys/ioctl.h>
#include <sys/select.h>
#include <sys/syscall.h>
#include <threads.h>
#include <time.h>
#include <unistd.h>

static pthread_mutex_t lock = PTHREAD_MUTEX_INITIALIZER;
static pthread_cond_t condition = PTHREAD_COND_INITIALIZER;
static pthread_rwlock_t pages = PTHREAD_RWLOCK_INITIALIZER;
static sem_t semaphore;
static uint32_t word, is_set, arrived;
static int device = -1, pipes[2], counter;

static struct timespec now(clockid_t which)
{
    struct timespec is;
    clock_gettime(which, &is);
    return is;
}
static int64_t millis(void)
{
    struct timespec is = now(CLOCK_MONOTONIC);
    return is.tv_sec * 1000 + is.tv_nsec / 1000000;
}
static struct timespec in(clockid_t which, int64_t millis)
{
    struct timespec is = now(which);
    is.tv_sec += millis / 1000;
    is.tv_nsec += millis % 1000 * 1000000;
    if (is.tv_nsec >= 1000000000) {
        is.tv_sec++;
        is.tv_nsec -= 1000000000;
    }
    return is;
}
static struct timespec of(int64_t millis) { return (struct timespec){ millis / 1000, millis % 1000 * 1000000 }; }

/* What another thread does, after so many milliseconds. */
struct deed {
    int64_t after;
    void (*what)(void);
};
static void *does(void *given)
{
    struct deed deed = *(struct deed *)given;
    usleep(deed.after * 1000);
    deed.what();
    return 0;
}
/* A way to wait, while another thread does something after a time. */
static void while_another(int64_t after, void (*what)(void), void (*way)(void))
{
    struct deed deed = { after, what };
    pthread_t thread;
    pthread_create(&thread, 0, does, &deed);
    way();
    pthread_join(thread, 0);
}
static void *waits(void *way)
{
    ((void (*)(void))way)();
    return 0;
}
/* Ways to wait, in threads of their own at once. */
static void at_once(void (*first)(void), void (*second)(void), void (*third)(void))
{
    void (*ways[])(void) = { first, second, third };
    pthread_t threads[3];
    for (int i = 0; i < 3; i++)
        pthread_create(&threads[i], 0, waits, (void *)ways[i]);
    for (int i = 0; i < 3; i++)
        pthread_join(threads[i], 0);
}
static void expect(int holds, const char *what)
{
    if (!holds)
        printf("! %s\n", what);
}

/* Times. */
static void sleeps(void) { usleep(300000); }
static void sleeps_nano(void)
{
    struct timespec limit = of(200);
    nanosleep(&limit, 0);
}
static void sleeps_to(void)
{
    struct timespec limit = in(CLOCK_MONOTONIC, 100);
    clock_nanosleep(CLOCK_MONOTONIC, TIMER_ABSTIME, &limit, 0);
}
static void sleeps_all(void) { at_once(sleeps, sleeps_nano, sleeps_to); }

/* Conditions. */
static void times_out(void)
{
    struct timespec limit = in(CLOCK_REALTIME, 150);
    pthread_mutex_lock(&lock);
    expect(pthread_cond_timedwait(&condition, &lock, &limit) == ETIMEDOUT, "timedwait");
    pthread_mutex_unlock(&lock);
}
static void times_out_steadily(void)
{
    struct timespec limit = in(CLOCK_MONOTONIC, 160);
    pthread_mutex_lock(&lock);
    expect(pthread_cond_clockwait(&condition, &lock, CLOCK_MONOTONIC, &limit) == ETIMEDOUT, "clockwait");
    pthread_mutex_unlock(&lock);
}
static void sets(void)
{
    pthread_mutex_lock(&lock);
    is_set = 1;
    pthread_cond_signal(&condition);
    pthread_mutex_unlock(&lock);
}
static void sets_for_all(void)
{
    pthread_mutex_lock(&lock);
    is_set = 1;
    pthread_cond_broadcast(&condition);
    pthread_mutex_unlock(&lock);
}
static void until_set(void)
{
    pthread_mutex_lock(&lock);
    while (!is_set)
        pthread_cond_wait(&condition, &lock);
    arrived++;
    pthread_mutex_unlock(&lock);
}
static void signalled(void)
{
    is_set = 0;
    while_another(70, sets, until_set);
}
static void all_until_set(void) { at_once(until_set, until_set, until_set); }
static void broadcast(void)
{
    is_set = arrived = 0;
    while_another(40, sets_for_all, all_until_set);
    expect(arrived == 3, "three arrive");
}
/* The limit is long after the signal, which another thread gives at once. */
static void until_set_or_late(void)
{
    struct timespec limit = in(CLOCK_REALTIME, 5000);
    pthread_mutex_lock(&lock);
    while (!is_set)
        expect(pthread_cond_timedwait(&condition, &lock, &limit) == 0, "signalled in time");
    pthread_mutex_unlock(&lock);
}
static void signalled_in_time(void)
{
    is_set = 0;
    while_another(35, sets, until_set_or_late);
}

/* Locks. */
static void holds_lock(void)
{
    pthread_mutex_lock(&lock);
    usleep(60000);
    pthread_mutex_unlock(&lock);
}
static void takes_lock(void)
{
    usleep(10000);
    struct timespec limit = in(CLOCK_REALTIME, 30);
    int result = pthread_mutex_timedlock(&lock, &limit);
    expect(result == ETIMEDOUT, "timedlock");
    if (result)
        pthread_mutex_lock(&lock);
    pthread_mutex_unlock(&lock);
}
static void locked(void) { while_another(0, holds_lock, takes_lock); }
static void writes(void)
{
    pthread_rwlock_wrlock(&pages);
    usleep(65000);
    pthread_rwlock_unlock(&pages);
}
static void reads(void)
{
    usleep(1000);
    pthread_rwlock_rdlock(&pages);
    usleep(10000);
    pthread_rwlock_unlock(&pages);
}
static void all_read(void) { at_once(reads, reads, reads); }
static void read_and_written(void) { while_another(0, writes, all_read); }

/* C's own threads. */
static mtx_t mutex_in_c;
static cnd_t condition_in_c;
static int sets_in_c(void *given)
{
    struct timespec limit = of(85);
    thrd_sleep(&limit, 0);
    mtx_lock(&mutex_in_c);
    is_set = 1;
    cnd_signal(&condition_in_c);
    mtx_unlock(&mutex_in_c);
    return given == &is_set ? 7 : 0;
}
static void threads_in_c(void)
{
    thrd_t thread;
    int value = 0;
    struct timespec limit;
    is_set = 0;
    mtx_init(&mutex_in_c, mtx_timed);
    cnd_init(&condition_in_c);
    thrd_create(&thread, sets_in_c, &is_set);
    mtx_lock(&mutex_in_c);
    timespec_get(&limit, TIME_UTC);
    limit.tv_sec += limit.tv_nsec >= 970000000;
    limit.tv_nsec = (limit.tv_nsec + 30000000) % 1000000000;
    expect(cnd_timedwait(&condition_in_c, &mutex_in_c, &limit) == thrd_timedout, "cnd_timedwait");
    while (!is_set)
        cnd_wait(&condition_in_c, &mutex_in_c);
    mtx_unlock(&mutex_in_c);
    expect(thrd_join(thread, &value) == thrd_success && value == 7, "thrd_join");
}

/* Semaphores, ends, futexes. */
static void posts(void) { sem_post(&semaphore); }
static void until_posted(void)
{
    struct timespec limit = in(CLOCK_REALTIME, 20);
    int is_late = sem_timedwait(&semaphore, &limit) && errno == ETIMEDOUT;
    expect(is_late, "sem_timedwait");
    if (is_late)
        sem_wait(&semaphore);
}
static void posted(void) { while_another(50, posts, until_posted); }
static void *ends(void *given)
{
    usleep(80000);
    pthread_exit(given);
}
static void ended(void)
{
    pthread_t thread;
    void *value = 0;
    struct timespec limit = in(CLOCK_REALTIME, 30);
    pthread_create(&thread, 0, ends, &word);
    int result = pthread_timedjoin_np(thread, &value, &limit);
    expect(result == ETIMEDOUT, "timedjoin");
    expect((!result || !pthread_join(thread, &value)) && value == &word, "join");
}
/* A thread that waits for what nobody gives is cancelled. */
static pthread_t cancelled;
static void cancels(void) { pthread_cancel(cancelled); }
static void lets_go(void *given) { pthread_mutex_unlock(given); }
static void *waits_in_vain(void *given)
{
    pthread_mutex_lock(&lock);
    pthread_cleanup_push(lets_go, &lock);
    while (1)
        pthread_cond_wait(given, &lock);
    pthread_cleanup_pop(1);
    return 0;
}
static void until_cancelled(void)
{
    void *value = 0;
    expect(!pthread_join(cancelled, &value) && value == PTHREAD_CANCELED, "cancelled");
}
static void cancel(void)
{
    pthread_create(&cancelled, 0, waits_in_vain, &condition);
    while_another(75, cancels, until_cancelled);
}
static void sets_word(void)
{
    __atomic_store_n(&word, 1, __ATOMIC_SEQ_CST);
    expect(syscall(SYS_futex, &word, FUTEX_WAKE_PRIVATE, 1, 0, 0, 0) == 1, "one is woken");
}
static void until_word(void)
{
    struct timespec limit = of(25);
    expect(syscall(SYS_futex, &word, FUTEX_WAIT_PRIVATE, 0, &limit, 0, 0) && errno == ETIMEDOUT, "a futex with a limit");
    expect(syscall(SYS_futex, &word, FUTEX_WAIT_PRIVATE, 0, 0, 0, 0) == 0, "a futex");
    expect(syscall(SYS_futex, &word, FUTEX_WAIT_PRIVATE, 0, 0, 0, 0) && errno == EAGAIN, "a futex that has another value");
}
static void futex(void)
{
    word = 0;
    while_another(45, sets_word, until_word);
}
static void sets_flag(void) { __atomic_store_n(&is_set, 1, __ATOMIC_SEQ_CST); }
static void until_flag(void)
{
    while (!__atomic_load_n(&is_set, __ATOMIC_SEQ_CST))
        sched_yield();
}
static void yielded(void)
{
    is_set = 0;
    while_another(5, sets_flag, until_flag);
}

/* Descriptors. */
static void writes_pipe(void) { expect(write(pipes[1], "x", 1) == 1, "write"); }
static void reads_pipe(void)
{
    char byte;
    expect(read(pipes[0], &byte, 1) == 1, "read");
}
static void read_from_pipe(void) { while_another(55, writes_pipe, reads_pipe); }
static void polls(void)
{
    struct pollfd asked[] = { { device, POLLIN, 0 }, { pipes[0], POLLIN, 0 } };
    expect(poll(asked, 2, 15) == 0, "poll to its end");
    expect(poll(asked, 2, -1) == 1 && asked[1].revents == POLLIN && !asked[0].revents, "poll");
    reads_pipe();
}
static void polled(void) { while_another(33, writes_pipe, polls); }
static void selects(void)
{
    struct timeval limit = { 0, 15000 };
    fd_set asked;
    for (int round = 0; round < 2; round++) {
        FD_ZERO(&asked);
        FD_SET(pipes[0], &asked);
        if (device >= 0)
            FD_SET(device, &asked);
        int ready = select((device > pipes[0] ? device : pipes[0]) + 1, &asked, 0, 0, round ? 0 : &limit);
        expect(ready == round && (!round || FD_ISSET(pipes[0], &asked)), "select");
    }
    reads_pipe();
}
static void selected(void) { while_another(36, writes_pipe, selects); }
static void counts(void)
{
    uint64_t one = 1;
    expect(write(counter, &one, sizeof one) == sizeof one, "write to an eventfd");
}
static void waits_by_epoll(void)
{
    int epoll = epoll_create1(0);
    struct epoll_event event = { .events = EPOLLIN, .data.fd = counter };
    epoll_ctl(epoll, EPOLL_CTL_ADD, counter, &event);
    if (device >= 0) {
        struct epoll_event other = { .events = EPOLLIN, .data.fd = device };
        epoll_ctl(epoll, EPOLL_CTL_ADD, device, &other);
    }
    expect(epoll_wait(epoll, &event, 1, 15) == 0, "epoll_wait to its end");
    expect(epoll_wait(epoll, &event, 1, -1) == 1 && event.data.fd == counter, "epoll_wait");
    uint64_t is;
    expect(read(counter, &is, sizeof is) == sizeof is && is == 1, "read of an eventfd");
    close(epoll);
}
static void counted(void) { while_another(42, counts, waits_by_epoll); }

/* The device: one thread waits for a message that does not come, and another sends one meanwhile. */
static void receives(void)
{
    struct cec_msg message = { .timeout = 500 };
    expect(ioctl(device, CEC_RECEIVE, &message) && errno == ETIMEDOUT, "receive");
}
static void sends(void)
{
    struct cec_log_addrs addresses;
    expect(!ioctl(device, CEC_ADAP_G_LOG_ADDRS, &addresses), "addresses");
    struct cec_msg message = { .len = 1, .msg = { addresses.log_addr[0] << 4 } };
    expect(!ioctl(device, CEC_TRANSMIT, &message) && message.tx_status == CEC_TX_STATUS_OK, "send");
}
static void sent(void)
{
    if (device >= 0)
        while_another(100, sends, receives);
}

/* A thread that began before the device was opened. */
static pthread_t early;
static void is_early(void)
{
    usleep(90000);
    sets();
    pthread_join(early, 0);
}

static const struct {
    const char *name;
    void (*way)(void);
} ways[] = {
    { "early", is_early },          { "sleep", sleeps_all },    { "timedwait", times_out }, { "clockwait", times_out_steadily },
    { "signal", signalled },        { "broadcast", broadcast }, { "in-time", signalled_in_time }, { "lock", locked },
    { "rwlock", read_and_written }, { "semaphore", posted },    { "join", ended },          { "cancel", cancel },
    { "futex", futex },             { "yield", yielded },       { "read", read_from_pipe }, { "poll", polled },
    { "select", selected },         { "epoll", counted },       { "receive", sent },        { "c", threads_in_c },
};

int main(int count, char **words)
{
    setvbuf(stdout, 0, _IOLBF, 0);
    sem_init(&semaphore, 0, 0);
    counter = eventfd(0, 0);
    if (pipe(pipes))
        return 2;
    pthread_create(&early, 0, waits, (void *)until_set);
    if (count < 2 || strcmp(words[1], "outside")) {
        device = open("/dev/cec0", O_RDWR);
        if (device < 0)
            return 2;
    }
    for (size_t i = 0; i < sizeof ways / sizeof ways[0]; i++) {
        int64_t began = millis();
        ways[i].way();
        printf("%s %lld\n", ways[i].name, (long long)(millis() - began));
    }
    return 0;
}
