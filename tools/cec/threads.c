/* What a thread waits for of another one, in the room's time: conditions, locks, semaphores, ends of threads, futexes by syscall().
 *
 * The threads that wait so stand in a list of the process, by the address of what they wait for. Who signals, unlocks, posts or ends takes them off it, and
 * has the server wake each. A program of one thread has none of it: all goes to the C library. */
#define _GNU_SOURCE
#include "shim.h"
#include <errno.h>
#include <limits.h>
#include <linux/futex.h>
#include <pthread.h>
#include <sched.h>
#include <semaphore.h>
#include <stdarg.h>
#include <stdlib.h>
#include <string.h>
#include <sys/syscall.h>
#include <threads.h>
#include <time.h>
#include <unistd.h>

/* How long, in microseconds of the machine, a thread holds still where there is no server any more. */
enum { NO_SERVER = 10000 };

/* How many threads the process has beside its first, in the room's time. */
static int threads;
int has_threads(void) { return __atomic_load_n(&threads, __ATOMIC_SEQ_CST) > 0; }

/* A thread that waits for another one; in order of arrival. Each wait has a number. */
struct waiting {
    const void *of;
    pthread_t by;
    uint32_t thread, serial;
    int is_woken;
    struct waiting *next;
};
static struct waiting *first_waiting;
static uint32_t last_serial;

static void enlist(struct waiting *mine, const void *of)
{
    *mine = (struct waiting){ .of = of, .by = pthread_self(), .thread = question_of(WAIT, 0, 0).thread };
    hold();
    mine->serial = ++last_serial ? last_serial : ++last_serial;
    struct waiting **last = &first_waiting;
    while (*last)
        last = &(*last)->next;
    __atomic_store_n(last, mine, __ATOMIC_SEQ_CST);
    let_go();
}

/* Takes a thread off the list. Returns whether another one has done so. */
static int delist(struct waiting *mine)
{
    hold();
    for (struct waiting **at = &first_waiting; *at; at = &(*at)->next)
        if (*at == mine) {
            *at = mine->next;
            break;
        }
    let_go();
    return mine->is_woken;
}

/* Asks the server something that it answers at once. */
static void tell(const struct question *question)
{
    struct answer answer;
    int saved = errno, link = connection();
    if (link >= 0) {
        if (!send_question(link, question, -1))
            while (receive_answer(link, &answer) < 0 && errno == EINTR)
                ;
        close_below(link);
    }
    errno = saved;
}

/* Wakes at most so many threads that wait for this, or (where that is 0) this thread, whatever it waits for. Returns how many. */
static int wake_those(const void *of, pthread_t thread, int most)
{
    int woken = 0;
    __atomic_thread_fence(__ATOMIC_SEQ_CST);
    while (woken < most && __atomic_load_n(&first_waiting, __ATOMIC_SEQ_CST)) {
        struct question question = { .asked = 0 };
        hold();
        for (struct waiting **at = &first_waiting; *at; at = &(*at)->next)
            if (of ? (*at)->of == of : pthread_equal((*at)->by, thread)) {
                question = question_of(WAKE, (*at)->thread, (*at)->serial);
                (*at)->is_woken = 1;
                *at = (*at)->next;
                break;
            }
        let_go();
        if (!question.asked)
            break;
        tell(&question);
        woken++;
    }
    return woken;
}
static int wake(const void *of, int most) { return wake_those(of, 0, most); }

/* Waits until another thread has taken this one off the list: 0; ETIMEDOUT at this instant of the room; or EINTR, where a signal ends the wait. A thread that
 * is cancelled is woken first, since the list goes over its stack. */
static int wait_for(struct waiting *mine, uint64_t instant, int ends_by_signal)
{
    int cancels, saved = errno, result, why;
    pthread_setcancelstate(PTHREAD_CANCEL_DISABLE, &cancels);
    do {
        result = wait_in_room(until(instant), 0, 0, -1, mine->serial);
        why = result < 0 ? errno : ETIMEDOUT;
    } while (result < 0 && why == EINTR && !ends_by_signal);
    if (result < 0 && why != EINTR) {
        BELOW(usleep);
        below(NO_SERVER);
    }
    int is_woken = delist(mine);
    pthread_setcancelstate(cancels, 0);
    errno = saved;
    return is_woken ? 0 : why == EINTR ? EINTR : ETIMEDOUT;
}

/* Takes what is free now, by a function that says EBUSY where it is not, or as soon as it is; ETIMEDOUT at an instant, EINTR where a signal ends the wait. */
static int take(void *of, int (*tries)(void *), uint64_t instant, int ends_by_signal)
{
    for (;;) {
        struct waiting mine;
        enlist(&mine, of);
        int result = tries(of);
        if (result != EBUSY) {
            if (delist(&mine))
                wake(of, 1);
            return result;
        }
        result = wait_for(&mine, instant, ends_by_signal);
        if (result == EINTR || (result && instant != FOR_EVER))
            return result;
    }
}

/* A limit as the C library takes it, where the process waits by the clock on the wall: what is left of it in the room's time, from now on. */
static struct timespec by_wall(const struct timespec *at)
{
    if (!is_in_room_time())
        return *at;
    uint64_t left = until(instant_of(at));
    struct timespec now;
    BELOW(clock_gettime);
    below(is_of_real(at) ? CLOCK_REALTIME : CLOCK_MONOTONIC, &now);
    uint64_t nanos = now.tv_nsec + left * 1000;
    return (struct timespec){ now.tv_sec + nanos / 1000000000, nanos % 1000000000 };
}

/* What two processes share is left to the C library: another process tells nobody here. These are the fields of glibc. */
enum { SHARED_MUTEX = 128, SHARED_CONDITION = 1, PLACE_IN_SEMAPHORE = 2 };
static int is_shared_condition(const pthread_cond_t *of) { return of->__data.__wrefs & SHARED_CONDITION; }
static int is_shared_semaphore(const sem_t *of) { return ((const int *)of)[PLACE_IN_SEMAPHORE]; }

/* Mutexes. One that is its own thread's is left to the C library, too. */
static int try_mutex(void *of) { return pthread_mutex_trylock(of); }
static int is_left(const pthread_mutex_t *of)
{
    return of->__data.__kind & SHARED_MUTEX || of->__data.__owner == (int)question_of(WAIT, 0, 0).thread;
}
static int take_mutex(pthread_mutex_t *of, uint64_t instant)
{
    int result = pthread_mutex_trylock(of);
    return result != EBUSY || is_left(of) ? result : take(of, try_mutex, instant, 0);
}
int pthread_mutex_lock(pthread_mutex_t *of)
{
    BELOW(pthread_mutex_lock);
    int result = has_threads() ? take_mutex(of, FOR_EVER) : EBUSY;
    return result == EBUSY ? below(of) : result;
}
int pthread_mutex_timedlock(pthread_mutex_t *restrict of, const struct timespec *restrict at)
{
    BELOW(pthread_mutex_timedlock);
    struct timespec limit = by_wall(at);
    int result = has_threads() ? take_mutex(of, instant_of(at)) : EBUSY;
    return result == EBUSY ? below(of, &limit) : result;
}
int pthread_mutex_clocklock(pthread_mutex_t *restrict of, clockid_t which, const struct timespec *restrict at)
{
    BELOW(pthread_mutex_clocklock);
    struct timespec limit = by_wall(at);
    int result = has_threads() ? take_mutex(of, instant_of(at)) : EBUSY;
    return result == EBUSY ? below(of, which, &limit) : result;
}
int pthread_mutex_unlock(pthread_mutex_t *of)
{
    BELOW(pthread_mutex_unlock);
    int is_held_on = of->__data.__count > 1, result = below(of);
    if (!result && !is_held_on && has_threads())
        wake(of, 1);
    return result;
}

/* Locks for readers and writers. */
static int try_reading(void *of) { return pthread_rwlock_tryrdlock(of); }
static int try_writing(void *of) { return pthread_rwlock_trywrlock(of); }
#define TAKES_RWLOCK(name, tries)                          \
    int name(pthread_rwlock_t *of)                         \
    {                                                      \
        BELOW(name);                                       \
        return has_threads() && !of->__data.__shared ? take(of, tries, FOR_EVER, 0) : below(of); \
    }
#define TAKES_RWLOCK_UNTIL(name, tries)                    \
    int name(pthread_rwlock_t *restrict of, const struct timespec *restrict at) \
    {                                                      \
        BELOW(name);                                       \
        struct timespec limit = by_wall(at);               \
        return has_threads() && !of->__data.__shared ? take(of, tries, instant_of(at), 0) : below(of, &limit); \
    }
#define TAKES_RWLOCK_BY_CLOCK(name, tries)                 \
    int name(pthread_rwlock_t *restrict of, clockid_t which, const struct timespec *restrict at) \
    {                                                      \
        BELOW(name);                                       \
        struct timespec limit = by_wall(at);               \
        return has_threads() && !of->__data.__shared ? take(of, tries, instant_of(at), 0) : below(of, which, &limit); \
    }
TAKES_RWLOCK(pthread_rwlock_rdlock, try_reading)
TAKES_RWLOCK(pthread_rwlock_wrlock, try_writing)
TAKES_RWLOCK_UNTIL(pthread_rwlock_timedrdlock, try_reading)
TAKES_RWLOCK_UNTIL(pthread_rwlock_timedwrlock, try_writing)
TAKES_RWLOCK_BY_CLOCK(pthread_rwlock_clockrdlock, try_reading)
TAKES_RWLOCK_BY_CLOCK(pthread_rwlock_clockwrlock, try_writing)
int pthread_rwlock_unlock(pthread_rwlock_t *of)
{
    BELOW(pthread_rwlock_unlock);
    int result = below(of);
    if (!result && has_threads())
        wake(of, INT_MAX);
    return result;
}

/* Semaphores. */
static int try_semaphore(void *of) { return !sem_trywait(of) ? 0 : errno == EAGAIN ? EBUSY : errno; }
static int take_semaphore(sem_t *of, uint64_t instant)
{
    pthread_testcancel();
    int saved = errno, result = take(of, try_semaphore, instant, 1);
    pthread_testcancel();
    errno = result ? result : saved;
    return result ? -1 : 0;
}
int sem_wait(sem_t *of)
{
    BELOW(sem_wait);
    return has_threads() && !is_shared_semaphore(of) ? take_semaphore(of, FOR_EVER) : below(of);
}
int sem_timedwait(sem_t *restrict of, const struct timespec *restrict at)
{
    BELOW(sem_timedwait);
    struct timespec limit = by_wall(at);
    return waits_in_room() && !is_shared_semaphore(of) ? take_semaphore(of, instant_of(at)) : below(of, &limit);
}
int sem_clockwait(sem_t *restrict of, clockid_t which, const struct timespec *restrict at)
{
    BELOW(sem_clockwait);
    struct timespec limit = by_wall(at);
    return waits_in_room() && !is_shared_semaphore(of) ? take_semaphore(of, instant_of(at)) : below(of, which, &limit);
}
int sem_post(sem_t *of)
{
    BELOW(sem_post);
    int result = below(of);
    if (!result && has_threads())
        wake(of, 1);
    return result;
}

/* Conditions. */
static int await(pthread_cond_t *of, pthread_mutex_t *mutex, uint64_t instant)
{
    struct waiting mine;
    pthread_testcancel();
    enlist(&mine, of);
    int result = pthread_mutex_unlock(mutex);
    if (result) {
        delist(&mine);
        return result;
    }
    result = wait_for(&mine, instant, 0);
    int locked = pthread_mutex_lock(mutex);
    pthread_testcancel();
    return locked ? locked : instant == FOR_EVER ? 0 : result;
}
int pthread_cond_wait(pthread_cond_t *restrict of, pthread_mutex_t *restrict mutex)
{
    BELOW(pthread_cond_wait);
    return has_threads() && !is_shared_condition(of) ? await(of, mutex, FOR_EVER) : below(of, mutex);
}
int pthread_cond_timedwait(pthread_cond_t *restrict of, pthread_mutex_t *restrict mutex, const struct timespec *restrict at)
{
    BELOW(pthread_cond_timedwait);
    struct timespec limit = by_wall(at);
    return waits_in_room() && !is_shared_condition(of) ? await(of, mutex, instant_of(at)) : below(of, mutex, &limit);
}
int pthread_cond_clockwait(pthread_cond_t *restrict of, pthread_mutex_t *restrict mutex, clockid_t which, const struct timespec *restrict at)
{
    BELOW(pthread_cond_clockwait);
    struct timespec limit = by_wall(at);
    return waits_in_room() && !is_shared_condition(of) ? await(of, mutex, instant_of(at)) : below(of, mutex, which, &limit);
}
int pthread_cond_signal(pthread_cond_t *of)
{
    BELOW(pthread_cond_signal);
    wake(of, 1);
    return below(of);
}
int pthread_cond_broadcast(pthread_cond_t *of)
{
    BELOW(pthread_cond_broadcast);
    wake(of, INT_MAX);
    return below(of);
}

/* Futexes of programs that have no other way, as std::atomic's wait, and locks of other languages. */
long syscall(long number, ...)
{
    long given[6];
    va_list rest;
    va_start(rest, number);
    for (int i = 0; i < 6; i++)
        given[i] = va_arg(rest, long);
    va_end(rest);
    BELOW(syscall);
    int command = number == SYS_futex && waits_in_room() ? given[1] & FUTEX_CMD_MASK : -1;
    if (command == FUTEX_WAIT || command == FUTEX_WAIT_BITSET) {
        const struct timespec *limit = (const struct timespec *)given[3];
        uint64_t instant = !limit ? FOR_EVER : command == FUTEX_WAIT ? in(micros_of(limit)) : instant_of(limit);
        struct waiting mine;
        enlist(&mine, (const void *)given[0]);
        int is_changed = __atomic_load_n((const uint32_t *)given[0], __ATOMIC_SEQ_CST) != (uint32_t)given[2];
        int why = is_changed ? delist(&mine), EAGAIN : wait_for(&mine, instant, 1);
        errno = why ? why : errno;
        return why && (limit || why != ETIMEDOUT) ? -1 : 0;
    }
    long result = below(number, given[0], given[1], given[2], given[3], given[4], given[5]);
    if (result < 0 || command < 0)
        return result;
    if (command == FUTEX_WAKE || command == FUTEX_WAKE_BITSET)
        result += wake((const void *)given[0], given[2]);
    if (command == FUTEX_WAKE_OP)
        result += wake((const void *)given[0], given[2]) + wake((const void *)given[4], given[3]);
    /* Who would wait for the other word looks for himself. */
    if (command == FUTEX_REQUEUE || command == FUTEX_CMP_REQUEUE)
        result += wake((const void *)given[0], INT_MAX);
    return result;
}

/* Threads: which there are, and which of them are over. */
struct life {
    pthread_t thread;
    int is_over;
    struct life *next;
};
static struct life *lives;
static pthread_key_t at_end;

static struct life *life_of(pthread_t thread)
{
    struct life *at = lives;
    while (at && !pthread_equal(at->thread, thread))
        at = at->next;
    return at;
}
/* A thread is there; one that has its number is no more, since it was detached. */
static void begin_life(pthread_t thread)
{
    hold();
    struct life *life = life_of(thread);
    if (!life && (life = malloc(sizeof *life))) {
        life->next = lives;
        lives = life;
    }
    if (life) {
        life->thread = thread;
        life->is_over = 0;
    }
    let_go();
}
static int is_over(pthread_t thread)
{
    hold();
    struct life *life = life_of(thread);
    int is = !life || life->is_over;
    let_go();
    return is;
}
static void forget_life(pthread_t thread)
{
    hold();
    for (struct life **at = &lives; *at; at = &(*at)->next)
        if (pthread_equal((*at)->thread, thread)) {
            struct life *life = *at;
            *at = life->next;
            free(life);
            break;
        }
    let_go();
}

/* A thread ends, in the last of the rounds in which destructors of its data are called: other ones of its data may still wait. */
static void end(void *round)
{
    if ((uintptr_t)round < PTHREAD_DESTRUCTOR_ITERATIONS) {
        pthread_setspecific(at_end, (void *)((uintptr_t)round + 1));
        return;
    }
    hold();
    struct life *life = life_of(pthread_self());
    if (life)
        life->is_over = 1;
    let_go();
    wake((const void *)pthread_self(), INT_MAX);
    __atomic_sub_fetch(&threads, 1, __ATOMIC_SEQ_CST);
    struct question question = question_of(END, 0, 0);
    tell(&question);
}

struct start {
    void *(*run)(void *);
    void *with;
    sem_t is_known;
};
/* A thread begins: the server knows of it before who has made it goes on, and lets it go in its turn. */
static void *begin(void *given)
{
    struct start *start = given;
    void *(*run)(void *) = start->run, *with = start->with;
    struct question question = question_of(BEGIN, 0, 0);
    struct answer answer;
    int link = connection(), is_known = link >= 0 && !send_question(link, &question, -1);
    while (is_known && receive_answer(link, &answer) < 0)
        is_known = errno == EINTR;
    begin_life(pthread_self());
    pthread_setspecific(at_end, (void *)1);
    BELOW(sem_post);
    below(&start->is_known);
    while (is_known && receive_answer(link, &answer) < 0)
        is_known = errno == EINTR;
    if (link >= 0)
        close_below(link);
    return run(with);
}

static void forget_threads(void)
{
    threads = 0;
    first_waiting = 0;
    let_go();
}
static void prepare(void)
{
    pthread_key_create(&at_end, end);
    pthread_setspecific(at_end, (void *)1);
    pthread_atfork(hold, let_go, forget_threads);
}
int pthread_create(pthread_t *restrict thread, const pthread_attr_t *restrict attributes, void *(*run)(void *), void *restrict with)
{
    static pthread_once_t is_prepared = PTHREAD_ONCE_INIT;
    BELOW(pthread_create);
    if (!is_in_room_time())
        return below(thread, attributes, run, with);
    pthread_once(&is_prepared, prepare);
    struct start start = { .run = run, .with = with };
    sem_init(&start.is_known, 0, 0);
    __atomic_add_fetch(&threads, 1, __ATOMIC_SEQ_CST);
    int result = below(thread, attributes, begin, &start);
    if (result)
        __atomic_sub_fetch(&threads, 1, __ATOMIC_SEQ_CST);
    BELOW_AS(wait_below, sem_wait);
    while (!result && wait_below(&start.is_known) && errno == EINTR)
        ;
    return result;
}

int pthread_cancel(pthread_t thread)
{
    BELOW(pthread_cancel);
    int result = below(thread);
    if (!result && has_threads())
        wake_those(0, thread, 1);
    return result;
}

/* Waits for the end of a thread, until an instant. */
static int await_end(pthread_t thread, uint64_t instant)
{
    int result = 0;
    pthread_testcancel();
    while (has_threads() && !result && !is_over(thread)) {
        struct waiting mine;
        enlist(&mine, (const void *)thread);
        result = is_over(thread) ? delist(&mine), 0 : wait_for(&mine, instant, 0);
        result = instant == FOR_EVER ? 0 : result;
        pthread_testcancel();
    }
    return result;
}
/* One that is over for the room is so for the C library in a moment. */
static int joined(pthread_t thread, void **value)
{
    BELOW(pthread_join);
    int result = below(thread, value);
    if (!result)
        forget_life(thread);
    return result;
}
int pthread_join(pthread_t thread, void **value)
{
    await_end(thread, FOR_EVER);
    return joined(thread, value);
}
int pthread_tryjoin_np(pthread_t thread, void **value)
{
    BELOW(pthread_tryjoin_np);
    if (!is_in_room_time())
        return below(thread, value);
    return is_over(thread) ? joined(thread, value) : EBUSY;
}
int pthread_timedjoin_np(pthread_t thread, void **value, const struct timespec *at)
{
    BELOW(pthread_timedjoin_np);
    if (!is_in_room_time())
        return below(thread, value, at);
    int result = await_end(thread, instant_of(at));
    return result ? result : joined(thread, value);
}
int pthread_clockjoin_np(pthread_t thread, void **value, clockid_t which, const struct timespec *at)
{
    BELOW(pthread_clockjoin_np);
    if (!is_in_room_time())
        return below(thread, value, which, at);
    int result = await_end(thread, instant_of(at));
    return result ? result : joined(thread, value);
}

/* C's own threads, conditions and locks are those above by other names. */
struct start_in_c {
    thrd_start_t run;
    void *with;
};
static void *begin_in_c(void *given)
{
    struct start_in_c start = *(struct start_in_c *)given;
    free(given);
    return (void *)(intptr_t)start.run(start.with);
}
static int in_c(int result)
{
    return !result ? thrd_success : result == ETIMEDOUT ? thrd_timedout : result == EBUSY ? thrd_busy : result == ENOMEM ? thrd_nomem : thrd_error;
}
int thrd_create(thrd_t *thread, thrd_start_t run, void *with)
{
    struct start_in_c *start = malloc(sizeof *start);
    if (!start)
        return thrd_nomem;
    *start = (struct start_in_c){ run, with };
    int result = pthread_create(thread, 0, begin_in_c, start);
    if (result)
        free(start);
    return in_c(result == EAGAIN ? ENOMEM : result);
}
int thrd_join(thrd_t thread, int *value)
{
    void *is = 0;
    int result = pthread_join(thread, &is);
    if (!result && value)
        *value = (intptr_t)is;
    return in_c(result);
}
int thrd_sleep(const struct timespec *of, struct timespec *left)
{
    int result = clock_nanosleep(CLOCK_REALTIME, 0, of, left);
    return result == EINTR ? -1 : result ? -2 : 0;
}
void thrd_yield(void) { sched_yield(); }
int mtx_lock(mtx_t *of) { return in_c(pthread_mutex_lock((pthread_mutex_t *)of)); }
int mtx_timedlock(mtx_t *restrict of, const struct timespec *restrict at) { return in_c(pthread_mutex_timedlock((pthread_mutex_t *)of, at)); }
int mtx_unlock(mtx_t *of) { return in_c(pthread_mutex_unlock((pthread_mutex_t *)of)); }
int cnd_wait(cnd_t *of, mtx_t *mutex) { return in_c(pthread_cond_wait((pthread_cond_t *)of, (pthread_mutex_t *)mutex)); }
int cnd_timedwait(cnd_t *restrict of, mtx_t *restrict mutex, const struct timespec *restrict at)
{
    return in_c(pthread_cond_timedwait((pthread_cond_t *)of, (pthread_mutex_t *)mutex, at));
}
int cnd_signal(cnd_t *of) { return in_c(pthread_cond_signal((pthread_cond_t *)of)); }
int cnd_broadcast(cnd_t *of) { return in_c(pthread_cond_broadcast((pthread_cond_t *)of)); }
