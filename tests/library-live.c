/* library-live COUNT: the calls of sessions in C: the session of docs/live.md, a text that does not fit, refusals, four sessions in
   threads of their own, COUNT sessions opened and closed, and want of memory at each growth in turn. Linked with
   -Wl,--wrap={malloc,realloc}. It is for valgrind too, which sees that no memory is lost. */
#include "hdminet.h"

#include <pthread.h>
#include <stdio.h>
#include <stdlib.h>
#include <string.h>

static const char *TOPOLOGY = "device tv tv 4\ndevice p1 player 0\nplug p1 tv 1\n";
static const char *TALK[][2] = {
    {"run to 400000", "12000 39150 complete 0>0 nack by tv out -\n50705 77855 complete 4>4 nack by p1 out -\n"
                      "89405 212555 complete 0>f report-physical-address 0.0.0.0 tv ok by tv out -\n"
                      "224105 347255 complete 4>f report-physical-address 1.0.0.0 playback ok by p1 out -\n= 400000\n"},
    {"wait", "= 400000 idle\n"}, {"at 1000000 press p1 play", "= 400000\n"}, {"frob", "! 4 word\n"}, {"pulse 1006500 100", "= 400000\n"},
    {"wait", "1000000 event 3 ok\n= 1000001\n"}, {"wait", "1000000 1006500 short 0 by p1 out -\n= 1010101\n"},
};
enum { LINES = sizeof TALK / sizeof *TALK };

static _Thread_local long refuse_at = -1; /* how many growths of memory are granted before one is refused; -1 for all */
void *__real_malloc(size_t size);
void *__real_realloc(void *block, size_t size);
static bool is_granted(void) { return refuse_at < 0 || refuse_at-- > 0; }
void *__wrap_malloc(size_t size) { return is_granted() ? __real_malloc(size) : NULL; }
void *__wrap_realloc(void *block, size_t size) { return is_granted() ? __real_realloc(block, size) : NULL; }

static void check(bool holds, const char *what) {
    if (holds) return;
    fprintf(stderr, "library-live: failed: %s\n", what);
    exit(1);
}
static hdminet_answer line(hdminet_live *live, const char *text, char *room, size_t length) {
    return hdminet_live_line(live, (const uint8_t *)text, strlen(text), (uint8_t *)room, length);
}
static hdminet_answer begin(hdminet_live *live) {
    uint8_t room[8];
    return hdminet_live_open(live, (const uint8_t *)TOPOLOGY, strlen(TOPOLOGY), room, sizeof room);
}
static bool is(hdminet_answer answer, const char *room, const char *text) {
    return answer.code == HDMINET_DONE && answer.length == strlen(text) && memcmp(room, text, answer.length) == 0;
}

static void *talk(void *none) {
    char room[512];
    hdminet_live live = HDMINET_LIVE_CLOSED;
    check(begin(&live).code == HDMINET_DONE && live.is_open, "opened");
    for (size_t at = 0; at < LINES; at++) check(is(line(&live, TALK[at][0], room, sizeof room), room, TALK[at][1]), TALK[at][0]);
    hdminet_live_close(&live);
    check(!live.is_open, "closed");
    return none;
}

static void too_small(void) {
    char room[512] = "as it was", small[4];
    hdminet_live live = HDMINET_LIVE_CLOSED;
    check(line(&live, "wait", room, sizeof room).code == HDMINET_CLOSED && strcmp(room, "as it was") == 0, "none is open");
    check(begin(&live).code == HDMINET_DONE, "opened");
    hdminet_answer answer = line(&live, TALK[0][0], small, sizeof small);
    check(answer.code == HDMINET_ROOM && answer.length == strlen(TALK[0][1]), "too small");
    check(is(hdminet_live_again(&live, (uint8_t *)room, sizeof room), room, TALK[0][1]), "again");
    check(line(&live, "wait\n", room, sizeof room).code == HDMINET_LINE, "a line feed");
    check(is(hdminet_live_pin(&live, 500000, true, (uint8_t *)room, sizeof room), room, "= 400000\n"), "the pin");
    check(is(hdminet_live_edge(&live, 600000, (uint8_t *)room, sizeof room), room, "~ 500000 0\n= 500001\n"), "its edge");
    check(hdminet_live_open(&live, (const uint8_t *)"frob\n", 5, (uint8_t *)room, sizeof room).code == HDMINET_TOPOLOGY_WORD && live.is_open, "a topology");
    answer = line(&live, "end 500001", small, sizeof small);
    check(answer.code == HDMINET_ROOM && answer.length == 389, "the end");
    check(line(&live, "wait", room, sizeof room).code == HDMINET_CLOSED, "it has ended");
    check(hdminet_live_again(&live, (uint8_t *)room, sizeof room).length == answer.length && memcmp(room, "500000 500001 bad-start - by - out -\n", 37) == 0, "the rest of its trace");
    check(begin(&live).code == HDMINET_DONE, "another one in its place");
    hdminet_live_close(&live);
    hdminet_live_close(&live);
}

/* Each growth is refused in turn, until none is left: then nothing is open, and all memory is given back. */
static void refused(void) {
    for (long at = 0, done = 0; !done; at++) {
        char room[512];
        hdminet_live live = HDMINET_LIVE_CLOSED;
        refuse_at = at;
        hdminet_answer answer = begin(&live);
        for (size_t k = 0; answer.code == HDMINET_DONE && k < LINES; k++) {
            answer = line(&live, TALK[k][0], room, sizeof room);
            check(answer.code != HDMINET_DONE || is(answer, room, TALK[k][1]), "a line with little memory");
        }
        done = refuse_at >= 0;
        refuse_at = -1;
        check(done || (answer.code == HDMINET_MEMORY && !live.is_open), "want of memory");
        hdminet_live_close(&live);
        check(at < 10000, "no end of growths");
    }
}

int main(int count, char **words) {
    pthread_t threads[4];
    check(hdminet_version() / 1000 == HDMINET_VERSION / 1000 && hdminet_version() >= HDMINET_VERSION, "the version");
    talk(NULL);
    too_small();
    refused();
    for (int at = 0; at < 4; at++) check(pthread_create(threads + at, NULL, talk, NULL) == 0, "a thread");
    for (int at = 0; at < 4; at++) pthread_join(threads[at], NULL);
    for (long at = count > 1 ? atol(words[1]) : 100; at > 0; at--) talk(NULL);
    puts("library-live: ok");
    return 0;
}
