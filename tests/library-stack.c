/* How much stack each call of the library takes, by a thread whose stack is painted before: prints a line for each call.
   The argument is the file of an EDID with an HDMI block. The status is 1 where a call takes more than 512 KB. */
#define _XOPEN_SOURCE 700
#include "hdminet.h"

#include <pthread.h>
#include <stdio.h>
#include <stdlib.h>
#include <string.h>

enum { STACK = 4 << 20, PAINT = 0xa5, MOST = 512 << 10 };
#define TEXT(text) (const uint8_t *)(text), strlen(text)

static const char *topology =
    "device tv tv 4\ndevice amp amp 3\ndevice p1 player 0\ndevice r1 recorder 0\nplug amp tv 1\nplug p1 amp 1\nplug r1 tv 2\n";
static const char *script =
    "label film at 1000000 press p1 play\nexpect within 60000 of film 4>0 image-view-on ack\n"
    "at 1500000 send p1 4>0 standby\nat 2000000 unplug amp\nat 2500000 plug amp tv 3\n"
    "expect state 2900000 tv on\nend 4000000\n";
static const uint8_t frame[] = {0x4f, 0x82, 0x10, 0x00};

/* The same script without its labels and expectations. */
static const char *plain =
    "at 1000000 press p1 play\nat 1500000 send p1 4>0 standby\nat 2000000 unplug amp\nat 2500000 plug amp tv 3\nend 4000000\n";
static uint8_t edid[512], room[1 << 20], edges[1 << 20];
static size_t edid_length, edges_length;
static uint32_t code;

static void nothing(void) { code = 0; }
static void text(void) { code = hdminet_frame_text(frame, sizeof frame, room, sizeof room).code; }
static void bytes(void) { code = hdminet_frame_bytes(TEXT("4>f active-source 1.0.0.0"), room, sizeof room).code; }
static void fault(void) { code = hdminet_edid_fault(edid, edid_length); }
static void edid_text(void) { code = hdminet_edid_text(edid, edid_length, room, sizeof room).code; }
static void port(void) { code = hdminet_edid_port(edid, edid_length, 0x1200, true, room, sizeof room).code; }
static void ddc(void) { code = hdminet_edid_read(edid, edid_length, 0, 128, room, 128).code; }
static void of_text(void) {
    size_t length = hdminet_edid_text(edid, edid_length, edges, sizeof edges).length;
    code = hdminet_edid_bytes(edges, length, room, sizeof room).code;
}
static void meaning(void) { code = hdminet_edid_meaning(edid, edid_length, room, sizeof room).code; }
static void rules(void) {
    bool fails;
    code = hdminet_edid_check(edid, edid_length, room, sizeof room, &fails).code;
}
static void emulate(void) { code = hdminet_emulate(TEXT(topology), TEXT(plain), room, sizeof room).code; }
static void watch(void) { code = hdminet_watch(edges, edges_length, room, sizeof room).code; }

static void emulate_edges(void) {
    hdminet_answer answer = hdminet_emulate_edges(TEXT(topology), TEXT(plain), edges, sizeof edges);
    edges_length = answer.length, code = answer.code;
}

static void check(void) {
    hdminet_counts counts;
    code = hdminet_check(TEXT(topology), TEXT(script), room, sizeof room, &counts).code;
}

/* A session, which is opened, answers lines, and is closed. */
static void session(void) {
    hdminet_live live = HDMINET_LIVE_CLOSED;
    code = hdminet_live_open(&live, TEXT(topology), room, sizeof room).code | hdminet_live_line(&live, TEXT("at 1000000 press p1 play"), room, sizeof room).code;
    code |= hdminet_live_edge(&live, 20000, room, sizeof room).code | hdminet_live_line(&live, TEXT("end 4000000"), room, sizeof room).code;
    hdminet_live_close(&live);
}

static void hear(void) {
    hdminet_receiver receiver = hdminet_receiver_new();
    hdminet_reading reading = {0};
    code = hdminet_receiver_hear(&receiver, 1000, true, &reading).code;
    code |= hdminet_receiver_hear(&receiver, 4700, false, &reading).code;
    code |= hdminet_receiver_wakes_at(&receiver).code | hdminet_receiver_running(&receiver, 5000, &reading);
}

static void send(void) {
    hdminet_sender sender = {0};
    hdminet_heard heard = {0};
    hdminet_reading reading = {0};
    reading.ending = 1;
    code = hdminet_sender_begin(&sender, frame, sizeof frame, 1000) | hdminet_sender_heard(&sender, &heard, 1000);
    code |= hdminet_sender_pulls(&sender, 1500).code | hdminet_sender_next_change(&sender, 1500).code;
    hdminet_sender_fate(&sender, &reading);
}

static void *run(void *call) {
    (*(void (**)(void))call)();
    return NULL;
}

/* How many bytes of a painted stack the thread of a call has written to. */
static size_t taken(void (*call)(void)) {
    uint8_t *stack = NULL;
    pthread_attr_t own;
    pthread_t thread;
    if (posix_memalign((void **)&stack, 4096, STACK) != 0) exit(2);
    memset(stack, PAINT, STACK);
    if (pthread_attr_init(&own) != 0 || pthread_attr_setstack(&own, stack, STACK) != 0) exit(2);
    if (pthread_create(&thread, &own, run, &call) != 0 || pthread_join(thread, NULL) != 0) exit(2);
    size_t clean = 0;
    while (clean < STACK && stack[clean] == PAINT) clean++;
    free(stack);
    return STACK - clean;
}

static const struct { const char *name; void (*call)(void); } calls[] = {
    {"hdminet_frame_text", text}, {"hdminet_frame_bytes", bytes}, {"a receiver", hear}, {"a sender", send},
    {"hdminet_edid_fault", fault}, {"hdminet_edid_text", edid_text}, {"hdminet_edid_port", port},
    {"hdminet_edid_read", ddc}, {"hdminet_edid_text and hdminet_edid_bytes", of_text}, {"hdminet_edid_check", rules},
    {"hdminet_edid_meaning", meaning},
    {"hdminet_emulate", emulate}, {"hdminet_emulate_edges", emulate_edges}, {"hdminet_check", check}, {"hdminet_watch", watch},
    {"a session", session},
};

int main(int count, char **words) {
    FILE *file = count == 2 ? fopen(words[1], "rb") : NULL;
    int failed = 0;
    if (!file) return 2;
    edid_length = fread(edid, 1, sizeof edid, file);
    fclose(file);
    size_t thread = taken(nothing);
    for (size_t at = 0; at < sizeof calls / sizeof *calls; at++) {
        size_t most = taken(calls[at].call) - thread;
        printf("%s: %.1f KB of stack\n", calls[at].name, (double)most / 1024);
        if (code != HDMINET_DONE || most > MOST) printf("  answers %u\n", code), failed = 1;
    }
    return failed;
}
