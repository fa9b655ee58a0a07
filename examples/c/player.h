/* A playback device, as it acts on frames by their texts, which hdminet_wire spells. examples/c/dut.c has it over a seat that
   sends whole frames, examples/c/pin.c over a pin. */
#include "hdminet_wire.h"

#include <stdio.h>
#include <string.h>

enum { NONE = -1, UNREGISTERED = 15, TO_ALL = 15 };

/* What the program does for it: it hands a frame to its sender, so many microseconds from now; it acknowledges this address from
   now on, and gives up the frames that wait. */
static void send_frame(unsigned after, const uint8_t *frame, size_t count);
static void hold(int address);

static const int addresses[] = {4, 8, 11}; /* of a playback device, in the order in which it polls them (CEC 10.2) */
static unsigned tried;                     /* how many of these are taken */
static int la = NONE;                      /* its logical address, UNREGISTERED where all are taken */
static char physical[16];                  /* its physical address, as 2.0.0.0 */
static bool is_on, is_active;

/* What it obeys: how many operands there are at least, and whether the frame comes to it alone, to all, or either way. */
static const struct message { const char *name; unsigned least; bool direct, to_all; } messages[] = {
    {"feature-abort", 2, true, false}, {"standby", 0, true, true}, {"give-osd-name", 0, true, false},
    {"routing-change", 4, false, true}, {"active-source", 2, false, true}, {"give-physical-address", 0, true, false},
    {"request-active-source", 0, false, true}, {"set-stream-path", 2, false, true}, {"give-device-vendor-id", 0, true, false},
    {"give-device-power-status", 0, true, false}, {"get-cec-version", 0, true, false}, {"set-menu-language", 3, false, true},
    {"system-audio-mode-status", 1, true, false},
};

/* Says a frame's text, 20 ms after it heard what it answers. */
static void say(int to, const char *words) {
    char text[96];
    uint8_t frame[16];
    int length = snprintf(text, sizeof text, "%x>%x %s", (unsigned)la, (unsigned)to, words);
    hdminet_answer bytes = hdminet_frame_bytes((const uint8_t *)text, (size_t)length, frame, sizeof frame);
    if (bytes.code == HDMINET_DONE) send_frame(20000, frame, bytes.length);
}

/* Answers a device; who has no address gets no answer (CEC 12.2). */
static void answer(int to, const char *words) {
    if (to != UNREGISTERED) say(to, words);
}

static void say_all(const char *name, const char *rest) {
    char words[64];
    snprintf(words, sizeof words, "%s %s%s", name, physical, rest);
    say(TO_ALL, words);
}

static void poll_next(void) {
    if (tried < 3) send_frame(0, (const uint8_t[]){(uint8_t)(addresses[tried] * 17)}, 1);
    else la = UNREGISTERED;
}

/* It has its power, or another place in the tree: `-` is none. */
static void player_begin(const char *place) {
    la = NONE, tried = 0, is_on = true, is_active = false;
    snprintf(physical, sizeof physical, "%.7s", place);
    if (strcmp(physical, "-")) poll_next();
}

/* An attempt of its own is over: a poll that nobody acknowledged is its address (CEC 10.2.1). */
static void player_sent(bool is_taken) {
    if (la != NONE) return;
    if (is_taken) {
        tried++;
        poll_next();
        return;
    }
    la = addresses[tried];
    hold(la);
    say_all("report-physical-address", " playback");
}

/* A frame for it, whose operands are there, and came as they may. */
static void obey(int initiator, const char *name, const uint8_t *operands) {
    char path[16] = "";
    if (!strcmp(name, "set-stream-path"))
        snprintf(path, sizeof path, "%x.%x.%x.%x", operands[0] / 16u, operands[0] % 16u, operands[1] / 16u, operands[1] % 16u);
    if (!strcmp(name, "standby")) is_on = is_active = false;
    if (!strcmp(name, "routing-change") || !strcmp(name, "active-source")) is_active = false;
    if (*path) is_active = !strcmp(path, physical), is_on = is_on || is_active;
    if (!strcmp(name, "give-osd-name")) answer(initiator, "set-osd-name \"C PLAYER\"");
    if (!strcmp(name, "give-physical-address")) say_all("report-physical-address", " playback");
    if (is_on && is_active && (*path || !strcmp(name, "request-active-source"))) say_all("active-source", "");
    if (!strcmp(name, "give-device-vendor-id")) say(TO_ALL, "device-vendor-id 020000");
    if (!strcmp(name, "give-device-power-status")) answer(initiator, is_on ? "report-power-status on" : "report-power-status standby");
    if (!strcmp(name, "get-cec-version")) answer(initiator, "cec-version 1.4");
}

/* A frame of another device that was acknowledged, or of a broadcast that nobody refused. */
static void player_hear(const uint8_t *frame, size_t count) {
    char text[97], name[40] = "", refusal[40];
    int initiator = frame[0] / 16, to = frame[0] % 16;
    if (la == NONE || la == UNREGISTERED || count < 2 || (to != la && to != TO_ALL)) return;
    hdminet_answer spelled = hdminet_frame_text(frame, count, (uint8_t *)text, sizeof text - 1);
    text[spelled.code == HDMINET_DONE ? spelled.length : 0] = 0;
    sscanf(text, "%*s %39s", name);
    for (size_t at = 0; at < sizeof messages / sizeof *messages; at++) {
        const struct message *known = &messages[at];
        if (strcmp(name, known->name)) continue;
        if (count - 2 >= known->least && (to == TO_ALL ? known->to_all : known->direct)) obey(initiator, name, frame + 2);
        return;
    }
    snprintf(refusal, sizeof refusal, "feature-abort %02x unrecognized", frame[1]);
    if (to != TO_ALL) answer(initiator, refusal); /* CEC 12.3 */
}

/* Somebody presses a key of it. */
static void player_press(const char *key) {
    if (la != NONE && la != UNREGISTERED && !strcmp(key, "play")) {
        is_on = is_active = true;
        say(0, "image-view-on");
        say_all("active-source", "");
    } else if (!strcmp(key, "power")) {
        is_on = !is_on, is_active = false;
    }
}
