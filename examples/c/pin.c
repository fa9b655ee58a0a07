/* A playback device that drives a CEC pin bit by bit, over the receiver and the sender of hdminet_wire:
   `tools/suite --dut './pin 100' --kind player --without deck --without menu --without remote` has it in the seat of an emulated
   room. An interrupt of its pin comes 100 microseconds after the edge.

   In a device `heard` is what the interrupt of the pin calls, and the timer of the receiver; `transmit` what the timer of the
   sender calls; `pull` drives the pin, and `pin_is_low` is its level at the call. Here time, edges and calls are those of the
   lines of docs/suite.md.

   An interrupt says what the pin was at its edge, and the receiver hears no more than that, its timer too: so it hears the whole line
   so much later, and samples each bit where it should. Of its acknowledges, which it begins late, it takes that off. */
#include "player.h"

#include <inttypes.h>
#include <stdlib.h>

/* In microseconds: a data bit, the low of a 0, and that of a follower where a bit came too early (CEC 5.2, 7.4). */
enum { BIT = 2400, ZERO = 1500, TOO_EARLY = 3600 };
/* For how many bits the line rests before an attempt anew, a frame of a new initiator, and one more frame (CEC 9.1). */
enum { FREE_AGAIN = 3, FREE_NEW = 5, FREE_NEXT = 7 };
/* How often it tries to send (CEC 7.1), how many frames wait, and how many interrupts. */
enum { ATTEMPTS = 6, MOST_FRAMES = 16, MOST_EDGES = 64 };
/* Numbers of hdminet_wire: the ending of a reading, the place of a receiver, and the fates of a frame. */
enum { SHORT = 2, BEFORE_SAMPLE = 3, DELIVERED = 1, REFUSED = 2, LOST = 3 };

static const uint64_t NEVER = UINT64_MAX;

static uint64_t now, latency;
static bool pin_is_low;
static struct edge { uint64_t at; bool is_low; } interrupts[MOST_EDGES]; /* when those come of edges that are not heard yet */
static size_t edges;
static bool level_is_low;               /* the level after the last edge that was heard */
static uint64_t wakes_at;               /* when the next `wake` comes */

static hdminet_receiver receiver;
static uint64_t heard_at; /* the last edge that it heard */
static int held;          /* the address to which it acknowledges */

static struct waiting { uint8_t bytes[16]; size_t count; uint64_t from; int attempts; } queue[MOST_FRAMES];
static size_t frames;
static hdminet_sender sender;
static bool is_sending;   /* the first frame that waits is on the line */
static uint64_t pulls_at; /* its next fall */
static uint64_t bits_free;

static uint64_t least(uint64_t a, uint64_t b) { return a < b ? a : b; }

static void pull(uint64_t width) { printf("after 0 pull %" PRIu64 "\n", width); }

static void send_frame(unsigned after, const uint8_t *frame, size_t count) {
    if (frames == MOST_FRAMES) return;
    queue[frames] = (struct waiting){.count = count, .from = now + after};
    memcpy(queue[frames++].bytes, frame, count);
}

static void hold(int address) { held = address; }

/* When the first frame that waits may begin: once the line has rested for long enough. */
static uint64_t begins_at(void) {
    if (frames == 0 || is_sending || receiver.place != 0 || receiver.is_low || pin_is_low) return NEVER;
    uint64_t rested = heard_at + bits_free * BIT;
    return rested > queue[0].from ? rested : queue[0].from;
}

/* The timer of the sender: it begins, or pulls for a slot, unless it has stopped. */
static void transmit(void) {
    if (!is_sending) is_sending = hdminet_sender_begin(&sender, queue[0].bytes, queue[0].count, now) == HDMINET_DONE;
    pulls_at = NEVER;
    if (!hdminet_sender_pulls(&sender, now).is_low) return;
    uint64_t rise = hdminet_sender_next_change(&sender, now).at;
    pull(rise - now);
    hdminet_instant fall = hdminet_sender_next_change(&sender, rise);
    if (fall.code == HDMINET_DONE) pulls_at = fall.at;
}

/* What became of an attempt. The frame goes, or is tried again; a poll is not where nobody acknowledged it. */
static void tried_to_send(unsigned fate) {
    bool is_over = fate == DELIVERED || (fate == REFUSED && queue[0].count == 1);
    is_sending = false, pulls_at = NEVER;
    bits_free = is_over ? FREE_NEXT : fate == LOST ? FREE_NEW : FREE_AGAIN;
    if (fate != LOST) queue[0].attempts++;
    if (!is_over && queue[0].attempts < ATTEMPTS) return;
    memmove(queue, queue + 1, --frames * sizeof *queue);
    if (is_over) player_sent(fate == DELIVERED);
}

/* A reading is over that another device began, or won. */
static void hear_frame(const hdminet_reading *reading) {
    uint8_t frame[16];
    hdminet_answer bytes = hdminet_reading_frame(reading, frame, sizeof frame);
    if (reading->ending == SHORT) pull(TOO_EARLY);
    if (bytes.code != HDMINET_DONE) return;
    bool is_to_all = frame[0] % 16 == TO_ALL, last = reading->bits[reading->count - 1];
    if (last == is_to_all) player_hear(frame, bytes.length);
}

/* Whether the slot that has just begun is that of its acknowledge. */
static bool is_to_acknowledge(void) {
    if (receiver.place != BEFORE_SAMPLE || receiver.fall != now || receiver.count % 10 != 9) return false;
    int to = receiver.bits[4] * 8 + receiver.bits[5] * 4 + receiver.bits[6] * 2 + receiver.bits[7];
    return to == held && !(is_sending && sender.state == 0);
}

/* The interrupt of the pin, or the timer of the receiver. */
static void heard(void) {
    hdminet_reading reading = {0};
    if (level_is_low != receiver.is_low) heard_at = now;
    hdminet_heard told = hdminet_receiver_hear(&receiver, now, level_is_low, &reading);
    if (is_sending) hdminet_sender_heard(&sender, &told, now);
    if (is_to_acknowledge()) pull(ZERO - latency);
    if (told.kind < 2) return;
    unsigned fate = is_sending ? hdminet_sender_fate(&sender, &reading).fate : LOST;
    if (is_sending) tried_to_send(fate);
    else bits_free = FREE_NEW;
    if (fate == LOST) hear_frame(&reading);
}

static uint64_t hears_at(void) {
    hdminet_instant wake = hdminet_receiver_wakes_at(&receiver);
    return least(edges ? interrupts[0].at : NEVER, wake.code == HDMINET_DONE ? wake.at : NEVER);
}

/* Calls what is due. */
static void call(void) {
    bool is_heard = hears_at() <= now;
    while (edges && interrupts[0].at <= now) {
        level_is_low = interrupts[0].is_low;
        memmove(interrupts, interrupts + 1, --edges * sizeof *interrupts);
    }
    if (is_heard) heard();
    if (least(begins_at(), pulls_at) <= now) transmit();
}

/* Asks for a call where the next thing is due, unless one comes before. */
static void ask_to_be_woken(void) {
    uint64_t next = least(least(hears_at(), begins_at()), pulls_at);
    if (next <= now) next = now + 1;
    if (wakes_at <= now) wakes_at = NEVER;
    if (next < wakes_at) printf("after %" PRIu64 " wake\n", (wakes_at = next) - now);
}

/* It has its power, or another place. */
static void begin(const char *place) {
    receiver = hdminet_receiver_new();
    pin_is_low = level_is_low = is_sending = false;
    edges = frames = 0;
    held = NONE, heard_at = now, pulls_at = NEVER, bits_free = FREE_NEW;
    player_begin(place);
}

int main(int count, char **words) {
    char line[128], verb[16], rest[40];
    latency = count == 2 ? strtoull(words[1], NULL, 10) : 0;
    if (latency == 0 || latency >= ZERO) return fputs("usage: pin LATENCY\n", stderr), 2;
    while (fgets(line, sizeof line, stdin)) {
        *rest = 0;
        if (sscanf(line, "%15s %" SCNu64 " %39s", verb, &now, rest) < 2) return 2;
        if (!strcmp(verb, "start")) {
            puts("by pin");
            wakes_at = NEVER;
            begin("-");
        } else if (!strcmp(verb, "address")) {
            begin(rest);
        } else if (!strcmp(verb, "line")) {
            pin_is_low = !strcmp(rest, "0");
            if (edges < MOST_EDGES) interrupts[edges++] = (struct edge){now + latency, pin_is_low};
        } else if (!strcmp(verb, "wake")) {
            call();
        } else if (!strcmp(verb, "press")) {
            player_press(rest);
        }
        ask_to_be_woken();
        puts("idle");
        fflush(stdout);
    }
    return 0;
}
