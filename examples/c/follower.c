/* Firmware that follows the frames of a CEC line and acknowledges those to its address, over examples/c/cec_pin.h: it has no library
   and no operating system, and is the same on a board and in an emulated room.

       cc examples/c/follower.c -o follower
       HDMINET=release/hdminet ./follower 300 < examples/c/follower.net

   writes the trace of that room: where interrupts come 300 microseconds late the frame is acknowledged; where they come 700 late the
   initiator has let the line go before the acknowledge begins, and the frame is broken. */
#include "cec_pin.h"

enum { ADDRESS = 8 };
/* In microseconds (CEC 5.2): how long the start bit is low and lasts, how long other bits last, when they are sampled, and how long
   a 0 is low. */
enum { START_LOW_LEAST = 3500, START_LOW_MOST = 3900, START_LEAST = 4300, START_MOST = 4700, BIT_LEAST = 2050, BIT_MOST = 2750, SAMPLE = 1050, ZERO = 1500 };

static uint64_t fall;        /* the last fall of the line */
static int bits = -1;        /* how many bits of the frame were sampled; -1 outside of a frame */
static unsigned last, to;    /* the bits of this block so far, and the destination of the frame */
static bool is_sample_due, is_pulling;

static bool is_within(uint64_t time, uint64_t least, uint64_t most) { return least <= time && time <= most; }

static void firmware_begin(void) { bits = -1; }

static void firmware_edge(uint64_t t, bool is_low) {
    uint64_t since = t - fall;
    if (!is_low) {
        if (bits < 0 && is_within(since, START_LOW_LEAST, START_LOW_MOST)) bits = 0, last = 0;
        return;
    }
    fall = t;
    if (bits < 0 || is_pulling) return;
    if (!(bits == 0 ? is_within(since, START_LEAST, START_MOST) : is_within(since, BIT_LEAST, BIT_MOST))) {
        bits = -1;
        return;
    }
    if (bits % 10 == 9 && to == ADDRESS) {
        cec_pin_set(true);
        is_pulling = true;
        cec_timer_at(t + ZERO > cec_now() ? t + ZERO : cec_now() + 1);
        return;
    }
    is_sample_due = true;
    cec_timer_at(t + SAMPLE > cec_now() ? t + SAMPLE : cec_now() + 1);
}

static void firmware_timer(void) {
    if (is_pulling) {
        cec_pin_set(false);
        is_pulling = false;
        /* (what it has pulled itself was a 0) */
        bits = (last & 1) != 0 ? -1 : bits + 1;
        last = 0;
    } else if (is_sample_due && bits >= 0) {
        is_sample_due = false;
        if (bits % 10 < 9) last = last << 1 | !cec_pin_is_low();
        bits++;
        if (bits == 9) to = last >> 1 & 15;
        if (bits % 10 == 0) bits = (last & 1) != 0 ? -1 : bits, last = 0;
    }
}
