/* A receiver of the CEC line. It takes the falls and rises of the line, as `hdminet run --edges` writes them and as
   docs/mon.md has them, and prints what was read, as `hdminet mon` does.

   In a device `edge` is what the interrupt of the line's pin calls, and `wake` what a timer calls that is set to
   hdminet_receiver_wakes_at. Here the instants of both come from the file. */
#include "hdminet_wire.h"

#include <inttypes.h>
#include <stdio.h>
#include <string.h>

static hdminet_receiver receiver;

static void print(const hdminet_reading *reading) {
    static const char *endings[] = {"", "complete", "short", "silent", "bad-start", "long", "open"};
    uint8_t frame[16], text[96];
    printf("%" PRIu64 " %" PRIu64 " %s ", reading->begin, reading->at, endings[reading->ending]);
    hdminet_answer bytes = hdminet_reading_frame(reading, frame, sizeof frame);
    if (bytes.code == HDMINET_DONE) {
        hdminet_answer spelled = hdminet_frame_text(frame, bytes.length, text, sizeof text);
        bool to_all = frame[0] % 16 == 15, last = reading->bits[reading->count - 1];
        printf("%.*s %s\n", (int)spelled.length, (char *)text, to_all ? (last ? "ok" : "refused") : (last ? "nack" : "ack"));
        return;
    }
    for (int slot = 0; slot < reading->count; slot++) putchar(reading->bits[slot] ? '1' : '0');
    puts(reading->count == 0 ? "-" : "");
}

static void hear(uint64_t t, bool is_low) {
    hdminet_reading reading = {0};
    hdminet_heard heard = hdminet_receiver_hear(&receiver, t, is_low, &reading);
    if (heard.code == HDMINET_DONE && heard.kind >= 2) print(&reading);
}

/* The timer: the instants before `until` at which the receiver asked to be woken. */
static void wake(uint64_t until) {
    hdminet_instant next;
    while ((next = hdminet_receiver_wakes_at(&receiver)).code == HDMINET_DONE && next.at < until) hear(next.at, receiver.is_low);
}

/* The interrupt of the pin. */
static void edge(uint64_t t, bool is_low) {
    wake(t);
    hear(t, is_low);
}

int main(void) {
    uint64_t t = 0;
    char line[64], level[4];
    receiver = hdminet_receiver_new();
    while (fgets(line, sizeof line, stdin)) {
        if (sscanf(line, "%" SCNu64 " %3s", &t, level) == 2 && strcmp(level, "end") != 0) edge(t, level[0] == '0');
    }
    wake(t + 1);
    hdminet_reading reading = {0};
    if (hdminet_receiver_running(&receiver, t, &reading) == HDMINET_DONE) print(&reading);
    return 0;
}
