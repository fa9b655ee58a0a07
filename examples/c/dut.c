/* A playback device under test, in C: `tools/suite --dut ./dut --kind player --without deck --without menu --without remote`.
   It reads the lines of docs/suite.md, and hands whole frames to the seat's sender. */
#include "player.h"

#include <inttypes.h>

static void send_frame(unsigned after, const uint8_t *frame, size_t count) {
    printf("after %u send ", after);
    for (size_t at = 0; at < count; at++) printf("%02x", frame[at]);
    puts("");
}

static void hold(int address) { printf("after 0 drop\nafter 0 hold %x\n", (unsigned)address); }

int main(void) {
    char line[128], verb[16], words[2][40], verdict[16];
    while (fgets(line, sizeof line, stdin)) {
        *words[0] = *words[1] = *verdict = 0;
        int found = sscanf(line, "%15s %*u %39s %39s %15s", verb, words[0], words[1], verdict);
        bool is_taken = !strcmp(verdict, "ack") || !strcmp(verdict, "ok");
        if (found >= 1 && !strcmp(verb, "start")) {
            player_begin("-");
        } else if (!strcmp(verb, "address")) {
            player_begin(words[0]);
        } else if (!strcmp(verb, "sent")) {
            player_sent(is_taken);
        } else if (!strcmp(verb, "frame") && is_taken) {
            uint8_t frame[16] = {0};
            size_t count = 0;
            while (count < sizeof frame && sscanf(words[1] + 2 * count, "%2" SCNx8, &frame[count]) == 1) count++;
            player_hear(frame, count);
        } else if (!strcmp(verb, "press")) {
            player_press(words[0]);
        }
        puts("idle");
        fflush(stdout);
    }
    return 0;
}
