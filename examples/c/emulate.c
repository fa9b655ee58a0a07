/* The emulator over C. Reads a topology, a line `script` and a script from standard input, as `hdminet run` does, and writes the
   trace of the run; with the word `edges` the falls and rises of its line, and with `check` the report of the script's
   expectations, with status 1 where one does not hold. docs/run.md has the texts. */
#include "hdminet.h"

#include <inttypes.h>
#include <stdio.h>
#include <stdlib.h>
#include <string.h>

static uint8_t text[1 << 20], *room;
static size_t room_length = 1 << 16;
static hdminet_counts counts;

/* Where the line `script` begins, or `count`. */
static size_t head(size_t count) {
    for (size_t at = 0; at + 7 <= count; at++)
        if (memcmp(text + at, "script\n", 7) == 0 && (at == 0 || text[at - 1] == '\n')) return at;
    return count;
}

static hdminet_answer run(const char *word, size_t topology, const uint8_t *script, size_t length) {
    if (strcmp(word, "edges") == 0) return hdminet_emulate_edges(text, topology, script, length, room, room_length);
    if (strcmp(word, "check") == 0) return hdminet_check(text, topology, script, length, room, room_length, &counts);
    return hdminet_emulate(text, topology, script, length, room, room_length);
}

int main(int count, char **words) {
    const char *word = count > 1 ? words[1] : "trace";
    size_t length = fread(text, 1, sizeof text, stdin), topology = head(length);
    size_t script = topology < length ? topology + strlen("script\n") : length;
    hdminet_answer answer;
    do {
        /* Where the room is too small, the answer has the length that is needed. */
        room = realloc(room, room_length);
        if (!room) return 2;
        answer = run(word, topology, text + script, length - script);
    } while (answer.code == HDMINET_ROOM && (room_length = answer.length));
    if (answer.code != HDMINET_DONE) {
        fprintf(stderr, "refused with number %" PRIu32 ", line %" PRIu64 "\n", answer.code, answer.line);
        return 2;
    }
    fwrite(room, 1, answer.length, stdout);
    return counts.failed != 0;
}
