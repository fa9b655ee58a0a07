/* Calls of hdminet that are proved and take memory: the emulator, sessions, the report of a script's expectations, the readings of
   an edge file, and of EDIDs their bytes, their check and their meaning. hdminet_wire.h has the others, and what callers promise:
   it holds here too.

   These calls take memory by the program's malloc, realloc and free, and give all of it back before they return, but for what a
   session keeps until it is closed. The caller promises besides:
   - The three functions are of one allocator, and align a block as C asks for.
   - No call comes from a signal handler, nor from the forked child of a process with threads.
   - The stack has 80 KB left, for hdminet_edid_meaning 96 and for hdminet_edid_bytes 128: the emulator takes some 60 KB of it.
     A thread of 192 KB will do for the calls of this header and of hdminet_wire.h.
   - An hdminet_live begins as HDMINET_LIVE_CLOSED, and is as the last call left it, also after a copy, of which one is used.
   Where memory runs out, HDMINET_MEMORY is the answer. */
#ifndef HDMINET_H
#define HDMINET_H

#include "hdminet_wire.h"

#ifdef __cplusplus
extern "C" {
#endif

/* How such a call went, beside the numbers of hdminet_wire.h: those of frames are a script's, with its line, and those of
   EDIDs are the topology's, or of the bytes that a call of EDIDs was handed. */
enum hdminet_run_code {
    HDMINET_EDID_TEXT_SYNTAX = 40, /* on this line of an EDID's text another line has to stand */
    HDMINET_EDID_TEXT_FIELD = 41,  /* a word of this line is at fault */

    HDMINET_MEMORY = 50, /* memory ran out */

    HDMINET_TOPOLOGY_WORD = 60,        /* there is no such line, or it is a second `edid` line */
    HDMINET_TOPOLOGY_NUMBER = 61,      /* a number is ill-formed, or there are more than 15 ports */
    HDMINET_TOPOLOGY_NAME = 62,        /* a name is ill-formed, taken, or not declared above */
    HDMINET_TOPOLOGY_FULL = 63,        /* it is the 16th device */
    HDMINET_TOPOLOGY_SECOND_ROOT = 64, /* it is the second television */
    HDMINET_TOPOLOGY_NO_ROOT = 65,     /* there is no television: the line is that after the last */
    HDMINET_TOPOLOGY_PORT_RANGE = 66,  /* the parent has no such port */
    HDMINET_TOPOLOGY_PORT_TAKEN = 67,  /* a device is plugged in there */
    HDMINET_TOPOLOGY_NOT_LOOSE = 68,   /* the child is plugged in already, or is the television */
    HDMINET_TOPOLOGY_LOOP = 69,        /* the parent is the child or hangs below it */
    HDMINET_TOPOLOGY_HEX = 70,         /* these are no pairs of hex digits */

    HDMINET_SCRIPT_WORD = 80,     /* there is no such line, or no such key */
    HDMINET_SCRIPT_NUMBER = 81,   /* a number is ill-formed, a time is past 1,000,000,000,000, or a frame has other attempts than 1 to 6 */
    HDMINET_SCRIPT_NAME = 82,     /* the topology has no such device */
    HDMINET_SCRIPT_WIDTH = 83,    /* a pulse is not 1 to 10,000 microseconds wide, or a pull not 1 to 10,000,000 */
    HDMINET_SCRIPT_ORDER = 84,    /* a time is before that of the event above, a pulse begins before the end of the pulse or pull above, a pull not after it, or the pin goes back in time */
    HDMINET_SCRIPT_CLOSE = 85,    /* a pulse is less than 25,000 microseconds after the end of the pulse or pull above */
    HDMINET_SCRIPT_TOO_MANY = 86, /* a pulse stands after 4,096 pulses and pulls, or a pull after 16,384 */
    HDMINET_SCRIPT_END = 87,      /* there is no `end`, a line after it, or it is not after every event */
    HDMINET_SCRIPT_HEX = 88,      /* these are no bytes of a frame in hex */

    HDMINET_EXPECT_WORD = 90,   /* there is no such expectation, its pattern is too long, or nothing follows a label */
    HDMINET_EXPECT_NUMBER = 91, /* there is no number in an expectation */
    HDMINET_EXPECT_LABEL = 92,  /* a label stands above already, or none above is the one that is named */
    HDMINET_EXPECT_ORDER = 93,  /* the window of an expectation ends before it begins, or the time of a state is past the end */

    HDMINET_EDGES_LINE = 100, /* a line is ill-formed, its time is past the limit, it is after the end, or there is no end */
    HDMINET_EDGES_ORDER = 101 /* an edge is out of turn, or its time goes back */
};

/* How many tests a report has. */
typedef struct hdminet_counts {
    uint64_t count;  /* all of them: one for each expectation, and for each refused event that none expects */
    uint64_t failed; /* those that failed */
} hdminet_counts;

/* Runs a script on a topology, and puts the trace of the run into the room. */
hdminet_answer hdminet_emulate(const uint8_t *topology, size_t topology_length, const uint8_t *script, size_t script_length,
                               uint8_t *room, size_t room_length);

/* Runs a script on a topology, and puts the edge file of the run into the room: the falls and rises of its line. */
hdminet_answer hdminet_emulate_edges(const uint8_t *topology, size_t topology_length, const uint8_t *script,
                                     size_t script_length, uint8_t *room, size_t room_length);

/* Runs a script without its labels and expectations on a topology, and puts the report into the room whether the run is as
   they have it, in the Test Anything Protocol. Sets *counts, also where the room is too small. */
hdminet_answer hdminet_check(const uint8_t *topology, size_t topology_length, const uint8_t *script, size_t script_length,
                             uint8_t *room, size_t room_length, hdminet_counts *counts);

/* A session (docs/live.md): a run whose script comes line by line. Its caller keeps it where it likes, hands it to one call at a
   time, and reads nothing in it but is_open. It lies in memory of the library, between calls too, which hdminet_live_close gives back.
   Several sessions are apart from each other: threads may each have theirs. */
typedef struct hdminet_live {
    bool is_open; /* whether a session is open */
    void *at;     /* where it lies */
} hdminet_live;

/* No session, which the calls below are handed first: `hdminet_live live = HDMINET_LIVE_CLOSED;`. */
#define HDMINET_LIVE_CLOSED {0}

/* Opens a session of a topology, in the place of the one that is open, and puts into the room what stands before its first answer:
   nothing, where the topology has no EDID. Refused as hdminet_emulate refuses the topology, or where memory runs out; then nothing has
   changed. Where the room is too small (HDMINET_ROOM) the session is open, and hdminet_live_again has the text. */
hdminet_answer hdminet_live_open(hdminet_live *live, const uint8_t *topology, size_t topology_length, uint8_t *room,
                                 size_t room_length);

/* Answers a line, which has no end in it: puts into the room what `hdminet live` writes for it, up to its answer and with that. The
   texts of all lines, one after another, are what it writes of them. Where the room is too small (HDMINET_ROOM) the line is taken, and
   hdminet_live_again has its text. HDMINET_CLOSED where no session is open, or its script has ended, and HDMINET_LINE change nothing;
   after HDMINET_MEMORY the session is closed. */
hdminet_answer hdminet_live_line(hdminet_live *live, const uint8_t *line, size_t line_length, uint8_t *room, size_t room_length);

/* The same of a line `pin T 0`, or `pin T 1`: from t on, in microseconds, the pin pulls the line low, or lets it go. A t that the line
   can't have is refused by the session, as `! 4 number`. */
hdminet_answer hdminet_live_pin(hdminet_live *live, uint64_t t, bool is_low, uint8_t *room, size_t room_length);

/* The same of a line `edge T`: goes on up to the microsecond after the next edge of the line, at most to t, in microseconds. */
hdminet_answer hdminet_live_edge(hdminet_live *live, uint64_t t, uint8_t *room, size_t room_length);

/* Puts once more into the room what the last of these calls put, or would have put. HDMINET_CLOSED where no session is open. */
hdminet_answer hdminet_live_again(hdminet_live *live, uint8_t *room, size_t room_length);

/* Closes the session that is open, and gives its memory back. */
void hdminet_live_close(hdminet_live *live);

/* Puts the lines of what was read on the line of an edge file into the room. */
hdminet_answer hdminet_watch(const uint8_t *edges, size_t edges_length, uint8_t *room, size_t room_length);

/* The bytes of the EDID that has exactly this text, as hdminet_edid_text puts it: 128, 256, 384 or 512. */
hdminet_answer hdminet_edid_bytes(const uint8_t *text, size_t text_length, uint8_t *room, size_t room_length);

/* Puts a line into the room for each rule that the EDID of a display breaks: none, where it keeps all. Sets *fails, also where
   the room is too small: whether one of them is a failure, and not a warning alone. */
hdminet_answer hdminet_edid_check(const uint8_t *bytes, size_t bytes_length, uint8_t *room, size_t room_length, bool *fails);

/* Puts the text of an EDID into the room, and below each line, after two spaces, what it means. */
hdminet_answer hdminet_edid_meaning(const uint8_t *bytes, size_t bytes_length, uint8_t *room, size_t room_length);

#ifdef __cplusplus
}
#endif

#endif
