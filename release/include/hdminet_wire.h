/* Calls of hdminet that are proved: frames of the CEC line and their texts, EDIDs, a receiver and a sender of the line.
   They take no memory and make no system call. The object refers to memcpy, memmove and memset, and to nothing else.

   The caller promises, and nothing checks:
   - No pointer is null, also none to 0 bytes. It points to as many bytes as its length says, which are initialised.
   - What a pointer that is not const points to is reached by no other argument and by no other thread during the call.
   - A bool in a struct is 0 or 1.
   - Each field of a struct that is handed in is initialised; = {0} will do where a call is to fill it.
   For every call that keeps these, what stands below is proved: the call returns, and touches nothing but what it was
   handed. Bytes come out into room that the caller lends; after a refusal the room and every state are as they were.

   Times are whole microseconds, at most 3,000,000,000,000. Targets are 64-bit x86 and 64-bit ARM, with or without an
   operating system. docs/library.md explains the calls. */
#ifndef HDMINET_WIRE_H
#define HDMINET_WIRE_H

#include <stdbool.h>
#include <stddef.h>
#include <stdint.h>

#ifdef __cplusplus
extern "C" {
#endif

/* The version of these calls: a thousand times the major version, and the minor one. The minor version rises where calls or numbers
   are added, the major one where something that was there changes (docs/library.md). */
#define HDMINET_VERSION 1001

/* How a call went. */
enum hdminet_code {
    HDMINET_DONE = 0,
    HDMINET_ROOM = 1,   /* the room is too small: the answer has the length that is needed */
    HDMINET_STATE = 2,  /* the receiver, sender or reading is none that a call leaves */
    HDMINET_LATE = 3,   /* the instant is after 3,000,000,000,000 microseconds */
    HDMINET_ABSENT = 4, /* there is none */
    HDMINET_HEARD = 5,  /* what was heard is nothing that a receiver tells */
    HDMINET_CLOSED = 6, /* no session is open, or its script has ended */
    HDMINET_LINE = 7,   /* the line of a session has an end in it, or more than 4,096 bytes */

    HDMINET_FRAME_EMPTY = 10,    /* a frame has at least one byte */
    HDMINET_FRAME_TOO_LONG = 11, /* a frame has at most 16 bytes */

    HDMINET_TEXT_ADDRESS = 20,  /* the text does not begin with two addresses */
    HDMINET_TEXT_NAME = 21,     /* what follows the addresses is no opcode's name */
    HDMINET_TEXT_TOO_LONG = 22, /* there are more than fourteen raw operands */
    HDMINET_TEXT_COUNT = 23,    /* the operands are not as many as the opcode has */
    HDMINET_TEXT_OPERAND = 24,  /* the operands are no words of the opcode */

    HDMINET_EDID_LENGTH = 30,        /* the bytes are neither 128, 256, 384 nor 512 */
    HDMINET_EDID_COUNT = 31,         /* byte 126 is not the number of extensions that are there */
    HDMINET_EDID_HEADER = 32,        /* the base block does not begin as one */
    HDMINET_EDID_CHECKSUM = 33,      /* the sum of the base block is wrong */
    HDMINET_EDID_REVISION = 34,      /* the base block is of neither revision 1.3 nor 1.4 */
    HDMINET_EDID_MAKER = 35,         /* the maker is no three letters */
    HDMINET_EDID_FIRST = 36,         /* the sum of the first extension is wrong */
    HDMINET_EDID_SECOND = 37,        /* the sum of the second extension is wrong */
    HDMINET_EDID_THIRD = 38,         /* the sum of the third extension is wrong */
    HDMINET_EDID_NO_HDMI_BLOCK = 39  /* the EDID has no HDMI block, so no address */
};

/* What a call answers that puts bytes into room. */
typedef struct hdminet_answer {
    uint32_t code;  /* enum hdminet_code */
    uint64_t line;  /* the line at fault, counted from 1, of a text of several lines, or 0 */
    size_t length;  /* how many bytes were put, or are needed (HDMINET_ROOM); 0 after any other refusal */
} hdminet_answer;

/* What a receiver keeps. Callers read it; they set it only by the calls below. */
typedef struct hdminet_receiver {
    bool was_low;   /* whether the line was low before its last change */
    bool is_low;    /* whether the line is low */
    uint8_t place;  /* 0 no reading runs, 1 in the start bit, 2 after its rise, 3 in a slot before its sample, 4 after it */
    uint8_t count;  /* how many bits were sampled so far */
    uint64_t begin; /* the instant at which the reading began, or 0 */
    uint64_t fall;  /* the fall of the slot, or 0 */
    bool bits[160]; /* the bits sampled so far, from slot 1 on */
} hdminet_receiver;

/* What a sender keeps. Callers read it; they set it only by the calls below. */
typedef struct hdminet_sender {
    uint64_t begin;    /* the instant at which it began */
    uint64_t last;     /* the last microsecond in which it pulls, once it has stopped, or 0 */
    uint64_t slot;     /* the slot at which it went out, counted from 1, or 0 */
    uint8_t state;     /* 0 it sends, 1 it went out at a slot, 2 it stopped when the reading ended */
    uint8_t count;     /* how many bytes the frame has */
    uint8_t bytes[16]; /* the bytes of the frame */
} hdminet_sender;

/* A reading of the line. */
typedef struct hdminet_reading {
    uint64_t begin; /* the fall of the start bit */
    uint64_t at;    /* the instant of the ending */
    uint8_t ending; /* 1 complete, 2 short, 3 silent, 4 with a bad start, 5 too long, 6 not ended yet */
    uint8_t count;  /* how many bits were sampled */
    bool bits[160]; /* the bits, from slot 1 on */
} hdminet_reading;

/* What an instant told a receiver. */
typedef struct hdminet_heard {
    uint32_t code;  /* enum hdminet_code: 0 where the receiver heard that instant */
    uint8_t kind;   /* 0 nothing, 1 the bit of a slot, 2 a bit with which the reading ended, 3 that the reading ended */
    uint8_t ending; /* how it ended, as in a reading; 0 where it did not */
    bool bit;       /* the bit, or false */
    uint64_t slot;  /* the slot of a bit with which no reading ended, counted from 1, or 0 */
} hdminet_heard;

/* An instant that may be absent. */
typedef struct hdminet_instant {
    uint32_t code; /* enum hdminet_code: 0 where there is one */
    uint64_t at;   /* in microseconds, or 0 */
} hdminet_instant;

/* Whether a sender pulls the line low. */
typedef struct hdminet_pull {
    uint32_t code; /* enum hdminet_code: 0 where it is known */
    bool is_low;   /* whether it pulls */
} hdminet_pull;

/* What became of a sender's frame. */
typedef struct hdminet_fate {
    uint32_t code; /* enum hdminet_code: 0 where it is known */
    uint8_t fate;  /* 1 delivered, 2 not acknowledged or refused, 3 lost to another initiator, 4 broken; 0 where it is not known */
} hdminet_fate;

/* HDMINET_VERSION of the library at hand: at least that of the header, with the same thousands. */
uint32_t hdminet_version(void);

/* The one text of a frame of 1 to 16 bytes: at most 96 bytes, with no 0 after them. */
hdminet_answer hdminet_frame_text(const uint8_t *bytes, size_t bytes_length, uint8_t *room, size_t room_length);

/* The bytes of the frame that has exactly this text: 1 to 16. */
hdminet_answer hdminet_frame_bytes(const uint8_t *text, size_t text_length, uint8_t *room, size_t room_length);

/* Why bytes are no EDID, as an enum hdminet_code: 0 where they are one, of one block to four. Takes some 60 KB of stack, as
   the next call does. */
uint32_t hdminet_edid_fault(const uint8_t *bytes, size_t bytes_length);

/* The text of an EDID, a line for each part of it: at most 119,400 bytes, mostly some 2,000. */
hdminet_answer hdminet_edid_text(const uint8_t *bytes, size_t bytes_length, uint8_t *room, size_t room_length);

/* The EDID that a port with this physical address passes on of one: 0x1200 is 1.2.0.0. It has the audio of an amplifier
   where one is on the way (HDMI 1.4, 8.7.3). It is as long as the EDID that is read. Takes some 60 KB of stack. */
hdminet_answer hdminet_edid_port(const uint8_t *bytes, size_t bytes_length, uint16_t address, bool from_amplifier,
                                 uint8_t *room, size_t room_length);

/* Fills the room with what is read of these bytes over DDC, from an offset of a segment on: a segment is two blocks, and after
   offset 255 comes offset 0 of the same one. What is missing in a segment with a block is FF; HDMINET_ABSENT where it has none,
   and is not acknowledged. The bytes are one block to four; what they spell does not count. */
hdminet_answer hdminet_edid_read(const uint8_t *bytes, size_t bytes_length, uint8_t segment, uint8_t offset, uint8_t *room,
                                 size_t room_length);

/* A receiver of a line of which nothing is told yet: it is high, and no reading runs. */
hdminet_receiver hdminet_receiver_new(void);

/* Instant t has come, from which on the line is low or not: an edge, or a wake with the level as it was. Answers what that
   instant tells. Where it ends a reading (kind 2 or 3), this one is put in *reading. Instants rise, and none is after the
   wake. */
hdminet_heard hdminet_receiver_hear(hdminet_receiver *receiver, uint64_t t, bool is_low, hdminet_reading *reading);

/* The instant at which the receiver is to hear the line again, where no edge comes first. HDMINET_ABSENT where no reading
   runs. */
hdminet_instant hdminet_receiver_wakes_at(const hdminet_receiver *receiver);

/* Puts the reading that runs in *reading, as far as it was heard: it is open at t. Answers an enum hdminet_code,
   HDMINET_ABSENT where no reading runs. */
uint32_t hdminet_receiver_running(const hdminet_receiver *receiver, uint64_t t, hdminet_reading *reading);

/* The bytes of the frame that a complete reading has read: 1 to 16. HDMINET_ABSENT where it is not complete. Its last bit
   says whether it was acknowledged: 0 takes a frame to one device, and refuses one to all (CEC 6.1). */
hdminet_answer hdminet_reading_frame(const hdminet_reading *reading, uint8_t *room, size_t room_length);

/* Begins to send a frame of 1 to 16 bytes at t: the line falls then. Answers an enum hdminet_code. */
uint32_t hdminet_sender_begin(hdminet_sender *sender, const uint8_t *bytes, size_t bytes_length, uint64_t t);

/* What a receiver told at t of the reading that this sender began. Answers an enum hdminet_code. */
uint32_t hdminet_sender_heard(hdminet_sender *sender, const hdminet_heard *heard, uint64_t t);

/* Whether the sender pulls the line low in microsecond t. */
hdminet_pull hdminet_sender_pulls(const hdminet_sender *sender, uint64_t t);

/* The first instant after t at which the pull changes, where the sender is told nothing more. HDMINET_ABSENT where it
   changes no more. */
hdminet_instant hdminet_sender_next_change(const hdminet_sender *sender, uint64_t t);

/* What became of the frame of a sender that has stopped, by the reading that it began (CEC 9). HDMINET_ABSENT while it sends
   or the reading has not ended. */
hdminet_fate hdminet_sender_fate(const hdminet_sender *sender, const hdminet_reading *reading);

#ifdef __cplusplus
}
#endif

#endif
