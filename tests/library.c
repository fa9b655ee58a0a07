/* What a caller of the library sees, over C: frames both ways, refusals, room that is too small, states that are spoilt, a
   sender and a receiver on one line. Each failed line is printed; the status is 0 where none is. The first argument is
   the file of an EDID with an HDMI block, the second one its text, the third how many random frames; a fourth and a fifth
   are files to which the texts of those frames and their bytes in hex are written. */
#include "hdminet_wire.h"

#include <inttypes.h>
#include <stdio.h>
#include <stdlib.h>
#include <string.h>
#include <time.h>

static int failed;

#define HOLDS(what) do { if (!(what)) { printf("%s:%d: %s\n", __FILE__, __LINE__, #what); failed = 1; } } while (0)

static uint64_t random_state = 1;

static uint32_t random_below(uint32_t below) {
    random_state = random_state * 6364136223846793005u + 1442695040888963407u;
    return (uint32_t)(random_state >> 33) % below;
}

static size_t read_file(const char *name, uint8_t *bytes, size_t most) {
    FILE *file = fopen(name, "rb");
    if (!file) { perror(name); exit(2); }
    size_t count = fread(bytes, 1, most, file);
    fclose(file);
    return count;
}

static bool is_filled(const uint8_t *room, size_t from, size_t to) {
    for (size_t i = from; i < to; i++) if (room[i] != 0xa5) return false;
    return true;
}

/* Random frames to text and back. Written to the files, where there are files, they are what the program has to read. */
static void random_frames(long count, FILE *texts, FILE *dumps) {
    uint8_t frame[16], room[128], back[16];
    long wrong = 0;
    clock_t begin = clock();
    for (long i = 0; i < count; i++) {
        size_t length = 1 + random_below(16);
        for (size_t k = 0; k < length; k++) frame[k] = (uint8_t)random_below(256);
        hdminet_answer text = hdminet_frame_text(frame, length, room, sizeof room);
        hdminet_answer answer = hdminet_frame_bytes(room, text.length, back, sizeof back);
        wrong += text.code != HDMINET_DONE || answer.code != HDMINET_DONE || answer.length != length || memcmp(frame, back, length) != 0;
        if (texts && dumps) {
            fprintf(texts, "%.*s\n", (int)text.length, (char *)room);
            for (size_t k = 0; k < length; k++) fprintf(dumps, "%02x", back[k]);
            fputc('\n', dumps);
        }
    }
    HOLDS(wrong == 0);
    double took = (double)(clock() - begin) / CLOCKS_PER_SEC;
    if (!texts && count > 0) printf("%ld random frames to text and back: %.2f microseconds each\n", count, took * 1e6 / (double)count);
}

/* A text with one byte turned is refused and leaves the room, or is the text of a frame itself. */
static void turned_texts(long count) {
    uint8_t frame[16], text[128], room[16], again[128];
    long wrong = 0, taken = 0;
    for (long i = 0; i < count; i++) {
        size_t length = 1 + random_below(16);
        for (size_t k = 0; k < length; k++) frame[k] = (uint8_t)random_below(256);
        hdminet_answer spelled = hdminet_frame_text(frame, length, text, sizeof text);
        text[random_below((uint32_t)spelled.length)] ^= (uint8_t)(1 + random_below(255));
        memset(room, 0xa5, sizeof room);
        hdminet_answer answer = hdminet_frame_bytes(text, spelled.length, room, sizeof room);
        if (answer.code == HDMINET_DONE) {
            hdminet_answer back = hdminet_frame_text(room, answer.length, again, sizeof again);
            wrong += back.code != HDMINET_DONE || back.length != spelled.length || memcmp(text, again, back.length) != 0;
            taken++;
        } else {
            wrong += answer.code < HDMINET_TEXT_ADDRESS || answer.code > HDMINET_TEXT_OPERAND || answer.length != 0 || !is_filled(room, 0, sizeof room);
        }
    }
    HOLDS(wrong == 0 && (count < 1000 || (taken > 0 && taken < count)));
}

/* The headers ask for pointers that are not null, also for 0 bytes. These are answered as none all the same. */
static void nothing_at_null(void) {
    uint8_t frame[] = {0x4f, 0x82, 0x10, 0x00}, room[32];
    memset(room, 0xa5, sizeof room);
    HOLDS(hdminet_frame_text(NULL, 0, room, sizeof room).code == HDMINET_FRAME_EMPTY && is_filled(room, 0, sizeof room));
    HOLDS(hdminet_frame_text(frame, 4, NULL, 0).code == HDMINET_ROOM && hdminet_frame_text(frame, 4, NULL, 0).length == 25);
    HOLDS(hdminet_frame_bytes(NULL, 0, room, sizeof room).code == HDMINET_TEXT_ADDRESS && is_filled(room, 0, sizeof room));
    HOLDS(hdminet_edid_fault(NULL, 0) == HDMINET_EDID_LENGTH);
    HOLDS(hdminet_edid_text(NULL, 0, room, sizeof room).code == HDMINET_EDID_LENGTH && is_filled(room, 0, sizeof room));
    HOLDS(hdminet_edid_port(NULL, 0, 0x1000, false, room, sizeof room).code == HDMINET_EDID_LENGTH && is_filled(room, 0, sizeof room));
    hdminet_sender sender = {0};
    HOLDS(hdminet_sender_begin(&sender, NULL, 0, 1) == HDMINET_FRAME_EMPTY);
}

/* CEC 17, table 7: 0x82 is <Active Source>, 0x36 <Standby>. */
static void frames(void) {
    uint8_t frame[17] = {0x4f, 0x82, 0x10, 0x00}, room[128];
    hdminet_answer answer;
    memset(room, 0xa5, sizeof room);
    answer = hdminet_frame_text(frame, 4, room, sizeof room);
    HOLDS(answer.code == HDMINET_DONE && answer.length == 25 && answer.line == 0);
    HOLDS(memcmp(room, "4>f active-source 1.0.0.0", 25) == 0 && is_filled(room, 25, sizeof room));
    memset(room, 0xa5, sizeof room);
    answer = hdminet_frame_text(frame, 4, room, 24);
    HOLDS(answer.code == HDMINET_ROOM && answer.length == 25 && is_filled(room, 0, sizeof room));
    answer = hdminet_frame_text(frame, 4, room, 0);
    HOLDS(answer.code == HDMINET_ROOM && answer.length == 25 && is_filled(room, 0, sizeof room));
    answer = hdminet_frame_text(frame, 0, room, sizeof room);
    HOLDS(answer.code == HDMINET_FRAME_EMPTY && answer.length == 0 && is_filled(room, 0, sizeof room));
    answer = hdminet_frame_text(frame, 17, room, sizeof room);
    HOLDS(answer.code == HDMINET_FRAME_TOO_LONG && answer.length == 0 && is_filled(room, 0, sizeof room));

    static const struct { const char *text; uint32_t code; } refusals[] = {
        {"", HDMINET_TEXT_ADDRESS}, {"4-0 standby", HDMINET_TEXT_ADDRESS}, {"4>0 frob", HDMINET_TEXT_NAME},
        {"4>0 standby now", HDMINET_TEXT_COUNT}, {"4>0 play sideways", HDMINET_TEXT_OPERAND},
        {"4>0 op-fe :000102030405060708090a0b0c0d0e", HDMINET_TEXT_TOO_LONG},
    };
    for (size_t i = 0; i < sizeof refusals / sizeof *refusals; i++) {
        answer = hdminet_frame_bytes((const uint8_t *)refusals[i].text, strlen(refusals[i].text), room, sizeof room);
        HOLDS(answer.code == refusals[i].code && answer.length == 0 && is_filled(room, 0, sizeof room));
        if (answer.code != refusals[i].code) printf("  %s: %" PRIu32 "\n", refusals[i].text, answer.code);
    }
    answer = hdminet_frame_bytes((const uint8_t *)"0>4 standby", 11, room, 1);
    HOLDS(answer.code == HDMINET_ROOM && answer.length == 2 && is_filled(room, 0, sizeof room));
    answer = hdminet_frame_bytes((const uint8_t *)"0>4 standby", 11, room, 2);
    HOLDS(answer.code == HDMINET_DONE && answer.length == 2 && room[0] == 0x04 && room[1] == 0x36 && is_filled(room, 2, sizeof room));
}

static void edids(const char *edid_name, const char *text_name) {
    static uint8_t edid[1024], text[1 << 17], room[1 << 17];
    size_t count = read_file(edid_name, edid, sizeof edid), length = read_file(text_name, text, sizeof text);
    HOLDS(hdminet_edid_fault(edid, count) == HDMINET_DONE);
    memset(room, 0xa5, sizeof room);
    hdminet_answer answer = hdminet_edid_text(edid, count, room, sizeof room);
    HOLDS(answer.code == HDMINET_DONE && answer.length == length && memcmp(room, text, length) == 0 && is_filled(room, length, sizeof room));
    memset(room, 0xa5, sizeof room);
    answer = hdminet_edid_text(edid, count, room, length - 1);
    HOLDS(answer.code == HDMINET_ROOM && answer.length == length && is_filled(room, 0, sizeof room));
    HOLDS(hdminet_edid_text(edid, count, room, length).code == HDMINET_DONE);

    /* Cut, and with each bit of the first block's header and checksum turned. */
    HOLDS(hdminet_edid_fault(edid, count - 1) == HDMINET_EDID_LENGTH && hdminet_edid_fault(edid, 0) == HDMINET_EDID_LENGTH);
    HOLDS(hdminet_edid_fault(edid, 128) == HDMINET_EDID_COUNT);
    for (size_t bit = 0; bit < 8 * count; bit++) {
        edid[bit / 8] ^= (uint8_t)(1 << bit % 8);
        uint32_t code = hdminet_edid_fault(edid, count);
        uint32_t due = bit / 8 < 8 ? HDMINET_EDID_HEADER : bit / 8 < 128 ? HDMINET_EDID_CHECKSUM : HDMINET_EDID_FIRST;
        HOLDS(code == due);
        memset(room, 0xa5, 1024);
        answer = hdminet_edid_text(edid, count, room, sizeof room);
        HOLDS(answer.code == due && answer.length == 0 && is_filled(room, 0, 1024));
        edid[bit / 8] ^= (uint8_t)(1 << bit % 8);
    }

    /* What a port passes on differs in the two bytes of its address and in the checksum of that block. */
    static uint8_t passed[512];
    memset(passed, 0xa5, sizeof passed);
    answer = hdminet_edid_port(edid, count, 0x1200, false, passed, count - 1);
    HOLDS(answer.code == HDMINET_ROOM && answer.length == count && is_filled(passed, 0, sizeof passed));
    answer = hdminet_edid_port(edid, count - 1, 0x1200, false, passed, sizeof passed);
    HOLDS(answer.code == HDMINET_EDID_LENGTH && answer.length == 0 && is_filled(passed, 0, sizeof passed));
    edid[count - 1] ^= 1;
    answer = hdminet_edid_port(edid, count, 0x1200, false, passed, sizeof passed);
    HOLDS(answer.code == HDMINET_EDID_FIRST && answer.length == 0 && is_filled(passed, 0, sizeof passed));
    edid[count - 1] ^= 1;
    answer = hdminet_edid_port(edid, count, 0x1200, false, passed, sizeof passed);
    HOLDS(answer.code == HDMINET_DONE && answer.length == count && hdminet_edid_fault(passed, count) == HDMINET_DONE);
    size_t differ = 0;
    for (size_t i = 0; i < count; i++) differ += passed[i] != edid[i];
    HOLDS(differ >= 1 && differ <= 3);
    answer = hdminet_edid_port(edid, count, 0x1200, true, passed, sizeof passed);
    HOLDS(answer.code == HDMINET_DONE && hdminet_edid_fault(passed, count) == HDMINET_DONE);
    /* A base block alone has no address. */
    memcpy(passed, edid, 128);
    passed[127] = (uint8_t)(passed[127] + passed[126]);
    passed[126] = 0;
    HOLDS(hdminet_edid_fault(passed, 128) == HDMINET_DONE);
    memset(room, 0xa5, 1024);
    HOLDS(hdminet_edid_port(passed, 128, 0x1200, false, room, sizeof room).code == HDMINET_EDID_NO_HDMI_BLOCK && is_filled(room, 0, 1024));
}

/* What is read over DDC is what stands there; after offset 255 comes offset 0 of the segment. */
static void reader(const char *edid_name) {
    static uint8_t edid[1024], room[512];
    size_t count = read_file(edid_name, edid, sizeof edid);
    for (size_t offset = 0; offset < 256; offset++) {
        memset(room, 0xa5, sizeof room);
        hdminet_answer answer = hdminet_edid_read(edid, count, 0, (uint8_t)offset, room, 300);
        HOLDS(answer.code == HDMINET_DONE && answer.line == 0 && answer.length == 300 && is_filled(room, 300, sizeof room));
        for (size_t i = 0; i < 300; i++) {
            size_t at = (offset + i) % 256;
            HOLDS(room[i] == (at < count ? edid[at] : 0xff));
        }
    }
    memset(room, 0xa5, sizeof room);
    hdminet_answer answer = hdminet_edid_read(edid, count, (uint8_t)((count + 255) / 256), 0, room, sizeof room);
    HOLDS(answer.code == HDMINET_ABSENT && answer.length == 0 && is_filled(room, 0, sizeof room));
    HOLDS(hdminet_edid_read(edid, count - 1, 0, 0, room, sizeof room).code == HDMINET_EDID_LENGTH && is_filled(room, 0, sizeof room));
    HOLDS(hdminet_edid_read(edid, 640, 0, 0, room, sizeof room).code == HDMINET_EDID_LENGTH && is_filled(room, 0, sizeof room));
    /* What the bytes spell does not count, and nothing may be asked for. */
    edid[0] = 0x5a;
    HOLDS(hdminet_edid_read(edid, count, 0, 0, room, 1).code == HDMINET_DONE && room[0] == 0x5a);
    HOLDS(hdminet_edid_read(edid, count, 0, 0, room, 0).code == HDMINET_DONE);
}

/* The states are as large as the header says, and a spoilt one is refused and kept. */
static void states(void) {
    hdminet_receiver receiver = hdminet_receiver_new(), spoilt, before;
    hdminet_reading reading = {0}, read_before = {0};
    HOLDS(!receiver.was_low && !receiver.is_low && receiver.place == 0 && receiver.count == 0 && receiver.begin == 0 && receiver.fall == 0);
    HOLDS(hdminet_receiver_wakes_at(&receiver).code == HDMINET_ABSENT);
    HOLDS(hdminet_receiver_running(&receiver, 5, &reading) == HDMINET_ABSENT && memcmp(&reading, &read_before, sizeof reading) == 0);
    for (int field = 0; field < 4; field++) {
        spoilt = receiver;
        if (field == 0) spoilt.place = 5;
        if (field == 1) spoilt.count = 160;
        if (field == 2) spoilt.begin = 3000000000001;
        if (field == 3) spoilt.fall = 3000000000001;
        before = spoilt;
        hdminet_heard heard = hdminet_receiver_hear(&spoilt, 1, true, &reading);
        HOLDS(heard.code == HDMINET_STATE && heard.kind == 0 && memcmp(&spoilt, &before, sizeof spoilt) == 0);
        HOLDS(memcmp(&reading, &read_before, sizeof reading) == 0);
        HOLDS(hdminet_receiver_wakes_at(&spoilt).code == HDMINET_STATE);
        HOLDS(hdminet_receiver_running(&spoilt, 5, &reading) == HDMINET_STATE && memcmp(&reading, &read_before, sizeof reading) == 0);
    }
    before = receiver;
    HOLDS(hdminet_receiver_hear(&receiver, 3000000000001, true, &reading).code == HDMINET_LATE && memcmp(&receiver, &before, sizeof receiver) == 0);
    HOLDS(hdminet_receiver_hear(&receiver, 3000000000000, true, &reading).code == HDMINET_DONE);

    uint8_t frame[17] = {0x40, 0x04}, room[16];
    hdminet_sender sender = {0}, sender_before = {0};
    hdminet_heard heard = {0};
    HOLDS(hdminet_sender_begin(&sender, frame, 0, 1) == HDMINET_FRAME_EMPTY && memcmp(&sender, &sender_before, sizeof sender) == 0);
    HOLDS(hdminet_sender_begin(&sender, frame, 17, 1) == HDMINET_FRAME_TOO_LONG && memcmp(&sender, &sender_before, sizeof sender) == 0);
    HOLDS(hdminet_sender_begin(&sender, frame, 2, 3000000000001) == HDMINET_LATE && memcmp(&sender, &sender_before, sizeof sender) == 0);
    HOLDS(hdminet_sender_pulls(&sender, 1).code == HDMINET_STATE && hdminet_sender_next_change(&sender, 1).code == HDMINET_STATE);
    HOLDS(hdminet_sender_heard(&sender, &heard, 1) == HDMINET_STATE);
    HOLDS(hdminet_sender_begin(&sender, frame, 2, 1000) == HDMINET_DONE && sender.count == 2 && sender.begin == 1000 && sender.state == 0);
    for (int field = 0; field < 5; field++) {
        hdminet_sender changed = sender;
        if (field == 0) changed.count = 0;
        if (field == 1) changed.count = 17;
        if (field == 2) changed.state = 3;
        if (field == 3) changed.begin = 3000000000001;
        if (field == 4) changed.slot = 1;
        sender_before = changed;
        HOLDS(hdminet_sender_heard(&changed, &heard, 1) == HDMINET_STATE && memcmp(&changed, &sender_before, sizeof changed) == 0);
        HOLDS(hdminet_sender_pulls(&changed, 1).code == HDMINET_STATE && hdminet_sender_next_change(&changed, 1).code == HDMINET_STATE);
        HOLDS(hdminet_sender_fate(&changed, &reading).code == HDMINET_STATE && hdminet_sender_fate(&changed, &reading).fate == 0);
    }
    HOLDS(hdminet_sender_pulls(&sender, 3000000000001).code == HDMINET_LATE && hdminet_sender_next_change(&sender, 3000000000001).code == HDMINET_LATE);
    sender_before = sender;
    heard.kind = 4;
    HOLDS(hdminet_sender_heard(&sender, &heard, 1) == HDMINET_HEARD && memcmp(&sender, &sender_before, sizeof sender) == 0);
    heard.kind = 3, heard.ending = 7;
    HOLDS(hdminet_sender_heard(&sender, &heard, 1) == HDMINET_HEARD && memcmp(&sender, &sender_before, sizeof sender) == 0);
    heard.ending = 1;
    HOLDS(hdminet_sender_heard(&sender, &heard, 3000000000001) == HDMINET_LATE && memcmp(&sender, &sender_before, sizeof sender) == 0);

    hdminet_reading none = {0};
    memset(room, 0xa5, sizeof room);
    none.ending = 1, none.count = 161;
    HOLDS(hdminet_reading_frame(&none, room, sizeof room).code == HDMINET_STATE);
    none.count = 10, none.ending = 0;
    HOLDS(hdminet_reading_frame(&none, room, sizeof room).code == HDMINET_STATE);
    none.ending = 2;
    HOLDS(hdminet_reading_frame(&none, room, sizeof room).code == HDMINET_ABSENT);
    none.ending = 1, none.count = 9;
    HOLDS(hdminet_reading_frame(&none, room, sizeof room).code == HDMINET_ABSENT);
    HOLDS(is_filled(room, 0, sizeof room));
}

/* A sender and a receiver on one line, where a follower acknowledges or does not: the receiver reads the sender's frame. */
static void line(bool is_acknowledged) {
    uint8_t frame[] = {0x40, 0x44, 0x41}, read[16];
    hdminet_sender sender = {0};
    hdminet_receiver receiver = hdminet_receiver_new();
    hdminet_reading reading = {0};
    hdminet_heard heard = {0};
    bool was_low = false;
    long ended = 0;
    HOLDS(hdminet_sender_begin(&sender, frame, 3, 1000) == HDMINET_DONE);
    for (uint64_t t = 1000; t < 100000; t++) {
        /* An acknowledge slot is the tenth of a block: it falls 4,500 + 9 * 2,400 after the begin, and is low for 1,500. */
        uint64_t since = t - 1000;
        bool follower = is_acknowledged && since >= 4500 + 9 * 2400 && (since - 4500 - 9 * 2400) % 24000 < 1500 && sender.state == 0;
        bool is_low = hdminet_sender_pulls(&sender, t).is_low || follower;
        hdminet_instant wake = hdminet_receiver_wakes_at(&receiver);
        if (is_low != was_low || (wake.code == HDMINET_DONE && wake.at == t)) {
            heard = hdminet_receiver_hear(&receiver, t, is_low, &reading);
            HOLDS(heard.code == HDMINET_DONE);
            HOLDS(hdminet_sender_heard(&sender, &heard, t) == HDMINET_DONE);
            ended += heard.kind >= 2;
        }
        was_low = is_low;
    }
    HOLDS(ended == 1);
    if (is_acknowledged) {
        HOLDS(reading.ending == 1 && reading.begin == 1000 && reading.count == 30 && sender.state == 2);
        memset(read, 0xa5, sizeof read);
        HOLDS(hdminet_reading_frame(&reading, read, 2).code == HDMINET_ROOM && is_filled(read, 0, sizeof read));
        hdminet_answer answer = hdminet_reading_frame(&reading, read, sizeof read);
        HOLDS(answer.code == HDMINET_DONE && answer.length == 3 && memcmp(read, frame, 3) == 0 && !reading.bits[29]);
        HOLDS(hdminet_sender_fate(&sender, &reading).code == HDMINET_DONE && hdminet_sender_fate(&sender, &reading).fate == 1);
        /* Refused in the last block, and broken off by another ending; none while it sends, or the reading runs. */
        reading.bits[29] = true;
        HOLDS(hdminet_sender_fate(&sender, &reading).fate == 2);
        reading.ending = 2;
        HOLDS(hdminet_sender_fate(&sender, &reading).fate == 4);
        reading.ending = 6;
        HOLDS(hdminet_sender_fate(&sender, &reading).code == HDMINET_ABSENT && hdminet_sender_fate(&sender, &reading).fate == 0);
        reading.ending = 0;
        HOLDS(hdminet_sender_fate(&sender, &reading).code == HDMINET_STATE);
        reading.ending = 1;
        sender.state = 1, sender.slot = 3;
        HOLDS(hdminet_sender_fate(&sender, &reading).fate == 3);
        sender.slot = 5;
        HOLDS(hdminet_sender_fate(&sender, &reading).fate == 4);
        sender.state = 0, sender.slot = 0;
        HOLDS(hdminet_sender_fate(&sender, &reading).code == HDMINET_ABSENT);
        sender.state = 3;
        HOLDS(hdminet_sender_fate(&sender, &reading).code == HDMINET_STATE);
    } else {
        /* Out at the acknowledge slot of the first block: nobody pulled it low. */
        HOLDS(sender.state == 1 && sender.slot == 10 && reading.ending == 3);
        HOLDS(hdminet_sender_fate(&sender, &reading).code == HDMINET_DONE && hdminet_sender_fate(&sender, &reading).fate == 2);
    }
}

/* How long an edge takes: a poll again and again, every bit of it 1. */
static void edges(void) {
    hdminet_receiver receiver = hdminet_receiver_new();
    hdminet_reading reading;
    memset(&reading, 0, sizeof reading);
    long heard = 0;
    clock_t begin = clock();
    for (long i = 0; i < 20000; i++) {
        uint64_t t = 1000000 + (uint64_t)i * 100000;
        hdminet_receiver_hear(&receiver, t, true, &reading), hdminet_receiver_hear(&receiver, t + 3700, false, &reading);
        for (int slot = 0; slot < 10; slot++, heard += 3) {
            uint64_t fall = t + 4500 + (uint64_t)slot * 2400;
            hdminet_receiver_hear(&receiver, fall, true, &reading), hdminet_receiver_hear(&receiver, fall + 600, false, &reading);
            hdminet_receiver_hear(&receiver, fall + 1050, false, &reading);
        }
        heard += 2;
    }
    HOLDS(reading.ending == 1 && reading.count == 10);
    printf("%ld instants of a receiver: %.0f nanoseconds each\n", heard, (double)(clock() - begin) / CLOCKS_PER_SEC * 1e9 / (double)heard);
}

int main(int count, char **words) {
    if (count != 4 && count != 6) return 2;
    frames();
    random_frames(atol(words[3]), NULL, NULL);
    turned_texts(atol(words[3]));
    nothing_at_null();
    edids(words[1], words[2]);
    reader(words[1]);
    states();
    line(true);
    line(false);
    edges();
    if (count == 6) {
        FILE *texts = fopen(words[4], "w"), *dumps = fopen(words[5], "w");
        HOLDS(texts && dumps);
        if (texts && dumps) random_frames(atol(words[3]), texts, dumps);
        HOLDS(texts && dumps && fclose(texts) == 0 && fclose(dumps) == 0);
    }
    puts(failed ? "library: failed" : "library: ok");
    return failed;
}
