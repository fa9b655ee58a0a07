/* What a caller of the library that takes memory sees, over C, from a thread of 512 KB of stack: a trace, its edges, what
   was read of them and a report; of an EDID its bytes, its check and its meaning, also where memory is refused. Each failed line
   is printed; the status is 0 where none is. The arguments are the files of an EDID, of its text, of the rules that it breaks,
   one of them a failure, and of its meaning. It is linked with --wrap=malloc,realloc. */
#include "hdminet.h"

#include <pthread.h>
#include <stdio.h>
#include <stdlib.h>
#include <string.h>

static int failed;

#define HOLDS(what) do { if (!(what)) { printf("%s:%d: %s\n", __FILE__, __LINE__, #what); failed = 1; } } while (0)
#define TEXT(text) (const uint8_t *)(text), strlen(text)

static const char *topology = "device tv tv 4\ndevice p1 player 0\nplug p1 tv 1\n";
static const char *script = "at 1000000 press p1 play\nend 1500000\n";
static const char *expecting =
    "label film at 1000000 press p1 play\nexpect within 60000 of film 4>0 image-view-on ack\n"
    "expect none within 200000 of film 4>f active-source\nend 1500000\n";

/* The first line of examples/first-path.trace, and the last. */
static const char *first = "12000 39150 complete 0>0 nack by tv out -\n", *last = "\n1500000 end\n";

/* The room is filled before each call that is to leave it. */
static uint8_t room[1 << 16], edges[1 << 16];

static void fill(void) {
    memset(room, 0xa5, sizeof room);
}

static bool is_filled(size_t from) {
    for (size_t i = from; i < sizeof room; i++) if (room[i] != 0xa5) return false;
    return true;
}

/* Whether a call was refused so, and has left the room. */
static bool refused(hdminet_answer answer, uint32_t code, uint64_t line) {
    return answer.code == code && answer.line == line && answer.length == 0 && is_filled(0);
}

static void traces(void) {
    fill();
    hdminet_answer answer = hdminet_emulate(TEXT(topology), TEXT(script), room, sizeof room);
    HOLDS(answer.code == HDMINET_DONE && answer.line == 0 && answer.length > strlen(first) + strlen(last) && is_filled(answer.length));
    HOLDS(memcmp(room, first, strlen(first)) == 0 && memcmp(room + answer.length - strlen(last), last, strlen(last)) == 0);
    size_t length = answer.length;
    fill();
    answer = hdminet_emulate(TEXT(topology), TEXT(script), room, length - 1);
    HOLDS(answer.code == HDMINET_ROOM && answer.length == length && is_filled(0));
    HOLDS(hdminet_emulate(TEXT(topology), TEXT(script), room, length).code == HDMINET_DONE && is_filled(length));
    fill();
    HOLDS(refused(hdminet_emulate(TEXT("device tv box 4\n"), TEXT(script), room, sizeof room), HDMINET_TOPOLOGY_WORD, 1));
    HOLDS(refused(hdminet_emulate(TEXT(""), TEXT(script), room, sizeof room), HDMINET_TOPOLOGY_NO_ROOT, 1));
    HOLDS(refused(hdminet_emulate(TEXT(topology), TEXT("at 1 frob\nend 5\n"), room, sizeof room), HDMINET_SCRIPT_WORD, 1));
    HOLDS(refused(hdminet_emulate(TEXT(topology), TEXT("at 1 send tv 4>0 frob\nend 5\n"), room, sizeof room), HDMINET_TEXT_NAME, 1));
    HOLDS(refused(hdminet_emulate(TEXT("device tv tv 1\nedid 00\n"), TEXT("end 5\n"), room, sizeof room), HDMINET_EDID_LENGTH, 0));
    HOLDS(refused(hdminet_emulate_edges(TEXT(topology), TEXT("at 1 frob\nend 5\n"), room, sizeof room), HDMINET_SCRIPT_WORD, 1));
}

static void lines(void) {
    hdminet_answer answer = hdminet_emulate_edges(TEXT(topology), TEXT(script), edges, sizeof edges);
    HOLDS(answer.code == HDMINET_DONE && memcmp(edges, "12000 0\n", 8) == 0);
    size_t length = answer.length;
    fill();
    answer = hdminet_emulate_edges(TEXT(topology), TEXT(script), room, length - 1);
    HOLDS(answer.code == HDMINET_ROOM && answer.length == length && is_filled(0));
    answer = hdminet_watch(edges, length, room, sizeof room);
    HOLDS(answer.code == HDMINET_DONE && memcmp(room, "12000 39150 complete 0>0 nack\n", 30) == 0 && is_filled(answer.length));
    size_t read = answer.length;
    fill();
    answer = hdminet_watch(edges, length, room, read - 1);
    HOLDS(answer.code == HDMINET_ROOM && answer.length == read && is_filled(0));
    HOLDS(refused(hdminet_watch(TEXT("12000 0\nfrob\n"), room, sizeof room), HDMINET_EDGES_LINE, 2));
    HOLDS(refused(hdminet_watch(TEXT("12000 0\n13000 0\n14000 end\n"), room, sizeof room), HDMINET_EDGES_ORDER, 2));
}

static void reports(void) {
    hdminet_counts counts = {7, 7};
    fill();
    hdminet_answer answer = hdminet_check(TEXT(topology), TEXT(expecting), room, sizeof room, &counts);
    HOLDS(answer.code == HDMINET_DONE && counts.count == 2 && counts.failed == 1 && is_filled(answer.length));
    HOLDS(memcmp(room, "TAP version 13\nok 1 - line 2: expect within", 43) == 0);
    size_t length = answer.length;
    counts.count = counts.failed = 7;
    fill();
    answer = hdminet_check(TEXT(topology), TEXT(expecting), room, length - 1, &counts);
    HOLDS(answer.code == HDMINET_ROOM && answer.length == length && counts.count == 2 && counts.failed == 1 && is_filled(0));
    counts.count = counts.failed = 7;
    HOLDS(refused(hdminet_check(TEXT(topology), TEXT("\nexpect frob\nend 5\n"), room, sizeof room, &counts), HDMINET_EXPECT_WORD, 2));
    HOLDS(refused(hdminet_check(TEXT("frob\n"), TEXT(expecting), room, sizeof room, &counts), HDMINET_TOPOLOGY_WORD, 1));
    HOLDS(counts.count == 7 && counts.failed == 7);
}

/* The headers ask for pointers that are not null, also for 0 bytes. These are answered as no bytes all the same. */
static void nothing_at_null(void) {
    hdminet_counts counts = {7, 7};
    fill();
    HOLDS(refused(hdminet_emulate(NULL, 0, TEXT(script), room, sizeof room), HDMINET_TOPOLOGY_NO_ROOT, 1));
    HOLDS(refused(hdminet_emulate(TEXT(topology), NULL, 0, room, sizeof room), HDMINET_SCRIPT_END, 1));
    HOLDS(refused(hdminet_emulate_edges(TEXT(topology), NULL, 0, room, sizeof room), HDMINET_SCRIPT_END, 1));
    HOLDS(refused(hdminet_check(TEXT(topology), NULL, 0, room, sizeof room, &counts), HDMINET_SCRIPT_END, 1));
    HOLDS(refused(hdminet_watch(NULL, 0, room, sizeof room), HDMINET_EDGES_LINE, 1));
    HOLDS(hdminet_emulate(TEXT(topology), TEXT(script), NULL, 0).code == HDMINET_ROOM);
}

/* A topology or a script, and the number and the line with which each call refuses it. */
struct refusal {
    const char *text;
    uint32_t code;
    uint64_t line;
};

static const struct refusal topologies[] = {
    {"frob\n", HDMINET_TOPOLOGY_WORD, 1},
    {"device tv tv 16\n", HDMINET_TOPOLOGY_NUMBER, 1},
    {"device tv tv 4\nplug p1 tv 1\n", HDMINET_TOPOLOGY_NAME, 2},
    {"device tv tv 4\ndevice a tv 4\n", HDMINET_TOPOLOGY_SECOND_ROOT, 2},
    {"device a player 0\n", HDMINET_TOPOLOGY_NO_ROOT, 2},
    {"device tv tv 4\ndevice a player 0\nplug a tv 5\n", HDMINET_TOPOLOGY_PORT_RANGE, 3},
    {"device tv tv 4\ndevice a player 0\ndevice b player 0\nplug a tv 1\nplug b tv 1\n", HDMINET_TOPOLOGY_PORT_TAKEN, 5},
    {"device tv tv 4\ndevice a player 0\nplug a tv 1\nplug a tv 2\n", HDMINET_TOPOLOGY_NOT_LOOSE, 4},
    {"device tv tv 4\ndevice a switch 2\nplug a a 1\n", HDMINET_TOPOLOGY_LOOP, 3},
    {"device tv tv 4\nedid 0g\n", HDMINET_TOPOLOGY_HEX, 2},
    {"device tv tv 4\nedid 00\n", HDMINET_EDID_LENGTH, 0},
};

static const struct refusal scripts[] = {
    {"frob\nend 5\n", HDMINET_SCRIPT_WORD, 1},
    {"at x press p1 play\nend 10\n", HDMINET_SCRIPT_NUMBER, 1},
    {"at 5 press p2 play\nend 10\n", HDMINET_SCRIPT_NAME, 1},
    {"pulse 5 10001\nend 20000\n", HDMINET_SCRIPT_WIDTH, 1},
    {"at 10 press p1 play\nat 9 press p1 play\nend 20\n", HDMINET_SCRIPT_ORDER, 2},
    {"pulse 100000 400\npulse 125399 1\nend 200000\n", HDMINET_SCRIPT_CLOSE, 2},
    {"at 10 press p1 play\nend 10\n", HDMINET_SCRIPT_END, 2},
    {"at 5 send p1 4>g\nend 10\n", HDMINET_TEXT_ADDRESS, 1},
    {"at 5 send p1 4>0 frob\nend 10\n", HDMINET_TEXT_NAME, 1},
    {"at 5 send p1 4>0 op-e5 :000102030405060708090a0b0c0d0e\nend 10\n", HDMINET_TEXT_TOO_LONG, 1},
    {"at 5 send p1 4>0 play\nend 10\n", HDMINET_TEXT_COUNT, 1},
    {"at 5 send p1 4>0 play :24\nend 10\n", HDMINET_TEXT_OPERAND, 1},
};

static const struct refusal expectations[] = {
    {"expect frob\nend 10\n", HDMINET_EXPECT_WORD, 1},
    {"expect from 01 to 2 short\nend 10\n", HDMINET_EXPECT_NUMBER, 1},
    {"expect within 1 of a short\nend 10\n", HDMINET_EXPECT_LABEL, 1},
    {"expect from 2 to 1 short\nend 10\n", HDMINET_EXPECT_ORDER, 1},
    {"expect state 5 p2 on\nend 10\n", HDMINET_SCRIPT_NAME, 1},
};

static void numbers(void) {
    hdminet_counts counts = {7, 7};
    fill();
    for (size_t i = 0; i < sizeof topologies / sizeof *topologies; i++) {
        const struct refusal *row = &topologies[i];
        HOLDS(refused(hdminet_emulate(TEXT(row->text), TEXT("end 5\n"), room, sizeof room), row->code, row->line));
        HOLDS(refused(hdminet_emulate_edges(TEXT(row->text), TEXT("end 5\n"), room, sizeof room), row->code, row->line));
        HOLDS(refused(hdminet_check(TEXT(row->text), TEXT("end 5\n"), room, sizeof room, &counts), row->code, row->line));
    }
    for (size_t i = 0; i < sizeof scripts / sizeof *scripts; i++) {
        const struct refusal *row = &scripts[i];
        HOLDS(refused(hdminet_emulate(TEXT(topology), TEXT(row->text), room, sizeof room), row->code, row->line));
        HOLDS(refused(hdminet_emulate_edges(TEXT(topology), TEXT(row->text), room, sizeof room), row->code, row->line));
        HOLDS(refused(hdminet_check(TEXT(topology), TEXT(row->text), room, sizeof room, &counts), row->code, row->line));
    }
    for (size_t i = 0; i < sizeof expectations / sizeof *expectations; i++) {
        const struct refusal *row = &expectations[i];
        HOLDS(refused(hdminet_check(TEXT(topology), TEXT(row->text), room, sizeof room, &counts), row->code, row->line));
    }
    HOLDS(counts.count == 7 && counts.failed == 7);
}

/* How many more times memory is given. */
static long given = -1;

void *__real_malloc(size_t size);
void *__real_realloc(void *at, size_t size);
void *__wrap_malloc(size_t size) { return given == 0 ? NULL : (given -= given > 0, __real_malloc(size)); }
void *__wrap_realloc(void *at, size_t size) { return given == 0 ? NULL : (given -= given > 0, __real_realloc(at, size)); }

/* A file, and how long it is. */
struct file {
    uint8_t bytes[1 << 15];
    size_t length;
};

static struct file edid, text, findings, meaning;

static bool read_file(const char *name, struct file *into) {
    FILE *file = fopen(name, "rb");
    if (!file) return false;
    into->length = fread(into->bytes, 1, sizeof into->bytes, file);
    return fclose(file) == 0 && into->length > 0;
}

static bool fails;

static hdminet_answer to_bytes(const struct file *file, uint8_t *into, size_t length) {
    return hdminet_edid_bytes(file->bytes, file->length, into, length);
}
static hdminet_answer to_findings(const struct file *file, uint8_t *into, size_t length) {
    fails = false;
    return hdminet_edid_check(file->bytes, file->length, into, length, &fails);
}
static hdminet_answer to_meaning(const struct file *file, uint8_t *into, size_t length) {
    return hdminet_edid_meaning(file->bytes, file->length, into, length);
}

/* A call puts what is due, says how much room it needs, and is refused where memory is, each growth of it in turn. */
static void puts_due(hdminet_answer call(const struct file *, uint8_t *, size_t), const struct file *from, const struct file *due) {
    fill();
    hdminet_answer answer = call(from, room, sizeof room);
    HOLDS(answer.code == HDMINET_DONE && answer.line == 0 && answer.length == due->length);
    HOLDS(memcmp(room, due->bytes, due->length) == 0 && is_filled(due->length));
    fill();
    answer = call(from, room, due->length - 1);
    HOLDS(answer.code == HDMINET_ROOM && answer.line == 0 && answer.length == due->length && is_filled(0));
    long refusals = 0;
    for (;; refusals++) {
        given = refusals;
        answer = call(from, room, sizeof room);
        given = -1;
        if (answer.code == HDMINET_DONE || refusals == 100) break;
        HOLDS(refused(answer, HDMINET_MEMORY, 0) && !fails);
    }
    HOLDS(refusals > 0 && refusals < 100 && answer.length == due->length);
}

static void edids(void) {
    puts_due(to_bytes, &text, &edid);
    puts_due(to_findings, &edid, &findings);
    HOLDS(fails);
    fails = false;
    puts_due(to_meaning, &edid, &meaning);
    fill();
    fails = true;
    HOLDS(refused(hdminet_edid_bytes(NULL, 0, room, sizeof room), HDMINET_EDID_TEXT_SYNTAX, 1));
    HOLDS(refused(hdminet_edid_bytes(TEXT("edid 1.3\nfrob 1\n"), room, sizeof room), HDMINET_EDID_TEXT_SYNTAX, 2));
    HOLDS(refused(hdminet_edid_bytes(TEXT(" edid 1.3\n"), room, sizeof room), HDMINET_EDID_TEXT_SYNTAX, 1));
    HOLDS(refused(hdminet_edid_bytes(TEXT("edid 1.5\n"), room, sizeof room), HDMINET_EDID_TEXT_FIELD, 1));
    HOLDS(refused(hdminet_edid_bytes(TEXT("edid 1.3\nmaker sam\n"), room, sizeof room), HDMINET_EDID_TEXT_FIELD, 2));
    HOLDS(refused(hdminet_edid_check(edid.bytes, 127, room, sizeof room, &fails), HDMINET_EDID_LENGTH, 0) && fails);
    HOLDS(refused(hdminet_edid_meaning(edid.bytes, 127, room, sizeof room), HDMINET_EDID_LENGTH, 0));
    edid.bytes[130] ^= 1;
    HOLDS(refused(hdminet_edid_check(edid.bytes, edid.length, room, sizeof room, &fails), HDMINET_EDID_FIRST, 0) && fails);
    HOLDS(refused(hdminet_edid_meaning(edid.bytes, edid.length, room, sizeof room), HDMINET_EDID_FIRST, 0));
    edid.bytes[130] ^= 1;
}

static void *calls(void *unused) {
    (void)unused;
    traces();
    lines();
    reports();
    numbers();
    nothing_at_null();
    edids();
    return NULL;
}

int main(int count, char **words) {
    if (count != 5 || !read_file(words[1], &edid) || !read_file(words[2], &text) || !read_file(words[3], &findings) ||
        !read_file(words[4], &meaning)) return 2;
    pthread_attr_t small;
    pthread_t thread;
    HOLDS(pthread_attr_init(&small) == 0 && pthread_attr_setstacksize(&small, 512 << 10) == 0);
    HOLDS(pthread_create(&thread, &small, calls, NULL) == 0 && pthread_join(thread, NULL) == 0);
    puts(failed ? "library-run: failed" : "library-run: ok");
    return failed;
}
