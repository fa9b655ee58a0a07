/* A program with no C library, for Linux on 64-bit x86 and 64-bit ARM: it has the three functions that the library refers to, and writes
   the text of a frame. */
#include "hdminet_wire.h"

void *memcpy(void *to, const void *from, size_t count) {
    char *out = to;
    const char *in = from;
    while (count--) *out++ = *in++;
    return to;
}

void *memmove(void *to, const void *from, size_t count) {
    char *out = to;
    const char *in = from;
    if (out < in) return memcpy(to, from, count);
    while (count--) out[count] = in[count];
    return to;
}

void *memset(void *to, int byte, size_t count) {
    char *out = to;
    while (count--) *out++ = (char)byte;
    return to;
}

#ifdef __aarch64__
enum { WRITE = 64, EXIT = 93 };
#define ENTRY

static long call(long number, long first, long second, long third) {
    register long which __asm__("x8") = number;
    register long result __asm__("x0") = first;
    register long second_word __asm__("x1") = second, third_word __asm__("x2") = third;
    __asm__ volatile("svc 0" : "+r"(result) : "r"(which), "r"(second_word), "r"(third_word) : "memory");
    return result;
}
#else
enum { WRITE = 1, EXIT = 60 };
#define ENTRY __attribute__((force_align_arg_pointer))

static long call(long number, long first, long second, long third) {
    long result;
    __asm__ volatile("syscall" : "=a"(result) : "a"(number), "D"(first), "S"(second), "d"(third) : "rcx", "r11", "memory");
    return result;
}
#endif

ENTRY void _start(void) {
    static uint8_t text[97];
    uint8_t frame[] = {0x4f, 0x82, 0x10, 0x00};
    hdminet_answer answer = hdminet_frame_text(frame, sizeof frame, text, sizeof text - 1);
    text[answer.length] = '\n';
    call(WRITE, 1, (long)text, (long)answer.length + 1);
    call(EXIT, answer.code, 0, 0);
}
