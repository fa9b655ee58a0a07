/* The library that a program of cec-device loads first: it gives the process /dev/cecN, whose other end is a seat of an emulated room.
 *
 *     cc -O2 -Wall -shared -fPIC -pthread -o shim.so shim.c waits.c -ldl
 *
 * It knows nothing of CEC. open() of /dev/cecN asks the server (tools/cec/server.py) for a handle, and gets one end of a loopback
 * connection: that is the file descriptor of the process. The server makes it readable while a message waits, and urgent while an event
 * does, so that select, poll and epoll work as they are, and so do O_NONBLOCK and inheritance by fork. Each ioctl is a packet to the server
 * with the bytes of its structure, and a packet back.
 *
 * Where HDMINET_CEC_CLOCK names a file, the process lives in the room's time (waits.c). */
#define _GNU_SOURCE
#include "shim.h"
#include <dirent.h>
#include <errno.h>
#include <fcntl.h>
#include <linux/cec.h>
#include <stdarg.h>
#include <stdint.h>
#include <stdio.h>
#include <stdlib.h>
#include <string.h>
#include <sys/ioctl.h>
#include <sys/socket.h>
#include <sys/stat.h>
#include <sys/syscall.h>
#include <sys/sysmacros.h>
#include <sys/un.h>
#include <unistd.h>

/* The major number of /dev/cecN as a character device, and how many descriptors a process has. */
enum { MAJOR = 241, MOST_SEATS = 256, MOST_PATH = 512 };

static struct seat seats[MOST_SEATS];
/* How many of them there are. */
static int open_seats;

/* N of /dev/cecN, or -1 where the path is none of the room's devices. */
static int device_of(const char *path)
{
    const char *count = getenv("HDMINET_CEC_SEATS");
    if (!path || !count || !getenv("HDMINET_CEC") || strncmp(path, "/dev/cec", 8) || path[8] < '0' || path[8] > '9' || path[9])
        return -1;
    return path[8] - '0' < atoi(count) ? path[8] - '0' : -1;
}

/* A path below /sys/class/drm, where HDMINET_CEC_DRM has a folder in its place: the connector's status and EDID. */
static const char *moved(const char *path, char *room)
{
    const char *to = getenv("HDMINET_CEC_DRM");
    if (!to || !path || strncmp(path, "/sys/class/drm", 14))
        return path;
    snprintf(room, MOST_PATH, "%s%s", to, path + 14);
    return room;
}

int has_seat(void) { return __atomic_load_n(&open_seats, __ATOMIC_SEQ_CST) > 0; }

int find(int descriptor, struct seat *found)
{
    int is_found = 0;
    if (!has_seat())
        return 0;
    hold();
    for (int i = 0; i < MOST_SEATS; i++)
        if (seats[i].descriptor == descriptor + 1) {
            is_found = 1;
            if (found)
                *found = seats[i];
        }
    let_go();
    return is_found;
}

static void remember(int descriptor, int link, uint32_t handle)
{
    hold();
    for (int i = 0; i < MOST_SEATS; i++)
        if (!seats[i].descriptor) {
            seats[i] = (struct seat){ descriptor + 1, link, handle };
            __atomic_add_fetch(&open_seats, 1, __ATOMIC_SEQ_CST);
            break;
        }
    let_go();
}

int close_below(int descriptor)
{
    BELOW(close);
    return below(descriptor);
}

/* A descriptor is closed: its connection ends with the last descriptor of its handle. */
static void forget(int descriptor)
{
    if (!has_seat())
        return;
    unwatch(descriptor);
    hold();
    for (int i = 0; i < MOST_SEATS; i++)
        if (seats[i].descriptor == descriptor + 1) {
            int is_last = 1;
            seats[i].descriptor = 0;
            __atomic_sub_fetch(&open_seats, 1, __ATOMIC_SEQ_CST);
            for (int other = 0; other < MOST_SEATS; other++)
                is_last &= !seats[other].descriptor || seats[other].handle != seats[i].handle;
            if (is_last)
                close_below(seats[i].link);
        }
    let_go();
}

int connection(void)
{
    struct sockaddr_un to = { .sun_family = AF_UNIX };
    const char *path = getenv("HDMINET_CEC");
    snprintf(to.sun_path, sizeof to.sun_path, "%s", path ? path : "");
    int link = socket(AF_UNIX, SOCK_SEQPACKET | SOCK_CLOEXEC, 0);
    if (link < 0)
        return -1;
    if (connect(link, (struct sockaddr *)&to, sizeof to)) {
        close_below(link);
        errno = ENODEV;
        return -1;
    }
    return link;
}

struct question question_of(uint32_t asked, uint32_t handle, uint32_t call)
{
    BELOW(syscall);
    return (struct question){ .asked = asked, .handle = handle, .call = call, .process = getpid(), .thread = below(SYS_gettid), .is_beside = getenv("HDMINET_CEC_BESIDE") != 0 };
}

int send_question(int link, const struct question *question, int descriptor)
{
    union {
        struct cmsghdr head;
        char room[CMSG_SPACE(sizeof(int))];
    } rights = { .head = { CMSG_LEN(sizeof(int)), SOL_SOCKET, SCM_RIGHTS } };
    struct iovec part = { (void *)question, QUESTION_HEAD + question->size };
    struct msghdr message = { .msg_iov = &part, .msg_iovlen = 1 };
    if (descriptor >= 0) {
        message.msg_control = &rights;
        message.msg_controllen = sizeof rights;
        memcpy(CMSG_DATA(&rights.head), &descriptor, sizeof descriptor);
    }
    return sendmsg(link, &message, MSG_NOSIGNAL) < 0 ? -1 : 0;
}

ssize_t receive_answer(int link, struct answer *answer)
{
    BELOW(recv);
    ssize_t got = below(link, answer, sizeof *answer, 0);
    if (got >= 0 && got < (ssize_t)ANSWER_HEAD) {
        errno = ENODEV;
        return -1;
    }
    return got;
}

static int open_seat(int device, int flags)
{
    struct question question = question_of(OPEN, device, flags);
    struct answer answer;
    union {
        struct cmsghdr head;
        char room[CMSG_SPACE(sizeof(int))];
    } rights;
    struct iovec part = { &answer, sizeof answer };
    struct msghdr message = { .msg_iov = &part, .msg_iovlen = 1, .msg_control = &rights, .msg_controllen = sizeof rights };
    BELOW(recvmsg);
    int link = connection();
    if (link < 0)
        return -1;
    if (send_question(link, &question, -1) || below(link, &message, MSG_CMSG_CLOEXEC) < (ssize_t)ANSWER_HEAD || answer.result < 0 || !CMSG_FIRSTHDR(&message)) {
        close_below(link);
        errno = ENODEV;
        return -1;
    }
    int descriptor;
    memcpy(&descriptor, CMSG_DATA(CMSG_FIRSTHDR(&message)), sizeof descriptor);
    fcntl(descriptor, F_SETFD, flags & O_CLOEXEC ? FD_CLOEXEC : 0);
    fcntl(descriptor, F_SETFL, flags & O_NONBLOCK ? O_NONBLOCK : 0);
    remember(descriptor, link, answer.handle);
    return descriptor;
}

#define OPENS(name, ...)                                   \
    int device = device_of(path), mode = 0;                \
    char room[MOST_PATH];                                  \
    if (flags & (O_CREAT | __O_TMPFILE)) {                 \
        va_list given;                                     \
        va_start(given, flags);                            \
        mode = va_arg(given, int);                         \
        va_end(given);                                     \
    }                                                      \
    if (device >= 0)                                       \
        return open_seat(device, flags);                   \
    path = moved(path, room);                              \
    BELOW(name);                                           \
    return below(__VA_ARGS__, flags, mode)

int open(const char *path, int flags, ...) { OPENS(open, path); }
int open64(const char *path, int flags, ...) { OPENS(open64, path); }
int openat(int at, const char *path, int flags, ...) { OPENS(openat, at, path); }
int openat64(int at, const char *path, int flags, ...) { OPENS(openat64, at, path); }
int __open_2(const char *path, int flags) { return open(path, flags); }
int __open64_2(const char *path, int flags) { return open64(path, flags); }

int close(int descriptor)
{
    forget(descriptor);
    return close_below(descriptor);
}

/* A second descriptor of the same handle. */
static int doubled(int old, int new)
{
    struct seat seat;
    if (new >= 0 && old != new) {
        forget(new);
        if (find(old, &seat))
            remember(new, seat.link, seat.handle);
    }
    return new;
}
int dup(int old)
{
    BELOW(dup);
    return doubled(old, below(old));
}
int dup2(int old, int new)
{
    BELOW(dup2);
    return doubled(old, below(old, new));
}
int dup3(int old, int new, int flags)
{
    BELOW(dup3);
    return doubled(old, below(old, new, flags));
}
#define CONTROLS(name)                                     \
    int name(int descriptor, int command, ...)             \
    {                                                      \
        va_list given;                                     \
        va_start(given, command);                          \
        void *argument = va_arg(given, void *);            \
        va_end(given);                                     \
        BELOW(name);                                       \
        int result = below(descriptor, command, argument); \
        return command == F_DUPFD || command == F_DUPFD_CLOEXEC ? doubled(descriptor, result) : result; \
    }
CONTROLS(fcntl)
CONTROLS(fcntl64)

int ioctl(int descriptor, unsigned long call, ...)
{
    static const uint32_t known[] = { CEC_ADAP_G_CAPS, CEC_ADAP_G_PHYS_ADDR, CEC_ADAP_S_PHYS_ADDR, CEC_ADAP_G_LOG_ADDRS, CEC_ADAP_S_LOG_ADDRS,
        CEC_TRANSMIT, CEC_RECEIVE, CEC_DQEVENT, CEC_G_MODE, CEC_S_MODE, CEC_ADAP_G_CONNECTOR_INFO };
    va_list given;
    va_start(given, call);
    void *bytes = va_arg(given, void *);
    va_end(given);
    struct seat seat;
    if (!find(descriptor, &seat)) {
        BELOW(ioctl);
        return below(descriptor, call, bytes);
    }
    if (_IOC_NR(call) >= sizeof known / sizeof known[0] || known[_IOC_NR(call)] != (uint32_t)call) {
        errno = ENOTTY;
        return -1;
    }
    if (!bytes) {
        errno = EFAULT;
        return -1;
    }
    uint32_t size = _IOC_SIZE((uint32_t)call);
    struct question question = question_of(CALL, seat.handle, (uint32_t)call);
    struct answer answer;
    question.nonblock = (fcntl(descriptor, F_GETFL) & O_NONBLOCK) != 0;
    question.size = size;
    memcpy(question.bytes, bytes, size);
    int link = connection(), result = -1, why = ENODEV;
    if (link < 0)
        return -1;
    if (!send_question(link, &question, -1)) {
        if (receive_answer(link, &answer) < 0)
            why = errno; /* EINTR, where a signal has no SA_RESTART */
        else if (answer.result >= 0) {
            memcpy(bytes, answer.bytes, answer.size < size ? answer.size : size);
            result = answer.result;
        } else
            why = -answer.result;
    }
    close_below(link);
    if (result < 0)
        errno = why;
    return result;
}

ssize_t read(int descriptor, void *to, size_t count)
{
    if (find(descriptor, 0)) {
        errno = EINVAL;
        return -1;
    }
    BELOW(read);
    return until_readable(descriptor) ? -1 : below(descriptor, to, count);
}
ssize_t write(int descriptor, const void *of, size_t count)
{
    if (find(descriptor, 0)) {
        errno = EINVAL;
        return -1;
    }
    BELOW(write);
    return below(descriptor, of, count);
}

/* What stat, access, readlink and the list of /dev say of a device of the room. */
static int looks(int device, struct stat *to)
{
    memset(to, 0, sizeof *to);
    to->st_mode = S_IFCHR | 0660;
    to->st_nlink = 1;
    to->st_rdev = makedev(MAJOR, device);
    return 0;
}
#define STATS(name)                                        \
    int name(const char *path, struct stat *to)            \
    {                                                      \
        int device = device_of(path);                      \
        char room[MOST_PATH];                              \
        BELOW(name);                                       \
        return device >= 0 ? looks(device, to) : below(moved(path, room), to); \
    }
STATS(stat)
STATS(lstat)
int fstat(int descriptor, struct stat *to)
{
    BELOW(fstat);
    return find(descriptor, 0) ? looks(0, to) : below(descriptor, to);
}
int fstatat(int at, const char *path, struct stat *to, int flags)
{
    int device = device_of(path);
    char room[MOST_PATH];
    BELOW(fstatat);
    return device >= 0 ? looks(device, to) : below(at, moved(path, room), to, flags);
}
int stat64(const char *path, struct stat64 *to) { return stat(path, (struct stat *)to); }
int lstat64(const char *path, struct stat64 *to) { return lstat(path, (struct stat *)to); }
int fstat64(int descriptor, struct stat64 *to) { return fstat(descriptor, (struct stat *)to); }
int access(const char *path, int how)
{
    char room[MOST_PATH];
    BELOW(access);
    return device_of(path) >= 0 ? 0 : below(moved(path, room), how);
}
FILE *fopen(const char *path, const char *how)
{
    char room[MOST_PATH];
    BELOW(fopen);
    return below(moved(path, room), how);
}
FILE *fopen64(const char *path, const char *how)
{
    char room[MOST_PATH];
    BELOW(fopen64);
    return below(moved(path, room), how);
}
ssize_t readlink(const char *path, char *to, size_t count)
{
    if (device_of(path) >= 0) {
        errno = EINVAL;
        return -1;
    }
    BELOW(readlink);
    return below(path, to, count);
}

/* The list of /dev that is read now, and how many devices of the room it has shown. */
static DIR *list_of_dev;
static int shown;
DIR *opendir(const char *path)
{
    char room[MOST_PATH];
    BELOW(opendir);
    DIR *list = below(moved(path, room));
    if (list && (!strcmp(path, "/dev") || !strcmp(path, "/dev/"))) {
        list_of_dev = list;
        shown = 0;
    }
    return list;
}
struct dirent *readdir(DIR *list)
{
    static struct dirent own;
    BELOW(readdir);
    struct dirent *next = below(list);
    if (next || list != list_of_dev)
        return next;
    snprintf(own.d_name, sizeof own.d_name, "/dev/cec%d", shown);
    if (device_of(own.d_name) < 0)
        return 0;
    snprintf(own.d_name, sizeof own.d_name, "cec%d", shown++);
    own.d_type = DT_CHR;
    return &own;
}
struct dirent64 *readdir64(DIR *list) { return (struct dirent64 *)readdir(list); }
