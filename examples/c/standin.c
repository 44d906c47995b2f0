/* Stands in for the CAN sockets of socketcan.c, service.c and the daemon: connections to a bus, that of a test or of benches/wire, whose path BUS
 * names. When one is bound, it tells the bus its filter, of zeros where it has none. The bus may say that the interface goes down or away, or that
 * its queue is full: calls fail then as those of the kernel do. An interface isn't there while the bus's path isn't, and is down while there is a
 * file beside it whose name ends in .down. */
#include <errno.h>
#include <fcntl.h>
#include <linux/can.h>
#include <linux/can/raw.h>
#include <net/if.h>
#include <stdint.h>
#include <stdlib.h>
#include <string.h>
#include <sys/ioctl.h>
#include <sys/socket.h>
#include <sys/types.h>
#include <sys/un.h>
#include <unistd.h>

/* What the bus shows: a frame, how many it dropped for this station so far, and what it is; or what it says. */
enum { OTHER, ECHO_OF_OWN, IS_DOWN, IS_GONE, IS_FULL, HAS_ROOM };
struct shown { struct can_frame frame; uint32_t drops, kind; };

static struct can_filter filter;
static int is_full, is_bound;

/* Where calls of malloc and realloc are wrapped too, one in N of them, drawn at random, finds no memory once a socket is bound, N being what REFUSED says. */
void *__real_malloc(size_t size) __attribute__((weak));
void *__real_realloc(void *place, size_t size) __attribute__((weak));

static int is_refused(void) {
    static uint32_t drawn = 20;
    const char *one_in = is_bound ? getenv("REFUSED") : NULL;
    drawn = drawn * 1103515245 + 12345;
    return one_in && (drawn >> 16) % strtoul(one_in, NULL, 10) == 0;
}

void *__wrap_malloc(size_t size) { return is_refused() ? NULL : __real_malloc(size); }
void *__wrap_realloc(void *place, size_t size) { return is_refused() ? NULL : __real_realloc(place, size); }

int __real_socket(int domain, int type, int protocol);

int __wrap_socket(int domain, int type, int protocol) {
    (void)domain, (void)type, (void)protocol;
    return __real_socket(AF_UNIX, SOCK_SEQPACKET | SOCK_CLOEXEC, 0);
}

static int fail(int why) {
    errno = why;
    return -1;
}

static int is_down(void) {
    char path[128];
    const char *bus = getenv("BUS");
    if (!bus || strlen(bus) + 6 > sizeof path) return 1;
    return access(strcat(strcpy(path, bus), ".down"), F_OK) == 0;
}

int __wrap_ioctl(int at, unsigned long request, struct ifreq *interface) {
    (void)at;
    if (access(getenv("BUS"), F_OK) < 0) return fail(ENODEV);
    if (request == SIOCGIFFLAGS) interface->ifr_flags = is_down() ? 0 : IFF_UP;
    else interface->ifr_ifindex = 1;
    return 0;
}

int __wrap_bind(int at, const struct sockaddr *address, socklen_t size) {
    struct sockaddr_un bus = {.sun_family = AF_UNIX};
    struct can_filter told = filter;
    const char *path = getenv("BUS");
    (void)address, (void)size;
    filter = (struct can_filter){0};
    is_full = 0;
    if (!path || strlen(path) >= sizeof bus.sun_path) return fail(ENODEV);
    strcpy(bus.sun_path, path);
    if (connect(at, (struct sockaddr *)&bus, sizeof bus) < 0 || fcntl(at, F_SETFL, O_NONBLOCK) < 0) return fail(ENODEV);
    is_bound = 1;
    return write(at, &told, sizeof told) == sizeof told ? 0 : -1;
}

int __wrap_setsockopt(int at, int level, int name, const void *value, socklen_t size) {
    (void)at;
    if (level == SOL_CAN_RAW && name == CAN_RAW_FILTER && size == sizeof filter) memcpy(&filter, value, size);
    return 0;
}

/* Only the daemon's calls of send are wrapped. */
ssize_t __real_send(int at, const void *bytes, size_t size, int flags) __attribute__((weak));

ssize_t __wrap_send(int at, const void *bytes, size_t size, int flags) {
    if (is_down()) return fail(ENETDOWN);
    return is_full ? fail(ENOBUFS) : __real_send(at, bytes, size, flags);
}

ssize_t __wrap_recvmsg(int at, struct msghdr *message, int flags) {
    struct shown shown;
    do {
        ssize_t n = recv(at, &shown, sizeof shown, flags);
        if (n < 0) return n;
        if (n != sizeof shown) exit(0); /* the bus is gone */
        if (shown.kind == IS_DOWN || shown.kind == IS_GONE) return fail(shown.kind == IS_DOWN ? ENETDOWN : ENODEV);
        if (shown.kind > IS_GONE) is_full = shown.kind == IS_FULL;
    } while (shown.kind > IS_GONE);
    memcpy(message->msg_iov->iov_base, &shown.frame, sizeof shown.frame);
    message->msg_flags = shown.kind == ECHO_OF_OWN ? MSG_CONFIRM : 0;
    struct cmsghdr *part = message->msg_control;
    *part = (struct cmsghdr){.cmsg_len = CMSG_LEN(sizeof shown.drops), .cmsg_level = SOL_SOCKET, .cmsg_type = SO_RXQ_OVFL};
    memcpy(CMSG_DATA(part), &shown.drops, sizeof shown.drops);
    message->msg_controllen = CMSG_SPACE(sizeof shown.drops);
    return sizeof shown.frame;
}
