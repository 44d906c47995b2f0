/* The daemon's socket: frames of the bus in their order, with each loss in its place, and one frame of its own outstanding at a time.
 *
 * A frame of its own has its place among the others where the kernel loops it back: what comes before its echo is fed before it is told to be
 * sent. If a loss is told while it is outstanding, its place isn't known. So nothing is fed until the echo comes or is given up, and what was
 * read meanwhile counts as missed. */
#include "daemon.h"
#include <linux/can.h>
#include <linux/can/error.h>
#include <linux/can/raw.h>
#include <net/if.h>
#include <sys/ioctl.h>
#include <sys/socket.h>

/* In ms: so long an echo is waited for after a loss was told, and in any case. */
enum { ECHO_WAIT = 200, ECHO_LOST = 1000 };

static struct {
    int fd;                      /* the socket, or -1 while the interface is down or gone */
    uint64_t until;              /* no frame is put before: one is outstanding, or the interface's queue was full, or there is no socket */
    int is_outstanding, is_lost; /* a frame was put, without an echo yet; and a loss was told since */
    uint8_t station;             /* whose frame it is */
    uint32_t drops;              /* how many frames the socket dropped so far */
    const char *tell;            /* what the service is to be told next: m missed, s sent, f fed */
    size_t told;                 /* to how many stations what is missed was told */
    struct fulwethi_frame read;  /* what it is to be fed */
} bus = {.fd = -1, .tell = ""};

/* Opens the socket on an interface that is up, for data frames of 29 bits, errors that tell of a loss, and what was dropped: 0, or why not. */
int bus_open(void) {
    struct ifreq found = {0};
    struct sockaddr_can address = {.can_family = AF_CAN};
    struct can_filter filter = {.can_id = CAN_EFF_FLAG, .can_mask = CAN_EFF_FLAG | CAN_RTR_FLAG};
    can_err_mask_t errors = CAN_ERR_RESTARTED | CAN_ERR_BUSOFF | CAN_ERR_CRTL;
    int on = 1, fd = socket(PF_CAN, SOCK_RAW | SOCK_NONBLOCK | SOCK_CLOEXEC, CAN_RAW);
    strcpy(found.ifr_name, interface);
    int has_failed = fd < 0 || ioctl(fd, SIOCGIFINDEX, &found) < 0 || (address.can_ifindex = found.ifr_ifindex) == 0
        || setsockopt(fd, SOL_CAN_RAW, CAN_RAW_FILTER, &filter, sizeof filter) < 0
        || setsockopt(fd, SOL_CAN_RAW, CAN_RAW_ERR_FILTER, &errors, sizeof errors) < 0
        || setsockopt(fd, SOL_CAN_RAW, CAN_RAW_RECV_OWN_MSGS, &on, sizeof on) < 0
        || setsockopt(fd, SOL_SOCKET, SO_RXQ_OVFL, &on, sizeof on) < 0
        || bind(fd, (struct sockaddr *)&address, sizeof address) < 0
        || ioctl(fd, SIOCGIFFLAGS, &found) < 0; /* only now: what goes down from here on is told by the socket */
    int why = has_failed ? errno : found.ifr_flags & IFF_UP ? 0 : ENETDOWN;
    if (why && fd >= 0) close(fd);
    if (why) return why;
    bus.fd = fd;
    bus.until = bus.drops = 0;
    return 0;
}

/* Frames were lost. Where the outstanding frame has its place among them isn't known, so its echo is waited for. */
static void lose(enum warning which, const char *what) {
    warn(which, what);
    if (bus.is_outstanding && !bus.is_lost) bus.until = now + ECHO_WAIT;
    bus.is_lost = 1;
}

/* The interface went down or away: its socket, with what it still has, is given up, and the echo of what is outstanding. */
static void go_down(void) {
    close(bus.fd);
    bus.fd = -1;
    bus.tell = bus.is_outstanding ? "msm" : "m";
    bus.is_outstanding = bus.is_lost = 0;
    bus.until = now + LOOK;
    warn(WENT_DOWN, "frames missed: the interface is down");
    wake(now);
}

/* Reads a frame, and notes what the service is to be told of it and of those that were lost before it; 0 if none is there. */
static int read_frame(void) {
    struct can_frame got = {0};
    union { struct cmsghdr head; char room[CMSG_SPACE(sizeof bus.drops)]; } part = {.room = {0}};
    struct iovec place = {.iov_base = &got, .iov_len = sizeof got};
    struct msghdr message = {.msg_iov = &place, .msg_iovlen = 1, .msg_control = &part, .msg_controllen = sizeof part};
    uint32_t drops = bus.drops;
    ssize_t n = recvmsg(bus.fd, &message, 0);
    if (n < 0 && errno != EAGAIN && errno != EINTR) go_down();
    if (n < 0) return 0;
    if (part.head.cmsg_level == SOL_SOCKET && part.head.cmsg_type == SO_RXQ_OVFL) memcpy(&drops, CMSG_DATA(&part.head), sizeof drops);
    if (drops != bus.drops) lose(DROPPED, "frames missed: the socket dropped some");
    bus.drops = drops;
    uint32_t errors = got.can_id & CAN_ERR_FLAG ? got.can_id : 0;
    if (errors & CAN_ERR_BUSOFF) lose(BUS_OFF, "frames missed: the controller left the bus");
    if (errors & CAN_ERR_RESTARTED) lose(RESTARTED, "frames missed: the controller restarted");
    if (errors & CAN_ERR_CRTL && got.data[1] & CAN_ERR_CRTL_RX_OVERFLOW) lose(OVERRUN, "frames missed: the controller was overrun");
    int is_frame = n == sizeof got && got.can_dlc <= 8 && (got.can_id & (CAN_EFF_FLAG | CAN_RTR_FLAG | CAN_ERR_FLAG)) == CAN_EFF_FLAG;
    if (is_frame && message.msg_flags & MSG_CONFIRM) {
        /* An echo that had been given up shows that what came since isn't in order. */
        bus.tell = !bus.is_outstanding ? "m" : bus.is_lost ? "ms" : "s";
        bus.is_outstanding = 0;
        bus.until = now;
    } else if (!bus.is_outstanding || !bus.is_lost) {
        bus.tell = bus.is_lost ? is_frame ? "mf" : "m" : is_frame ? "f" : "";
        bus.read = (struct fulwethi_frame){.id = got.can_id & CAN_EFF_MASK, .len = got.can_dlc};
        memcpy(bus.read.bytes, got.data, sizeof bus.read.bytes);
    }
    bus.is_lost &= bus.is_outstanding;
    return 1;
}

/* Tells the service what it is to be told; 0 if something is left. */
static int is_told(void) {
    while (*bus.tell) {
        uint32_t code = *bus.tell == 'm' ? fulwethi_service_missed(&service, addresses[bus.told])
            : *bus.tell == 's' ? fulwethi_service_sent(&service, bus.station) : fulwethi_service_feed(&service, &bus.read);
        if (is_later(code)) return 0;
        if (code == FULWETHI_STATION_ADDRESS) warn(CONFLICT, "address conflict: another node has the address of a station");
        bus.told = *bus.tell == 'm' ? (bus.told + 1) % station_count : 0;
        if (!bus.told) bus.tell++;
    }
    return 1;
}

/* Takes what there is to read while the service takes it, and looks for an interface that is down. */
void bus_receive(void) {
    while (is_told() && bus.fd >= 0 && read_frame());
    if (now < bus.until) return;
    if (bus.is_outstanding) {
        /* Only now: its echo may be among what was read, if the daemon had no turn for long. */
        if (!bus.is_lost) warn(NO_ECHO, "frames missed: the echo of a frame didn't come");
        bus.tell = "msm"; /* it counts as put, wherever among what is lost */
        bus.is_outstanding = bus.is_lost = 0;
    } else if (bus.fd < 0) {
        bus.until = now + LOOK;
        if (bus_open() == 0) warn(CAME_UP, "the interface is up again");
    }
}

/* Puts the next frame if none is outstanding, also while one that came before it is to be fed yet. What the interface's queue doesn't take is tried
 * again after a time: the socket would show at once that it can be written. */
void bus_transmit(void) {
    struct fulwethi_frame frame;
    if ((!is_told() && *bus.tell != 'f') || now < bus.until || fulwethi_service_front(&service, &bus.station, &frame) != FULWETHI_DONE) return;
    struct can_frame put = {.can_id = frame.id | CAN_EFF_FLAG, .can_dlc = (uint8_t)frame.len};
    memcpy(put.data, frame.bytes, frame.len);
    bus.is_outstanding = send(bus.fd, &put, sizeof put, MSG_NOSIGNAL) == sizeof put;
    bus.until = now + (bus.is_outstanding ? ECHO_LOST : RETRY);
    if (bus.is_outstanding) return;
    if (errno == ENOBUFS || errno == EAGAIN || errno == EINTR || errno == ENOMEM) warn(QUEUE_FULL, "the interface's queue is full: a frame waits");
    else go_down();
}

/* Answers the socket to wait for, or -1, and says when the bus is to be looked after. While no frame can be put only timers count, and one that is
 * due but didn't fire wants a place in its station's queue. */
int bus_wait(void) {
    uint64_t next;
    int waits = now < bus.until;
    uint32_t code = waits ? fulwethi_service_next_due_at(&service, &next) : fulwethi_service_next_at(&service, &next);
    if (code == FULWETHI_DONE) wake(next > now ? next : now + (waits ? RETRY : 1));
    if (waits) wake(bus.until);
    return bus.fd;
}
