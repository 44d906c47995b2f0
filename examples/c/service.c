/* Three stations, 21, 35 and 40, behind a raw CAN socket, and six threads of an application: service INTERFACE COUNT
 *
 * At each station a thread sends COUNT messages to the next one and reads what became of them, and a thread receives and writes what came as
 * 'FROM TO PGN BYTES', the first four of them. The program ends once each message has its outcome and what was acknowledged is received.
 *
 * The main thread has the bus and the service. Who submits wakes it by an eventfd; behind its turns it wakes each thread whose client or inbox has
 * news, by an eventfd of that thread. A frame is told to be sent when the kernel loops it back, so one is outstanding at a time. If a loss is told meanwhile, what comes
 * before the echo counts as missed too, since the place of the frame isn't known: as in socketcan.c. */
#include "fulwethi_service.h"
#include <errno.h>
#include <linux/can.h>
#include <linux/can/error.h>
#include <linux/can/raw.h>
#include <net/if.h>
#include <poll.h>
#include <pthread.h>
#include <stdatomic.h>
#include <stdio.h>
#include <stdlib.h>
#include <string.h>
#include <sys/eventfd.h>
#include <sys/ioctl.h>
#include <sys/socket.h>
#include <time.h>
#include <unistd.h>

enum { STATIONS = 3, PGN = 0xEF00, MOST = 1785, ECHO_WAIT = 200, ECHO_LOST = 1000, RETRY = 10 };
static const uint8_t ADDRESS[STATIONS] = {0x21, 0x35, 0x40};

/* What the main thread alone has. */
struct bus {
    struct fulwethi_service service;
    int socket;
    uint64_t start, end_at;     /* when it began, and when the echo of the outstanding frame is given up */
    uint32_t drops;             /* how many frames the socket dropped so far */
    struct fulwethi_frame kept; /* a frame that the service didn't take yet */
    int has_kept, outstanding, is_lost, is_blocked; /* is_lost: a loss was told since the outstanding frame was put */
    uint8_t station;            /* of the outstanding frame */
    char tell[16];              /* what the service is to be told next: 0 to 2 that a station missed frames, s that the frame was put */
};

/* What one thread has after the start: a client or an inbox, the number by which the main thread finds it, and the eventfd that wakes it. */
struct end { struct fulwethi_client client; struct fulwethi_inbox inbox; uint64_t number; int station, news; };

static uint32_t messages;
static int wake;                /* the eventfd */
/* How many messages have an outcome, were acknowledged, and were received; and whether the threads are to end. */
static atomic_uint ended, acknowledged, received, is_over;

static void fail(const char *what, uint32_t code) {
    fprintf(stderr, "%s: %s\n", what, fulwethi_service_strerror(code));
    exit(1);
}

/* Wakes who waits at an eventfd. */
static void wake_at(int at) {
    uint64_t one = 1;
    if (write(at, &one, sizeof one) != sizeof one) abort();
}

/* Adds to a count, and wakes the main thread. */
static void count(atomic_uint *of) {
    ++*of;
    wake_at(wake);
}

/* Waits until the thread is woken, or tries again soon if memory was lacking; 0 if the thread is to end. */
static int await(struct end *end, uint32_t code) {
    struct pollfd from = {.fd = end->news, .events = POLLIN};
    uint64_t woken;
    if (poll(&from, 1, code == FULWETHI_NO_MEMORY ? RETRY : -1) < 0 && errno != EINTR) abort();
    if (from.revents && read(end->news, &woken, sizeof woken) < 0 && errno != EAGAIN) abort();
    return !is_over;
}

/* Submits the next message of a client. If its ring is full, it has messages without an outcome, whose outcomes will be news. */
static uint32_t submit(struct end *end, uint32_t number) {
    uint64_t ticket;
    uint8_t bytes[MOST];
    size_t len = 9 + number * 97u % (MOST - 8);
    for (size_t i = 0; i < len; i++) bytes[i] = (uint8_t)(i < 4 ? number >> 8 * i : number + i);
    uint32_t code = fulwethi_client_submit(&end->client, ADDRESS[(end->station + 1) % STATIONS], PGN, bytes, len, &ticket);
    if (!code) wake_at(wake);
    else if (code != FULWETHI_RING_FULL && code != FULWETHI_NO_MEMORY) fail("submit", code);
    return code;
}

static void *send_all(void *given) {
    struct end *end = given;
    uint32_t next = 0, code, read;
    do {
        struct fulwethi_note note;
        for (code = FULWETHI_DONE; next < messages && !(code = submit(end, next)); next++) { }
        while ((read = fulwethi_client_outcome(&end->client, &note)) == FULWETHI_DONE) {
            if (note.outcome == FULWETHI_ACKNOWLEDGED) count(&acknowledged);
            else fprintf(stderr, "message %llu of %02X: %s\n", (unsigned long long)note.ticket, ADDRESS[end->station], fulwethi_outcome_name(note.outcome));
            count(&ended);
        }
    } while (await(end, read == FULWETHI_NO_MEMORY ? read : code));
    return NULL;
}

static void *receive_all(void *given) {
    struct end *end = given;
    uint32_t code;
    do {
        struct fulwethi_message message;
        uint8_t room[MOST];
        while ((code = fulwethi_inbox_receive(&end->inbox, room, sizeof room, &message)) == FULWETHI_DONE) {
            printf("%02X %02X %05X %02X %02X %02X %02X\n", message.from, message.to, message.pgn, room[0], room[1], room[2], room[3]);
            count(&received);
        }
    } while (await(end, code));
    return NULL;
}

static uint64_t ticks(const struct bus *bus) {
    struct timespec now;
    if (clock_gettime(CLOCK_MONOTONIC, &now)) abort();
    return (uint64_t)now.tv_sec * 1000 + (uint64_t)now.tv_nsec / 1000000 - bus->start;
}

static int open_socket(const char *name) {
    struct ifreq interface = {0};
    struct sockaddr_can address = {.can_family = AF_CAN};
    int on = 1, at = socket(PF_CAN, SOCK_RAW | SOCK_NONBLOCK, CAN_RAW);
    can_err_mask_t errors = CAN_ERR_RESTARTED | CAN_ERR_BUSOFF | CAN_ERR_CRTL;
    strncpy(interface.ifr_name, name, IFNAMSIZ - 1);
    if (at < 0 || ioctl(at, SIOCGIFINDEX, &interface) < 0) return -1;
    address.can_ifindex = interface.ifr_ifindex;
    if (setsockopt(at, SOL_CAN_RAW, CAN_RAW_RECV_OWN_MSGS, &on, sizeof on) < 0) return -1;
    if (setsockopt(at, SOL_CAN_RAW, CAN_RAW_ERR_FILTER, &errors, sizeof errors) < 0) return -1;
    if (setsockopt(at, SOL_SOCKET, SO_RXQ_OVFL, &on, sizeof on) < 0) return -1;
    return bind(at, (struct sockaddr *)&address, sizeof address) < 0 ? -1 : at;
}

/* The service is to be told this, behind what it is to be told already. What is to be told twice that frames were missed is told once. */
static void note(struct bus *bus, const char *what) {
    size_t told = strlen(bus->tell), more = strlen(what);
    if (told >= more && !strcmp(bus->tell + told - more, what)) return;
    if (told + more < sizeof bus->tell) strcat(bus->tell, what);
}

/* Tells the service what it is to be told; 0 if something is left, for want of memory or of a turn. */
static int is_told(struct bus *bus) {
    for (; bus->tell[0]; memmove(bus->tell, bus->tell + 1, strlen(bus->tell))) {
        uint32_t code = bus->tell[0] == 's' ? fulwethi_service_sent(&bus->service, bus->station) : fulwethi_service_missed(&bus->service, ADDRESS[bus->tell[0] - '0']);
        if (code == FULWETHI_NO_MEMORY || code == FULWETHI_BUS_FULL || code == FULWETHI_TRACE_FULL) return 0;
        if (code) fail("tell", code);
    }
    return 1;
}

/* The outstanding frame was put, or its echo doesn't come: then it counts as put, wherever among those that were lost. */
static void end_echo(struct bus *bus, const char *what) {
    if (bus->outstanding) note(bus, what);
    bus->outstanding = bus->is_lost = 0;
}

/* Frames of the bus were lost: each station is told, and an outstanding frame may have been among them. */
static void lose(struct bus *bus) {
    note(bus, "012");
    if (bus->outstanding && !bus->is_lost) bus->is_lost = 1, bus->end_at = ticks(bus) + ECHO_WAIT;
}

/* Reads a frame, and whether frames were dropped before it. 1 for one to feed, 0 for another, -1 if none is there. */
static int read_frame(struct bus *bus) {
    struct can_frame got;
    char control[CMSG_SPACE(sizeof(uint32_t)) + 64];
    struct iovec place = {.iov_base = &got, .iov_len = sizeof got};
    struct msghdr message = {.msg_iov = &place, .msg_iovlen = 1, .msg_control = control, .msg_controllen = sizeof control};
    if (recvmsg(bus->socket, &message, 0) != sizeof got) return -1;
    for (struct cmsghdr *part = CMSG_FIRSTHDR(&message); part; part = CMSG_NXTHDR(&message, part)) {
        uint32_t drops;
        if (part->cmsg_level != SOL_SOCKET || part->cmsg_type != SO_RXQ_OVFL) continue;
        memcpy(&drops, CMSG_DATA(part), sizeof drops);
        if (drops != bus->drops) lose(bus);
        bus->drops = drops;
    }
    if (message.msg_flags & MSG_CONFIRM) return end_echo(bus, bus->is_lost ? "012s" : "s"), 0;
    int is_overrun = got.can_id & CAN_ERR_CRTL && got.data[1] & CAN_ERR_CRTL_RX_OVERFLOW;
    if (got.can_id & CAN_ERR_FLAG && (got.can_id & (CAN_ERR_RESTARTED | CAN_ERR_BUSOFF) || is_overrun)) lose(bus);
    if (bus->is_lost || !(got.can_id & CAN_EFF_FLAG) || got.can_id & (CAN_RTR_FLAG | CAN_ERR_FLAG)) return 0;
    bus->kept = (struct fulwethi_frame){.id = got.can_id & CAN_EFF_MASK, .len = got.can_dlc};
    memcpy(bus->kept.bytes, got.data, 8);
    return 1;
}

/* Reads frames while there are some and the service takes them. */
static void receive(struct bus *bus) {
    while (is_told(bus)) {
        if (!bus->has_kept) {
            int read = read_frame(bus);
            if (read < 0) return;
            bus->has_kept = read;
            continue; /* what was lost is told before the frame */
        }
        uint32_t code = fulwethi_service_feed(&bus->service, &bus->kept);
        if (code == FULWETHI_NO_MEMORY || code == FULWETHI_BUS_FULL || code == FULWETHI_TRACE_FULL) return;
        if (code) fprintf(stderr, "feed: %s\n", fulwethi_service_strerror(code));
        bus->has_kept = 0;
    }
}

/* Puts the next frame if none is outstanding. */
static void transmit(struct bus *bus) {
    struct fulwethi_frame frame;
    bus->is_blocked = 0;
    if (bus->outstanding || !is_told(bus) || fulwethi_service_front(&bus->service, &bus->station, &frame) != FULWETHI_DONE) return;
    struct can_frame put = {.can_id = frame.id | CAN_EFF_FLAG, .can_dlc = (uint8_t)frame.len};
    memcpy(put.data, frame.bytes, frame.len);
    bus->is_blocked = write(bus->socket, &put, sizeof put) != sizeof put;
    if (bus->is_blocked) return;
    bus->outstanding = 1;
    bus->end_at = ticks(bus) + ECHO_LOST;
}

/* How long to wait, in milliseconds; -1 if nothing is to be done by itself. While a frame is outstanding, or what failed is to be tried again,
 * the next frame has to wait too, so only timers count. */
static int pause_for(struct bus *bus) {
    uint64_t next, now = ticks(bus);
    int has_failed = bus->tell[0] || bus->is_blocked || bus->has_kept, pause = has_failed ? RETRY : bus->outstanding ? bus->is_lost ? ECHO_WAIT : ECHO_LOST : -1;
    uint32_t code = has_failed || bus->outstanding ? fulwethi_service_next_due_at(&bus->service, &next) : fulwethi_service_next_at(&bus->service, &next);
    if (code != FULWETHI_DONE) return pause;
    uint64_t left = next <= now ? 0 : next - now > 1000000 ? 1000000 : next - now;
    return pause < 0 || left < (uint64_t)pause ? (int)left : pause;
}

/* Wakes each thread whose client or inbox has news. */
static void tell_news(struct bus *bus, struct end *senders, struct end *receivers) {
    struct fulwethi_news news;
    while (fulwethi_service_news(&bus->service, &news) == FULWETHI_DONE) {
        if (news.kind == FULWETHI_CLIENT_NEWS) wake_at(senders[news.number].news); /* the k-th client was made at the k-th station */
        else for (int k = 0; k < STATIONS; k++) if (ADDRESS[k] == news.station && receivers[k].number == news.number) wake_at(receivers[k].news);
    }
}

/* Whether all is done: then the others are told to end. A message is counted as acknowledged before it is counted as ended. */
static int is_done(struct end *senders, struct end *receivers) {
    int done = ended == STATIONS * messages && received >= acknowledged;
    if (done) is_over = 1;
    for (int k = 0; done && k < STATIONS; k++) wake_at(senders[k].news), wake_at(receivers[k].news);
    return done;
}

/* One turn: waits, and does what is to be done. */
static void turn(struct bus *bus) {
    struct pollfd from[2] = {{.fd = bus->socket, .events = POLLIN}, {.fd = wake, .events = POLLIN}};
    uint64_t woken, made;
    if (poll(from, 2, pause_for(bus)) < 0 && errno != EINTR) abort();
    if (from[1].revents && read(wake, &woken, sizeof woken) < 0 && errno != EAGAIN) abort();
    uint32_t code = fulwethi_service_clock(&bus->service, ticks(bus));
    if (code && code != FULWETHI_NO_MEMORY && code != FULWETHI_TRACE_FULL) fail("clock", code);
    if (bus->outstanding && ticks(bus) >= bus->end_at) end_echo(bus, "012s012");
    receive(bus);
    do {
        code = fulwethi_service_turn(&bus->service, 16, &made);
        if (code && code != FULWETHI_NO_MEMORY && code != FULWETHI_TRACE_FULL) fail("turn", code);
        transmit(bus);
    } while (made && !code);
}

/* The service, with a client and an inbox at each station. */
static void begin(struct bus *bus, struct end *senders, struct end *receivers) {
    uint32_t code = fulwethi_service_new(&bus->service, ADDRESS, STATIONS);
    for (int k = 0; k < STATIONS && !code; k++) {
        senders[k].station = receivers[k].station = k;
        if ((senders[k].news = eventfd(0, EFD_NONBLOCK)) < 0 || (receivers[k].news = eventfd(0, EFD_NONBLOCK)) < 0) abort();
        code = fulwethi_service_attach(&bus->service, ADDRESS[k], &senders[k].client);
        if (!code) code = fulwethi_service_open(&bus->service, ADDRESS[k], PGN, MOST, &receivers[k].number, &receivers[k].inbox);
    }
    if (code) fail("begin", code);
}

int main(int words, char **word) {
    static struct bus bus;
    static struct end senders[STATIONS], receivers[STATIONS];
    pthread_t threads[2 * STATIONS];
    if (words != 3 || atol(word[2]) < 1) return fprintf(stderr, "usage: %s INTERFACE COUNT\n", word[0]), 2;
    messages = (uint32_t)atol(word[2]);
    wake = eventfd(0, EFD_NONBLOCK);
    bus.socket = open_socket(word[1]);
    if (bus.socket < 0 || wake < 0) return perror(word[1]), 1;
    bus.start = ticks(&bus);
    begin(&bus, senders, receivers);
    for (int k = 0; k < STATIONS; k++)
        if (pthread_create(&threads[k], NULL, send_all, &senders[k]) || pthread_create(&threads[STATIONS + k], NULL, receive_all, &receivers[k])) abort();
    do {
        turn(&bus);
        tell_news(&bus, senders, receivers);
    } while (!is_done(senders, receivers));
    for (int t = 0; t < 2 * STATIONS; t++) if (pthread_join(threads[t], NULL)) abort();
    fulwethi_service_free(&bus.service);
    for (int k = 0; k < STATIONS; k++) {
        fulwethi_client_free(&senders[k].client);
        fulwethi_inbox_free(&receivers[k].inbox);
    }
    fprintf(stderr, "acknowledged %u of %u, received %u\n", acknowledged, ended, received);
    return 0;
}
