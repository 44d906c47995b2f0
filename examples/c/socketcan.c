/* A station of J1939 behind a raw CAN socket, as the smallest program to copy. It waits for standard output, and ends with its interface: what
 * is to run for long is examples/daemon.
 *
 *   socketcan INTERFACE ADDRESS PGN      (numbers in hexadecimal)
 *
 * A port is open for the PGN. Messages are written to standard output as 'FROM TO PGN BYTES..'; a line 'TO PGN BYTES..' of standard
 * input sends a message. The first line is read after 1,250 ms, since an earlier life of the program may have sent messages.
 *
 * What the node is told comes in the order of the bus. A frame of its own has its place there once the kernel loops it back, so one is
 * outstanding at a time, and what comes before its echo is fed before it is told to be sent. A loss (a full receive queue, a controller
 * that restarted or was overrun) is told before the frame that was read with it. If it is told while a frame is outstanding, nothing more
 * is fed until the echo comes; what was read before counts as missed too.
 *
 * Behind the frame of a broadcast there is nothing to put for 50 ms, so its echo needn't wake the program: it is read with what comes next. A
 * second socket, which is shown the frames of other nodes alone, wakes it meanwhile. What it is shown is read from the first one. */
#include "fulwethi.h"
#include <ctype.h>
#include <errno.h>
#include <linux/can.h>
#include <linux/can/error.h>
#include <linux/can/raw.h>
#include <net/if.h>
#include <poll.h>
#include <stdio.h>
#include <stdlib.h>
#include <string.h>
#include <sys/ioctl.h>
#include <sys/socket.h>
#include <time.h>
#include <unistd.h>

enum {
    ECHO_FLAG = 1 << 18,  /* IFF_ECHO: the interface loops a frame back once it was put */
    ECHO_WAIT = 200,      /* so long an echo is waited for after a loss was told */
    ECHO_LOST = 1000,     /* after so long without one it counts as lost */
    RETRY = 10,           /* what found no memory, or no place in the interface's queue, is tried again */
    GAP = 50,             /* so long after a frame of a broadcast its next one comes */
    MOST_BYTES = 131072,  /* of a message that a line sends */
    MOST_LINE = 4 * MOST_BYTES
};

struct station {
    struct fulwethi node;
    int bus, others;            /* sockets: of all frames, and of those of other nodes, which wakes */
    uint64_t start, now;        /* the clock's time at tick 0; and the tick of this turn */
    uint64_t sends_from;        /* it may have started again, so it reads no line before this tick */
    uint32_t drops;             /* how many frames the socket dropped so far */
    struct fulwethi_frame kept; /* a frame that the node didn't take yet */
    int has_kept;
    char tell[8];               /* what the node is to be told next: m missed, s sent */
    int outstanding, is_lost;   /* a frame was put without an echo yet; and a loss was told since */
    uint64_t put_at, lost_at;   /* when */
    int is_called;              /* since the node last had nothing to put, more than time has gone by */
    int is_blocked, has_said;   /* the interface didn't take a frame; and that was said */
};

static uint64_t milliseconds(void) {
    struct timespec now;
    if (clock_gettime(CLOCK_MONOTONIC, &now)) abort();
    return (uint64_t)now.tv_sec * 1000 + (uint64_t)now.tv_nsec / 1000000;
}

static uint64_t ticks(const struct station *at) { return milliseconds() - at->start; }

/* Whether the interface tells when a frame was put. Else the kernel loops a frame back at once, whenever it is put. */
static int tells_order(const char *name) {
    char path[64];
    unsigned flags = 0;
    if (snprintf(path, sizeof path, "/sys/class/net/%s/flags", name) >= (int)sizeof path) return 0;
    FILE *file = fopen(path, "r");
    if (!file) return 0;
    int count = fscanf(file, "%x", &flags);
    fclose(file);
    return count == 1 && flags & ECHO_FLAG;
}

static int bind_to(int bus, const char *name) {
    struct ifreq interface = {0};
    struct sockaddr_can address = {.can_family = AF_CAN};
    strncpy(interface.ifr_name, name, IFNAMSIZ - 1);
    if (ioctl(bus, SIOCGIFINDEX, &interface) < 0) return -1;
    address.can_ifindex = interface.ifr_ifindex;
    return bind(bus, (struct sockaddr *)&address, sizeof address);
}

static int open_bus(const char *name) {
    int on = 1, bus = socket(PF_CAN, SOCK_RAW | SOCK_NONBLOCK, CAN_RAW);
    can_err_mask_t errors = CAN_ERR_RESTARTED | CAN_ERR_BUSOFF | CAN_ERR_CRTL;
    if (bus < 0) return -1;
    if (setsockopt(bus, SOL_CAN_RAW, CAN_RAW_RECV_OWN_MSGS, &on, sizeof on) < 0) return -1;
    if (setsockopt(bus, SOL_CAN_RAW, CAN_RAW_ERR_FILTER, &errors, sizeof errors) < 0) return -1;
    if (setsockopt(bus, SOL_SOCKET, SO_RXQ_OVFL, &on, sizeof on) < 0) return -1;
    if (bind_to(bus, name) < 0) return -1;
    if (!tells_order(name)) fprintf(stderr, "%s doesn't tell when a frame was put: the order of its own frames isn't known\n", name);
    return bus;
}

/* A socket that is shown what hasn't this source address. It has room for a few frames, since it only wakes. */
static int open_others(const char *name, uint8_t address) {
    int least = 1, others = socket(PF_CAN, SOCK_RAW | SOCK_NONBLOCK, CAN_RAW);
    struct can_filter filter = {.can_id = CAN_EFF_FLAG | CAN_INV_FILTER | address, .can_mask = CAN_EFF_FLAG | 0xFF};
    if (others < 0) return -1;
    if (setsockopt(others, SOL_CAN_RAW, CAN_RAW_FILTER, &filter, sizeof filter) < 0) return -1;
    if (setsockopt(others, SOL_SOCKET, SO_RCVBUF, &least, sizeof least) < 0) return -1;
    return bind_to(others, name) < 0 ? -1 : others;
}

/* The node is to be told this, behind what it is to be told already. */
static void note(struct station *at, const char *what) {
    if (strlen(at->tell) + strlen(what) < sizeof at->tell) strcat(at->tell, what);
}

/* Tells the node what it is to be told; 0 where something is left, for want of memory. */
static int is_told(struct station *at) {
    while (at->tell[0]) {
        uint32_t code = FULWETHI_DONE;
        if (at->tell[0] == 's') code = fulwethi_sent(&at->node);
        else if (at->tell[0] == 'm') code = fulwethi_missed(&at->node), at->is_called = 1;
        if (code == FULWETHI_NO_MEMORY) return 0;
        memmove(at->tell, at->tell + 1, strlen(at->tell));
    }
    return 1;
}

/* Frames were lost: that is told now, or once the place of the outstanding frame is known. */
static void lose(struct station *at) {
    if (!at->outstanding) note(at, "m");
    else if (!at->is_lost) at->is_lost = 1, at->lost_at = ticks(at);
}

/* The outstanding frame was put. */
static void see_echo(struct station *at) {
    if (!at->outstanding) note(at, "m"); /* one that counted as lost: what came since isn't in order */
    else note(at, at->is_lost ? "ms" : "s");
    at->outstanding = at->is_lost = 0;
}

/* An echo that doesn't come: the frame counts as put, wherever among those that were lost. */
static void give_up_echo(struct station *at) {
    if (at->outstanding && !at->is_lost && ticks(at) - at->put_at >= ECHO_LOST) lose(at);
    if (!at->is_lost || ticks(at) - at->lost_at < ECHO_WAIT) return;
    note(at, "msm");
    at->outstanding = at->is_lost = at->has_kept = 0;
}

/* Reads a frame, and whether frames were lost before it. 1 for one to feed, 0 for another, -1 where none is there. */
static int read_frame(struct station *at) {
    struct can_frame got;
    char control[CMSG_SPACE(sizeof(uint32_t)) + 64];
    struct iovec place = {.iov_base = &got, .iov_len = sizeof got};
    struct msghdr message = {.msg_iov = &place, .msg_iovlen = 1, .msg_control = control, .msg_controllen = sizeof control};
    ssize_t n = recvmsg(at->bus, &message, 0);
    if (n < 0) {
        if (errno == ENETDOWN) lose(at);
        return -1;
    }
    for (struct cmsghdr *part = CMSG_FIRSTHDR(&message); part; part = CMSG_NXTHDR(&message, part)) {
        uint32_t drops;
        if (part->cmsg_level != SOL_SOCKET || part->cmsg_type != SO_RXQ_OVFL) continue;
        memcpy(&drops, CMSG_DATA(part), sizeof drops);
        if (drops != at->drops) lose(at);
        at->drops = drops;
    }
    if (n != sizeof got) return 0;
    if (got.can_id & CAN_ERR_FLAG) {
        int is_overrun = got.can_id & CAN_ERR_CRTL && got.data[1] & CAN_ERR_CRTL_RX_OVERFLOW;
        if (got.can_id & (CAN_ERR_RESTARTED | CAN_ERR_BUSOFF) || is_overrun) lose(at);
        return 0;
    }
    if (message.msg_flags & MSG_CONFIRM) {
        see_echo(at);
        return 0;
    }
    if (at->is_lost || !(got.can_id & CAN_EFF_FLAG) || got.can_id & CAN_RTR_FLAG) return 0;
    at->kept = (struct fulwethi_frame){.id = got.can_id & CAN_EFF_MASK, .len = got.can_dlc};
    memcpy(at->kept.bytes, got.data, 8);
    return 1;
}

/* Reads frames while there are some and the node takes them. */
static void receive(struct station *at) {
    while (is_told(at)) {
        if (!at->has_kept) {
            int read = read_frame(at);
            if (read < 0) return;
            at->has_kept = read;
            continue; /* what was lost is told before the frame */
        }
        uint32_t code = fulwethi_feed(&at->node, &at->kept);
        at->is_called = 1;
        if (code == FULWETHI_NO_MEMORY || code == FULWETHI_TX_FULL) return;
        if (code == FULWETHI_STATION_ADDRESS) fprintf(stderr, "another node has the address\n");
        at->has_kept = 0;
    }
}

/* The interface didn't take a frame, which is tried again later. */
static void block(struct station *at) {
    at->is_blocked = 1;
    if (!at->has_said) fprintf(stderr, "not put yet: %s\n", strerror(errno));
    at->has_said = 1;
}

/* Puts the next frame where none is outstanding: 1 where it did. */
static int transmit(struct station *at) {
    struct fulwethi_frame frame;
    at->is_blocked = 0;
    if (at->outstanding || !is_told(at)) return 0;
    uint32_t code = fulwethi_front(&at->node, &frame);
    if (code == FULWETHI_NOTHING) at->is_called = 0;
    if (code != FULWETHI_DONE) return 0;
    struct can_frame put = {.can_id = frame.id | CAN_EFF_FLAG, .can_dlc = (uint8_t)frame.len};
    memcpy(put.data, frame.bytes, frame.len);
    if (write(at->bus, &put, sizeof put) != sizeof put) {
        block(at);
        return 0;
    }
    at->outstanding = 1;
    at->has_said = 0;
    at->put_at = at->now;
    return 1;
}

/* Writes what is told. A message for which there is no room now stays. */
static void tell(struct fulwethi *node) {
    struct fulwethi_event event;
    while (fulwethi_event(node, &event) == FULWETHI_DONE) {
        uint8_t *room = malloc(event.len ? event.len : 1);
        if (!room) return;
        if (fulwethi_take(node, room, event.len) != FULWETHI_DONE) abort();
        if (event.kind == FULWETHI_GIVEN) {
            printf("%02X %02X %05X", event.from, event.to, event.pgn);
            for (uint64_t i = 0; i < event.len; i++) printf(" %02X", room[i]);
            printf("\n");
        } else {
            fprintf(stderr, "message %llu to %02X: outcome %u\n", (unsigned long long)event.number, event.to, event.outcome);
        }
        free(room);
    }
    if (fflush(stdout)) perror("output");
}

/* Reads a hexadecimal number of at most `most`; 0 where the word is none. */
static int read_number(const char *word, unsigned long most, unsigned long *number) {
    char *end;
    if (!word || !isxdigit((unsigned char)*word)) return 0;
    *number = strtoul(word, &end, 16);
    return !*end && *number <= most;
}

/* Reads 'TO PGN BYTES..'; 0 where a line isn't that. */
static int read_line(char *line, unsigned long *to, unsigned long *pgn, uint8_t *bytes, size_t *len) {
    static const char space[] = " \t\r";
    unsigned long byte;
    if (!read_number(strtok(line, space), 0xFF, to) || !read_number(strtok(NULL, space), 0x3FFFF, pgn)) return 0;
    *len = 0;
    for (char *word = strtok(NULL, space); word; word = strtok(NULL, space)) {
        if (*len == MOST_BYTES || !read_number(word, 0xFF, &byte)) return 0;
        bytes[(*len)++] = (uint8_t)byte;
    }
    return 1;
}

/* Sends the message of a line, which has room for a zero behind it if it isn't too long. */
static void send_line(struct fulwethi *node, char *line, size_t length) {
    static uint8_t bytes[MOST_BYTES];
    unsigned long to, pgn;
    uint64_t number;
    size_t len;
    if (length <= MOST_LINE) line[length] = 0;
    if (length > MOST_LINE || strlen(line) != length || !read_line(line, &to, &pgn, bytes, &len)) {
        fprintf(stderr, "wrong line: say TO PGN BYTES.. in hexadecimal, at most %d bytes\n", MOST_BYTES);
        return;
    }
    uint32_t code = fulwethi_send(node, (uint8_t)to, (uint32_t)pgn, bytes, len, &number);
    if (code) fprintf(stderr, "not sent: code %u\n", code);
}

/* Reads what is there of standard input, and sends the messages of its lines; 0 at its end. A line may come in pieces. */
static int read_input(struct fulwethi *node) {
    static char line[MOST_LINE + 1];
    static size_t len;
    char got[4096];
    ssize_t n = read(STDIN_FILENO, got, sizeof got);
    if (n < 0) return errno == EINTR || errno == EAGAIN;
    for (ssize_t i = 0; i < n; i++) {
        if (got[i] == '\n') {
            send_line(node, line, len);
            len = 0;
        } else if (len < sizeof line) {
            line[len++] = got[i];
        }
    }
    if (!n && len) send_line(node, line, len);
    return n > 0;
}

/* The earlier of a pause and that until a tick. */
static int until(int pause, uint64_t now, uint64_t tick) {
    uint64_t left = tick <= now ? 0 : tick - now;
    if (left > 1000000) left = 1000000;
    return pause < 0 || left < (uint64_t)pause ? (int)left : pause;
}

/* Whether something found no memory or no place, and is to be tried again. */
static int has_failed(const struct station *at) { return at->tell[0] || at->is_blocked || at->has_kept; }

/* Whether the echo needn't wake. The outstanding frame came by time alone: so it is a broadcast's, none stands behind it, and the next one
 * comes after the gap. */
static int is_between(const struct station *at, uint64_t now) {
    return at->outstanding && !at->is_called && !at->is_lost && !has_failed(at) && now < at->put_at + GAP;
}

/* How long to wait for the bus, in milliseconds; -1 where nothing else is to be done. While a frame is outstanding or what failed is to
 * be tried again, the node's next frame has to wait too, so only its timers count. */
static int pause_for(struct station *at, uint64_t now) {
    uint64_t next;
    int waits = has_failed(at) || at->outstanding, pause = has_failed(at) ? RETRY : -1;
    uint32_t code = waits ? fulwethi_next_due_at(&at->node, &next) : fulwethi_next_at(&at->node, &next);
    /* A timer that is due and didn't fire wants a place in the node's queue. */
    if (code == FULWETHI_DONE) pause = until(pause, now, waits && next <= now ? now + RETRY : next);
    if (is_between(at, now)) return until(pause, now, at->put_at + GAP);
    if (at->is_lost) return until(pause, now, at->lost_at + ECHO_WAIT);
    return at->outstanding ? until(pause, now, at->put_at + ECHO_LOST) : pause;
}

/* One turn: waits, and does what is to be done. */
static void turn(struct station *at, int *input) {
    struct can_frame shown;
    uint64_t now = ticks(at);
    struct pollfd from[2] = {{.fd = is_between(at, now) ? at->others : at->bus, .events = POLLIN}, {.fd = now < at->sends_from ? -1 : *input, .events = POLLIN}};
    int pause = pause_for(at, now);
    if (now < at->sends_from) pause = until(pause, now, at->sends_from);
    if (poll(from, 2, pause) < 0 && errno != EINTR) abort();
    at->now = ticks(at);
    uint32_t code = fulwethi_clock(&at->node, at->now);
    if (code) fprintf(stderr, "clock: code %u\n", code);
    /* What woke goes first: what comes from here on wakes again, unless it is read now. */
    if (from[0].fd == at->others) while (recv(at->others, &shown, sizeof shown, 0) > 0) { }
    receive(at);
    give_up_echo(at);
    while (fulwethi_fire(&at->node) == FULWETHI_DONE) at->is_called = 1;
    if (from[1].revents) {
        at->is_called = 1;
        if (!read_input(&at->node)) *input = -1;
    }
    while (transmit(at)) receive(at);
    tell(&at->node);
}

int main(int count, char **words) {
    static struct station at;
    uint64_t port;
    int input = 0;
    unsigned long address, pgn;
    if (count != 4 || !read_number(words[2], 0xFF, &address) || !read_number(words[3], 0x3FFFF, &pgn)) {
        return fprintf(stderr, "usage: %s INTERFACE ADDRESS PGN\n", words[0]), 2;
    }
    at.bus = open_bus(words[1]);
    at.others = open_others(words[1], (uint8_t)address);
    if (at.bus < 0 || at.others < 0) return perror(words[1]), 1;
    at.start = milliseconds();
    uint32_t code = fulwethi_again(&at.node, (uint8_t)address, 0);
    if (!code) code = fulwethi_sends_from(&at.node, &at.sends_from);
    if (!code) code = fulwethi_open(&at.node, (uint32_t)pgn, 117440505, &port);
    if (code) return fprintf(stderr, "no station: code %u\n", code), 1;
    for (;;) turn(&at, &input);
}
