/* A bus for two stations of examples/c/socketcan.c over its stand-in, on which each frame takes the time that it takes on a wire.
 *
 *   wire PATH BITRATE put|once
 *
 * A station is shown its frame as an echo once it was put, or at once (an interface without IFF_ECHO). Of the frames that wait, the one of
 * the lowest identifier goes first. The next frame begins when the last one ends if it waits by then, else when it comes. Once no frame
 * has come for half a second it prints how many there were, and the microseconds from the beginning of the first to the end of the last. */
#define _GNU_SOURCE
#include <linux/can.h>
#include <poll.h>
#include <stdint.h>
#include <stdio.h>
#include <stdlib.h>
#include <string.h>
#include <sys/prctl.h>
#include <sys/socket.h>
#include <sys/un.h>
#include <time.h>

enum { STATIONS = 2, RING = 4096, QUIET = 500 };

struct shown { struct can_frame frame; uint32_t drops, is_echo; };

struct station { int all, others; uint32_t own; struct can_frame waiting[RING]; unsigned read, written; };

static struct station stations[STATIONS];
static int is_at_once;

static int64_t nanoseconds(void) {
    struct timespec now;
    if (clock_gettime(CLOCK_MONOTONIC, &now)) abort();
    return (int64_t)now.tv_sec * 1000000000 + now.tv_nsec;
}

/* A socket of a station, and its filter. */
static int accept_bound(int listener, struct can_filter *filter) {
    int bound = accept(listener, NULL, NULL);
    if (bound < 0 || recv(bound, filter, sizeof *filter, 0) != sizeof *filter) abort();
    return bound;
}

static void begin(const char *path) {
    struct sockaddr_un at = {.sun_family = AF_UNIX};
    struct can_filter filter;
    int listener = socket(AF_UNIX, SOCK_SEQPACKET, 0);
    if (strlen(path) >= sizeof at.sun_path) abort();
    strcpy(at.sun_path, path);
    if (listener < 0 || bind(listener, (struct sockaddr *)&at, sizeof at) || listen(listener, 2 * STATIONS)) abort();
    printf("ready\n");
    fflush(stdout);
    for (struct station *it = stations; it < stations + STATIONS; it++) {
        it->all = accept_bound(listener, &filter);
        it->others = accept_bound(listener, &filter);
        it->own = filter.can_id & 0xFF;
    }
}

static void show(struct station *to, const struct can_frame *frame, uint32_t is_echo) {
    struct shown shown = {*frame, 0, is_echo};
    if (send(to->all, &shown, sizeof shown, 0) != sizeof shown) exit(0);
    if ((frame->can_id & 0xFF) != to->own) send(to->others, &shown, sizeof shown, MSG_DONTWAIT);
}

/* Takes what the stations wrote by now. */
static void receive(void) {
    for (struct station *it = stations; it < stations + STATIONS; it++) {
        struct can_frame *place;
        ssize_t n;
        while (place = &it->waiting[it->written % RING], it->written - it->read < RING && (n = recv(it->all, place, sizeof *place, MSG_DONTWAIT)) >= 0) {
            if (n != sizeof *place) exit(0); /* the station ended */
            if (is_at_once) show(it, place, 1);
            it->written++;
        }
    }
}

/* The station whose frame goes next. */
static struct station *first(void) {
    struct station *found = NULL;
    for (struct station *it = stations; it < stations + STATIONS; it++) {
        if (it->read == it->written) continue;
        if (!found || it->waiting[it->read % RING].can_id < found->waiting[found->read % RING].can_id) found = it;
    }
    return found;
}

/* Waits until a station writes, for QUIET at most; 0 where none did. */
static int wait_for_frame(void) {
    struct pollfd from[STATIONS];
    for (int i = 0; i < STATIONS; i++) from[i] = (struct pollfd){.fd = stations[i].all, .events = POLLIN};
    return poll(from, STATIONS, QUIET);
}

static void wait_until(int64_t end) {
    struct timespec at = {end / 1000000000, end % 1000000000};
    while (clock_nanosleep(CLOCK_MONOTONIC, TIMER_ABSTIME, &at, NULL)) { }
}

/* Puts a frame, and answers when it ends: it has 67 bits, the gap behind it among them, eight for each byte, and here four stuffed ones. */
static int64_t put(struct station *from, int64_t begun, long bitrate) {
    struct can_frame frame = from->waiting[from->read % RING];
    int64_t end = begun + (71 + 8 * (int64_t)frame.can_dlc) * 1000000000 / bitrate;
    wait_until(end);
    receive();
    from->read++;
    for (struct station *to = stations; to < stations + STATIONS; to++) {
        if (to != from) show(to, &frame, 0);
        else if (!is_at_once) show(to, &frame, 1);
    }
    return end;
}

int main(int count, char **words) {
    int64_t began = 0, end = 0;
    long frames = 0, bitrate = count == 4 ? atol(words[2]) : 0;
    if (bitrate < 1) return 2;
    is_at_once = !strcmp(words[3], "once");
    prctl(PR_SET_TIMERSLACK, 1);
    begin(words[1]);
    for (;;) {
        struct station *next = first();
        int64_t begun = end;
        if (!next) {
            int came = wait_for_frame();
            begun = nanoseconds();
            receive();
            next = first();
            if (!came && frames) {
                printf("%ld %lld\n", frames, (long long)(end - began) / 1000);
                fflush(stdout);
                frames = 0;
            }
        }
        if (!next) continue;
        if (!frames++) began = begun;
        end = put(next, begun, bitrate);
    }
}
