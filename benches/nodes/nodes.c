/* Times messages between two stations over a bus in memory through the calls of the C library: one case, in one round.
 *
 *   nodes LENGTH TIMES       prints nanoseconds, frames put and bytes given; the program of main.rt.in does the same in Rattle */
#include "fulwethi.h"
#include <stdio.h>
#include <stdlib.h>
#include <time.h>

enum { FROM = 0, TO = 1, DM1 = 0xFECA };

static void want(int is) {
    if (!is) exit(1);
}

/* Carries the next frame of a node to the other one. 0 where there was none. */
static int carry(struct fulwethi *from, struct fulwethi *to) {
    struct fulwethi_frame frame;
    uint32_t code = fulwethi_front(from, &frame);
    if (code == FULWETHI_NOTHING) return 0;
    want(code == FULWETHI_DONE);
    code = fulwethi_feed(to, &frame);
    want(code == FULWETHI_DONE);
    want(fulwethi_sent(from) == FULWETHI_DONE);
    return 1;
}

/* One message: how many frames it took. */
static uint64_t exchange(struct fulwethi *from, struct fulwethi *to, const uint8_t *bytes, uint8_t *room, size_t length) {
    struct fulwethi_event event;
    uint64_t number, frames = 0;
    int there, back;
    want(fulwethi_send(from, TO, DM1, bytes, length, &number) == FULWETHI_DONE);
    do {
        there = carry(from, to);
        back = carry(to, from);
        frames += (uint64_t)(there + back);
    } while (there || back);
    want(fulwethi_event(to, &event) == FULWETHI_DONE && event.kind == FULWETHI_GIVEN && event.len == length);
    want(fulwethi_take(to, room, length) == FULWETHI_DONE);
    want(fulwethi_event(from, &event) == FULWETHI_DONE && event.outcome == FULWETHI_ACKNOWLEDGED);
    want(fulwethi_take(from, room, 0) == FULWETHI_DONE);
    return frames;
}

static uint64_t nanoseconds(void) {
    struct timespec now;
    clock_gettime(CLOCK_MONOTONIC, &now);
    return (uint64_t)now.tv_sec * 1000000000u + (uint64_t)now.tv_nsec;
}

int main(int count, char **words) {
    struct fulwethi from = {0}, to = {0};
    uint64_t port, frames = 0, start;
    if (count != 3) return 2;
    uint32_t length = (uint32_t)atol(words[1]), times = (uint32_t)atol(words[2]);
    uint8_t *bytes = malloc(length), *room = malloc(length);
    want(bytes && room && !fulwethi_new(&from, FROM) && !fulwethi_new(&to, TO) && !fulwethi_open(&to, DM1, length, &port));
    for (uint32_t i = 0; i < length; i++) bytes[i] = (uint8_t)(i % 251);
    start = nanoseconds();
    for (uint32_t i = 0; i < times; i++) frames += exchange(&from, &to, bytes, room, length);
    printf("%llu %llu %llu\n", (unsigned long long)(nanoseconds() - start), (unsigned long long)frames, (unsigned long long)times * length);
    fulwethi_free(&from);
    fulwethi_free(&to);
    free(bytes);
    free(room);
    return 0;
}
