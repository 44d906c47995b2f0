/* Times messages between the stations of one service, by one thread, through the calls of the C library: one case, in one round.
 *
 *   service STATIONS CLIENTS LENGTH TIMES       prints nanoseconds, frames put and bytes received
 *
 * The clients are spread over the stations. TIMES times each submits a message to the next station, and all are carried until each has its outcome. */
#include "fulwethi_service.h"
#include <stdio.h>
#include <stdlib.h>
#include <time.h>

enum { DM1 = 0xFECA, MOST_STATIONS = 32, MOST_CLIENTS = 16 * MOST_STATIONS, ROUNDS = 64 };

static struct fulwethi_service service;
static struct fulwethi_client clients[MOST_CLIENTS];
static struct fulwethi_inbox inboxes[MOST_STATIONS];
static uint32_t stations, count;

static void want(int is) {
    if (!is) exit(1);
}

/* How many messages the inboxes had. */
static uint32_t receive_all(uint8_t *room, uint32_t length) {
    struct fulwethi_message message;
    uint32_t received = 0;
    for (uint32_t s = 0; s < stations; s++) {
        while (fulwethi_inbox_receive(&inboxes[s], room, length, &message) == FULWETHI_DONE) {
            want(message.len == length);
            received++;
        }
    }
    return received;
}

/* How many of the clients' messages were acknowledged; none ends otherwise. */
static uint32_t read_all(void) {
    struct fulwethi_note note;
    uint32_t ended = 0;
    for (uint32_t c = 0; c < count; c++) {
        while (fulwethi_client_outcome(&clients[c], &note) == FULWETHI_DONE) {
            want(note.outcome == FULWETHI_ACKNOWLEDGED);
            ended++;
        }
    }
    return ended;
}

/* A message of each client: how many frames they took. */
static uint64_t exchange(const uint8_t *bytes, uint8_t *room, uint32_t length) {
    struct fulwethi_frame frame;
    uint64_t ticket, made, frames = 0;
    uint32_t received = 0, ended = 0;
    uint8_t station;
    for (uint32_t c = 0; c < count; c++)
        want(fulwethi_client_submit(&clients[c], (uint8_t)((c % stations + 1) % stations), DM1, bytes, length, &ticket) == FULWETHI_DONE);
    while (ended < count || received < count) {
        want(fulwethi_service_turn(&service, ROUNDS, &made) == FULWETHI_DONE);
        for (; fulwethi_service_front(&service, &station, &frame) == FULWETHI_DONE; frames++, made++)
            want(fulwethi_service_sent(&service, station) == FULWETHI_DONE);
        received += receive_all(room, length);
        ended += read_all();
        want(made || ended == count);
    }
    return frames;
}

static void begin(uint32_t length) {
    uint8_t addresses[MOST_STATIONS];
    uint64_t port;
    for (uint32_t s = 0; s < stations; s++) addresses[s] = (uint8_t)s;
    want(fulwethi_service_new(&service, addresses, stations) == FULWETHI_DONE);
    for (uint32_t s = 0; s < stations; s++) want(fulwethi_service_open(&service, (uint8_t)s, DM1, length, &port, &inboxes[s]) == FULWETHI_DONE);
    for (uint32_t c = 0; c < count; c++) want(fulwethi_service_attach(&service, (uint8_t)(c % stations), &clients[c]) == FULWETHI_DONE);
}

static void end(void) {
    fulwethi_service_free(&service);
    for (uint32_t s = 0; s < stations; s++) fulwethi_inbox_free(&inboxes[s]);
    for (uint32_t c = 0; c < count; c++) fulwethi_client_free(&clients[c]);
}

static uint64_t nanoseconds(void) {
    struct timespec now;
    clock_gettime(CLOCK_MONOTONIC, &now);
    return (uint64_t)now.tv_sec * 1000000000u + (uint64_t)now.tv_nsec;
}

int main(int words, char **word) {
    uint64_t frames = 0, start;
    if (words != 5) return 2;
    stations = (uint32_t)atol(word[1]);
    count = (uint32_t)atol(word[2]);
    uint32_t length = (uint32_t)atol(word[3]), times = (uint32_t)atol(word[4]);
    want(stations >= 2 && stations <= MOST_STATIONS && count >= 1 && count <= 16 * stations);
    uint8_t *bytes = malloc(length), *room = malloc(length);
    want(bytes && room);
    begin(length);
    for (uint32_t i = 0; i < length; i++) bytes[i] = (uint8_t)(i % 251);
    start = nanoseconds();
    for (uint32_t i = 0; i < times; i++) frames += exchange(bytes, room, length);
    printf("%llu %llu %llu\n", (unsigned long long)(nanoseconds() - start), (unsigned long long)frames, (unsigned long long)times * count * length);
    end();
    free(bytes);
    free(room);
    return 0;
}
