/* Both libraries in one program: a node of fulwethi.h and a service of fulwethi_service.h on one bus in memory. The node, 40, sends to station 21 of the
 * service and to all; a client of station 35 sends to the node, and one of 21 to 35. Each frame that one puts is fed to the other one. */
#include "fulwethi_service.h"
#include <stdio.h>
#include <stdlib.h>
#include <string.h>

enum { NODE = 0x40, ALL = 0xFF, PGN = 0xFECA, MOST = 2000, INBOXES = 2 };
static const uint8_t STATION[INBOXES] = {0x21, 0x35};

#define WANT(is) do { if (!(is)) { fprintf(stderr, "line %d: %s\n", __LINE__, #is); exit(1); } } while (0)

struct bus {
    struct fulwethi node;
    struct fulwethi_service service;
    struct fulwethi_inbox inboxes[INBOXES];
    struct fulwethi_client clients[INBOXES];
    uint64_t tick;
};

/* Carries all frames that wait, one of each by turns; whether there were any. */
static int carry(struct bus *bus) {
    struct fulwethi_frame frame;
    uint64_t made;
    uint8_t station;
    int any = 0;
    WANT(fulwethi_service_turn(&bus->service, 16, &made) == FULWETHI_DONE);
    if (fulwethi_front(&bus->node, &frame) == FULWETHI_DONE) {
        WANT(fulwethi_service_feed(&bus->service, &frame) == FULWETHI_DONE && fulwethi_sent(&bus->node) == FULWETHI_DONE);
        any = 1;
    }
    WANT(fulwethi_service_turn(&bus->service, 16, &made) == FULWETHI_DONE);
    if (fulwethi_service_front(&bus->service, &station, &frame) == FULWETHI_DONE) {
        WANT(fulwethi_feed(&bus->node, &frame) == FULWETHI_DONE && fulwethi_service_sent(&bus->service, station) == FULWETHI_DONE);
        any = 1;
    }
    return any;
}

/* Until nothing is to do at any later tick. */
static void run(struct bus *bus) {
    for (;;) {
        uint64_t at, first = UINT64_MAX;
        while (carry(bus)) { }
        if (fulwethi_next_at(&bus->node, &at) == FULWETHI_DONE) first = at;
        if (fulwethi_service_next_at(&bus->service, &at) == FULWETHI_DONE && at < first) first = at;
        if (first == UINT64_MAX) return;
        bus->tick = first;
        WANT(fulwethi_clock(&bus->node, first) == FULWETHI_DONE && fulwethi_service_clock(&bus->service, first) == FULWETHI_DONE);
        while (fulwethi_fire(&bus->node) == FULWETHI_DONE) { }
    }
}

/* The next message of an inbox is that of `from` to `to`, of so many bytes, each of which is `from`. */
static void receive(struct bus *bus, int at, uint8_t from, uint8_t to, size_t len) {
    struct fulwethi_message message;
    uint8_t room[MOST];
    WANT(fulwethi_inbox_receive(&bus->inboxes[at], room, sizeof room, &message) == FULWETHI_DONE);
    WANT(message.from == from && message.to == to && message.pgn == PGN && message.len == len);
    for (size_t i = 0; i < len; i++) WANT(room[i] == from);
}

/* What the node is told: a message of 35, and that its own ones were acknowledged and queued. */
static void take_all(struct bus *bus) {
    struct fulwethi_event event;
    uint8_t room[MOST];
    uint32_t given = 0, acknowledged = 0, broadcast = 0;
    while (fulwethi_event(&bus->node, &event) == FULWETHI_DONE) {
        WANT(fulwethi_take(&bus->node, room, sizeof room) == FULWETHI_DONE);
        given += event.kind == FULWETHI_GIVEN && event.from == 0x35 && event.len == 1900 && room[0] == 0x35;
        acknowledged += event.kind == FULWETHI_OUTCOME && event.outcome == FULWETHI_ACKNOWLEDGED && event.to == 0x21;
        broadcast += event.kind == FULWETHI_OUTCOME && event.outcome == FULWETHI_BROADCAST && event.to == ALL;
    }
    WANT(given == 1 && acknowledged == 1 && broadcast == 1);
}

/* What is sent: by the node to 21 and to all, by 35 to the node, and by 21 to 35. */
static void send_all(struct bus *bus) {
    uint8_t bytes[MOST];
    uint64_t number;
    memset(bytes, NODE, sizeof bytes);
    WANT(fulwethi_send(&bus->node, 0x21, PGN, bytes, 100, &number) == FULWETHI_DONE && fulwethi_send(&bus->node, ALL, PGN, bytes, 20, &number) == FULWETHI_DONE);
    memset(bytes, 0x35, sizeof bytes);
    WANT(fulwethi_client_submit(&bus->clients[1], NODE, PGN, bytes, 1900, &number) == FULWETHI_DONE);
    memset(bytes, 0x21, sizeof bytes);
    WANT(fulwethi_client_submit(&bus->clients[0], 0x35, PGN, bytes, 50, &number) == FULWETHI_DONE);
}

int main(void) {
    static struct bus bus;
    struct fulwethi_note note;
    uint64_t port;
    WANT(fulwethi_new(&bus.node, NODE) == FULWETHI_DONE && fulwethi_open(&bus.node, PGN, MOST, &port) == FULWETHI_DONE);
    WANT(fulwethi_service_new(&bus.service, STATION, INBOXES) == FULWETHI_DONE);
    for (int at = 0; at < INBOXES; at++) {
        WANT(fulwethi_service_attach(&bus.service, STATION[at], &bus.clients[at]) == FULWETHI_DONE);
        WANT(fulwethi_service_open(&bus.service, STATION[at], PGN, MOST, &port, &bus.inboxes[at]) == FULWETHI_DONE);
    }
    send_all(&bus);
    run(&bus);
    take_all(&bus);
    for (int at = 0; at < INBOXES; at++) WANT(fulwethi_client_outcome(&bus.clients[at], &note) == FULWETHI_DONE && note.outcome == FULWETHI_ACKNOWLEDGED);
    receive(&bus, 0, NODE, 0x21, 100);
    receive(&bus, 0, NODE, ALL, 20);
    for (int at = 0; at < INBOXES; at++) {
        if (at) receive(&bus, at, 0x21, 0x35, 50);
        if (at) receive(&bus, at, NODE, ALL, 20);
        fulwethi_client_free(&bus.clients[at]);
        fulwethi_inbox_free(&bus.inboxes[at]);
    }
    fulwethi_service_free(&bus.service);
    fulwethi_free(&bus.node);
    return printf("both\n") < 0;
}
