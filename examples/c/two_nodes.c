/* Two nodes in one program, each with the loop of a program of its own: turn is its body. The bus is a ring of frames in memory. In a
 * program with a CAN driver, bus_read and bus_write are the driver's, and wait_for is how long it may wait for a frame. */
#include "fulwethi.h"
#include <inttypes.h>
#include <stdio.h>
#include <stdlib.h>

enum { TOOL = 0x21, ENGINE = 0x35, ALL = 255, PGN = 0xEF00, PGN_TO_ALL = 0xFECA, RING = 64 };

struct station {
    struct fulwethi node;
    struct fulwethi_frame kept;   /* a frame that the node didn't take yet */
    int has_kept, is_put;         /* there is one; and the front was put, and the node doesn't know it yet */
    struct fulwethi_frame ring[RING];
    unsigned read, written;       /* of the ring */
    struct station *other;
};

/* The next frame of another node, if there is one. */
static int bus_read(struct station *at, struct fulwethi_frame *frame) {
    if (at->read == at->written) return 0;
    *frame = at->ring[at->read++ % RING];
    return 1;
}

/* Puts a frame on the bus; 0 if it doesn't take one now. */
static int bus_write(struct station *at, const struct fulwethi_frame *frame) {
    struct station *to = at->other;
    if (to->written - to->read == RING) return 0;
    to->ring[to->written++ % RING] = *frame;
    return 1;
}

static void show(const char *call, uint32_t code) {
    if (code != FULWETHI_DONE) fprintf(stderr, "%s: %s\n", call, fulwethi_strerror(code));
}

/* Feeds frames while the node takes them. One that it can't take now is kept, and fed before any other. */
static void receive(struct station *at) {
    while (at->has_kept || bus_read(at, &at->kept)) {
        uint32_t code = fulwethi_feed(&at->node, &at->kept);
        at->has_kept = code == FULWETHI_NO_MEMORY || code == FULWETHI_TX_FULL;
        show("feed", code);
        if (at->has_kept) return;
    }
}

/* Puts frames while the bus takes them. Of one that was put the node is told, and it isn't put again. */
static void transmit(struct station *at) {
    struct fulwethi_frame frame;
    while (at->is_put || (fulwethi_front(&at->node, &frame) == FULWETHI_DONE && bus_write(at, &frame))) {
        uint32_t code = fulwethi_sent(&at->node);
        at->is_put = code != FULWETHI_DONE;
        show("sent", code);
        if (at->is_put) return;
    }
}

/* Takes what is told. Without memory for its bytes it stays. */
static void tell(struct station *at, uint64_t tick) {
    struct fulwethi_event event;
    while (fulwethi_event(&at->node, &event) == FULWETHI_DONE) {
        uint8_t *bytes = malloc(event.len + 1);
        if (!bytes) return;
        show("take", fulwethi_take(&at->node, bytes, event.len));
        printf("%" PRIu64 " ", tick);
        if (event.kind == FULWETHI_GIVEN) {
            printf("given from %02X: %" PRIu64 " bytes, the last %02X\n", event.from, event.len, bytes[event.len - 1]);
        } else {
            printf("message %" PRIu64 " to %02X: %s\n", event.number, event.to, fulwethi_outcome_name(event.outcome));
        }
        free(bytes);
    }
}

/* One turn of the loop. What isn't done for want of memory is done in a later turn. */
static void turn(struct station *at, uint64_t tick) {
    show("clock", fulwethi_clock(&at->node, tick));
    receive(at);
    while (fulwethi_fire(&at->node) == FULWETHI_DONE) { }
    transmit(at);
    tell(at, tick);
}

/* How long to wait for a frame at most: until there is something to do, and 50 ms where something found no memory. */
static uint64_t wait_for(struct station *at, uint64_t tick) {
    uint64_t next;
    if (at->has_kept || at->is_put) return 50;
    if (fulwethi_next_at(&at->node, &next) != FULWETHI_DONE) return 1000;
    return next <= tick ? 0 : next - tick < 1000 ? next - tick : 1000;
}

static int begin(struct station *at, uint8_t address, struct station *other) {
    uint64_t port;
    uint32_t code = fulwethi_new(&at->node, address);
    at->other = other;
    if (!code) code = fulwethi_open(&at->node, PGN, 1785, &port);
    if (!code) code = fulwethi_open(&at->node, PGN_TO_ALL, 1785, &port);
    show("begin", code);
    return code == FULWETHI_DONE;
}

int main(void) {
    static struct station tool, engine;
    uint8_t message[100];
    uint64_t number;
    for (size_t i = 0; i < sizeof message; i++) message[i] = (uint8_t)i;
    if (!begin(&tool, TOOL, &engine) || !begin(&engine, ENGINE, &tool)) return 1;
    show("send", fulwethi_send(&tool.node, ENGINE, PGN, message, sizeof message, &number));
    show("send", fulwethi_send(&tool.node, ALL, PGN_TO_ALL, message, 20, &number));
    for (uint64_t tick = 0; tick < 1000; ) {
        turn(&tool, tick);
        turn(&engine, tick);
        uint64_t mine = wait_for(&tool, tick), others = wait_for(&engine, tick);
        uint64_t pause = mine < others ? mine : others;
        tick += tool.read != tool.written || engine.read != engine.written ? 1 : pause ? pause : 1;
    }
    fulwethi_free(&tool.node);
    fulwethi_free(&engine.node);
    return 0;
}
