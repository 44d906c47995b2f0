/*
 * fulwethi: one station of SAE J1939-21 and ISO 11783-3 for a program that owns the bus.
 *
 * Frames and ticks go in, frames and events come out. No call waits, reads a clock, starts a thread or calls back.
 *
 * What a caller upholds:
 *   - a `struct fulwethi` starts as all zeros (`= {0}`), is made by fulwethi_new or fulwethi_again, and ends by fulwethi_free; only these
 *     three take one that isn't made;
 *   - it isn't copied: of two copies, the one that isn't passed is spent by the first call;
 *   - no two calls on it are made at the same time; any thread may make the next one, once it sees what the last one did (a mutex, a
 *     queue or a join sees to that);
 *   - no pointer is null, but that to the bytes of fulwethi_send and to the room of fulwethi_take if its length is 0; a pointer to n bytes has
 *     n bytes behind it;
 *   - where frames of the bus were lost, fulwethi_missed is called before a later frame is fed;
 *   - a program that starts again at its address makes its node by fulwethi_again, which sends no message for 1,250 ticks: what others answer
 *     to its earlier ones may be under way, and could acknowledge a new one that wasn't given.
 *
 * Memory comes from three functions, over malloc, that a program may define itself: examples/c/heap.c.
 *
 * Units: a message is 9 to 1,785 bytes to all (address 255), 9 to 117,440,505 bytes to one node (0 to 253); a tick is 1 ms.
 */
#ifndef FULWETHI_H
#define FULWETHI_H

#include <stddef.h>
#include <stdint.h>

#ifdef __cplusplus
extern "C" {
#endif

/* The version of this header, and its three numbers, two hexadecimal digits each. */
#define FULWETHI_VERSION "0.3.0"
#define FULWETHI_VERSION_NUMBER 0x000300

/* The version of the library that is linked, as FULWETHI_VERSION_NUMBER. */
uint32_t fulwethi_version(void);

struct fulwethi { void *ptr; };

/* A frame: 29 bits of identifier, and 0 to 8 bytes. */
struct fulwethi_frame { uint32_t id, len; uint8_t bytes[8]; };

/* Kind 1: a message at port `number`, of `len` bytes. Kind 2: the outcome of message `number` to `to`. */
struct fulwethi_event { uint32_t kind, from, to, pgn; uint64_t number, len; uint32_t outcome, reason; };

/* What a node counted: frames that were put or fed, malformed ones among them, messages that were given, and messages by their outcome. */
struct fulwethi_counts { uint64_t frames, malformed, given, acknowledged, broadcast, aborted, timed_out, overrun, cancelled, unreachable; };

/* A lane: how many messages to a destination have no outcome, and 1 where it is in doubt after one that failed. */
struct fulwethi_lane { uint64_t pending; uint32_t in_doubt; };

enum { FULWETHI_GIVEN = 1, FULWETHI_OUTCOME = 2 };

enum {
    FULWETHI_ACKNOWLEDGED = 1, FULWETHI_BROADCAST, FULWETHI_ABORTED, FULWETHI_TIMED_OUT, FULWETHI_OVERRUN, FULWETHI_CANCELLED,
    FULWETHI_UNREACHABLE
};

/* What a call comes to. A call that isn't done can be made again. It changed nothing, but that feed and sent may have ended what missed
 * left to end. */
enum {
    FULWETHI_DONE = 0,
    /* refused: */
    FULWETHI_ID_TOO_LARGE = 1, FULWETHI_DATA_TOO_LONG = 2, FULWETHI_BAD_PGN = 3, FULWETHI_TX_FULL = 6, FULWETHI_BUS_FULL = 7,
    FULWETHI_LANE_FULL = 9, FULWETHI_PORTS_FULL = 11, FULWETHI_NO_SUCH_PORT = 12, FULWETHI_BAD_ADDRESS = 13,
    FULWETHI_NO_SUCH_STATION = 14, FULWETHI_TOO_SHORT = 15, FULWETHI_TOO_LONG = 16, FULWETHI_SAME_STATION = 17,
    FULWETHI_NOTHING_DUE = 20, FULWETHI_NOTHING_TO_SEND = 21, FULWETHI_STATION_ADDRESS = 23,
    FULWETHI_PORT_PAUSED = 27, FULWETHI_PORT_NOT_PAUSED = 28,
    /* not done: */
    FULWETHI_NO_MEMORY = 64, FULWETHI_NOTHING = 65, FULWETHI_CLOCK_PASSED = 67,
    FULWETHI_TOO_LITTLE_ROOM = 68,
    /* done: the node has looked at the frame, but took nothing of what it brings, since there was no memory */
    FULWETHI_WITHOUT_ROOM = 70,
    /* not done for want of memory: what was under way when frames were missed has yet to end. The node remembers it, and has passed the
     * frame by, which counts as missed too */
    FULWETHI_PASSED_BY = 71,
    /* the same of missed: each feed and each sent tries first to end it */
    FULWETHI_NOT_ENDED = 72,
    /* not sent: the program started again (fulwethi_sends_from) */
    FULWETHI_STARTING = 77
};

/* The exports: a handle goes in by value, and comes back by `out`. No pointer is null, also if its length is 0. */
uint32_t fulwethi_raw_new(uint8_t address, struct fulwethi *out);
uint32_t fulwethi_raw_again(uint8_t address, uint64_t tick, struct fulwethi *out);
void fulwethi_raw_free(struct fulwethi of);
uint32_t fulwethi_raw_open(struct fulwethi of, uint32_t pgn, uint32_t max_len, uint64_t *port, struct fulwethi *out);
uint32_t fulwethi_raw_close(struct fulwethi of, uint64_t port, struct fulwethi *out);
uint32_t fulwethi_raw_pause(struct fulwethi of, uint64_t port, struct fulwethi *out);
uint32_t fulwethi_raw_resume(struct fulwethi of, uint64_t port, struct fulwethi *out);
uint32_t fulwethi_raw_send(struct fulwethi of, uint8_t to, uint32_t pgn, const uint8_t *bytes, size_t len, uint64_t *number, struct fulwethi *out);
uint32_t fulwethi_raw_cancel(struct fulwethi of, uint8_t to, uint64_t number, struct fulwethi *out);
uint32_t fulwethi_raw_feed(struct fulwethi of, uint32_t id, const uint8_t *bytes, size_t len, struct fulwethi *out);
uint32_t fulwethi_raw_missed(struct fulwethi of, struct fulwethi *out);
uint32_t fulwethi_raw_front(struct fulwethi of, struct fulwethi_frame *frame, struct fulwethi *out);
uint32_t fulwethi_raw_sent(struct fulwethi of, struct fulwethi *out);
uint32_t fulwethi_raw_clock(struct fulwethi of, uint64_t tick, struct fulwethi *out);
uint32_t fulwethi_raw_fire(struct fulwethi of, struct fulwethi *out);
uint32_t fulwethi_raw_next_due_at(struct fulwethi of, uint64_t *tick, struct fulwethi *out);
uint32_t fulwethi_raw_next_at(struct fulwethi of, uint64_t *tick, struct fulwethi *out);
uint32_t fulwethi_raw_sends_from(struct fulwethi of, uint64_t *tick, struct fulwethi *out);
uint32_t fulwethi_raw_send_refusal(struct fulwethi of, uint8_t to, uint32_t pgn, size_t len, struct fulwethi *out);
uint32_t fulwethi_raw_lane(struct fulwethi of, uint8_t to, struct fulwethi_lane *lane, struct fulwethi *out);
uint32_t fulwethi_raw_counts(struct fulwethi of, struct fulwethi_counts *counts, struct fulwethi *out);
uint32_t fulwethi_raw_event(struct fulwethi of, struct fulwethi_event *event, struct fulwethi *out);
uint32_t fulwethi_raw_take(struct fulwethi of, uint8_t *room, size_t len, struct fulwethi *out);

/* A station with this address, 0 to 253 (SAE J1939-81), at tick 0, if no program sent a message from it in the last 1,250 ms.
 * BAD_ADDRESS, NO_MEMORY: nothing was made. */
static inline uint32_t fulwethi_new(struct fulwethi *node, uint8_t address) { return fulwethi_raw_new(address, node); }

/* That of a program that starts again at its address, or may do so, at this tick of its clock. It answers others at once, and sends no message
 * for 1,250 ticks. BAD_ADDRESS, NO_MEMORY: nothing was made. */
static inline uint32_t fulwethi_again(struct fulwethi *node, uint8_t address, uint64_t tick) { return fulwethi_raw_again(address, tick, node); }

/* Frees it, and what wasn't taken. It is all zeros then, and may be made again. */
static inline void fulwethi_free(struct fulwethi *node) {
    if (node->ptr) fulwethi_raw_free(*node);
    node->ptr = NULL;
}

/* Opens a port for messages of a PGN (18 bits; of PDU1 with low byte 0) of at most max_len bytes, and writes its number.
 * BAD_PGN, PORTS_FULL (16 are open), NO_MEMORY. */
static inline uint32_t fulwethi_open(struct fulwethi *node, uint32_t pgn, uint32_t max_len, uint64_t *port) {
    return fulwethi_raw_open(*node, pgn, max_len, port, node);
}

/* Closes a port: nothing is given at it any more. NO_SUCH_PORT, NO_MEMORY. */
static inline uint32_t fulwethi_close(struct fulwethi *node, uint64_t port) { return fulwethi_raw_close(*node, port, node); }

/* Pauses a port: a connection that brings it a message is held, and goes on once the port is resumed. NO_SUCH_PORT, PORT_PAUSED, NO_MEMORY. */
static inline uint32_t fulwethi_pause(struct fulwethi *node, uint64_t port) { return fulwethi_raw_pause(*node, port, node); }

/* Ends the pause of a port. NO_SUCH_PORT, PORT_NOT_PAUSED, NO_MEMORY. */
static inline uint32_t fulwethi_resume(struct fulwethi *node, uint64_t port) { return fulwethi_raw_resume(*node, port, node); }

/* Sends a message, whose bytes are copied, and writes its number, from 1 for each destination. Its frames come by front, its end
 * by an event. BAD_PGN, STARTING (before the tick of fulwethi_sends_from), NO_SUCH_STATION (254), SAME_STATION, TOO_SHORT, TOO_LONG,
 * LANE_FULL (32 without an outcome), NO_MEMORY. */
static inline uint32_t fulwethi_send(struct fulwethi *node, uint8_t to, uint32_t pgn, const uint8_t *bytes, size_t len, uint64_t *number) {
    static const uint8_t nothing = 0;
    return fulwethi_raw_send(*node, to, pgn, len ? bytes : &nothing, len, number, node);
}

/* Writes the tick before which it sends no message; 0 if fulwethi_new made it. */
static inline uint32_t fulwethi_sends_from(struct fulwethi *node, uint64_t *tick) { return fulwethi_raw_sends_from(*node, tick, node); }

/* Why fulwethi_send of so many bytes would be refused, but for STARTING, or DONE. It takes no memory. */
static inline uint32_t fulwethi_send_refusal(struct fulwethi *node, uint8_t to, uint32_t pgn, size_t len) {
    return fulwethi_raw_send_refusal(*node, to, pgn, len, node);
}

/* Writes how the lane to a destination stands. */
static inline uint32_t fulwethi_lane(struct fulwethi *node, uint8_t to, struct fulwethi_lane *lane) {
    return fulwethi_raw_lane(*node, to, lane, node);
}

/* Writes what was counted. */
static inline uint32_t fulwethi_counts(struct fulwethi *node, struct fulwethi_counts *counts) {
    return fulwethi_raw_counts(*node, counts, node);
}

/* Cancels a message that has no outcome yet. NOTHING_TO_SEND (there is none), NO_SUCH_STATION, TX_FULL, NO_MEMORY. */
static inline uint32_t fulwethi_cancel(struct fulwethi *node, uint8_t to, uint64_t number) {
    return fulwethi_raw_cancel(*node, to, number, node);
}

/* Reports that frames of the bus were lost, by the driver or since they weren't fed, before a later frame is fed. Incoming messages end,
 * and connections under way, with outcome OVERRUN. Otherwise a message could be assembled from packets of two.
 * NOT_ENDED (several connections were under way, and there was no memory): the node remembers it, and each feed and sent tries it first. */
static inline uint32_t fulwethi_missed(struct fulwethi *node) { return fulwethi_raw_missed(*node, node); }

/* A frame of another node comes from the bus. STATION_ADDRESS (don't loop own frames back), TX_FULL, NO_MEMORY, ID_TOO_LARGE,
 * DATA_TOO_LONG (len above 8; no byte is read): the node doesn't have it. Feed it again before any other, or report it with missed.
 * WITHOUT_ROOM: the node looked at it, without memory for what it brings. PASSED_BY: NOT_ENDED still holds. The frame counts as missed,
 * and isn't fed again. */
static inline uint32_t fulwethi_feed(struct fulwethi *node, const struct fulwethi_frame *frame) {
    if (frame->len > 8) return frame->id >> 29 ? FULWETHI_ID_TOO_LARGE : FULWETHI_DATA_TOO_LONG;
    return fulwethi_raw_feed(*node, frame->id, frame->bytes, frame->len, node);
}

/* The frame that is next for the bus; it stays next until sent. NOTHING: none now. NO_MEMORY. */
static inline uint32_t fulwethi_front(struct fulwethi *node, struct fulwethi_frame *frame) { return fulwethi_raw_front(*node, frame, node); }

/* That frame was put. NOTHING_TO_SEND (there was none). NO_MEMORY (only if missed answered NOT_ENDED): to be called again, without
 * putting the frame again. */
static inline uint32_t fulwethi_sent(struct fulwethi *node) { return fulwethi_raw_sent(*node, node); }

/* The clock goes on to a tick of 1 ms. CLOCK_PASSED (it stands later), NO_MEMORY. */
static inline uint32_t fulwethi_clock(struct fulwethi *node, uint64_t tick) { return fulwethi_raw_clock(*node, tick, node); }

/* Fires one timer that is due; to be called until it isn't done. NOTHING_DUE, TX_FULL (put frames first), NO_MEMORY. */
static inline uint32_t fulwethi_fire(struct fulwethi *node) { return fulwethi_raw_fire(*node, node); }

/* Writes the tick at which the next timer is due. NOTHING: no timer runs. */
static inline uint32_t fulwethi_next_due_at(struct fulwethi *node, uint64_t *tick) { return fulwethi_raw_next_due_at(*node, tick, node); }

/* Writes the first tick, from that of its clock on, at which there is something to do: a frame for the bus, that of a broadcast too, or a
 * timer. Until then the program may sleep, unless a frame comes or it makes a call. NOTHING: there is no such tick. */
static inline uint32_t fulwethi_next_at(struct fulwethi *node, uint64_t *tick) { return fulwethi_raw_next_at(*node, tick, node); }

/* Shows what is told next, with the length of its bytes; it stays. NOTHING: nothing is told. */
static inline uint32_t fulwethi_event(struct fulwethi *node, struct fulwethi_event *event) { return fulwethi_raw_event(*node, event, node); }

/* Takes what is told next, and writes its bytes to the front of the room. NOTHING, TOO_LITTLE_ROOM: it stays. */
static inline uint32_t fulwethi_take(struct fulwethi *node, uint8_t *room, size_t len) {
    uint8_t nothing = 0;
    return fulwethi_raw_take(*node, len ? room : &nothing, len, node);
}

/* The name of a code, as TX_FULL; the empty text if there is no such code. */
static inline const char *fulwethi_code_name(uint32_t code) {
    switch (code) {
    case FULWETHI_DONE: return "DONE";
    case FULWETHI_ID_TOO_LARGE: return "ID_TOO_LARGE";
    case FULWETHI_DATA_TOO_LONG: return "DATA_TOO_LONG";
    case FULWETHI_BAD_PGN: return "BAD_PGN";
    case FULWETHI_TX_FULL: return "TX_FULL";
    case FULWETHI_BUS_FULL: return "BUS_FULL";
    case FULWETHI_LANE_FULL: return "LANE_FULL";
    case FULWETHI_PORTS_FULL: return "PORTS_FULL";
    case FULWETHI_NO_SUCH_PORT: return "NO_SUCH_PORT";
    case FULWETHI_BAD_ADDRESS: return "BAD_ADDRESS";
    case FULWETHI_NO_SUCH_STATION: return "NO_SUCH_STATION";
    case FULWETHI_TOO_SHORT: return "TOO_SHORT";
    case FULWETHI_TOO_LONG: return "TOO_LONG";
    case FULWETHI_SAME_STATION: return "SAME_STATION";
    case FULWETHI_NOTHING_DUE: return "NOTHING_DUE";
    case FULWETHI_NOTHING_TO_SEND: return "NOTHING_TO_SEND";
    case FULWETHI_STATION_ADDRESS: return "STATION_ADDRESS";
    case FULWETHI_PORT_PAUSED: return "PORT_PAUSED";
    case FULWETHI_PORT_NOT_PAUSED: return "PORT_NOT_PAUSED";
    case FULWETHI_NO_MEMORY: return "NO_MEMORY";
    case FULWETHI_NOTHING: return "NOTHING";
    case FULWETHI_CLOCK_PASSED: return "CLOCK_PASSED";
    case FULWETHI_TOO_LITTLE_ROOM: return "TOO_LITTLE_ROOM";
    case FULWETHI_WITHOUT_ROOM: return "WITHOUT_ROOM";
    case FULWETHI_PASSED_BY: return "PASSED_BY";
    case FULWETHI_NOT_ENDED: return "NOT_ENDED";
    case FULWETHI_STARTING: return "STARTING";
    default: return "";
    }
}

/* What a code says, in English. */
static inline const char *fulwethi_strerror(uint32_t code) {
    switch (code) {
    case FULWETHI_DONE: return "done";
    case FULWETHI_ID_TOO_LARGE: return "the identifier of the frame has more than 29 bits";
    case FULWETHI_DATA_TOO_LONG: return "the frame has more than 8 bytes";
    case FULWETHI_BAD_PGN: return "no PGN: it has more than 18 bits, or is of PDU1 and its low byte isn't 0";
    case FULWETHI_TX_FULL: return "too few places are free in the queue of frames for the bus: put frames first";
    case FULWETHI_BUS_FULL: return "the node has counted as many frames as it can";
    case FULWETHI_LANE_FULL: return "32 messages to this destination have no outcome";
    case FULWETHI_PORTS_FULL: return "16 ports are open";
    case FULWETHI_NO_SUCH_PORT: return "no port with this number is open";
    case FULWETHI_BAD_ADDRESS: return "a node's address is 0 to 253";
    case FULWETHI_NO_SUCH_STATION: return "254 is no destination";
    case FULWETHI_TOO_SHORT: return "the message has fewer than 9 bytes";
    case FULWETHI_TOO_LONG: return "the message has more than 1,785 bytes to all, or more than 117,440,505 to one node";
    case FULWETHI_SAME_STATION: return "the destination is the node itself";
    case FULWETHI_NOTHING_DUE: return "no timer is due";
    case FULWETHI_NOTHING_TO_SEND: return "there is no such frame or message to send";
    case FULWETHI_STATION_ADDRESS: return "the frame has the source address of the node";
    case FULWETHI_PORT_PAUSED: return "the port is paused already";
    case FULWETHI_PORT_NOT_PAUSED: return "the port isn't paused";
    case FULWETHI_NO_MEMORY: return "no memory: nothing changed";
    case FULWETHI_NOTHING: return "there is nothing now";
    case FULWETHI_CLOCK_PASSED: return "the clock of the node stands later";
    case FULWETHI_TOO_LITTLE_ROOM: return "the room is too little for the message";
    case FULWETHI_WITHOUT_ROOM: return "the frame was looked at, without memory for what it brings";
    case FULWETHI_PASSED_BY: return "the frame was passed by: no memory to end what was under way when frames were missed";
    case FULWETHI_NOT_ENDED: return "no memory to end what was under way: the node remembers it";
    case FULWETHI_STARTING: return "the program started again: it sends no message yet";
    default: return "unknown code";
    }
}

/* The name of an outcome, as ACKNOWLEDGED; the empty text if there is no such outcome. */
static inline const char *fulwethi_outcome_name(uint32_t outcome) {
    switch (outcome) {
    case FULWETHI_ACKNOWLEDGED: return "ACKNOWLEDGED";
    case FULWETHI_BROADCAST: return "BROADCAST";
    case FULWETHI_ABORTED: return "ABORTED";
    case FULWETHI_TIMED_OUT: return "TIMED_OUT";
    case FULWETHI_OVERRUN: return "OVERRUN";
    case FULWETHI_CANCELLED: return "CANCELLED";
    case FULWETHI_UNREACHABLE: return "UNREACHABLE";
    default: return "";
    }
}

#ifdef __cplusplus
}
#endif
#endif
