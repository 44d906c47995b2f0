/*
 * fulwethi_service: the stations of one bus of SAE J1939-21 and ISO 11783-3, with clients and inboxes for many threads.
 *
 * The thread that has the bus works the service: frames and ticks go in, frames come out. A client submits messages of one station and reads
 * what became of them; an inbox receives the messages of one port. Each client and each inbox may be used by a thread of its own, without
 * the bus's thread. No call waits, takes a lock, reads a clock, starts a thread or calls back.
 *
 * Whose a call is:
 *   - fulwethi_service_..: of the thread that has the service. attach hands out a client, open an inbox; close wants the service and the
 *     inbox, so its thread hands the inbox over first; so it is with agrees, for clients and inboxes;
 *   - fulwethi_client_..: of the thread that has the client; fulwethi_inbox_..: of the thread that has the inbox.
 *
 * What a caller upholds:
 *   - each of the three handles starts as all zeros (`= {0}`), is made by new, attach or open, and ends by its free; only these take one
 *     that isn't made. They end in any order: what is left of a client or an inbox after its service gets nothing more, and a client that
 *     was freed keeps its place at its station, one of 16, until it is detached;
 *   - a handle isn't copied: of two copies, the one that isn't passed is spent by the first call;
 *   - no two calls on one handle are made at the same time; any thread may make the next one, once it sees what the last one did (a mutex, a
 *     queue, an atomic or a join sees to that). Calls on different handles may be made at the same time;
 *   - no pointer is null, also where its length is 0; a pointer to room for n bytes has n bytes behind it;
 *   - where frames of the bus were lost, fulwethi_service_missed is called for each station before a later frame is fed;
 *   - a program that starts again at its addresses submits no message for 1,250 ms (fulwethi.h says why);
 *   - malloc, realloc and free, or what stands for them, may be called by several threads at once.
 *
 * Rings: a client has 64 places for messages that its station didn't take over yet, and 64 for outcomes that it didn't read yet: while those
 * are all owed, no message more is taken over. An inbox has 64 places, or as many as open_with is told. If it is full, a message from one node
 * ends with the abort of its connection (outcome ABORTED at the sender, reason 2), and a message to all is lost at each port of the station that
 * would have had it. So inboxes are to be emptied. turned_away counts both.
 *
 * Threads that sleep: behind each turn, news names every client and every port into whose ring something came, one by one, so that the thread
 * that has it is woken.
 *
 * Memory: each message is kept three times (once as it was submitted, once in the record, once as it was received), and so is each outcome,
 * until a turn cuts the record at 900,000 calls. Then the service lets go of what is known to be read, and each client and inbox at its next
 * call. It comes from the three functions of examples/c/heap.c.
 *
 * Units: as in fulwethi.h, of which this takes frames, counts, codes and outcomes. A program that calls nothing of fulwethi.h itself links
 * libfulwethi_service alone, static (.a) or shared (.so); both libraries can be linked into one program, each of them static or shared.
 */
#ifndef FULWETHI_SERVICE_H
#define FULWETHI_SERVICE_H

#include "fulwethi.h"

#ifdef __cplusplus
extern "C" {
#endif

struct fulwethi_service { void *ptr; };
struct fulwethi_client { void *ptr; };
struct fulwethi_inbox { void *ptr; };

/* What became of a message: its ticket, its number among all that its station sent to `to`, its outcome, and the reason of an abort. */
struct fulwethi_note { uint64_t ticket, number; uint32_t to, outcome, reason, unused; };

/* A message that came, of `len` bytes. */
struct fulwethi_message { uint32_t from, to, pgn, unused; uint64_t len; };

/* Who has news: the client of this number, or the port of this number at its station (0 of a client). */
struct fulwethi_news { uint64_t number; uint32_t kind, station; };

enum { FULWETHI_CLIENT_NEWS = 1, FULWETHI_PORT_NEWS = 2 };

/* Codes beside those of fulwethi.h. A call that isn't done changed nothing that any call shows. */
enum {
    FULWETHI_RING_FULL = 24, FULWETHI_TRACE_FULL = 25, FULWETHI_CLIENTS_FULL = 26, FULWETHI_NOT_THIS_SEGMENT = 30,
    FULWETHI_NO_SUCH_CLIENT = 73, FULWETHI_CLIENT_GONE = 74,
    /* No message is there, and none will come: the port was closed. */
    FULWETHI_CLOSED = 75,
    /* An inbox has 1 to 65,536 places. */
    FULWETHI_BAD_PLACES = 76
};

/* The exports: a handle goes in by value, and comes back by `out`. */
uint32_t fulwethi_raw_service_new(const uint8_t *addresses, size_t count, struct fulwethi_service *out);
void fulwethi_raw_service_free(struct fulwethi_service of);
uint32_t fulwethi_raw_service_attach(struct fulwethi_service of, uint8_t station, struct fulwethi_client *client, struct fulwethi_service *out);
uint32_t fulwethi_raw_service_open(struct fulwethi_service of, uint8_t station, uint32_t pgn, uint32_t max_len, uint64_t *port, struct fulwethi_inbox *inbox, struct fulwethi_service *out);
uint32_t fulwethi_raw_service_open_with(struct fulwethi_service of, uint8_t station, uint32_t pgn, uint32_t max_len, uint32_t places, uint64_t *port, struct fulwethi_inbox *inbox, struct fulwethi_service *out);
uint32_t fulwethi_raw_service_close(struct fulwethi_service of, struct fulwethi_inbox inbox, struct fulwethi_service *out, struct fulwethi_inbox *inbox_out);
uint32_t fulwethi_raw_service_close_port(struct fulwethi_service of, uint8_t station, uint64_t port, struct fulwethi_service *out);
uint32_t fulwethi_raw_service_detach(struct fulwethi_service of, uint64_t client, struct fulwethi_service *out);
uint32_t fulwethi_raw_service_pause(struct fulwethi_service of, uint8_t station, uint64_t port, struct fulwethi_service *out);
uint32_t fulwethi_raw_service_resume(struct fulwethi_service of, uint8_t station, uint64_t port, struct fulwethi_service *out);
uint32_t fulwethi_raw_service_feed(struct fulwethi_service of, uint32_t id, const uint8_t *bytes, size_t len, struct fulwethi_service *out);
uint32_t fulwethi_raw_service_missed(struct fulwethi_service of, uint8_t station, struct fulwethi_service *out);
uint32_t fulwethi_raw_service_front(struct fulwethi_service of, uint8_t *station, struct fulwethi_frame *frame, struct fulwethi_service *out);
uint32_t fulwethi_raw_service_sent(struct fulwethi_service of, uint8_t station, struct fulwethi_service *out);
uint32_t fulwethi_raw_service_clock(struct fulwethi_service of, uint64_t tick, struct fulwethi_service *out);
uint32_t fulwethi_raw_service_next_due_at(struct fulwethi_service of, uint64_t *tick, struct fulwethi_service *out);
uint32_t fulwethi_raw_service_next_at(struct fulwethi_service of, uint64_t *tick, struct fulwethi_service *out);
uint32_t fulwethi_raw_service_turn(struct fulwethi_service of, uint32_t most, uint64_t *made, struct fulwethi_service *out);
uint32_t fulwethi_raw_service_news(struct fulwethi_service of, struct fulwethi_news *news, struct fulwethi_service *out);
uint32_t fulwethi_raw_service_turned_away(struct fulwethi_service of, uint64_t *count, struct fulwethi_service *out);
uint32_t fulwethi_raw_service_counts(struct fulwethi_service of, struct fulwethi_counts *counts, struct fulwethi_service *out);
uint32_t fulwethi_raw_service_compare_client(struct fulwethi_service of, struct fulwethi_client client, struct fulwethi_service *out, struct fulwethi_client *client_out);
uint32_t fulwethi_raw_service_compare_inbox(struct fulwethi_service of, struct fulwethi_inbox inbox, struct fulwethi_service *out, struct fulwethi_inbox *inbox_out);
uint32_t fulwethi_raw_client_submit(struct fulwethi_client of, uint8_t to, uint32_t pgn, const uint8_t *bytes, size_t len, uint64_t *ticket, struct fulwethi_client *out);
uint32_t fulwethi_raw_client_number(struct fulwethi_client of, uint64_t *number, struct fulwethi_client *out);
uint32_t fulwethi_raw_client_outcome(struct fulwethi_client of, struct fulwethi_note *note, struct fulwethi_client *out);
void fulwethi_raw_client_free(struct fulwethi_client of);
uint32_t fulwethi_raw_inbox_receive(struct fulwethi_inbox of, uint8_t *room, size_t len, struct fulwethi_message *message, struct fulwethi_inbox *out);
void fulwethi_raw_inbox_free(struct fulwethi_inbox of);

/* The service */

/* Stations with these addresses, each 0 to 253 and no two the same, 1 to 32 of them, at tick 0. BAD_ADDRESS, NO_MEMORY: nothing was made. */
static inline uint32_t fulwethi_service_new(struct fulwethi_service *service, const uint8_t *addresses, size_t count) {
    return fulwethi_raw_service_new(addresses, count, service);
}

/* Frees it. It is all zeros then, and may be made again. */
static inline void fulwethi_service_free(struct fulwethi_service *service) {
    if (service->ptr) fulwethi_raw_service_free(*service);
    service->ptr = NULL;
}

/* Makes a client of a station. NO_SUCH_STATION, CLIENTS_FULL (16 are at it that weren't detached), NO_MEMORY. */
static inline uint32_t fulwethi_service_attach(struct fulwethi_service *service, uint8_t station, struct fulwethi_client *client) {
    return fulwethi_raw_service_attach(*service, station, client, service);
}

/* Opens a port of a station for messages of a PGN (18 bits; of PDU1 with low byte 0) of at most max_len bytes, writes its number, and makes
 * its inbox, with 64 places. BAD_PGN, NO_SUCH_STATION, PORTS_FULL (16 are open at it), TRACE_FULL (turn mends that), NO_MEMORY. */
static inline uint32_t fulwethi_service_open(struct fulwethi_service *service, uint8_t station, uint32_t pgn, uint32_t max_len, uint64_t *port, struct fulwethi_inbox *inbox) {
    return fulwethi_raw_service_open(*service, station, pgn, max_len, port, inbox, service);
}

/* The same with an inbox that has so many places. BAD_PLACES (0, or more than 65,536), and then as open. NO_MEMORY too if there is none for so many. */
static inline uint32_t fulwethi_service_open_with(struct fulwethi_service *service, uint8_t station, uint32_t pgn, uint32_t max_len, uint32_t places, uint64_t *port, struct fulwethi_inbox *inbox) {
    return fulwethi_raw_service_open_with(*service, station, pgn, max_len, places, port, inbox, service);
}

/* Closes the port of an inbox: nothing more is given at it. What was given is still received. NOT_THIS_SEGMENT (the inbox is another
 * service's), TRACE_FULL (turn mends that), NO_MEMORY. */
static inline uint32_t fulwethi_service_close(struct fulwethi_service *service, struct fulwethi_inbox *inbox) {
    return fulwethi_raw_service_close(*service, *inbox, service, inbox);
}

/* Detaches a client by its number: its place at its station is free for another one. No more of its messages are taken over, and it reads no more
 * outcomes but those that are there; those under way go on, and their outcomes are in the record alone. Its rings stay in memory until the service is
 * freed. NO_SUCH_CLIENT, CLIENT_GONE (it was detached). */
static inline uint32_t fulwethi_service_detach(struct fulwethi_service *service, uint64_t client) {
    return fulwethi_raw_service_detach(*service, client, service);
}

/* Closes a port of a station by its number, while another thread has its inbox: nothing more is given at it. The inbox receives what was given, and then
 * answers CLOSED. NO_SUCH_PORT (it was never opened), TRACE_FULL (turn mends that), NO_MEMORY. */
static inline uint32_t fulwethi_service_close_port(struct fulwethi_service *service, uint8_t station, uint64_t port) {
    return fulwethi_raw_service_close_port(*service, station, port, service);
}

/* Pauses a port of a station: a connection that brings it a message is held, and goes on once the port is resumed. NO_SUCH_STATION,
 * NO_SUCH_PORT, PORT_PAUSED, TRACE_FULL (turn mends that), NO_MEMORY. */
static inline uint32_t fulwethi_service_pause(struct fulwethi_service *service, uint8_t station, uint64_t port) {
    return fulwethi_raw_service_pause(*service, station, port, service);
}

/* Ends the pause of a port of a station. NO_SUCH_STATION, NO_SUCH_PORT, PORT_NOT_PAUSED, TRACE_FULL (turn mends that), NO_MEMORY. */
static inline uint32_t fulwethi_service_resume(struct fulwethi_service *service, uint8_t station, uint64_t port) {
    return fulwethi_raw_service_resume(*service, station, port, service);
}

/* Reports for a station that frames of the bus were lost, by the driver or since they weren't fed; to be called for each station before a
 * later frame is fed. Frames that wait for the station are missed too. Incoming messages end, and connections under way, with outcome
 * OVERRUN. Otherwise a message could be assembled from packets of two. NO_SUCH_STATION. TRACE_FULL (turn mends that), NO_MEMORY: to be
 * called again. */
static inline uint32_t fulwethi_service_missed(struct fulwethi_service *service, uint8_t station) {
    return fulwethi_raw_service_missed(*service, station, service);
}

/* A frame of a node that is no station of the service comes from the bus; the stations look at it in their turns. STATION_ADDRESS (don't
 * loop own frames back), BUS_FULL (4,096 wait: make turns first), TRACE_FULL (turn mends that), NO_MEMORY, ID_TOO_LARGE, DATA_TOO_LONG
 * (len above 8; no byte is read): the stations don't have it. Feed it again before any other, or report it with missed. */
static inline uint32_t fulwethi_service_feed(struct fulwethi_service *service, const struct fulwethi_frame *frame) {
    if (frame->len > 8) return frame->id >> 29 ? FULWETHI_ID_TOO_LARGE : FULWETHI_DATA_TOO_LONG;
    return fulwethi_raw_service_feed(*service, frame->id, frame->bytes, frame->len, service);
}

/* The frame that is next for the bus, that of lowest identifier of those that wait, and its station. A station's first frame stays its
 * first until sent. NOTHING: none now. */
static inline uint32_t fulwethi_service_front(struct fulwethi_service *service, uint8_t *station, struct fulwethi_frame *frame) {
    return fulwethi_raw_service_front(*service, station, frame, service);
}

/* The first frame of a station was put: the other stations look at it in their turns, as nodes behind the wire do. NO_SUCH_STATION,
 * NOTHING_TO_SEND (there was none). BUS_FULL (4,096 wait: make turns first), TRACE_FULL (turn mends that), NO_MEMORY: to be called again,
 * without putting the frame again. */
static inline uint32_t fulwethi_service_sent(struct fulwethi_service *service, uint8_t station) {
    return fulwethi_raw_service_sent(*service, station, service);
}

/* The clock goes on to a tick of 1 ms. CLOCK_PASSED (it stands later), TRACE_FULL (turn mends that), NO_MEMORY. */
static inline uint32_t fulwethi_service_clock(struct fulwethi_service *service, uint64_t tick) {
    return fulwethi_raw_service_clock(*service, tick, service);
}

/* A turn of each station, again until none had anything to do, at most `most` times; writes how many calls on the record these made.
 * In a turn a station takes over a message of each of its clients, queues a frame, looks at one that waits for it, and fires a timer
 * that is due. DONE with `made` 0: nothing is to do. Want of memory only delays what it concerns. NO_MEMORY, TRACE_FULL: the record,
 * which is full, couldn't be cut; to be called again. */
static inline uint32_t fulwethi_service_turn(struct fulwethi_service *service, uint32_t most, uint64_t *made) {
    return fulwethi_raw_service_turn(*service, most, made, service);
}

/* Writes a client or a port that has news: an outcome or a message that came into its ring since it was last named. It has none then until one more
 * comes, so whoever is woken reads all that is there. Clients come before ports. NOTHING: no more have news. To be called behind each turn until
 * then. A port that is closed isn't named for that: who closes it by its number wakes its inbox's thread. */
static inline uint32_t fulwethi_service_news(struct fulwethi_service *service, struct fulwethi_news *news) {
    return fulwethi_raw_service_news(*service, news, service);
}

/* Writes the tick at which the next timer is due. NOTHING: no timer runs. */
static inline uint32_t fulwethi_service_next_due_at(struct fulwethi_service *service, uint64_t *tick) {
    return fulwethi_raw_service_next_due_at(*service, tick, service);
}

/* Writes the first tick, from that of its clock on, at which there is something to do: a frame for the bus, that of a broadcast too, or a
 * timer. Until then the bus's thread may sleep, unless a frame comes, a client submits, or it makes a call: it isn't told of what
 * clients submit, so they wake it. NOTHING: there is no such tick. */
static inline uint32_t fulwethi_service_next_at(struct fulwethi_service *service, uint64_t *tick) {
    return fulwethi_raw_service_next_at(*service, tick, service);
}

/* Writes what its stations counted together: each port counts the messages that it was given, so one to all may count several times. */
static inline uint32_t fulwethi_service_counts(struct fulwethi_service *service, struct fulwethi_counts *counts) {
    return fulwethi_raw_service_counts(*service, counts, service);
}

/* Writes how many messages a station turned away since an inbox that was to have it had no place, or since its port was closed meanwhile. */
static inline uint32_t fulwethi_service_turned_away(struct fulwethi_service *service, uint64_t *count) {
    return fulwethi_raw_service_turned_away(*service, count, service);
}

/* Whether these clients and inboxes are the service's, and submitted, read and received what its record says, byte by byte: since it was cut last, and before
 * as far as is kept. The threads that have them hand them over for the call. NOT_THIS_SEGMENT: one isn't, or didn't. */
static inline uint32_t fulwethi_service_agrees(struct fulwethi_service *service, struct fulwethi_client *clients, size_t client_count, struct fulwethi_inbox *inboxes, size_t inbox_count) {
    uint32_t code = FULWETHI_DONE;
    for (size_t k = 0; k < client_count && code == FULWETHI_DONE; k++) code = fulwethi_raw_service_compare_client(*service, clients[k], service, &clients[k]);
    for (size_t k = 0; k < inbox_count && code == FULWETHI_DONE; k++) code = fulwethi_raw_service_compare_inbox(*service, inboxes[k], service, &inboxes[k]);
    return code;
}

/* Clients */

/* Submits a message of the client's station, whose bytes are copied, and writes its ticket: 1 for the client's first, and so on. The bus's
 * thread takes it over in a turn. BAD_PGN, NO_SUCH_STATION (254), SAME_STATION, TOO_SHORT, TOO_LONG, RING_FULL (64 weren't taken over yet),
 * NO_MEMORY. */
static inline uint32_t fulwethi_client_submit(struct fulwethi_client *client, uint8_t to, uint32_t pgn, const uint8_t *bytes, size_t len, uint64_t *ticket) {
    return fulwethi_raw_client_submit(*client, to, pgn, bytes, len, ticket, client);
}

/* Writes the number of a client among all that its service made, from 0, by which it is detached. */
static inline uint32_t fulwethi_client_number(struct fulwethi_client *client, uint64_t *number) {
    return fulwethi_raw_client_number(*client, number, client);
}

/* Reads what became of a message: each has one outcome, and those to one destination come in the order of their tickets. NOTHING: no
 * outcome is there. NO_MEMORY: it stays. */
static inline uint32_t fulwethi_client_outcome(struct fulwethi_client *client, struct fulwethi_note *note) {
    return fulwethi_raw_client_outcome(*client, note, client);
}

/* Frees it: what was submitted and not taken over is still sent. It is all zeros then. */
static inline void fulwethi_client_free(struct fulwethi_client *client) {
    if (client->ptr) fulwethi_raw_client_free(*client);
    client->ptr = NULL;
}

/* Inboxes */

/* Receives the next message, and writes its bytes to the front of the room. NOTHING: none is there. CLOSED: none is
 * there, and its port was closed by its number: none will come. TOO_LITTLE_ROOM: `message` says how many
 * bytes it has, and it stays; so does it for NO_MEMORY. */
static inline uint32_t fulwethi_inbox_receive(struct fulwethi_inbox *inbox, uint8_t *room, size_t len, struct fulwethi_message *message) {
    return fulwethi_raw_inbox_receive(*inbox, room, len, message, inbox);
}

/* Frees it, with what was not received. It is all zeros then; its port stays open unless it was closed. */
static inline void fulwethi_inbox_free(struct fulwethi_inbox *inbox) {
    if (inbox->ptr) fulwethi_raw_inbox_free(*inbox);
    inbox->ptr = NULL;
}

/* The name of a code of this library, as RING_FULL; the empty text if there is no such code. */
static inline const char *fulwethi_service_code_name(uint32_t code) {
    switch (code) {
    case FULWETHI_RING_FULL: return "RING_FULL";
    case FULWETHI_TRACE_FULL: return "TRACE_FULL";
    case FULWETHI_CLIENTS_FULL: return "CLIENTS_FULL";
    case FULWETHI_NOT_THIS_SEGMENT: return "NOT_THIS_SEGMENT";
    case FULWETHI_NO_SUCH_CLIENT: return "NO_SUCH_CLIENT";
    case FULWETHI_CLIENT_GONE: return "CLIENT_GONE";
    case FULWETHI_CLOSED: return "CLOSED";
    case FULWETHI_BAD_PLACES: return "BAD_PLACES";
    default: return fulwethi_code_name(code);
    }
}

/* What a code of this library says, in English. */
static inline const char *fulwethi_service_strerror(uint32_t code) {
    switch (code) {
    case FULWETHI_BUS_FULL: return "4,096 frames wait for a station: make turns first";
    case FULWETHI_BAD_ADDRESS: return "the stations' addresses are 1 to 32 distinct ones, each 0 to 253";
    case FULWETHI_NO_SUCH_STATION: return "no station of the service has this address, or a message is to 254";
    case FULWETHI_SAME_STATION: return "the destination is the station itself";
    case FULWETHI_STATION_ADDRESS: return "the frame has the source address of a station";
    case FULWETHI_CLOCK_PASSED: return "the clock of the service stands later";
    case FULWETHI_RING_FULL: return "64 messages of the client weren't taken over yet";
    case FULWETHI_TRACE_FULL: return "the record of calls is full: make a turn first";
    case FULWETHI_CLIENTS_FULL: return "the station has 16 clients that were not detached";
    case FULWETHI_NOT_THIS_SEGMENT: return "a client or an inbox is of another service, or had something else than its record says";
    case FULWETHI_NO_SUCH_CLIENT: return "no client of the service has this number";
    case FULWETHI_CLIENT_GONE: return "the client was detached";
    case FULWETHI_CLOSED: return "no message is there, and the port was closed";
    case FULWETHI_BAD_PLACES: return "an inbox has 1 to 65,536 places";
    default: return fulwethi_strerror(code);
    }
}

#ifdef __cplusplus
}
#endif
#endif
