/* Four services on one bus: eight stations with 128 clients and 128 inboxes on 32 threads, over a bus in memory.
 *
 *   many COUNT               so many messages; each loss is reported (fulwethi_service_missed)
 *   many COUNT scarce        the same, where one allocation in 300 is refused
 *   many COUNT unreported    messages to all alone, and losses that aren't reported, until a message is received that nobody submitted
 *
 * One service has five stations, three have one each; the main thread has them all. The bus has an order of its own: a frame that a service put comes to
 * the others, and to itself as an echo, behind what was put before. Each service comes to what waits for it sooner or later, and loses frames in runs, also
 * its echoes; some it is fed twice, and some ports are paused for a while. Messages have 9 to 5,000 bytes, one in 16 is to all, and each station sends to
 * each other one, those of its own service too.
 *
 * Each message that is received must be one that was submitted to its inbox's station or to all, on its PGN, byte for byte. At each inbox those of one
 * sender to one destination come in the order of their numbers, each no more than once. One that is acknowledged was received at its destination, one that
 * is unreachable wasn't, and as many are received as the services counted. Linked with --wrap=malloc and --wrap=realloc. */
#include "fulwethi_service.h"
#include <pthread.h>
#include <sched.h>
#include <stdio.h>
#include <stdlib.h>
#include <string.h>
#include <time.h>
#include <unistd.h>

enum {
    SERVICES = 4, STATIONS = 8, CLIENTS = 16, ENDS = STATIONS * CLIENTS, THREADS = 32, ALL = 0xFF, PGN = 0xFF00, MOST = 5000, WIRE = 64,
    SENT = STATIONS, RING = 64, OUTCOMES = FULWETHI_UNREACHABLE + 1
};
/* The first station of each service, and one past the last one. */
static const uint32_t FIRST[SERVICES + 1] = {0, 5, 6, 7, 8};

#define WANT(is) do { if (!(is)) { fprintf(stderr, "line %d: %s\n", __LINE__, #is); _exit(1); } } while (0)

static uint32_t share;               /* how many messages each client submits */
static int reports = 1, is_scarce;

static uint32_t chance(uint64_t *seed, uint32_t of) {
    *seed = *seed * 6364136223846793005u + 1442695040888963407u;
    return (uint32_t)(*seed >> 33) % of;
}

void *__real_malloc(size_t n);
void *__real_realloc(void *p, size_t n);
/* Each thread has chances of its own. */
static int is_refused(void) {
    static _Thread_local uint64_t seed;
    if (!is_scarce) return 0;
    if (!seed) seed = (uint64_t)(size_t)&seed;
    return !chance(&seed, 300);
}
void *__wrap_malloc(size_t n) { return is_refused() ? NULL : __real_malloc(n); }
void *__wrap_realloc(void *p, size_t n) { return is_refused() ? NULL : __real_realloc(p, n); }

/* What became of a message, by its client and ticket: its number among all of its station to its destination, and its outcome. */
struct fate { uint32_t number, outcome, received; };

/* A message as an inbox received it. */
struct got { uint32_t client, ticket, to; };

/* A client, and an inbox of the same station; both are used by one thread. */
struct end {
    struct fulwethi_client client;
    struct fulwethi_inbox inbox;
    uint64_t port;
    uint32_t submitted, noted;
    struct fate *fates;              /* by ticket */
    struct got *got;                 /* in the order in which they were received */
    uint32_t count, room;
};
static struct end ends[ENDS];

/* A service, and what goes to it. */
struct side {
    struct fulwethi_service service;
    uint32_t number;
    uint64_t tick, seed, lost;
    uint32_t losing, has_lost, lost_echo, is_outstanding;
    int has_more;                    /* its last turn did something */
    uint8_t station;                 /* of the frame that is outstanding */
    uint8_t tell[2 * STATIONS + 1];  /* what it is to be told next, SENT or that a station missed frames, and how much of it is left */
    uint32_t tell_from, tell_to;
    uint32_t paused;                 /* the end whose port is paused, or ENDS */
    uint64_t paused_until;
    struct fulwethi_frame wire[WIRE];/* the frames that go to it, and which are its echoes */
    uint8_t is_echo[WIRE];
    uint32_t first, count;
};
static struct side sides[SERVICES];
static uint64_t bus_tick, bus_frames;
static pthread_mutex_t lock = PTHREAD_MUTEX_INITIALIZER;
static uint32_t done_clients, done_threads; /* under the lock */

static uint32_t read_under_lock(const uint32_t *count) {
    pthread_mutex_lock(&lock);
    uint32_t now = *count;
    pthread_mutex_unlock(&lock);
    return now;
}

static void count_under_lock(uint32_t *count) {
    pthread_mutex_lock(&lock);
    ++*count;
    pthread_mutex_unlock(&lock);
}

static uint8_t address_of(uint32_t station) { return (uint8_t)(0x20 + station); }
static uint32_t station_of(uint32_t end) { return end / CLIENTS; }
static uint32_t service_of(uint32_t station) {
    uint32_t s = 0;
    while (station >= FIRST[s + 1]) s++;
    return s;
}

/* What is submitted with a ticket follows from the client and the ticket. */
static uint32_t mixed(uint32_t client, uint32_t ticket) {
    uint32_t x = client * 2654435761u ^ ticket * 2246822519u;
    x ^= x >> 15;
    x *= 3266489917u;
    return x ^ x >> 16;
}

static uint32_t to_of(uint32_t client, uint32_t ticket) {
    uint32_t x = mixed(client, ticket);
    if (!reports || x % 16 == 0) return ALL;
    return address_of((station_of(client) + 1 + (x >> 4) % (STATIONS - 1)) % STATIONS);
}

static uint32_t pgn_of(uint32_t client, uint32_t ticket) { return PGN + (mixed(client, ticket) >> 8) % CLIENTS; }

static uint32_t length_of(uint32_t client, uint32_t ticket) {
    uint32_t x = mixed(client, ticket) >> 12;
    if (!reports) return 20 + x % 2 * 7;
    if (to_of(client, ticket) == ALL) return 9 + x % 52;
    if (x % 64 == 1) return 1786 + x / 64 % (MOST - 1785);
    return x % 16 == 2 ? 9 + x / 64 % 1777 : 9 + x / 64 % 192;
}

/* Its bytes: the ticket, the client, and what follows from both. */
static uint8_t byte_of(uint32_t client, uint32_t ticket, uint32_t place) {
    if (place < 4) return (uint8_t)(ticket >> 8 * place);
    return (uint8_t)(place == 4 ? client : mixed(client, ticket) + place * 7 + (place >> 8));
}

/* A message was received that isn't as one that was submitted. */
static _Noreturn void wrong(const char *what) {
    if (reports) {
        fprintf(stderr, "a message was received that nobody submitted: %s\n", what);
        _exit(1);
    }
    printf("not reported: a message was received that nobody submitted\n");
    fflush(stdout);
    _exit(0);
}

/* How many messages of a client are under way at most: of one at each station as many as the service takes, of the others few. */
static uint32_t most_open(uint32_t client) { return client % CLIENTS == 0 ? 2 * RING : 1 + client % 4; }

/* Submits a message, if one is left and the ring has a place; 0 if it didn't. */
static int submit(uint32_t number) {
    struct end *end = &ends[number];
    uint8_t bytes[MOST];
    uint64_t ticket;
    uint32_t next = end->submitted + 1;
    if (next > share || end->submitted - end->noted >= most_open(number)) return 0;
    uint32_t len = length_of(number, next);
    for (uint32_t i = 0; i < len; i++) bytes[i] = byte_of(number, next, i);
    uint32_t code = fulwethi_client_submit(&end->client, (uint8_t)to_of(number, next), pgn_of(number, next), bytes, len, &ticket);
    if (code == FULWETHI_RING_FULL || (is_scarce && code == FULWETHI_NO_MEMORY)) return 0;
    WANT(code == FULWETHI_DONE && ticket == next);
    end->submitted = next;
    return 1;
}

/* How many outcomes there were. Each message has one. */
static int read_outcomes(uint32_t number) {
    struct end *end = &ends[number];
    struct fulwethi_note note;
    uint32_t code;
    int count = 0;
    for (; (code = fulwethi_client_outcome(&end->client, &note)) == FULWETHI_DONE; count++) {
        WANT(note.ticket >= 1 && note.ticket <= end->submitted && note.outcome >= 1 && note.outcome < OUTCOMES && note.number >= 1);
        struct fate *fate = &end->fates[note.ticket];
        WANT(!fate->outcome && note.to == to_of(number, (uint32_t)note.ticket));
        fate->outcome = note.outcome;
        fate->number = (uint32_t)note.number;
        if (++end->noted == share) count_under_lock(&done_clients);
    }
    WANT(code == FULWETHI_NOTHING || (is_scarce && code == FULWETHI_NO_MEMORY));
    return count;
}

/* A message that came is one that was submitted; then it is put down, for the comparing at the end. */
static void look_at(uint32_t number, const struct fulwethi_message *message, const uint8_t *bytes) {
    struct end *end = &ends[number];
    uint32_t client = bytes[4], ticket = bytes[0] | bytes[1] << 8 | bytes[2] << 16 | (uint32_t)bytes[3] << 24;
    if (client >= ENDS || ticket < 1 || ticket > share) wrong("no client has such a ticket");
    if (message->from != address_of(station_of(client)) || message->to != to_of(client, ticket)) wrong("another sender or destination");
    if (message->to != ALL && message->to != address_of(station_of(number))) wrong("it is another station's");
    if (message->pgn != pgn_of(client, ticket) || message->pgn != PGN + number % CLIENTS) wrong("another PGN");
    if (message->len != length_of(client, ticket)) wrong("another length");
    for (uint32_t i = 0; i < message->len; i++) if (bytes[i] != byte_of(client, ticket, i)) wrong("another byte");
    if (end->count == end->room) {
        end->room = end->room ? 2 * end->room : 64;
        end->got = __real_realloc(end->got, end->room * sizeof *end->got);
        WANT(end->got);
    }
    end->got[end->count++] = (struct got){client, ticket, message->to};
}

/* How many messages there were. */
static int receive(uint32_t number) {
    struct end *end = &ends[number];
    struct fulwethi_message message;
    uint8_t room[MOST];
    uint32_t code;
    int count = 0;
    for (; (code = fulwethi_inbox_receive(&end->inbox, room, 50, &message)) != FULWETHI_NOTHING; count++) {
        if (code == FULWETHI_TOO_LITTLE_ROOM) {
            WANT(message.len > 50 && message.len <= MOST);
            code = fulwethi_inbox_receive(&end->inbox, room, message.len, &message);
        }
        if (is_scarce && code == FULWETHI_NO_MEMORY) break;
        WANT(code == FULWETHI_DONE);
        look_at(number, &message, room);
    }
    return count;
}

/* A thread has each 32nd client, and as many inboxes; it ends once each client has all its outcomes. */
static void *work(void *given) {
    static const struct timespec moment = {.tv_nsec = 2000000};
    for (int is_last = 0; !is_last; ) {
        int any = 0;
        is_last = read_under_lock(&done_clients) == ENDS;
        for (uint32_t number = (uint32_t)(size_t)given; number < ENDS; number += THREADS) any += submit(number) + read_outcomes(number) + receive(number);
        if (!any) nanosleep(&moment, NULL);
    }
    count_under_lock(&done_threads);
    return NULL;
}

/* Whether a call on a service is to be made again later. */
static int is_later(uint32_t code) { return code == FULWETHI_BUS_FULL || code == FULWETHI_TRACE_FULL || (is_scarce && code == FULWETHI_NO_MEMORY); }

/* Tells a service what it is to be told; 0 if something is left. */
static int is_told(struct side *side) {
    for (; side->tell_from < side->tell_to; side->tell_from++) {
        uint8_t what = side->tell[side->tell_from];
        uint32_t code = what == SENT ? fulwethi_service_sent(&side->service, side->station) : fulwethi_service_missed(&side->service, address_of(what));
        if (is_later(code)) return 0;
        WANT(code == FULWETHI_DONE);
        if (what == SENT) side->is_outstanding = 0;
    }
    side->tell_from = side->tell_to = 0;
    return 1;
}

static void tell_missed(struct side *side) {
    for (uint32_t k = FIRST[side->number]; k < FIRST[side->number + 1] && reports; k++) side->tell[side->tell_to++] = (uint8_t)k;
}

/* A run of frames was lost, and the echo may have been among them: it has its place somewhere between those. */
static void end_run(struct side *side) {
    side->losing = 0;
    if (side->has_lost) tell_missed(side);
    if (side->lost_echo) side->tell[side->tell_to++] = SENT;
    if (side->has_lost && side->lost_echo) tell_missed(side);
    side->has_lost = side->lost_echo = 0;
}

/* A service is fed the next frame that goes to it, or is told that it is its own one, or loses it; 0 if that has to wait. */
static int bring(struct side *side, const struct fulwethi_frame *frame, int is_echo) {
    if (!side->losing && !chance(&side->seed, reports ? 4000 : 300)) side->losing = 1 + chance(&side->seed, 40);
    if (side->losing) {
        side->lost++;
        side->has_lost |= !is_echo;
        side->lost_echo |= is_echo;
        if (!--side->losing) end_run(side);
        return 1;
    }
    if (is_echo) {
        side->tell[side->tell_to++] = SENT;
        return 1;
    }
    uint32_t code = fulwethi_service_feed(&side->service, frame);
    if (is_later(code)) return 0;
    WANT(code == FULWETHI_DONE);
    if (chance(&side->seed, 100)) return 1;
    code = fulwethi_service_feed(&side->service, frame);
    WANT(code == FULWETHI_DONE || is_later(code));
    return 1;
}

/* The frames that go to a service, or some of them; whether there were any. What it is to be told comes before each. A run ends where nothing more comes. */
static int bring_some(struct side *side) {
    int any = side->tell_to > 0;
    for (uint32_t some = chance(&side->seed, 4) ? side->count : chance(&side->seed, side->count + 1); some && is_told(side); some--, any = 1) {
        if (!bring(side, &side->wire[side->first], side->is_echo[side->first])) break;
        side->first = (side->first + 1) % WIRE;
        side->count--;
    }
    if (!side->count && side->losing) end_run(side);
    is_told(side);
    return any;
}

/* Puts the next frame of a service, unless one is outstanding or a wire has no place. */
static int put(struct side *side) {
    struct fulwethi_frame frame;
    if (side->is_outstanding || fulwethi_service_front(&side->service, &side->station, &frame) != FULWETHI_DONE) return 0;
    for (uint32_t s = 0; s < SERVICES; s++) if (sides[s].count == WIRE) return 0;
    for (uint32_t s = 0; s < SERVICES; s++) {
        uint32_t at = (sides[s].first + sides[s].count++) % WIRE;
        sides[s].wire[at] = frame;
        sides[s].is_echo[at] = s == side->number;
    }
    if (!(++bus_frames % 4)) bus_tick++;
    side->is_outstanding = 1;
    return 1;
}

/* A service goes on to the bus's tick; whether that is a later one. */
static int go_on(struct side *side) {
    if (bus_tick == side->tick) return 0;
    uint32_t code = fulwethi_service_clock(&side->service, bus_tick);
    WANT(code == FULWETHI_DONE || is_later(code));
    if (code == FULWETHI_DONE) side->tick = bus_tick;
    return 1;
}

/* A port is paused now and then, and goes on a second later. */
static void pause_one(struct side *side) {
    uint32_t ends_of = (FIRST[side->number + 1] - FIRST[side->number]) * CLIENTS, end = side->paused;
    int is_new = end == ENDS;
    if (is_new && chance(&side->seed, 3000)) return;
    if (!is_new && side->tick < side->paused_until) return;
    if (is_new) end = FIRST[side->number] * CLIENTS + chance(&side->seed, ends_of);
    uint8_t address = address_of(station_of(end));
    uint32_t code = is_new ? fulwethi_service_pause(&side->service, address, ends[end].port) : fulwethi_service_resume(&side->service, address, ends[end].port);
    if (is_later(code)) return;
    WANT(code == FULWETHI_DONE);
    side->paused = is_new ? end : ENDS;
    side->paused_until = side->tick + 1000;
}

/* What a service does in a turn of the main thread; whether it did anything. Without news it looks at its clients now and then. */
static int serve(struct side *side) {
    uint64_t made = 0;
    int any = go_on(side) | bring_some(side);
    pause_one(side);
    if (any || side->has_more || !chance(&side->seed, 4)) {
        uint32_t code = fulwethi_service_turn(&side->service, 1 + chance(&side->seed, 8), &made);
        WANT(code == FULWETHI_DONE || is_later(code));
        side->has_more = code != FULWETHI_DONE || made > 0;
    }
    return any | put(side) | side->has_more;
}

/* Nothing is to do: the time goes on to the first tick at which a service has something to do, at most a second. */
static void rest(void) {
    uint64_t first = bus_tick + 1000, at;
    for (uint32_t s = 0; s < SERVICES; s++) {
        if (sides[s].count) return;
        if (fulwethi_service_next_at(&sides[s].service, &at) == FULWETHI_DONE && at < first) first = at;
    }
    if (first == bus_tick + 1000) sched_yield();
    if (first > bus_tick) bus_tick = first;
}

/* What the main thread does until all others have ended. */
static void drive(void) {
    while (read_under_lock(&done_threads) < THREADS) {
        int any = 0;
        for (uint32_t s = 0; s < SERVICES; s++) any |= serve(&sides[s]);
        if (!any) rest();
    }
}

/* Makes a call again for which there was no memory. */
#define AGAIN(call) do { uint32_t again; while (is_later(again = (call))) { } WANT(again == FULWETHI_DONE); } while (0)

static void begin(void) {
    for (uint32_t s = 0; s < SERVICES; s++) {
        uint8_t addresses[STATIONS];
        for (uint32_t k = FIRST[s]; k < FIRST[s + 1]; k++) addresses[k - FIRST[s]] = address_of(k);
        sides[s].number = s;
        sides[s].seed = s + 20;
        sides[s].paused = ENDS;
        AGAIN(fulwethi_service_new(&sides[s].service, addresses, FIRST[s + 1] - FIRST[s]));
    }
    for (uint32_t number = 0; number < ENDS; number++) {
        struct end *end = &ends[number];
        uint32_t station = station_of(number);
        struct fulwethi_service *service = &sides[service_of(station)].service;
        WANT(end->fates = calloc(share + 1, sizeof *end->fates));
        AGAIN(fulwethi_service_attach(service, address_of(station), &end->client));
        AGAIN(fulwethi_service_open(service, address_of(station), PGN + number % CLIENTS, MOST, &end->port, &end->inbox));
    }
}

/* The threads run until each message has its outcome. */
static void run(void) {
    static pthread_t threads[THREADS];
    for (size_t t = 0; t < THREADS; t++) WANT(!pthread_create(&threads[t], NULL, work, (void *)t));
    drive();
    for (size_t t = 0; t < THREADS; t++) WANT(!pthread_join(threads[t], NULL));
}

/* Of each station some clients and inboxes had what the record of their service says. No other service has them. */
static void compare_with_records(void) {
    for (uint32_t number = 0; number < ENDS; number += 5) {
        uint32_t own = service_of(station_of(number));
        struct end *end = &ends[number];
        WANT(fulwethi_service_agrees(&sides[own].service, &end->client, 1, &end->inbox, 1) == FULWETHI_DONE);
        WANT(number % CLIENTS || own == 1 || fulwethi_service_agrees(&sides[1].service, &end->client, 0, &end->inbox, 1) == FULWETHI_NOT_THIS_SEGMENT);
    }
}

/* Each inbox is closed, and what its closing handed out is received too. */
static uint64_t close_all(void) {
    uint64_t received = 0;
    for (uint32_t number = 0; number < ENDS; number++) {
        uint64_t made;
        struct fulwethi_service *service = &sides[service_of(station_of(number))].service;
        uint32_t code;
        while (is_later(code = fulwethi_service_close(service, &ends[number].inbox))) AGAIN(fulwethi_service_turn(service, 1, &made));
        WANT(code == FULWETHI_DONE);
        while (receive(number)) { }
        received += ends[number].count;
    }
    return received;
}

/* At an inbox the numbers rise, for each sender and destination. */
static void compare_order(const struct end *end) {
    uint32_t last[STATIONS][2] = {{0}};
    for (uint32_t k = 0; k < end->count; k++) {
        struct fate *fate = &ends[end->got[k].client].fates[end->got[k].ticket];
        uint32_t *before = &last[station_of(end->got[k].client)][end->got[k].to == ALL];
        WANT(fate->outcome && fate->number > *before);
        *before = fate->number;
        fate->received++;
    }
}

/* What was told of each message is so; how many had each outcome. */
static void compare_outcomes(uint32_t *outcomes) {
    for (uint32_t number = 0; number < ENDS; number++) {
        for (uint32_t ticket = 1; ticket <= share; ticket++) {
            const struct fate *fate = &ends[number].fates[ticket];
            WANT(fate->outcome && (fate->outcome != FULWETHI_ACKNOWLEDGED || fate->received) && (fate->outcome != FULWETHI_UNREACHABLE || !fate->received));
            WANT(fate->received <= (to_of(number, ticket) == ALL ? STATIONS - 1 : 1));
            outcomes[fate->outcome]++;
        }
    }
}

/* They end in any order: half of the clients and inboxes before their services. */
static void free_all(void) {
    for (uint32_t number = 0; number < ENDS; number++) {
        if (number == ENDS / 2) for (uint32_t s = 0; s < SERVICES; s++) fulwethi_service_free(&sides[s].service);
        fulwethi_client_free(&ends[number].client);
        fulwethi_inbox_free(&ends[number].inbox);
        free(ends[number].fates);
        free(ends[number].got);
    }
}

static void compare(void) {
    struct fulwethi_counts counts;
    uint32_t outcomes[OUTCOMES] = {0};
    uint64_t received, given = 0, lost = 0;
    compare_with_records();
    received = close_all();
    for (uint32_t number = 0; number < ENDS; number++) compare_order(&ends[number]);
    compare_outcomes(outcomes);
    for (uint32_t s = 0; s < SERVICES; s++) {
        AGAIN(fulwethi_service_counts(&sides[s].service, &counts));
        given += counts.given;
        lost += sides[s].lost;
    }
    WANT(given == received);
    printf("messages %u, received %llu, frames %llu, lost %llu;", share * ENDS, (unsigned long long)received, (unsigned long long)bus_frames, (unsigned long long)lost);
    for (uint32_t k = 1; k < OUTCOMES; k++) if (outcomes[k]) printf(" %s %u", fulwethi_outcome_name(k), outcomes[k]);
    printf("\n");
    WANT(!reports || outcomes[FULWETHI_ACKNOWLEDGED] > share * ENDS / 2);
}

int main(int words, char **word) {
    long count = words > 1 ? atol(word[1]) : 0;
    if (count < 1 || count > 100000000 || words > 3 || (words == 3 && strcmp(word[2], "scarce") && strcmp(word[2], "unreported"))) {
        return fprintf(stderr, "usage: %s COUNT [scarce|unreported]\n", word[0]), 2;
    }
    alarm((unsigned)(600 + count / 50)); /* it ends where nothing goes on */
    share = ((uint32_t)count + ENDS - 1) / ENDS;
    reports = words < 3 || strcmp(word[2], "unreported");
    is_scarce = words == 3 && reports;
    begin();
    run();
    compare();
    free_all();
    return !reports;
}
