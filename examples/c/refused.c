/* A short exchange between two services of one bus, by one thread, with allocations refused.
 *
 *   refused            each allocation in turn: the call that isn't done is made again, and all goes on
 *   refused starved    all from each on, until nothing goes on any more; then there is memory again, or all is freed
 *
 * The first service has stations 21 and 22, the second one 35. A client of 21 sends to 22, to 35, to all, and 1,800 bytes to 35, of which a frame is lost,
 * which is reported. A message that isn't acknowledged is submitted again. Each one that is received must be one that was submitted, byte for byte, behind
 * those before it; one that is acknowledged was received; and at the end no memory is held. Linked with --wrap=malloc, --wrap=realloc and --wrap=free. */
#include "fulwethi_service.h"
#include <setjmp.h>
#include <stdio.h>
#include <stdlib.h>
#include <string.h>

enum { PGN = 0xFECA, ALL = 0xFF, MOST = 1800, CLIENTS = 16, MESSAGES = 4, TRIES = 6, LOST = 100 };
static const struct { uint8_t to; uint32_t len; } MESSAGE[MESSAGES + 1] = {{0, 0}, {0x35, 100}, {0x22, 60}, {ALL, 40}, {0x35, MOST}};

#define WANT(is) do { if (!(is)) { fprintf(stderr, "line %d: %s (refused at %lu, from %lu)\n", __LINE__, #is, refused_at, starved_from); exit(1); } } while (0)

static unsigned long allocations, refused_at, starved_from, lacked;
static long live;
static int has_memory, ends;
static jmp_buf end;

void *__real_malloc(size_t n);
void *__real_realloc(void *p, size_t n);
void __real_free(void *p);
static int is_refused(void) { return ++allocations == refused_at || (starved_from && !has_memory && allocations >= starved_from); }
void *__wrap_malloc(size_t n) {
    void *place = is_refused() ? NULL : __real_malloc(n);
    live += place != NULL;
    return place;
}
void *__wrap_realloc(void *p, size_t n) {
    void *place = is_refused() ? NULL : __real_realloc(p, n);
    live += place && !p;
    return place;
}
void __wrap_free(void *p) {
    live -= p != NULL;
    __real_free(p);
}

/* There is no memory, or nothing goes on: if that has lasted, all is freed, or there is memory again. */
static void lack(void) {
    if (!starved_from || has_memory || ++lacked < 100) return;
    if (ends) longjmp(end, 1);
    has_memory = 1;
}

/* Makes a call again for which there was no memory. */
#define AGAIN(call) do { uint32_t again; while ((again = (call)) == FULWETHI_NO_MEMORY) lack(); WANT(again == FULWETHI_DONE); } while (0)

static struct {
    struct fulwethi_service services[2];
    struct fulwethi_client clients[CLIENTS];
    struct fulwethi_inbox inboxes[2];        /* of 22, and of 35 */
    uint64_t ports[2], tick, frames;
    uint32_t last[2], tries[MESSAGES + 1];   /* the last message that an inbox received: its number and its try; how often each was submitted */
    uint64_t named[2]; /* clients and ports that had news */
} all;

static uint8_t byte_of(uint32_t message, uint32_t try, size_t place) {
    return (uint8_t)(place == 0 ? message : place == 1 ? try : message * 91 + try * 131 + place * 7 + (place >> 8));
}

/* The second service is fed the frame, unless that is lost. */
static void feed(const struct fulwethi_frame *frame) {
    if (++all.frames == LOST) AGAIN(fulwethi_service_missed(&all.services[1], 0x35));
    else AGAIN(fulwethi_service_feed(&all.services[1], frame));
}

/* Carries a frame of a service to the other one, if it has one. */
static int carry(int from) {
    struct fulwethi_frame frame;
    uint8_t station;
    if (fulwethi_service_front(&all.services[from], &station, &frame) != FULWETHI_DONE) return 0;
    if (from == 0) feed(&frame);
    else AGAIN(fulwethi_service_feed(&all.services[0], &frame));
    AGAIN(fulwethi_service_sent(&all.services[from], station));
    return 1;
}

/* Does what is to be done, or lets the time go on. */
static void go_on(void) {
    uint64_t made[2], at, first = all.tick + 1000;
    struct fulwethi_news news;
    for (int s = 0; s < 2; s++) {
        AGAIN(fulwethi_service_turn(&all.services[s], 8, &made[s]));
        while (fulwethi_service_news(&all.services[s], &news) == FULWETHI_DONE) {
            WANT(news.kind == FULWETHI_CLIENT_NEWS ? s == 0 && news.number == 0 : news.station == (s ? 0x35 : 0x22) && news.number == all.ports[s]);
            all.named[news.kind - 1]++;
        }
    }
    if (carry(0) | carry(1) | (made[0] + made[1] > 0)) return;
    lack();
    for (int s = 0; s < 2; s++) {
        if (fulwethi_service_next_at(&all.services[s], &at) == FULWETHI_DONE && at < first) first = at;
        if (fulwethi_service_next_due_at(&all.services[s], &at) == FULWETHI_DONE) WANT(at >= first || at <= all.tick);
    }
    if (first > all.tick) all.tick = first;
    for (int s = 0; s < 2; s++) AGAIN(fulwethi_service_clock(&all.services[s], all.tick));
}

/* What the inboxes have is what was submitted. */
static void receive(void) {
    static uint8_t room[MOST];
    struct fulwethi_message message;
    for (int i = 0; i < 2; i++) {
        for (uint32_t code; (code = fulwethi_inbox_receive(&all.inboxes[i], room, MOST, &message)) != FULWETHI_NOTHING && code != FULWETHI_CLOSED; ) {
            if (code == FULWETHI_NO_MEMORY) {
                lack();
                continue;
            }
            uint32_t k = room[0], try = room[1];
            WANT(code == FULWETHI_DONE && k >= 1 && k <= MESSAGES && try >= 1 && try <= all.tries[k] && k * 256 + try > all.last[i]);
            WANT(message.from == 0x21 && message.to == MESSAGE[k].to && message.pgn == PGN && message.len == MESSAGE[k].len);
            WANT(message.to == ALL || message.to == (i ? 0x35 : 0x22));
            for (size_t at = 0; at < message.len; at++) WANT(room[at] == byte_of(k, try, at));
            all.last[i] = k * 256 + try;
        }
    }
}

/* A message is submitted until it is acknowledged, or is queued to all. */
static void exchange(uint32_t k) {
    static uint8_t bytes[MOST];
    for (uint32_t try = 1, outcome = 0; outcome != FULWETHI_ACKNOWLEDGED && outcome != FULWETHI_BROADCAST; try++) {
        struct fulwethi_note note = {0};
        uint64_t ticket;
        WANT(try <= TRIES);
        for (size_t at = 0; at < MESSAGE[k].len; at++) bytes[at] = byte_of(k, try, at);
        all.tries[k] = try;
        AGAIN(fulwethi_client_submit(&all.clients[0], MESSAGE[k].to, PGN, bytes, MESSAGE[k].len, &ticket));
        for (uint32_t code; (code = fulwethi_client_outcome(&all.clients[0], &note)) != FULWETHI_DONE; go_on()) {
            if (code == FULWETHI_NO_MEMORY) lack();
            else WANT(code == FULWETHI_NOTHING);
            receive();
        }
        WANT(note.ticket == ticket && note.to == MESSAGE[k].to);
        receive();
        outcome = note.outcome;
        if (outcome == FULWETHI_ACKNOWLEDGED) WANT(all.last[MESSAGE[k].to == 0x35] == k * 256 + try);
    }
}

static void begin(void) {
    static const uint8_t first[2] = {0x21, 0x22}, second[1] = {0x35};
    struct fulwethi_client more = {0};
    uint64_t number = 0;
    AGAIN(fulwethi_service_new(&all.services[0], first, 2));
    AGAIN(fulwethi_service_new(&all.services[1], second, 1));
    for (int c = 0; c < CLIENTS; c++) AGAIN(fulwethi_service_attach(&all.services[0], 0x21, &all.clients[c]));
    WANT(fulwethi_service_attach(&all.services[0], 0x21, &more) == FULWETHI_CLIENTS_FULL && !more.ptr);
    WANT(fulwethi_client_number(&all.clients[CLIENTS - 1], &number) == FULWETHI_DONE && number == CLIENTS - 1);
    WANT(fulwethi_service_detach(&all.services[0], number) == FULWETHI_DONE && fulwethi_service_detach(&all.services[0], number) == FULWETHI_CLIENT_GONE);
    WANT(fulwethi_service_detach(&all.services[0], number + 1) == FULWETHI_NO_SUCH_CLIENT);
    fulwethi_client_free(&all.clients[CLIENTS - 1]);
    AGAIN(fulwethi_service_attach(&all.services[0], 0x21, &all.clients[CLIENTS - 1]));
    for (int i = 0; i < 2; i++) AGAIN(fulwethi_service_open_with(&all.services[i], i ? 0x35 : 0x22, PGN, MOST, 2, &all.ports[i], &all.inboxes[i]));
    AGAIN(fulwethi_service_pause(&all.services[1], 0x35, all.ports[1]));
    AGAIN(fulwethi_service_resume(&all.services[1], 0x35, all.ports[1]));
}

static void run(void) {
    struct fulwethi_counts counts;
    struct fulwethi_message message;
    uint8_t byte;
    begin();
    for (uint32_t k = 1; k <= MESSAGES; k++) exchange(k);
    AGAIN(fulwethi_service_close(&all.services[0], &all.inboxes[0]));
    WANT(fulwethi_service_close_port(&all.services[1], 0x35, all.ports[1] + 1) == FULWETHI_NO_SUCH_PORT);
    AGAIN(fulwethi_service_close_port(&all.services[1], 0x35, all.ports[1]));
    receive();
    WANT(fulwethi_inbox_receive(&all.inboxes[1], &byte, 1, &message) == FULWETHI_CLOSED && fulwethi_inbox_receive(&all.inboxes[0], &byte, 1, &message) == FULWETHI_NOTHING);
    WANT(all.frames > LOST && fulwethi_service_counts(&all.services[1], &counts) == FULWETHI_DONE && counts.given >= 3);
    WANT(all.named[0] >= MESSAGES && all.named[1] >= 3 && fulwethi_service_open_with(&all.services[0], 0x22, PGN, MOST, 0, &all.ports[0], &all.inboxes[0]) == FULWETHI_BAD_PLACES);
    for (int i = 0; i < 2; i++) WANT(all.last[i]);
}

/* Each one is freed, also one that wasn't made. */
static void free_all(void) {
    for (int s = 0; s < 2; s++) fulwethi_service_free(&all.services[s]);
    for (int c = 0; c < CLIENTS; c++) fulwethi_client_free(&all.clients[c]);
    for (int i = 0; i < 2; i++) fulwethi_inbox_free(&all.inboxes[i]);
    WANT(live == 0);
}

/* Whether an allocation was refused. */
static int is_run(unsigned long at, unsigned long from) {
    memset(&all, 0, sizeof all);
    refused_at = at;
    starved_from = from;
    allocations = lacked = 0;
    has_memory = 0;
    if (!setjmp(end)) run();
    free_all();
    return allocations >= at + from;
}

int main(int words, char **word) {
    unsigned long count = 1;
    if (words > 2 || (words == 2 && strcmp(word[1], "starved"))) return fprintf(stderr, "usage: %s [starved]\n", word[0]), 2;
    if (words == 1) {
        while (is_run(count, 0)) count++;
        return printf("allocations refused in turn: %lu\n", count - 1) < 0;
    }
    for (; is_run(0, count); count++) {
        ends = 1;
        is_run(0, count);
        ends = 0;
    }
    return printf("allocations refused from each on: %lu\n", count - 1) < 0;
}
