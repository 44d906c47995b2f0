/* Two stations over a bus in memory that loses and repeats frames.
 *
 *   two_stations COUNT       lengths that are too great or 0; then so many messages of 9 to 100,000 bytes, each compared byte for byte
 *   two_stations memory      a short exchange, with each allocation refused in turn
 *   two_stations starved     a station alone, with all allocations refused from each on: it answers Requests, ends its messages and puts
 *                            its frames; and one that finds no memory to end what is under way remembers it
 *
 * A message that isn't acknowledged is sent again. Each one that is given must be one that was sent, none before an earlier one, and
 * each one that is acknowledged must have been given. Linked with --wrap=malloc and --wrap=realloc. */
#include "fulwethi.h"
#include <stdio.h>
#include <stdlib.h>
#include <string.h>

enum { A = 0x21, B = 0x35, PGN = 0xEF00, MOST = 100000 };

static unsigned long allocations, refused_at, starved_from;
void *__real_malloc(size_t n);
void *__real_realloc(void *p, size_t n);
static int is_refused(void) { return ++allocations == refused_at || (starved_from && allocations >= starved_from); }
void *__wrap_malloc(size_t n) { return is_refused() ? NULL : __real_malloc(n); }
void *__wrap_realloc(void *p, size_t n) { return is_refused() ? NULL : __real_realloc(p, n); }

#define WANT(is) do { if (!(is)) { fprintf(stderr, "line %d: %s\n", __LINE__, #is); exit(1); } } while (0)

static uint64_t seed;
static uint32_t chance(uint32_t of) {
    seed = seed * 6364136223846793005u + 1442695040888963407u;
    return (uint32_t)(seed >> 33) % of;
}

/* Bytes that the number and the place decide, the number first. */
static uint8_t byte_of(uint32_t message, size_t place) {
    if (place < 4) return (uint8_t)(message >> (8 * place));
    return (uint8_t)(message * 31 + place * 7 + (place >> 8));
}

static size_t length_of(uint32_t message) {
    if (message % 100 == 99) return 1786 + message * 997u % (MOST - 1785);
    return 9 + message * 7919u % 400;
}

struct run { struct fulwethi node[2]; uint64_t tick; uint32_t lose, repeat, given, acknowledged; int last_given; };

static void feed(struct fulwethi *to, const struct fulwethi_frame *frame) {
    uint32_t code = fulwethi_feed(to, frame);
    if (code == FULWETHI_NO_MEMORY) code = fulwethi_feed(to, frame);
    if (code == FULWETHI_TX_FULL) return; /* lost */
    WANT(code == FULWETHI_DONE || code == FULWETHI_WITHOUT_ROOM);
}

static int carry(struct run *run, int from) {
    struct fulwethi_frame frame;
    struct fulwethi *node = &run->node[from];
    uint32_t code = fulwethi_front(node, &frame);
    if (code == FULWETHI_NO_MEMORY) code = fulwethi_front(node, &frame);
    if (code == FULWETHI_NOTHING) return 0;
    WANT(code == FULWETHI_DONE);
    if (!run->lose || chance(run->lose)) {
        feed(&run->node[1 - from], &frame);
        if (run->repeat && !chance(run->repeat)) feed(&run->node[1 - from], &frame);
    }
    code = fulwethi_sent(node);
    if (code == FULWETHI_NO_MEMORY) code = fulwethi_sent(node);
    WANT(code == FULWETHI_DONE);
    return 1;
}

/* Takes what B was given, and tells how A's message ended; 0 where it has not. */
static uint32_t told(struct run *run, uint32_t message) {
    static uint8_t room[MOST];
    struct fulwethi_event event;
    uint32_t outcome = 0;
    while (fulwethi_event(&run->node[1], &event) == FULWETHI_DONE) {
        WANT(event.kind == FULWETHI_GIVEN && event.from == A && event.to == B && event.pgn == PGN);
        WANT(fulwethi_take(&run->node[1], room, event.len - 1) == FULWETHI_TOO_LITTLE_ROOM);
        WANT(fulwethi_take(&run->node[1], room, event.len) == FULWETHI_DONE);
        uint32_t number = room[0] | room[1] << 8 | room[2] << 16 | (uint32_t)room[3] << 24;
        WANT(number == message && event.len == length_of(number));
        for (size_t i = 0; i < event.len; i++) WANT(room[i] == byte_of(number, i));
        run->given++;
        run->last_given = (int)number;
    }
    while (fulwethi_event(&run->node[0], &event) == FULWETHI_DONE) {
        WANT(event.kind == FULWETHI_OUTCOME);
        WANT(fulwethi_take(&run->node[0], room, 0) == FULWETHI_DONE);
        outcome = event.outcome;
    }
    return outcome;
}

/* Both clocks go on, and what is due is fired. */
static void wait(struct run *run, uint64_t ticks) {
    run->tick += ticks;
    for (int i = 0; i < 2; i++) {
        uint32_t code = fulwethi_clock(&run->node[i], run->tick);
        if (code == FULWETHI_NO_MEMORY) code = fulwethi_clock(&run->node[i], run->tick);
        WANT(code == FULWETHI_DONE);
        do code = fulwethi_fire(&run->node[i]); while (code == FULWETHI_DONE || code == FULWETHI_NO_MEMORY);
        WANT(code == FULWETHI_NOTHING_DUE || code == FULWETHI_TX_FULL);
    }
}

/* Sends a message until it is acknowledged. */
static void exchange(struct run *run, uint32_t message) {
    static uint8_t bytes[MOST];
    size_t len = length_of(message);
    uint64_t number;
    for (size_t i = 0; i < len; i++) bytes[i] = byte_of(message, i);
    for (int tries = 0; tries < 1000; tries++) {
        uint32_t outcome = 0, code = fulwethi_send(&run->node[0], B, PGN, bytes, len, &number);
        if (code == FULWETHI_NO_MEMORY) code = fulwethi_send(&run->node[0], B, PGN, bytes, len, &number);
        WANT(code == FULWETHI_DONE);
        while (!outcome) {
            while (carry(run, 0) + carry(run, 1)) { }
            outcome = told(run, message);
            if (!outcome) wait(run, 50);
        }
        if (outcome == FULWETHI_ACKNOWLEDGED) {
            WANT(run->last_given == (int)message);
            run->acknowledged++;
            return;
        }
    }
    WANT(!"acknowledged");
}

static int begin(struct run *run) {
    uint64_t port;
    memset(run, 0, sizeof *run);
    run->last_given = -1;
    if (fulwethi_new(&run->node[0], A) && fulwethi_new(&run->node[0], A)) return 0;
    if (fulwethi_new(&run->node[1], B) && fulwethi_new(&run->node[1], B)) return 0;
    if (fulwethi_open(&run->node[1], PGN, MOST, &port) && fulwethi_open(&run->node[1], PGN, MOST, &port)) return 0;
    return 1;
}

static void end(struct run *run) {
    fulwethi_free(&run->node[0]);
    fulwethi_free(&run->node[1]);
}

/* A Request of 40 for FECA, and its answer. */
static const struct fulwethi_frame REQUEST = {0x18EA2140, 3, {0xCA, 0xFE, 0}};

static void is_asked(struct fulwethi *node) {
    static const uint8_t answer[8] = {1, 0xFF, 0xFF, 0xFF, 0x40, 0xCA, 0xFE, 0};
    struct fulwethi_frame frame;
    int found = 0;
    WANT(fulwethi_feed(node, &REQUEST) == FULWETHI_DONE);
    while (fulwethi_front(node, &frame) == FULWETHI_DONE) {
        found += frame.id == 0x18E8FF21 && !memcmp(frame.bytes, answer, 8);
        WANT(fulwethi_sent(node) == FULWETHI_DONE);
    }
    WANT(found == 1);
}

/* A message to another node; 1 where there was memory for it. */
static int sends(struct fulwethi *node, uint8_t to) {
    static const uint8_t bytes[100];
    uint64_t number;
    uint32_t code = fulwethi_send(node, to, PGN, bytes, sizeof bytes, &number);
    WANT(code == FULWETHI_DONE || code == FULWETHI_NO_MEMORY);
    return code == FULWETHI_DONE;
}

/* Another node begins a message, and sends its packets. */
static void is_sent(struct fulwethi *node) {
    static const struct fulwethi_frame frames[3] = {
        {0x1CECFF40, 8, {0x20, 9, 0, 2, 0xFF, 0, 0xEF, 0}}, {0x1CEBFF40, 8, {1}}, {0x1CEBFF40, 8, {2}}};
    for (int i = 0; i < 3; i++) {
        uint32_t code = fulwethi_feed(node, &frames[i]);
        WANT(code == FULWETHI_DONE || code == FULWETHI_WITHOUT_ROOM);
    }
}

/* How many of its messages have ended. */
static int ended(struct fulwethi *node) {
    struct fulwethi_event event;
    static uint8_t room[MOST];
    int count = 0;
    for (; fulwethi_event(node, &event) == FULWETHI_DONE; count += event.kind == FULWETHI_OUTCOME)
        WANT(fulwethi_take(node, room, sizeof room) == FULWETHI_DONE);
    return count;
}

/* From this allocation on there is no memory: 0 where none was refused. */
static int starve(unsigned long from) {
    struct fulwethi node = {0};
    uint64_t port, tick;
    int sent = 0;
    WANT(fulwethi_new(&node, A) == FULWETHI_DONE && fulwethi_open(&node, PGN, MOST, &port) == FULWETHI_DONE);
    allocations = 0;
    starved_from = from;
    sent += sends(&node, B);
    is_sent(&node);
    sent += sends(&node, 0x36);
    is_asked(&node);
    is_sent(&node);
    sent += sends(&node, B);
    is_asked(&node);
    while (fulwethi_next_due_at(&node, &tick) == FULWETHI_DONE) {
        WANT(fulwethi_clock(&node, tick) == FULWETHI_DONE);
        WANT(fulwethi_fire(&node) == FULWETHI_DONE);
        is_asked(&node);
    }
    WANT(ended(&node) == sent);
    starved_from = 0;
    fulwethi_free(&node);
    return allocations >= from;
}

/* Frames are missed while two messages are under way, and there is no memory for two outcomes: that is remembered until there is. */
static void remember(void) {
    struct fulwethi node = {0};
    struct fulwethi_frame frame;
    WANT(fulwethi_new(&node, A) == FULWETHI_DONE);
    WANT(sends(&node, B) && sends(&node, 0x36));
    WANT(fulwethi_front(&node, &frame) == FULWETHI_DONE && fulwethi_sent(&node) == FULWETHI_DONE);
    WANT(fulwethi_front(&node, &frame) == FULWETHI_DONE);
    starved_from = 1;
    WANT(fulwethi_missed(&node) == FULWETHI_NOT_ENDED);
    WANT(fulwethi_feed(&node, &REQUEST) == FULWETHI_PASSED_BY);
    WANT(fulwethi_sent(&node) == FULWETHI_NO_MEMORY);
    starved_from = 0;
    WANT(fulwethi_sent(&node) == FULWETHI_DONE);
    WANT(ended(&node) == 2);
    is_asked(&node);
    fulwethi_free(&node);
}

/* A program starts again at tick 5000: others are answered at once, and the first message goes 1,250 ticks later. */
static void start_again(void) {
    struct fulwethi node = {0};
    struct fulwethi_frame frame;
    uint64_t tick;
    WANT(fulwethi_again(&node, 254, 0) == FULWETHI_BAD_ADDRESS && fulwethi_again(&node, A, 5000) == FULWETHI_DONE);
    WANT(fulwethi_sends_from(&node, &tick) == FULWETHI_DONE && tick == 6250);
    WANT(fulwethi_clock(&node, 4999) == FULWETHI_CLOCK_PASSED && fulwethi_clock(&node, 6249) == FULWETHI_DONE);
    WANT(fulwethi_send(&node, B, PGN, (const uint8_t[9]){0}, 9, &tick) == FULWETHI_STARTING);
    WANT(fulwethi_feed(&node, &REQUEST) == FULWETHI_DONE && fulwethi_front(&node, &frame) == FULWETHI_DONE);
    WANT(fulwethi_clock(&node, 6250) == FULWETHI_DONE && sends(&node, B));
    fulwethi_free(&node);
    WANT(fulwethi_new(&node, A) == FULWETHI_DONE && fulwethi_sends_from(&node, &tick) == FULWETHI_DONE && tick == 0);
    fulwethi_free(&node);
}

/* No byte of a frame with more than 8 is read, which valgrind sees, and the frame isn't counted. Where a length is 0 a pointer may be null. */
static void look_at_lengths(void) {
    static const uint8_t nine[9];
    struct fulwethi node = {0};
    struct fulwethi_counts counts;
    struct fulwethi_event event;
    struct fulwethi_frame *frame = malloc(sizeof *frame);
    uint64_t number;
    WANT(frame && fulwethi_new(&node, A) == FULWETHI_DONE);
    for (uint32_t len = 9; len; len *= 2) {
        *frame = (struct fulwethi_frame){.id = REQUEST.id, .len = len};
        WANT(fulwethi_feed(&node, frame) == FULWETHI_DATA_TOO_LONG);
        frame->id = 1u << 29;
        WANT(fulwethi_feed(&node, frame) == FULWETHI_ID_TOO_LARGE);
    }
    free(frame);
    WANT(fulwethi_raw_feed(node, REQUEST.id, nine, 9, &node) == FULWETHI_DATA_TOO_LONG);
    WANT(fulwethi_raw_feed(node, 1u << 29, nine, 9, &node) == FULWETHI_ID_TOO_LARGE);
    WANT(fulwethi_counts(&node, &counts) == FULWETHI_DONE && counts.frames == 0);
    WANT(fulwethi_send(&node, B, PGN, NULL, 0, &number) == FULWETHI_TOO_SHORT);
    WANT(fulwethi_take(&node, NULL, 0) == FULWETHI_NOTHING);
    WANT(sends(&node, B) && fulwethi_cancel(&node, B, 1) == FULWETHI_DONE);
    WANT(fulwethi_event(&node, &event) == FULWETHI_DONE && event.outcome == FULWETHI_CANCELLED && event.len == 0);
    WANT(fulwethi_take(&node, NULL, 0) == FULWETHI_DONE);
    WANT(fulwethi_take(&node, NULL, 0) == FULWETHI_NOTHING);
    fulwethi_free(&node);
}

int main(int count, char **words) {
    struct run run;
    long messages = count == 2 ? atol(words[1]) : 0;
    if (count != 2 || (messages < 1 && strcmp(words[1], "memory") && strcmp(words[1], "starved"))) {
        return fprintf(stderr, "usage: %s COUNT|memory|starved\n", words[0]), 2;
    }
    if (!strcmp(words[1], "memory")) {
        for (refused_at = 1; ; refused_at++) {
            allocations = 0;
            WANT(begin(&run));
            exchange(&run, 0);
            exchange(&run, 1);
            end(&run);
            if (allocations < refused_at) break;
        }
        printf("allocations refused in turn: %lu\n", refused_at - 1);
        return 0;
    }
    if (!strcmp(words[1], "starved")) {
        unsigned long from = 1;
        while (starve(from)) from++;
        remember();
        printf("allocations refused from each on: %lu\n", from - 1);
        return 0;
    }
    start_again();
    look_at_lengths();
    WANT(begin(&run));
    seed = 20;
    run.lose = 20000;
    run.repeat = 100;
    for (long i = 0; i < messages; i++) exchange(&run, (uint32_t)i);
    WANT(run.acknowledged == messages && run.given >= messages);
    printf("messages %ld given %u\n", messages, run.given);
    end(&run);
    return 0;
}
