/* Three stations on a bus in memory, each with a clock of its own, and a queue of what came from the bus, which loses, repeats and delays frames.
 *
 *   lossy_bus COUNT [RULE [SEED [events]]]    so many messages. RULE is `reported`, by which each loss is told (fulwethi_missed); `quiet`, by which programs also
 *                                             start again, by fulwethi_again; or one that breaks what the header asks, until the README's sentence doesn't hold:
 *                                             `unreported`, without reports; `early`, by which a frame counts as sent once it is in a mailbox of a controller that
 *                                             sends by identifier; or `restarted`, by which programs start again by fulwethi_new, and send at once.
 *                                             `events` prints what happens, as a script
 *   lossy_bus play SCRIPT                     plays a script, and prints what comes of each line
 *
 * Clocks drift by up to 5 %, and jump. Each message that a port is given must be one that was sent to its station or to all, byte for byte, behind those
 * of the same sender and destination that were given before, and none after its closing. An acknowledged message must have been given by then, an
 * unreachable one never is, and each has one outcome.
 *
 * A line of a script is a rule, an event (its word, a station, and up to two numbers, all but addresses decimal), or a remark. */
#include "fulwethi.h"
#include <stdio.h>
#include <stdlib.h>
#include <string.h>

enum { STATIONS = 3, ALL = 255, PGN = 0xEF00, MOST = 6000, UNDER_WAY = 4, PORTS = 2, MAILBOXES = 3, PLACES = 512, ROOM = 300, MOST_MESSAGES = 1000000 };
enum { FRAME_MICROS = 540, IDLE_MICROS = 8000 }; /* how long a turn takes: a frame at 250 kbit/s; and while nothing comes */
static const uint8_t ADDRESS[STATIONS] = {0x21, 0x35, 0x40};
static const char *const OUTCOME[] = {"", "Acknowledged", "Broadcast", "Aborted", "TimedOut", "Overrun", "Cancelled", "Unreachable"};

#define WANT(is) do { if (!(is)) { fprintf(stderr, "line %d: %s\n", __LINE__, #is); exit(1); } } while (0)

struct message { uint16_t len; uint8_t from, to, outcome, is_given; };

/* What came from the bus: a frame of another, the echo of an own one, or a loss. */
struct entry { enum { FRAME, ECHO, LOSS } kind; struct fulwethi_frame frame; };

/* A port, and the last message that it was given, by sender, of those to its station and to all. */
struct port { uint64_t number; int is_open, is_paused; uint32_t last[STATIONS][2]; };

struct station {
    struct fulwethi node;
    struct entry queue[PLACES];
    uint32_t read, written;
    struct fulwethi_frame mailbox[MAILBOXES];
    enum { EMPTY, HANDED, ON_BUS } holds[MAILBOXES];
    struct port port[PORTS];
    uint64_t tick, passed;           /* its clock, and what has passed of the next tick, in millionths */
    uint32_t *numbers[STATIONS + 1]; /* its messages by destination and number, the last place to all */
    uint32_t sent[STATIONS + 1], waiting[STATIONS + 1], last[STATIONS][2];
    uint32_t before[STATIONS + 1];   /* so many messages its program had sent before it started again */
    uint64_t sends_from;             /* it sends no message before this tick */
    uint32_t rate;                   /* of its clock, in thousandths */
    uint32_t losing, stalled, held;  /* how many frames it still loses; and how many turns its program and its controller still miss */
};

static struct bus {
    struct station station[STATIONS];
    struct message *messages;
    uint32_t most, count, given, lost, repeated, extended, jumps, changes, restarts, wrong, idle, outcomes[8];
    int is_unreported, is_early, is_restarted, is_quiet, shows_events, shows_all;
} bus;

static uint64_t seed;
static uint32_t chance(uint32_t of) {
    seed = seed * 6364136223846793005u + 1442695040888963407u;
    return (uint32_t)(seed >> 33) % of;
}

static int place_of(uint32_t address) {
    for (int i = 0; i < STATIONS; i++) if (ADDRESS[i] == address) return i;
    return STATIONS;
}

static uint32_t address_of(const struct station *it) { return ADDRESS[it - bus.station]; }

/* The bytes of a message: its number, from 1, and what follows from it. */
static uint8_t byte_of(uint32_t message, size_t place) {
    return place < 4 ? (uint8_t)(message >> 8 * place) : (uint8_t)(message * 31 + place * 7 + (place >> 8));
}

static void wrong(const char *said) {
    bus.wrong++;
    if (bus.shows_all) printf("  wrong: %s\n", said);
}

static void show(const char *word, const struct fulwethi_frame *frame) {
    if (!bus.shows_all) return;
    printf("  %s %08X", word, frame->id);
    for (uint32_t i = 0; i < frame->len; i++) printf(" %02X", frame->bytes[i]);
    printf("\n");
}

/* What is wrong with a message that a station was given at a port, or NULL. */
static const char *fault_of(struct station *it, const struct fulwethi_event *event, const uint8_t *bytes) {
    uint32_t message = bytes[0] | bytes[1] << 8 | bytes[2] << 16 | (uint32_t)bytes[3] << 24;
    int from = place_of(event->from), to_all = event->to == ALL, at = 0;
    if (message < 1 || message > bus.count || from == STATIONS || event->pgn != PGN) return "nobody sent it";
    struct message *sent = &bus.messages[message];
    if (sent->from != event->from || sent->to != event->to || sent->len != event->len) return "nobody sent it";
    if (!to_all && event->to != address_of(it)) return "it was sent to another";
    for (size_t i = 0; i < event->len; i++) if (bytes[i] != byte_of(message, i)) return "nobody sent it";
    while (at < PORTS && it->port[at].number != event->number) at++;
    if (at == PORTS || !it->port[at].is_open) return "its port is closed";
    if (message <= it->port[at].last[from][to_all] || message < it->last[from][to_all]) return "it was given before, or a later one was";
    if (sent->outcome == FULWETHI_UNREACHABLE) return "it was unreachable";
    it->port[at].last[from][to_all] = it->last[from][to_all] = message;
    sent->is_given = 1;
    return NULL;
}

static void end(struct station *it, const struct fulwethi_event *event) {
    int to = place_of(event->to);
    WANT(event->number >= 1 && event->number <= it->sent[to]);
    struct message *message = &bus.messages[it->numbers[to][it->before[to] + event->number]];
    WANT(event->outcome >= FULWETHI_ACKNOWLEDGED && event->outcome <= FULWETHI_UNREACHABLE);
    if (bus.shows_all) printf("  outcome %02X %02X %u %s\n", address_of(it), event->to, (uint32_t)event->number, OUTCOME[event->outcome]);
    if (message->outcome) wrong("it had an outcome before");
    if (event->outcome == FULWETHI_ACKNOWLEDGED && !message->is_given) wrong("it is acknowledged, and wasn't given");
    if (event->outcome == FULWETHI_UNREACHABLE && message->is_given) wrong("it is unreachable, and was given");
    bus.extended += event->outcome == FULWETHI_ACKNOWLEDGED && message->len > 1785;
    message->outcome = (uint8_t)event->outcome;
    bus.outcomes[event->outcome]++;
    it->waiting[to]--;
}

static void take(struct station *it) {
    static uint8_t room[MOST];
    struct fulwethi_event event;
    while (fulwethi_event(&it->node, &event) == FULWETHI_DONE) {
        WANT(fulwethi_take(&it->node, room, sizeof room) == FULWETHI_DONE);
        if (event.kind == FULWETHI_OUTCOME) {
            end(it, &event);
            continue;
        }
        bus.given++;
        if (bus.shows_all) {
            printf("  given %02X.%u %02X %02X", address_of(it), (uint32_t)event.number, event.from, event.to);
            for (uint64_t i = 0; i < event.len; i++) printf(" %02X", room[i]);
            printf("\n");
        }
        const char *fault = fault_of(it, &event, room);
        if (fault) wrong(fault);
    }
}

/* The events: each answers 1 if it could be. */

static int do_send(struct station *it, uint32_t address, uint32_t len) {
    static uint8_t bytes[MOST];
    uint64_t number;
    int to = place_of(address);
    if (bus.count == bus.most || len < 9 || len > MOST || (to == STATIONS && address != ALL)) return 0;
    uint32_t message = bus.count + 1;
    for (size_t i = 0; i < len; i++) bytes[i] = byte_of(message, i);
    uint32_t code = fulwethi_send(&it->node, (uint8_t)address, PGN, bytes, len, &number);
    WANT((code == FULWETHI_STARTING) == (it->tick < it->sends_from));
    if (code) return 0;
    WANT(number == ++it->sent[to]);
    it->numbers[to][it->before[to] + number] = bus.count = message;
    it->waiting[to]++;
    bus.messages[message] = (struct message){.len = (uint16_t)len, .from = (uint8_t)address_of(it), .to = (uint8_t)address};
    return 1;
}

static int do_cancel(struct station *it, uint32_t address, uint32_t number) {
    uint32_t code = fulwethi_cancel(&it->node, (uint8_t)address, number);
    WANT(code == FULWETHI_DONE || code == FULWETHI_NOTHING_TO_SEND || code == FULWETHI_TX_FULL || code == FULWETHI_NO_SUCH_STATION);
    return code == FULWETHI_DONE;
}

/* A port at a place, for messages of so many bytes. */
static int do_open(struct station *it, uint32_t at, uint32_t most) {
    if (at >= PORTS || it->port[at].is_open) return 0;
    it->port[at] = (struct port){.is_open = 1};
    WANT(fulwethi_open(&it->node, PGN, most, &it->port[at].number) == FULWETHI_DONE);
    return 1;
}

static int do_close(struct station *it, uint32_t at) {
    if (at >= PORTS || !it->port[at].is_open) return 0;
    it->port[at].is_open = 0;
    WANT(fulwethi_close(&it->node, it->port[at].number) == FULWETHI_DONE);
    return 1;
}

/* A port that is paused is resumed. */
static int do_pause(struct station *it, uint32_t at) {
    if (at >= PORTS || !it->port[at].is_open) return 0;
    struct port *port = &it->port[at];
    WANT((port->is_paused ? fulwethi_resume : fulwethi_pause)(&it->node, port->number) == FULWETHI_DONE);
    port->is_paused = !port->is_paused;
    return 1;
}

/* Its program starts again: what it had is gone, the frame in its controller too unless it is on the bus. Its messages have no outcome any more. */
static int do_restart(struct station *it) {
    fulwethi_free(&it->node);
    if (bus.is_quiet) WANT(fulwethi_again(&it->node, (uint8_t)address_of(it), it->tick) == FULWETHI_DONE);
    else WANT(fulwethi_new(&it->node, (uint8_t)address_of(it)) == FULWETHI_DONE && fulwethi_clock(&it->node, it->tick) == FULWETHI_DONE);
    for (int at = 0; at < PORTS; at++) it->port[at] = (struct port){0};
    for (int at = 0; at < MAILBOXES; at++) it->holds[at] = EMPTY;
    for (int to = 0; to <= STATIONS; to++) it->before[to] += it->sent[to], it->sent[to] = it->waiting[to] = 0;
    it->read = it->written = 0;
    return fulwethi_sends_from(&it->node, &it->sends_from) == FULWETHI_DONE;
}

/* So many ticks of its clock pass, and what is due is fired. A clock can't be set back. */
static int do_tick(struct station *it, uint32_t ticks) {
    uint32_t code;
    WANT(!it->tick || fulwethi_clock(&it->node, it->tick - 1) == FULWETHI_CLOCK_PASSED);
    WANT(fulwethi_clock(&it->node, it->tick += ticks) == FULWETHI_DONE);
    do code = fulwethi_fire(&it->node); while (code == FULWETHI_DONE);
    WANT(code == FULWETHI_NOTHING_DUE || code == FULWETHI_TX_FULL);
    return 1;
}

/* Its first frame is handed to its controller: one at a time, which stays first until its echo comes; or, early, into the first empty mailbox. */
static int do_hand(struct station *it) {
    int at = 0, mailboxes = bus.is_early ? MAILBOXES : 1;
    while (at < mailboxes && it->holds[at] != EMPTY) at++;
    if (at == mailboxes) return 0;
    uint32_t code = fulwethi_front(&it->node, &it->mailbox[at]);
    WANT(code == FULWETHI_DONE || code == FULWETHI_NOTHING);
    if (code) return 0;
    it->holds[at] = HANDED;
    if (bus.is_early) WANT(fulwethi_sent(&it->node) == FULWETHI_DONE);
    return 1;
}

/* Something comes into its queue. Of frames that don't fit it is told as of a loss. */
static void come(struct station *it, int kind, const struct fulwethi_frame *frame) {
    uint32_t waiting = it->written - it->read;
    if (kind == FRAME && waiting >= ROOM) kind = LOSS, bus.lost++;
    if (kind == LOSS && waiting && it->queue[(it->written - 1) % PLACES].kind == LOSS) return;
    WANT(waiting < PLACES);
    it->queue[it->written++ % PLACES] = (struct entry){kind, *frame};
}

/* Its controller puts the frame with the lowest identifier, of these the one in the first mailbox, and the others' queues have it. */
static int do_put(struct station *it) {
    int first = -1;
    for (int i = MAILBOXES - 1; i >= 0; i--) {
        if (it->holds[i] == HANDED && (first < 0 || it->mailbox[i].id <= it->mailbox[first].id)) first = i;
    }
    if (first < 0) return 0;
    show("put", &it->mailbox[first]);
    for (int at = 0; at < STATIONS; at++) if (&bus.station[at] != it) come(&bus.station[at], FRAME, &it->mailbox[first]);
    it->holds[first] = bus.is_early ? EMPTY : ON_BUS;
    if (!bus.is_early) come(it, ECHO, &it->mailbox[first]);
    return 1;
}

/* The newest frame in its queue is lost. */
static int do_lose(struct station *it) {
    if (it->read == it->written || it->queue[(it->written - 1) % PLACES].kind != FRAME) return 0;
    struct entry *entry = &it->queue[--it->written % PLACES];
    bus.lost++;
    come(it, LOSS, &entry->frame);
    return 1;
}

/* The newest frame in its queue comes again: another station didn't take it at first. */
static int do_again(struct station *it) {
    if (it->read == it->written || it->queue[(it->written - 1) % PLACES].kind != FRAME) return 0;
    struct fulwethi_frame frame = it->queue[(it->written - 1) % PLACES].frame;
    bus.repeated++;
    come(it, FRAME, &frame);
    return 1;
}

static void miss(struct station *it) {
    if (!bus.is_unreported) WANT(fulwethi_missed(&it->node) == FULWETHI_DONE);
}

/* Its program takes what came first. */
static int do_read(struct station *it) {
    struct fulwethi_frame front;
    if (it->read == it->written) return 0;
    const struct entry *entry = &it->queue[it->read++ % PLACES];
    if (entry->kind == LOSS) {
        if (bus.shows_all) printf("  lost\n");
        miss(it);
    } else if (entry->kind == ECHO) {
        show("echo", &entry->frame);
        WANT(fulwethi_front(&it->node, &front) == FULWETHI_DONE && front.id == entry->frame.id && !memcmp(front.bytes, entry->frame.bytes, 8));
        WANT(fulwethi_sent(&it->node) == FULWETHI_DONE);
        it->holds[0] = EMPTY;
    } else {
        show("feed", &entry->frame);
        uint32_t code = fulwethi_feed(&it->node, &entry->frame);
        WANT(code == FULWETHI_DONE || code == FULWETHI_TX_FULL);
        /* An own frame would have to be put first, whose echo is behind this one. */
        if (code) bus.lost++, miss(it);
    }
    return 1;
}

enum verb { SEND, CANCEL, OPEN, CLOSE, PAUSE, TICK, RESTART, HAND, PUT, LOSE, AGAIN, READ, VERBS };
static const struct { const char *word; int numbers; } VERB[VERBS] = {
    {"send", 2}, {"cancel", 2}, {"open", 2}, {"close", 1}, {"pause", 1}, {"tick", 1}, {"restart", 0}, {"hand", 0}, {"put", 0}, {"lose", 0}, {"again", 0}, {"read", 0}};

static int make(struct station *it, enum verb verb, uint32_t a, uint32_t b) {
    switch (verb) {
    case SEND: return do_send(it, a, b);
    case CANCEL: return do_cancel(it, a, b);
    case OPEN: return do_open(it, a, b);
    case CLOSE: return do_close(it, a);
    case PAUSE: return do_pause(it, a);
    case TICK: return do_tick(it, a);
    case RESTART: return do_restart(it);
    case HAND: return do_hand(it);
    case PUT: return do_put(it);
    case LOSE: return do_lose(it);
    case AGAIN: return do_again(it);
    case READ: return do_read(it);
    default: return 0;
    }
}

/* Makes an event, and takes what it tells: 0 if it can't be. */
static int act(struct station *it, enum verb verb, uint32_t a, uint32_t b) {
    int is_done = make(it, verb, a, b);
    if (is_done && bus.shows_events) {
        printf("%s %02X", VERB[verb].word, address_of(it));
        if (VERB[verb].numbers > 0) printf(verb <= CANCEL ? " %02X" : " %u", a);
        if (VERB[verb].numbers > 1) printf(" %u", b);
        printf("\n");
    }
    take(it);
    return is_done;
}

/* Chance. */

static size_t any_length(int to_all) {
    uint32_t of = chance(1000);
    if (of < 600) return chance(2) ? 20 : 27;
    if (of < 960) return 9 + chance(60);
    return to_all || of < 980 ? 9 + chance(to_all ? 300 : 1777) : 1786 + chance(MOST - 1786);
}

static void send_any(struct station *it) {
    int to = (int)chance(STATIONS + 1);
    if (&bus.station[to % STATIONS] == it && to < STATIONS) return;
    if (bus.count < bus.most && it->waiting[to] < UNDER_WAY) act(it, SEND, to == STATIONS ? ALL : ADDRESS[to], (uint32_t)any_length(to == STATIONS));
    if (it->waiting[to] && !chance(500)) act(it, CANCEL, to == STATIONS ? ALL : ADDRESS[to], it->sent[to] - chance(2));
}

/* A station puts a frame, and each other one may lose it, or take it twice. */
static int put_any(void) {
    struct station *from = &bus.station[chance(STATIONS)];
    if (!from->held && !chance(200)) from->held = chance(40);
    if (from->held) return from->held--, 0;
    if (!act(from, PUT, 0, 0)) return 0;
    for (struct station *it = bus.station; it < bus.station + STATIONS; it++) {
        if (it == from) continue;
        if (!it->losing && !chance(1500)) it->losing = 1 + chance(6);
        if (it->losing) it->losing--, act(it, LOSE, 0, 0);
        else if (!chance(200)) act(it, AGAIN, 0, 0);
    }
    return 1;
}

/* Its clock goes on by what has passed, and sometimes further. */
static void pass(struct station *it) {
    if (!chance(20000)) it->rate = 950 + chance(101);
    uint32_t ticks = (uint32_t)(it->passed / 1000000);
    it->passed %= 1000000;
    if (!chance(20000)) bus.jumps++, ticks += chance(10) ? chance(3000) : 600000;
    if (ticks) act(it, TICK, ticks, 0);
}

static void change_ports(struct station *it) {
    uint32_t at = chance(PORTS);
    if (it->port[at].is_paused ? !chance(200) : !chance(4000)) bus.changes += act(it, PAUSE, at, 0);
    if (!chance(4000)) bus.changes += act(it, CLOSE, at, 0);
    if (!it->port[at].is_open && !chance(100)) bus.changes += act(it, OPEN, at, at ? MOST : 100);
}

static void turn(void) {
    uint32_t micros = bus.idle < 8 ? FRAME_MICROS : IDLE_MICROS;
    bus.idle = put_any() ? 0 : bus.idle + 1;
    for (struct station *it = bus.station; it < bus.station + STATIONS; it++) {
        it->passed += (uint64_t)micros * it->rate;
        if (!it->stalled && !chance(3000)) it->stalled = 1 + chance(500);
        if (it->stalled && it->stalled--) continue;
        pass(it);
        for (uint32_t reads = chance(4); reads && act(it, READ, 0, 0); reads--) bus.idle = 0;
        if (chance(2)) act(it, HAND, 0, 0);
        if (!chance(4)) send_any(it);
        change_ports(it);
        if ((bus.is_restarted || bus.is_quiet) && !chance(300)) bus.restarts += act(it, RESTART, 0, 0);
    }
}

static int is_under_way(void) {
    for (const struct station *it = bus.station; it < bus.station + STATIONS; it++)
        for (int to = 0; to <= STATIONS; to++) if (it->waiting[to]) return 1;
    return 0;
}

static void begin(uint32_t most) {
    bus.most = most;
    WANT(bus.messages = calloc((size_t)most + 1, sizeof *bus.messages));
    for (int at = 0; at < STATIONS; at++) {
        struct station *it = &bus.station[at];
        WANT(fulwethi_new(&it->node, ADDRESS[at]) == FULWETHI_DONE);
        for (int to = 0; to <= STATIONS; to++) WANT(it->numbers[to] = calloc((size_t)most + 1, sizeof *it->numbers[to]));
    }
}

static void finish(void) {
    for (struct station *it = bus.station; it < bus.station + STATIONS; it++) {
        fulwethi_free(&it->node);
        for (int to = 0; to <= STATIONS; to++) free(it->numbers[to]);
    }
    free(bus.messages);
}

static int run(uint32_t messages) {
    begin(messages);
    for (struct station *it = bus.station; it < bus.station + STATIONS; it++) {
        it->rate = 950 + chance(101);
        for (uint32_t at = 0; at < PORTS; at++) act(it, OPEN, at, at ? MOST : 100);
    }
    while ((bus.count < messages || is_under_way()) && !bus.wrong) turn();
    if (!bus.shows_events) {
        printf("messages %u given %u\n ", bus.count, bus.given);
        for (int of = FULWETHI_ACKNOWLEDGED; of <= FULWETHI_UNREACHABLE; of++) printf(" %s %u", OUTCOME[of], bus.outcomes[of]);
        printf("\n  acknowledged by ETP %u, frames lost %u, repeated %u, jumps of clocks %u, changes of ports %u, restarts %u, wrong %u\n", bus.extended, bus.lost,
            bus.repeated, bus.jumps, bus.changes, bus.restarts, bus.wrong);
    }
    finish();
    return (bus.is_unreported || bus.is_early || bus.is_restarted) ? !bus.wrong : bus.wrong;
}

static int is_rule(const char *word) {
    bus.is_unreported = !strcmp(word, "unreported");
    bus.is_early = !strcmp(word, "early");
    bus.is_restarted = !strcmp(word, "restarted");
    bus.is_quiet = !strcmp(word, "quiet");
    return bus.is_unreported || bus.is_early || bus.is_restarted || bus.is_quiet || !strcmp(word, "reported");
}

/* A line of a script: 0 if it isn't one. */
static int play_line(const char *line) {
    char word[16];
    unsigned address, a = 0, b = 0;
    if (*line == '#') return 1;
    if (sscanf(line, "%15s %2x", word, &address) != 2) return is_rule(line);
    if (place_of(address) == STATIONS) return 0;
    for (int verb = 0; verb < VERBS; verb++) {
        if (strcmp(word, VERB[verb].word)) continue;
        int numbers = sscanf(line, verb <= CANCEL ? "%*s %*x %2x %u" : "%*s %*x %u %u", &a, &b);
        if ((numbers < 0 ? 0 : numbers) != VERB[verb].numbers) return 0;
        return act(&bus.station[place_of(address)], (enum verb)verb, a, b) || printf("  nothing\n") > 0;
    }
    return 0;
}

static int play(const char *path) {
    char line[256];
    FILE *file = fopen(path, "r");
    if (!file) return perror(path), 1;
    begin(MOST_MESSAGES);
    bus.shows_all = 1;
    while (fgets(line, sizeof line, file)) {
        line[strcspn(line, "\n")] = 0;
        puts(line);
        if (!play_line(line)) return fprintf(stderr, "%s: a wrong line: %s\n", path, line), 1;
    }
    WANT(!ferror(file) && !fclose(file));
    finish();
    return 0;
}

int main(int count, char **words) {
    if (count == 3 && !strcmp(words[1], "play")) return play(words[2]);
    long messages = count > 1 ? atol(words[1]) : 0;
    bus.shows_events = count == 5 && !strcmp(words[4], "events");
    if (messages < 1 || messages > MOST_MESSAGES || (count > 2 && !is_rule(words[2])) || (count > 4 && !bus.shows_events)) {
        return fprintf(stderr, "usage: %s COUNT [reported|quiet|unreported|early|restarted [SEED [events]]] | play SCRIPT\n", words[0]), 2;
    }
    seed = count > 3 ? strtoull(words[3], NULL, 10) : 20;
    if (bus.shows_events) puts(words[2]);
    return run((uint32_t)messages);
}
