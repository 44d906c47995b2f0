/* Stations of J1939 on an interface of SocketCAN, for programs that speak by lines. docs/REAL-BUS.md says what it reads, tells and survives.
 *
 * One loop has it all. It waits for the bus, a command, standard output, a signal or a time, and for nothing else. While nobody reads standard
 * output, inboxes, outcomes and commands are left where they are. */
#include "daemon.h"
#include <fcntl.h>
#include <getopt.h>
#include <inttypes.h>
#include <limits.h>
#include <signal.h>
#include <stdarg.h>
#include <stdio.h>
#include <sys/signalfd.h>
#include <time.h>

static const char usage[] =
    "usage: j1939d INTERFACE --station ADDRESS.. [--port ADDRESS:PGN[:MAX]].. [--json] [--wait]\n"
    "It has 1 to 32 stations, and ports that receive messages of a PGN, of at most MAX bytes. --json prints objects of JSON. --wait waits for the interface.\n"
    "Lines of standard input are open A PGN MAX, close A.N and send A TO PGN HEX. Addresses and PGNs are hexadecimal.\n";

#define DECIMAL "0123456789"
#define HEXADECIMAL DECIMAL "ABCDEFabcdef"

enum {
    MOST_PORTS = 16 * MOST_STATIONS,
    MOST_PENDING = 128 * MOST_STATIONS, /* of a station: 64 in its client's ring, and 64 that it took over */
    MOST_IN_LANE = 32,                  /* messages to one destination without an outcome */
    MOST_LINE = 2 * 117440505 + 64,     /* characters: two for each byte of the longest message, and the rest of the line */
    MOST_WORDS = 5,
    CHUNK = 65536,                      /* so much is read at once; above half of it the text that nobody reads gets no more */
    END_WAIT = 1000,                    /* ms: so long it goes on once it is to end */
    QUIET = 1250,                       /* ms: before it sends, so that what peers answer to a daemon before it is over */
    /* What a line may come to, beside the service's codes. */
    BAD_WORD = 1000, WRONG_NUMBER, UNKNOWN_COMMAND, TOO_LONG, NO_ROOM, CUT_OFF, ANSWERED
};

const char *interface;
struct fulwethi_service service;
uint8_t addresses[MOST_STATIONS];
size_t station_count;
uint64_t now;
static uint64_t due, ends_at; /* when there is something to do by itself; when it ends at the latest, or 0 if it isn't to end */
static uint64_t begins_at;    /* when it reads the first command */
static int signals, signal_fd, waits, is_json;

/* A port, which may have messages in its inbox after it was closed; and a message that has no outcome yet. */
static struct port { struct fulwethi_inbox inbox; uint64_t number; uint8_t station; int is_open, is_paused; } ports[MOST_PORTS];
static struct pending { size_t from; uint64_t ticket, len; uint32_t to, pgn; } pending[MOST_PENDING];
static size_t port_count, pending_count;
static struct fulwethi_client clients[MOST_STATIONS];

/* Lines, of which the first is at `from`. Up to `at` they are written, or there is no end of a line. */
static struct text { char *bytes; size_t room, len, from, at; } in, out;
static uint64_t line;       /* the number of the one that is read; 0 is the command line */
static uint32_t fault;      /* why it is passed over up to its end */
static const char *closed;  /* why nobody will read any more what is told */
static int has_ended, is_full, patience; /* the input ended; nobody reads; so many ms standard error is waited for: only at the end, and once */

/* Says on standard error what it takes at once. */
__attribute__((format(printf, 1, 2))) static void say(const char *format, ...) {
    struct pollfd to = {.fd = STDERR_FILENO, .events = POLLOUT};
    va_list given;
    va_start(given, format);
    if (poll(&to, 1, patience) <= 0 || !(to.revents & POLLOUT)) patience = 0;
    else vdprintf(STDERR_FILENO, format, given);
    va_end(given);
}

/* Says what is said once a second at most, with how often it wasn't said before. */
void warn(enum warning which, const char *what) {
    static uint64_t next_at[WARNINGS], unsaid[WARNINGS];
    uint64_t times = unsaid[which]++;
    if (now < next_at[which]) return;
    if (times) say("j1939d: %s: %s (%" PRIu64 " times more before)\n", interface, what, times);
    else say("j1939d: %s: %s\n", interface, what);
    next_at[which] = now + 1000;
    unsaid[which] = 0;
}

/* Moves lines to the front of their room, and sees to so much more of it; 0 without memory. Room that they need no more is let go. */
static int fit(struct text *of, size_t more) {
    of->len -= of->from;
    of->at -= of->from;
    if (of->from) memmove(of->bytes, of->bytes + of->from, of->len);
    of->from = 0;
    size_t least = of->len + more, room = least <= CHUNK ? CHUNK : least + of->len / 2;
    char *bytes = of->room < least || of->room > room ? realloc(of->bytes, room) : NULL;
    if (bytes) *of = (struct text){.bytes = bytes, .room = room, .len = of->len, .at = of->at};
    return of->room >= least;
}

/* Whether there is room for more lines. Where there is, one has half a chunk. */
static int has_room(void) { return !closed && out.len <= CHUNK / 2; }

/* Puts text behind what is there, for which there is room. */
__attribute__((format(printf, 1, 2))) static void tell(const char *format, ...) {
    va_list given;
    va_start(given, format);
    int n = vsnprintf(out.bytes + out.len, out.room - out.len, format, given);
    va_end(given);
    if (n > 0 && (size_t)n < out.room - out.len) out.len += (size_t)n;
}

/* What a clock says, in microseconds. */
static uint64_t microseconds(clockid_t clock) {
    struct timespec time;
    if (clock_gettime(clock, &time)) abort();
    return (uint64_t)time.tv_sec * 1000000 + (uint64_t)time.tv_nsec / 1000;
}

/* Receives the next message of a port, and tells it as j1939bus decode does. Its bytes come so far behind that no digit is put over one before it
 * is read: 256 are more than stand before the digits, and behind them. */
static uint32_t take_message(struct port *port) {
    struct fulwethi_message of;
    uint64_t time = microseconds(CLOCK_REALTIME);
    uint32_t code = fulwethi_inbox_receive(&port->inbox, (uint8_t *)out.bytes, 0, &of);
    if (code != FULWETHI_TOO_LITTLE_ROOM) return code;
    if (!fit(&out, 2 * of.len + 512)) return FULWETHI_NO_MEMORY;
    uint8_t *bytes = (uint8_t *)out.bytes + out.len + 256 + of.len;
    code = fulwethi_inbox_receive(&port->inbox, bytes, of.len, &of);
    if (code != FULWETHI_DONE) return code;
    if (is_json) tell("{\"data\":\"");
    else tell("(%010" PRIu64 ".%06" PRIu64 ") %s given %02X %02X %05X %" PRIu64 " ", time / 1000000, time % 1000000, interface, of.from, of.to, of.pgn, of.len);
    for (const uint8_t *byte = bytes; byte < bytes + of.len; byte++) {
        out.bytes[out.len++] = HEXADECIMAL[*byte >> 4];
        out.bytes[out.len++] = HEXADECIMAL[*byte & 15];
    }
    if (!is_json) tell("\n");
    else tell("\",\"from\":%u,\"interface\":\"%s\",\"kind\":\"given\",\"length\":%" PRIu64 ",\"pgn\":%u,\"port\":\"%02X.%" PRIu64 "\",\"time\":%" PRIu64 ",\"to\":%u}\n",
        of.from, interface, of.len, of.pgn, port->station, port->number, time, of.to);
    return FULWETHI_DONE;
}

/* Reads the next outcome of a station, whose message is pending no more, and tells it; 0 if there is none. */
static int take_outcome(size_t from) {
    static const char *const names[] = {"", "Acknowledged", "Broadcast", "Aborted", "TimedOut", "Overrun", "Cancelled", "Unreachable"};
    struct fulwethi_note of;
    uint64_t time = microseconds(CLOCK_REALTIME);
    char reason[32] = "";
    uint32_t code = fulwethi_client_outcome(&clients[from], &of);
    if (is_later(code) || code != FULWETHI_DONE) return 0;
    for (size_t k = 0; k < pending_count; k++)
        if (pending[k].from == from && pending[k].ticket == of.ticket) memmove(pending + k, pending + k + 1, (--pending_count - k) * sizeof *pending);
    if (of.outcome == FULWETHI_ABORTED) snprintf(reason, sizeof reason, is_json ? "\"reason\":%u," : " %u", of.reason);
    if (is_json) tell("{\"from\":%u,\"interface\":\"%s\",\"kind\":\"outcome\",\"number\":%" PRIu64 ",\"outcome\":\"%s\",%s\"time\":%" PRIu64 ",\"to\":%u}\n",
        addresses[from], interface, of.ticket, names[of.outcome], reason, time, of.to);
    else tell("(%010" PRIu64 ".%06" PRIu64 ") %s outcome %02X %02X %" PRIu64 " %s%s\n", time / 1000000, time % 1000000, interface,
        addresses[from], of.to, of.ticket, names[of.outcome], reason);
    return 1;
}

/* Takes what is to be told while there is room; 0 if there is nothing. A port is closed at the end, paused while nobody reads, and gone once it is
 * closed and empty. */
static int take(void) {
    int has = 0;
    for (size_t k = 0; k < station_count; k++)
        while (has_room() && take_outcome(k)) has = 1;
    for (size_t k = 0; k < port_count; k++) {
        struct port *port = &ports[k];
        uint32_t code = FULWETHI_DONE;
        while (has_room() && (code = take_message(port)) == FULWETHI_DONE) has = 1;
        is_later(code);
        if (port->is_open && ends_at) {
            port->is_open = is_later(fulwethi_service_close(&service, &port->inbox));
        } else if (port->is_open && port->is_paused != is_full) {
            code = is_full ? fulwethi_service_pause(&service, port->station, port->number) : fulwethi_service_resume(&service, port->station, port->number);
            port->is_paused ^= !is_later(code);
        } else if (!port->is_open && code == FULWETHI_NOTHING) {
            fulwethi_inbox_free(&port->inbox);
            ports[k--] = ports[--port_count]; /* the last one has its place, and is seen to next */
        }
    }
    return has;
}

/* Reads a number to base 10 or 16, of at most `most`; 0 where the word is none. */
static int is_number(const char *word, int base, uint64_t most, uint64_t *number) {
    if (!word || !*word || word[strspn(word, base == 10 ? DECIMAL : HEXADECIMAL)]) return 0;
    *number = strtoull(word, NULL, base);
    return *number <= most;
}

/* The commands answer what they come to, or that they are answered. A port is named as 80.1. */
static uint32_t do_open(char **words) {
    uint64_t station, pgn, max;
    struct port *port = &ports[port_count];
    if (!is_number(words[1], 16, 0xFF, &station) || !is_number(words[2], 16, 0xFFFFF, &pgn) || !is_number(words[3], 10, UINT32_MAX, &max)) return BAD_WORD;
    if (port_count == MOST_PORTS) return FULWETHI_PORTS_FULL;
    *port = (struct port){.station = (uint8_t)station, .is_open = 1};
    uint32_t code = fulwethi_service_open(&service, port->station, (uint32_t)pgn, (uint32_t)max, &port->number, &port->inbox);
    if (code != FULWETHI_DONE) return code;
    port_count++;
    if (is_json) tell("{\"kind\":\"opened\",\"line\":%" PRIu64 ",\"pgn\":%" PRIu64 ",\"port\":\"%02X.%" PRIu64 "\"}\n", line, pgn, port->station, port->number);
    else tell("line %" PRIu64 ": opened %02X.%" PRIu64 "\n", line, port->station, port->number);
    return ANSWERED;
}

static uint32_t do_close(char **words) {
    uint64_t station, number;
    struct port *port = ports;
    char *point = strchr(words[1], '.');
    if (point) *point++ = 0;
    if (!is_number(words[1], 16, 0xFF, &station) || !is_number(point, 10, UINT64_MAX / 16, &number)) return BAD_WORD;
    while (port < ports + port_count && (!port->is_open || port->station != station || port->number != number)) port++;
    if (port == ports + port_count) return FULWETHI_NO_SUCH_PORT;
    uint32_t code = fulwethi_service_close(&service, &port->inbox);
    port->is_open = code != FULWETHI_DONE;
    return code;
}

/* Submits a message, whose bytes are put in the place of their digits, and remembers that it has no outcome yet. */
static uint32_t do_send(char **words) {
    uint64_t from, to, pgn;
    size_t digits = strspn(words[4], HEXADECIMAL), in_lane = 0;
    if (!is_number(words[1], 16, 0xFF, &from) || !is_number(words[2], 16, 0xFF, &to) || !is_number(words[3], 16, 0xFFFFF, &pgn)) return BAD_WORD;
    if (words[4][digits] || digits % 2) return BAD_WORD;
    uint8_t *bytes = (uint8_t *)words[4], *station = memchr(addresses, (int)from, station_count);
    if (!station) return FULWETHI_NO_SUCH_STATION;
    if (pending_count == MOST_PENDING) return FULWETHI_RING_FULL;
    for (size_t k = 0; k < digits; k++) {
        int digit = bytes[k] % 16 + (bytes[k] > '9' ? 9 : 0);
        bytes[k / 2] = (uint8_t)(k % 2 ? bytes[k / 2] | digit : digit << 4);
    }
    struct pending *it = &pending[pending_count];
    *it = (struct pending){.from = (size_t)(station - addresses), .len = digits / 2, .to = (uint32_t)to, .pgn = (uint32_t)pgn};
    for (size_t k = 0; k < pending_count; k++) in_lane += pending[k].from == it->from && pending[k].to == to;
    if (in_lane == MOST_IN_LANE) return FULWETHI_LANE_FULL;
    uint32_t code = fulwethi_client_submit(&clients[it->from], (uint8_t)to, it->pgn, bytes, it->len, &it->ticket);
    if (code != FULWETHI_DONE) return code;
    pending_count++;
    if (is_json) tell("{\"from\":%u,\"kind\":\"sent\",\"line\":%" PRIu64 ",\"number\":%" PRIu64 ",\"to\":%u}\n", *station, line, it->ticket, it->to);
    else tell("line %" PRIu64 ": sent %02X %02X %" PRIu64 "\n", line, *station, it->to, it->ticket);
    return ANSWERED;
}

/* Does what a line says unless something is wrong with it already, and answers it. No word, or one that begins with #, says nothing. */
static void do_line(char *text, const char *separators, uint32_t code) {
    static const struct { const char *name; int count; uint32_t (*act)(char **words); } known[] = {{"open", 4, do_open}, {"close", 2, do_close}, {"send", 5, do_send}};
    static const char *const causes[] = {"bad word", "wrong number of words", "unknown command", "line too long", "no memory", "cut off"};
    char *words[MOST_WORDS + 1], *rest = NULL;
    int count = 0;
    if (!code) {
        for (char *word = strtok_r(text, separators, &rest); word && count <= MOST_WORDS; word = strtok_r(NULL, separators, &rest)) words[count++] = word;
        if (!count || words[0][0] == '#') return;
        code = UNKNOWN_COMMAND;
        for (size_t k = 0; k < sizeof known / sizeof *known; k++)
            if (!strcmp(words[0], known[k].name)) code = count == known[k].count ? known[k].act(words) : WRONG_NUMBER;
    }
    if (code == ANSWERED) return;
    const char *name = fulwethi_service_code_name(code), *cause = code < BAD_WORD ? NULL : causes[code - BAD_WORD];
    if (is_json && cause) tell("{\"cause\":\"%s\",\"kind\":\"wrong line\",\"line\":%" PRIu64 "}\n", cause, line);
    else if (is_json && code) tell("{\"code\":\"%s\",\"kind\":\"refused\",\"line\":%" PRIu64 "}\n", name, line);
    else if (is_json) tell("{\"kind\":\"done\",\"line\":%" PRIu64 "}\n", line);
    else if (cause) tell("line %" PRIu64 ": %s\n", line, cause);
    else if (code) tell("line %" PRIu64 ": refused %u %s\n", line, code, name);
    else tell("line %" PRIu64 ": done\n", line);
}

/* Does what whole lines say, as long as there is room for the replies; and reads once what is there if none is left. */
static void read_commands(void) {
    if (!has_ended && has_room() && in.at == in.len) {
        if (!fault && !fit(&in, CHUNK / 2)) fault = NO_ROOM;
        if (fault) in.len = in.from = in.at = 0;
        ssize_t n = read(STDIN_FILENO, in.bytes + in.len, in.room - in.len < CHUNK ? in.room - in.len : CHUNK);
        has_ended = n == 0 || (n < 0 && errno != EAGAIN && errno != EINTR);
        if (n > 0) in.len += (size_t)n;
        if (has_ended && (in.len || fault)) do_line(NULL, NULL, CUT_OFF); /* it may be half of one */
        if (has_ended) in.len = in.at = 0;
    }
    while (has_room() && in.at < in.len) {
        char *start = in.bytes + in.from, *end = memchr(in.bytes + in.at, '\n', in.len - in.at);
        in.at = end ? (size_t)(end - in.bytes) + 1 : in.len;
        if (in.at - in.from > MOST_LINE + 1) fault = TOO_LONG;
        if (!end) return;
        *end = 0;
        if (!fault && strlen(start) < (size_t)(end - start)) fault = BAD_WORD;
        do_line(start, " \t\r", fault);
        fault = FULWETHI_DONE;
        in.from = in.at;
        line++;
    }
}

/* Writes what standard output takes at once. It is full while there is no room for more. */
static void write_out(void) {
    if (closed || out.at == out.len) return;
    ssize_t n = write(STDOUT_FILENO, out.bytes + out.at, out.len - out.at);
    if (n < 0 && errno != EAGAIN && errno != EINTR) closed = strerror(errno);
    if (n > 0) out.at += (size_t)n;
    if (out.at == out.len) out.from = out.len; /* not before, since a line that is written in part is said whole at the end */
    fit(&out, 0);
    if (n > 0 || closed || is_full != (out.len > CHUNK / 2)) wake(now);
    is_full = out.len > CHUNK / 2;
}

/* Says at the end which lines weren't written whole, which commands weren't done and which messages have no outcome. Whether a line wasn't. */
static int report(void) {
    int has = closed != NULL;
    patience = END_WAIT;
    if (closed) say("j1939d: standard output: %s\n", closed);
    closed = NULL;
    while (out.at > 0 && out.at < out.len && out.bytes[out.at - 1] != '\n') out.at--;
    do {
        has |= out.at < out.len;
        for (size_t some; out.at < out.len; out.at += some) {
            const char *piece = out.bytes + out.at, *end = memchr(piece, '\n', out.len - out.at < 512 ? out.len - out.at : 512);
            some = end ? (size_t)(end - piece) + 1 : 512;
            say("%s%.*s", out.at == 0 || piece[-1] == '\n' ? "j1939d: not written: " : "", (int)some, piece);
        }
        out.len = out.at = 0;
    } while (take());
    if (in.len > in.from) say("j1939d: commands that weren't done: %zu bytes\n", in.len - in.from);
    for (const struct pending *it = pending; it < pending + pending_count; it++)
        say("j1939d: no outcome: %02X %02X %" PRIu64 ", PGN %05X, %" PRIu64 " bytes\n", addresses[it->from], it->to, it->ticket, it->pgn, it->len);
    return has;
}

/* There is something to do at this tick. */
void wake(uint64_t tick) {
    if (tick < due) due = tick;
}

/* Whether a call is to be made again, since it found no memory or wants a turn first. */
int is_later(uint32_t code) {
    if (code == FULWETHI_NO_MEMORY) warn(NO_MEMORY, "no memory: it is tried again");
    else if (code != FULWETHI_BUS_FULL && code != FULWETHI_TRACE_FULL) return 0;
    wake(now + RETRY);
    return 1;
}

/* One turn of all. */
static void turn(void) {
    uint64_t made;
    due = ends_at ? ends_at : UINT64_MAX;
    is_later(fulwethi_service_clock(&service, now));
    bus_receive();
    if (now < begins_at) wake(begins_at);
    else if (!ends_at) read_commands();
    do {
        if (is_later(fulwethi_service_turn(&service, 16, &made))) made = 0;
        bus_transmit();
        /* In between, since an inbox has 64 places. */
        if (take() || made > 0) wake(now);
    } while (made > 0);
    write_out();
    if (pending_count) wake(now + 1000); /* one may have found no memory where it was to be taken over */
}

/* Waits until there is something to do. 0 if it is to end, and all is done that is to be done before, or that took too long. */
static int await(void) {
    struct signalfd_siginfo of;
    struct fulwethi_frame frame;
    uint8_t station;
    int is_busy = pending_count || (out.at < out.len && !closed) || fulwethi_service_front(&service, &station, &frame) == FULWETHI_DONE;
    for (size_t k = 0; k < port_count; k++) is_busy |= ports[k].is_open;
    if (ends_at && (!is_busy || signals > 1 || now >= ends_at)) return 0;
    struct pollfd from[] = {
        {.fd = bus_wait(), .events = POLLIN}, {.fd = has_ended || ends_at || now < begins_at || !has_room() ? -1 : STDIN_FILENO, .events = POLLIN},
        {.fd = closed ? -1 : STDOUT_FILENO, .events = out.at < out.len ? POLLOUT : 0}, {.fd = signal_fd, .events = POLLIN}};
    uint64_t left = due > now ? due - now : 0;
    if (poll(from, 4, left > INT_MAX ? -1 : (int)left) < 0 && errno != EINTR && errno != ENOMEM) abort();
    now = microseconds(CLOCK_MONOTONIC) / 1000;
    if (from[2].revents & (POLLERR | POLLHUP | POLLNVAL)) closed = "nobody reads it";
    while (read(signal_fd, &of, sizeof of) == sizeof of) signals++;
    if ((signals || closed) && !ends_at) ends_at = now + END_WAIT;
    return 1;
}

/* Takes what the command line says, and makes the stations and ports that it names; 0 once it said why not. */
static int begin(int count, char **words) {
    static const struct option known[] = {{"station", 1, NULL, 's'}, {"port", 1, NULL, 'p'}, {"json", 0, &is_json, 1}, {"wait", 0, &waits, 1}, {NULL, 0, NULL, 0}};
    static char *named[MOST_PORTS], text[64];
    size_t named_count = 0;
    uint64_t address;
    for (int word; (word = getopt_long(count, words, "", known, NULL)) != -1;) {
        if (word == 's' && station_count < MOST_STATIONS && is_number(optarg, 16, 0xFD, &address)) addresses[station_count++] = (uint8_t)address;
        else if (word == 'p' && named_count < MOST_PORTS) named[named_count++] = optarg;
        else if (word) return fputs(usage, stderr), 0;
    }
    interface = optind == count - 1 ? words[optind] : "";
    if (!station_count || !*interface || strlen(interface) > 15 || strpbrk(interface, "\"\\/ ")) return fputs(usage, stderr), 0;
    uint32_t code = fulwethi_service_new(&service, addresses, station_count);
    for (size_t k = 0; k < station_count && !code; k++) code = fulwethi_service_attach(&service, addresses[k], &clients[k]);
    if (code) return say("j1939d: %s\n", fulwethi_service_strerror(code)), 0;
    for (size_t k = 0; k < named_count; k++) {
        const char *most = strchr(named[k], ':') == strrchr(named[k], ':') ? ":117440505" : "";
        if (snprintf(text, sizeof text, "open:%s%s", named[k], most) < (int)sizeof text) do_line(text, ":", FULWETHI_DONE);
        if (port_count == k) return say("j1939d: no port %s: say ADDRESS:PGN or ADDRESS:PGN:MAX of a station\n", named[k]), 0;
    }
    return 1;
}

int main(int count, char **words) {
    int why, flags[2];
    sigset_t ends;
    for (int fd = 0; fd < 3; fd++)
        if (fcntl(fd, F_GETFL) < 0 && open("/dev/null", O_RDWR) != fd) return 1;
    if (!fit(&in, CHUNK) || !fit(&out, CHUNK)) return say("j1939d: no memory\n"), 1;
    if (!begin(count, words)) return 2;
    if (sigemptyset(&ends) || sigaddset(&ends, SIGTERM) || sigaddset(&ends, SIGINT) || sigaddset(&ends, SIGHUP)
        || sigprocmask(SIG_BLOCK, &ends, NULL) || signal(SIGPIPE, SIG_IGN) == SIG_ERR || (signal_fd = signalfd(-1, &ends, SFD_NONBLOCK | SFD_CLOEXEC)) < 0)
        return say("j1939d: %s\n", strerror(errno)), 1;
    while ((why = bus_open())) {
        struct pollfd from = {.fd = signal_fd, .events = POLLIN};
        if (!waits || (why != ENODEV && why != ENETDOWN)) return say("j1939d: %s: %s\n", interface, strerror(why)), 1;
        if (poll(&from, 1, LOOK) > 0) break;
    }
    for (int fd = 0; fd < 2; fd++)
        if ((flags[fd] = fcntl(fd, F_GETFL)) < 0 || fcntl(fd, F_SETFL, flags[fd] | O_NONBLOCK) < 0) return say("j1939d: %s\n", strerror(errno)), 1;
    now = microseconds(CLOCK_MONOTONIC) / 1000;
    begins_at = now + QUIET;
    line = 1;
    do turn();
    while (await());
    int is_lost = report();
    for (int fd = 1; fd >= 0; fd--) (void)fcntl(fd, F_SETFL, flags[fd]); /* the last first, since both may be one */
    return is_lost;
}
