// Two services in one program, with a thread for each application: a client of one sends a hundred messages to an inbox of the other. The main thread has both,
// and each frame that one puts is fed to the other one.
#include "fulwethi_service.hpp"
#include <array>
#include <atomic>
#include <cstdio>
#include <cstdlib>
#include <thread>
#include <type_traits>
#include <vector>

using fulwethi_cpp::client;
using fulwethi_cpp::code;
using fulwethi_cpp::frame;
using fulwethi_cpp::inbox;
using fulwethi_cpp::service;

template <class T> constexpr bool is_moved_alone = std::is_nothrow_move_constructible_v<T> && std::is_nothrow_move_assignable_v<T> &&
    !std::is_copy_constructible_v<T> && !std::is_copy_assignable_v<T> && std::is_nothrow_destructible_v<T>;
static_assert(is_moved_alone<service> && is_moved_alone<client> && is_moved_alone<inbox>);

static constexpr std::uint32_t PGN = 0xEF00, MESSAGES = 100;

static void want(code is, code wanted, const char *what) {
    if (is == wanted) return;
    std::fprintf(stderr, "%s: %s\n", what, fulwethi_service_strerror(is));
    std::exit(1);
}

// Carries the next frame of a service to the other one, if there is one.
static bool carry(service &from, service &to) {
    frame next{};
    std::uint8_t station = 0;
    code found = from.front(station, next);
    if (found == FULWETHI_NOTHING) return false;
    want(found, FULWETHI_DONE, "front");
    want(to.feed(next), FULWETHI_DONE, "feed");
    want(from.sent(station), FULWETHI_DONE, "sent");
    return true;
}

// A turn of a service; whether it did anything.
static bool is_turned(service &of) {
    std::uint64_t calls = 0;
    want(of.turn(16, calls), FULWETHI_DONE, "turn");
    return calls > 0;
}

static std::vector<std::uint8_t> message_of(std::uint32_t number) {
    std::vector<std::uint8_t> message(9 + number * 37 % 2000);
    for (std::size_t i = 0; i < message.size(); i++) message[i] = static_cast<std::uint8_t>(number + i * 7);
    return message;
}

// Submits all, and reads all outcomes; how many were acknowledged.
static void send_all(client of, std::atomic<std::uint32_t> &acknowledged) {
    std::uint32_t submitted = 0, ended = 0;
    while (ended < MESSAGES) {
        std::uint64_t ticket = 0;
        while (submitted < MESSAGES && of.submit(0x35, PGN, message_of(submitted), ticket) == FULWETHI_DONE) submitted++;
        while (auto note = of.next_outcome()) {
            if (note->ticket != ++ended) std::exit(1);
            acknowledged += note->outcome == FULWETHI_ACKNOWLEDGED;
        }
        std::this_thread::yield();
    }
}

// Receives all, in order.
static void receive_all(inbox of, std::atomic<std::uint32_t> &received) {
    std::vector<std::uint8_t> given;
    while (received < MESSAGES) {
        while (auto message = of.receive_next(given)) {
            if (message->from != 0x21 || message->to != 0x35 || message->pgn != PGN || given != message_of(received)) std::exit(1);
            received++;
        }
        std::this_thread::yield();
    }
}

// Handles go from one to another, refused calls say why, and what isn't made is asked nothing.
static void look_at_handles(service &tools) {
    const std::array<std::uint8_t, 2> twice{0x40, 0x40}, other{0x40, 0x41};
    service gone, kept;
    client first, second;
    inbox box;
    std::uint64_t port = 0, ticket = 0;
    std::array<std::uint8_t, 20> bytes{};
    want(gone.make({}), FULWETHI_BAD_ADDRESS, "make nothing");
    want(gone.make(twice), FULWETHI_BAD_ADDRESS, "make one twice");
    want(gone.make(other), FULWETHI_DONE, "make");
    kept = std::move(gone);
    want(kept.attach(0x42, first), FULWETHI_NO_SUCH_STATION, "attach");
    want(kept.attach(0x40, first), FULWETHI_DONE, "attach");
    second = std::move(first);
    if (gone.is_made() || !kept.is_made() || first.is_made() || !second.is_made()) std::exit(1);
    want(second.submit(0x41, PGN, {}, ticket), FULWETHI_TOO_SHORT, "submit nothing");
    want(kept.open(0x41, PGN, 1785, port, box), FULWETHI_DONE, "open");
    want(kept.pause(0x41, port), FULWETHI_DONE, "pause");
    want(kept.resume(0x41, port), FULWETHI_DONE, "resume");
    want(kept.missed(0x41), FULWETHI_DONE, "missed");
    want(second.submit(0x41, PGN, bytes, ticket), FULWETHI_DONE, "submit");
    want(tools.agrees(box), FULWETHI_NOT_THIS_SEGMENT, "agrees with another service");
    want(kept.agrees(box), FULWETHI_DONE, "agrees");
    want(tools.close(box), FULWETHI_NOT_THIS_SEGMENT, "close by another service");
    want(kept.clock(10), FULWETHI_DONE, "clock");
    want(kept.clock(9), FULWETHI_CLOCK_PASSED, "clock back");
    if (!is_turned(kept) || kept.next_at() != std::optional<std::uint64_t>(10)) std::exit(1);
    want(kept.close(box), FULWETHI_DONE, "close");
    kept.reset();
    if (kept.is_made() || second.next_outcome()) std::exit(1);
}

int main() {
    const std::array<std::uint8_t, 2> first{0x21, 0x22}, second{0x35, 0x36};
    service tools, engines;
    client sender;
    inbox receiver;
    std::uint64_t port = 0;
    std::atomic<std::uint32_t> acknowledged = 0, received = 0;
    want(tools.make(first), FULWETHI_DONE, "make");
    want(engines.make(second), FULWETHI_DONE, "make");
    look_at_handles(tools);
    want(tools.attach(0x21, sender), FULWETHI_DONE, "attach");
    want(engines.open(0x35, PGN, 2100, port, receiver), FULWETHI_DONE, "open");
    std::thread sending(send_all, std::move(sender), std::ref(acknowledged)), receiving(receive_all, std::move(receiver), std::ref(received));
    while (acknowledged < MESSAGES || received < MESSAGES) {
        int any = is_turned(tools) + is_turned(engines) + carry(tools, engines) + carry(engines, tools);
        if (!any) std::this_thread::yield();
    }
    sending.join();
    receiving.join();
    if (tools.next_due_at() || tools.counted().acknowledged != MESSAGES || engines.counted().given != MESSAGES) return 1;
    std::printf("given at port %llu: %u messages, acknowledged %u\n", static_cast<unsigned long long>(port), received.load(), acknowledged.load());
    return 0;
}
