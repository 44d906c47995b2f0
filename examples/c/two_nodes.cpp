// Two nodes in one program, and a message of 100 bytes from one to the other: each frame that a node puts is fed to the other one.
#include "fulwethi.hpp"
#include <array>
#include <cstdio>
#include <cstdlib>
#include <type_traits>
#include <vector>

using fulwethi_cpp::code;
using fulwethi_cpp::frame;
using fulwethi_cpp::node;

static_assert(std::is_nothrow_move_constructible_v<node> && std::is_nothrow_move_assignable_v<node>);
static_assert(!std::is_copy_constructible_v<node> && !std::is_copy_assignable_v<node>);

static void want(code is, code wanted, const char *what) {
    if (is == wanted) return;
    std::fprintf(stderr, "%s: %s\n", what, fulwethi_strerror(is));
    std::exit(1);
}

// Carries a frame, if one is to be put.
static bool carry(node &from, node &to) {
    frame next;
    code found = from.front(next);
    if (found == FULWETHI_NOTHING) return false;
    want(found, FULWETHI_DONE, "front");
    want(to.feed(next), FULWETHI_DONE, "feed");
    want(from.sent(), FULWETHI_DONE, "sent");
    return true;
}

static node made(std::uint8_t address) {
    node fresh;
    want(fresh.make(address), FULWETHI_DONE, "make");
    return fresh;
}

int main() {
    node tool = made(0x21), gone = made(0x35), engine;
    engine = std::move(gone);
    if (gone.is_made() || !engine.is_made()) return 1;
    want(node{}.make(254), FULWETHI_BAD_ADDRESS, "make 254");

    std::uint64_t port = 0, number = 0;
    want(engine.open(0xEF00, 1785, port), FULWETHI_DONE, "open");
    std::vector<std::uint8_t> message(100);
    for (std::size_t i = 0; i < message.size(); i++) message[i] = static_cast<std::uint8_t>(i * 7);
    want(tool.send(0x35, 0xEF00, {}, number), FULWETHI_TOO_SHORT, "send nothing");
    want(tool.send_refusal(0x35, 0xEF00, message.size()), FULWETHI_DONE, "send_refusal");
    want(tool.send(0x35, 0xEF00, message, number), FULWETHI_DONE, "send");
    if (tool.lane_to(0x35).pending != 1) return 1;
    while (carry(tool, engine) || carry(engine, tool)) {}

    std::vector<std::uint8_t> given;
    std::array<std::uint8_t, 8> small{};
    want(engine.take(small), FULWETHI_TOO_LITTLE_ROOM, "take");
    auto told = engine.take_next(given);
    if (!told || told->kind != FULWETHI_GIVEN || told->number != port || told->from != 0x21 || given != message) return 1;
    std::printf("given from %02X: %zu bytes\n", told->from, given.size());
    told = tool.take_next(given);
    if (!told || told->kind != FULWETHI_OUTCOME || told->number != number || !given.empty()) return 1;
    std::printf("message %llu: %s\n", static_cast<unsigned long long>(told->number), fulwethi_outcome_name(told->outcome));
    if (told->outcome != FULWETHI_ACKNOWLEDGED || tool.next_event() || engine.next_event() || tool.counted().acknowledged != 1) return 1;

    want(tool.clock(1000), FULWETHI_DONE, "clock");
    want(tool.fire(), FULWETHI_NOTHING_DUE, "fire");
    if (tool.next_due_at() || tool.next_at()) return 1;
    want(engine.close(port), FULWETHI_DONE, "close");
    want(engine.close(port), FULWETHI_NO_SUCH_PORT, "close again");
    want(tool.make_again(0x21, 1000), FULWETHI_DONE, "make_again");
    want(tool.send(0x35, 0xEF00, message, number), FULWETHI_STARTING, "send at first");
    return tool.sends_from() != 2250;
}
