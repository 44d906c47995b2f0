/*
 * fulwethi for C++17 with many threads: a service, clients and inboxes that free themselves, over fulwethi_service.h, which says what each call
 * does, whose it is and what a caller upholds.
 *
 * Nothing here throws or takes memory but receive_next, which makes room in a vector. Each of the three is moved, not copied. Different ones may be
 * used at the same time; one thread at a time uses each, and it may be handed to another one. They end in any order. One that wasn't made, or from
 * which another was moved, may be made, assigned to, asked is_made, and destroyed; a client is made by attach, an inbox by open.
 */
#ifndef FULWETHI_SERVICE_HPP
#define FULWETHI_SERVICE_HPP

#include "fulwethi.hpp"
#if defined(__GNUC__)
#pragma GCC diagnostic push
#pragma GCC diagnostic ignored "-Wshadow" /* some functions have the name of the struct that they write */
#endif
#include "fulwethi_service.h"
#if defined(__GNUC__)
#pragma GCC diagnostic pop
#endif

namespace fulwethi_cpp {

using note = struct ::fulwethi_note;
using message = struct ::fulwethi_message;
using news = struct ::fulwethi_news;

class client {
public:
    client() noexcept = default;
    client(client &&other) noexcept : held_(std::exchange(other.held_, ::fulwethi_client{})) {}
    client &operator=(client &&other) noexcept {
        if (this != &other) {
            reset();
            held_ = std::exchange(other.held_, ::fulwethi_client{});
        }
        return *this;
    }
    client(const client &) = delete;
    client &operator=(const client &) = delete;
    ~client() { reset(); }

    void reset() noexcept { ::fulwethi_client_free(&held_); }
    bool is_made() const noexcept { return held_.ptr != nullptr; }

    [[nodiscard]] code submit(std::uint8_t to, std::uint32_t pgn, bytes of_message, std::uint64_t &ticket) noexcept {
        static constexpr std::uint8_t nothing = 0;
        return ::fulwethi_client_submit(made(), to, pgn, of_message.size() ? of_message.data() : &nothing, of_message.size(), &ticket);
    }
    /* Its number among all that its service made, by which it is detached. */
    std::uint64_t number() noexcept {
        std::uint64_t found = 0;
        (void)::fulwethi_client_number(made(), &found);
        return found;
    }
    [[nodiscard]] code outcome(note &next) noexcept { return ::fulwethi_client_outcome(made(), &next); }
    /* The next outcome, if one is there. Without memory to read it, it stays. */
    std::optional<note> next_outcome() noexcept {
        note next{};
        if (outcome(next) != FULWETHI_DONE) return std::nullopt;
        return next;
    }

private:
    friend class service;
    ::fulwethi_client *made() noexcept {
        assert(is_made());
        return &held_;
    }

    ::fulwethi_client held_{};
};

class inbox {
public:
    inbox() noexcept = default;
    inbox(inbox &&other) noexcept : held_(std::exchange(other.held_, ::fulwethi_inbox{})) {}
    inbox &operator=(inbox &&other) noexcept {
        if (this != &other) {
            reset();
            held_ = std::exchange(other.held_, ::fulwethi_inbox{});
        }
        return *this;
    }
    inbox(const inbox &) = delete;
    inbox &operator=(const inbox &) = delete;
    ~inbox() { reset(); }

    void reset() noexcept { ::fulwethi_inbox_free(&held_); }
    bool is_made() const noexcept { return held_.ptr != nullptr; }

    [[nodiscard]] code receive(room into, message &next) noexcept {
        std::uint8_t nothing = 0;
        return ::fulwethi_inbox_receive(made(), into.size() ? into.data() : &nothing, into.size(), &next);
    }
    /* Receives the next message, if one is there, with its bytes. Without memory for them the vector throws, and it stays. */
    std::optional<message> receive_next(std::vector<std::uint8_t> &of_message) {
        message next{};
        code found = receive({}, next);
        if (found == FULWETHI_TOO_LITTLE_ROOM) {
            of_message.resize(static_cast<std::size_t>(next.len));
            found = receive(of_message, next);
        }
        if (found != FULWETHI_DONE) return std::nullopt;
        return next;
    }

private:
    friend class service;
    ::fulwethi_inbox *made() noexcept {
        assert(is_made());
        return &held_;
    }

    ::fulwethi_inbox held_{};
};

class service {
public:
    service() noexcept = default;
    service(service &&other) noexcept : held_(std::exchange(other.held_, ::fulwethi_service{})) {}
    service &operator=(service &&other) noexcept {
        if (this != &other) {
            reset();
            held_ = std::exchange(other.held_, ::fulwethi_service{});
        }
        return *this;
    }
    service(const service &) = delete;
    service &operator=(const service &) = delete;
    ~service() { reset(); }

    /* Frees what was made before, and makes a service of stations with these addresses. */
    [[nodiscard]] code make(bytes addresses) noexcept {
        static constexpr std::uint8_t nothing = 0;
        reset();
        return ::fulwethi_service_new(&held_, addresses.size() ? addresses.data() : &nothing, addresses.size());
    }
    void reset() noexcept { ::fulwethi_service_free(&held_); }
    bool is_made() const noexcept { return held_.ptr != nullptr; }

    /* Frees what the client was before, and makes it one of a station. */
    [[nodiscard]] code attach(std::uint8_t station, client &to_make) noexcept {
        to_make.reset();
        return ::fulwethi_service_attach(made(), station, &to_make.held_);
    }
    /* Frees what the inbox was before, and makes it that of a new port. */
    [[nodiscard]] code open(std::uint8_t station, std::uint32_t pgn, std::uint32_t max_len, std::uint64_t &port, inbox &to_make) noexcept {
        to_make.reset();
        return ::fulwethi_service_open(made(), station, pgn, max_len, &port, &to_make.held_);
    }
    /* The same with so many places, 1 to 65,536. */
    [[nodiscard]] code open_with(std::uint8_t station, std::uint32_t pgn, std::uint32_t max_len, std::uint32_t places, std::uint64_t &port, inbox &to_make) noexcept {
        to_make.reset();
        return ::fulwethi_service_open_with(made(), station, pgn, max_len, places, &port, &to_make.held_);
    }
    [[nodiscard]] code close(inbox &of_port) noexcept { return ::fulwethi_service_close(made(), of_port.made()); }
    /* Whether a client, or an inbox, had what the service's record says. */
    [[nodiscard]] code agrees(client &compared) noexcept {
        ::fulwethi_inbox none{};
        return ::fulwethi_service_agrees(made(), compared.made(), 1, &none, 0);
    }
    [[nodiscard]] code agrees(inbox &compared) noexcept {
        ::fulwethi_client none{};
        return ::fulwethi_service_agrees(made(), &none, 0, compared.made(), 1);
    }
    [[nodiscard]] code detach(std::uint64_t number) noexcept { return ::fulwethi_service_detach(made(), number); }
    [[nodiscard]] code close_port(std::uint8_t station, std::uint64_t port) noexcept { return ::fulwethi_service_close_port(made(), station, port); }
    [[nodiscard]] code pause(std::uint8_t station, std::uint64_t port) noexcept { return ::fulwethi_service_pause(made(), station, port); }
    [[nodiscard]] code resume(std::uint8_t station, std::uint64_t port) noexcept { return ::fulwethi_service_resume(made(), station, port); }

    [[nodiscard]] code feed(const frame &from_bus) noexcept { return ::fulwethi_service_feed(made(), &from_bus); }
    [[nodiscard]] code missed(std::uint8_t station) noexcept { return ::fulwethi_service_missed(made(), station); }
    [[nodiscard]] code front(std::uint8_t &station, frame &next) noexcept { return ::fulwethi_service_front(made(), &station, &next); }
    [[nodiscard]] code sent(std::uint8_t station) noexcept { return ::fulwethi_service_sent(made(), station); }

    [[nodiscard]] code clock(std::uint64_t tick) noexcept { return ::fulwethi_service_clock(made(), tick); }
    [[nodiscard]] code turn(std::uint32_t most, std::uint64_t &calls) noexcept { return ::fulwethi_service_turn(made(), most, &calls); }
    /* The tick of the next timer, if one runs. */
    std::optional<std::uint64_t> next_due_at() noexcept {
        std::uint64_t tick = 0;
        if (::fulwethi_service_next_due_at(made(), &tick) != FULWETHI_DONE) return std::nullopt;
        return tick;
    }
    /* The tick until which the bus's thread may sleep, if there is something to do at any. */
    std::optional<std::uint64_t> next_at() noexcept {
        std::uint64_t tick = 0;
        if (::fulwethi_service_next_at(made(), &tick) != FULWETHI_DONE) return std::nullopt;
        return tick;
    }
    /* A client or a port into whose ring something came since it was last named, if there is one. */
    std::optional<news> next_news() noexcept {
        news named{};
        if (::fulwethi_service_news(made(), &named) != FULWETHI_DONE) return std::nullopt;
        return named;
    }
    /* How many messages found no place in an inbox. */
    std::uint64_t turned_away() noexcept {
        std::uint64_t count = 0;
        (void)::fulwethi_service_turned_away(made(), &count);
        return count;
    }
    counts counted() noexcept {
        counts seen{};
        ::fulwethi_service_counts(made(), &seen);
        return seen;
    }

private:
    ::fulwethi_service *made() noexcept {
        assert(is_made());
        return &held_;
    }

    ::fulwethi_service held_{};
};

} // namespace fulwethi_cpp
#endif
