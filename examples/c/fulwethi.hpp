/*
 * fulwethi for C++17: a node that frees itself, over fulwethi.h, which says what each call does and what a caller upholds.
 *
 * Nothing here throws or takes memory but take_next, which makes room in a vector. A node is moved, not copied. One thread at a time uses
 * it, and it may be handed to another one. One that wasn't made, or from which another was moved, may be made, assigned to, asked is_made,
 * and destroyed.
 */
#ifndef FULWETHI_HPP
#define FULWETHI_HPP

#if defined(__GNUC__)
#pragma GCC diagnostic push
#pragma GCC diagnostic ignored "-Wshadow" /* some functions have the name of the struct that they write */
#endif
#include "fulwethi.h"
#if defined(__GNUC__)
#pragma GCC diagnostic pop
#endif
#include <cassert>
#include <cstddef>
#include <cstdint>
#include <optional>
#include <utility>
#include <vector>

namespace fulwethi_cpp {

/* A code of fulwethi.h: FULWETHI_DONE, and so on. */
using code = std::uint32_t;
using frame = ::fulwethi_frame;
using event = struct ::fulwethi_event;
using counts = struct ::fulwethi_counts;
using lane = struct ::fulwethi_lane;

/* Bytes of somebody else, as std::span<T> has them: of an array, or of what has data() and size(). */
template <class T> class view {
public:
    constexpr view() noexcept = default;
    constexpr view(T *data, std::size_t size) noexcept : data_(data), size_(size) {}
    template <std::size_t N> constexpr view(T (&array)[N]) noexcept : data_(array), size_(N) {}
    template <class C, class = decltype(static_cast<T *>(std::declval<C &>().data()) + std::declval<C &>().size())>
    constexpr view(C &&of) noexcept : data_(of.data()), size_(of.size()) {}
    constexpr T *data() const noexcept { return data_; }
    constexpr std::size_t size() const noexcept { return size_; }

private:
    T *data_ = nullptr;
    std::size_t size_ = 0;
};

using bytes = view<const std::uint8_t>;
using room = view<std::uint8_t>;

class node {
public:
    node() noexcept = default;
    node(node &&other) noexcept : held_(std::exchange(other.held_, ::fulwethi{})) {}
    node &operator=(node &&other) noexcept {
        if (this != &other) {
            reset();
            held_ = std::exchange(other.held_, ::fulwethi{});
        }
        return *this;
    }
    node(const node &) = delete;
    node &operator=(const node &) = delete;
    ~node() { reset(); }

    /* Frees what was made before, and makes a node with this address. */
    [[nodiscard]] code make(std::uint8_t address) noexcept {
        reset();
        return ::fulwethi_new(&held_, address);
    }
    /* That of a program that starts again at this tick of its clock. */
    [[nodiscard]] code make_again(std::uint8_t address, std::uint64_t tick) noexcept {
        reset();
        return ::fulwethi_again(&held_, address, tick);
    }
    void reset() noexcept { ::fulwethi_free(&held_); }
    bool is_made() const noexcept { return held_.ptr != nullptr; }

    [[nodiscard]] code open(std::uint32_t pgn, std::uint32_t max_len, std::uint64_t &port) noexcept {
        return ::fulwethi_open(made(), pgn, max_len, &port);
    }
    [[nodiscard]] code close(std::uint64_t port) noexcept { return ::fulwethi_close(made(), port); }
    [[nodiscard]] code pause(std::uint64_t port) noexcept { return ::fulwethi_pause(made(), port); }
    [[nodiscard]] code resume(std::uint64_t port) noexcept { return ::fulwethi_resume(made(), port); }

    [[nodiscard]] code send(std::uint8_t to, std::uint32_t pgn, bytes message, std::uint64_t &number) noexcept {
        return ::fulwethi_send(made(), to, pgn, message.data(), message.size(), &number);
    }
    /* The tick before which it sends no message. */
    std::uint64_t sends_from() noexcept {
        std::uint64_t tick = 0;
        ::fulwethi_sends_from(made(), &tick);
        return tick;
    }
    code send_refusal(std::uint8_t to, std::uint32_t pgn, std::size_t len) noexcept { return ::fulwethi_send_refusal(made(), to, pgn, len); }
    [[nodiscard]] code cancel(std::uint8_t to, std::uint64_t number) noexcept { return ::fulwethi_cancel(made(), to, number); }

    [[nodiscard]] code feed(const frame &from_bus) noexcept { return ::fulwethi_feed(made(), &from_bus); }
    [[nodiscard]] code missed() noexcept { return ::fulwethi_missed(made()); }
    [[nodiscard]] code front(frame &next) noexcept { return ::fulwethi_front(made(), &next); }
    [[nodiscard]] code sent() noexcept { return ::fulwethi_sent(made()); }

    [[nodiscard]] code clock(std::uint64_t tick) noexcept { return ::fulwethi_clock(made(), tick); }
    [[nodiscard]] code fire() noexcept { return ::fulwethi_fire(made()); }
    /* The tick of the next timer, if one runs. */
    std::optional<std::uint64_t> next_due_at() noexcept {
        std::uint64_t tick = 0;
        if (::fulwethi_next_due_at(made(), &tick) != FULWETHI_DONE) return std::nullopt;
        return tick;
    }

    /* The tick until which the program may sleep, if there is something to do at any. */
    std::optional<std::uint64_t> next_at() noexcept {
        std::uint64_t tick = 0;
        if (::fulwethi_next_at(made(), &tick) != FULWETHI_DONE) return std::nullopt;
        return tick;
    }

    /* What is told next, if something is; it stays. */
    std::optional<event> next_event() noexcept {
        event told{};
        if (::fulwethi_event(made(), &told) != FULWETHI_DONE) return std::nullopt;
        return told;
    }
    [[nodiscard]] code take(room into) noexcept { return ::fulwethi_take(made(), into.data(), into.size()); }
    /* Takes what is told next, if something is, with its bytes. Without memory for them the vector throws, and it stays. */
    std::optional<event> take_next(std::vector<std::uint8_t> &message) {
        std::optional<event> told = next_event();
        if (!told) return told;
        message.resize(static_cast<std::size_t>(told->len));
        if (take(message) != FULWETHI_DONE) return std::nullopt;
        return told;
    }

    lane lane_to(std::uint8_t to) noexcept {
        lane seen{};
        ::fulwethi_lane(made(), to, &seen);
        return seen;
    }
    counts counted() noexcept {
        counts seen{};
        ::fulwethi_counts(made(), &seen);
        return seen;
    }

private:
    ::fulwethi *made() noexcept {
        assert(is_made());
        return &held_;
    }

    ::fulwethi held_{};
};

} // namespace fulwethi_cpp
#endif
