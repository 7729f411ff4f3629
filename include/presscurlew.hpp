/**
 * @file
 * The gate of presscurlew.h as a class, for C++17 and later.
 *
 *     using namespace std::chrono_literals;
 *     using namespace presscurlew;
 *
 *     Made made = Gate::make(Profile::reactive_a1, WhenFull::drop_oldest, Stamp(radio_clock()));
 *     if (!made)
 *         return report(name(made.refusal()));
 *     Gate gate = std::move(*made);
 *     ...                                  no poll for the first second: presscurlew::silence
 *     if (Outcome outcome = gate.offer({id, priority, 400us, 100ms}, Stamp(radio_clock())); !outcome)
 *         report(name(outcome.refusal()));
 *     ...
 *     Answer answer = gate.poll(Stamp(radio_clock()));
 *     if (auto packet = answer.packet())
 *         transmit(packet->id);            now, and just once
 *     else if (auto wait = answer.closed_for())
 *         ask_again_after(*wait);
 *
 * It is this header alone, over the same archive. presscurlew.h says what each call does and what it asks of the host;
 * a call here hands its numbers on, and nothing of it throws or allocates. An answer that is dropped is a warning.
 *
 * Times are std::chrono::microseconds. One that no number of 32 bits has is refused as the C call refuses a number that
 * is as much out of its limits: below 0 it goes as 0, and above 4,294,967,295 as that.
 *
 * The rules on plain numbers and the floating update are called as presscurlew.h has them.
 */
#ifndef PRESSCURLEW_HPP
#define PRESSCURLEW_HPP

#if !defined(__cplusplus) || __cplusplus < 201703L
#error "presscurlew.hpp needs C++17 or later; presscurlew.h is for C11 and C++11"
#endif

#include <array>
#include <chrono>
#include <cstddef>
#include <cstdint>
#include <initializer_list>
#include <optional>
#include <type_traits>
#include <utility>
#if __has_include(<version>)
#include <version>
#endif
#ifdef __cpp_lib_span
#include <span>
#endif

#include "presscurlew.h"

/** The gate for C++. */
namespace presscurlew {

/** @cond HELPERS */
namespace detail {

/* A time as the calls take it. */
constexpr std::uint32_t number(std::chrono::microseconds time) noexcept {
    if (time.count() < 0)
        return 0;
    return time.count() < UINT32_MAX ? static_cast<std::uint32_t>(time.count()) : UINT32_MAX;
}

constexpr std::chrono::microseconds micros(std::uint64_t number) noexcept {
    return std::chrono::microseconds(static_cast<std::chrono::microseconds::rep>(number));
}

} // namespace detail
/** @endcond */

/** After a make the host is silent so long: its first poll comes then, or later. */
inline constexpr std::chrono::microseconds silence{PRESSCURLEW_SILENCE_US};

/** The clock moves so far at most from call to call, some 35 minutes; more is a clock that went back. */
inline constexpr std::chrono::microseconds most_step{PRESSCURLEW_MOST_STEP_US};

/** The profiles: an enum presscurlew_profile. */
enum class Profile : std::uint32_t {
    reactive_a1 = PRESSCURLEW_PROFILE_REACTIVE_A1,    /**< reactive, Table A.1; on-time up to 1,000 us */
    reactive_a2 = PRESSCURLEW_PROFILE_REACTIVE_A2,    /**< reactive, Table A.2; on-time up to 500 us */
    adaptive = PRESSCURLEW_PROFILE_ADAPTIVE,          /**< adaptive; on-time up to 4,000 us */
    harmonised = PRESSCURLEW_PROFILE_HARMONISED,      /**< harmonised; on-time up to 4,000 us */
    first_edition = PRESSCURLEW_PROFILE_FIRST_EDITION /**< by a list of levels, Gate::first_edition; up to 1,000 us */
};

/** What a gate does with an offer that finds 5 unexpired packets of its priority: an enum presscurlew_when_full. */
enum class WhenFull : std::uint32_t {
    drop_oldest = PRESSCURLEW_DROP_OLDEST, /**< the front one leaves, and the new one joins */
    refuse_new = PRESSCURLEW_REFUSE_NEW    /**< the new one is refused with queue_full */
};

/** Why a call was refused: an enum presscurlew_refusal, and two that no archive answers. */
enum class Refusal : std::uint8_t {
    none = 0,                                /**< it was not refused */
    bad_profile = PRESSCURLEW_BAD_PROFILE,   /**< make: there is no such profile */
    clock_back = PRESSCURLEW_CLOCK_BACK,     /**< the clock went back */
    clock_end = PRESSCURLEW_CLOCK_END,       /**< the running time would pass 10^15 us */
    bad_sample = PRESSCURLEW_BAD_SAMPLE,     /**< it is no sample of 1 to 12,500 probes */
    bad_priority = PRESSCURLEW_BAD_PRIORITY, /**< the priority is above 3 */
    bad_on_time = PRESSCURLEW_BAD_ON_TIME,   /**< the profile does not allow this on-time */
    bad_lifetime = PRESSCURLEW_BAD_LIFETIME, /**< the lifetime is 0 or above a minute */
    queue_full = PRESSCURLEW_QUEUE_FULL,     /**< 5 packets of this priority wait */
    no_state = PRESSCURLEW_NO_STATE,         /**< the gate is not sound: it was moved from, or never made */
    bad_kind = PRESSCURLEW_BAD_KIND,         /**< burst: the record is no offer */
    spent = PRESSCURLEW_SPENT,               /**< 10^15 offers were accepted already */
    no_room = PRESSCURLEW_NO_ROOM,           /**< burst: fewer answers than records */
    torn_log = PRESSCURLEW_TORN_LOG,         /**< burst: the records are not whole, which a Record is */
    bad_list = PRESSCURLEW_BAD_LIST,         /**< profile 5: the list of levels breaks a rule, or there is none */
    unanswered = 254,                        /**< there is no answer yet: what an Outcome has by itself */
    other_layout = 255                       /**< make, resume: the archive is not of this header */
};

/**
 * The name of a refusal, as "QUEUE-FULL".
 *
 * @param refusal the refusal
 * @return its name; "ACCEPTED" for none, and "unknown" for what is none of them
 */
[[nodiscard]] inline const char *name(Refusal refusal) noexcept {
    if (refusal == Refusal::unanswered)
        return "UNANSWERED";
    if (refusal == Refusal::other_layout)
        return "OTHER-LAYOUT";
    return presscurlew_refusal_name(static_cast<std::uint8_t>(refusal));
}

/**
 * The radio's clock, as every call takes it: the low 32 bits of a count of microseconds that starts anywhere. It wraps
 * after some 71 minutes, and the gate does not mind; but all stamps of a gate are of one clock.
 */
class Stamp {
public:
    /**
     * The radio's own count.
     *
     * @param count any number
     */
    constexpr explicit Stamp(std::uint32_t count) noexcept : count_(count) {}

    /**
     * A time since any start, of which the low 32 bits count.
     *
     * @param since_start the time
     */
    constexpr explicit Stamp(std::chrono::microseconds since_start) noexcept
        : count_(static_cast<std::uint32_t>(since_start.count())) {}

    /**
     * A moment of a clock, as Stamp::of(std::chrono::steady_clock::now()). A clock that is set, as the system's, goes
     * back: take one that is steady.
     *
     * @param moment the moment
     * @return its stamp
     */
    template <class Clock, class Duration>
    [[nodiscard]] static constexpr Stamp of(std::chrono::time_point<Clock, Duration> moment) noexcept {
        return Stamp(std::chrono::floor<std::chrono::microseconds>(moment.time_since_epoch()));
    }

    /**
     * The number.
     *
     * @return it, as the calls of presscurlew.h take it
     */
    [[nodiscard]] constexpr std::uint32_t count() const noexcept { return count_; }

    /**
     * The stamp so much later.
     *
     * @param stamp a stamp
     * @param time  how much later
     * @return it, past the wrap too
     */
    [[nodiscard]] friend constexpr Stamp operator+(Stamp stamp, std::chrono::microseconds time) noexcept {
        return Stamp(stamp.count_ + static_cast<std::uint32_t>(time.count()));
    }

    /**
     * The time from one stamp to a later one.
     *
     * @param later   the later one
     * @param earlier the earlier one
     * @return 0 to 4,294,967,295 us; what is above presscurlew::most_step is a clock that went back
     */
    [[nodiscard]] friend constexpr std::chrono::microseconds operator-(Stamp later, Stamp earlier) noexcept {
        return detail::micros(later.count_ - earlier.count_);
    }

    /**
     * Whether two stamps are the same.
     *
     * @param a one
     * @param b the other
     * @return whether they are
     */
    [[nodiscard]] friend constexpr bool operator==(Stamp a, Stamp b) noexcept { return a.count_ == b.count_; }

    /**
     * Whether two stamps differ.
     *
     * @param a one
     * @param b the other
     * @return whether they do
     */
    [[nodiscard]] friend constexpr bool operator!=(Stamp a, Stamp b) noexcept { return a.count_ != b.count_; }

private:
    std::uint32_t count_;
};

/** An offer's 16 bytes in a burst, or a call's in the log. */
using Record = std::array<std::uint8_t, PRESSCURLEW_RECORD_BYTES>;

/** A packet to send. */
struct Offer {
    std::uint32_t id;                   /**< the host's own name for it: any number, repeats allowed */
    std::uint32_t priority;             /**< 0 (highest) to 3 */
    std::chrono::microseconds on_time;  /**< its time on air: 1 us to the longest that the profile allows */
    std::chrono::microseconds lifetime; /**< how long it may wait: 1 us to a minute */

    /**
     * The offer as a record of a burst, as by presscurlew_put_offer.
     *
     * @param stamp the radio's clock now
     * @return the record
     */
    [[nodiscard]] Record record(Stamp stamp) const noexcept {
        Record record;
        presscurlew_put_offer(record.data(), id, priority, detail::number(on_time), detail::number(lifetime),
                              stamp.count());
        return record;
    }
};

/** A packet that is sent. */
struct Packet {
    std::uint32_t id;                   /**< the host's own name for it */
    std::uint32_t priority;             /**< 0 (highest) to 3 */
    std::chrono::microseconds on_time;  /**< its time on air */
    std::chrono::microseconds lifetime; /**< how long it could wait */
    std::chrono::microseconds arrival;  /**< the running time at which it was offered; Gate::time is that of now */
};

/** A level of profile 5 above level 0. */
struct Level {
    std::uint32_t threshold;        /**< the load that leads to it, in parts per 1,000,000 */
    std::chrono::microseconds wait; /**< its wait, 40 ms to 1 s */
};

/** What a gate has counted since make: accepted is sent, expired, displaced and what waits together. */
struct Counts {
    std::uint64_t accepted;  /**< offers that were taken */
    std::uint64_t sent;      /**< packets that were sent */
    std::uint64_t expired;   /**< packets that were removed as expired, at an offer or a poll */
    std::uint64_t displaced; /**< packets that were dropped for a newer one */
};

/** Whether a sample, an offer or a burst was taken, and else why not. It has one byte, as an answer of a burst. */
class [[nodiscard]] Outcome {
public:
    /** No answer yet, which is a refusal: a burst writes what it answers, and no more. */
    constexpr Outcome() noexcept = default;

    /**
     * Whether it was taken.
     *
     * @return true if it was
     */
    [[nodiscard]] constexpr explicit operator bool() const noexcept { return number_ == 0; }

    /**
     * Why it was refused.
     *
     * @return the refusal; Refusal::none if it was taken
     */
    [[nodiscard]] constexpr Refusal refusal() const noexcept { return static_cast<Refusal>(number_); }

    /** @cond HELPERS */
    /* A number of the archive: 0, or a refusal's. */
    constexpr explicit Outcome(std::uint64_t number) noexcept : number_(static_cast<std::uint8_t>(number)) {}

    explicit Outcome(const presscurlew_reply &reply) noexcept
        : Outcome(reply.kind == PRESSCURLEW_REFUSED ? reply.number : 0) {}
    /** @endcond */

private:
    std::uint8_t number_ = static_cast<std::uint8_t>(Refusal::unanswered);
};

/** @cond HELPERS */
static_assert(sizeof(Outcome) == 1 && std::is_trivially_copyable_v<Outcome> && std::is_standard_layout_v<Outcome>,
              "an outcome is an answer byte");
static_assert(sizeof(Record) == PRESSCURLEW_RECORD_BYTES, "records lie one behind the other");
/** @endcond */

/** What a poll answers. A packet that it names has left its queue, and goes on air now or never. */
class [[nodiscard]] Answer {
public:
    /** The kinds of answers to a poll. */
    enum class Kind : std::uint32_t {
        sent = PRESSCURLEW_SENT,      /**< the packet goes on air now */
        idle = PRESSCURLEW_IDLE,      /**< nothing waits */
        closed = PRESSCURLEW_CLOSED,  /**< the gate is closed for some time */
        refused = PRESSCURLEW_REFUSED /**< the poll was refused, and changed nothing */
    };

    /**
     * The kind of the answer.
     *
     * @return the kind
     */
    [[nodiscard]] Kind kind() const noexcept { return static_cast<Kind>(reply_.kind); }

    /**
     * The packet that goes on air now.
     *
     * @return it, if the kind is sent
     */
    [[nodiscard]] std::optional<Packet> packet() const noexcept {
        if (kind() != Kind::sent)
            return std::nullopt;
        const presscurlew_packet &sent = reply_.packet;
        return Packet{sent.id, sent.priority, detail::micros(sent.ontime), detail::micros(sent.lifetime),
                      detail::micros(sent.arrival)};
    }

    /**
     * How long the gate is closed: polled so much later the packet goes that is next, and not 1 us before, unless a
     * sample, an offer or its own expiry came between.
     *
     * @return 1 to 1,004,000 us, if the kind is closed
     */
    [[nodiscard]] std::optional<std::chrono::microseconds> closed_for() const noexcept {
        if (kind() != Kind::closed)
            return std::nullopt;
        return detail::micros(reply_.number);
    }

    /**
     * Why the poll was refused.
     *
     * @return the refusal; Refusal::none if the kind is another
     */
    [[nodiscard]] Refusal refusal() const noexcept { return Outcome(reply_).refusal(); }

    /**
     * The answer as presscurlew.h has it.
     *
     * @return it
     */
    [[nodiscard]] const presscurlew_reply &reply() const noexcept { return reply_; }

    /** @cond HELPERS */
    explicit Answer(const presscurlew_reply &reply) noexcept : reply_(reply) {}
    /** @endcond */

private:
    presscurlew_reply reply_;
};

class Made;

/**
 * The gate of one channel.
 *
 * It holds its state and lets nobody change it: every state that it is in came from its own calls, or from the one that
 * it went on with (Gate::resume). It can be moved and not be copied: each of two copies would admit packets for itself,
 * and together they would send more than one gate may. It is used in one thread at a time.
 *
 * A gate that was moved from is the all-zero gate, which is also what Gate() makes: it has no channel, and every call
 * on it is refused with no_state. Another gate can be moved into it.
 */
class Gate {
public:
    /** The all-zero gate, on which every call is refused with no_state: a place for a gate that is made later. */
    Gate() noexcept = default;
    Gate(const Gate &) = delete;
    Gate &operator=(const Gate &) = delete;
    ~Gate() = default;

    /**
     * Takes a gate over, and leaves the all-zero one in its place.
     *
     * @param other the gate
     */
    Gate(Gate &&other) noexcept : state_(other.state_) { other.state_ = presscurlew_gate{}; }

    /**
     * Takes a gate over, in place of this one, and leaves the all-zero one there. Moved into itself, it stays as it is.
     *
     * @param other the gate
     * @return this one
     */
    Gate &operator=(Gate &&other) noexcept {
        if (this != &other) {
            state_ = other.state_;
            other.state_ = presscurlew_gate{};
        }
        return *this;
    }

    /**
     * A fresh gate, as by presscurlew_make. The host's first poll comes presscurlew::silence later, or after that.
     *
     * @param profile   by which standard it waits; of Profile::first_edition Gate::first_edition makes a gate
     * @param when_full what it does when a queue is full
     * @param stamp     the radio's clock now
     * @return the gate. Refusals: bad_list of Profile::first_edition, other_layout.
     */
    [[nodiscard]] static Made make(Profile profile, WhenFull when_full, Stamp stamp) noexcept;

    /**
     * A fresh gate of profile 5, by its list of levels. What a good list is stands at presscurlew_levels.
     *
     * @param base_wait the wait of level 0
     * @param levels    points to `count` levels above it, 1 to 8; with count 0 it may be null
     * @param count     how many there are
     * @param when_full what it does when a queue is full
     * @param stamp     the radio's clock now
     * @return the gate. Refusals: bad_list, other_layout.
     */
    [[nodiscard]] static Made first_edition(std::chrono::microseconds base_wait, const Level *levels, std::size_t count,
                                            WhenFull when_full, Stamp stamp) noexcept;

    /**
     * The same of a list that is written out.
     *
     * @param base_wait the wait of level 0
     * @param levels    the levels above it, as {{300000, 200ms}, {600000, 1s}}
     * @param when_full what it does when a queue is full
     * @param stamp     the radio's clock now
     * @return the gate. Refusals: bad_list, other_layout.
     */
    [[nodiscard]] static Made first_edition(std::chrono::microseconds base_wait, std::initializer_list<Level> levels,
                                            WhenFull when_full, Stamp stamp) noexcept;

    /**
     * A gate that goes on with a stored state: the one that the last call before a restart left (Gate::state). Then
     * nothing was restarted, and the host need not be silent.
     *
     * That needs the radio's clock to have run on, by at most presscurlew::most_step, and the state to be that of the
     * last call: one from before the last packet that was sent doesn't know of it. Whether it is, nobody can see who
     * has the state alone. A host that is not sure makes a fresh gate.
     *
     * @param state the state, which is judged
     * @return the gate. Refusals: no_state if the state is not sound, other_layout.
     */
    [[nodiscard]] static Made resume(const presscurlew_gate &state) noexcept;

    /**
     * A sample of the channel by its busy count, as by presscurlew_sample_count.
     *
     * @param busy   how many of the probes found the channel busy
     * @param probes 1 to 12,500
     * @param stamp  the radio's clock now
     * @return whether it was taken. Refusals: no_state, clock_back, clock_end, bad_sample.
     */
    [[nodiscard]] Outcome sample_count(std::uint32_t busy, std::uint32_t probes, Stamp stamp) noexcept {
        return Outcome(presscurlew_sample_count(&state_, busy, probes, stamp.count()));
    }

    /**
     * A sample of the channel by words, as by presscurlew_sample_words.
     *
     * @param probes 1 to 12,500
     * @param words  points to `count` words; with count 0 it may be null
     * @param count  PRESSCURLEW_WORDS(probes)
     * @param stamp  the radio's clock now
     * @return whether it was taken. Refusals: no_state, clock_back, clock_end, bad_sample.
     */
    [[nodiscard]] Outcome sample_words(std::uint32_t probes, const std::uint64_t *words, std::size_t count,
                                       Stamp stamp) noexcept {
        return Outcome(presscurlew_sample_words(&state_, probes, words, count, stamp.count()));
    }

    /**
     * A packet to send, as by presscurlew_offer.
     *
     * @param offer the packet
     * @param stamp the radio's clock now
     * @return whether it was taken. Refusals: no_state, clock_back, clock_end, bad_priority, bad_on_time, bad_lifetime,
     *         queue_full, spent.
     */
    [[nodiscard]] Outcome offer(const Offer &offer, Stamp stamp) noexcept {
        return Outcome(presscurlew_offer(&state_, offer.id, offer.priority, detail::number(offer.on_time),
                                         detail::number(offer.lifetime), stamp.count()));
    }

    /**
     * Many offers in one call, as by presscurlew_burst: exactly Gate::offer of one after the other, and faster. There
     * is an answer for each, in their order, and one that is refused does not stop those after it.
     *
     * @param      records points to `count` records, each by Offer::record; with count 0 it may be null
     * @param      count   how many there are
     * @param[out] answers points to `room` outcomes, of which the first `count` are written; with room 0 it may be null
     * @param      room    `count` or more
     * @return whether the burst was taken, also if each of its offers was refused. Refusals: no_room if `room` is less
     *         than `count`; then nothing is offered and no answer written.
     */
    [[nodiscard]] Outcome burst(const Record *records, std::size_t count, Outcome *answers, std::size_t room) noexcept {
        return Outcome(presscurlew_burst(&state_, reinterpret_cast<const std::uint8_t *>(records),
                                         count * sizeof(Record), reinterpret_cast<std::uint8_t *>(answers), room));
    }

    /**
     * Whether a packet may go, and which, as by presscurlew_poll.
     *
     * @param stamp the radio's clock now; the first one is presscurlew::silence after the make, or later
     * @return the answer. Refusals: no_state, clock_back, clock_end.
     */
    [[nodiscard]] Answer poll(Stamp stamp) noexcept { return Answer(presscurlew_poll(&state_, stamp.count())); }

#ifdef __cpp_lib_span
    /**
     * Gate::first_edition of a span.
     *
     * @param base_wait the wait of level 0
     * @param levels    the levels above it, 1 to 8
     * @param when_full what it does when a queue is full
     * @param stamp     the radio's clock now
     * @return the gate. Refusals: bad_list, other_layout.
     */
    [[nodiscard]] static Made first_edition(std::chrono::microseconds base_wait, std::span<const Level> levels,
                                            WhenFull when_full, Stamp stamp) noexcept;

    /**
     * Gate::sample_words of a span.
     *
     * @param probes 1 to 12,500
     * @param words  just as many words as they need
     * @param stamp  the radio's clock now
     * @return whether it was taken
     */
    [[nodiscard]] Outcome sample_words(std::uint32_t probes, std::span<const std::uint64_t> words,
                                       Stamp stamp) noexcept {
        return sample_words(probes, words.data(), words.size(), stamp);
    }

    /**
     * Gate::burst of spans.
     *
     * @param      records the records
     * @param[out] answers as many outcomes, or more
     * @return whether the burst was taken
     */
    [[nodiscard]] Outcome burst(std::span<const Record> records, std::span<Outcome> answers) noexcept {
        return burst(records.data(), records.size(), answers.data(), answers.size());
    }
#endif

    /**
     * What was counted since the make.
     *
     * @return the counts
     */
    [[nodiscard]] Counts counts() const noexcept {
        return {presscurlew_get_accepted(&state_), presscurlew_get_sent(&state_), presscurlew_get_expired(&state_),
                presscurlew_get_displaced(&state_)};
    }

    /**
     * The running time: from make to the last call that was not refused.
     *
     * @return the time
     */
    [[nodiscard]] std::chrono::microseconds time() const noexcept {
        return detail::micros(presscurlew_get_time(&state_));
    }

    /**
     * The level, which profiles 1, 2 and 5 wait by.
     *
     * @return 0 to 4; in profile 5, 0 to how many levels its list has
     */
    [[nodiscard]] std::uint32_t level() const noexcept { return presscurlew_get_level(&state_); }

    /**
     * The duty, which profile 3 waits by.
     *
     * @return the share of time on air, in parts per 1,000,000,000
     */
    [[nodiscard]] std::uint32_t duty() const noexcept { return presscurlew_get_duty(&state_); }

    /**
     * The packets that wait.
     *
     * @return how many, 0 to 20
     */
    [[nodiscard]] std::uint32_t waiting() const noexcept { return presscurlew_get_waiting(&state_); }

    /**
     * The packets of one priority that wait.
     *
     * @param priority 0 (highest) to 3
     * @return how many, 0 to 5; 0 for a priority above 3
     */
    [[nodiscard]] std::uint32_t waiting(std::uint32_t priority) const noexcept {
        return presscurlew_get_waiting_of(&state_, priority);
    }

    /**
     * Whether there is a gate: not the all-zero one.
     *
     * @return false of Gate(), and of one that was moved from
     */
    [[nodiscard]] explicit operator bool() const noexcept { return state_.live != 0; }

    /**
     * The state, to look at and to store. A copy of it can be gone on with after a restart: Gate::resume.
     *
     * @return the state
     */
    [[nodiscard]] const presscurlew_gate &state() const noexcept { return state_; }

private:
    friend class Made;
    presscurlew_gate state_{};
};

/** A gate that was made, or why there is none. */
class [[nodiscard]] Made {
public:
    /**
     * Whether there is a gate.
     *
     * @return true if there is
     */
    [[nodiscard]] explicit operator bool() const noexcept { return refusal_ == Refusal::none; }

    /**
     * Why there is none.
     *
     * @return the refusal; Refusal::none if there is one
     */
    [[nodiscard]] Refusal refusal() const noexcept { return refusal_; }

    /**
     * The gate, to be used where it is or to be moved, as Gate gate = std::move(*made).
     *
     * @return the gate; where there is none the all-zero one, on which every call is refused with no_state
     */
    [[nodiscard]] Gate &operator*() noexcept { return gate_; }

    /**
     * A call on the gate, as made->poll(stamp).
     *
     * @return points to the gate
     */
    [[nodiscard]] Gate *operator->() noexcept { return &gate_; }

private:
    friend class Gate;

    Made() noexcept {
        if (presscurlew_layout() != PRESSCURLEW_LAYOUT)
            refusal_ = Refusal::other_layout;
    }

    Made(std::uint32_t profile, WhenFull when_full, const presscurlew_levels *list, Stamp stamp) noexcept : Made() {
        if (refusal_ == Refusal::none)
            refusal_ = Outcome(presscurlew_make(&gate_.state_, profile, static_cast<std::uint32_t>(when_full), list,
                                                stamp.count()))
                           .refusal();
    }

    explicit Made(const presscurlew_gate &state) noexcept : Made() {
        if (refusal_ != Refusal::none)
            return;
        if (presscurlew_is_sound(&state) == 1)
            gate_.state_ = state;
        else
            refusal_ = Refusal::no_state;
    }

    Gate gate_;
    Refusal refusal_ = Refusal::none;
};

inline Made Gate::make(Profile profile, WhenFull when_full, Stamp stamp) noexcept {
    return Made(static_cast<std::uint32_t>(profile), when_full, nullptr, stamp);
}

inline Made Gate::first_edition(std::chrono::microseconds base_wait, const Level *levels, std::size_t count,
                                WhenFull when_full, Stamp stamp) noexcept {
    presscurlew_levels list{};

    /* More levels than there is room for are said, so that the list is refused. */
    list.count = count < UINT32_MAX ? static_cast<std::uint32_t>(count) : UINT32_MAX;
    list.base_wait = detail::number(base_wait);
    for (std::size_t k = 0; k < count && k < PRESSCURLEW_MOST_LEVELS; k++) {
        list.thresholds[k] = levels[k].threshold;
        list.waits[k] = detail::number(levels[k].wait);
    }
    return Made(PRESSCURLEW_PROFILE_FIRST_EDITION, when_full, &list, stamp);
}

inline Made Gate::first_edition(std::chrono::microseconds base_wait, std::initializer_list<Level> levels,
                                WhenFull when_full, Stamp stamp) noexcept {
    return first_edition(base_wait, levels.begin(), levels.size(), when_full, stamp);
}

#ifdef __cpp_lib_span
inline Made Gate::first_edition(std::chrono::microseconds base_wait, std::span<const Level> levels, WhenFull when_full,
                                Stamp stamp) noexcept {
    return first_edition(base_wait, levels.data(), levels.size(), when_full, stamp);
}
#endif

inline Made Gate::resume(const presscurlew_gate &state) noexcept { return Made(state); }

/**
 * Writes the record of Gate::make for the log, as by presscurlew_write_make.
 *
 * @param[out] record    the record
 * @param      profile   that of the call
 * @param      when_full that of the call
 * @param      stamp     that of the call
 * @return whether it was written. Refusals: bad_profile of Profile::first_edition, which has no log.
 */
[[nodiscard]] inline Outcome write_make(Record &record, Profile profile, WhenFull when_full, Stamp stamp) noexcept {
    return Outcome(presscurlew_write_make(static_cast<std::uint32_t>(profile), static_cast<std::uint32_t>(when_full),
                                          stamp.count(), record.data(), record.size(), 0));
}

/**
 * Writes the record of Gate::sample_count for the log.
 *
 * @param[out] record the record
 * @param      busy   that of the call
 * @param      probes that of the call
 * @param      stamp  that of the call
 * @return whether it was written. Refusals: bad_sample if there are no probes.
 */
[[nodiscard]] inline Outcome write_sample_count(Record &record, std::uint32_t busy, std::uint32_t probes,
                                                Stamp stamp) noexcept {
    return Outcome(presscurlew_write_sample_count(busy, probes, stamp.count(), record.data(), record.size(), 0));
}

/**
 * Writes the record of Gate::sample_words for the log: that of its busy count.
 *
 * @param[out] record the record
 * @param      probes that of the call
 * @param      words  points to `count` words; with count 0 it may be null
 * @param      count  that of the call
 * @param      stamp  that of the call
 * @return whether it was written. Refusals: bad_sample.
 */
[[nodiscard]] inline Outcome write_sample_words(Record &record, std::uint32_t probes, const std::uint64_t *words,
                                                std::size_t count, Stamp stamp) noexcept {
    return Outcome(
        presscurlew_write_sample_words(probes, words, count, stamp.count(), record.data(), record.size(), 0));
}

#ifdef __cpp_lib_span
/**
 * presscurlew::write_sample_words of a span.
 *
 * @param[out] record the record
 * @param      probes that of the call
 * @param      words  those of the call
 * @param      stamp  that of the call
 * @return whether it was written. Refusals: bad_sample.
 */
[[nodiscard]] inline Outcome write_sample_words(Record &record, std::uint32_t probes,
                                                std::span<const std::uint64_t> words, Stamp stamp) noexcept {
    return write_sample_words(record, probes, words.data(), words.size(), stamp);
}
#endif

/**
 * Writes the record of Gate::offer for the log. (Offer::record gives the same, and never refuses.)
 *
 * @param[out] record the record
 * @param      offer  that of the call
 * @param      stamp  that of the call
 * @return whether it was written. Refusals: bad_priority, bad_on_time where a number has no room in the record.
 */
[[nodiscard]] inline Outcome write_offer(Record &record, const Offer &offer, Stamp stamp) noexcept {
    return Outcome(presscurlew_write_offer(offer.id, offer.priority, detail::number(offer.on_time),
                                           detail::number(offer.lifetime), stamp.count(), record.data(), record.size(),
                                           0));
}

/**
 * Writes the record of Gate::poll for the log.
 *
 * @param[out] record the record
 * @param      stamp  that of the call
 * @return whether it was written, which it always is
 */
[[nodiscard]] inline Outcome write_poll(Record &record, Stamp stamp) noexcept {
    return Outcome(presscurlew_write_poll(stamp.count(), record.data(), record.size(), 0));
}

} // namespace presscurlew

#endif
