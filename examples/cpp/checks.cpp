/*
 * What presscurlew.hpp adds to presscurlew.h, held to it: moves, answers, times, stored states, lists, bursts, records
 * and stamps. Each line says what was looked at. Compiled as C++20 it goes by spans, where C++17 goes by pointer and
 * size; the lines are the same.
 */
#include <array>
#include <chrono>
#include <cstdio>
#include <cstring>
#include <type_traits>
#include <utility>

#include "presscurlew.hpp"

namespace {

using namespace std::chrono_literals;
using namespace presscurlew;

/* No copy, no exception. */
static_assert(!std::is_copy_constructible_v<Gate> && !std::is_copy_assignable_v<Gate>);
static_assert(std::is_nothrow_move_constructible_v<Gate> && std::is_nothrow_move_assignable_v<Gate>);
static_assert(std::is_nothrow_default_constructible_v<Gate> && std::is_nothrow_move_constructible_v<Made>);
static_assert(noexcept(Gate::make(Profile::adaptive, WhenFull::drop_oldest, Stamp(0u))));
static_assert(noexcept(std::declval<Gate &>().poll(Stamp(0u))));
static_assert(noexcept(std::declval<Gate &>().offer({}, Stamp(0u))));
static_assert(sizeof(Gate) == sizeof(presscurlew_gate));

constexpr Offer warning{7, 0, 400us, 100ms};

bool all_good = true;

void check(const char *what, bool good) {
    std::printf("%-6s  %s\n", good ? "ok" : "NOT SO", what);
    all_good = all_good && good;
}

/* A gate has no padding. */
bool same(const presscurlew_gate &a, const presscurlew_gate &b) { return std::memcmp(&a, &b, sizeof a) == 0; }

bool is_zero(const Gate &gate) { return !gate && same(gate.state(), presscurlew_gate{}); }

Gate fresh(Profile profile = Profile::reactive_a1, WhenFull when_full = WhenFull::refuse_new) {
    Made made = Gate::make(profile, when_full, Stamp(0u));
    return std::move(*made);
}

/* The overloads by span, where there are any. */
#ifdef __cpp_lib_span
Outcome sample_words(Gate &gate, std::uint32_t probes, const std::array<std::uint64_t, 16> &words) {
    return gate.sample_words(probes, words, Stamp(0u));
}

Outcome burst(Gate &gate, const std::array<Record, 3> &records, Outcome *answers, std::size_t room) {
    return gate.burst(records, std::span(answers, room));
}

Made list_of(const std::array<Level, 2> &levels) {
    return Gate::first_edition(60ms, levels, WhenFull::drop_oldest, Stamp(0u));
}

Outcome write_words(Record &record, std::uint32_t probes, const std::array<std::uint64_t, 16> &words) {
    return write_sample_words(record, probes, words, Stamp(0u));
}
#else
Outcome sample_words(Gate &gate, std::uint32_t probes, const std::array<std::uint64_t, 16> &words) {
    return gate.sample_words(probes, words.data(), words.size(), Stamp(0u));
}

Outcome burst(Gate &gate, const std::array<Record, 3> &records, Outcome *answers, std::size_t room) {
    return gate.burst(records.data(), records.size(), answers, room);
}

Made list_of(const std::array<Level, 2> &levels) {
    return Gate::first_edition(60ms, levels.data(), levels.size(), WhenFull::drop_oldest, Stamp(0u));
}

Outcome write_words(Record &record, std::uint32_t probes, const std::array<std::uint64_t, 16> &words) {
    return write_sample_words(record, probes, words.data(), words.size(), Stamp(0u));
}
#endif

/* Every call on it is refused with no_state. */
bool refuses_all(Gate &gate) {
    const std::array<Record, 3> records{warning.record(Stamp(0u))};
    std::array<Outcome, 3> answers;
    const bool single = gate.sample_count(0, 1, Stamp(0u)).refusal() == Refusal::no_state &&
                        gate.sample_words(64, nullptr, 0, Stamp(0u)).refusal() == Refusal::no_state &&
                        gate.offer(warning, Stamp(0u)).refusal() == Refusal::no_state &&
                        gate.poll(Stamp(0u)).refusal() == Refusal::no_state;
    return single && burst(gate, records, answers.data(), 3) && answers[0].refusal() == Refusal::no_state;
}

void moves() {
    Gate gate = fresh();
    const bool taken = bool(gate.offer(warning, Stamp(0u)));
    const presscurlew_gate state = gate.state();
    Gate other = std::move(gate);
    check("a gate that is moved is the one that it was", taken && other && same(other.state(), state));
    check("one that was moved from is the all-zero gate", is_zero(gate));
    check(".. and refuses every call", refuses_all(gate) && is_zero(gate));
    gate = std::move(other);
    check("another can be moved into it", is_zero(other) && same(gate.state(), state));
    Gate &itself = gate;
    gate = std::move(itself);
    check("moved into itself it stays", same(gate.state(), state));
    Gate none;
    check("Gate() is the all-zero gate", is_zero(none) && refuses_all(none));
}

void answers() {
    Gate gate = fresh();
    Answer idle = gate.poll(Stamp(0u));
    check("nothing waits: idle, and nothing else",
          idle.kind() == Answer::Kind::idle && !idle.packet() && !idle.closed_for() && idle.refusal() == Refusal::none);
    const bool offered = gate.offer(warning, Stamp(5u)) && gate.offer(warning, Stamp(5u));
    Answer sent = gate.poll(Stamp(10u));
    const auto packet = sent.packet();
    check("sent, with the packet", offered && sent.kind() == Answer::Kind::sent && packet && packet->id == warning.id &&
                                       packet->priority == warning.priority && packet->on_time == warning.on_time &&
                                       packet->lifetime == warning.lifetime && packet->arrival == 5us);
    Answer closed = gate.poll(Stamp(10u));
    check("closed, for 400 us and 100 ms", closed.kind() == Answer::Kind::closed && !closed.packet() &&
                                               closed.closed_for() == std::chrono::microseconds(100400));
    Answer back = gate.poll(Stamp(9u));
    check("refused, with the reason", back.kind() == Answer::Kind::refused && !back.packet() && !back.closed_for() &&
                                          back.refusal() == Refusal::clock_back);
    check("the reply is that of C", sent.reply().packet.id == warning.id && closed.reply().number == 100400);
    check("names", std::strcmp(name(back.refusal()), "CLOCK-BACK") == 0 &&
                       std::strcmp(name(Refusal::none), "ACCEPTED") == 0 &&
                       std::strcmp(name(Refusal::unanswered), "UNANSWERED") == 0 &&
                       std::strcmp(name(Refusal::other_layout), "OTHER-LAYOUT") == 0);
    const Counts counts = gate.counts();
    check("what it shows", counts.accepted == 2 && counts.sent == 1 && counts.expired == 0 && counts.displaced == 0 &&
                               gate.time() == 10us && gate.level() == 0 && gate.duty() == PRESSCURLEW_LEAST_DUTY &&
                               gate.waiting() == 1 && gate.waiting(0) == 1 && gate.waiting(4) == 0);
}

Refusal offered(std::chrono::microseconds on_time, std::chrono::microseconds lifetime) {
    return fresh().offer({1, 0, on_time, lifetime}, Stamp(0u)).refusal();
}

void times() {
    constexpr auto wrap = std::chrono::microseconds(std::int64_t{1} << 32);
    check("a time below 0 is none",
          offered(-1us, 1s) == Refusal::bad_on_time && offered(1ms, -1h) == Refusal::bad_lifetime);
    check("one past 32 bits does not wrap",
          offered(wrap + 400us, 1s) == Refusal::bad_on_time && offered(1ms, wrap + 1s) == Refusal::bad_lifetime);
    check("up to the limits all are taken", offered(1us, 1us) == Refusal::none && offered(1ms, 1min) == Refusal::none);
    check("a stamp is the low 32 bits",
          Stamp(wrap + 7us) == Stamp(7u) && Stamp(-1us) == Stamp(UINT32_MAX) && Stamp(7u) != Stamp(8u));
    check(".. of a clock's moment, too",
          Stamp::of(std::chrono::steady_clock::time_point(wrap + 2ms)) == Stamp(2ms) &&
              Stamp::of(std::chrono::steady_clock::time_point(-1ns)) == Stamp(UINT32_MAX));
    check("stamps wrap, and so do their sums",
          Stamp(UINT32_MAX) + 3us == Stamp(2u) && Stamp(2u) - Stamp(UINT32_MAX) == 3us);
    check("a second of silence", silence == 1s && most_step + 1us == wrap / 2);
}

void resumes() {
    Gate gate = fresh();
    const bool sent = gate.offer(warning, Stamp(0u)) && gate.poll(Stamp(0u)).packet();
    presscurlew_gate stored = gate.state();
    Made made = Gate::resume(stored);
    check("a stored state goes on", sent && made && made.refusal() == Refusal::none && same(made->state(), stored));
    check(".. as the gate itself does",
          made->poll(Stamp(100u)).kind() == gate.poll(Stamp(100u)).kind() && same(made->state(), gate.state()));
    stored.level = 5;
    Made broken = Gate::resume(stored);
    check("one that was changed does not", !broken && broken.refusal() == Refusal::no_state && is_zero(*broken));
    check(".. nor does the all-zero one", Gate::resume(presscurlew_gate{}).refusal() == Refusal::no_state);
}

Refusal listed(std::chrono::microseconds base_wait, std::initializer_list<Level> levels) {
    return Gate::first_edition(base_wait, levels, WhenFull::drop_oldest, Stamp(0u)).refusal();
}

void lists() {
    constexpr std::array<Level, 2> levels{{{300000, 200ms}, {600000, 1s}}};
    Made made = list_of(levels);
    const presscurlew_gate &state = made->state();
    check("a list makes a gate of profile 5", made && state.profile == PRESSCURLEW_PROFILE_FIRST_EDITION &&
                                                  state.level_count == 2 && state.base_wait == 60000 &&
                                                  state.thresholds[1] == 600000 && state.waits[0] == 200000);
    Made written = Gate::first_edition(60ms, {{300000, 200ms}, {600000, 1s}}, WhenFull::drop_oldest, Stamp(0u));
    check("so does one that is written out", written && same(written->state(), state));
    const Level one{1, 40ms};
    check("eight levels, and no more",
          listed(40ms, {{1, 40ms}, {2, 40ms}, {3, 40ms}, {4, 40ms}, {5, 40ms}, {6, 40ms}, {7, 40ms}, {8, 1s}}) ==
                  Refusal::none &&
              listed(40ms, {one, {2, 1s}, {3, 1s}, {4, 1s}, {5, 1s}, {6, 1s}, {7, 1s}, {8, 1s}, {9, 1s}}) ==
                  Refusal::bad_list);
    check("no level at all, or a bad one",
          listed(40ms, {}) == Refusal::bad_list && listed(-1us, {one}) == Refusal::bad_list &&
              listed(40ms, {one, one}) == Refusal::bad_list &&
              Gate::first_edition(40ms, nullptr, 0, WhenFull::drop_oldest, Stamp(0u)).refusal() == Refusal::bad_list);
    Made plain = Gate::make(Profile::first_edition, WhenFull::drop_oldest, Stamp(0u));
    check("make has no list for it", !plain && plain.refusal() == Refusal::bad_list && is_zero(*plain));
    check("a profile that there is none of",
          Gate::make(static_cast<Profile>(6), WhenFull::drop_oldest, Stamp(0u)).refusal() == Refusal::bad_profile);
}

void bursts() {
    Gate gate = fresh(), single = fresh();
    const Offer bad{8, 4, 400us, 100ms}, wide{9, 300, 1h, 1s};
    const std::array<Record, 3> records{warning.record(Stamp(1u)), bad.record(Stamp(2u)), wide.record(Stamp(3u))};
    std::array<Outcome, 4> answers;
    check("a burst without room offers nothing",
          burst(gate, records, answers.data(), 2).refusal() == Refusal::no_room && gate.waiting() == 0 && !answers[0] &&
              answers[0].refusal() == Refusal::unanswered);
    const bool taken = bool(burst(gate, records, answers.data(), answers.size()));
    check("one with room answers each", taken && answers[0] && answers[1].refusal() == Refusal::bad_priority &&
                                            answers[2].refusal() == Refusal::bad_priority);
    check(".. and writes no more", answers[3].refusal() == Refusal::unanswered);
    const bool alike = single.offer(warning, Stamp(1u)) &&
                       single.offer(bad, Stamp(2u)).refusal() == answers[1].refusal() &&
                       single.offer(wide, Stamp(3u)).refusal() == answers[2].refusal();
    check("single offers lead to the same gate", alike && same(gate.state(), single.state()));
}

void samples_and_records() {
    std::array<std::uint64_t, 16> words{};
    words[0] = 0xff;
    Gate gate = fresh(Profile::harmonised);
    check("a sample by words", sample_words(gate, 1000, words) && gate.state().latest == 8000);
    check(".. just as many as needed", sample_words(gate, 100, words).refusal() == Refusal::bad_sample);
    check("a sample by count", gate.sample_count(9, 1000, Stamp(0u)) && gate.state().latest == 9000);
    Record by_words, by_count, offered;
    check("their records", write_words(by_words, 1000, words) && write_sample_count(by_count, 8, 1000, Stamp(0u)) &&
                               by_words == by_count);
    check("an offer's is that of a burst",
          write_offer(offered, warning, Stamp(4u)) && offered == warning.record(Stamp(4u)));
    check("one that is too wide has none",
          write_offer(offered, {1, 256, 1us, 1us}, Stamp(0u)).refusal() == Refusal::bad_priority);
    check("profile 5 has no log",
          write_make(offered, Profile::first_edition, WhenFull::drop_oldest, Stamp(0u)).refusal() ==
              Refusal::bad_profile);
    check("make and poll have", write_make(offered, Profile::adaptive, WhenFull::refuse_new, Stamp(1u)) &&
                                    offered == Record{0, 3, 0, 0, 1, 0, 0, 0, 0, 0, 0, 0, 1, 0, 0, 0} &&
                                    write_poll(offered, Stamp(2u)) &&
                                    offered == Record{3, 0, 0, 0, 0, 0, 0, 0, 0, 0, 0, 0, 2, 0, 0, 0});
}

} // namespace

int main() {
    moves();
    answers();
    times();
    resumes();
    lists();
    bursts();
    samples_and_records();
    return all_good ? 0 : 1;
}
