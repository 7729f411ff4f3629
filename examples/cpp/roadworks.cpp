/*
 * A host of the gate to start from, in C++: a trailer at roadworks that warns of the closed lane, tells its status and
 * sends the map of the site in pieces, over 4 s in which the channel gets crowded for a while.
 *
 * examples/c/roadworks.c is the same host in C, and both must write the same.
 *
 * The radio is played: its clock is `now_`, which wraps on the way, and hear_channel makes up what it probes. All else
 * is what a host does: sample, offer, poll, and wait as long as an answer says that the gate is closed. What comes
 * together, warnings among it, is offered together, as a burst.
 *
 * And a host stays silent for a second after it starts. What this trailer sent before it was switched off, or crashed,
 * a new gate can't know: two runs closer than that can put more on air together than the label says of each.
 *
 *   roadworks [LOG [ANSWERS]]
 *
 * records its calls to LOG, each before it is made, and writes what they were answered to ANSWERS, in the words of the
 * program replay: played, the log gives these answers. Without a LOG nothing is recorded.
 */
#include <array>
#include <chrono>
#include <cinttypes>
#include <cstdio>
#include <cstdlib>
#include <utility>

#include "presscurlew.hpp"

namespace {

using namespace std::chrono_literals;
using presscurlew::Answer;
using presscurlew::Gate;
using presscurlew::Offer;
using presscurlew::Outcome;
using presscurlew::Packet;
using presscurlew::Record;
using presscurlew::Refusal;
using presscurlew::Stamp;
using std::chrono::microseconds;

constexpr auto profile = presscurlew::Profile::reactive_a1;
/* The map's pieces all differ: none that was taken may be displaced, and one that finds no room is told. */
constexpr auto when_full = presscurlew::WhenFull::refuse_new;

constexpr Stamp start{4294000000u};
constexpr microseconds tick = 10ms;
constexpr unsigned ticks = 400;

/* The radio probes the channel each 8 us, and is asked each 100 ms. */
constexpr unsigned probes = PRESSCURLEW_MOST_PROBES;
using Words = std::array<std::uint64_t, PRESSCURLEW_WORDS(probes)>;

/* What the host sends. */
struct Message {
    const char *name;
    std::uint32_t priority;
    microseconds on_time;
    microseconds lifetime;
};

enum Kind : std::uint32_t { warning, status, map };

constexpr std::array<Message, 3> messages{{
    {"warning", 0, 600us, 1s},
    {"status", 2, 300us, 400ms},
    {"map", 3, 900us, 3s},
}};

/* The host finds the message by the identifier when it is sent: the kind stands in its last two bits. */
const char *name_of(std::uint32_t id) { return messages[id & 3].name; }
std::uint32_t number_of(std::uint32_t id) { return id >> 2; }

/* This host does nothing that it has not recorded: it ends. Another may go on, and say so. */
[[noreturn]] void give_up(const char *what) {
    std::perror(what);
    std::exit(1);
}

/* This host asks for nothing that no record and no burst can have: a refusal is a fault of its own. */
void require(const char *what, Refusal refusal) {
    if (refusal == Refusal::none)
        return;
    std::fprintf(stderr, "%s: %s\n", what, name(refusal));
    std::exit(1);
}

/* A file to write to, or none. */
class File {
public:
    explicit File(const char *path) : file_(path == nullptr ? nullptr : std::fopen(path, "wb")) {
        if (path != nullptr && file_ == nullptr)
            give_up(path);
    }
    File(const File &) = delete;
    File &operator=(const File &) = delete;

    ~File() {
        if (file_ != nullptr && (std::ferror(file_) != 0 || std::fclose(file_) != 0))
            give_up("at the end");
    }

    std::FILE *get() const { return file_; }

private:
    std::FILE *file_;
};

/* The probes of the channel, of which so many are busy. */
Words hear_channel(unsigned busy) {
    Words words{};
    for (unsigned k = 0; k < probes; k++)
        if (k * 7919 % probes < busy)
            words[k / 64] |= std::uint64_t{1} << k % 64;
    return words;
}

class Host {
public:
    Host(std::FILE *log, std::FILE *answers) : log_(log), answers_(answers) {
        Record call;
        record_call(write_make(call, profile, when_full, now_), call);
        presscurlew::Made made = Gate::make(profile, when_full, now_);
        require("the gate", made.refusal());
        gate_ = std::move(*made);
        note("READY");
    }

    void run() {
        for (unsigned t = 0; t < ticks; t++)
            step(t);
        sum_up();
        note("END");
    }

private:
    long long since_start_ms() const { return (now_ - start) / 1ms; }

    /* Records calls before they are made. Flushed, they outlive a crash of the host. */
    void record(const Record *records, std::size_t count) const {
        if (log_ == nullptr)
            return;
        if (std::fwrite(records, sizeof(Record), count, log_) != count || std::fflush(log_) != 0)
            give_up("the call log");
    }

    /* Records one call, by what its write_.. has answered and written. */
    void record_call(Outcome written, const Record &call) const {
        require("a record", written.refusal());
        record(&call, 1);
    }

    /* Notes the answer to a call, in the words of replay. */
    void note(const char *word) const {
        if (answers_ != nullptr)
            std::fprintf(answers_, "%s\n", word);
    }

    void note(const char *word, std::uint64_t number) const {
        if (answers_ != nullptr)
            std::fprintf(answers_, "%s %" PRIu64 "\n", word, number);
    }

    void note(Outcome outcome) const {
        if (outcome)
            note("TAKEN");
        else
            note("REFUSED", static_cast<std::uint8_t>(outcome.refusal()));
    }

    void sample(unsigned busy) {
        const std::uint32_t level = gate_.level();
        const Words words = hear_channel(busy);
        Record call;
        record_call(write_sample_words(call, probes, words.data(), words.size(), now_), call);
        note(gate_.sample_words(probes, words.data(), words.size(), now_));
        /* The wait may be another one now, so the next poll is not put off any longer. */
        quiet_until_ = now_;
        if (gate_.level() != level)
            std::printf("%5lld ms  level %" PRIu32 "\n", since_start_ms(), gate_.level());
    }

    /* Makes a message ready to be offered. There is room for all that comes in a tick. */
    void prepare(Kind kind) {
        const Message &message = messages[kind];
        const std::uint32_t id = offered_++ << 2 | kind;
        records_[ready_] = Offer{id, message.priority, message.on_time, message.lifetime}.record(now_);
        ids_[ready_++] = id;
    }

    /* Offers all that is ready in one call. Its records are those of the log. */
    void offer_burst() {
        std::array<Outcome, most_ready> answers;
        record(records_.data(), ready_);
        require("a burst", gate_.burst(records_.data(), ready_, answers.data(), answers.size()).refusal());
        for (unsigned i = 0; i < ready_; i++) {
            note(answers[i]);
            if (answers[i])
                continue;
            refused_++;
            std::printf("%5lld ms  %s %" PRIu32 " refused: %s\n", since_start_ms(), name_of(ids_[i]),
                        number_of(ids_[i]), name(answers[i].refusal()));
        }
        ready_ = 0;
    }

    /* Puts a packet on air. */
    void transmit(const Packet &packet) {
        const long long waited = (gate_.time() - packet.arrival) / 1ms;
        air_time_ += packet.on_time;
        note("SENT", packet.id);
        std::printf("%5lld ms  %s %" PRIu32 " sent, it waited %lld ms\n", since_start_ms(), name_of(packet.id),
                    number_of(packet.id), waited);
    }

    void poll() {
        Record call;
        record_call(write_poll(call, now_), call);
        const Answer answer = gate_.poll(now_);
        if (const auto packet = answer.packet()) {
            transmit(*packet);
        } else if (const auto wait = answer.closed_for()) {
            note("CLOSED", static_cast<std::uint64_t>(wait->count()));
            quiet_until_ = now_ + *wait;
        } else if (answer.kind() == Answer::Kind::idle) {
            note("IDLE");
        } else {
            note("REFUSED", static_cast<std::uint8_t>(answer.refusal()));
            std::printf("%5lld ms  poll refused: %s\n", since_start_ms(), name(answer.refusal()));
        }
    }

    /* Whether a moment has come; on a clock that wraps, only differences tell. */
    bool has_come(Stamp moment) const { return now_ - moment <= presscurlew::most_step; }

    void step(unsigned t) {
        if (t % 10 == 0)
            sample(t < 150 ? 2500 : t < 250 ? 8750 : 1250);
        if (t % 50 == 2)
            prepare(warning);
        if (t % 20 == 1)
            prepare(status);
        if (t == 155)
            for (int piece = 0; piece < 6; piece++)
                prepare(map);
        if (ready_ > 0)
            offer_burst();
        if (has_come(silent_until_) && has_come(quiet_until_))
            poll();
        now_ = now_ + tick;
    }

    /* What the host has counted, and what the gate has: accepted is sent, expired, displaced and waiting together. */
    void sum_up() const {
        const presscurlew::Counts counts = gate_.counts();
        std::printf("%" PRIu32 " offered, %" PRIu32 " refused; %lld us on air\n", offered_, refused_,
                    static_cast<long long>(air_time_ / 1us));
        std::printf("%" PRIu64 " accepted: %" PRIu64 " sent, %" PRIu64 " expired, ", counts.accepted, counts.sent,
                    counts.expired);
        std::printf("%" PRIu64 " displaced, %" PRIu32 " waiting\n", counts.displaced, gate_.waiting());
    }

    /* The most messages that come in a tick: a warning, a status and six pieces of the map. */
    static constexpr unsigned most_ready = 8;

    Gate gate_;
    Stamp now_ = start;                                 /* the radio's clock */
    Stamp silent_until_ = start + presscurlew::silence; /* no poll before: a run before this one may have sent */
    Stamp quiet_until_ = start;                         /* no use to poll before: the gate is closed */
    unsigned ready_ = 0;                                /* so many messages are to be offered next: */
    std::array<Record, most_ready> records_{};
    std::array<std::uint32_t, most_ready> ids_{};
    std::uint32_t offered_ = 0, refused_ = 0;
    microseconds air_time_{0};
    std::FILE *log_;     /* the calls; null if they are not recorded */
    std::FILE *answers_; /* what they were answered; null if it is not written */
};

} // namespace

int main(int argc, char **argv) {
    const File log(argc > 1 ? argv[1] : nullptr), answers(argc > 2 ? argv[2] : nullptr);
    Host(log.get(), answers.get()).run();
    return 0;
}
