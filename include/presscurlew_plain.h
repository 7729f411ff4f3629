/**
 * @file
 * Presscurlew's plain engine: the gate once more, with one list of packets in order of arrival in place of four queues.
 *
 * It is for tests and for the safety assessor, who reads one list and not four queues. A host keeps to the gate of
 * presscurlew.h, which takes less time. Link libpresscurlew_plain.a (presscurlew-plain for pkg-config,
 * presscurlew::plain for CMake), or libplainhost.a, which is the same; it needs none of the other archives.
 *
 * That both are one gate is proved: from makes with the same numbers, or from any sound list and the queues that are
 * its parts, the same calls and bursts get the same answers at every step, whatever they are: refusals, displacement,
 * counts and the numbers of CLOSED among them. After each call clock, ledger, last admission, counts, last loads and
 * what samples steer are the same, and the list parted by priority is the queues.
 *
 * So each call here is as the call without `plain_` in presscurlew.h says. It takes the same numbers, and gives the
 * same kinds of answers and the same refusals. But the state is another, and goes by value: a call is a pure function,
 * which takes a state and hands back the next one with the answer.
 *
 *     presscurlew_gate gate;
 *     presscurlew_reply reply =
 *         presscurlew_make(&gate, PRESSCURLEW_PROFILE_REACTIVE_A1, PRESSCURLEW_DROP_OLDEST, NULL, stamp);
 *     presscurlew_plain_turn plain = presscurlew_plain_make(PRESSCURLEW_PROFILE_REACTIVE_A1, PRESSCURLEW_DROP_OLDEST,
 *                                                           presscurlew_plain_no_list(), stamp);
 *     ...
 *     reply = presscurlew_poll(&gate, stamp);
 *     plain = presscurlew_plain_poll(plain.state, stamp);
 *     if (reply.kind != plain.reply.kind || reply.number != plain.reply.number)
 *         ...                          one of the archives is not what was proved, or one of the states was changed
 */
#ifndef PRESSCURLEW_PLAIN_H
#define PRESSCURLEW_PLAIN_H

#include "presscurlew.h" /* which refuses a big-endian processor, for this engine too */

#ifdef __cplusplus
extern "C" {
#endif

/**
 * @defgroup plain The plain engine
 *
 * The gate with one list of packets, for tests and for the assessor: presscurlew_plain.h.
 *
 * @{
 */
/** The number of the layout below, as PRESSCURLEW_LAYOUT is that of presscurlew.h. */
#define PRESSCURLEW_PLAIN_LAYOUT 3524407202u
/** The list has room for so many packets, of all priorities. */
#define PRESSCURLEW_PLAIN_MOST_WAITING (PRESSCURLEW_PRIORITIES * PRESSCURLEW_MOST_WAITING)

/**
 * The layout of the archive.
 *
 * @return its PRESSCURLEW_PLAIN_LAYOUT
 */
PRESSCURLEW_NODISCARD
uint32_t presscurlew_plain_layout(void);

/**
 * The packets that wait, of all priorities. The list is sound if it holds at most 20, at most 5 of them of one
 * priority, each within the limits that are named at presscurlew_packet, arrivals do not decrease over the whole of it,
 * and what is unused is zero. Packets that came at the same time stand in the order of coming.
 */
typedef struct presscurlew_plain_line {
    uint64_t len; /**< how many wait, 0 to 20 */
    /** The first len wait, in order of arrival; the others are all zero. */
    presscurlew_packet packets[PRESSCURLEW_PLAIN_MOST_WAITING];
} presscurlew_plain_line;

/** The ledger, as presscurlew_gate has it. */
typedef struct presscurlew_plain_ledger {
    uint64_t len;                                /**< how many admissions it holds, 0 to 40 */
    uint32_t slots[PRESSCURLEW_MOST_ADMISSIONS]; /**< the first len are their words, the oldest first; the others 0 */
} presscurlew_plain_ledger;

/** The loads of the last samples that were taken, in profile 5; in the state of any other profile all fields are 0. */
typedef struct presscurlew_plain_loads {
    uint64_t len; /**< how many it holds, 0 to 50 */
    /** The first len are the loads, the oldest first, each at most 1,000,000; the others are 0. */
    uint32_t slots[PRESSCURLEW_MOST_LOADS];
} presscurlew_plain_loads;

/** Profile 5's list of levels, good by the rules of presscurlew_levels; in the state of any other profile all is 0. */
typedef struct presscurlew_plain_levels {
    uint64_t len;                                 /**< how many levels there are above level 0: 1 to 8 */
    uint32_t base_wait;                           /**< the wait of level 0, in us */
    uint32_t thresholds[PRESSCURLEW_MOST_LEVELS]; /**< the thresholds of levels 1 to len, as loads */
    uint32_t waits[PRESSCURLEW_MOST_LEVELS];      /**< their waits, in us */
} presscurlew_plain_levels;

/** The running time, and the stamp that it was reached with. */
typedef struct presscurlew_plain_clock {
    uint64_t time;  /**< since make; at most 10^15 */
    uint32_t stamp; /**< of the last call that was not refused: any number */
} presscurlew_plain_clock;

/** The last admission, however long ago. Before the first one all fields are 0. */
typedef struct presscurlew_plain_last {
    uint64_t at;       /**< the running time at which it was made; at most the running time */
    uint32_t ontime;   /**< the on-time of its packet */
    uint32_t admitted; /**< 1 once something was admitted, else 0 */
} presscurlew_plain_last;

/** What the engine has counted since make: they add up, as those of presscurlew_gate do. */
typedef struct presscurlew_plain_counts {
    uint64_t accepted;  /**< offers that were TAKEN; at most 10^15 */
    uint64_t sent;      /**< packets that were SENT */
    uint64_t expired;   /**< packets that were removed as expired */
    uint64_t displaced; /**< packets that were dropped for a newer one */
} presscurlew_plain_counts;

/** What samples steer, as in presscurlew_gate. */
typedef struct presscurlew_plain_tuning {
    uint32_t level;    /**< 0 to 4; in profile 5, 0 to the list's len */
    uint32_t duty;     /**< 600,000 to 30,000,000 */
    uint32_t smoothed; /**< the smoothed load, at most 1,000,000 */
    uint32_t kept;     /**< profile 3: the first load of a pair, at most 1,000,000; 0 if none is kept */
    uint32_t pairing;  /**< 1 while a sample is kept, else 0 */
    uint32_t latest;   /**< profile 4: the load of the latest sample, at most 1,000,000, 0 before any; else 0 */
} presscurlew_plain_tuning;

/**
 * The state of one engine: 1,048 bytes. But for the list it says what a presscurlew_gate says, and is sound by the same
 * rules; in the sum of the counts the packets that wait are those of the list. Padding bytes are not looked at.
 */
typedef struct presscurlew_plain_state {
    presscurlew_plain_line line;     /**< the packets that wait */
    presscurlew_plain_ledger ledger; /**< the admissions of the last second */
    presscurlew_plain_loads loads;   /**< profile 5: the last loads */
    presscurlew_plain_levels levels; /**< profile 5: its list, as it was made; no call changes it */
    presscurlew_plain_clock clock;   /**< the running time */
    presscurlew_plain_last last;     /**< the last admission */
    presscurlew_plain_counts counts; /**< what was counted */
    presscurlew_plain_tuning tuning; /**< what samples steer */
    uint32_t profile;                /**< 1 to 5, an enum presscurlew_profile, as it was made; no call changes it */
    uint32_t when_full;              /**< 0 or 1, an enum presscurlew_when_full, as it was made; no call changes it */
    uint32_t live;                   /**< 1; 0 in the all-zero state that a refused make hands back */
} presscurlew_plain_state;

/** What a call hands back. */
typedef struct presscurlew_plain_turn {
    presscurlew_plain_state state; /**< to keep, and to hand to the next call */
    presscurlew_reply reply;       /**< the answer */
} presscurlew_plain_turn;

/** What a burst hands back. */
typedef struct presscurlew_plain_burst_turn {
    presscurlew_plain_state state; /**< to keep, and to hand to the next call */
    uint32_t number;               /**< 0, PRESSCURLEW_TORN_LOG or PRESSCURLEW_NO_ROOM; of the burst, not of a record */
} presscurlew_plain_burst_turn;

/**
 * A fresh state, as by presscurlew_make; with a refusal the all-zero one.
 *
 * @param profile   an enum presscurlew_profile
 * @param when_full an enum presscurlew_when_full
 * @param list      profile 5's list of levels
 * @param stamp     the radio's clock now
 * @return the state and the answer
 */
PRESSCURLEW_NODISCARD
presscurlew_plain_turn presscurlew_plain_make(uint32_t profile, uint32_t when_full, presscurlew_plain_levels list,
                                              uint32_t stamp);

/**
 * No list of levels, for profiles 1 to 4.
 *
 * @return a list that profile 5 refuses with BAD_LIST
 */
static inline presscurlew_plain_levels presscurlew_plain_no_list(void) {
    presscurlew_plain_levels none = {0, 0, {0}, {0}};

    return none;
}

/**
 * A sample of the channel by words, as by presscurlew_sample_words.
 *
 * @param state  the state
 * @param probes 1 to 12,500
 * @param words  points to `count` words, which are only read; with count 0 it may be NULL
 * @param count  PRESSCURLEW_WORDS(probes)
 * @param stamp  the radio's clock now
 * @return the next state and the answer
 */
PRESSCURLEW_NODISCARD
presscurlew_plain_turn presscurlew_plain_sample_words(presscurlew_plain_state state, uint32_t probes,
                                                      const uint64_t *words, size_t count, uint32_t stamp);

/**
 * The same by its busy count, as by presscurlew_sample_count.
 *
 * @param state  the state
 * @param busy   how many of the probes found the channel busy
 * @param probes 1 to 12,500
 * @param stamp  the radio's clock now
 * @return the next state and the answer
 */
PRESSCURLEW_NODISCARD
presscurlew_plain_turn presscurlew_plain_sample_count(presscurlew_plain_state state, uint32_t busy, uint32_t probes,
                                                      uint32_t stamp);

/**
 * A packet to send, as by presscurlew_offer: it joins the end of the list. Where 5 of its priority wait still, the
 * first of these leaves for it, or the offer is refused, as the engine was made.
 *
 * @param state    the state
 * @param id       the host's own name for the packet
 * @param priority 0 (highest) to 3
 * @param ontime   its time on air in us
 * @param lifetime how long it may wait, in us
 * @param stamp    the radio's clock now
 * @return the next state and the answer
 */
PRESSCURLEW_NODISCARD
presscurlew_plain_turn presscurlew_plain_offer(presscurlew_plain_state state, uint32_t id, uint32_t priority,
                                               uint32_t ontime, uint32_t lifetime, uint32_t stamp);

/**
 * Whether a packet may go, and which, as by presscurlew_poll: of the lowest priority number in the list, the first.
 *
 * @param state the state
 * @param stamp the radio's clock now
 * @return the next state and the answer
 */
PRESSCURLEW_NODISCARD
presscurlew_plain_turn presscurlew_plain_poll(presscurlew_plain_state state, uint32_t stamp);

/**
 * Many offers in one call, as by presscurlew_burst.
 *
 * @param      state   the state
 * @param      records points to `bytes` bytes, which are only read
 * @param      bytes   16 for each record
 * @param[out] answers points to `room` bytes
 * @param      room    one for each record, or more
 * @return the next state and the number of the burst
 */
PRESSCURLEW_NODISCARD
presscurlew_plain_burst_turn presscurlew_plain_burst(presscurlew_plain_state state, const uint8_t *records,
                                                     size_t bytes, uint8_t *answers, size_t room);
/** @} */

/** @cond HELPERS */
/* The layout, as in presscurlew.h. */
#define PRESSCURLEW_SIZE(name, bytes) PRESSCURLEW_HELD(sizeof(presscurlew_##name) == (bytes))
#define PRESSCURLEW_FIELD(name, field, at) PRESSCURLEW_HELD(offsetof(presscurlew_##name, field) == (at))
PRESSCURLEW_SIZE(plain_ledger, 168);
PRESSCURLEW_FIELD(plain_ledger, len, 0);
PRESSCURLEW_FIELD(plain_ledger, slots, 8);
PRESSCURLEW_SIZE(plain_loads, 208);
PRESSCURLEW_FIELD(plain_loads, len, 0);
PRESSCURLEW_FIELD(plain_loads, slots, 8);
PRESSCURLEW_SIZE(plain_levels, 80);
PRESSCURLEW_FIELD(plain_levels, len, 0);
PRESSCURLEW_FIELD(plain_levels, base_wait, 8);
PRESSCURLEW_FIELD(plain_levels, thresholds, 12);
PRESSCURLEW_FIELD(plain_levels, waits, 44);
PRESSCURLEW_SIZE(plain_clock, 16);
PRESSCURLEW_FIELD(plain_clock, time, 0);
PRESSCURLEW_FIELD(plain_clock, stamp, 8);
PRESSCURLEW_SIZE(plain_last, 16);
PRESSCURLEW_FIELD(plain_last, at, 0);
PRESSCURLEW_FIELD(plain_last, ontime, 8);
PRESSCURLEW_FIELD(plain_last, admitted, 12);
PRESSCURLEW_SIZE(plain_counts, 32);
PRESSCURLEW_FIELD(plain_counts, accepted, 0);
PRESSCURLEW_FIELD(plain_counts, sent, 8);
PRESSCURLEW_FIELD(plain_counts, expired, 16);
PRESSCURLEW_FIELD(plain_counts, displaced, 24);
PRESSCURLEW_SIZE(plain_tuning, 24);
PRESSCURLEW_FIELD(plain_tuning, level, 0);
PRESSCURLEW_FIELD(plain_tuning, duty, 4);
PRESSCURLEW_FIELD(plain_tuning, smoothed, 8);
PRESSCURLEW_FIELD(plain_tuning, kept, 12);
PRESSCURLEW_FIELD(plain_tuning, pairing, 16);
PRESSCURLEW_FIELD(plain_tuning, latest, 20);
PRESSCURLEW_SIZE(plain_line, 488);
PRESSCURLEW_FIELD(plain_line, len, 0);
PRESSCURLEW_FIELD(plain_line, packets, 8);
PRESSCURLEW_SIZE(plain_state, 1048);
PRESSCURLEW_FIELD(plain_state, line, 0);
PRESSCURLEW_FIELD(plain_state, ledger, 488);
PRESSCURLEW_FIELD(plain_state, loads, 656);
PRESSCURLEW_FIELD(plain_state, levels, 864);
PRESSCURLEW_FIELD(plain_state, clock, 944);
PRESSCURLEW_FIELD(plain_state, last, 960);
PRESSCURLEW_FIELD(plain_state, counts, 976);
PRESSCURLEW_FIELD(plain_state, tuning, 1008);
PRESSCURLEW_FIELD(plain_state, profile, 1032);
PRESSCURLEW_FIELD(plain_state, when_full, 1036);
PRESSCURLEW_FIELD(plain_state, live, 1040);
PRESSCURLEW_SIZE(plain_turn, 1088);
PRESSCURLEW_FIELD(plain_turn, state, 0);
PRESSCURLEW_FIELD(plain_turn, reply, 1048);
PRESSCURLEW_SIZE(plain_burst_turn, 1056);
PRESSCURLEW_FIELD(plain_burst_turn, state, 0);
PRESSCURLEW_FIELD(plain_burst_turn, number, 1048);
#undef PRESSCURLEW_SIZE
#undef PRESSCURLEW_FIELD
/** @endcond */

#ifdef __cplusplus
}
#endif

#endif
