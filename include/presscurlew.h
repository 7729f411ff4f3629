/**
 * @mainpage Presscurlew
 *
 * A transmit gate for a shared 5.9 GHz radio channel, for radio stacks in C, C++ and Rust. It takes samples of the
 * channel and packets, and says when a packet may go.
 *
 * - presscurlew.h is the gate for C11, and for C++11 as it stands; with it its log, and its rules on plain numbers.
 * - presscurlew.hpp is the same gate as a class, for C++17.
 * - presscurlew_plain.h has the gate once more, written to be read and not for speed: for tests and the assessor.
 *
 * Link libpresscurlew.a; pkg-config and CMake know it as presscurlew. It gathers four archives, which can be linked
 * each for itself:
 *
 *     the gate    make, sample, offer and poll on a gate that the host keeps, and their log   libhost.a
 *     the burst   many offers on such a gate in one call                                      libcalllog.a
 *     the rules   the gate's rules on plain numbers, for a stack that has a gate of its own   libcstack.a
 *     in doubles  profile 3's update in floating point, for simulations                       libfloats.a
 *
 * They are for x86-64 Linux (System V calling convention). For ARM and RISC-V the release has libpresscurlew.a, and
 * the second engine's archive, in the folder of each target below lib; docs/BOARDS.md says how they are made, and what
 * is then assumed besides.
 *
 * Each call is proved to answer what its comment says, for any numbers and any gate at all: nothing is undefined and
 * nothing aborts. A call changes what is behind the pointers that it writes through, as its comment says, and nothing
 * else; it keeps nothing, allocates nothing and takes no lock. So any number of threads, and interrupt handlers, may
 * call at once, as long as each gate is in one call at a time.
 *
 * One precondition, of the calls that take pointers, and no other: behind each pointer stands what it points to, a
 * gate, a list, or as many bytes or words as the count beside it says; and what a call writes overlaps with nothing
 * else that it is given. So a list, words, records and answers do not lie inside the gate, nor answers in the records.
 * No call can test that, and the proofs say nothing of a call that breaks it.
 *
 * What it takes, as found by trying many states (docs/INTEGRATING.md has the figures; they are no bounds): up to some
 * 2,400 instructions a call, 3,800 for a sample of 196 words and 12,000 for a burst of 20 offers; up to 0.9 kB of stack
 * below the caller, who holds a gate of 952 bytes. The archive has 26 kB and no variables, and needs memmove and
 * memset.
 *
 * Units:
 *
 *     time      microseconds (us)
 *     stamp     the radio's own 32-bit count of microseconds, which starts anywhere and wraps
 *     probes    looks at the channel in one sample              1 to 12,500
 *     load      channel busy ratio, parts per 1,000,000         0 to 1,000,000
 *     duty      share of time on air, parts per 1,000,000,000   600,000 to 30,000,000
 *     level     0 Relaxed, 1 Active 1, 2 Active 2, 3 Active 3, 4 Restrictive; in profile 5 one of its list, 0 to 8
 *     on-time   time on air of one packet, microseconds         1 to the longest that the profile allows
 *     lifetime  how long a packet may wait, microseconds        1 to 60,000,000
 *     priority  0 (highest) to 3
 *
 * The floating update alone takes load and duty as fractions of 1. presscurlew_profile has the profiles, and
 * @ref limits has each limit by name.
 *
 * What the profiles have in common: after an admission a gate is closed for at least 25,000 us and at most 1,000,000 us
 * and the longest on-time, and in any 1,000,000 us it admits at most 30,000 us of on-time. All but profile 4 admit
 * on-time for at most 3 % of any stretch of time and 4,000 us more; of profile 4 that is not claimed.
 */
/**
 * @file
 * The gate, its log and its rules, for radio stacks in C and C++.
 */
#ifndef PRESSCURLEW_H
#define PRESSCURLEW_H

#include <stddef.h>
#include <stdint.h>

/*
 * The proved code is compiled for a little-endian processor: it may look for a part of a number where such a one has
 * it. So on a big-endian one an archive could answer wrongly without a sign, and there is none for it.
 */
#if defined(__BYTE_ORDER__) && __BYTE_ORDER__ != __ORDER_LITTLE_ENDIAN__
#error "presscurlew is for little-endian processors: see docs/BOARDS.md"
#endif

#ifdef __cplusplus
#if __cplusplus < 201103L
#error "presscurlew.h needs C++11 or later"
#endif
#elif !defined(__STDC_VERSION__) || __STDC_VERSION__ < 201112L
#error "presscurlew.h needs C11 or later"
#endif
#ifndef UINT8_MAX
#error "presscurlew.h is for bytes of 8 bits"
#endif
#if defined(_WIN32) || (defined(__x86_64__) && defined(__ILP32__))
#error "presscurlew.h: no archive has this calling convention"
#elif !(defined(__x86_64__) || defined(__aarch64__) || defined(__arm__) || (defined(__riscv) && __riscv_xlen == 64))
#error "presscurlew.h: no archive is made for this processor"
#endif

/** @cond HELPERS */
/* An answer that is dropped is a warning: a refusal would go by unseen, or a packet that is to be sent. */
#if (defined(__cplusplus) && __cplusplus >= 201703L) || (defined(__STDC_VERSION__) && __STDC_VERSION__ >= 202311L)
#define PRESSCURLEW_NODISCARD [[nodiscard]]
#elif defined(__GNUC__)
#define PRESSCURLEW_NODISCARD __attribute__((warn_unused_result))
#else
#define PRESSCURLEW_NODISCARD
#endif
/** @endcond */

#ifdef __cplusplus
extern "C" {
#endif

/**
 * @defgroup edition The edition
 *
 * The version, and the number of the layout: a check sum of the sizes and offsets of all structs and of the types of
 * all calls below, which is another one whenever any of these is. A host that is compiled with one header and linked
 * with the archive of another layout would read the gate's bytes for what they are not. So it asks once, as it starts:
 *
 *     if (presscurlew_layout() != PRESSCURLEW_LAYOUT)
 *         stop("libpresscurlew.a is not of this presscurlew.h");
 *
 * @{
 */
/** The version. */
#define PRESSCURLEW_VERSION "0.11.0"
/** The version as a number: a million for each major and a thousand for each minor number. */
#define PRESSCURLEW_VERSION_NUMBER 11000u
/** The number of the layout. */
#define PRESSCURLEW_LAYOUT 2252050035u

/**
 * The version of the archive.
 *
 * @return its PRESSCURLEW_VERSION_NUMBER
 */
PRESSCURLEW_NODISCARD
uint32_t presscurlew_version(void);

/**
 * The layout of the archive.
 *
 * @return its PRESSCURLEW_LAYOUT
 */
PRESSCURLEW_NODISCARD
uint32_t presscurlew_layout(void);

/** @} */

/**
 * @defgroup limits Limits
 *
 * Every limit that a host meets, by name. What is called MOST or LEAST is itself allowed.
 *
 * @{
 */
/** Priorities are 0 (highest) to 3: so many there are, and so many queues. */
#define PRESSCURLEW_PRIORITIES 4
/** So many packets wait in a queue; with five in each of four queues, 20 in all. */
#define PRESSCURLEW_MOST_WAITING 5
/** The longest on-time of any profile; presscurlew_most_on_time says what a profile allows. */
#define PRESSCURLEW_MOST_ON_TIME_US 4000
/** The longest lifetime of a packet: a minute. */
#define PRESSCURLEW_MOST_LIFETIME_US 60000000
/** The most probes of a sample. */
#define PRESSCURLEW_MOST_PROBES 12500
/** The most words of a sample, those of so many probes. */
#define PRESSCURLEW_MOST_WORDS 196
/**
 * The words of a sample of so many probes: just as many as they need, 64 in a word. It is the size of an array, too:
 * uint64_t words[PRESSCURLEW_WORDS(1000)].
 *
 * @param probes 1 to PRESSCURLEW_MOST_PROBES
 */
#define PRESSCURLEW_WORDS(probes) (((probes) + 63) / 64)
/** The highest load: a channel that is always busy. It is the highest threshold of a level, too. */
#define PRESSCURLEW_MOST_LOAD 1000000
/** The highest level of profiles 1 and 2. */
#define PRESSCURLEW_MOST_LEVEL 4
/** Profile 5: the most levels above level 0. The least is 1. */
#define PRESSCURLEW_MOST_LEVELS 8
/** Profile 5: the shortest wait of a level. */
#define PRESSCURLEW_LEAST_LEVEL_WAIT_US 40000
/** Profile 5: the longest wait of a level. */
#define PRESSCURLEW_MOST_LEVEL_WAIT_US 1000000
/** Profile 5: so many loads are kept. */
#define PRESSCURLEW_MOST_LOADS 50
/** The lowest duty, which a fresh gate has. */
#define PRESSCURLEW_LEAST_DUTY 600000
/** The highest duty. */
#define PRESSCURLEW_MOST_DUTY 30000000
/** After presscurlew_make the host is silent so long: its first poll comes then, or later. */
#define PRESSCURLEW_SILENCE_US 1000000
/** The clock moves so far at most from call to call, some 35 minutes: 2^31 us and more are a clock that went back. */
#define PRESSCURLEW_MOST_STEP_US 2147483647
/** The running time ends here, after some 31 years. */
#define PRESSCURLEW_MOST_TIME_US UINT64_C(1000000000000000)
/** A gate accepts so many offers, and then is spent. */
#define PRESSCURLEW_MOST_OFFERS UINT64_C(1000000000000000)
/** The longest time that CLOSED has, in any profile. */
#define PRESSCURLEW_MOST_CLOSED_US 1004000
/** Two admissions of a gate are so far apart, or farther. */
#define PRESSCURLEW_LEAST_GAP_US 25000
/** The on-time that a gate admits in any 1,000,000 us, wherever they begin, is so much at most. */
#define PRESSCURLEW_MOST_AIR_US 30000
/** So many admissions the ledger has room for, those of a second. */
#define PRESSCURLEW_MOST_ADMISSIONS 40
/** A record, of a burst or of the log, has so many bytes. */
#define PRESSCURLEW_RECORD_BYTES 16
/** The first byte of a record is its kind; this is the kind of an offer. */
#define PRESSCURLEW_RECORD_OFFER 2
/** @} */

/**
 * @defgroup gate The gate
 *
 * The host keeps a presscurlew_gate for each channel. It lends it to each call, which changes it in place and answers:
 *
 *     static presscurlew_gate gate;
 *     presscurlew_reply reply = presscurlew_make(&gate, PRESSCURLEW_PROFILE_REACTIVE_A1, PRESSCURLEW_DROP_OLDEST,
 *                                                NULL, radio_clock());
 *     ...                                  no poll for PRESSCURLEW_SILENCE_US
 *     reply = presscurlew_offer(&gate, id, priority, ontime, lifetime, radio_clock());
 *     if (reply.kind == PRESSCURLEW_REFUSED)
 *         report(reply.number);
 *     ...
 *     reply = presscurlew_poll(&gate, radio_clock());
 *     if (reply.kind == PRESSCURLEW_SENT)
 *         transmit(reply.packet.id);
 *
 * What the host does:
 *
 * - It makes a gate before any other call on it, and after that changes none of its fields. It may read them at any
 *   time, and copy, store and move a gate as any struct. But it goes on with one copy: calls on two copies are two
 *   gates, and each admits for itself.
 * - It uses a gate in one thread at a time, and reads no field while another thread is in a call on it.
 * - After presscurlew_make it waits: the first poll comes 1,000,000 us or more after the make (samples and offers may
 *   come before). A fresh gate knows nothing of what was sent before it, so without this second a host that restarts
 *   may send more than the figures above allow; with it they hold across any number of restarts, whatever the
 *   profiles (proved: crates/label, restarts_keep and waiting_restarts). Only a host that goes on with its stored
 *   gate, the very one that its last call left, on a clock that has run on for less than 35 minutes, makes nothing
 *   and need not wait. presscurlew_is_sound says whether what it has read back can be a gate.
 * - It sends a packet when, and only when, a poll answers SENT, and each one once.
 * - It reads stamps from one clock, and calls often enough that the clock moves by at most PRESSCURLEW_MOST_STEP_US
 *   (some 35 minutes) from one call to the next; a longer step looks like a clock that went back. A step of 0 is good.
 * - It polls when it offers, and when the us that CLOSED named have passed; samples may change that
 *   time. A packet's place is free again after the first offer or poll that finds it expired.
 * - It samples the channel as its standard says; whether 100 ms passed between samples is not judged.
 *
 * Any gate at all is answered. One that no call left is refused with NO_STATE unless it is sound: live is 1, every
 * field lies within the limits that are named at it, the counts add up, and everything unused is zero.
 *
 * @{
 */

/** The profiles: by which standard a gate waits, and which on-times it allows. Every call takes the number. */
enum presscurlew_profile {
    PRESSCURLEW_PROFILE_REACTIVE_A1 = 1,  /**< reactive, ETSI TS 102 687 V1.2.1, Table A.1; on-time 1 to 1,000 */
    PRESSCURLEW_PROFILE_REACTIVE_A2 = 2,  /**< reactive, ETSI TS 102 687 V1.2.1, Table A.2; on-time 1 to 500 */
    PRESSCURLEW_PROFILE_ADAPTIVE = 3,     /**< adaptive, ETSI TS 102 687 V1.2.1, clause 5.4; on-time 1 to 4,000 */
    PRESSCURLEW_PROFILE_HARMONISED = 4,   /**< harmonised, ETSI EN 302 571, clause 4.2.10; on-time 1 to 4,000 */
    PRESSCURLEW_PROFILE_FIRST_EDITION = 5 /**< by a list of levels that the host gives, ETSI TS 102 687 V1.1.1,
                                               clause 6.4; on-time 1 to 1,000 */
};

/**
 * The longest on-time that a profile allows.
 *
 * @param profile an enum presscurlew_profile
 * @return it in us; 0 for a number that is no profile
 */
static inline uint32_t presscurlew_most_on_time(uint32_t profile) {
    switch (profile) {
    case PRESSCURLEW_PROFILE_REACTIVE_A2: return 500;
    case PRESSCURLEW_PROFILE_REACTIVE_A1:
    case PRESSCURLEW_PROFILE_FIRST_EDITION: return 1000;
    case PRESSCURLEW_PROFILE_ADAPTIVE:
    case PRESSCURLEW_PROFILE_HARMONISED: return PRESSCURLEW_MOST_ON_TIME_US;
    default: return 0;
    }
}

/**
 * The refusal numbers of the gate. A call tests 9, 2 and 3, then 4, or 5 to 8 and 11, as they apply; the first
 * that holds is the answer. A refused call changes nothing of the gate, clock and counts included; only a refused make
 * writes it, and leaves the all-zero gate. A burst tests 13, then 12, and then goes record by record. What the calls
 * that write the log refuse stands with them.
 */
enum presscurlew_refusal {
    PRESSCURLEW_BAD_PROFILE = 1,  /**< make: the profile is not 1 to 5, or when_full is above 1 */
    PRESSCURLEW_CLOCK_BACK = 2,   /**< from the last stamp to this one, modulo 2^32, are 2,147,483,648 us or more */
    PRESSCURLEW_CLOCK_END = 3,    /**< the running time would pass 10^15 us, some 31 years */
    PRESSCURLEW_BAD_SAMPLE = 4,   /**< not 1 to 12,500 probes, not just enough words, a stray bit, or busy above
                                       probes */
    PRESSCURLEW_BAD_PRIORITY = 5, /**< the priority is above 3 */
    PRESSCURLEW_BAD_ON_TIME = 6,  /**< the profile does not allow this on-time */
    PRESSCURLEW_BAD_LIFETIME = 7, /**< the lifetime is 0 or above 60,000,000 */
    PRESSCURLEW_QUEUE_FULL = 8,   /**< 5 unexpired packets of this priority wait, in a gate of REFUSE_NEW */
    PRESSCURLEW_NO_STATE = 9,     /**< the gate is not sound: it was not made, or make was refused, or it was changed */
    PRESSCURLEW_BAD_KIND = 10,    /**< burst, as the answer to one record: its kind is not 2 */
    PRESSCURLEW_SPENT = 11,       /**< the gate has accepted 10^15 offers */
    PRESSCURLEW_NO_ROOM = 12,     /**< burst: fewer answer bytes than records; log: no 16 bytes at that place */
    PRESSCURLEW_TORN_LOG = 13,    /**< burst: the bytes of the records are not a multiple of 16 */
    PRESSCURLEW_BAD_LIST = 15     /**< make, profile 5 alone: the list of levels breaks a rule; tested after 1 */
};

/**
 * The name of such a number, as "QUEUE-FULL".
 *
 * @param number an enum presscurlew_refusal, or 0
 * @return its name; "ACCEPTED" for 0, and "unknown" for what is none of them
 */
static inline const char *presscurlew_refusal_name(uint64_t number) {
    switch (number) {
    case 0: return "ACCEPTED";
    case PRESSCURLEW_BAD_PROFILE: return "BAD-PROFILE";
    case PRESSCURLEW_CLOCK_BACK: return "CLOCK-BACK";
    case PRESSCURLEW_CLOCK_END: return "CLOCK-END";
    case PRESSCURLEW_BAD_SAMPLE: return "BAD-SAMPLE";
    case PRESSCURLEW_BAD_PRIORITY: return "BAD-PRIORITY";
    case PRESSCURLEW_BAD_ON_TIME: return "BAD-ON-TIME";
    case PRESSCURLEW_BAD_LIFETIME: return "BAD-LIFETIME";
    case PRESSCURLEW_QUEUE_FULL: return "QUEUE-FULL";
    case PRESSCURLEW_NO_STATE: return "NO-STATE";
    case PRESSCURLEW_BAD_KIND: return "BAD-KIND";
    case PRESSCURLEW_SPENT: return "SPENT";
    case PRESSCURLEW_NO_ROOM: return "NO-ROOM";
    case PRESSCURLEW_TORN_LOG: return "TORN-LOG";
    case PRESSCURLEW_BAD_LIST: return "BAD-LIST";
    default: return "unknown";
    }
}

/** A packet, as a poll that answers SENT hands it out. */
typedef struct presscurlew_packet {
    uint32_t id;       /**< the host's own name for it: any number, repeats allowed */
    uint32_t priority; /**< 0 to 3 */
    uint32_t ontime;   /**< 1 to the longest that the profile allows */
    uint32_t lifetime; /**< 1 to 60,000,000; it is expired once it has waited so long */
    uint64_t arrival;  /**< the running time at which it was offered; at most the running time */
} presscurlew_packet;

/** A packet that waits, in the queue of its priority. A place that is not used is all zero. */
typedef struct presscurlew_waiting {
    uint32_t id;       /**< the host's own name for it: any number, repeats allowed */
    uint32_t ontime;   /**< 1 to the longest that the profile allows */
    uint32_t lifetime; /**< 1 to 60,000,000; it is expired once it has waited so long */
} presscurlew_waiting;

/** The packets of one priority. */
typedef struct presscurlew_queue {
    uint32_t len; /**< how many wait, 0 to 5 */
    /** The first len wait, the oldest first; the others are all zero. */
    presscurlew_waiting packets[PRESSCURLEW_MOST_WAITING];
} presscurlew_queue;

/**
 * Profile 5's list of levels, which make is given. Level 0 has threshold 0 and the wait `base_wait`; level k, for k
 * from 1 to count, has threshold thresholds[k - 1] and wait waits[k - 1].
 *
 * A list is good if all of these hold, whether waits rise or fall from level to level; make refuses any other with
 * BAD_LIST:
 *
 * - count is 1 to 8;
 * - the wait of each level, that of level 0 too, is 40,000 to 1,000,000;
 * - the thresholds are at most 1,000,000 and rise strictly, from level 0's: the first is 1 or more.
 *
 * What a list that is handed to make has past its count is not looked at; in a gate it is 0.
 */
typedef struct presscurlew_levels {
    uint32_t count;                               /**< how many levels there are above level 0: 1 to 8 */
    uint32_t base_wait;                           /**< the wait of level 0, in us */
    uint32_t thresholds[PRESSCURLEW_MOST_LEVELS]; /**< the thresholds of levels 1 to count, as loads */
    uint32_t waits[PRESSCURLEW_MOST_LEVELS];      /**< their waits, in us */
} presscurlew_levels;

/** What a gate does with an offer that finds 5 unexpired packets of its priority; it is said when the gate is made. */
enum presscurlew_when_full {
    PRESSCURLEW_DROP_OLDEST = 0, /**< the front one leaves, is counted as displaced, and the new one joins: TAKEN */
    PRESSCURLEW_REFUSE_NEW = 1   /**< QUEUE_FULL: what was taken once is sent or expires, and is never displaced */
};

/**
 * A gate: 952 bytes without padding. The calls find all of it by its place, as it stands here; a host need not look
 * inside: presscurlew_get_time and its like say what it may want to show.
 *
 * The counts, to read at any time, add up:
 *
 *     accepted = sent + expired + displaced + the packets that wait
 *
 * The sum is that of whole numbers: counts that add up only modulo 2^64 are not sound. Which of them are 0 is not
 * judged: a gate of REFUSE_NEW with packets displaced is sound, though no call leads to one.
 *
 * The ledger is the admissions of the last second, in every profile. Room for 40 is enough, as no two admissions of one
 * gate are less than 25,000 us apart. Every call that is not refused, a sample too, drops those that have reached
 * 1,000,000 us of age, and a poll that answers SENT notes its packet; a refused call drops nothing. Each is one word:
 * how long before the last admission, that of last_at, it was made, times 4,096, and its on-time.
 *
 *     made at the running time   last_at - word / 4096
 *     on-time                    word % 4096
 *
 * The newest is the last admission, so that its word is its on-time.
 *
 * It is sound if no word says more than last_at before it, its admissions are in order of time with gaps of at least
 * 25,000 us, each at most the running time and less than 1,000,000 us before it, their on-times are allowed and sum to
 * at most 30,000, and the newest is the last admission; where nothing was admitted, or the last admission is
 * 1,000,000 us old or older, it is empty.
 */
typedef struct presscurlew_gate {
    uint64_t time;      /**< the running time: since make; at most 10^15 */
    uint64_t last_at;   /**< the last admission: the running time at which it was made; 0 before the first */
    uint64_t accepted;  /**< offers that were TAKEN; at most 10^15 */
    uint64_t sent;      /**< packets that were SENT */
    uint64_t expired;   /**< packets that were removed as expired at an offer or a poll; a sample removes none */
    uint64_t displaced; /**< packets that were dropped for a newer one; a gate of REFUSE_NEW drops none */
    /**
     * By queue and place: the running time at which the packet there was offered, at most the running time and not
     * before the packet in front of it; 0 where there is none.
     */
    uint64_t arrivals[PRESSCURLEW_PRIORITIES][PRESSCURLEW_MOST_WAITING];
    uint32_t stamp;       /**< of the last call that was not refused: any number */
    uint32_t last_ontime; /**< the last admission: the on-time of its packet; 0 before the first */
    uint32_t admitted;    /**< 1 once something was admitted, else 0 */
    uint32_t level;       /**< 0 to 4, and profiles 1 and 2 move it; profile 5 moves it too, 0 to level_count */
    uint32_t duty;        /**< 600,000 to 30,000,000; profile 3 moves it */
    uint32_t smoothed;    /**< the smoothed load, at most 1,000,000; profile 3 moves it */
    uint32_t kept;        /**< profile 3: the first load of a pair, at most 1,000,000; 0 if none is kept */
    uint32_t pairing;     /**< 1 while a sample is kept, else 0 */
    uint32_t latest;      /**< profile 4: load of the latest sample, at most 1,000,000, 0 before any; else 0 */
    uint32_t admissions;  /**< how many the ledger holds, 0 to 40 */
    uint32_t load_count;  /**< profile 5: how many loads are kept, 0 to 50; else 0 */
    uint32_t profile;     /**< 1 to 5, an enum presscurlew_profile, as it was made; no call changes it */
    uint32_t when_full;   /**< 0 or 1, an enum presscurlew_when_full, as it was made; no call changes it */
    uint32_t live;        /**< 1; 0 in the all-zero gate that a refused make leaves */
    uint32_t level_count; /**< profile 5: the count of its list, as it was made; else 0 */
    uint32_t base_wait;   /**< profile 5: the wait of level 0, as it was made; else 0 */
    /** By priority. */
    presscurlew_queue queues[PRESSCURLEW_PRIORITIES];
    /** The ledger: the first `admissions` are its words, the oldest first; the others 0. */
    uint32_t air[PRESSCURLEW_MOST_ADMISSIONS];
    /** The first load_count are the loads of the last samples, the oldest first, at most 1,000,000; the others 0. */
    uint32_t loads[PRESSCURLEW_MOST_LOADS];
    /** The first level_count are the thresholds of the list, as it was made; the others are 0. */
    uint32_t thresholds[PRESSCURLEW_MOST_LEVELS];
    /** The first level_count are the waits of the list, as it was made; the others are 0. */
    uint32_t waits[PRESSCURLEW_MOST_LEVELS];
} presscurlew_gate;

/** The kinds of answers. */
enum presscurlew_kind {
    PRESSCURLEW_READY = 0,  /**< make: the gate is fresh */
    PRESSCURLEW_TAKEN = 1,  /**< the sample or the packet was taken */
    PRESSCURLEW_SENT = 2,   /**< poll: `packet` has left its queue and goes on air now */
    PRESSCURLEW_IDLE = 3,   /**< poll: nothing waits */
    PRESSCURLEW_CLOSED = 4, /**< poll: the gate is closed for another `number` us */
    PRESSCURLEW_REFUSED = 5 /**< `number` is the refusal, an enum presscurlew_refusal */
};

/** The answer to a call. What its kind does not use is 0. */
typedef struct presscurlew_reply {
    presscurlew_packet packet; /**< SENT: the whole packet */
    uint64_t number;           /**< CLOSED: the us left, 1 to 1,004,000; REFUSED: the refusal, 1 to 9, 11 or 15 */
    uint32_t kind;             /**< an enum presscurlew_kind */
} presscurlew_reply;

/** @cond HELPERS */
/*
 * What the archives export of the gate: the calls below hand the parts of a gate on to these, and do nothing else. A
 * host calls those below. `wide` are the six numbers from `time` on, `narrow` the sixteen from `stamp` on.
 */
PRESSCURLEW_NODISCARD
presscurlew_reply presscurlew_gate_make(uint64_t *wide, uint32_t *narrow, uint32_t *queues, uint64_t *arrivals,
                                        uint32_t *air, uint32_t *loads, uint32_t *thresholds, uint32_t *waits,
                                        uint32_t profile, uint32_t when_full, uint32_t count, uint32_t base_wait,
                                        const uint32_t *list_thresholds, const uint32_t *list_waits, uint32_t stamp);

/* A sample by count (kind 1: a busy, b probes), an offer (2: id, priority, on-time, lifetime) or a poll (3). */
PRESSCURLEW_NODISCARD
presscurlew_reply presscurlew_gate_call(uint64_t *wide, uint32_t *narrow, uint32_t *queues, uint64_t *arrivals,
                                        uint32_t *air, uint32_t *loads, const uint32_t *thresholds,
                                        const uint32_t *waits, uint32_t kind, uint32_t a, uint32_t b, uint32_t c,
                                        uint32_t d, uint32_t stamp);

PRESSCURLEW_NODISCARD
uint32_t presscurlew_gate_burst(uint64_t *wide, uint32_t *narrow, uint32_t *queues, uint64_t *arrivals, uint32_t *air,
                                uint32_t *loads, const uint32_t *thresholds, const uint32_t *waits,
                                const uint8_t *records, size_t bytes, uint8_t *answers, size_t room);

PRESSCURLEW_NODISCARD
uint32_t presscurlew_gate_sound(const uint64_t *wide, const uint32_t *narrow, const uint32_t *queues,
                                const uint64_t *arrivals, const uint32_t *air, const uint32_t *loads,
                                const uint32_t *thresholds, const uint32_t *waits);

/* The parts of a gate, as these take them. */
#define PRESSCURLEW_PARTS(gate)                                                                                        \
    &(gate)->time, &(gate)->stamp, &(gate)->queues[0].len, &(gate)->arrivals[0][0], (gate)->air, (gate)->loads,        \
        (gate)->thresholds, (gate)->waits
/** @endcond */

/**
 * Makes a fresh gate, whatever was there before: running time 0, level 0, duty 600,000, smoothed and latest load 0,
 * nothing kept, nothing admitted, nothing waiting, nothing counted, no loads.
 *
 * The list of levels is profile 5's, which the gate keeps: it is read here and not again, and does not lie inside the
 * gate. No other profile looks at it.
 *
 *     presscurlew_levels list = {2, 60000, {300000, 600000}, {200000, 1000000}};
 *     presscurlew_reply reply = presscurlew_make(&gate, PRESSCURLEW_PROFILE_FIRST_EDITION, PRESSCURLEW_DROP_OLDEST,
 *                                                &list, radio_clock());
 *
 * The first poll comes PRESSCURLEW_SILENCE_US later, or after that.
 *
 * @param[out] gate      the gate, whatever stands in it
 * @param      profile   an enum presscurlew_profile, which the gate keeps
 * @param      when_full an enum presscurlew_when_full, which the gate keeps
 * @param      list      profile 5's list of levels; NULL is no list, which profile 5 refuses with BAD_LIST
 * @param      stamp     the radio's clock now
 * @return READY. Refusals: BAD_PROFILE, then in profile 5 BAD_LIST; either leaves the all-zero gate, which every other
 *         call refuses with NO_STATE.
 */
PRESSCURLEW_NODISCARD
static inline presscurlew_reply presscurlew_make(presscurlew_gate *gate, uint32_t profile, uint32_t when_full,
                                                 const presscurlew_levels *list, uint32_t stamp) {
    static const presscurlew_levels none = {0, 0, {0}, {0}};
    const presscurlew_levels *given = list ? list : &none;

    return presscurlew_gate_make(PRESSCURLEW_PARTS(gate), profile, when_full, given->count, given->base_wait,
                                 given->thresholds, given->waits, stamp);
}

/**
 * Whether a gate is sound: one that is not gets NO_STATE from every other call but make. Any other refusal comes after
 * this test.
 *
 * @param gate the gate, which is only read
 * @return 1 if it is sound, else 0
 */
PRESSCURLEW_NODISCARD
static inline uint32_t presscurlew_is_sound(const presscurlew_gate *gate) {
    return presscurlew_gate_sound(PRESSCURLEW_PARTS(gate));
}

/**
 * A sample of the channel by its busy count.
 *
 *     load = floor(1,000,000 x busy / probes)
 *
 * With 1,000 probes that is 1,000 for each busy one; with 12,500, a probe each 8 us for 100 ms, 80. The number of
 * probes may differ from sample to sample, and nothing but the load is made of it. Profiles 1 and 2 move the level by
 * at most one towards the one that the load wants. Profile 3 keeps each odd sample, and with each even one updates
 * smoothed load and duty. Profile 4 notes the load in place of the one before. Profile 5 notes the load behind those
 * before it, of which the last 50 are kept, and then moves the level:
 *
 *     low    the least of the last 10 loads, 0 while there are fewer than ten
 *     high   the greatest of the loads that are kept
 *     up     the highest level whose threshold low reaches (is at least), and down the highest that high reaches
 *
 * The level goes to up if it is below up, to down if it is above down, and else stays; at once, by as many levels as
 * that is. So ten loud samples in a row raise it, and fifty quiet ones lower it.
 *
 * A sample expires nothing and counts nothing. It drops aged admissions from the ledger, as every call does that is not
 * refused.
 *
 * @param[in,out] gate   the gate
 * @param         busy   how many of the probes found the channel busy
 * @param         probes 1 to 12,500
 * @param         stamp  the radio's clock now
 * @return TAKEN. Refusals: NO_STATE, CLOCK_BACK, CLOCK_END; BAD_SAMPLE if `probes` is not 1 to 12,500, or `busy` is
 *         above it.
 */
PRESSCURLEW_NODISCARD
static inline presscurlew_reply presscurlew_sample_count(presscurlew_gate *gate, uint32_t busy, uint32_t probes,
                                                         uint32_t stamp) {
    return presscurlew_gate_call(PRESSCURLEW_PARTS(gate), 1, busy, probes, 0, 0, stamp);
}

/**
 * How many of the probes in the words are busy: 1 to 12,500 probes, 64 in a word. Probe k is bit k mod 64 of word
 * k / 64, and is 1 where the channel was busy; the bits of the last word that are no probes are 0.
 *
 * Words are bad if `probes` is not 1 to 12,500, `count` is not that number of probes over 64, rounded up, or a bit of
 * the last word is 1 that is no probe. (Where 64 divides the probes all bits are probes.)
 *
 * @param probes how many probes the words have
 * @param words  points to `count` words, which are only read; with count 0 it may be NULL
 * @param count  how many words there are
 * @return the busy probes. Of bad words 4,294,967,295, which no sample has: by that count it is refused with
 *         BAD_SAMPLE, as it should be.
 */
PRESSCURLEW_NODISCARD
uint32_t presscurlew_busy(uint32_t probes, const uint64_t *words, size_t count);

/**
 * A sample of the channel by words: the one by the count that presscurlew_busy gives of them.
 *
 *     uint64_t words[PRESSCURLEW_WORDS(12500)] = {0};
 *     for (unsigned k = 0; k < 12500; k++)
 *         if (channel_was_busy(k))
 *             words[k / 64] |= UINT64_C(1) << k % 64;
 *     reply = presscurlew_sample_words(&gate, 12500, words, PRESSCURLEW_WORDS(12500), radio_clock());
 *
 * @param[in,out] gate   the gate
 * @param         probes 1 to 12,500
 * @param         words  points to `count` words, as presscurlew_busy takes them
 * @param         count  PRESSCURLEW_WORDS(probes)
 * @param         stamp  the radio's clock now
 * @return TAKEN. Refusals: NO_STATE, CLOCK_BACK, CLOCK_END; BAD_SAMPLE if the words are bad.
 */
PRESSCURLEW_NODISCARD
static inline presscurlew_reply presscurlew_sample_words(presscurlew_gate *gate, uint32_t probes, const uint64_t *words,
                                                         size_t count, uint32_t stamp) {
    return presscurlew_sample_count(gate, presscurlew_busy(probes, words, count), probes, stamp);
}

/**
 * A packet to send. The clock moves, every expired packet of all queues is removed and counted, and the packet
 * joins the back of its priority's queue and is counted as accepted. If 5 wait there still, a gate of DROP_OLDEST
 * drops the front one first, and counts it as displaced; so a packet is displaced by the fifth packet of its own
 * priority that is taken after it, or by a later one, and by nothing else. Which one it was is not answered; that
 * there was one shows in the counts.
 *
 *     reply = presscurlew_offer(&gate, 7, 1, 400, 100000, radio_clock());   a packet of 400 us, good for 100 ms
 *
 * @param[in,out] gate     the gate
 * @param         id       the host's own name for the packet: any number, repeats allowed
 * @param         priority 0 (highest) to 3
 * @param         ontime   its time on air in us: 1 to presscurlew_most_on_time of the profile
 * @param         lifetime how long it may wait, in us: 1 to PRESSCURLEW_MOST_LIFETIME_US
 * @param         stamp    the radio's clock now
 * @return TAKEN. Refusals: NO_STATE, CLOCK_BACK, CLOCK_END, BAD_PRIORITY, BAD_ON_TIME, BAD_LIFETIME, QUEUE_FULL
 *         (REFUSE_NEW alone), SPENT. A refused offer drops nothing.
 */
PRESSCURLEW_NODISCARD
static inline presscurlew_reply presscurlew_offer(presscurlew_gate *gate, uint32_t id, uint32_t priority,
                                                  uint32_t ontime, uint32_t lifetime, uint32_t stamp) {
    return presscurlew_gate_call(PRESSCURLEW_PARTS(gate), 2, id, priority, ontime, lifetime, stamp);
}

/**
 * A burst: many offers in one call, for an application that hands packets over together. Whether the gate is sound is
 * tested once, so that it takes far less time than the single calls; the gate after it and every answer are
 * theirs, one presscurlew_offer after the other.
 *
 * The records have 16 bytes each, laid out as in the call log, little-endian. presscurlew_put_offer, below, puts an
 * offer there.
 *
 *     byte       0     1         2 and 3   4 to 7    8 to 11     12 to 15
 *                kind  priority  on-time   lifetime  identifier  stamp
 *
 * There is an answer byte for each record, and any more are not written. Record by record, from the first:
 *
 *     kind 2      is offered as by presscurlew_offer. Its answer byte is 0 for TAKEN, else the number of the refusal
 *     other kind  gets BAD_KIND and does nothing
 *
 * A record that is refused does not stop those after it.
 *
 *     uint8_t records[2 * PRESSCURLEW_RECORD_BYTES], answers[2];
 *     uint32_t now = radio_clock();
 *     presscurlew_put_offer(records, 7, 0, 400, 100000, now);
 *     presscurlew_put_offer(records + PRESSCURLEW_RECORD_BYTES, 8, 1, 300, 60000, now);
 *     if (presscurlew_burst(&gate, records, sizeof records, answers, sizeof answers) == 0)
 *         for (unsigned i = 0; i < 2; i++)
 *             if (answers[i] != 0)
 *                 report(i, answers[i]);
 *
 * Refusals of a record of kind 2: those of presscurlew_offer. A gate that is not sound does not refuse the burst:
 * each record of kind 2 gets NO_STATE.
 *
 * What the caller answers for, as with any C call: the two counts are those of the bytes behind the pointers, and
 * no answer byte is a byte of the records or of the gate. With a count of 0 its pointer may be NULL.
 *
 * @param[in,out] gate    the gate
 * @param         records points to `bytes` bytes, which are only read
 * @param         bytes   16 for each record
 * @param[out]    answers points to `room` bytes
 * @param         room    one for each record, or more
 * @return 0, also if all records were refused; with no record at all it is 0, and the gate is as it was. Refusals of
 *         the whole burst, in this order, each with the gate as it was and no answer written: TORN_LOG if `bytes` is
 *         not a multiple of 16; NO_ROOM if `room` is less than bytes / 16.
 */
PRESSCURLEW_NODISCARD
static inline uint32_t presscurlew_burst(presscurlew_gate *gate, const uint8_t *records, size_t bytes, uint8_t *answers,
                                         size_t room) {
    return presscurlew_gate_burst(PRESSCURLEW_PARTS(gate), records, bytes, answers, room);
}

/**
 * Puts `width` bytes of a number, the lowest first.
 *
 * @param[out] at     points to so many bytes
 * @param      number the number; what does not fit is left out
 * @param      width  how many bytes: up to 4
 */
static inline void presscurlew_put_number(uint8_t *at, uint32_t number, unsigned width) {
    for (unsigned i = 0; i < width; i++)
        at[i] = (number >> 8 * i) & 255;
}

/**
 * Puts an offer, with the numbers in the order of presscurlew_offer, into the 16 bytes at `record`. A priority above
 * 255 is put as 255 and an on-time above 65,535 as 65,535, which is all that their bytes hold: no profile allows
 * any of these, so that the record is refused just as the single call is. (presscurlew_write_offer, below, writes
 * the same bytes but refuses what is too wide. This one never does: each offer of a burst keeps its place and gets
 * its answer there.)
 *
 * @param[out] record   points to 16 bytes
 * @param      id       the packet's identifier
 * @param      priority its priority
 * @param      ontime   its time on air in us
 * @param      lifetime how long it may wait, in us
 * @param      stamp    the radio's clock now
 */
static inline void presscurlew_put_offer(uint8_t *record, uint32_t id, uint32_t priority, uint32_t ontime,
                                         uint32_t lifetime, uint32_t stamp) {
    record[0] = PRESSCURLEW_RECORD_OFFER;
    presscurlew_put_number(record + 1, priority < 255 ? priority : 255, 1);
    presscurlew_put_number(record + 2, ontime < 65535 ? ontime : 65535, 2);
    presscurlew_put_number(record + 4, lifetime, 4);
    presscurlew_put_number(record + 8, id, 4);
    presscurlew_put_number(record + 12, stamp, 4);
}

/**
 * Whether a packet may go, and which. The clock moves, and every expired packet of all queues is removed and
 * counted. Then: IDLE if nothing waits. Else the packet is the oldest of the lowest-numbered queue that has one. It is
 * SENT, and counted as sent, if both of these hold, and else the answer is CLOSED, also where a shorter packet behind
 * it could go:
 *
 *     the wait     after the last admission is over
 *     the second   its on-time and all on-times admitted in the 1,000,000 us up to and including now sum to at most
 *                  30,000; an admission exactly 1,000,000 us ago is left out
 *
 * CLOSED has the us after which both hold: the greater of what is left of the wait and of the time until enough
 * admissions have aged. Polled so much later this packet goes, and not 1 us before, unless a sample, an offer or its
 * own expiry came between.
 *
 * presscurlew_wait, below, says what the wait is; it is taken afresh at each poll, with the level, duty or latest
 * load of that moment; in profile 5 it is the wait that the list has for the level. It starts
 *
 *     profiles 1, 2, 4, 5   when the transmitter stops: the on-time of the packet admitted last after its admission
 *     profile 3             at the admission
 *
 * so a poll that finds a packet sends it if the last admission is this long ago, or longer (by then the ledger is
 * empty), and CLOSED never has more:
 *
 *     profiles 1 and 5      1,001,000 us
 *     profile 2             1,000,500 us
 *     profile 3             1,000,000 us
 *     profile 4             1,004,000 us
 *
 * So a gate admits at most 30,000 us of on-time in any 1,000,000 us, wherever they begin.
 *
 * @param[in,out] gate  the gate
 * @param         stamp the radio's clock now; after make the first one is PRESSCURLEW_SILENCE_US later, or more
 * @return SENT with the packet, IDLE, or CLOSED with the us left. Refusals: NO_STATE, CLOCK_BACK, CLOCK_END.
 */
PRESSCURLEW_NODISCARD
static inline presscurlew_reply presscurlew_poll(presscurlew_gate *gate, uint32_t stamp) {
    return presscurlew_gate_call(PRESSCURLEW_PARTS(gate), 3, 0, 0, 0, 0, stamp);
}

/** @} */

/**
 * @defgroup status What a host shows
 *
 * The numbers of a gate that a display or a log wants, so that no host needs to know where they stand. They are those
 * that the last call left which was not refused; the all-zero gate has 0 for each. None of these is a call of the
 * archive: they read a field, and judge nothing. Of a gate that is not sound (presscurlew_is_sound) they mean nothing.
 *
 *     accepted = sent + expired + displaced + waiting
 *
 * @{
 */

/**
 * The running time: the us from make to the last call that was not refused.
 *
 * @param gate the gate
 * @return 0 to PRESSCURLEW_MOST_TIME_US
 */
static inline uint64_t presscurlew_get_time(const presscurlew_gate *gate) { return gate->time; }

/**
 * The profile that the gate was made with.
 *
 * @param gate the gate
 * @return an enum presscurlew_profile; 0 of the all-zero gate
 */
static inline uint32_t presscurlew_get_profile(const presscurlew_gate *gate) { return gate->profile; }

/**
 * The level, which profiles 1, 2 and 5 wait by. The higher it is, the busier the channel was.
 *
 * @param gate the gate
 * @return 0 to PRESSCURLEW_MOST_LEVEL; in profile 5, 0 to the count of its list; profiles 3 and 4 leave it at 0
 */
static inline uint32_t presscurlew_get_level(const presscurlew_gate *gate) { return gate->level; }

/**
 * The duty, which profile 3 waits by: the share of time on air, in parts per 1,000,000,000.
 *
 * @param gate the gate
 * @return PRESSCURLEW_LEAST_DUTY to PRESSCURLEW_MOST_DUTY; profile 3 alone moves it
 */
static inline uint32_t presscurlew_get_duty(const presscurlew_gate *gate) { return gate->duty; }

/**
 * The offers that were TAKEN since make.
 *
 * @param gate the gate
 * @return 0 to PRESSCURLEW_MOST_OFFERS
 */
static inline uint64_t presscurlew_get_accepted(const presscurlew_gate *gate) { return gate->accepted; }

/**
 * The packets that were SENT since make.
 *
 * @param gate the gate
 * @return how many
 */
static inline uint64_t presscurlew_get_sent(const presscurlew_gate *gate) { return gate->sent; }

/**
 * The packets that have expired since make. Each is counted when it is removed, at the first offer or poll that finds
 * it expired.
 *
 * @param gate the gate
 * @return how many
 */
static inline uint64_t presscurlew_get_expired(const presscurlew_gate *gate) { return gate->expired; }

/**
 * The packets that were dropped for a newer one of their priority since make; of a gate of REFUSE_NEW there are none.
 *
 * @param gate the gate
 * @return how many
 */
static inline uint64_t presscurlew_get_displaced(const presscurlew_gate *gate) { return gate->displaced; }

/**
 * The packets of one priority that wait; one that has expired meanwhile is among them until the next offer or poll.
 *
 * @param gate     the gate
 * @param priority 0 (highest) to 3
 * @return 0 to PRESSCURLEW_MOST_WAITING; 0 for a priority above 3
 */
static inline uint32_t presscurlew_get_waiting_of(const presscurlew_gate *gate, uint32_t priority) {
    return priority < PRESSCURLEW_PRIORITIES ? gate->queues[priority].len : 0;
}

/**
 * The packets of all priorities that wait.
 *
 * @param gate the gate
 * @return 0 to 20
 */
static inline uint32_t presscurlew_get_waiting(const presscurlew_gate *gate) {
    uint32_t sum = 0;

    for (uint32_t priority = 0; priority < PRESSCURLEW_PRIORITIES; priority++)
        sum += presscurlew_get_waiting_of(gate, priority);
    return sum;
}

/** @} */

/**
 * @defgroup log The log
 *
 * A host that records its calls can show afterwards what it did: the program replay plays such a log, and gives the
 * answers that the gate gave.
 *
 * Each of these calls writes the record of one call, 16 bytes, at `at` of the `bytes` bytes behind `log`, and answers
 * 0. All other bytes keep what they had. The layout is that of a burst's records; what a kind does not use is 0:
 *
 *     byte      0     1         2 and 3   4 to 7     8 to 11     12 to 15
 *     make      0     profile   0         when_full  0           stamp
 *     sample    1     0         0         probes     busy        stamp
 *     offer     2     priority  on-time   lifetime   identifier  stamp
 *     poll      3     0         0         0          0           stamp
 *
 * Of 1,000 probes the record says 0, and a record that says 0 is played as one of 1,000, as in logs of hosts that know
 * no other number. (One that says 1,000 is played alike, but no call here writes it.)
 *
 * Record first, then call, so that the log of a crash has the last call in it:
 *
 *     uint8_t record[PRESSCURLEW_RECORD_BYTES];
 *     uint32_t now = radio_clock();
 *     if (presscurlew_write_poll(now, record, sizeof record, 0) != 0 ||
 *         fwrite(record, sizeof record, 1, file) != 1 || fflush(file) != 0)
 *         ...                              the host decides: go on without a log, or make no call that is not in it
 *     reply = presscurlew_poll(&gate, now);
 *
 * A burst's records are such records already. They go to the file as they are, before the burst, one after the other:
 * played, they are the single offers, which the burst is too. That needs a burst of offers alone, as
 * presscurlew_put_offer puts them (a record of another kind gets BAD_KIND in a burst, but is a call in a log), and one
 * that is not refused as a whole.
 *
 * A record has no room for a list of levels, so a gate of profile 5 has no log: presscurlew_write_make refuses its
 * make, and a record that says 5 is refused with BAD_PROFILE where it is played. Of any other profile the list is left
 * out, and the make is played without one, which is answered alike.
 *
 * A log starts with a make, and has all calls on that one gate in their order. A sample by words is in it by its
 * busy count and its probe count, which are all that the gate looks at: played, it is answered alike, and so is all
 * that comes after it. So the host may count the busy probes by presscurlew_busy, and write and make the sample by that
 * count; the words are then counted once.
 *
 * A refusal writes nothing. It comes where a number does not fit its bytes, whatever the gate would make of it:
 * profile 77, priority 200, 5,000 busy of 1,000 probes or any of 20,000 are written, and played they are refused as
 * they were. The first of these that holds is the answer:
 *
 *     PRESSCURLEW_BAD_PROFILE    make: the profile is 5 or above 255, or when_full is above 1
 *     PRESSCURLEW_BAD_SAMPLE     sample by words: one that presscurlew_sample_words refuses; by count: 0 probes, as
 *                                the 0 of a record means 1,000
 *     PRESSCURLEW_BAD_PRIORITY   offer: the priority is above 255
 *     PRESSCURLEW_BAD_ON_TIME    offer: the on-time is above 65,535
 *     PRESSCURLEW_NO_ROOM        any: there are no 16 bytes at `at`, however large it is
 *
 * All but the last and the make of profile 5 are calls that the gate refuses too, in any state, so that a log without
 * them still leads from state to state as the host went. A host that wants a record for each call writes, in place of
 * such a one, one that the gate refuses with the same number: profile 255, 4,294,967,295 busy of 1,000 probes, or
 * presscurlew_put_offer.
 *
 * What the caller answers for: `log` points to `bytes` bytes, of which none is a byte of the words. With 0 bytes it
 * may be NULL.
 *
 * @{
 */

/**
 * Writes the record of presscurlew_make, of profile 5 none.
 *
 * @param      profile   that of the call
 * @param      when_full that of the call
 * @param      stamp     that of the call
 * @param[out] log       points to `bytes` bytes
 * @param      bytes     the bytes of the log
 * @param      at        where the record goes
 * @return 0. Refusals: BAD_PROFILE, NO_ROOM.
 */
PRESSCURLEW_NODISCARD
uint32_t presscurlew_write_make(uint32_t profile, uint32_t when_full, uint32_t stamp, uint8_t *log, size_t bytes,
                                size_t at);

/**
 * Writes the record of presscurlew_sample_words: that of its busy count, of so many probes.
 *
 * @param      probes that of the call
 * @param      words  points to `count` words, which are only read; with count 0 it may be NULL
 * @param      count  that of the call
 * @param      stamp  that of the call
 * @param[out] log    points to `bytes` bytes
 * @param      bytes  the bytes of the log
 * @param      at     where the record goes
 * @return 0. Refusals: BAD_SAMPLE, NO_ROOM.
 */
PRESSCURLEW_NODISCARD
uint32_t presscurlew_write_sample_words(uint32_t probes, const uint64_t *words, size_t count, uint32_t stamp,
                                        uint8_t *log, size_t bytes, size_t at);

/**
 * Writes the record of presscurlew_sample_count.
 *
 * @param      busy   that of the call
 * @param      probes that of the call
 * @param      stamp  that of the call
 * @param[out] log    points to `bytes` bytes
 * @param      bytes  the bytes of the log
 * @param      at     where the record goes
 * @return 0. Refusals: BAD_SAMPLE, NO_ROOM.
 */
PRESSCURLEW_NODISCARD
uint32_t presscurlew_write_sample_count(uint32_t busy, uint32_t probes, uint32_t stamp, uint8_t *log, size_t bytes,
                                        size_t at);

/**
 * Writes the record of presscurlew_offer.
 *
 * @param      id       that of the call
 * @param      priority that of the call
 * @param      ontime   that of the call
 * @param      lifetime that of the call
 * @param      stamp    that of the call
 * @param[out] log      points to `bytes` bytes
 * @param      bytes    the bytes of the log
 * @param      at       where the record goes
 * @return 0. Refusals: BAD_PRIORITY, BAD_ON_TIME, NO_ROOM.
 */
PRESSCURLEW_NODISCARD
uint32_t presscurlew_write_offer(uint32_t id, uint32_t priority, uint32_t ontime, uint32_t lifetime, uint32_t stamp,
                                 uint8_t *log, size_t bytes, size_t at);

/**
 * Writes the record of presscurlew_poll.
 *
 * @param      stamp that of the call
 * @param[out] log   points to `bytes` bytes
 * @param      bytes the bytes of the log
 * @param      at    where the record goes
 * @return 0. Refusals: NO_ROOM.
 */
PRESSCURLEW_NODISCARD
uint32_t presscurlew_write_poll(uint32_t stamp, uint8_t *log, size_t bytes, size_t at);

/** @} */

/**
 * @defgroup rules The rules
 *
 * The gate's rules on plain numbers, for a stack that has a gate of its own.
 *
 * @{
 */

/**
 * The refusal numbers of the rules. Every answer's first field has one: 0, PRESSCURLEW_BAD_PROFILE,
 * PRESSCURLEW_BAD_ON_TIME or one of these. 4 and 9 mean something else here than in the gate. They are tested
 * in the order 1, 9, 4, 6, as they apply, and the first that holds is the answer; the floating update has 14
 * and no other. With a refusal, the answer's other fields are 0.
 */
enum presscurlew_rule_refusal {
    PRESSCURLEW_ACCEPTED = 0,     /**< no refusal: the other fields are the answer */
    PRESSCURLEW_BAD_LOAD = 4,     /**< a load is above 1,000,000 */
    PRESSCURLEW_OUT_OF_RANGE = 9, /**< the level is above 4, or the duty is not 600,000 to 30,000,000 */
    PRESSCURLEW_BAD_FLOAT = 14    /**< presscurlew_float_update alone: a number is out of its limits, or not a number */
};

/**
 * The name of a refusal number of the rules.
 *
 * @param number an enum presscurlew_rule_refusal, PRESSCURLEW_BAD_PROFILE or PRESSCURLEW_BAD_ON_TIME
 * @return its name; "unknown" for what is none of them
 */
static inline const char *presscurlew_rule_refusal_name(uint32_t number) {
    switch (number) {
    case PRESSCURLEW_BAD_LOAD: return "BAD-LOAD";
    case PRESSCURLEW_OUT_OF_RANGE: return "OUT-OF-RANGE";
    case PRESSCURLEW_BAD_FLOAT: return "BAD-FLOAT";
    case PRESSCURLEW_ACCEPTED:
    case PRESSCURLEW_BAD_PROFILE:
    case PRESSCURLEW_BAD_ON_TIME: return presscurlew_refusal_name(number);
    default: return "unknown";
    }
}

/** What presscurlew_wanted_level and presscurlew_level_step answer. */
typedef struct presscurlew_level_answer {
    uint32_t refusal; /**< 0, or the refusal */
    uint32_t level;   /**< 0 to 4 */
} presscurlew_level_answer;

/** What presscurlew_duty_update answers. */
typedef struct presscurlew_duty_answer {
    uint32_t refusal;  /**< 0, or the refusal */
    uint32_t smoothed; /**< the smoothed load, 0 to 1,000,000 */
    uint32_t duty;     /**< 600,000 to 30,000,000 */
} presscurlew_duty_answer;

/** What presscurlew_wait answers. */
typedef struct presscurlew_wait_answer {
    uint32_t refusal; /**< 0, or the refusal */
    uint32_t wait;    /**< in us */
} presscurlew_wait_answer;

/**
 * The level that a load wants. Greatest load of each level:
 *
 *     level        0        1        2        3        4
 *     profile 1    299,999  399,999  499,999  600,000  any above
 *     profile 2    299,999  399,999  499,999  650,000  any above
 *
 * @param profile 1 or 2
 * @param load    that of a sample
 * @return the level. Refusals: 1 if profile is not 1 or 2; 4 if load is above 1,000,000.
 */
PRESSCURLEW_NODISCARD
presscurlew_level_answer presscurlew_wanted_level(uint32_t profile, uint32_t load);

/**
 * The level after one sample of this load: `level`, moved by at most one towards the wanted one.
 * Call it once for each sample, and keep the answer's level for the next call. A fresh gate has level 0.
 *
 * @param profile 1 or 2
 * @param load    that of the sample
 * @param level   the level before it
 * @return the level. Refusals: 1 if profile is not 1 or 2; 9 if level is above 4; 4 if load is above 1,000,000.
 */
PRESSCURLEW_NODISCARD
presscurlew_level_answer presscurlew_level_step(uint32_t profile, uint32_t load, uint32_t level);

/**
 * Profile 3's update, once for each pair of samples. Keep the answer's smoothed load and duty for the next call. A
 * fresh gate has duty 600,000 and smoothed load 0.
 *
 *     smoothed' = floor((2 x smoothed + kept + new_load) / 4)
 *     offset    = floor(6 x (680,000 - smoothed') / 5), towards minus infinity, held in -250,000 to 500,000
 *     duty'     = floor(984 x duty / 1,000) + offset, held in 600,000 to 30,000,000
 *
 * @param duty     the duty before it
 * @param smoothed the smoothed load before it
 * @param kept     the load of the first sample of the pair
 * @param new_load the load of the second
 * @return smoothed load and duty. Refusals: 9 if duty is not 600,000 to 30,000,000; 4 if any of the three loads is
 *         above 1,000,000.
 */
PRESSCURLEW_NODISCARD
presscurlew_duty_answer presscurlew_duty_update(uint32_t duty, uint32_t smoothed, uint32_t kept, uint32_t new_load);

/**
 * The wait before the next admission, in microseconds. In profiles 1, 2 and 4 it runs from the end of the packet
 * admitted last, `ontime` after its admission, and the on-time is not added to the number; in profile 3 it runs from
 * the admission, start to start. All numbers are judged in every profile, also where it does not use them; pass 0 as
 * level and as load, and 600,000 as duty, where the profile has none.
 *
 *     level        0        1        2        3        4
 *     profile 1    100,000  200,000  400,000  500,000  1,000,000
 *     profile 2     50,000  100,000  200,000  250,000  1,000,000
 *     profile 3    ceil(ontime x 1,000,000,000 / duty), held in 25,000 to 1,000,000
 *     profile 4    with c = ceil(load / 1,000), the load in per mille: 25,000 for c up to 620, else
 *                  (3,999 - floor(2,480,000 / c)) x ontime, held in 25,000 to 1,000,000
 *
 * In profile 4 the factor before the on-time is 6 for c = 621, 12 for 622, 457 for 700 and 1,519 for 1,000. The wait is
 * never shorter than that of the published formula for the load given, without rounding and held in the same limits.
 *
 * Level, duty and load change with each sample, so take the wait afresh each time that it is needed.
 *
 * Profile 5 has its waits in its list, and the rules on plain numbers know none: they refuse it with 1.
 *
 * @param profile 1 to 4
 * @param level   the level, 0 to 4
 * @param duty    the duty
 * @param ontime  that of the packet admitted last
 * @param load    the load of the latest sample, 0 before any
 * @return the wait. Refusals: 1 if profile is not 1 to 4; 9 if level is above 4, or duty is not 600,000 to 30,000,000;
 *         4 if load is above 1,000,000; 6 if the profile does not allow the on-time.
 */
PRESSCURLEW_NODISCARD
presscurlew_wait_answer presscurlew_wait(uint32_t profile, uint32_t level, uint32_t duty, uint32_t ontime,
                                         uint32_t load);

/** What presscurlew_float_update answers. With a refusal, both numbers are +0.0. */
typedef struct presscurlew_float_answer {
    uint32_t refusal; /**< 0, or 14 */
    double smoothed;  /**< share of time that the channel is busy, 0.0 to 1.0 */
    double duty;      /**< share of time on air, 0.0006 to 0.03 */
} presscurlew_float_answer;

/**
 * Profile 3's update in floating point, for simulations: the gate itself never uses it. Keep the answer's smoothed load
 * and duty for the next call; to start as a fresh gate does, take duty 0.0006 and smoothed load 0.0.
 *
 * The numbers handed back are, bit for bit, those of this sequence in IEEE 754's binary64, each operation rounded
 * once, to nearest with ties to even, and each constant the double nearest to what is written:
 *
 *     a = 0.5 * smoothed
 *     b = kept + new_load
 *     c = b / 2.0
 *     d = 0.5 * c
 *     smoothed' = a + d
 *     e = 0.68 - smoothed'
 *     f = e * 0.0012
 *     offset = e > 0.0 ? the smaller of f and 0.0005 : the larger of f and -0.00025
 *     g = (1.0 - 0.016) * duty
 *     h = g + offset
 *     duty' = h, held within 0.0006 and 0.03
 *
 * Nothing is fused and nothing kept in more digits. A simulation that wants the same bits has to be compiled so, too:
 * with GCC -ffp-contract=off, and without -ffast-math. The caller's rounding mode is to-nearest, as a C program starts,
 * and subnormal numbers are not flushed to zero. Where nothing is refused, the answer's duty is within its two limits.
 * That the numbers come near those of presscurlew_duty_update is not claimed.
 *
 * @param duty     the duty before it
 * @param smoothed the smoothed load before it
 * @param kept     the load of the first sample of the pair, as a fraction of 1
 * @param new_load the load of the second
 * @return smoothed load and duty. Refusals: 14 if smoothed, kept or new_load does not compare as 0.0 to 1.0, or duty
 *         not as 0.0006 to 0.03. Not-a-number never does; negative zero compares as 0.0, and goes through as it is.
 */
PRESSCURLEW_NODISCARD
presscurlew_float_answer presscurlew_float_update(double duty, double smoothed, double kept, double new_load);

/** @} */

/** @cond HELPERS */
/*
 * The layout
 * ==========
 *
 * What the compiler makes of the structs above is what the archives have.
 */
#ifdef __cplusplus
#define PRESSCURLEW_HELD(fact) static_assert(fact, "presscurlew.h: this target lays structs out as no archive does")
#else
#define PRESSCURLEW_HELD(fact) _Static_assert(fact, "presscurlew.h: this target lays structs out as no archive does")
#endif
#define PRESSCURLEW_SIZE(name, bytes) PRESSCURLEW_HELD(sizeof(presscurlew_##name) == (bytes))
#define PRESSCURLEW_FIELD(name, field, at) PRESSCURLEW_HELD(offsetof(presscurlew_##name, field) == (at))
PRESSCURLEW_SIZE(packet, 24);
PRESSCURLEW_FIELD(packet, id, 0);
PRESSCURLEW_FIELD(packet, priority, 4);
PRESSCURLEW_FIELD(packet, ontime, 8);
PRESSCURLEW_FIELD(packet, lifetime, 12);
PRESSCURLEW_FIELD(packet, arrival, 16);
PRESSCURLEW_SIZE(waiting, 12);
PRESSCURLEW_FIELD(waiting, id, 0);
PRESSCURLEW_FIELD(waiting, ontime, 4);
PRESSCURLEW_FIELD(waiting, lifetime, 8);
PRESSCURLEW_SIZE(queue, 64);
PRESSCURLEW_FIELD(queue, len, 0);
PRESSCURLEW_FIELD(queue, packets, 4);
PRESSCURLEW_SIZE(levels, 72);
PRESSCURLEW_FIELD(levels, count, 0);
PRESSCURLEW_FIELD(levels, base_wait, 4);
PRESSCURLEW_FIELD(levels, thresholds, 8);
PRESSCURLEW_FIELD(levels, waits, 40);
PRESSCURLEW_SIZE(gate, 952);
PRESSCURLEW_FIELD(gate, time, 0);
PRESSCURLEW_FIELD(gate, last_at, 8);
PRESSCURLEW_FIELD(gate, accepted, 16);
PRESSCURLEW_FIELD(gate, sent, 24);
PRESSCURLEW_FIELD(gate, expired, 32);
PRESSCURLEW_FIELD(gate, displaced, 40);
PRESSCURLEW_FIELD(gate, arrivals, 48);
PRESSCURLEW_FIELD(gate, stamp, 208);
PRESSCURLEW_FIELD(gate, last_ontime, 212);
PRESSCURLEW_FIELD(gate, admitted, 216);
PRESSCURLEW_FIELD(gate, level, 220);
PRESSCURLEW_FIELD(gate, duty, 224);
PRESSCURLEW_FIELD(gate, smoothed, 228);
PRESSCURLEW_FIELD(gate, kept, 232);
PRESSCURLEW_FIELD(gate, pairing, 236);
PRESSCURLEW_FIELD(gate, latest, 240);
PRESSCURLEW_FIELD(gate, admissions, 244);
PRESSCURLEW_FIELD(gate, load_count, 248);
PRESSCURLEW_FIELD(gate, profile, 252);
PRESSCURLEW_FIELD(gate, when_full, 256);
PRESSCURLEW_FIELD(gate, live, 260);
PRESSCURLEW_FIELD(gate, level_count, 264);
PRESSCURLEW_FIELD(gate, base_wait, 268);
PRESSCURLEW_FIELD(gate, queues, 272);
PRESSCURLEW_FIELD(gate, air, 528);
PRESSCURLEW_FIELD(gate, loads, 688);
PRESSCURLEW_FIELD(gate, thresholds, 888);
PRESSCURLEW_FIELD(gate, waits, 920);
PRESSCURLEW_SIZE(reply, 40);
PRESSCURLEW_FIELD(reply, packet, 0);
PRESSCURLEW_FIELD(reply, number, 24);
PRESSCURLEW_FIELD(reply, kind, 32);
PRESSCURLEW_SIZE(level_answer, 8);
PRESSCURLEW_FIELD(level_answer, refusal, 0);
PRESSCURLEW_FIELD(level_answer, level, 4);
PRESSCURLEW_SIZE(duty_answer, 12);
PRESSCURLEW_FIELD(duty_answer, refusal, 0);
PRESSCURLEW_FIELD(duty_answer, smoothed, 4);
PRESSCURLEW_FIELD(duty_answer, duty, 8);
PRESSCURLEW_SIZE(wait_answer, 8);
PRESSCURLEW_FIELD(wait_answer, refusal, 0);
PRESSCURLEW_FIELD(wait_answer, wait, 4);
PRESSCURLEW_SIZE(float_answer, 24);
PRESSCURLEW_FIELD(float_answer, refusal, 0);
PRESSCURLEW_FIELD(float_answer, smoothed, 8);
PRESSCURLEW_FIELD(float_answer, duty, 16);
#undef PRESSCURLEW_SIZE
#undef PRESSCURLEW_FIELD
/** @endcond */

#ifdef __cplusplus
}
#endif

#endif
