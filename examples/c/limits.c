/*
 * Each limit of presscurlew.h, tried on the archive: the number itself is taken, and the next one is refused, by the
 * name of its refusal. So the numbers that a host compiles in are those that the gate judges by.
 *
 * PRESSCURLEW_SILENCE_US is not among them: no call judges how long a host has been silent.
 */
#include <inttypes.h>
#include <stdio.h>

#include "presscurlew.h"

/* A warning that every profile takes. */
enum { ID = 7, PRIORITY = 0, ONTIME = 400, LIFETIME = 100000 };

static presscurlew_gate gate;

/* A fresh gate at stamp 0; this program makes none that is refused, and would say so. */
static void fresh(uint32_t profile) {
    presscurlew_levels list = {1, 60000, {500000}, {400000}};

    if (presscurlew_make(&gate, profile, PRESSCURLEW_REFUSE_NEW, &list, 0).kind != PRESSCURLEW_READY)
        puts("no gate");
}

static const char *name(presscurlew_reply reply) {
    return presscurlew_refusal_name(reply.kind == PRESSCURLEW_REFUSED ? reply.number : 0);
}

/* A limit, what is said to it, and to the number past it. */
static void show(const char *what, uint64_t limit, const char *to_it, const char *past_it) {
    printf("%-24s %16" PRIu64 "  %-8s  past it %s\n", what, limit, to_it, past_it);
}

static presscurlew_reply offer(uint32_t priority, uint32_t ontime, uint32_t lifetime) {
    fresh(PRESSCURLEW_PROFILE_REACTIVE_A1);
    return presscurlew_offer(&gate, ID, priority, ontime, lifetime, 0);
}

static void offers(void) {
    const char *last = name(offer(PRESSCURLEW_PRIORITIES - 1, ONTIME, LIFETIME));
    presscurlew_reply reply = {{0, 0, 0, 0, 0}, 0, PRESSCURLEW_TAKEN};
    uint32_t taken = 0;

    show("priority", PRESSCURLEW_PRIORITIES - 1, last, name(offer(PRESSCURLEW_PRIORITIES, ONTIME, LIFETIME)));
    show("lifetime", PRESSCURLEW_MOST_LIFETIME_US, name(offer(PRIORITY, ONTIME, PRESSCURLEW_MOST_LIFETIME_US)),
         name(offer(PRIORITY, ONTIME, PRESSCURLEW_MOST_LIFETIME_US + 1)));
    fresh(PRESSCURLEW_PROFILE_REACTIVE_A1);
    while (reply.kind == PRESSCURLEW_TAKEN && taken <= PRESSCURLEW_MOST_WAITING) {
        reply = presscurlew_offer(&gate, ID, PRIORITY, ONTIME, LIFETIME, 0);
        taken += reply.kind == PRESSCURLEW_TAKEN;
    }
    show("waiting in a queue", PRESSCURLEW_MOST_WAITING, taken == PRESSCURLEW_MOST_WAITING ? "ACCEPTED" : "not so",
         name(reply));
}

static const char *on_air(uint32_t profile, uint32_t ontime) {
    fresh(profile);
    return name(presscurlew_offer(&gate, ID, PRIORITY, ontime, LIFETIME, 0));
}

static void on_times(void) {
    uint32_t longest = 0;

    for (uint32_t profile = 1; profile <= PRESSCURLEW_PROFILE_FIRST_EDITION; profile++) {
        uint32_t most = presscurlew_most_on_time(profile);
        char what[32];
        snprintf(what, sizeof what, "on-time in profile %" PRIu32, profile);
        show(what, most, on_air(profile, most), on_air(profile, most + 1));
        longest = most > longest ? most : longest;
    }
    if (longest != PRESSCURLEW_MOST_ON_TIME_US || presscurlew_most_on_time(0) != 0 || presscurlew_most_on_time(6) != 0)
        puts("but not so");
}

static const char *sample(uint32_t probes, size_t words) {
    static const uint64_t quiet[PRESSCURLEW_MOST_WORDS + 1];

    fresh(PRESSCURLEW_PROFILE_REACTIVE_A1);
    return name(presscurlew_sample_words(&gate, probes, quiet, words, 0));
}

static void samples(void) {
    show("probes", PRESSCURLEW_MOST_PROBES, sample(PRESSCURLEW_MOST_PROBES, PRESSCURLEW_MOST_WORDS),
         sample(PRESSCURLEW_MOST_PROBES + 1, PRESSCURLEW_MOST_WORDS));
    show("words", PRESSCURLEW_MOST_WORDS, sample(PRESSCURLEW_MOST_PROBES, PRESSCURLEW_WORDS(PRESSCURLEW_MOST_PROBES)),
         sample(PRESSCURLEW_MOST_PROBES, PRESSCURLEW_MOST_WORDS + 1));
    fresh(PRESSCURLEW_PROFILE_FIRST_EDITION);
    for (uint32_t i = 0; i <= PRESSCURLEW_MOST_LOADS; i++)
        if (presscurlew_sample_count(&gate, 0, 1, 0).kind != PRESSCURLEW_TAKEN)
            puts("but not so");
    show("loads kept", PRESSCURLEW_MOST_LOADS, gate.load_count == PRESSCURLEW_MOST_LOADS ? "ACCEPTED" : "not so",
         "the oldest goes");
}

static const char *listed(uint32_t count, uint32_t wait, uint32_t threshold) {
    presscurlew_levels list = {count, wait, {1, 2, 3, 4, 5, 6, 7, 8}, {0}};

    for (uint32_t i = 0; i < PRESSCURLEW_MOST_LEVELS; i++)
        list.waits[i] = wait;
    list.thresholds[PRESSCURLEW_MOST_LEVELS - 1] = threshold;
    return name(presscurlew_make(&gate, PRESSCURLEW_PROFILE_FIRST_EDITION, PRESSCURLEW_DROP_OLDEST, &list, 0));
}

static void lists(void) {
    enum { COUNT = PRESSCURLEW_MOST_LEVELS, LEAST = PRESSCURLEW_LEAST_LEVEL_WAIT_US };

    show("levels of a list", COUNT, listed(COUNT, LEAST, 9), listed(COUNT + 1, LEAST, 9));
    show("shortest wait of it", LEAST, listed(COUNT, LEAST, 9), listed(COUNT, LEAST - 1, 9));
    show("longest wait of it", PRESSCURLEW_MOST_LEVEL_WAIT_US, listed(COUNT, PRESSCURLEW_MOST_LEVEL_WAIT_US, 9),
         listed(COUNT, PRESSCURLEW_MOST_LEVEL_WAIT_US + 1, 9));
    show("threshold of it", PRESSCURLEW_MOST_LOAD, listed(COUNT, LEAST, PRESSCURLEW_MOST_LOAD),
         listed(COUNT, LEAST, PRESSCURLEW_MOST_LOAD + 1));
}

static const char *rule(uint32_t level, uint32_t duty, uint32_t load) {
    return presscurlew_rule_refusal_name(
        presscurlew_wait(PRESSCURLEW_PROFILE_REACTIVE_A1, level, duty, ONTIME, load).refusal);
}

static void rules(void) {
    enum { LEVEL = PRESSCURLEW_MOST_LEVEL, LEAST = PRESSCURLEW_LEAST_DUTY, MOST = PRESSCURLEW_MOST_DUTY };

    show("load", PRESSCURLEW_MOST_LOAD, rule(0, LEAST, PRESSCURLEW_MOST_LOAD),
         rule(0, LEAST, PRESSCURLEW_MOST_LOAD + 1));
    show("level", LEVEL, rule(LEVEL, LEAST, 0), rule(LEVEL + 1, LEAST, 0));
    show("lowest duty", LEAST, rule(0, LEAST, 0), rule(0, LEAST - 1, 0));
    show("highest duty", MOST, rule(0, MOST, 0), rule(0, MOST + 1, 0));
}

/* A poll after so many us, of a fresh gate that has run for so long and has accepted, and sent, so many packets. */
static presscurlew_reply aged(uint64_t time, uint64_t accepted, uint32_t step) {
    fresh(PRESSCURLEW_PROFILE_REACTIVE_A1);
    gate.time = time;
    gate.accepted = gate.sent = accepted;
    return presscurlew_poll(&gate, step);
}

static const char *spent(uint64_t accepted) {
    aged(0, accepted, 0);
    return name(presscurlew_offer(&gate, ID, PRIORITY, ONTIME, LIFETIME, 0));
}

static void clocks(void) {
    enum { STEP = PRESSCURLEW_MOST_STEP_US };
    const uint64_t end = PRESSCURLEW_MOST_TIME_US, most = PRESSCURLEW_MOST_OFFERS;

    show("step of the clock", STEP, name(aged(0, 0, STEP)), name(aged(0, 0, STEP + UINT32_C(1))));
    show("running time", end, name(aged(end - 5, 0, 5)), name(aged(end - 5, 0, 6)));
    show("offers accepted", most, spent(most - 1), spent(most));
}

/* Offers a packet and polls. */
static presscurlew_reply send(uint32_t ontime, uint32_t now) {
    presscurlew_reply reply = presscurlew_offer(&gate, ID, PRIORITY, ontime, LIFETIME, now);

    return reply.kind == PRESSCURLEW_TAKEN ? presscurlew_poll(&gate, now) : reply;
}

/* How many of a row of packets are sent, of so many us and each as soon as the wait allows it, before one is CLOSED. */
static uint32_t sent_in_a_row(uint32_t ontime, uint32_t apart) {
    uint32_t sent = 0;

    while (sent < 100 && send(ontime, sent * apart).kind == PRESSCURLEW_SENT)
        sent++;
    return sent;
}

static void airs(void) {
    enum { GAP = PRESSCURLEW_LEAST_GAP_US, MOST = PRESSCURLEW_MOST_ON_TIME_US };
    uint32_t ontime = PRESSCURLEW_MOST_AIR_US / 10, apart = ontime + GAP;

    fresh(PRESSCURLEW_PROFILE_HARMONISED);
    uint32_t sent = sent_in_a_row(ontime, apart);
    printf("on air in a second: %" PRIu32 " us\n", sent * ontime);
    fresh(PRESSCURLEW_PROFILE_HARMONISED);
    presscurlew_reply taken = presscurlew_sample_count(&gate, 1, 1, 0), first = send(MOST, 0), next = send(MOST, 0);
    printf("closed for at most: %" PRIu64 " us\n", next.number);
    if (sent * ontime != PRESSCURLEW_MOST_AIR_US || taken.kind != PRESSCURLEW_TAKEN || first.kind != PRESSCURLEW_SENT ||
        next.number != PRESSCURLEW_MOST_CLOSED_US)
        puts("but not so");

    /* The shortest gap, and so the longest ledger: profile 3 at its highest duty, which a quiet channel leads to. */
    fresh(PRESSCURLEW_PROFILE_ADAPTIVE);
    for (uint32_t i = 0; i < 1000 && taken.kind == PRESSCURLEW_TAKEN; i++)
        taken = presscurlew_sample_count(&gate, 0, 1, 0);
    ontime = PRESSCURLEW_MOST_AIR_US / PRESSCURLEW_MOST_ADMISSIONS;
    for (sent = 0; sent < PRESSCURLEW_MOST_ADMISSIONS && send(ontime, sent * GAP).kind == PRESSCURLEW_SENT; sent++)
        next = presscurlew_poll(&gate, sent * GAP);
    printf("a gap of %d us: %" PRIu32 " admissions in a second\n", GAP, gate.admissions);
    if (sent != PRESSCURLEW_MOST_ADMISSIONS || gate.admissions != sent || next.kind != PRESSCURLEW_IDLE)
        puts("but not so");
}

static void records(void) {
    uint8_t record[PRESSCURLEW_RECORD_BYTES], answer = 255;
    uint32_t whole = presscurlew_write_poll(0, record, sizeof record, 0);
    uint32_t torn = presscurlew_write_poll(0, record, sizeof record - 1, 0);

    printf("a record of %d bytes: %s, of one less: %s\n", PRESSCURLEW_RECORD_BYTES, presscurlew_refusal_name(whole),
           presscurlew_refusal_name(torn));
    fresh(PRESSCURLEW_PROFILE_REACTIVE_A1);
    presscurlew_put_offer(record, ID, PRIORITY, ONTIME, LIFETIME, 0);
    whole = presscurlew_burst(&gate, record, sizeof record, &answer, 1);
    printf("a burst's record of kind %d: %s\n", PRESSCURLEW_RECORD_OFFER, presscurlew_refusal_name(whole + answer));
}

int main(void) {
    offers();
    on_times();
    samples();
    lists();
    rules();
    clocks();
    airs();
    records();
    return 0;
}
