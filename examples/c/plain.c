/*
 * Two engines side by side: the gate, which keeps four queues, and the plain engine, which keeps one list. Both get the
 * same random calls and bursts, and are compared at every step: the answer, the clock, the counts, the admissions of
 * the last second, what samples steer, and the list, parted by priority, with the queues.
 *
 * It prints what was answered, and whether they agree. Where they do not, it stops at the call.
 */
#include <inttypes.h>
#include <stdio.h>
#include <string.h>

#include "presscurlew_plain.h"

enum { CALLS = 20000, BURST = 8 };

/* What both engines are in, and what they answered so far. */
typedef struct pair {
    presscurlew_gate gate;
    presscurlew_plain_state plain;
    uint32_t answers[6]; /* by kind */
    uint32_t in_bursts;  /* records of bursts */
    uint32_t alike;      /* 1 as long as both agree */
} pair;

/* The next number of a row that looks random (xorshift), below `most`. */
static uint32_t random_below(uint64_t *row, uint32_t most) {
    *row ^= *row << 13;
    *row ^= *row >> 7;
    *row ^= *row << 17;
    return (uint32_t)(*row >> 32) % most;
}

static int same_packet(const presscurlew_packet *a, const presscurlew_packet *b) {
    return a->id == b->id && a->priority == b->priority && a->ontime == b->ontime && a->lifetime == b->lifetime &&
           a->arrival == b->arrival;
}

/* What waits at a place of one of the gate's queues. */
static presscurlew_packet packet_at(const presscurlew_gate *gate, uint32_t priority, uint32_t place) {
    const presscurlew_waiting *waiting = &gate->queues[priority].packets[place];
    presscurlew_packet packet = {waiting->id, priority, waiting->ontime, waiting->lifetime,
                                 gate->arrivals[priority][place]};

    return packet;
}

/* Whether the list's packets of each priority are those of its queue, in the same order. */
static int same_waiting(const presscurlew_plain_line *line, const presscurlew_gate *gate) {
    const presscurlew_queue *queues = gate->queues;
    uint32_t found[4] = {0};

    for (uint64_t i = 0; i < line->len; i++) {
        uint32_t priority = line->packets[i].priority;
        if (found[priority] == queues[priority].len)
            return 0;
        presscurlew_packet packet = packet_at(gate, priority, found[priority]++);
        if (!same_packet(&line->packets[i], &packet))
            return 0;
    }
    return line->len == queues[0].len + queues[1].len + queues[2].len + queues[3].len;
}

static int same_counts(const presscurlew_plain_counts *plain, const presscurlew_gate *gate) {
    return plain->accepted == gate->accepted && plain->sent == gate->sent && plain->expired == gate->expired &&
           plain->displaced == gate->displaced;
}

static int same_tuning(const presscurlew_plain_tuning *plain, const presscurlew_gate *gate) {
    return plain->level == gate->level && plain->duty == gate->duty && plain->smoothed == gate->smoothed &&
           plain->kept == gate->kept && plain->pairing == gate->pairing && plain->latest == gate->latest;
}

/* Whether the admissions of the last second and the last one are the same. */
static int same_admissions(const presscurlew_plain_state *plain, const presscurlew_gate *gate) {
    return plain->ledger.len == gate->admissions &&
           memcmp(plain->ledger.slots, gate->air, sizeof gate->air) == 0 && plain->last.at == gate->last_at &&
           plain->last.ontime == gate->last_ontime && plain->last.admitted == gate->admitted;
}

/* Whether two states say the same. */
static int same_state(const presscurlew_plain_state *plain, const presscurlew_gate *gate) {
    return same_waiting(&plain->line, gate) && same_admissions(plain, gate) && same_counts(&plain->counts, gate) &&
           same_tuning(&plain->tuning, gate) && plain->clock.time == gate->time &&
           plain->clock.stamp == gate->stamp && plain->profile == gate->profile && plain->when_full == gate->when_full &&
           plain->live == gate->live;
}

static int same_reply(const presscurlew_reply *a, const presscurlew_reply *b) {
    return a->kind == b->kind && a->number == b->number && same_packet(&a->packet, &b->packet);
}

/* Takes what both calls answered, and counts the answer. */
static void take(pair *both, const presscurlew_reply *reply, const presscurlew_plain_turn *plain) {
    both->plain = plain->state;
    both->answers[reply->kind]++;
    both->alike &= same_reply(&plain->reply, reply) && same_state(&plain->state, &both->gate);
}

static void sample(pair *both, uint64_t *row, uint32_t now) {
    uint32_t probes = 1 + random_below(row, 1000), busy = random_below(row, probes + 2);
    presscurlew_reply reply = presscurlew_sample_count(&both->gate, busy, probes, now);
    presscurlew_plain_turn plain = presscurlew_plain_sample_count(both->plain, busy, probes, now);

    take(both, &reply, &plain);
}

/* Some priorities, on-times and lifetimes are bad ones. */
static void offer(pair *both, uint64_t *row, uint32_t id, uint32_t now) {
    uint32_t priority = random_below(row, 41) / 10, ontime = random_below(row, 510);
    uint32_t lifetime = random_below(row, 2000000);
    presscurlew_reply reply = presscurlew_offer(&both->gate, id, priority, ontime, lifetime, now);
    presscurlew_plain_turn plain = presscurlew_plain_offer(both->plain, id, priority, ontime, lifetime, now);

    take(both, &reply, &plain);
}

static void poll(pair *both, uint32_t now) {
    presscurlew_reply reply = presscurlew_poll(&both->gate, now);
    presscurlew_plain_turn plain = presscurlew_plain_poll(both->plain, now);

    take(both, &reply, &plain);
}

static void burst(pair *both, uint64_t *row, uint32_t id, uint32_t now) {
    uint8_t records[BURST * PRESSCURLEW_RECORD_BYTES], answers[BURST], plain_answers[BURST];

    for (uint32_t i = 0; i < BURST; i++) {
        uint32_t priority = random_below(row, 4), lifetime = 1 + random_below(row, 500000);
        uint8_t *record = records + i * PRESSCURLEW_RECORD_BYTES;
        presscurlew_put_offer(record, id + i, priority, 400, lifetime, now + i);
    }
    uint32_t number = presscurlew_burst(&both->gate, records, sizeof records, answers, BURST);
    presscurlew_plain_burst_turn plain =
        presscurlew_plain_burst(both->plain, records, sizeof records, plain_answers, BURST);
    both->plain = plain.state;
    both->in_bursts += BURST;
    both->alike &= number == plain.number && memcmp(answers, plain_answers, BURST) == 0 &&
                   same_state(&plain.state, &both->gate);
}

/* One random call on both engines: mostly forward in time, now and then back, which is refused. */
static void step(pair *both, uint64_t *row, uint32_t i) {
    uint32_t stamp = both->gate.stamp, drawn = random_below(row, 32);
    uint32_t now = random_below(row, 50) == 0 ? stamp - 1 : stamp + random_below(row, 40000);

    if (drawn == 0)
        burst(both, row, i * BURST, now);
    else if (drawn <= 4)
        sample(both, row, now);
    else if (drawn <= 12)
        offer(both, row, i, now);
    else
        poll(both, now);
}

/* What was answered, and what became of the packets. */
static void report(const pair *both) {
    static const char *const names[] = {"READY", "TAKEN", "SENT", "IDLE", "CLOSED", "REFUSED"};
    const presscurlew_plain_counts *counts = &both->plain.counts;

    printf("  answers  ");
    for (uint32_t kind = PRESSCURLEW_TAKEN; kind <= PRESSCURLEW_REFUSED; kind++)
        printf("%6" PRIu32 " %s", both->answers[kind], names[kind]);
    printf(", and to %" PRIu32 " records of bursts\n", both->in_bursts);
    printf("  packets  %6" PRIu64 " accepted %6" PRIu64 " sent %6" PRIu64 " expired %6" PRIu64 " displaced\n",
           counts->accepted, counts->sent, counts->expired, counts->displaced);
}

/* Answers 1 if both engines agreed at every call. */
static uint32_t run(uint32_t profile, uint32_t when_full) {
    uint64_t row = UINT64_C(0x9E3779B97F4A7C15) + profile;
    static pair both;
    uint32_t calls = 0;

    memset(&both, 0, sizeof both);
    both.alike = presscurlew_make(&both.gate, profile, when_full, NULL, 0).kind == PRESSCURLEW_READY;
    both.plain = presscurlew_plain_make(profile, when_full, presscurlew_plain_no_list(), 0).state;

    while (calls < CALLS && both.alike)
        step(&both, &row, calls++);
    printf("profile %" PRIu32 ", a full queue %s\n", profile,
           when_full == PRESSCURLEW_DROP_OLDEST ? "drops its oldest" : "refuses the new one");
    report(&both);
    printf("  the engines %s %" PRIu32 " calls\n", both.alike ? "agree at all of" : "DIFFER at the last of", calls);
    return both.alike;
}

int main(void) {
    uint32_t alike = 1;

    for (uint32_t profile = 1; profile <= 4; profile++) {
        alike &= run(profile, PRESSCURLEW_DROP_OLDEST);
        alike &= run(profile, PRESSCURLEW_REFUSE_NEW);
    }
    return alike ? 0 : 1;
}
