/*
 * Calls of every kind on made-up numbers and states, sound and spoiled, on both engines at once. Every field of every
 * answer goes into one sum, which a board has to give as the x86-64 archives do. It is C and C++ alike.
 *
 *   stress                  plays ROUNDS rounds and writes the sum after each, then what was seen
 *
 * It ends with an error if a refusal number was never seen, or a kind of answer, a ledger of 30 admissions or level 8;
 * or if a refused call changed the gate, or a gate is refused as unsound and says otherwise. Arguments are computed one
 * by one, as C does not say in which order a call's own are.
 */
#include <inttypes.h>
#include <stdio.h>
#include <string.h>

#include "presscurlew_plain.h"

#ifndef ROUNDS
#define ROUNDS 4
#endif

enum { STEPS = 1250, RECORDS = 6 };

static uint64_t seed = 88172645463325252u, sum = 1, calls;
static uint32_t kinds[6], refusals[17], longest_ledger, highest_level, mistakes;

static uint64_t any(void) {
    seed ^= seed << 13;
    seed ^= seed >> 7;
    seed ^= seed << 17;
    return seed;
}

/* A number below n. */
static uint32_t below(uint32_t n) { return (uint32_t)((any() >> 32) * n >> 32); }

static uint32_t one_in(uint32_t n) { return below(n) == 0; }

/* One step is one to one in `sum`, whatever x is, so that one field that differs is never lost. */
static void add(uint64_t x) {
    sum = (sum ^ x) * UINT64_C(0x9E3779B97F4A7C15);
    sum ^= sum >> 29;
}

static void add_packet(const presscurlew_packet *p) {
    add((uint64_t)p->id << 32 | p->priority);
    add((uint64_t)p->ontime << 32 | p->lifetime);
    add(p->arrival);
}

static void add_words(const uint32_t *words, uint32_t count) {
    for (uint32_t i = 0; i < count; i++)
        add(words[i]);
}

/* How full a ledger got, and how high a level, which in all profiles but 5 stays below 5. */
static void note_most(uint64_t admissions, uint32_t level) {
    if (admissions <= 40 && admissions > longest_ledger)
        longest_ledger = (uint32_t)admissions;
    if (level <= 8 && level > highest_level)
        highest_level = level;
}

static void add_gate(const presscurlew_gate *g) {
    for (int q = 0; q < 4; q++) {
        add(g->queues[q].len);
        for (int i = 0; i < 5; i++) {
            add(g->queues[q].packets[i].id);
            add((uint64_t)g->queues[q].packets[i].ontime << 32 | g->queues[q].packets[i].lifetime);
            add(g->arrivals[q][i]);
        }
    }
    add(g->admissions);
    add_words(g->air, 40);
    add((uint64_t)g->level_count << 32 | g->base_wait);
    add_words(g->thresholds, 8);
    add_words(g->waits, 8);
    add(g->load_count);
    add_words(g->loads, 50);
    add(g->time);
    add(g->stamp);
    add(g->last_at);
    add((uint64_t)g->last_ontime << 32 | g->admitted);
    add(g->accepted);
    add(g->sent);
    add(g->expired);
    add(g->displaced);
    add((uint64_t)g->level << 32 | g->duty);
    add((uint64_t)g->smoothed << 32 | g->kept);
    add((uint64_t)g->pairing << 32 | g->latest);
    add((uint64_t)g->profile << 32 | g->when_full);
    add(g->live);
    note_most(g->admissions, g->level);
}

static void add_plain_state(const presscurlew_plain_state *s) {
    add(s->line.len);
    for (int i = 0; i < 20; i++)
        add_packet(&s->line.packets[i]);
    add(s->ledger.len);
    add_words(s->ledger.slots, 40);
    add(s->levels.len);
    add(s->levels.base_wait);
    add_words(s->levels.thresholds, 8);
    add_words(s->levels.waits, 8);
    add(s->loads.len);
    add_words(s->loads.slots, 50);
    add(s->clock.time);
    add(s->clock.stamp);
    add(s->last.at);
    add((uint64_t)s->last.ontime << 32 | s->last.admitted);
    add(s->counts.accepted);
    add(s->counts.sent);
    add(s->counts.expired);
    add(s->counts.displaced);
    add((uint64_t)s->tuning.level << 32 | s->tuning.duty);
    add((uint64_t)s->tuning.smoothed << 32 | s->tuning.kept);
    add((uint64_t)s->tuning.pairing << 32 | s->tuning.latest);
    add((uint64_t)s->profile << 32 | s->when_full);
    add(s->live);
    note_most(s->ledger.len, s->tuning.level);
}

static void add_refusal(uint64_t number) {
    calls++;
    add(number);
    refusals[number < 16 ? number : 16]++;
}

static void add_reply(const presscurlew_reply *r) {
    add_packet(&r->packet);
    add(r->kind);
    add_refusal(r->kind == PRESSCURLEW_REFUSED ? r->number : 0);
    add(r->number);
    kinds[r->kind < 6 ? r->kind : 0]++;
}

/* What runs: both engines, the radio's clock, and how the calls of this stretch are drawn. */
static presscurlew_gate gate, given;
static presscurlew_plain_state plain;
static uint32_t now, closed_for, most, longest, busy_most, slow, at_edges;

static void plain_took(const presscurlew_plain_turn *t) {
    add_plain_state(&t->state);
    add_reply(&t->reply);
}

/* Keeps the gate as the next call is given it, to find it again where the call is refused. A gate has no padding. */
static void lend(void) { given = gate; }

/* Keeps what one call on both engines gave. Only a call that was not refused changes the gate, and moves the clock. */
static void keep(const presscurlew_reply *r, const presscurlew_plain_turn *u, uint32_t stamp) {
    add_gate(&gate);
    add_reply(r);
    plain_took(u);
    if (r->kind != PRESSCURLEW_REFUSED)
        now = stamp;
    else if (memcmp(&given, &gate, sizeof gate) != 0)
        mistakes++;
    closed_for = r->kind == PRESSCURLEW_CLOSED ? (uint32_t)r->number : 0;
    plain = u->state;
}

/*
 * A list of levels, thresholds rising by any steps and waits at any place between their limits, and anything past its
 * length; a bad one has one number off, or its length.
 */
static presscurlew_levels draw_list(uint32_t good) {
    static const uint32_t waits[] = {40000, 40001, 999999, 1000000};
    presscurlew_levels list = {0, 0, {0}, {0}};
    uint32_t many = 1 + below(8), above = 0, place = below(many), way = below(5);

    list.count = many;
    list.base_wait = one_in(2) ? waits[below(4)] : 40000 + below(960001);
    for (uint32_t i = 0; i < 8; i++) {
        above += 1 + below(one_in(3) ? 2 : 125000);
        list.thresholds[i] = above;
        list.waits[i] = one_in(2) ? waits[below(4)] : 40000 + below(960001);
        if (i >= many && one_in(2))
            list.waits[i] = (uint32_t)any();
    }
    if (good)
        return list;
    if (way == 0)
        list.count = one_in(2) ? 0 : UINT32_C(9) << below(29);
    if (way == 1)
        list.base_wait = one_in(2) ? 39999 : 1000001;
    if (way == 2)
        list.waits[place] = one_in(2) ? 39999 : 1000001;
    if (way == 3)
        list.thresholds[place] = place > 0 ? list.thresholds[place - 1] : 0;
    if (way == 4)
        list.thresholds[many - 1] = 1000001;
    return list;
}

/* The same list for the plain engine. Its length has 64 bits: one that is too long may be so in the upper ones. */
static presscurlew_plain_levels plain_list(const presscurlew_levels *list) {
    presscurlew_plain_levels same = presscurlew_plain_no_list();

    same.len = list->count > 8 ? (uint64_t)list->count << below(33) : list->count;
    same.base_wait = list->base_wait;
    memcpy(same.thresholds, list->thresholds, sizeof same.thresholds);
    memcpy(same.waits, list->waits, sizeof same.waits);
    return same;
}

static int is_zero(const presscurlew_gate *g) {
    static presscurlew_gate zero;

    return memcmp(g, &zero, sizeof zero) == 0;
}

/* Makes both engines. Only profile 5 looks at a list. A refused make leaves the all-zero gate, whatever was there. */
static void make_with(uint32_t profile, uint32_t when_full, const presscurlew_levels *list) {
    uint32_t stamp = (uint32_t)any();
    presscurlew_plain_levels same = list == NULL ? presscurlew_plain_no_list() : plain_list(list);
    presscurlew_reply r = presscurlew_make(&gate, profile, when_full, list, stamp);
    presscurlew_plain_turn u = presscurlew_plain_make(profile, when_full, same, stamp);

    mistakes += is_zero(&gate) != (r.kind == PRESSCURLEW_REFUSED);
    lend(); /* a refused make is the one that writes */
    keep(&r, &u, stamp);
}

static void make(uint32_t profile, uint32_t when_full) {
    presscurlew_levels list = draw_list(1);

    make_with(profile, when_full, profile == 5 || one_in(2) ? &list : NULL);
}

/*
 * How far it is to where something happens, or 1 us before: a packet expires, an admission ages, or the clock ends; or
 * nothing, but 1 us passes.
 */
static uint64_t to_next_edge(void) {
    uint32_t k = below(4), len = gate.queues[k].len;
    uint64_t at = gate.time;

    switch (below(4)) {
    case 0:
        if (len > 0 && len <= 5)
            at = gate.arrivals[k][0] + gate.queues[k].packets[below(len)].lifetime;
        break;
    case 1:
        at = gate.admissions > 0 ? gate.last_at - gate.air[0] / 4096 + 1000000 : at;
        break;
    case 2:
        at = UINT64_C(1000000000000000) + 1;
        break;
    default:
        at += 1;
    }
    return at - gate.time - below(2);
}

static uint32_t next_stamp(void) {
    if (one_in(200))
        return now + UINT32_C(0x7FFFFFFE) + below(4);
    if (closed_for != 0 && below(3) != 0)
        return now + closed_for - below(2);
    if (at_edges && one_in(6)) {
        uint64_t far = to_next_edge();
        if (far < 4000000)
            return now + (uint32_t)far;
    }
    return one_in(4) ? now : now + below(slow);
}

static uint32_t ledger_sum(void) {
    uint32_t on_air = 0;

    for (uint32_t i = 0; i < gate.admissions && i < 40; i++)
        on_air += gate.air[i] % 4096;
    return on_air;
}

/* An on-time: now and then at the edge of what is allowed, or just what the second has left, or 1 us more. */
static uint32_t draw_ontime(void) {
    uint32_t left = 30000 - ledger_sum() + below(2);

    if (one_in(30))
        return one_in(2) ? below(5000) : one_in(2) ? 0 : most + below(2);
    return one_in(2) && left > 0 && left <= most ? left : 1 + below(longest);
}

static uint32_t draw_lifetime(void) {
    if (one_in(50))
        return one_in(2) ? 0 : 60000000 + below(2);
    return 1 + below(3000000);
}

static void offer(void) {
    uint32_t id = (uint32_t)any(), priority = below(one_in(50) ? 6 : 4), stamp = next_stamp();
    uint32_t ontime = draw_ontime(), lifetime = draw_lifetime();

    lend();
    presscurlew_reply r = presscurlew_offer(&gate, id, priority, ontime, lifetime, stamp);
    presscurlew_plain_turn u = presscurlew_plain_offer(plain, id, priority, ontime, lifetime, stamp);
    keep(&r, &u, stamp);
}

static void poll(void) {
    uint32_t stamp = next_stamp();

    lend();
    presscurlew_reply r = presscurlew_poll(&gate, stamp);
    presscurlew_plain_turn u = presscurlew_plain_poll(plain, stamp);
    keep(&r, &u, stamp);
}

static void sample_count(void) {
    static const uint32_t sizes[] = {1, 64, 999, 1000, 12500, 12501, 0}, shares[] = {30, 40, 50, 60, 62, 65, 68, 100};
    uint32_t probes = one_in(2) ? 1000 : one_in(2) ? 1 + below(12500) : sizes[below(7)];
    uint32_t busy = below(probes * busy_most / 100 + 1), stamp = next_stamp();

    if (one_in(4)) {
        busy = probes * shares[below(8)] / 100;
        busy += below(2);
    }
    lend();
    presscurlew_reply r = presscurlew_sample_count(&gate, busy, probes, stamp);
    presscurlew_plain_turn u = presscurlew_plain_sample_count(plain, busy, probes, stamp);
    keep(&r, &u, stamp);
}

/* Profile 5: some samples of one load, of a threshold or beside it, so that the last ten or fifty are of it. */
static void steady_samples(void) {
    uint32_t place = below(8), many = one_in(4) ? 51 : 1 + below(12);
    uint32_t load = gate.thresholds[place] + below(3), busy = one_in(2) ? load / 80 : 12500 * below(2);

    for (uint32_t i = 0; i < many; i++) {
        uint32_t stamp = next_stamp();

        lend();
        presscurlew_reply r = presscurlew_sample_count(&gate, busy, 12500, stamp);
        presscurlew_plain_turn u = presscurlew_plain_sample_count(plain, busy, 12500, stamp);
        keep(&r, &u, stamp);
    }
}

/* A sample by words of up to 20 words, or all 196; a stray bit or a word too few now and then. */
static uint64_t words[PRESSCURLEW_MOST_WORDS];

static uint32_t draw_words(uint32_t *count) {
    uint32_t probes = one_in(16) ? 12500 : 1 + below(1280);

    *count = PRESSCURLEW_WORDS(probes);
    for (uint32_t i = 0; i < *count; i++) {
        words[i] = any();
        if (below(100) >= busy_most)
            words[i] &= any();
    }
    if (probes % 64 != 0 && !one_in(30))
        words[*count - 1] &= (UINT64_C(1) << probes % 64) - 1;
    if (one_in(30))
        *count -= 1;
    return probes;
}

static void sample_words(void) {
    uint32_t count, probes = draw_words(&count), stamp = next_stamp();

    lend();
    presscurlew_reply r = presscurlew_sample_words(&gate, probes, count == 0 ? NULL : words, count, stamp);
    presscurlew_plain_turn u = presscurlew_plain_sample_words(plain, probes, count == 0 ? NULL : words, count, stamp);
    keep(&r, &u, stamp);
}

static uint8_t records[RECORDS * PRESSCURLEW_RECORD_BYTES + 1], answers[RECORDS + 2];

static void draw_record(uint8_t *record, uint32_t stamp) {
    uint32_t id = (uint32_t)any(), priority = below(one_in(20) ? 300 : 4);
    uint32_t ontime = one_in(40) ? below(70000) : draw_ontime(), lifetime = draw_lifetime();

    presscurlew_put_offer(record, id, priority, ontime, lifetime, stamp);
    if (one_in(20))
        record[0] = (uint8_t)below(5);
}

static void add_answers(uint32_t number, uint32_t room) {
    add_refusal(number);
    for (uint32_t i = 0; i < sizeof answers; i++)
        if (number == 0 && i < room && answers[i] < 16)
            add_refusal(answers[i]);
        else
            add(answers[i]);
}

static void burst(void) {
    uint32_t many = below(RECORDS + 1), bytes = many * PRESSCURLEW_RECORD_BYTES + one_in(20);
    uint32_t room = one_in(20) && many > 0 ? many - 1 : many + below(2), stamp = now;

    for (uint32_t i = 0; i < many; i++) {
        stamp = one_in(60) ? now - 1 : one_in(2) ? stamp : stamp + below(2000);
        draw_record(records + i * PRESSCURLEW_RECORD_BYTES, stamp);
    }
    memset(answers, 0xEE, sizeof answers);
    lend();
    uint32_t number = presscurlew_burst(&gate, bytes == 0 ? NULL : records, bytes, answers, room);
    add_gate(&gate);
    add_answers(number, many);
    mistakes += number != 0 && memcmp(&given, &gate, sizeof gate) != 0;
    memset(answers, 0xEE, sizeof answers);
    presscurlew_plain_burst_turn u = presscurlew_plain_burst(plain, bytes == 0 ? NULL : records, bytes, answers, room);
    add_plain_state(&u.state);
    add_answers(u.number, many);
    plain = u.state;
    now = gate.live == 1 ? gate.stamp : now;
    closed_for = 0;
}

/* Records of the log, at places that are there and that are not, the very last numbers of size_t among them. */
static void write_records(void) {
    uint8_t log[40];
    uint32_t profile = below(one_in(4) ? 300 : 6), when_full = below(one_in(4) ? 3 : 2), stamp = (uint32_t)any();
    uint32_t wide = below(32), busy = (uint32_t)any() >> wide, id = (uint32_t)any();
    uint32_t probes = one_in(8) ? 1000 : below(20000);
    uint32_t priority = below(one_in(4) ? 300 : 4), ontime = below(one_in(4) ? 70000 : 4001);
    uint32_t lifetime = (uint32_t)any();
    uint32_t bytes = below(sizeof log + 1), count, words_probes = draw_words(&count), far = below(40);
    size_t at = one_in(8) ? SIZE_MAX - far : far;

    memset(log, 0xEE, sizeof log);
    add_refusal(presscurlew_write_make(profile, when_full, stamp, log, bytes, at));
    for (uint32_t i = 0; i < sizeof log; i++)
        add(log[i]);
    add_refusal(presscurlew_write_sample_count(busy, probes, stamp, log, bytes, at));
    for (uint32_t i = 0; i < sizeof log; i++)
        add(log[i]);
    add_refusal(presscurlew_write_sample_words(words_probes, words, count, stamp, log, bytes, at));
    for (uint32_t i = 0; i < sizeof log; i++)
        add(log[i]);
    add_refusal(presscurlew_write_offer(id, priority, ontime, lifetime, stamp, log, bytes, at));
    for (uint32_t i = 0; i < sizeof log; i++)
        add(log[i]);
    add_refusal(presscurlew_write_poll(stamp, log, bytes, at));
    for (uint32_t i = 0; i < sizeof log; i++)
        add(log[i]);
}

static uint32_t edge(uint32_t high) {
    static const uint32_t edges[] = {0,        1,        500,      501,      1000,     1001,    4000,    4001,
                                     299999,   300000,   399999,   400000,   499999,   500000,  599999,  600000,
                                     600001,   620000,   620001,   650000,   650001,   680000,  999999,  1000000,
                                     1000001,  29999999, 30000000, 30000001, 60000000, 60000001, 4294967295u};

    return one_in(4) ? edges[below(sizeof edges / sizeof edges[0])] : below(high);
}

static void rules(void) {
    uint32_t profile = below(7), level = below(one_in(9) ? 7 : 5), load = edge(1000001), kept = edge(1000001);
    uint32_t new_load = edge(1000001), duty = one_in(9) ? edge(600001) : 600000 + below(29400001);
    uint32_t ontime = below(one_in(9) ? 4100 : 500);
    presscurlew_level_answer a = presscurlew_wanted_level(profile, load);
    presscurlew_level_answer b = presscurlew_level_step(profile, load, level);
    presscurlew_duty_answer c = presscurlew_duty_update(duty, load, kept, new_load);
    presscurlew_wait_answer d = presscurlew_wait(profile, level, duty, ontime, load);

    add_refusal(a.refusal);
    add(a.level);
    add_refusal(b.refusal);
    add(b.level);
    add_refusal(c.refusal);
    add((uint64_t)c.smoothed << 32 | c.duty);
    add_refusal(d.refusal);
    add(d.wait);
}

static double double_of(uint64_t bits) {
    double x;

    memcpy(&x, &bits, sizeof x);
    return x;
}

static uint64_t bits_of(double x) {
    uint64_t bits;

    memcpy(&bits, &x, sizeof bits);
    return bits;
}

/* A double from 2^(low - 1023) up to 2^(high - 1023); now and then anything at all, not-a-number and -0.0 among it. */
static double draw_double(uint32_t low, uint32_t high) {
    static const uint64_t edges[] = {0,
                                     UINT64_C(1) << 63,
                                     1,
                                     UINT64_C(0x000FFFFFFFFFFFFF),
                                     UINT64_C(0x3FF0000000000000),
                                     UINT64_C(0x3FF0000000000001),
                                     UINT64_C(0x7FF0000000000000),
                                     UINT64_C(0x7FF8000000000000),
                                     UINT64_C(0xFFF0000000000001)};

    if (one_in(12))
        return double_of(edges[below(9)]);
    if (one_in(24))
        return double_of(any());
    uint64_t exponent = low + below(high - low), fraction = any() >> 12;
    return double_of(exponent << 52 | fraction);
}

/* Loads from 2^-8 to 1, and duties from 2^-11 (0.00049) to 2^-5 (0.031); a stretch of updates on what came back. */
static void float_updates(void) {
    double duty = draw_double(1012, 1018), smoothed = draw_double(1015, 1023);

    for (int i = 0; i < 4; i++) {
        double kept = draw_double(one_in(8) ? 1 : 1015, 1023), new_load = draw_double(1015, 1023);
        presscurlew_float_answer a = presscurlew_float_update(duty, smoothed, kept, new_load);

        add_refusal(a.refusal);
        add(bits_of(a.smoothed));
        add(bits_of(a.duty));
        if (a.refusal != PRESSCURLEW_ACCEPTED)
            return;
        duty = a.duty;
        smoothed = a.smoothed;
    }
}

/* Moves all times of a sound state on by d: a gate near the end of its clock. The ledger's go by the last admission. */
static void grow_old(uint64_t d) {
    for (int q = 0; q < 4; q++)
        for (uint32_t i = 0; i < gate.queues[q].len; i++)
            gate.arrivals[q][i] += d;
    for (uint64_t i = 0; i < plain.line.len; i++)
        plain.line.packets[i].arrival += d;
    gate.last_at += gate.admitted != 0 ? d : 0;
    plain.last.at += plain.last.admitted != 0 ? d : 0;
    gate.time += d;
    plain.clock.time += d;
}

/* One bit of each state is another, or one number, or it is 1 more or less. */
static void spoil_any(uint8_t *state, uint32_t bytes) {
    uint32_t place = below(bytes / 4) * 4, bit = below(8), value;

    if (one_in(3)) {
        state[place + below(4)] ^= (uint8_t)(1 << bit);
        return;
    }
    memcpy(&value, state + place, 4);
    value = one_in(3) ? value + 1 - 2 * below(2) : one_in(3) ? (uint32_t)any() : edge(45);
    memcpy(state + place, &value, 4);
}

/* A word of the ledger: made so long before the last admission, with this on-time. */
static uint32_t word(uint32_t age, uint32_t ontime) { return age * 4096 + ontime; }

/* The ledger at the edge of what is sound: two admissions, the sum of the on-times, or the age of the oldest. */
static void spoil_ledger(uint32_t way, uint32_t place, uint32_t more) {
    uint32_t *words = gate.air, ago = (uint32_t)(gate.time - gate.last_at);

    if (way == 0)
        words[place] = word(words[place + 1] / 4096 + 25000 - more, words[place] % 4096);
    for (uint32_t i = 0, lacking = 30000 + more - ledger_sum(); way == 1 && i < gate.admissions - 1; i++) {
        uint32_t room = most > words[i] % 4096 ? most - words[i] % 4096 : 0;
        uint32_t longer = room < lacking ? room : lacking;
        words[i] += longer;
        lacking -= longer;
    }
    if (way == 2)
        words[0] = word(1000000 - more - ago, words[0] % 4096);
    memcpy(plain.ledger.slots, words, sizeof plain.ledger.slots);
}

/* The list or the loads at the edge of what is sound, in any profile: their rows, and then their lengths too. */
static void spoil_rows(uint32_t *thresholds, uint32_t *waits, uint32_t *loads, uint32_t way, uint32_t place) {
    if (way == 1)
        thresholds[place % 8] = place % 8 > 0 ? thresholds[place % 8 - 1] + place % 2 : place % 2;
    if (way == 2)
        waits[place % 8] = place % 3 == 0 ? 0 : 39998 + place % 3;
    if (way == 4)
        loads[place] = 1000000 + place % 2;
}

static void spoil_listing(uint32_t way, uint32_t place) {
    if (way == 0)
        plain.levels.len = gate.level_count = place % 10;
    if (way == 3)
        plain.loads.len = gate.load_count = place < 13 ? 50 + place % 2 : place;
    spoil_rows(gate.thresholds, gate.waits, gate.loads, way, place);
    spoil_rows(plain.levels.thresholds, plain.levels.waits, plain.loads.slots, way, place);
}

static void spoil(void) {
    uint32_t way = below(4), place = below(40), more = below(2);
    uint64_t oldest = gate.time - 1000000 + more;

    if (one_in(3)) {
        way = below(5);
        spoil_listing(way, place);
        return;
    }
    if (one_in(2) || place + 1 >= gate.admissions) {
        spoil_any((uint8_t *)&gate, sizeof gate);
        spoil_any((uint8_t *)&plain, sizeof plain);
        return;
    }
    if (way == 3) { /* all of the ledger moves with the last admission */
        gate.last_at = oldest + gate.air[0] / 4096;
        plain.last.at = gate.last_at;
        return;
    }
    spoil_ledger(way, place, more);
}

/* Whether the gate is sound: as it says itself, and as a poll of it finds, which changes no stamp and no time. */
static void judge(void) {
    uint32_t sound = presscurlew_is_sound(&gate);

    lend();
    presscurlew_reply r = presscurlew_poll(&gate, gate.stamp);

    add(sound);
    add_gate(&gate);
    add_reply(&r);
    mistakes += sound != (r.kind != PRESSCURLEW_REFUSED) || (sound == 0 && r.number != PRESSCURLEW_NO_STATE);
    gate = given;
}

/* A call of a kind that there is not: the archive's own refusal. The calls of the header never ask so. */
static void no_such_call(uint32_t kind) {
    lend();
    presscurlew_reply r = presscurlew_gate_call(PRESSCURLEW_PARTS(&gate), kind, 1, 1, 1, 1, gate.stamp);

    add_reply(&r);
    mistakes += r.kind != PRESSCURLEW_REFUSED || r.number != PRESSCURLEW_BAD_KIND ||
                memcmp(&given, &gate, sizeof gate) != 0;
}

static void any_call(void) {
    switch (below(16)) {
    case 0:
    case 1:
    case 2:
    case 3:
    case 4:
        offer();
        break;
    case 5:
        sample_count();
        break;
    case 6:
        sample_words();
        break;
    case 7:
        burst();
        break;
    default:
        poll();
    }
}

/* Some calls on a spoiled copy, on one at the end of its clock or on one at the end of its count, and then back. */
static void aside(void) {
    static presscurlew_gate gate_before;
    static presscurlew_plain_state plain_before;
    uint32_t now_before = now, closed_before = closed_for, way = below(8);
    uint64_t more = UINT64_C(999999999999998) - gate.accepted;

    gate_before = gate;
    plain_before = plain;
    if (way == 0)
        grow_old(UINT64_C(999999999990000) - gate.time);
    if (way == 1) {
        gate.accepted += more;
        plain.counts.accepted += more;
        gate.sent += more;
        plain.counts.sent += more;
    }
    if (way > 1)
        spoil();
    judge();
    if (way > 1)
        burst();
    for (int i = 0; i < (way > 1 ? 1 : 8); i++)
        any_call();
    gate = gate_before;
    plain = plain_before;
    now = now_before;
    closed_for = closed_before;
}

/*
 * How the calls of the next stretch are drawn: short or long packets, a quiet or a loud channel, quick or slow, with
 * steps to where something happens or without.
 */
static void new_stretch(uint32_t profile) {
    static const uint32_t allowed[] = {1000, 1000, 500, 4000, 4000, 1000};

    most = profile <= 5 ? allowed[profile] : 1000;
    longest = one_in(2) ? most : one_in(2) ? 300 : most / 2;
    busy_most = one_in(2) ? 20 : one_in(2) ? 70 : 100;
    slow = one_in(4) ? 900000 : one_in(2) ? 30000 : 3000;
    at_edges = one_in(2);
}

static void play(uint32_t profile, uint32_t when_full) {
    make(profile, when_full);
    for (uint32_t i = 0; i < STEPS; i++) {
        if (i % 250 == 0)
            new_stretch(profile);
        any_call();
        if (profile == 5 && one_in(12))
            steady_samples();
        if (one_in(8))
            aside();
        if (one_in(8))
            rules();
        if (one_in(16))
            write_records();
        if (one_in(8))
            float_updates();
    }
}

/* Profile 4's wait at each load in per mille, as the rule and as both engines have it. */
static void play_loads(void) {
    static const uint32_t ontimes[] = {4000, 650};

    for (uint32_t i = 0; i < 2 * 1001; i++) {
        uint32_t ontime = ontimes[i % 2], load = i / 2 * 1000;
        presscurlew_wait_answer answer = presscurlew_wait(4, 0, 600000, ontime, load);
        presscurlew_reply r = presscurlew_make(&gate, 4, 0, NULL, 0);
        presscurlew_plain_turn u = presscurlew_plain_make(4, 0, presscurlew_plain_no_list(), 0);

        add(r.kind);
        r = presscurlew_offer(&gate, 1, 0, ontime, 60000000, 0);
        u = presscurlew_plain_offer(u.state, 1, 0, ontime, 60000000, 0);
        add(r.kind);
        r = presscurlew_poll(&gate, 0);
        u = presscurlew_plain_poll(u.state, 0);
        add(r.kind);
        r = presscurlew_offer(&gate, 2, 0, ontime, 60000000, 0);
        u = presscurlew_plain_offer(u.state, 2, 0, ontime, 60000000, 0);
        add(r.kind);
        r = presscurlew_sample_count(&gate, i / 2, 1000, 0);
        u = presscurlew_plain_sample_count(u.state, i / 2, 1000, 0);
        add(r.kind);
        r = presscurlew_poll(&gate, 0);
        u = presscurlew_plain_poll(u.state, 0);
        add_refusal(answer.refusal);
        add(answer.wait);
        add_gate(&gate);
        add_reply(&r);
        plain_took(&u);
    }
}

/* Makes that are refused, and calls on what they leave; and no call at all. */
static void play_none(void) {
    static const uint32_t bad[][2] = {{0, 0}, {77, 1}, {1, 2}, {4294967295u, 4294967295u}};
    static const uint32_t none[] = {0, 4, 5, 4294967295u};

    for (int i = 0; i < 4; i++) {
        make(bad[i][0], bad[i][1]);
        for (int k = 0; k < 4; k++)
            any_call();
        no_such_call(none[i]);
    }
    for (int i = 0; i < 20; i++) {
        uint32_t profile = i < 16 ? 5 : 1 + below(6), when_full = below(i < 16 ? 2 : 3);
        presscurlew_levels list = draw_list(0);

        make_with(profile, when_full, &list);
        any_call();
        no_such_call(4 + below(4));
    }
}

static int all_seen(void) {
    int seen = longest_ledger >= 30 && highest_level == 8;

    for (int i = 0; i < 6; i++)
        seen = seen && kinds[i] > 0;
    for (int i = 1; i <= 15; i++)
        seen = seen && refusals[i] > 0;
    return seen && refusals[16] == 0 && mistakes == 0;
}

int main(void) {
    play_loads();
    for (uint32_t round = 1; round <= ROUNDS; round++) {
        new_stretch(1);
        play_none();
        for (uint32_t profile = 1; profile <= 5; profile++) {
            play(profile, PRESSCURLEW_DROP_OLDEST);
            play(profile, PRESSCURLEW_REFUSE_NEW);
        }
        printf("round %" PRIu32 ": %" PRIu64 " calls, sum %016" PRIx64 ", ledger up to %" PRIu32, round, calls, sum,
               longest_ledger);
        printf("; answers");
        for (int i = 0; i < 6; i++)
            printf(" %" PRIu32, kinds[i]);
        printf("; refusals");
        for (int i = 1; i <= 15; i++)
            printf(" %" PRIu32, refusals[i]);
        printf("\n");
        fflush(stdout);
    }
    return all_seen() ? 0 : 1;
}
