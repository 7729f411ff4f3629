/*
 * A host of the gate to start from: a trailer at roadworks that warns of the closed lane, tells its status and
 * sends the map of the site in pieces, over 4 s in which the channel gets crowded for a while.
 *
 * The radio is played: its clock is `now`, which wraps on the way, and hear_channel makes up what it probes.
 * All else is what a host does: keep the gate, sample, offer, poll, and wait as long as CLOSED says. What comes
 * together, warnings among it, is offered together, as a burst.
 *
 * And a host stays silent for a second after it starts. What this trailer sent before it was switched off, or crashed,
 * a new gate can't know: two runs closer than that can put more on air together than the label says of each.
 *
 *   roadworks [LOG [ANSWERS]]
 *
 * records its calls to LOG, each before it is made, and writes what they were answered to ANSWERS, in the words of the
 * program replay: played, the log gives these answers. Without a LOG nothing is recorded.
 */
#include <inttypes.h>
#include <stdio.h>
#include <stdlib.h>
#include <string.h>

#include "presscurlew.h"

enum { PROFILE = PRESSCURLEW_PROFILE_REACTIVE_A1 };

static const uint32_t START = 4294000000, TICK_US = 10000, TICKS = 400;

/* The radio probes the channel each 8 us, and is asked each 100 ms. */
enum { PROBES = PRESSCURLEW_MOST_PROBES, WORDS = PRESSCURLEW_WORDS(PROBES) };

/* What the host sends. */
typedef struct message {
    const char *name;
    uint32_t priority;
    uint32_t ontime;
    uint32_t lifetime;
} message;

static const message messages[] = {
    {"warning", 0, 600, 1000000},
    {"status", 2, 300, 400000},
    {"map", 3, 900, 3000000},
};

enum { WARNING, STATUS, MAP };

/* The most messages that come in a tick: a warning, a status and six pieces of the map. */
enum { BURST = 8 };

typedef struct host {
    presscurlew_gate gate; /* lent to each call, which changes it */
    uint32_t now;          /* the radio's clock */
    uint32_t silent_until; /* no poll before: a run before this one may have sent just now. What is offered waits */
    uint32_t quiet_until;  /* no use to poll before: the gate said CLOSED */
    unsigned ready;        /* so many messages are to be offered next: */
    uint8_t records[BURST][PRESSCURLEW_RECORD_BYTES];
    uint32_t ids[BURST];
    uint32_t offered, refused, air_time;
    FILE *log;     /* the calls; NULL if they are not recorded */
    FILE *answers; /* what they were answered; NULL if it is not written */
} host;

static uint32_t since_start_ms(const host *h) { return (h->now - START) / 1000; }

/* This host does nothing that it has not recorded: it ends. Another may go on, and say so. */
static void give_up(const char *what) {
    perror(what);
    exit(1);
}

/* This host asks for nothing that no record and no burst can have: a number that is not 0 is a fault of its own. */
static void require(const char *what, uint32_t number) {
    if (number == 0)
        return;
    fprintf(stderr, "%s: %s\n", what, presscurlew_refusal_name(number));
    exit(1);
}

/* Records calls before they are made. Flushed, they outlive a crash of the host. */
static void record(const host *h, const uint8_t *records, size_t count) {
    if (h->log == NULL)
        return;
    if (fwrite(records, PRESSCURLEW_RECORD_BYTES, count, h->log) != count || fflush(h->log) != 0)
        give_up("the call log");
}

/* Records one call, by what its presscurlew_write_.. has answered and written. */
static void record_call(const host *h, uint32_t number, const uint8_t call[PRESSCURLEW_RECORD_BYTES]) {
    require("a record", number);
    record(h, call, 1);
}

/* Notes the answer to a call, in the words of replay. */
static void note(const host *h, const presscurlew_reply *reply) {
    static const char *const words[] = {"READY", "TAKEN", "SENT", "IDLE", "CLOSED", "REFUSED"};

    if (h->answers == NULL)
        return;
    fputs(words[reply->kind], h->answers);
    if (reply->kind == PRESSCURLEW_SENT)
        fprintf(h->answers, " %" PRIu32, reply->packet.id);
    if (reply->kind == PRESSCURLEW_CLOSED || reply->kind == PRESSCURLEW_REFUSED)
        fprintf(h->answers, " %" PRIu64, reply->number);
    fputc('\n', h->answers);
}

/* The probes of the channel, of which so many are busy. */
static void hear_channel(uint64_t words[WORDS], unsigned busy) {
    memset(words, 0, WORDS * sizeof words[0]);
    for (unsigned k = 0; k < PROBES; k++)
        if (k * 7919 % PROBES < busy)
            words[k / 64] |= UINT64_C(1) << k % 64;
}

static void sample(host *h, unsigned busy) {
    uint32_t level = presscurlew_get_level(&h->gate);
    uint64_t words[WORDS];
    uint8_t call[PRESSCURLEW_RECORD_BYTES];

    hear_channel(words, busy);
    record_call(h, presscurlew_write_sample_words(PROBES, words, WORDS, h->now, call, sizeof call, 0), call);
    presscurlew_reply reply = presscurlew_sample_words(&h->gate, PROBES, words, WORDS, h->now);
    note(h, &reply);
    /* The wait may be another one now, so the next poll is not put off any longer. */
    h->quiet_until = h->now;
    if (presscurlew_get_level(&h->gate) != level)
        printf("%5" PRIu32 " ms  level %" PRIu32 "\n", since_start_ms(h), presscurlew_get_level(&h->gate));
}

/* Makes a message ready to be offered. There is room for all that comes in a tick. */
static void prepare(host *h, int kind) {
    const message *m = &messages[kind];
    /* The host finds the message by the identifier when it is sent: the kind stands in its last two bits. */
    uint32_t id = h->offered++ << 2 | (uint32_t)kind;

    presscurlew_put_offer(h->records[h->ready], id, m->priority, m->ontime, m->lifetime, h->now);
    h->ids[h->ready++] = id;
}

/* The reply to an offer of a burst, by its answer byte. */
static presscurlew_reply reply_of(uint8_t answer) {
    presscurlew_reply reply = {.kind = answer == 0 ? PRESSCURLEW_TAKEN : PRESSCURLEW_REFUSED, .number = answer};

    return reply;
}

/* Offers all that is ready in one call. Its records are those of the log. */
static void offer_burst(host *h) {
    uint8_t answers[BURST];

    record(h, h->records[0], h->ready);
    /* The records are whole and each has its answer byte, so that the burst itself is not refused. */
    require("a burst", presscurlew_burst(&h->gate, h->records[0], h->ready * sizeof h->records[0], answers,
                                         sizeof answers));
    for (unsigned i = 0; i < h->ready; i++) {
        presscurlew_reply reply = reply_of(answers[i]);
        note(h, &reply);
        if (answers[i] == 0)
            continue;
        h->refused++;
        printf("%5" PRIu32 " ms  %s %" PRIu32 " refused: %s\n", since_start_ms(h), messages[h->ids[i] & 3].name,
               h->ids[i] >> 2, presscurlew_refusal_name(answers[i]));
    }
    h->ready = 0;
}

/* Puts a packet on air. */
static void transmit(host *h, const presscurlew_packet *packet) {
    uint64_t waited = presscurlew_get_time(&h->gate) - packet->arrival;

    h->air_time += packet->ontime;
    printf("%5" PRIu32 " ms  %s %" PRIu32 " sent, it waited %" PRIu64 " ms\n", since_start_ms(h),
           messages[packet->id & 3].name, packet->id >> 2, waited / 1000);
}

static void poll(host *h) {
    uint8_t call[PRESSCURLEW_RECORD_BYTES];

    record_call(h, presscurlew_write_poll(h->now, call, sizeof call, 0), call);
    presscurlew_reply reply = presscurlew_poll(&h->gate, h->now);
    note(h, &reply);
    switch (reply.kind) {
    case PRESSCURLEW_SENT:
        transmit(h, &reply.packet);
        break;
    case PRESSCURLEW_CLOSED:
        h->quiet_until = h->now + (uint32_t)reply.number;
        break;
    case PRESSCURLEW_IDLE:
        break;
    default:
        printf("%5" PRIu32 " ms  poll refused: %s\n", since_start_ms(h), presscurlew_refusal_name(reply.number));
    }
}

/* Whether `moment` has come; on a clock that wraps, only differences tell. */
static int has_come(const host *h, uint32_t moment) { return h->now - moment <= PRESSCURLEW_MOST_STEP_US; }

static void tick(host *h, unsigned t) {
    if (t % 10 == 0)
        sample(h, t < 150 ? 2500 : t < 250 ? 8750 : 1250);
    if (t % 50 == 2)
        prepare(h, WARNING);
    if (t % 20 == 1)
        prepare(h, STATUS);
    if (t == 155)
        for (int piece = 0; piece < 6; piece++)
            prepare(h, MAP);
    if (h->ready > 0)
        offer_burst(h);
    if (has_come(h, h->silent_until) && has_come(h, h->quiet_until))
        poll(h);
    h->now += TICK_US;
}

/* What the host has counted, and what the gate has: accepted is sent, expired, displaced and waiting together. */
static void sum_up(const host *h) {
    const presscurlew_gate *gate = &h->gate;

    printf("%" PRIu32 " offered, %" PRIu32 " refused; %" PRIu32 " us on air\n", h->offered, h->refused, h->air_time);
    printf("%" PRIu64 " accepted: %" PRIu64 " sent, ", presscurlew_get_accepted(gate), presscurlew_get_sent(gate));
    printf("%" PRIu64 " expired, ", presscurlew_get_expired(gate));
    printf("%" PRIu64 " displaced, ", presscurlew_get_displaced(gate));
    printf("%" PRIu32 " waiting\n", presscurlew_get_waiting(gate));
}

/* The file of an argument, NULL if there is none. */
static FILE *open_file(const char *path) {
    FILE *file = path == NULL ? NULL : fopen(path, "wb");

    if (path != NULL && file == NULL)
        give_up(path);
    return file;
}

static void close_file(FILE *file) {
    if (file != NULL && (ferror(file) || fclose(file) != 0))
        give_up("at the end");
}

/* Makes the gate; whether it is ready. */
static int make(host *h) {
    uint8_t call[PRESSCURLEW_RECORD_BYTES];

    /* The map's pieces all differ: none that was taken may be displaced, and one that finds no room is told. */
    record_call(h, presscurlew_write_make(PROFILE, PRESSCURLEW_REFUSE_NEW, h->now, call, sizeof call, 0), call);
    presscurlew_reply reply = presscurlew_make(&h->gate, PROFILE, PRESSCURLEW_REFUSE_NEW, NULL, h->now);
    note(h, &reply);
    return reply.kind == PRESSCURLEW_READY;
}

int main(int argc, char **argv) {
    host h = {.now = START, .silent_until = START + PRESSCURLEW_SILENCE_US, .quiet_until = START};

    if (presscurlew_layout() != PRESSCURLEW_LAYOUT) {
        fputs("the archive is not of this presscurlew.h\n", stderr);
        return 1;
    }
    h.log = open_file(argc > 1 ? argv[1] : NULL);
    h.answers = open_file(argc > 2 ? argv[2] : NULL);
    if (!make(&h))
        return 1;
    for (unsigned t = 0; t < TICKS; t++)
        tick(&h, t);
    sum_up(&h);
    if (h.answers != NULL)
        fputs("END\n", h.answers);
    close_file(h.log);
    close_file(h.answers);
    return 0;
}
