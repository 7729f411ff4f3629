/*
 * An older trailer abroad: profile 5, the first edition's state machine. The list that the radio maker gives has three
 * levels above level 0, each with the load that leads to it and its wait.
 *
 * A sample comes each 100 ms. The level goes up once the last ten samples reach a threshold, that is, a second after
 * the noise began, and at once to the highest level that all ten reach; it goes down once none of the last fifty
 * reaches it, after five seconds of quiet. Each line is a second: the load of its ten samples, the level after them,
 * how long the gate is then closed after a warning of 500 us, and how many warnings went in it. One is offered every
 * 50 ms.
 */
#include <inttypes.h>
#include <stdio.h>

#include "presscurlew.h"

enum { PROFILE = PRESSCURLEW_PROFILE_FIRST_EDITION, PROBES = 1000, ONTIME = 500, LIFETIME = 50000 };
enum { STEP_US = 50000, STEPS = 20 };

static const presscurlew_levels list = {
    3, 60000, {200000, 400000, 700000}, {100000, 300000, 1000000}};

/* The busy probes of a sample in a second of the run. */
static uint32_t busy_in(uint32_t second) {
    static const uint32_t busy[] = {50, 450, 450, 900, 900, 900, 300, 100, 100, 100, 100, 100, 100, 100, 100};

    return busy[second];
}

/* No call of this host is refused; it would say so. */
static void take(presscurlew_reply reply) {
    if (reply.kind == PRESSCURLEW_REFUSED)
        printf("refused: %s\n", presscurlew_refusal_name(reply.number));
}

/* A second of 20 steps: a sample in each other one, a warning offered and polled for in each. */
static void play(presscurlew_gate *gate, uint32_t second) {
    uint32_t start = second * STEPS * STEP_US, sent = 0;

    for (uint32_t step = 0; step < STEPS; step++) {
        uint32_t now = start + step * STEP_US;
        if (step % 2 == 0)
            take(presscurlew_sample_count(gate, busy_in(second), PROBES, now));
        take(presscurlew_offer(gate, now, 0, ONTIME, LIFETIME, now));
        sent += presscurlew_poll(gate, now).kind == PRESSCURLEW_SENT;
    }
    uint32_t level = presscurlew_get_level(gate);
    uint32_t wait = level == 0 ? gate->base_wait : gate->waits[level - 1];
    printf("%2" PRIu32 " s: load %2" PRIu32 " %%, level %" PRIu32 ", closed for %7" PRIu32 " us, %2" PRIu32 " sent\n",
           second, busy_in(second) / 10, level, ONTIME + wait, sent);
}

/* A list that breaks a rule makes no gate. */
static void refuse(const char *why, const presscurlew_levels *bad) {
    presscurlew_gate gate;
    presscurlew_reply reply = presscurlew_make(&gate, PROFILE, PRESSCURLEW_DROP_OLDEST, bad, 0);

    printf("%s: %s\n", why, presscurlew_refusal_name(reply.number));
}

int main(void) {
    static presscurlew_gate gate;
    presscurlew_levels equal = list, hasty = list;

    take(presscurlew_make(&gate, PROFILE, PRESSCURLEW_DROP_OLDEST, &list, 0));
    for (uint32_t second = 0; second < 15; second++)
        play(&gate, second);
    printf("%" PRIu32 " loads held, %" PRIu64 " warnings sent\n", gate.load_count,
           presscurlew_get_sent(&gate));
    equal.thresholds[1] = equal.thresholds[0];
    refuse("two thresholds alike", &equal);
    hasty.waits[2] = 39999;
    refuse("a wait of 39,999 us", &hasty);
    refuse("no levels", NULL);
    return 0;
}
