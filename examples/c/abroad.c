/*
 * A trailer abroad: profile 4 in a jam that comes and goes. Its radio probes the channel each 8 us, so that a load is
 * known to 80 parts per million. Up to 62 % the wait is 25 ms, and above it grows with load and time on air.
 *
 * Each line is a sample, a warning that goes on air with it, and how long the gate is closed then: the warning's time
 * on air and the wait. Polled so much later the gate sends the next warning, and not 1 us before.
 */
#include <inttypes.h>
#include <stdio.h>

#include "presscurlew.h"

enum { PROFILE = PRESSCURLEW_PROFILE_HARMONISED, PROBES = PRESSCURLEW_MOST_PROBES, ONTIME = 2000, APART_US = 2100000 };

/* Whether a call was taken; this host says so where one is not. */
static int taken(presscurlew_reply reply) {
    if (reply.kind == PRESSCURLEW_REFUSED)
        printf("      refused: %s\n", presscurlew_refusal_name(reply.number));
    return reply.kind == PRESSCURLEW_TAKEN;
}

/* Offers a warning, and polls. */
static presscurlew_reply warn(presscurlew_gate *gate, uint32_t now) {
    presscurlew_reply offered = presscurlew_offer(gate, now, 0, ONTIME, PRESSCURLEW_MOST_LIFETIME_US, now);

    return taken(offered) ? presscurlew_poll(gate, now) : offered;
}

/* Samples, and sends two warnings, each as soon as it may go. */
static void cycle(presscurlew_gate *gate, uint32_t busy, uint32_t now) {
    int sampled = taken(presscurlew_sample_count(gate, busy, PROBES, now));
    presscurlew_reply first = warn(gate, now), second = warn(gate, now);
    uint32_t load = gate->latest, closed = (uint32_t)second.number;
    presscurlew_reply before = presscurlew_poll(gate, now + closed - 1);
    presscurlew_reply after = presscurlew_poll(gate, now + closed);

    printf("%5" PRIu32 " busy, load %7" PRIu32 ": closed for %7" PRIu32 " us, ", busy, load, closed);
    printf("wait %7" PRIu32 "\n", presscurlew_wait(PROFILE, 0, PRESSCURLEW_LEAST_DUTY, ONTIME, load).wait);
    if (!sampled || first.kind != PRESSCURLEW_SENT || before.number != 1 || after.kind != PRESSCURLEW_SENT)
        puts("      but not so");
}

int main(void) {
    static const uint32_t busy[] = {0, 7750, 7751, 7900, 8125, 8750, 12500, 7750};
    static presscurlew_gate gate;

    if (presscurlew_make(&gate, PROFILE, PRESSCURLEW_DROP_OLDEST, NULL, 0).kind != PRESSCURLEW_READY)
        return 1;
    for (uint32_t i = 0; i < sizeof busy / sizeof busy[0]; i++)
        cycle(&gate, busy[i], i * APART_US);
    printf("%" PRIu64 " warnings sent\n", presscurlew_get_sent(&gate));
    return 0;
}
