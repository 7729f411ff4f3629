/*
 * What a host shows of its gate: a line each second, as a display on the trailer or a log would have it. It asks the
 * gate by presscurlew_get_time and its like, and needs to know nothing of what the struct has where.
 *
 * The channel is quiet, loud for 3 s, and quiet again. Each 50 ms a warning or a status comes, and every tenth of them
 * brings six pieces of a map, of which the sixth displaces the first.
 */
#include <inttypes.h>
#include <stdio.h>

#include "presscurlew.h"

enum { STEP_US = 50000, STEPS = 20, SECONDS = 6 };

/* No call of this host is refused; it would say so. */
static void take(presscurlew_reply reply) {
    if (reply.kind == PRESSCURLEW_REFUSED)
        printf("refused: %s\n", presscurlew_refusal_name(reply.number));
}

static void show(const presscurlew_gate *gate) {
    printf("%4" PRIu64 " ms  profile %" PRIu32 ", ", presscurlew_get_time(gate) / 1000, presscurlew_get_profile(gate));
    printf("level %" PRIu32 ", duty %" PRIu32 ";", presscurlew_get_level(gate), presscurlew_get_duty(gate));
    printf(" %" PRIu64 " accepted: %" PRIu64 " sent, %" PRIu64 " expired,", presscurlew_get_accepted(gate),
           presscurlew_get_sent(gate), presscurlew_get_expired(gate));
    printf(" %" PRIu64 " displaced,", presscurlew_get_displaced(gate));
    printf(" %" PRIu32 " waiting:", presscurlew_get_waiting(gate));
    for (uint32_t priority = 0; priority < PRESSCURLEW_PRIORITIES; priority++)
        printf(" %" PRIu32, presscurlew_get_waiting_of(gate, priority));
    puts("");
}

/* Whether the counts add up, as they do in every sound gate. */
static int adds_up(const presscurlew_gate *gate) {
    return presscurlew_get_accepted(gate) == presscurlew_get_sent(gate) + presscurlew_get_expired(gate) +
                                                 presscurlew_get_displaced(gate) + presscurlew_get_waiting(gate);
}

static void step(presscurlew_gate *gate, uint32_t k) {
    uint32_t now = k * STEP_US, second = k / STEPS, pieces = k % 10 == 0 ? 6 : 0;

    if (k % 2 == 0)
        take(presscurlew_sample_count(gate, second >= 1 && second < 4 ? 9000 : 1000, PRESSCURLEW_MOST_PROBES, now));
    take(presscurlew_offer(gate, k, k % 3 == 0 ? 0 : 2, 400, 400000, now));
    for (uint32_t piece = 0; piece < pieces; piece++)
        take(presscurlew_offer(gate, k, 3, 900, PRESSCURLEW_MOST_LIFETIME_US, now));
    if (now >= PRESSCURLEW_SILENCE_US)
        take(presscurlew_poll(gate, now));
    if (!adds_up(gate))
        puts("the counts do not add up");
}

int main(void) {
    static presscurlew_gate gate;

    show(&gate);
    take(presscurlew_make(&gate, PRESSCURLEW_PROFILE_REACTIVE_A1, PRESSCURLEW_DROP_OLDEST, NULL, 0));
    for (uint32_t k = 0; k <= SECONDS * STEPS; k++) {
        step(&gate, k);
        if (k % STEPS == 0)
            show(&gate);
    }
    printf("of priority %d: %" PRIu32 "\n", PRESSCURLEW_PRIORITIES,
           presscurlew_get_waiting_of(&gate, PRESSCURLEW_PRIORITIES));
    return 0;
}
