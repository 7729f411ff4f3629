/*
 * The rules on plain numbers, called as a radio stack in C would: a channel that turns loud and quiet
 * again under profile 1, profile 3's duty under a steady load, profile 4 where the load turns loud, the waits that
 * follow, and refusals.
 */
#include <inttypes.h>
#include <stdio.h>

#include "presscurlew.h"

/* One sample after the other moves the level by at most one; the wait goes with it. */
static void reactive(void) {
    static const uint32_t loads[] = {250000, 1000000, 1000000, 1000000, 1000000, 600000, 100000, 100000};
    uint32_t level = 0;

    puts("Profile 1: each sample moves the level by at most one");
    for (size_t i = 0; i < sizeof loads / sizeof loads[0]; i++) {
        presscurlew_level_answer wanted = presscurlew_wanted_level(1, loads[i]);
        presscurlew_level_answer next = presscurlew_level_step(1, loads[i], level);
        level = next.level;
        presscurlew_wait_answer wait = presscurlew_wait(1, level, 600000, 400, 0);
        printf("  load %7" PRIu32 "  wants %" PRIu32 "  level %" PRIu32 "  wait %7" PRIu32 " us\n", loads[i], wanted.level,
               level, wait.wait);
    }
}

/* Pairs of samples move the duty; the wait after a packet follows from duty and on-time. */
static void adaptive(void) {
    uint32_t duty = 600000, smoothed = 0;

    puts("Profile 3: a duty for each pair of samples, here of load 400000, and the wait after 751 us on air");
    for (int pair = 1; pair <= 5; pair++) {
        presscurlew_duty_answer next = presscurlew_duty_update(duty, smoothed, 400000, 400000);
        duty = next.duty;
        smoothed = next.smoothed;
        presscurlew_wait_answer wait = presscurlew_wait(3, 0, duty, 751, 0);
        printf("  pair %d  smoothed %6" PRIu32 "  duty %8" PRIu32 "  wait %7" PRIu32 " us\n", pair, smoothed, duty,
               wait.wait);
    }
}

/* The latest load alone says what the wait is: no longer than the least up to 62 %, above it many times the on-time. */
static void harmonised(void) {
    static const uint32_t loads[] = {0, 620000, 620001, 621001, 700000, 1000000};

    puts("Profile 4: the wait after 500 and after 4000 us on air goes by the latest load");
    for (size_t i = 0; i < sizeof loads / sizeof loads[0]; i++) {
        presscurlew_wait_answer brief = presscurlew_wait(4, 0, 600000, 500, loads[i]);
        presscurlew_wait_answer full = presscurlew_wait(4, 0, 600000, 4000, loads[i]);
        printf("  load %7" PRIu32 "  wait %7" PRIu32 " us and %7" PRIu32 " us\n", loads[i], brief.wait, full.wait);
    }
}

static const char *refusal_name(uint32_t refusal) {
    switch (refusal) {
    case PRESSCURLEW_ACCEPTED:
        return "ACCEPTED";
    case PRESSCURLEW_BAD_PROFILE:
        return "BAD_PROFILE";
    case PRESSCURLEW_BAD_LOAD:
        return "BAD_LOAD";
    case PRESSCURLEW_BAD_ON_TIME:
        return "BAD_ON_TIME";
    case PRESSCURLEW_OUT_OF_RANGE:
        return "OUT_OF_RANGE";
    default:
        return "not a refusal number";
    }
}

static void show_wait(uint32_t profile, uint32_t level, uint32_t duty, uint32_t ontime, uint32_t load) {
    presscurlew_wait_answer answer = presscurlew_wait(profile, level, duty, ontime, load);
    printf("  wait(%" PRIu32 ", %" PRIu32 ", %" PRIu32 ", %" PRIu32 ", %" PRIu32 "): ", profile, level, duty, ontime,
           load);
    printf("refusal %" PRIu32 " %s, wait %" PRIu32 "\n", answer.refusal, refusal_name(answer.refusal), answer.wait);
}

/* The first test that holds gives the number, and the other numbers are 0. */
static void refusals(void) {
    presscurlew_level_answer loud = presscurlew_wanted_level(2, 1000001);

    puts("Refusals, in the order 1, 9, 4, 6");
    show_wait(5, 5, 0, 0, 1000001);
    show_wait(2, 5, 600000, 0, 1000001);
    show_wait(2, 4, 599999, 0, 1000001);
    show_wait(2, 4, 600000, 501, 1000001);
    show_wait(2, 4, 600000, 501, 1000000);
    show_wait(2, 4, 600000, 500, 1000000);
    printf("  wanted_level(2, 1000001): refusal %" PRIu32 " %s, level %" PRIu32 "\n", loud.refusal,
           refusal_name(loud.refusal), loud.level);
}

int main(void) {
    reactive();
    adaptive();
    harmonised();
    refusals();
    return 0;
}
