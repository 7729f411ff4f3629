/*
 * For a simulation that writes clause 5.4 with fractions: both updates of profile 3, whole-number and floating, over
 * one trace of loads, side by side. The gate uses the whole-number one. The simulation's own update, here `simulated`,
 * is held to the floating one bit for bit.
 */
#include <inttypes.h>
#include <stdio.h>
#include <string.h>

#include "presscurlew.h"

/* Pairs of loads in parts per 1,000,000: a quiet road, a jam that builds up and stays, and the road quiet again. */
static const uint32_t trace[][2] = {
    {10000, 20000},   {20000, 10000},    {35000, 50000},     {333333, 250000},  {500000, 620000},  {700000, 810000},
    {900000, 950000}, {1000000, 990000}, {1000000, 1000000}, {970000, 1000000}, {680000, 680001},  {640000, 700000},
    {400000, 300000}, {123457, 76543},   {50000, 0},         {0, 0},
};

/* The header's sequence, as a simulation would write it. It is compiled without fused operations: -ffp-contract=off. */
static presscurlew_float_answer simulated(double duty, double smoothed, double kept, double new_load) {
    presscurlew_float_answer next = {PRESSCURLEW_ACCEPTED, 0.5 * smoothed + 0.5 * ((kept + new_load) / 2.0), 0.0};
    double difference = 0.68 - next.smoothed;
    double product = difference * 0.0012;
    double offset = product;
    if (difference > 0.0 && product > 0.0005)
        offset = 0.0005;
    if (!(difference > 0.0) && product < -0.00025)
        offset = -0.00025;
    next.duty = (1.0 - 0.016) * duty + offset;
    if (next.duty < 0.0006)
        next.duty = 0.0006;
    if (next.duty > 0.03)
        next.duty = 0.03;
    return next;
}

static uint64_t bits(double x) {
    uint64_t pattern;
    memcpy(&pattern, &x, sizeof pattern);
    return pattern;
}

int main(void) {
    presscurlew_duty_answer whole = {PRESSCURLEW_ACCEPTED, 0, 600000};
    presscurlew_float_answer floating = {PRESSCURLEW_ACCEPTED, 0.0, 0.0006};
    unsigned same = 0, pairs = sizeof trace / sizeof trace[0];

    puts("Profile 3 after each pair of samples, from a fresh gate");
    puts("");
    printf("%4s %8s %8s   %-18s   %-20s   %s\n", "", "", "", "whole-number", "floating", "floating, by its bits");
    printf("%4s %8s %8s   %8s %9s", "pair", "kept", "new", "smoothed", "duty");
    printf("   %8s %11s   %16s %16s\n", "smoothed", "duty", "smoothed", "duty");
    for (unsigned i = 0; i < pairs; i++) {
        uint32_t kept = trace[i][0], new_load = trace[i][1];
        double kept_share = kept / 1e6, new_share = new_load / 1e6;
        presscurlew_float_answer own = simulated(floating.duty, floating.smoothed, kept_share, new_share);

        whole = presscurlew_duty_update(whole.duty, whole.smoothed, kept, new_load);
        floating = presscurlew_float_update(floating.duty, floating.smoothed, kept_share, new_share);
        if (whole.refusal != PRESSCURLEW_ACCEPTED || floating.refusal != PRESSCURLEW_ACCEPTED)
            return 1;
        if (bits(own.smoothed) == bits(floating.smoothed) && bits(own.duty) == bits(floating.duty))
            same++;
        printf("%4u %8" PRIu32 " %8" PRIu32, i + 1, kept, new_load);
        printf("   %8" PRIu32 " %9" PRIu32, whole.smoothed, whole.duty);
        printf("   %8.6f %11.9f   %016" PRIx64 " %016" PRIx64 "\n", floating.smoothed, floating.duty,
               bits(floating.smoothed), bits(floating.duty));
    }
    puts("");
    printf("The simulation's own update has the bits of the floating one in %u of %u pairs.\n", same, pairs);
    puts("That the floating numbers come near the whole-number ones is not claimed: each side is proved to be its own");
    puts("sequence of operations, and nothing is said of the distance between the two.");
    return 0;
}
