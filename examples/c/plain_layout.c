/*
 * Sizes and offsets of the plain engine's structs as C sees them; layout.c has packet and reply, which it shares with
 * the gate. A test of the Rust package holds its own to the same file.
 */
#include <stdio.h>

#include "presscurlew_plain.h"

#define SIZE(name) printf(#name " %zu bytes\n", sizeof(presscurlew_plain_##name))
#define FIELD(name, field) printf("  %-10s at %4zu\n", #field, offsetof(presscurlew_plain_##name, field))

static void parts(void) {
    SIZE(line);
    FIELD(line, len);
    FIELD(line, packets);
    SIZE(ledger);
    FIELD(ledger, len);
    FIELD(ledger, slots);
    SIZE(loads);
    FIELD(loads, len);
    FIELD(loads, slots);
    SIZE(levels);
    FIELD(levels, len);
    FIELD(levels, base_wait);
    FIELD(levels, thresholds);
    FIELD(levels, waits);
    SIZE(clock);
    FIELD(clock, time);
    FIELD(clock, stamp);
    SIZE(last);
    FIELD(last, at);
    FIELD(last, ontime);
    FIELD(last, admitted);
    SIZE(counts);
    FIELD(counts, accepted);
    FIELD(counts, sent);
    FIELD(counts, expired);
    FIELD(counts, displaced);
    SIZE(tuning);
    FIELD(tuning, level);
    FIELD(tuning, duty);
    FIELD(tuning, smoothed);
    FIELD(tuning, kept);
    FIELD(tuning, pairing);
    FIELD(tuning, latest);
}

static void wholes(void) {
    SIZE(state);
    FIELD(state, line);
    FIELD(state, ledger);
    FIELD(state, loads);
    FIELD(state, levels);
    FIELD(state, clock);
    FIELD(state, last);
    FIELD(state, counts);
    FIELD(state, tuning);
    FIELD(state, profile);
    FIELD(state, when_full);
    FIELD(state, live);
    SIZE(turn);
    FIELD(turn, state);
    FIELD(turn, reply);
    SIZE(burst_turn);
    FIELD(burst_turn, state);
    FIELD(burst_turn, number);
}

int main(void) {
    parts();
    wholes();
    return 0;
}
