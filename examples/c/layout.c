/*
 * Sizes and offsets of the gate's structs as C sees them. A test of the Rust package holds its own to the
 * same file, so that a host in C, a host in Rust and the archive agree on every byte.
 */
#include <stdio.h>

#include "presscurlew.h"

#define SIZE(name) printf(#name " %zu bytes\n", sizeof(presscurlew_##name))
#define FIELD(name, field) printf("  %-11s at %4zu\n", #field, offsetof(presscurlew_##name, field))

static void parts(void) {
    SIZE(packet);
    FIELD(packet, id);
    FIELD(packet, priority);
    FIELD(packet, ontime);
    FIELD(packet, lifetime);
    FIELD(packet, arrival);
    SIZE(waiting);
    FIELD(waiting, id);
    FIELD(waiting, ontime);
    FIELD(waiting, lifetime);
    SIZE(queue);
    FIELD(queue, len);
    FIELD(queue, packets);
    SIZE(levels);
    FIELD(levels, count);
    FIELD(levels, base_wait);
    FIELD(levels, thresholds);
    FIELD(levels, waits);
    SIZE(reply);
    FIELD(reply, packet);
    FIELD(reply, number);
    FIELD(reply, kind);
}

static void whole(void) {
    SIZE(gate);
    FIELD(gate, time);
    FIELD(gate, last_at);
    FIELD(gate, accepted);
    FIELD(gate, sent);
    FIELD(gate, expired);
    FIELD(gate, displaced);
    FIELD(gate, arrivals);
    FIELD(gate, stamp);
    FIELD(gate, last_ontime);
    FIELD(gate, admitted);
    FIELD(gate, level);
    FIELD(gate, duty);
    FIELD(gate, smoothed);
    FIELD(gate, kept);
    FIELD(gate, pairing);
    FIELD(gate, latest);
    FIELD(gate, admissions);
    FIELD(gate, load_count);
    FIELD(gate, profile);
    FIELD(gate, when_full);
    FIELD(gate, live);
    FIELD(gate, level_count);
    FIELD(gate, base_wait);
    FIELD(gate, queues);
    FIELD(gate, air);
    FIELD(gate, loads);
    FIELD(gate, thresholds);
    FIELD(gate, waits);
}

int main(void) {
    parts();
    whole();
    return 0;
}
