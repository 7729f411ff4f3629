/*
 * The calls that presscurlew.h and presscurlew_plain.h declare, over the entries that boards/neutral gives the proved
 * modules. The C compiler of the board compiles it, so that structs go by value as they do on that board. It has no
 * branch and no arithmetic: a call hands on pointers, and pointers to what it was given.
 *
 * An entry takes a pointer for each struct, a pointer and a length of 64 bits for each slice, writes its answer to the
 * first one, and keeps nothing.
 */
#include "presscurlew_plain.h"

/*
 * The modules know no header: they read and write bytes at fixed offsets. A compiler that lays a struct out otherwise
 * must not get past here. layout.h has the size of each struct and the place of each field, made of the layout that
 * the x86-64 archive is tested with (examples/c/layout.out, plain_layout.out).
 */
#define SIZE(name, bytes) _Static_assert(sizeof(presscurlew_##name) == (bytes), "the size of " #name)
#define AT(name, field, place) _Static_assert(offsetof(presscurlew_##name, field) == (place), #name "." #field)
#include "layout.h"

SIZE(level_answer, 8);
AT(level_answer, level, 4);
SIZE(duty_answer, 12);
AT(duty_answer, smoothed, 4);
AT(duty_answer, duty, 8);
SIZE(wait_answer, 8);
AT(wait_answer, wait, 4);
SIZE(float_answer, 24);
AT(float_answer, smoothed, 8);
AT(float_answer, duty, 16);
_Static_assert(_Alignof(presscurlew_gate) == 8 && _Alignof(presscurlew_reply) == 8, "numbers of 64 bits align to 8");
_Static_assert(_Alignof(presscurlew_plain_turn) == 8, "turns are aligned to 8");
_Static_assert(_Alignof(presscurlew_float_answer) == 8, "the modules align doubles to 8");
_Static_assert(sizeof(void *) <= 8, "an address fits the place that it has in the modules");

/* The edition. */

void presscurlew_raw_version(uint32_t *out);
void presscurlew_raw_layout(uint32_t *out);
void presscurlew_raw_plain_layout(uint32_t *out);

uint32_t presscurlew_version(void) {
    uint32_t number;

    presscurlew_raw_version(&number);
    return number;
}

uint32_t presscurlew_layout(void) {
    uint32_t number;

    presscurlew_raw_layout(&number);
    return number;
}

uint32_t presscurlew_plain_layout(void) {
    uint32_t number;

    presscurlew_raw_plain_layout(&number);
    return number;
}

/* The gate. */

void presscurlew_raw_gate_make(presscurlew_reply *out, uint64_t *wide, uint32_t *narrow, uint32_t *queues,
                               uint64_t *arrivals, uint32_t *air, uint32_t *loads, uint32_t *thresholds,
                               uint32_t *waits, uint32_t profile, uint32_t when_full, uint32_t count,
                               uint32_t base_wait, const uint32_t *list_thresholds, const uint32_t *list_waits,
                               uint32_t stamp);
void presscurlew_raw_gate_call(presscurlew_reply *out, uint64_t *wide, uint32_t *narrow, uint32_t *queues,
                               uint64_t *arrivals, uint32_t *air, uint32_t *loads, const uint32_t *thresholds,
                               const uint32_t *waits, uint32_t kind, uint32_t a, uint32_t b, uint32_t c, uint32_t d,
                               uint32_t stamp);
void presscurlew_raw_gate_sound(uint32_t *out, const uint64_t *wide, const uint32_t *narrow, const uint32_t *queues,
                                const uint64_t *arrivals, const uint32_t *air, const uint32_t *loads,
                                const uint32_t *thresholds, const uint32_t *waits);
void presscurlew_raw_busy(uint32_t *out, uint32_t probes, const uint64_t *words, uint64_t count);
void presscurlew_raw_gate_burst(uint32_t *out, uint64_t *wide, uint32_t *narrow, uint32_t *queues, uint64_t *arrivals,
                                uint32_t *air, uint32_t *loads, const uint32_t *thresholds, const uint32_t *waits,
                                const uint8_t *records, uint64_t bytes, uint8_t *answers, uint64_t room);

presscurlew_reply presscurlew_gate_make(uint64_t *wide, uint32_t *narrow, uint32_t *queues, uint64_t *arrivals,
                                        uint32_t *air, uint32_t *loads, uint32_t *thresholds, uint32_t *waits,
                                        uint32_t profile, uint32_t when_full, uint32_t count, uint32_t base_wait,
                                        const uint32_t *list_thresholds, const uint32_t *list_waits, uint32_t stamp) {
    presscurlew_reply reply;

    presscurlew_raw_gate_make(&reply, wide, narrow, queues, arrivals, air, loads, thresholds, waits, profile, when_full,
                              count, base_wait, list_thresholds, list_waits, stamp);
    return reply;
}

presscurlew_reply presscurlew_gate_call(uint64_t *wide, uint32_t *narrow, uint32_t *queues, uint64_t *arrivals,
                                        uint32_t *air, uint32_t *loads, const uint32_t *thresholds,
                                        const uint32_t *waits, uint32_t kind, uint32_t a, uint32_t b, uint32_t c,
                                        uint32_t d, uint32_t stamp) {
    presscurlew_reply reply;

    presscurlew_raw_gate_call(&reply, wide, narrow, queues, arrivals, air, loads, thresholds, waits, kind, a, b, c, d,
                              stamp);
    return reply;
}

uint32_t presscurlew_gate_sound(const uint64_t *wide, const uint32_t *narrow, const uint32_t *queues,
                                const uint64_t *arrivals, const uint32_t *air, const uint32_t *loads,
                                const uint32_t *thresholds, const uint32_t *waits) {
    uint32_t number;

    presscurlew_raw_gate_sound(&number, wide, narrow, queues, arrivals, air, loads, thresholds, waits);
    return number;
}

uint32_t presscurlew_busy(uint32_t probes, const uint64_t *words, size_t count) {
    uint32_t number;

    presscurlew_raw_busy(&number, probes, words, count);
    return number;
}

uint32_t presscurlew_gate_burst(uint64_t *wide, uint32_t *narrow, uint32_t *queues, uint64_t *arrivals, uint32_t *air,
                                uint32_t *loads, const uint32_t *thresholds, const uint32_t *waits,
                                const uint8_t *records, size_t bytes, uint8_t *answers, size_t room) {
    uint32_t number;

    presscurlew_raw_gate_burst(&number, wide, narrow, queues, arrivals, air, loads, thresholds, waits, records, bytes,
                               answers, room);
    return number;
}

/* The log. */

void presscurlew_raw_write_make(uint32_t *out, uint32_t profile, uint32_t when_full, uint32_t stamp, uint8_t *log,
                                uint64_t bytes, uint64_t at);
void presscurlew_raw_write_sample_words(uint32_t *out, uint32_t probes, const uint64_t *words, uint64_t count,
                                        uint32_t stamp, uint8_t *log, uint64_t bytes, uint64_t at);
void presscurlew_raw_write_sample_count(uint32_t *out, uint32_t busy, uint32_t probes, uint32_t stamp, uint8_t *log,
                                        uint64_t bytes, uint64_t at);
void presscurlew_raw_write_offer(uint32_t *out, uint32_t id, uint32_t priority, uint32_t ontime, uint32_t lifetime,
                                 uint32_t stamp, uint8_t *log, uint64_t bytes, uint64_t at);
void presscurlew_raw_write_poll(uint32_t *out, uint32_t stamp, uint8_t *log, uint64_t bytes, uint64_t at);

uint32_t presscurlew_write_make(uint32_t profile, uint32_t when_full, uint32_t stamp, uint8_t *log, size_t bytes,
                                size_t at) {
    uint32_t refusal;

    presscurlew_raw_write_make(&refusal, profile, when_full, stamp, log, bytes, at);
    return refusal;
}

uint32_t presscurlew_write_sample_words(uint32_t probes, const uint64_t *words, size_t count, uint32_t stamp,
                                        uint8_t *log, size_t bytes, size_t at) {
    uint32_t refusal;

    presscurlew_raw_write_sample_words(&refusal, probes, words, count, stamp, log, bytes, at);
    return refusal;
}

uint32_t presscurlew_write_sample_count(uint32_t busy, uint32_t probes, uint32_t stamp, uint8_t *log, size_t bytes,
                                        size_t at) {
    uint32_t refusal;

    presscurlew_raw_write_sample_count(&refusal, busy, probes, stamp, log, bytes, at);
    return refusal;
}

uint32_t presscurlew_write_offer(uint32_t id, uint32_t priority, uint32_t ontime, uint32_t lifetime, uint32_t stamp,
                                 uint8_t *log, size_t bytes, size_t at) {
    uint32_t refusal;

    presscurlew_raw_write_offer(&refusal, id, priority, ontime, lifetime, stamp, log, bytes, at);
    return refusal;
}

uint32_t presscurlew_write_poll(uint32_t stamp, uint8_t *log, size_t bytes, size_t at) {
    uint32_t refusal;

    presscurlew_raw_write_poll(&refusal, stamp, log, bytes, at);
    return refusal;
}

/* The rules. */

void presscurlew_raw_wanted_level(presscurlew_level_answer *out, uint32_t profile, uint32_t load);
void presscurlew_raw_level_step(presscurlew_level_answer *out, uint32_t profile, uint32_t load, uint32_t level);
void presscurlew_raw_duty_update(presscurlew_duty_answer *out, uint32_t duty, uint32_t smoothed, uint32_t kept,
                                 uint32_t new_load);
void presscurlew_raw_wait(presscurlew_wait_answer *out, uint32_t profile, uint32_t level, uint32_t duty,
                          uint32_t ontime, uint32_t load);
void presscurlew_raw_float_update(presscurlew_float_answer *out, double duty, double smoothed, double kept,
                                  double new_load);

presscurlew_level_answer presscurlew_wanted_level(uint32_t profile, uint32_t load) {
    presscurlew_level_answer answer;

    presscurlew_raw_wanted_level(&answer, profile, load);
    return answer;
}

presscurlew_level_answer presscurlew_level_step(uint32_t profile, uint32_t load, uint32_t level) {
    presscurlew_level_answer answer;

    presscurlew_raw_level_step(&answer, profile, load, level);
    return answer;
}

presscurlew_duty_answer presscurlew_duty_update(uint32_t duty, uint32_t smoothed, uint32_t kept, uint32_t new_load) {
    presscurlew_duty_answer answer;

    presscurlew_raw_duty_update(&answer, duty, smoothed, kept, new_load);
    return answer;
}

presscurlew_wait_answer presscurlew_wait(uint32_t profile, uint32_t level, uint32_t duty, uint32_t ontime,
                                         uint32_t load) {
    presscurlew_wait_answer answer;

    presscurlew_raw_wait(&answer, profile, level, duty, ontime, load);
    return answer;
}

presscurlew_float_answer presscurlew_float_update(double duty, double smoothed, double kept, double new_load) {
    presscurlew_float_answer answer;

    presscurlew_raw_float_update(&answer, duty, smoothed, kept, new_load);
    return answer;
}

/* The plain engine. */

void presscurlew_raw_plain_make(presscurlew_plain_turn *out, uint32_t profile, uint32_t when_full,
                                presscurlew_plain_levels *list, uint32_t stamp);
void presscurlew_raw_plain_sample_words(presscurlew_plain_turn *out, presscurlew_plain_state *state, uint32_t probes,
                                        const uint64_t *words, uint64_t count, uint32_t stamp);
void presscurlew_raw_plain_sample_count(presscurlew_plain_turn *out, presscurlew_plain_state *state, uint32_t busy,
                                        uint32_t probes, uint32_t stamp);
void presscurlew_raw_plain_offer(presscurlew_plain_turn *out, presscurlew_plain_state *state, uint32_t id,
                                 uint32_t priority, uint32_t ontime, uint32_t lifetime, uint32_t stamp);
void presscurlew_raw_plain_poll(presscurlew_plain_turn *out, presscurlew_plain_state *state, uint32_t stamp);
void presscurlew_raw_plain_burst(presscurlew_plain_burst_turn *out, presscurlew_plain_state *state,
                                 const uint8_t *records, uint64_t bytes, uint8_t *answers, uint64_t room);

presscurlew_plain_turn presscurlew_plain_make(uint32_t profile, uint32_t when_full, presscurlew_plain_levels list,
                                              uint32_t stamp) {
    presscurlew_plain_turn turn;

    presscurlew_raw_plain_make(&turn, profile, when_full, &list, stamp);
    return turn;
}

presscurlew_plain_turn presscurlew_plain_sample_words(presscurlew_plain_state state, uint32_t probes,
                                                      const uint64_t *words, size_t count, uint32_t stamp) {
    presscurlew_plain_turn turn;

    presscurlew_raw_plain_sample_words(&turn, &state, probes, words, count, stamp);
    return turn;
}

presscurlew_plain_turn presscurlew_plain_sample_count(presscurlew_plain_state state, uint32_t busy, uint32_t probes,
                                                      uint32_t stamp) {
    presscurlew_plain_turn turn;

    presscurlew_raw_plain_sample_count(&turn, &state, busy, probes, stamp);
    return turn;
}

presscurlew_plain_turn presscurlew_plain_offer(presscurlew_plain_state state, uint32_t id, uint32_t priority,
                                               uint32_t ontime, uint32_t lifetime, uint32_t stamp) {
    presscurlew_plain_turn turn;

    presscurlew_raw_plain_offer(&turn, &state, id, priority, ontime, lifetime, stamp);
    return turn;
}

presscurlew_plain_turn presscurlew_plain_poll(presscurlew_plain_state state, uint32_t stamp) {
    presscurlew_plain_turn turn;

    presscurlew_raw_plain_poll(&turn, &state, stamp);
    return turn;
}

presscurlew_plain_burst_turn presscurlew_plain_burst(presscurlew_plain_state state, const uint8_t *records,
                                                     size_t bytes, uint8_t *answers, size_t room) {
    presscurlew_plain_burst_turn turn;

    presscurlew_raw_plain_burst(&turn, &state, records, bytes, answers, room);
    return turn;
}
