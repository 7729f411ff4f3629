/*
 * What a call of the archive takes: instructions and stack, the most that a walk through many states finds.
 *
 * It steps through each call one instruction at a time (the processor's trap flag), from the call's first one to its
 * return, and notes how many there were and how low the stack pointer got. No clock is read, so every run finds the
 * same. x86-64 Linux; package/measure builds and runs it.
 */
#define _GNU_SOURCE
#include <signal.h>
#include <stdio.h>
#include <stdlib.h>
#include <string.h>
#include <ucontext.h>

#include "presscurlew.h"

/* A leaf may use so many bytes below the stack pointer. */
enum { RED_ZONE = 128, CALLS = 20 };

static struct {
    uintptr_t entry, back, top, low;
    uint64_t steps;
    int inside;
} watch;

/* The processor stops here after each instruction. */
static void on_step(int signal, siginfo_t *info, void *context) {
    greg_t *registers = ((ucontext_t *)context)->uc_mcontext.gregs;
    uintptr_t at = (uintptr_t)registers[REG_RIP], stack = (uintptr_t)registers[REG_RSP];
    (void)signal, (void)info;
    if (!watch.inside && at == watch.entry && watch.steps == 0) {
        watch.inside = 1;
        watch.back = *(uintptr_t *)stack;
        watch.top = watch.low = stack;
    } else if (watch.inside && at == watch.back && stack == watch.top + sizeof(uintptr_t)) {
        watch.steps++;
        watch.inside = 0;
    } else if (watch.inside) {
        watch.steps++;
        watch.low = stack < watch.low ? stack : watch.low;
    }
}

#define STEP_ON() __asm__ volatile("pushfq; orq $0x100, (%%rsp); popfq" ::: "memory", "cc")
#define STEP_OFF() __asm__ volatile("pushfq; andq $~0x100, (%%rsp); popfq" ::: "memory", "cc")

/* The most that was found of each call. */
static struct {
    const char *name;
    uint64_t calls, steps, stack;
} found[CALLS];

static void note(const char *name) {
    int i = 0;
    while (found[i].name != NULL && strcmp(found[i].name, name) != 0)
        i++;
    uint64_t stack = watch.top - watch.low + sizeof(uintptr_t) + RED_ZONE;
    found[i].name = name;
    found[i].calls++;
    if (watch.steps == 0 || watch.inside)
        abort(); /* the call was not seen from end to end */
    found[i].steps = watch.steps > found[i].steps ? watch.steps : found[i].steps;
    found[i].stack = stack > found[i].stack ? stack : found[i].stack;
}

/*
 * Makes a call and watches it: WATCHED(reply, presscurlew_poll, &gate, stamp). It goes by a pointer, so that what the
 * header has of it is not inlined but called and counted.
 */
#define WATCHED(result, call, ...)                                                                                     \
    do {                                                                                                               \
        __typeof__(call) *volatile callee = (call);                                                                    \
        watch.entry = (uintptr_t)callee;                                                                               \
        watch.steps = 0;                                                                                               \
        STEP_ON();                                                                                                     \
        (result) = callee(__VA_ARGS__);                                                                                \
        STEP_OFF();                                                                                                    \
        note(#call);                                                                                                   \
    } while (0)

/* Numbers to choose by: the same in every run (xorshift). */
static uint64_t seed = 0x9e3779b97f4a7c15u;
static uint32_t below(uint32_t bound) {
    seed ^= seed << 13;
    seed ^= seed >> 7;
    seed ^= seed << 17;
    return (uint32_t)((seed >> 32) % bound);
}

static uint64_t words[PRESSCURLEW_MOST_WORDS];
static uint8_t records[20 * PRESSCURLEW_RECORD_BYTES], answers[20];

/* Profile 5's list, as long as one may be; no other profile looks at it. */
static const presscurlew_levels list = {
    8, 40000, {100000, 200000, 300000, 400000, 500000, 600000, 700000, 800000},
    {50000, 60000, 70000, 80000, 90000, 100000, 200000, 1000000}};

/* How a host behaves: how long its packets are and live, how many it has, how loud the channel is, how it polls. */
typedef struct habit {
    uint32_t ontime, lifetime, offers, busy, between;
} habit;

static const habit habits[] = {
    {1, 60000000, 20, 100, 25000},   /* short packets in a quiet channel: the ledger fills */
    {400, 300000, 20, 100, 25000},   /* queues full, and all expire now and then */
    {400, 60000000, 6, 900, 100000}, /* a loud channel */
    {500, 90000, 3, 500, 40000},     /* few, and short-lived */
};

/* Makes a call that is not watched. */
static void take(presscurlew_reply reply) {
    if (reply.number == PRESSCURLEW_NO_STATE)
        abort(); /* there is no such gate here */
}

static void sample(presscurlew_gate *gate, uint32_t busy, uint32_t stamp) {
    presscurlew_reply reply;
    for (size_t i = 0; i < PRESSCURLEW_MOST_WORDS; i++)
        words[i] = below(1000) < busy ? UINT64_MAX : 0;
    words[PRESSCURLEW_MOST_WORDS - 1] &= (UINT64_C(1) << PRESSCURLEW_MOST_PROBES % 64) - 1;
    WATCHED(reply, presscurlew_sample_words, gate, PRESSCURLEW_MOST_PROBES, words, PRESSCURLEW_MOST_WORDS, stamp);
    take(reply);
    WATCHED(reply, presscurlew_sample_count, gate, busy * 12, PRESSCURLEW_MOST_PROBES, stamp);
    take(reply);
}

static void burst(presscurlew_gate *gate, const habit *host, uint32_t stamp) {
    uint32_t number;
    for (uint32_t i = 0; i < 20; i++)
        presscurlew_put_offer(records + i * PRESSCURLEW_RECORD_BYTES, i, i % 4, host->ontime, host->lifetime, stamp);
    WATCHED(number, presscurlew_burst, gate, records, sizeof records, answers, sizeof answers);
    if (number != 0)
        abort();
}

/* A gate, and a host of this habit, for 60 polls; every tenth round is watched. */
static void walk(uint32_t profile, uint32_t when_full, const habit *host) {
    presscurlew_gate gate;
    presscurlew_reply reply;
    uint32_t stamp = below(UINT32_MAX), sound;
    WATCHED(reply, presscurlew_make, &gate, profile, when_full, &list, stamp);
    for (int i = 0; i < 40 && host->busy < 500; i++) /* profile 3 gets to its greatest duty */
        take(presscurlew_sample_count(&gate, 0, 1000, stamp));
    for (int round = 1; round <= 60; round++) {
        stamp += host->between;
        for (uint32_t i = below(host->offers + 1); i > 0; i--)
            take(presscurlew_offer(&gate, i, below(4), host->ontime, host->lifetime, stamp));
        if (round % 10 != 0) {
            take(presscurlew_poll(&gate, stamp));
            continue;
        }
        WATCHED(reply, presscurlew_offer, &gate, 0, below(4), host->ontime, host->lifetime, stamp);
        take(reply);
        WATCHED(reply, presscurlew_poll, &gate, stamp);
        take(reply);
        if (round % 30 != 0)
            continue;
        WATCHED(sound, presscurlew_is_sound, &gate);
        if (sound == 0)
            abort();
        sample(&gate, host->busy, stamp);
        burst(&gate, host, stamp);
    }
}

/*
 * All queues full, and of each the packets expired whose bit is set; a poll finds them so, and an offer. The ledger is
 * as full as the profile lets it get.
 */
static void crowd(uint32_t profile, unsigned expired) {
    uint32_t stamp = 0;
    presscurlew_gate gate, full;
    presscurlew_reply reply;
    take(presscurlew_make(&gate, profile, PRESSCURLEW_DROP_OLDEST, &list, stamp));
    for (int i = 0; i < 200; i++)
        take(presscurlew_sample_count(&gate, 0, 1000, stamp));
    for (uint32_t i = 0; i < 40; i++, stamp += 25001) {
        take(presscurlew_offer(&gate, i, 0, 1, 1000, stamp));
        take(presscurlew_poll(&gate, stamp));
    }
    for (uint32_t i = 0; i < 20; i++)
        take(presscurlew_offer(&gate, i, i % 4, 400, expired >> i / 4 & 1 ? 1000 : 60000000, stamp - 24000));
    full = gate;
    WATCHED(reply, presscurlew_poll, &gate, stamp);
    take(reply);
    gate = full;
    WATCHED(reply, presscurlew_offer, &gate, 20, 3, 400, 1000, stamp);
    take(reply);
    if (expired % 8 != 2)
        return;
    gate = full;
    sample(&gate, 900, stamp);
    gate = full;
    burst(&gate, &habits[0], stamp);
}

static void records_and_rules(uint32_t profile) {
    presscurlew_level_answer level;
    presscurlew_duty_answer duty;
    presscurlew_wait_answer wait;
    presscurlew_float_answer update;
    uint32_t number;
    uint8_t *log = records;
    WATCHED(number, presscurlew_busy, PRESSCURLEW_MOST_PROBES, words, PRESSCURLEW_MOST_WORDS);
    WATCHED(number, presscurlew_write_make, profile, 1, below(UINT32_MAX), log, sizeof records, 16);
    WATCHED(number, presscurlew_write_sample_words, PRESSCURLEW_MOST_PROBES, words, PRESSCURLEW_MOST_WORDS, 1, log, 16,
            0);
    WATCHED(number, presscurlew_write_sample_count, 77, 12500, 1, log, 16, 0);
    WATCHED(number, presscurlew_write_offer, 7, 3, 400, 1000, 1, log, 16, 0);
    WATCHED(number, presscurlew_write_poll, 1, log, 16, 0);
    for (uint32_t i = 0; i < 20; i++) {
        uint32_t load = i * 50000;
        WATCHED(level, presscurlew_wanted_level, 1 + i % 2, load);
        WATCHED(level, presscurlew_level_step, 1 + i % 2, load, i % 5);
        WATCHED(duty, presscurlew_duty_update, 600000 + i * 1470000, load, 1000000 - load, load);
        WATCHED(wait, presscurlew_wait, profile, i % 5, 600000 + i * 1470000, 1 + 20 * i, load);
        WATCHED(update, presscurlew_float_update, 0.0006 + i * 0.00147, i / 20.0, 0.5, 1.0 - i / 20.0);
    }
    (void)number, (void)level, (void)duty, (void)wait, (void)update;
}

int main(void) {
    struct sigaction action;
    memset(&action, 0, sizeof action);
    action.sa_sigaction = on_step;
    action.sa_flags = SA_SIGINFO;
    if (sigaction(SIGTRAP, &action, NULL) != 0)
        return 1;
    for (uint32_t profile = 1; profile <= 5; profile++) {
        for (size_t i = 0; i < sizeof habits / sizeof *habits; i++)
            walk(profile, i % 2, &habits[i]);
        for (unsigned expired = 0; expired < 32; expired++)
            crowd(profile, expired);
        records_and_rules(profile);
    }
    for (int i = 0; i < CALLS && found[i].name != NULL; i++)
        printf("| `%s` | %llu | %llu |\n", found[i].name, (unsigned long long)found[i].steps,
               (unsigned long long)found[i].stack);
    return 0;
}
