/*
 * A burst beside the single calls: the same answers and the same gate, in one call. Then what a burst as a whole can
 * be refused for, what a gate that is not sound does to it, and a queue that gets full.
 */
#include <inttypes.h>
#include <stdio.h>
#include <string.h>

#include "presscurlew.h"

enum { PROFILE = PRESSCURLEW_PROFILE_REACTIVE_A1, OFFERS = 11 };

/* A packet offered, with its stamp. */
typedef struct offered {
    uint32_t id, priority, ontime, lifetime, stamp;
} offered;

/* What profile 1 takes and refuses; two of the numbers are too wide for a record. */
static const offered offers[OFFERS] = {
    {.id = 1, .priority = 0, .ontime = 600, .lifetime = 1000000, .stamp = 10},
    {.id = 2, .priority = 0, .ontime = 600, .lifetime = 1000000, .stamp = 10},
    {.id = 3, .priority = 4, .ontime = 600, .lifetime = 1000000, .stamp = 10},
    {.id = 4, .priority = 256, .ontime = 600, .lifetime = 1000000, .stamp = 10},
    {.id = 5, .priority = 3, .ontime = 1001, .lifetime = 1000000, .stamp = 10},
    {.id = 6, .priority = 3, .ontime = 65537, .lifetime = 1000000, .stamp = 10},
    {.id = 7, .priority = 3, .ontime = 600, .lifetime = 0, .stamp = 10},
    {.id = 8, .priority = 3, .ontime = 600, .lifetime = 1000, .stamp = 9},
    {.id = 4294967295, .priority = 3, .ontime = 1000, .lifetime = 60000000, .stamp = 4000},
    {.id = 10, .priority = 1, .ontime = 1, .lifetime = 1, .stamp = 4000},
    {.id = 11, .priority = 1, .ontime = 1, .lifetime = 1, .stamp = 2147483648},
};

static uint8_t records[OFFERS][PRESSCURLEW_RECORD_BYTES];

static void put_records(void) {
    for (unsigned i = 0; i < OFFERS; i++) {
        const offered *o = &offers[i];
        presscurlew_put_offer(records[i], o->id, o->priority, o->ontime, o->lifetime, o->stamp);
    }
}

/* The number of an answer, 0 for TAKEN. */
static unsigned number(const presscurlew_reply *reply) {
    return reply->kind == PRESSCURLEW_REFUSED ? (unsigned)reply->number : 0;
}

/* Whether two gates are alike. They have no padding. */
static int alike(const presscurlew_gate *a, const presscurlew_gate *b) { return memcmp(a, b, sizeof *a) == 0; }

static void beside_single_calls(const presscurlew_gate *fresh) {
    presscurlew_gate together = *fresh, alone = *fresh;
    uint8_t answers[OFFERS];

    printf("a burst of %d offers: %" PRIu32 "\n", OFFERS,
           presscurlew_burst(&together, records[0], sizeof records, answers, sizeof answers));
    for (unsigned i = 0; i < OFFERS; i++) {
        const offered *o = &offers[i];
        presscurlew_reply single = presscurlew_offer(&alone, o->id, o->priority, o->ontime, o->lifetime, o->stamp);
        printf("  id %10" PRIu32 ": %2u, by a single call %2u\n", o->id, answers[i], number(&single));
    }
    printf("  %" PRIu64 " accepted; the states are %s\n", together.accepted,
           alike(&together, &alone) ? "the same" : "not the same");
}

/* A burst of so many bytes with so many answer bytes, on a copy of a gate. */
static void show(const char *what, const presscurlew_gate *given, size_t bytes, size_t room) {
    presscurlew_gate gate = *given;
    uint8_t answers[OFFERS];

    memset(answers, 255, sizeof answers);
    printf("%s: %" PRIu32 ", answers", what, presscurlew_burst(&gate, records[0], bytes, answers, room));
    for (unsigned i = 0; i < 3; i++)
        printf(" %u", answers[i]);
    printf(", time %" PRIu64 "\n", gate.time);
}

/* Six of one priority: the last finds five waiting, and the gate does as it was made. */
static void six(const char *what, uint32_t when_full) {
    presscurlew_gate gate;
    uint8_t warnings[6][PRESSCURLEW_RECORD_BYTES], answers[6];

    for (uint32_t i = 0; i < 6; i++)
        presscurlew_put_offer(warnings[i], i + 1, 0, 600, 1000000, 0);
    if (presscurlew_make(&gate, PROFILE, when_full, NULL, 0).kind != PRESSCURLEW_READY ||
        presscurlew_burst(&gate, warnings[0], sizeof warnings, answers, sizeof answers) != 0)
        return;
    printf("%s: the sixth gets %u, there wait", what, answers[5]);
    for (unsigned i = 0; i < 5; i++)
        printf(" %" PRIu32, gate.queues[0].packets[i].id);
    printf("; %" PRIu64 " displaced\n", gate.displaced);
}

int main(void) {
    presscurlew_gate fresh;

    if (presscurlew_make(&fresh, PROFILE, PRESSCURLEW_DROP_OLDEST, NULL, 0).kind != PRESSCURLEW_READY)
        return 1;
    presscurlew_gate bent = fresh;
    bent.level = 5;
    put_records();
    beside_single_calls(&fresh);
    puts("255 stands for a byte that was not written");
    show("two of the records", &fresh, 32, 3);
    show("no records", &fresh, 0, 3);
    show("torn, and no room", &fresh, 47, 1);
    show("no room", &fresh, 48, 2);
    show("not sound", &bent, 48, 3);
    show("not sound, no room", &bent, 48, 2);
    records[1][0] = 3;
    show("the second a poll", &fresh, 48, 3);
    show("the same, not sound", &bent, 48, 3);
    six("drop the oldest", PRESSCURLEW_DROP_OLDEST);
    six("refuse the new", PRESSCURLEW_REFUSE_NEW);
    return 0;
}
