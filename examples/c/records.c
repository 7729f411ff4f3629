/*
 * Calls written for the log: the 16 bytes of each kind, what is refused and in which order, and that a burst's record is
 * that of the log.
 */
#include <inttypes.h>
#include <stdio.h>
#include <string.h>

#include "presscurlew.h"

enum { BYTES = PRESSCURLEW_RECORD_BYTES, BLANK = 0xa5, WORDS = PRESSCURLEW_MOST_WORDS };

static const uint32_t STAMP = 0x04030201, ID = 0x14131211, LIFETIME = 0x0a090807;

/* A place with a byte before it and one behind it, which no call may write. */
static uint8_t place[1 + BYTES + 1];

static uint8_t *fresh(void) {
    memset(place, BLANK, sizeof place);
    return place;
}

static void show(const char *what, uint32_t number) {
    printf("%-26s %" PRIu32 " ", what, number);
    for (unsigned i = 1; i <= BYTES; i++)
        printf(" %02x", place[i]);
    printf("%s\n", place[0] == BLANK && place[BYTES + 1] == BLANK ? "" : "  and beside it");
}

static void each_kind(const uint64_t words[WORDS]) {
    show("make", presscurlew_write_make(3, PRESSCURLEW_REFUSE_NEW, STAMP, fresh(), sizeof place, 1));
    show("sample by words", presscurlew_write_sample_words(12500, words, WORDS, STAMP, fresh(), sizeof place, 1));
    show(".. 1,000 probes of them", presscurlew_write_sample_words(1000, words, 16, STAMP, fresh(), sizeof place, 1));
    show("sample by count", presscurlew_write_sample_count(ID, LIFETIME, STAMP, fresh(), sizeof place, 1));
    show(".. of 1,000 probes", presscurlew_write_sample_count(ID, 1000, STAMP, fresh(), sizeof place, 1));
    show("offer", presscurlew_write_offer(ID, 3, 0x0605, LIFETIME, STAMP, fresh(), sizeof place, 1));
    show("poll", presscurlew_write_poll(STAMP, fresh(), sizeof place, 1));
}

/* Numbers that the gate refuses are written, as long as they fit. */
static void what_fits(void) {
    show("profile 77", presscurlew_write_make(77, 0, 0, fresh(), sizeof place, 1));
    show("5,000 busy of 20,000", presscurlew_write_sample_count(5000, 20000, 0, fresh(), sizeof place, 1));
    show("priority, on-time at most", presscurlew_write_offer(0, 255, 65535, 0, 0, fresh(), sizeof place, 1));
}

static int blank(void) {
    for (unsigned i = 0; i < sizeof place; i++)
        if (place[i] != BLANK)
            return 0;
    return 1;
}

static void refused(const char *what, uint32_t number) {
    printf("%-44s %2" PRIu32 "%s\n", what, number, blank() ? "" : ", and something was written");
}

/* Each with room for the record and without: what does not fit comes before the room. */
static void what_is_refused(const uint64_t words[WORDS]) {
    static const size_t places[] = {1, 3, SIZE_MAX - 15, SIZE_MAX};

    for (unsigned i = 0; i < sizeof places / sizeof places[0]; i++) {
        size_t at = places[i];
        printf("at %s\n", at == 1 ? "1" : at == 3 ? "3, where 15 bytes are left" : "a place near 2^64");
        refused("  profile 256", presscurlew_write_make(256, 0, 0, fresh(), sizeof place, at));
        refused("  when_full 2", presscurlew_write_make(1, 2, 0, fresh(), sizeof place, at));
        refused("  195 words", presscurlew_write_sample_words(12500, words, 195, 0, fresh(), sizeof place, at));
        refused("  0 probes", presscurlew_write_sample_count(0, 0, 0, fresh(), sizeof place, at));
        refused("  priority 256 and on-time 65,536",
                presscurlew_write_offer(0, 256, 65536, 0, 0, fresh(), sizeof place, at));
        refused("  on-time 65,536", presscurlew_write_offer(0, 255, 65536, 0, 0, fresh(), sizeof place, at));
        if (at != 1)
            refused("  a poll", presscurlew_write_poll(0, fresh(), sizeof place, at));
    }
}

int main(void) {
    uint64_t words[WORDS] = {0};
    uint8_t record[BYTES];

    words[0] = UINT64_MAX;
    words[15] = 7;
    each_kind(words);
    what_fits();
    what_is_refused(words);
    uint32_t number = presscurlew_write_offer(ID, 3, 0x0605, LIFETIME, STAMP, fresh(), sizeof place, 1);
    presscurlew_put_offer(record, ID, 3, 0x0605, LIFETIME, STAMP);
    printf("a burst's record is %s\n", number == 0 && memcmp(record, place + 1, BYTES) == 0 ? "the same" : "another");
    return 0;
}
