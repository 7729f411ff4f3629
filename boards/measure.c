/*
 * The calls of stress.c once more, each between two calls of mark(), where count.c, a plugin of QEMU, reads how many
 * instructions were executed; and with the stack below it painted before and looked at after.
 *
 * Writes a line `call NAME STACK` for each call: the bytes of stack that were written below the caller's frame. In that
 * frame the caller has what it hands over, a gate's pointers or a state by value, and what it gets.
 */
#include "presscurlew_plain.h"

#include <stdio.h>

#if defined(__x86_64__)
#define STACK_POINTER(p) __asm volatile("mov %%rsp, %0" : "=r"(p))
#elif defined(__riscv)
#define STACK_POINTER(p) __asm volatile("mv %0, sp" : "=r"(p))
#else
#define STACK_POINTER(p) __asm volatile("mov %0, sp" : "=r"(p))
#endif

/* Words of 4 bytes: more than any call takes, and no more than a small board has. */
enum { PAINTED = 3750, PAINT = 0x5AA5A55A };

__attribute__((noinline)) void mark(void) { __asm volatile("" ::: "memory"); }

#define MEASURED(name, call)                                                                                           \
    __extension__({                                                                                                    \
        volatile uint32_t *top, *word;                                                                                 \
        STACK_POINTER(top);                                                                                            \
        for (word = top - PAINTED; word < top; word++)                                                                 \
            *word = PAINT;                                                                                             \
        mark();                                                                                                        \
        __auto_type answer = call;                                                                                     \
        mark();                                                                                                        \
        for (word = top - PAINTED; word < top && *word == PAINT; word++)                                               \
            continue;                                                                                                  \
        printf("call %s %u\n", name, (unsigned)(top - word) * 4);                                                      \
        answer;                                                                                                        \
    })

#define presscurlew_make(...) MEASURED("make", presscurlew_make(__VA_ARGS__))
#define presscurlew_sample_words(...) MEASURED("sample_words", presscurlew_sample_words(__VA_ARGS__))
#define presscurlew_sample_count(...) MEASURED("sample_count", presscurlew_sample_count(__VA_ARGS__))
#define presscurlew_offer(...) MEASURED("offer", presscurlew_offer(__VA_ARGS__))
#define presscurlew_poll(...) MEASURED("poll", presscurlew_poll(__VA_ARGS__))
#define presscurlew_burst(...) MEASURED("burst", presscurlew_burst(__VA_ARGS__))
#define presscurlew_is_sound(...) MEASURED("is_sound", presscurlew_is_sound(__VA_ARGS__))
#define presscurlew_write_make(...) MEASURED("write", presscurlew_write_make(__VA_ARGS__))
#define presscurlew_write_sample_words(...) MEASURED("write_sample_words", presscurlew_write_sample_words(__VA_ARGS__))
#define presscurlew_write_sample_count(...) MEASURED("write", presscurlew_write_sample_count(__VA_ARGS__))
#define presscurlew_write_offer(...) MEASURED("write", presscurlew_write_offer(__VA_ARGS__))
#define presscurlew_write_poll(...) MEASURED("write", presscurlew_write_poll(__VA_ARGS__))
#define presscurlew_wanted_level(...) MEASURED("wanted_level", presscurlew_wanted_level(__VA_ARGS__))
#define presscurlew_level_step(...) MEASURED("level_step", presscurlew_level_step(__VA_ARGS__))
#define presscurlew_duty_update(...) MEASURED("duty_update", presscurlew_duty_update(__VA_ARGS__))
#define presscurlew_wait(...) MEASURED("wait", presscurlew_wait(__VA_ARGS__))
#define presscurlew_float_update(...) MEASURED("float_update", presscurlew_float_update(__VA_ARGS__))
#define presscurlew_plain_make(...) MEASURED("plain", presscurlew_plain_make(__VA_ARGS__))
#define presscurlew_plain_sample_words(...) MEASURED("plain", presscurlew_plain_sample_words(__VA_ARGS__))
#define presscurlew_plain_sample_count(...) MEASURED("plain", presscurlew_plain_sample_count(__VA_ARGS__))
#define presscurlew_plain_offer(...) MEASURED("plain", presscurlew_plain_offer(__VA_ARGS__))
#define presscurlew_plain_poll(...) MEASURED("plain", presscurlew_plain_poll(__VA_ARGS__))
#define presscurlew_plain_burst(...) MEASURED("plain", presscurlew_plain_burst(__VA_ARGS__))

#define main stress_main
#include "stress.c"
#undef main

/*
 * A burst of 20, five of each priority: on a fresh gate; on full queues, where each displaces one; where all of these
 * have expired; and on full queues that are as full of admissions as the profile lets them get.
 */
static void play_twenty(uint32_t profile) {
    static const uint32_t stamps[] = {0, 10, 1000010, 2000020};
    static uint8_t twenty[20 * PRESSCURLEW_RECORD_BYTES], each[20];
    presscurlew_levels list = draw_list(1);
    presscurlew_reply r = (presscurlew_make)(&gate, profile, PRESSCURLEW_DROP_OLDEST, &list, 0);

    add(r.kind);
    for (uint32_t turn = 0; turn < 4; turn++) {
        for (uint32_t i = 0; i < 20; i++)
            presscurlew_put_offer(twenty + i * PRESSCURLEW_RECORD_BYTES, i, i % 4, 400, turn < 2 ? 500000 : 60000000,
                                  stamps[turn]);
        uint32_t number = MEASURED("burst_of_20", (presscurlew_burst)(&gate, twenty, sizeof twenty, each, sizeof each));
        add(number);
        for (uint32_t i = 0, now = stamps[turn]; turn == 2 && i < 40; i++, now += 25000)
            add((presscurlew_poll)(&gate, now).kind);
    }
}

int main(void) {
    int ended = stress_main();

    for (uint32_t profile = 1; profile <= 5; profile++)
        play_twenty(profile);
    return ended;
}
