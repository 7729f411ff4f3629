/*
 * Copying by words of 4 bytes, for a Cortex-M whose C library goes byte by byte, as Debian's picolibc does. The
 * plain engine's calls copy their state several times, so that this is most of their time there. Compile with -O2
 * -fno-builtin -fno-tree-loop-distribute-patterns, or a compiler makes calls of memcpy out of these loops, and link it before the
 * library. COPY=boards/copy.c boards/figures BOARD measures with it.
 */
#include <stddef.h>
#include <stdint.h>

static void copy_up(void *to, const void *from, size_t bytes) {
    uint8_t *low_to = to;
    const uint8_t *low_from = from;

    if ((((uintptr_t)to | (uintptr_t)from) & 3) == 0) {
        uint32_t *words_to = to;
        const uint32_t *words_from = from;

        for (; bytes >= 16; bytes -= 16, words_to += 4, words_from += 4) {
            uint32_t a = words_from[0], b = words_from[1], c = words_from[2], d = words_from[3];
            words_to[0] = a;
            words_to[1] = b;
            words_to[2] = c;
            words_to[3] = d;
        }
        for (; bytes >= 4; bytes -= 4)
            *words_to++ = *words_from++;
        low_to = (uint8_t *)words_to;
        low_from = (const uint8_t *)words_from;
    }
    while (bytes-- > 0)
        *low_to++ = *low_from++;
}

/* From the last byte down, where the places overlap and `to` is the higher one. */
static void copy_down(uint8_t *to, const uint8_t *from, size_t bytes) {
    while (bytes-- > 0)
        to[bytes] = from[bytes];
}

void *memcpy(void *to, const void *from, size_t bytes) {
    copy_up(to, from, bytes);
    return to;
}

void *memmove(void *to, const void *from, size_t bytes) {
    if ((uintptr_t)to - (uintptr_t)from < bytes)
        copy_down(to, from, bytes);
    else
        copy_up(to, from, bytes);
    return to;
}

void *memset(void *to, int value, size_t bytes) {
    uint8_t *byte = to;
    uint32_t word = (uint32_t)(uint8_t)value * UINT32_C(0x01010101);

    for (; bytes > 0 && ((uintptr_t)byte & 3) != 0; bytes--)
        *byte++ = (uint8_t)value;
    for (; bytes >= 4; bytes -= 4, byte += 4)
        *(uint32_t *)(void *)byte = word;
    while (bytes-- > 0)
        *byte++ = (uint8_t)value;
    return to;
}

/* The names that clang calls them by on Cortex-M; a place to clear or to copy is aligned as the name says. */
void __aeabi_memcpy(void *to, const void *from, size_t bytes) { copy_up(to, from, bytes); }
void __aeabi_memcpy4(void *to, const void *from, size_t bytes) { copy_up(to, from, bytes); }
void __aeabi_memcpy8(void *to, const void *from, size_t bytes) { copy_up(to, from, bytes); }
void __aeabi_memmove(void *to, const void *from, size_t bytes) { memmove(to, from, bytes); }
void __aeabi_memmove4(void *to, const void *from, size_t bytes) { memmove(to, from, bytes); }
void __aeabi_memmove8(void *to, const void *from, size_t bytes) { memmove(to, from, bytes); }
void __aeabi_memset(void *to, size_t bytes, int value) { memset(to, value, bytes); }
void __aeabi_memset4(void *to, size_t bytes, int value) { memset(to, value, bytes); }
void __aeabi_memset8(void *to, size_t bytes, int value) { memset(to, value, bytes); }
void __aeabi_memclr(void *to, size_t bytes) { memset(to, 0, bytes); }
void __aeabi_memclr4(void *to, size_t bytes) { memset(to, 0, bytes); }
void __aeabi_memclr8(void *to, size_t bytes) { memset(to, 0, bytes); }
