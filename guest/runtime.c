/* What start.S calls, and what the compiler calls by itself. */
#include "aftersight.h"

/* so that the loop in memset does not become a call of memset */
#pragma GCC optimize("no-tree-loop-distribute-patterns")

enum { INTERRUPT = 0x80000000u };

/* Called by start.S with all registers saved; answers the frame to go on with. */
struct frame *take_trap(struct frame *frame, uint32_t cause, uint32_t value) {
    if (cause == (INTERRUPT | 7))
        return on_timer(frame);
    if (cause == (INTERRUPT | 11))
        return on_external(frame);
    return on_exception(frame, cause, value);
}

__attribute__((weak)) struct frame *on_timer(struct frame *frame) {
    (void)frame;
    power_off(144 + 7);
}

__attribute__((weak)) struct frame *on_external(struct frame *frame) {
    (void)frame;
    power_off(144 + 11);
}

__attribute__((weak)) struct frame *on_exception(struct frame *frame, uint32_t cause, uint32_t value) {
    (void)frame;
    (void)value;
    power_off(128 + cause);
}

__attribute__((weak)) void *memcpy(void *restrict to, const void *restrict from, size_t bytes) {
    for (size_t i = 0; i < bytes; i++)
        ((uint8_t *)to)[i] = ((const uint8_t *)from)[i];
    return to;
}

__attribute__((weak)) void *memmove(void *to, const void *from, size_t bytes) {
    if ((uintptr_t)to <= (uintptr_t)from)
        return memcpy(to, from, bytes);
    while (bytes-- != 0)
        ((uint8_t *)to)[bytes] = ((const uint8_t *)from)[bytes];
    return to;
}

__attribute__((weak)) void *memset(void *to, int byte, size_t bytes) {
    for (size_t i = 0; i < bytes; i++)
        ((uint8_t *)to)[i] = (uint8_t)byte;
    return to;
}

__attribute__((weak)) int memcmp(const void *one, const void *other, size_t bytes) {
    for (size_t i = 0; i < bytes; i++) {
        int difference = ((const uint8_t *)one)[i] - ((const uint8_t *)other)[i];
        if (difference != 0)
            return difference;
    }
    return 0;
}
