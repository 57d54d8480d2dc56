/* A timer interrupt each 100 units of mtime, which are steps where the script's clock is 1, beside a loop that computes. */
#include "aftersight.h"

enum { PERIOD = 100, TICKS = 50000 };

static volatile uint32_t ticks;
static uint32_t next;

struct frame *on_timer(struct frame *frame) {
    next += PERIOD;
    MTIMECMP_LOW = next;
    ticks++;
    return frame;
}

int main(void) {
    uint32_t number = 1;
    next = (uint32_t)time_now() + PERIOD;
    timer_at(next);
    interrupts_take(TIMER_INTERRUPT);
    interrupts_on();
    while (ticks < TICKS) {
        number ^= number << 13;
        number ^= number >> 17;
        number ^= number << 5;
    }
    interrupts_off();
    serial_text(number != 0 ? "done\n" : "lost\n");
    return 0;
}
