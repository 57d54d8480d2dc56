/* Five ticks of a timer, one each 100 units of mtime. */
#include "aftersight.h"

enum { PERIOD = 100, TICKS = 5 };

static volatile uint32_t ticks;

struct frame *on_timer(struct frame *frame) {
    timer_at(time_now() + PERIOD);
    ticks++;
    return frame;
}

int main(void) {
    timer_at(time_now() + PERIOD);
    interrupts_take(TIMER_INTERRUPT);
    interrupts_on();
    for (uint32_t told = 0; told < TICKS; told++) {
        while (ticks == told)
            wait_a_step();
        serial_text("tick at ");
        serial_number((uint32_t)time_now());
        serial_put('\n');
    }
    return 0;
}
