/* Sends back what arrives, by interrupts, until a byte 04 arrives. */
#include "aftersight.h"

enum { END_OF_TRANSMISSION = 4 };

static volatile int ended;

struct frame *on_external(struct frame *frame) {
    while (serial_waits()) {
        uint8_t byte = serial_take();
        if (byte == END_OF_TRANSMISSION)
            ended = 1;
        else
            serial_put(byte);
    }
    return frame;
}

int main(void) {
    SERIAL_CTRL = 1;
    interrupts_take(EXTERNAL_INTERRUPT);
    interrupts_on();
    while (!ended)
        wait_a_step();
    return 0;
}
