/* A mistake: a line may be longer than its buffer, and then it writes over the place to return to. The script's line is
 * made for the built guest: it makes `greet` return into `open_door`. */
#include "aftersight.h"

static volatile int unlocked; /* nothing sets it */

__attribute__((noinline)) static _Noreturn void open_door(void) {
    serial_text("the door is open\n");
    power_off(0);
}

__attribute__((noinline)) static void read_line(uint8_t *to) {
    for (;;) {
        while (!serial_waits())
            wait_a_step();
        uint8_t byte = serial_take();
        if (byte == '\n')
            break;
        *to++ = byte;
    }
    *to = 0;
}

__attribute__((noinline)) static void greet(void) {
    uint8_t name[16];
    read_line(name);
    serial_text("hello ");
    serial_text((const char *)name);
    serial_put('\n');
}

int main(void) {
    while (!unlocked)
        greet();
    open_door();
}
