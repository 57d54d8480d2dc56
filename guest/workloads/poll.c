/* Echoes its input by polling until no byte waits: three registers for each byte. */
#include "aftersight.h"

int main(void) {
    while (serial_waits())
        serial_put(serial_take());
    return 0;
}
