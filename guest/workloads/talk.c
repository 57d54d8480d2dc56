/* Many bytes out, and the clock asked for each line: what the log and the gate have to bear. */
#include "aftersight.h"

enum { LINES = 30000 };

int main(void) {
    for (uint32_t line = 0; line < LINES; line++) {
        serial_number(line);
        serial_put(' ');
        serial_number((uint32_t)time_now() & 1);
        serial_put('\n');
    }
    return 0;
}
