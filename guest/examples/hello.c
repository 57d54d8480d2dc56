/* The least firmware: it greets, and its result is the guest's status. */
#include "aftersight.h"

int main(void) {
    serial_text("hello from firmware\n");
    return 0;
}
