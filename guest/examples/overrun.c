/* A mistake: the block has room for the name, and none for the 0 behind it. */
#include "aftersight.h"
#include "allocator.h"

static const char name[] = "ada";

int main(void) {
    uint32_t length = sizeof name - 1;
    char *copy = allocate(length);
    serial_text("storing\n");
    for (uint32_t place = 0; place <= length; place++)
        copy[place] = name[place];
    serial_text("stored ");
    serial_text(copy);
    serial_put('\n');
    release(copy);
    return 0;
}
