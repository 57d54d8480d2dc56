/* Reads a thousand sectors of the disk, five times over, each awaited by its interrupt, and sums their words. */
#include "aftersight.h"

enum { SECTORS = 1000, READS = 5 * SECTORS, WORDS = SECTOR_BYTES / 4 };

static uint32_t sector[WORDS];
static volatile uint32_t done;

struct frame *on_external(struct frame *frame) {
    DISK_STATUS = 0;
    done++;
    return frame;
}

int main(void) {
    uint32_t sum = 0;
    DISK_CTRL = 1;
    interrupts_take(EXTERNAL_INTERRUPT);
    interrupts_on();
    for (uint32_t number = 0; number < READS; number++) {
        DISK_SECTOR = number % SECTORS;
        DISK_ADDR = (uint32_t)sector;
        DISK_CMD = DISK_READ;
        while (done == number)
            wait_a_step();
        for (uint32_t word = 0; word < WORDS; word++)
            sum += sector[word];
    }
    serial_number(sum);
    serial_put('\n');
    return 0;
}
