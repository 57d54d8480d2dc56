/* Reads sector 1 of the disk, and sends its text. */
#include "aftersight.h"

static uint8_t sector[SECTOR_BYTES] __attribute__((aligned(4)));

static int disk_read(uint32_t number, uint8_t *to) {
    DISK_SECTOR = number;
    DISK_ADDR = (uint32_t)to;
    DISK_CMD = DISK_READ;
    while (DISK_STATUS == DISK_BUSY)
        wait_a_step();
    int done = DISK_STATUS == DISK_DONE;
    DISK_STATUS = 0;
    return done;
}

int main(void) {
    serial_text("sectors ");
    serial_number(DISK_COUNT);
    serial_put('\n');
    if (!disk_read(1, sector))
        return 1;
    for (uint32_t place = 0; place < SECTOR_BYTES && sector[place] != 0; place++)
        serial_put(sector[place]);
    return 0;
}
