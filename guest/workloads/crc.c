/* A checksum without a table, over and over: shifts and branches, hardly any memory. */
#include "aftersight.h"

enum { BYTES = 4096, ROUNDS = 30 };

static uint8_t data[BYTES];

static uint32_t crc(uint32_t sum) {
    for (uint32_t place = 0; place < BYTES; place++) {
        sum ^= data[place];
        for (int bit = 0; bit < 8; bit++)
            sum = sum >> 1 ^ (0xEDB88320 & -(sum & 1));
    }
    return sum;
}

int main(void) {
    uint32_t sum = 0xFFFFFFFF;
    for (uint32_t place = 0; place < BYTES; place++)
        data[place] = (uint8_t)(place * 7 + 3);
    for (uint32_t round = 0; round < ROUNDS; round++)
        sum = crc(sum);
    serial_number(~sum);
    serial_put('\n');
    return 0;
}
