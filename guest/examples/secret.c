/* The password lies in sector 0 of the disk, which the script marks. It must not leave: each answer is announced before
 * it is sent. A mistake: the answer to a wrong password tells the right one. */
#include "aftersight.h"

static uint8_t password[SECTOR_BYTES] __attribute__((aligned(4)));
static uint8_t line[64];
static char answer[128];

static void read_password(void) {
    DISK_SECTOR = 0;
    DISK_ADDR = (uint32_t)password;
    DISK_CMD = DISK_READ;
    while (DISK_STATUS == DISK_BUSY)
        wait_a_step();
}

static void read_line(void) {
    uint32_t length = 0;
    for (;;) {
        while (!serial_waits())
            wait_a_step();
        uint8_t byte = serial_take();
        if (byte == '\n')
            break;
        if (length < sizeof line - 1)
            line[length++] = byte;
    }
    line[length] = 0;
}

static int is_right(void) {
    uint32_t place = 0;
    while (line[place] == password[place] && line[place] != 0)
        place++;
    return line[place] == 0 && (password[place] == 0 || password[place] == '\n');
}

static char *add(char *to, const char *text) {
    while (*text != 0)
        *to++ = *text++;
    return to;
}

static void send(const char *end) {
    announce_must_be_unmarked(answer, (size_t)(end - answer));
    for (const char *place = answer; place < end; place++)
        serial_put((uint8_t)*place);
}

int main(void) {
    read_password();
    for (;;) {
        read_line();
        if (is_right()) {
            send(add(answer, "welcome\n"));
            return 0;
        }
        char *end = add(answer, "wrong");
        if (line[0] == '?') /* left over from a debugging session */
            end = add(add(end, ": it is "), (const char *)password);
        send(add(end, "\n"));
    }
}
