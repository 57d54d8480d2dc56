/* Firmware with a C library: printf over the serial line, and malloc on the heap that announces its blocks. */
#include <errno.h>
#include <stdio.h>
#include <stdlib.h>
#include <string.h>

#include "aftersight.h"
#include "allocator.h"

/* What picolibc asks for: a stream. */
static int put(char byte, FILE *stream) {
    (void)stream;
    serial_put((uint8_t)byte);
    return (unsigned char)byte;
}

static FILE serial = FDEV_SETUP_STREAM(put, NULL, NULL, _FDEV_SETUP_WRITE);
FILE *const stdout = &serial;

/* These stand in place of picolibc's, whose bookkeeping lies beside the blocks. */
void *malloc(size_t bytes) {
    void *block = allocate(bytes);
    if (block == NULL)
        errno = ENOMEM;
    return block;
}

void free(void *block) { release(block); }

int main(void) {
    static const char *const fruits[] = {"pear", "apple", "fig"};
    char *list = malloc(1);
    if (list == NULL)
        return 1;
    list[0] = 0;
    for (size_t place = 0; place < sizeof fruits / sizeof fruits[0]; place++) {
        size_t length = strlen(list) + strlen(fruits[place]) + 2;
        char *longer = malloc(length);
        if (longer == NULL)
            return 1;
        snprintf(longer, length, "%s%s ", list, fruits[place]);
        free(list);
        list = longer;
    }
    printf("%u fruits: %s(%u bytes)\n", (unsigned)(sizeof fruits / sizeof fruits[0]), list, (unsigned)strlen(list));
    free(list);
    return 0;
}
