/* Reads lines up to an empty one, keeps them sorted in blocks of the heap, sends them, and gives every block back. */
#include "aftersight.h"
#include "allocator.h"

struct line {
    struct line *next;
    uint32_t length;
    uint8_t text[];
};

static uint8_t next_byte(void) {
    while (!serial_waits())
        wait_a_step();
    return serial_take();
}

/* The next line in a block of its own, a null pointer at an empty one. */
static struct line *read_line(void) {
    uint8_t text[80];
    uint32_t length = 0;
    for (uint8_t byte; (byte = next_byte()) != '\n';)
        if (length < sizeof text)
            text[length++] = byte;
    if (length == 0)
        return NULL;
    struct line *line = allocate(sizeof *line + length);
    if (line == NULL)
        power_off(2);
    line->next = NULL;
    line->length = length;
    for (uint32_t place = 0; place < length; place++)
        line->text[place] = text[place];
    return line;
}

static int is_before(const struct line *one, const struct line *other) {
    for (uint32_t place = 0; place < one->length && place < other->length; place++)
        if (one->text[place] != other->text[place])
            return one->text[place] < other->text[place];
    return one->length < other->length;
}

int main(void) {
    struct line *first = NULL;
    for (struct line *line; (line = read_line()) != NULL;) {
        struct line **link = &first;
        while (*link != NULL && is_before(*link, line))
            link = &(*link)->next;
        line->next = *link;
        *link = line;
    }
    while (first != NULL) {
        struct line *line = first;
        first = line->next;
        for (uint32_t place = 0; place < line->length; place++)
            serial_put(line->text[place]);
        serial_put('\n');
        release(line);
    }
    return 0;
}
