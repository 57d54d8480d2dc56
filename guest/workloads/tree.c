/* A search tree in blocks of the heap, walked again and again: loads that follow loads, calls, announcements. */
#include "aftersight.h"
#include "allocator.h"

enum { NODES = 200, ROUNDS = 700 };

struct node {
    struct node *less, *more;
    uint32_t key;
};

static void insert(struct node **link, struct node *node) {
    while (*link != NULL)
        link = node->key < (*link)->key ? &(*link)->less : &(*link)->more;
    *link = node;
}

static uint32_t sum(const struct node *node, uint32_t depth) {
    return node == NULL ? 0 : node->key * depth + sum(node->less, depth + 1) + sum(node->more, depth + 1);
}

int main(void) {
    struct node *top = NULL;
    uint32_t key = 1, total = 0;
    for (uint32_t count = 0; count < NODES; count++) {
        struct node *node = allocate(sizeof *node);
        if (node == NULL)
            return 1;
        key = key * 1664525 + 1013904223;
        *node = (struct node){NULL, NULL, key};
        insert(&top, node);
    }
    for (uint32_t round = 0; round < ROUNDS; round++)
        total = total * 31 + sum(top, 1);
    serial_number(total);
    serial_put('\n');
    return 0;
}
