/* Two contexts that a timer switches, and a lock that guards what they share. Built a second time, as race, with the
 * lock forgotten once. */
#include "aftersight.h"

enum { CONTEXTS = 2, TURN = 3, ROUNDS = 40, TOTAL_LOCK = 1 };

#ifndef FORGOTTEN
enum { FORGOTTEN = ROUNDS }; /* context 1 forgets the lock in this round, which never comes */
#endif

static struct frame *waiting[CONTEXTS];
static uint8_t stacks[CONTEXTS][1024] __attribute__((section(".noinit"), aligned(16)));
static volatile uint32_t lock_word;
static volatile uint32_t total;
static volatile uint32_t done[CONTEXTS];

static struct frame *next_context(struct frame *frame) {
    waiting[frame->context] = frame;
    return waiting[(frame->context + 1) % CONTEXTS];
}

struct frame *on_timer(struct frame *frame) {
    timer_at(time_now() + TURN);
    return next_context(frame);
}

/* An ECALL gives the rest of the turn away. */
struct frame *on_exception(struct frame *frame, uint32_t cause, uint32_t value) {
    (void)value;
    if (cause != CAUSE_ECALL)
        power_off(128 + cause);
    frame->pc += 4;
    return next_context(frame);
}

static void yield(void) { __asm__ volatile("ecall" : : : "memory"); }

/* The announcement follows the taking, and stands before the giving back: the lock is ours at both. */
static void take_lock(void) {
    while (__atomic_exchange_n(&lock_word, 1, __ATOMIC_ACQUIRE) != 0)
        yield();
    announce_acquired(TOTAL_LOCK);
}

static void give_lock(void) {
    announce_released(TOTAL_LOCK);
    __atomic_store_n(&lock_word, 0, __ATOMIC_RELEASE);
}

static void work(uint32_t context) {
    for (uint32_t round = 0; round < ROUNDS; round++) {
        int with_lock = context != 1 || round != FORGOTTEN;
        if (with_lock)
            take_lock();
        total += context + 1;
        if (with_lock)
            give_lock();
    }
    done[context] = 1;
}

static void second_context(void) {
    work(1);
    for (;;)
        yield();
}

/* A frame at the end of the context's stack, as if a trap had come in before its first instruction. */
static void start_context(uint32_t context, void (*code)(void)) {
    struct frame *frame = (struct frame *)(stacks[context] + sizeof stacks[context]) - 1;
    *frame = (struct frame){.pc = (uint32_t)code, .context = context};
    waiting[context] = frame;
}

int main(void) {
    announce_guarded_by(&total, sizeof total, TOTAL_LOCK);
    start_context(1, second_context);
    serial_text("two contexts\n");
    timer_at(time_now() + TURN);
    interrupts_take(TIMER_INTERRUPT);
    interrupts_on();
    work(0);
    while (!done[1])
        yield();
    interrupts_off();
    take_lock();
    uint32_t sum = total;
    give_lock();
    serial_text("total ");
    serial_number(sum);
    serial_put('\n');
    return 0;
}
