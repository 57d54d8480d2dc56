/* The board's registers, and what a guest may announce. */
#ifndef AFTERSIGHT_H
#define AFTERSIGHT_H

#include <stddef.h>
#include <stdint.h>

/* ---- the board's registers: each is accessed at this address, by a load or store of any aligned width ---- */

#define BOARD_REGISTER(address) (*(volatile uint32_t *)(address))

#define MTIMECMP_LOW BOARD_REGISTER(0x02004000)
#define MTIMECMP_HIGH BOARD_REGISTER(0x02004004)
#define MTIME_LOW BOARD_REGISTER(0x0200BFF8)
#define MTIME_HIGH BOARD_REGISTER(0x0200BFFC)

#define SERIAL_DATA BOARD_REGISTER(0x10000000)    /* load: the next byte that waits, or 0; store: sends a byte */
#define SERIAL_STATUS BOARD_REGISTER(0x10000004)  /* bit 0: a byte waits; bit 1: always 1 */
#define SERIAL_CTRL BOARD_REGISTER(0x10000008)    /* bit 0: interrupt while a byte waits */

#define DISK_SECTOR BOARD_REGISTER(0x10001000)
#define DISK_ADDR BOARD_REGISTER(0x10001004)      /* where the 512 bytes go to or come from; a multiple of 4 */
#define DISK_CMD BOARD_REGISTER(0x10001008)       /* store: one of the two below */
#define DISK_STATUS BOARD_REGISTER(0x1000100C)    /* one of the four below; a store makes done or refused idle */
#define DISK_CTRL BOARD_REGISTER(0x10001010)      /* bit 0: interrupt once done or refused */
#define DISK_COUNT BOARD_REGISTER(0x10001014)     /* how many sectors there are */

#define POWER BOARD_REGISTER(0x10100000)          /* store: ends the run; the low 8 bits are the guest's status */

enum { DISK_READ = 1, DISK_WRITE = 2 };
enum { DISK_IDLE = 0, DISK_BUSY = 1, DISK_DONE = 2, DISK_REFUSED = 3 };
enum { SECTOR_BYTES = 512 };

static inline _Noreturn void power_off(uint32_t status) {
    POWER = status;
    for (;;) {
    }
}

/* ---- the serial line ---- */

static inline int serial_waits(void) { return SERIAL_STATUS & 1; }
static inline uint8_t serial_take(void) { return (uint8_t)SERIAL_DATA; }
static inline void serial_put(uint8_t byte) { SERIAL_DATA = byte; }

static inline void serial_text(const char *text) {
    while (*text != 0)
        serial_put((uint8_t)*text++);
}

static inline void serial_number(uint32_t number) {
    char digits[11];
    char *first = &digits[10];
    *first = 0;
    do {
        *--first = (char)('0' + number % 10);
        number /= 10;
    } while (number != 0);
    serial_text(first);
}

/* ---- the timer: its interrupt is raised while mtime is at least mtimecmp ---- */

static inline uint64_t time_now(void) {
    uint32_t high, low;
    do {
        high = MTIME_HIGH;
        low = MTIME_LOW;
    } while (high != MTIME_HIGH);
    return (uint64_t)high << 32 | low;
}

static inline void timer_at(uint64_t when) {
    MTIMECMP_HIGH = 0xFFFFFFFF; /* so that no half-written time is reached */
    MTIMECMP_LOW = (uint32_t)when;
    MTIMECMP_HIGH = (uint32_t)(when >> 32);
}

/* ---- interrupts ---- */

enum { TIMER_INTERRUPT = 1 << 7, EXTERNAL_INTERRUPT = 1 << 11 }; /* the bits of mie */

static inline void interrupts_take(uint32_t which) { __asm__ volatile("csrs mie, %0" : : "r"(which) : "memory"); }
static inline void interrupts_on(void) { __asm__ volatile("csrsi mstatus, 8" : : : "memory"); }
static inline void interrupts_off(void) { __asm__ volatile("csrci mstatus, 8" : : : "memory"); }
static inline void wait_a_step(void) { __asm__ volatile("wfi" : : : "memory"); } /* WFI does nothing here but pass a step */

/* What start.S keeps of the code that a trap came into, and takes up again: registers by number. Number 0 is the pc,
 * number 2 the context, since the stack pointer is the frame's end. */
struct frame {
    uint32_t pc, ra, context, gp, tp, t0, t1, t2, s0, s1;
    uint32_t a0, a1, a2, a3, a4, a5, a6, a7;
    uint32_t s2, s3, s4, s5, s6, s7, s8, s9, s10, s11, t3, t4, t5, t6;
};

/* A guest that takes interrupts or exceptions defines these; each answers the frame to go on with, most often the one
 * it was given. One that is not defined ends the run with status 128 + the exception's cause, 151 at a timer
 * interrupt, 155 at an external one. None may raise an exception itself. */
struct frame *on_timer(struct frame *frame);
struct frame *on_external(struct frame *frame);
struct frame *on_exception(struct frame *frame, uint32_t cause, uint32_t value);

enum { CAUSE_ECALL = 11 };

/* ---- announcements: slti x0, x0, K, with up to three values; for the hart it does nothing ---- */

#define ANNOUNCE(kind, first, second, third)                                                                     \
    do {                                                                                                         \
        register uint32_t announced_first __asm__("a0") = (uint32_t)(first);                                     \
        register uint32_t announced_second __asm__("a1") = (uint32_t)(second);                                   \
        register uint32_t announced_third __asm__("a2") = (uint32_t)(third);                                     \
        __asm__ volatile("slti x0, x0, " #kind                                                                   \
                         :                                                                                       \
                         : "r"(announced_first), "r"(announced_second), "r"(announced_third)                     \
                         : "memory");                                                                            \
    } while (0)

/* The block is the program's: 16 bytes on each side of it must not be touched from now on. */
static inline void announce_allocated(const volatile void *block, size_t bytes) { ANNOUNCE(1, block, bytes, 0); }
/* The block is given back: it must not be touched until it is allocated anew. */
static inline void announce_freed(const volatile void *block, size_t bytes) { ANNOUNCE(2, block, bytes, 0); }
/* The context that runs has taken this lock, and will give it back. A lock is any number. */
static inline void announce_acquired(uint32_t lock) { ANNOUNCE(3, lock, 0, 0); }
static inline void announce_released(uint32_t lock) { ANNOUNCE(4, lock, 0, 0); }
/* From here on this context runs: 0 to 63, 0 at the start. start.S announces the context of each frame that it takes up. */
static inline void announce_context(uint32_t context) { ANNOUNCE(5, context, 0, 0); }
/* These bytes must not come from marked input: they are about to leave. */
static inline void announce_must_be_unmarked(const volatile void *bytes, size_t count) { ANNOUNCE(6, bytes, count, 0); }
/* These bytes may be touched only by a context that holds this lock. */
static inline void announce_guarded_by(const volatile void *bytes, size_t count, uint32_t lock) { ANNOUNCE(7, bytes, count, lock); }

#endif
