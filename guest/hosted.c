/* What a program that was written for an operating system asks for, over picolibc: the three standard streams on the
 * serial line, the heap that announces its blocks, an end, a clock, and no files. */
#include <errno.h>
#include <fcntl.h>
#include <signal.h>
#include <stdint.h>
#include <stdio.h>
#include <stdlib.h>
#include <string.h>
#include <sys/time.h>
#include <sys/times.h>
#include <unistd.h>

#include "aftersight.h"
#include "allocator.h"

enum { END_OF_INPUT = 4 };  /* a serial line has no end: this byte is the end of standard input */
enum { RED_ZONE = 16, STACK_GUARD = 256 };
enum { SIGNALLED = 64 };    /* the status of a run that a signal ended is this and its number: 70 where it was abort's */

static int put(char byte, FILE *stream) {
    (void)stream;
    serial_put((uint8_t)byte);
    return (unsigned char)byte;
}

static int get(FILE *stream) {
    static int ended;
    (void)stream;
    if (ended)
        return _FDEV_EOF;
    while (!serial_waits())
        wait_a_step();
    uint8_t byte = serial_take();
    ended = byte == END_OF_INPUT;
    return ended ? _FDEV_EOF : byte;
}

static FILE input = FDEV_SETUP_STREAM(NULL, get, NULL, _FDEV_SETUP_READ);
static FILE output = FDEV_SETUP_STREAM(put, NULL, NULL, _FDEV_SETUP_WRITE);
FILE *const stdin = &input;
FILE *const stdout = &output;
FILE *const stderr = &output;

/* These stand in place of picolibc's, whose bookkeeping lies beside the blocks. */
void *malloc(size_t bytes) {
    void *block = allocate(bytes);
    if (block == NULL)
        errno = ENOMEM;
    return block;
}

void free(void *block) { release(block); }

void *calloc(size_t count, size_t each) {
    size_t bytes;
    if (__builtin_mul_overflow(count, each, &bytes)) {
        errno = ENOMEM;
        return NULL;
    }
    void *block = malloc(bytes);
    return block == NULL ? NULL : memset(block, 0, bytes);
}

/* A block that grows is a new one. */
void *realloc(void *block, size_t bytes) {
    void *other = malloc(bytes);
    if (other == NULL || block == NULL)
        return other;
    size_t before = block_bytes(block);
    memcpy(other, block, before < bytes ? before : bytes);
    free(block);
    return other;
}

_Noreturn void _exit(int status) { power_off((uint32_t)status); }

/* mtime for a clock: one unit of it for a microsecond since 1970. */
int gettimeofday(struct timeval *restrict now, void *restrict zone) {
    (void)zone;
    uint64_t passed = time_now();
    now->tv_sec = (time_t)(passed / 1000000);
    now->tv_usec = (suseconds_t)(passed % 1000000);
    return 0;
}

clock_t times(struct tms *spent) {
    clock_t passed = (clock_t)time_now();
    *spent = (struct tms){.tms_utime = passed};
    return passed;
}

/* There are no files: none can be opened, and nothing that picolibc asks of an open one comes to pass. */
static int no_file(void) {
    errno = ENOENT;
    return -1;
}

int open(const char *name, int flags, ...) {
    (void)name;
    (void)flags;
    return no_file();
}

int rename(const char *from, const char *to) {
    (void)from;
    (void)to;
    return no_file();
}

int unlink(const char *name) {
    (void)name;
    return no_file();
}

int close(int file) {
    (void)file;
    return no_file();
}

off_t lseek(int file, off_t place, int from) {
    (void)file;
    (void)place;
    (void)from;
    return no_file();
}

ssize_t read(int file, void *to, size_t bytes) {
    (void)file;
    (void)to;
    (void)bytes;
    return no_file();
}

ssize_t write(int file, const void *from, size_t bytes) {
    (void)file;
    (void)from;
    (void)bytes;
    return no_file();
}

/* Nobody sits at the serial line. */
int isatty(int file) {
    (void)file;
    errno = ENOTTY;
    return 0;
}

/* A signal that nobody takes, as that of abort, ends the run. */
pid_t getpid(void) { return 1; }

int kill(pid_t process, int signal) {
    (void)process;
    _exit(SIGNALLED + signal);
}

/* The last bytes of the stack, as a block that was given back: so a stack that is too small is a finding of `heap`. */
static void guard_stack(void) {
    extern uint8_t __stack_bottom[];
    uint8_t *last = __stack_bottom + RED_ZONE;
    announce_allocated(last, STACK_GUARD);
    announce_freed(last, STACK_GUARD);
}

/* Linked with --wrap=main: a guarded stack, constructors, main's name as its one word, and what atexit left to be done. */
typedef void constructor(void);
extern constructor *const __init_array_start[], *const __init_array_end[];
int __real_main(int count, char **words);

int __wrap_main(void) {
    static char name[] = "guest";
    static char *words[] = {name, NULL};
    guard_stack();
    for (constructor *const *place = __init_array_start; place != __init_array_end; place++)
        (*place)();
    exit(__real_main(1, words));
}
