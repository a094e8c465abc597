/* A program without a C library: libselector.a, examples/freestanding.c and this file are all of it, so that it is
 * linked only where the archive needs no other function. It tries the three functions and sample S1, and exits with 0
 * where all is as it should be, else with the number of what is not. For x86-64 Linux, which is asked only to end the
 * program. */
#include <stddef.h>

#include "selector.h"

void *memcpy(void *to, const void *from, size_t length);
void *memmove(void *to, const void *from, size_t length);
void *memset(void *to, int value, size_t length);
void begin(void);

/* The stack is aligned to 16 bytes here, as a call expects it. */
__asm__(".globl _start\n_start:\n\txor %ebp, %ebp\n\tcall begin\n");

static void end(long status) {
    for (;;)
        __asm__ volatile("syscall" ::"a"(231L), "D"(status) : "rcx", "r11", "memory");
}

enum { SPACE = 96 };

static unsigned char bytes[SPACE], due[SPACE];

/* Each byte has its own number. */
static void number(void) {
    for (int i = 0; i < SPACE; i++)
        bytes[i] = due[i] = (unsigned char)i;
}

static int same(void) {
    for (int i = 0; i < SPACE; i++)
        if (bytes[i] != due[i])
            return 0;
    return 1;
}

/* So many bytes from one offset to another, also where the two overlap. */
static int moves(int from, int to, int length) {
    number();
    for (int i = 0; i < length; i++)
        due[to + i] = (unsigned char)(from + i);
    if (memmove(bytes + to, bytes + from, (size_t)length) != bytes + to || !same())
        return 0;
    if (from != to && from < to + length && to < from + length)
        return 1;
    number();
    for (int i = 0; i < length; i++)
        due[to + i] = (unsigned char)(from + i);
    return memcpy(bytes + to, bytes + from, (size_t)length) == bytes + to && same();
}

static int sets(int to, int length) {
    number();
    for (int i = 0; i < length; i++)
        due[to + i] = 0xA5;
    return memset(bytes + to, 0x3A5, (size_t)length) == bytes + to && same();
}

static int memory(void) {
    for (int length = 0; length <= 32; length++)
        for (int to = 0; to <= 64; to++) {
            if (!sets(to, length))
                return 0;
            for (int from = 0; from <= 64; from++)
                if (!moves(from, to, length))
                    return 0;
        }
    return 1;
}

static const uint8_t incoming[] = {'L', 'A', 'Y', 1, 0, 1, 0, 1, 't', 3};
static const uint8_t target[] = {'L', 'A', 'Y', 1, 0, 2, 0, 1, 't', 4, 1, 's', 15};
static const uint8_t record[] = {1, 0xFE, 0xFF};
static const uint8_t wanted[] = {1, 0xFE, 0xFF, 0xFF, 0xFF, 0};
static uint8_t plan[SELECTOR_PLAN_MAX], output[SELECTOR_RECORD_MAX];

void begin(void) {
    if (!memory())
        end(1);
    size_t size = sizeof plan;
    if (selector_build_by_name(SELECTOR_ALLOW_ALL, incoming, sizeof incoming, target, sizeof target, plan, size) != 18)
        end(2);
    if (selector_check_plan(incoming, sizeof incoming, target, sizeof target, plan, 18) != 0)
        end(3);
    if (selector_run(incoming, sizeof incoming, target, sizeof target, plan, 18, record, sizeof record, output,
                     sizeof output) != sizeof wanted)
        end(4);
    for (size_t i = 0; i < sizeof wanted; i++)
        if (output[i] != wanted[i])
            end(5);
    end(0);
}
