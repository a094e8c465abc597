/* What the calls cost: the stack of the deepest layouts, measured on a thread's painted stack, and the time of the
 * widest ones.
 *
 * The exit status is 1 where a call takes more stack than include/selector.h says. */
#define _DEFAULT_SOURCE
#include "selector.h"

#include <pthread.h>
#include <stdio.h>
#include <stdlib.h>
#include <string.h>
#include <sys/mman.h>
#include <time.h>

enum { LIMIT = 16384, STACK = 1 << 16, PAINT = 0xA5 };

static uint8_t bytes[LIMIT];
static size_t length;
static uint64_t answer;

static void put(uint32_t value, int count) {
    for (int i = 0; i < count; i++)
        bytes[length++] = (uint8_t)(value >> (8 * i));
}

static void head(uint32_t version, uint32_t columns) {
    length = 0;
    put('L' | 'A' << 8 | 'Y' << 16, 3);
    put(version, 2);
    put(columns, 2);
}

/* The shortest labels that differ: a name of two bytes in version 1, no name and an id in version 2. */
static void label(uint32_t version, uint32_t n) {
    put(version == 1 ? 2 : 0, 1);
    put(n, version == 1 ? 2 : 4);
}

/* Structs, lists or arrays one inside another. */
static void nest(uint32_t version, uint32_t code, int levels) {
    for (int i = 0; i < levels; i++) {
        put(code, 1);
        if (code == 18)
            put(1, 2);
        if (code == 20)
            put(1, 4);
        if (code == 18 || version == 2)
            label(version, 0);
    }
}

static void *call(void *unused) {
    answer = selector_read_layout(bytes, length);
    return unused;
}

static void *no_call(void *unused) { return unused; }

/* How much of a stack a thread changes. */
static size_t touched(void *(*work)(void *)) {
    uint8_t *stack = mmap(NULL, STACK, PROT_READ | PROT_WRITE, MAP_PRIVATE | MAP_ANONYMOUS, -1, 0);
    pthread_attr_t attributes;
    pthread_t thread;
    if (stack == MAP_FAILED || pthread_attr_init(&attributes) != 0 || pthread_attr_setstack(&attributes, stack, STACK) != 0)
        exit(2);
    memset(stack, PAINT, STACK);
    if (pthread_create(&thread, &attributes, work, NULL) != 0 || pthread_join(thread, NULL) != 0)
        exit(2);
    size_t free_bytes = 0;
    while (free_bytes < STACK && stack[free_bytes] == PAINT)
        free_bytes++;
    pthread_attr_destroy(&attributes);
    munmap(stack, STACK);
    return STACK - free_bytes;
}

static size_t most;

static void stack_of_call(void) {
    size_t with = touched(call), without = touched(no_call);
    if (with - without > most)
        most = with - without;
}

static void deepest(uint32_t version) {
    for (uint32_t code = 18; code <= 20; code++) {
        for (int levels = 15; levels <= 16; levels++) {
            head(version, 1);
            label(version, 0);
            nest(version, code, levels);
            put(14, 1); /* a date-time with a zone */
            put(0x5A0101, 3);
            stack_of_call();
        }
        /* a second column, so that the first is scanned again; the innermost struct is empty */
        head(version, 2);
        for (uint32_t n = 0; n < 2; n++) {
            label(version, n);
            nest(version, code, 15);
            put(18, 1);
            put(0, 2);
        }
        stack_of_call();
    }
}

static double milliseconds(void) {
    double best = 1e9;
    for (int i = 0; i < 5; i++) {
        struct timespec from, to;
        clock_gettime(CLOCK_MONOTONIC, &from);
        answer = selector_read_layout(bytes, length);
        clock_gettime(CLOCK_MONOTONIC, &to);
        double taken = (double)(to.tv_sec - from.tv_sec) * 1e3 + (double)(to.tv_nsec - from.tv_nsec) / 1e6;
        if (taken < best)
            best = taken;
    }
    return best;
}

/* As many columns of so many nested lists as there may be, or `count` if that is less. */
static void widest(uint32_t version, int lists, uint32_t count) {
    uint32_t columns = 0;
    size_t each = (version == 1 ? 3 : 5) + (size_t)lists * (version == 1 ? 1 : 6) + 1;
    head(version, 0);
    while (columns < count && length + each <= LIMIT) {
        label(version, columns++);
        nest(version, 19, lists);
        put(2, 1);
    }
    size_t end = length;
    length = 5;
    put(columns, 2);
    length = end;
    double taken = milliseconds();
    printf("version %u, %u columns of %d lists: %.3f ms, answer %llx\n", version, columns, lists, taken, (unsigned long long)answer);
}

/* As many columns as there may be whose names have one hash: from any hash on, either block leads to the same one. */
static void colliding(void) {
    static const uint8_t blocks[2][4] = {{0, 0, 0, 0}, {0xCE, 0xD8, 0x1A, 0x52}};
    const uint32_t columns = (LIMIT - 7) / 38;
    head(1, columns);
    for (uint32_t n = 0; n < columns; n++) {
        put(36, 1);
        for (int bit = 0; bit < 9; bit++)
            for (int i = 0; i < 4; i++)
                put(blocks[n >> bit & 1][i], 1);
        put(2, 1);
    }
    double taken = milliseconds();
    printf("version 1, %u columns with names of one hash: %.3f ms, answer %llx\n", columns, taken, (unsigned long long)answer);
}

int main(void) {
    for (uint32_t version = 1; version <= 2; version++) {
        deepest(version);
        widest(version, 0, 12);
        widest(version, 0, 100);
        widest(version, 0, 65535);
        widest(version, 1, 65535);
        widest(version, 15, 65535);
    }
    colliding();
    printf("stack: %zu bytes, of %d\n", most, SELECTOR_READ_STACK);
    return most > SELECTOR_READ_STACK;
}
