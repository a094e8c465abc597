/* The three C functions that libselector.a needs, for firmware without a C library: compile this beside your own
 * sources. Any others that do the same will serve. memcpy may be given one address twice.
 *
 *   cc -std=c11 -O2 -ffreestanding -c examples/freestanding.c
 */
#include <stddef.h>

void *memcpy(void *to, const void *from, size_t length);
void *memmove(void *to, const void *from, size_t length);
void *memset(void *to, int value, size_t length);

/* Keeps a compiler from turning a loop into a call of the very function that it stands in. */
#define KEEP_LOOP() __asm__ volatile("" ::: "memory")

void *memcpy(void *to, const void *from, size_t length) {
    unsigned char *out = to;
    const unsigned char *in = from;
    for (size_t i = 0; i < length; i++) {
        out[i] = in[i];
        KEEP_LOOP();
    }
    return to;
}

void *memmove(void *to, const void *from, size_t length) {
    unsigned char *out = to;
    const unsigned char *in = from;
    if (out <= in)
        return memcpy(to, from, length);
    for (size_t i = length; i > 0; i--) {
        out[i - 1] = in[i - 1];
        KEEP_LOOP();
    }
    return to;
}

void *memset(void *to, int value, size_t length) {
    unsigned char *out = to;
    for (size_t i = 0; i < length; i++) {
        out[i] = (unsigned char)value;
        KEEP_LOOP();
    }
    return to;
}
