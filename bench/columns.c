/* One call over so many columns: each int8 becomes an int16, the columns turned round.
 *
 *   columns CALL COUNT [VERSION]     read, build, check or run; by name (1, if it is not said) or by number (2) */
#include "selector.h"

#include <stdio.h>
#include <stdlib.h>
#include <string.h>

typedef struct {
    uint8_t bytes[SELECTOR_PLAN_MAX];
    size_t length;
} text;

static text incoming, target, plan, record, output;

static void put(text *t, uint32_t value, int count) {
    for (int i = 0; i < count; i++)
        t->bytes[t->length++] = (uint8_t)(value >> (8 * i));
}

/* Names of two bytes in version 1, ids in version 2. */
static void columns(text *t, uint32_t version, uint32_t count, int turned, uint32_t code) {
    put(t, 'L' | 'A' << 8 | 'Y' << 16, 3);
    put(t, version, 2);
    put(t, count, 2);
    for (uint32_t i = 0; i < count; i++) {
        put(t, version == 1 ? 2 : 0, 1);
        put(t, turned ? count - 1 - i : i, version == 1 ? 2 : 4);
        put(t, code, 1);
    }
}

int main(int words, char **word) {
    uint32_t count = words > 2 ? (uint32_t)strtoul(word[2], NULL, 10) : 0;
    uint32_t version = words > 3 ? (uint32_t)strtoul(word[3], NULL, 10) : 1;
    if (words < 3 || count == 0 || 7 + count * (version == 1 ? 4 : 6) > SELECTOR_LAYOUT_MAX) {
        fprintf(stderr, "columns read|build|check|run COUNT [VERSION]\n");
        return 2;
    }
    columns(&incoming, version, count, 0, 2);
    columns(&target, version, count, 1, 3);
    for (uint32_t i = 0; i < count; i++)
        put(&record, 0x0701, 2);
    put(&plan, 'P' | 'L' << 8 | 'N' << 16, 3);
    put(&plan, 1, 2);
    put(&plan, count, 2);
    for (uint32_t i = 0; i < count; i++) {
        put(&plan, 2, 2); /* a cast of a position */
        put(&plan, count - 1 - i, 2);
        put(&plan, 0x0203, 2); /* to int16, Overflowing */
    }
    uint64_t answer, due = 0;
    if (strcmp(word[1], "read") == 0) {
        answer = selector_read_layout(target.bytes, target.length);
    } else if (strcmp(word[1], "build") == 0 && version == 1) {
        due = plan.length;
        answer = selector_build_by_name(SELECTOR_ALLOW_ALL, incoming.bytes, incoming.length, target.bytes,
                                        target.length, output.bytes, sizeof output.bytes);
    } else if (strcmp(word[1], "build") == 0) {
        due = plan.length;
        answer = selector_build_by_number(SELECTOR_ALLOW_ALL, 0, 0, incoming.bytes, incoming.length, target.bytes,
                                          target.length, (const uint8_t *)"DEF\1\0\0\0", 7, output.bytes,
                                          sizeof output.bytes);
    } else if (strcmp(word[1], "check") == 0) {
        answer = selector_check_plan(incoming.bytes, incoming.length, target.bytes, target.length, plan.bytes,
                                     plan.length);
    } else {
        due = 3 * (uint64_t)count;
        answer = selector_run(incoming.bytes, incoming.length, target.bytes, target.length, plan.bytes, plan.length,
                              record.bytes, record.length, output.bytes, SELECTOR_RECORD_MAX);
    }
    return answer != due;
}
