/* Builds whose labels were chosen to share one chain of a table, as one who reads crates/layout/src/seen.rt and
 * crates/labels/src/lib.rt would choose them: names that are all found, names that are all missing, types that take
 * long to pass over, at the top, in a struct, and in a struct inside two others; and labels that are all looked for
 * from one slot of the table of labels that were read. The hash is worked out here again. The exit status is 1 where
 * a build is refused or takes more than a second of processor time. */
#define _DEFAULT_SOURCE
#include "selector.h"

#include <stdio.h>
#include <stdlib.h>
#include <string.h>
#include <time.h>

enum { MOST = 5000 };

typedef struct {
    uint8_t bytes[SELECTOR_LAYOUT_MAX];
    size_t length;
} layout;

/* Labels: names of `size` bytes, or ids where it is 0. */
typedef struct {
    uint32_t of[MOST];
    int count, size;
} labels;

static layout incoming, target;
static uint8_t plan[SELECTOR_PLAN_MAX];
static int failed;

static uint32_t mix(uint32_t hash, uint32_t value) { return (hash + value) * UINT32_C(0x5BD1E995); }

/* Among siblings that begin at an offset. */
static uint32_t hash_from(uint32_t from, uint32_t label, int size) {
    uint32_t hash = from;
    if (size == 0)
        return mix(mix(0, from), label);
    for (int i = 0; i < size; i += 2)
        hash = mix(hash, label >> (8 * i) & (i + 1 < size ? 65535 : 255));
    return hash;
}

static uint32_t hash_of(uint32_t label, int size) { return hash_from(0, label, size); }

/* So many labels that are looked for from the first slot of a long layout's table on. */
static labels crowded(int count, int size, uint32_t from) {
    labels l = {.count = count, .size = size};
    for (uint32_t next = 0, i = 0; i < (uint32_t)count; next++)
        if ((uint64_t)hash_from(from, next, size) * 4224 >> 32 == 0)
            l.of[i++] = next;
    return l;
}

/* How many chains the table of so many columns has. */
static uint32_t heads(int columns) { return (uint32_t)columns / 2 + 1; }

/* So many labels, from the one at `*next` on, whose hashes leave a rest of less than `rests`. */
static labels sharing(int count, int size, uint32_t chains, uint32_t rests, uint32_t *next) {
    labels l = {.count = count, .size = size};
    for (int i = 0; i < count; (*next)++)
        if (hash_of(*next, size) % chains < rests)
            l.of[i++] = *next;
    return l;
}

static void put(layout *t, uint64_t value, int count) {
    for (int i = 0; i < count; i++) {
        if (t->length == sizeof t->bytes)
            exit(2);
        t->bytes[t->length++] = (uint8_t)(value >> (8 * i));
    }
}

static void head(layout *t, int version, int columns) {
    memcpy(t->bytes, "LAY", 3);
    t->length = 3;
    put(t, (uint64_t)version, 2);
    put(t, (uint64_t)columns, 2);
}

/* Columns of int8 inside so many lists, in order or from the last to the first. */
static void columns(layout *t, const labels *l, int turned, int lists) {
    for (int i = 0; i < l->count; i++) {
        put(t, (uint64_t)l->size, 1);
        put(t, l->of[turned ? l->count - 1 - i : i], l->size == 0 ? 4 : l->size);
        for (int k = 0; k < lists; k++)
            put(t, 19, 1);
        put(t, 2, 1);
    }
}

/* So many structs of 17 fields one inside another, around one of so many fields; one column. */
static void nested(layout *t, int around, int fields) {
    head(t, 1, 1);
    for (int i = 0; i < around; i++) {
        put(t, 0x1200, 2); /* no name, a struct */
        put(t, 17, 2);
        for (uint32_t k = 0; k < 16; k++)
            put(t, 0x020001 | k << 8, 3); /* a name of one byte, int8 */
    }
    put(t, 0x1200, 2);
    put(t, (uint64_t)fields, 2);
}

static void expect(const char *name) {
    struct timespec from, to;
    clock_gettime(CLOCK_PROCESS_CPUTIME_ID, &from);
    uint64_t answer = incoming.bytes[3] == 1 ? selector_build_by_name(SELECTOR_ALLOW_ALL, incoming.bytes, incoming.length, target.bytes, target.length, plan, sizeof plan)
                                             : selector_build_by_number(SELECTOR_ALLOW_ALL, 0, 0, incoming.bytes, incoming.length, target.bytes, target.length, (const uint8_t *)"DEF\1\0\0\0", 7, plan, sizeof plan);
    clock_gettime(CLOCK_PROCESS_CPUTIME_ID, &to);
    double taken = (double)(to.tv_sec - from.tv_sec) * 1e3 + (double)(to.tv_nsec - from.tv_nsec) / 1e6;
    printf("%s: %u after %.2f ms\n", name, SELECTOR_NUMBER(answer), taken);
    if (SELECTOR_NUMBER(answer) != 0 || taken > 1000)
        failed = 1;
}

/* Incoming columns inside so many lists against target columns, at the top (`around` is -1) or in a struct inside so
 * many others. */
static void against(const char *name, int around, const labels *in, int lists, const labels *out) {
    int version = in->size == 0 ? 2 : 1;
    if (around < 0)
        head(&incoming, version, in->count), head(&target, version, out->count);
    else
        nested(&incoming, around, in->count), nested(&target, around, out->count);
    columns(&incoming, in, 0, lists);
    columns(&target, out, 1, in == out ? lists : 0);
    expect(name);
}

/* Names that are looked for from one slot, behind columns of lists. */
static void behind_lists(void) {
    labels lists = {.count = 409, .size = 3}, names = crowded(1637, 3, 7);
    for (int i = 0; i < lists.count; i++)
        lists.of[i] = 0xFF0000 + (uint32_t)i;
    head(&target, 1, lists.count + names.count);
    columns(&target, &lists, 0, 15);
    columns(&target, &names, 0, 0);
    incoming = target;
    expect("1,637 names looked for from one slot, behind 409 columns of lists");
}

/* Ids of a struct's fields once more outside it, behind lists. Its fields begin at 26, where an id's slot is two
 * before its slot at the top. */
static void outside(void) {
    labels ids = crowded(680, 0, 26);
    head(&target, 2, 1 + 83 + ids.count);
    put(&target, 11, 1);
    for (int i = 0; i < 11; i++)
        put(&target, 'a', 1);
    put(&target, UINT32_C(0xFFFFFFFF), 4);
    put(&target, 18, 1);
    put(&target, (uint64_t)ids.count, 2);
    columns(&target, &ids, 0, 0);
    for (uint32_t i = 0; i < 83; i++) {
        put(&target, 0, 1);
        put(&target, UINT32_C(0xF0000000) + i, 4);
        for (int k = 0; k < 15; k++)
            put(&target, 19, 6); /* its element has no name, and the id 0 */
        put(&target, 2, 1);
    }
    columns(&target, &ids, 0, 0);
    incoming = target;
    expect("680 ids of a struct's fields once more outside it, behind 83 columns of lists");
}

int main(void) {
    static const char *const places[] = {"at the top", "in a struct", "in a struct inside another", "in a struct inside two others"};
    char name[120];
    uint32_t next = 0;
    labels in = sharing(4094, 2, heads(4094), 128, &next);
    against("4,094 names of two bytes in 128 chains, all found", -1, &in, 0, &in);
    for (int around = -1; around < 3; around++) {
        int room = around < 0 ? 0 : 4 + 52 * around, count = (16377 - room) / 5, few = (16377 - room) / 20;
        next = 0;
        in = sharing(count, 3, heads(count), 1, &next);
        labels out = sharing(count, 3, heads(count), 1, &next);
        snprintf(name, sizeof name, "%d names in one chain, all found, %s", count, places[around + 1]);
        against(name, around, &in, 0, &in);
        snprintf(name, sizeof name, "%d names in one chain, all missing, %s", count, places[around + 1]);
        against(name, around, &in, 0, &out);
        next = 0;
        in = sharing(few, 3, heads(few), 1, &next);
        out = sharing(count, 3, heads(few), 1, &next);
        snprintf(name, sizeof name, "%d columns of lists, %d names of their chain, all missing, %s", few, count, places[around + 1]);
        against(name, around, &in, around < 0 ? 15 : 15 - around - 1, &out);
    }
    next = 0;
    in = sharing(2729, 0, heads(2729), 1, &next);
    labels out = sharing(2729, 0, heads(2729), 1, &next);
    against("2,729 ids in one chain, all found", -1, &in, 0, &in);
    against("2,729 ids in one chain, all missing", -1, &in, 0, &out);
    behind_lists();
    outside();
    return failed;
}
