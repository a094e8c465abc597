/* Plans that ask for outputs far past any limit, some 10^33 bytes: nested list mappings over constant lists of
 * hundreds of elements. A run must answer 44 or 45 at once. Tried are plans with and without an overflow inside,
 * with an empty list on the way (so that what is inside is never run), and driven by an incoming list. Then plans
 * that no builder writes and that cost the check the most of those tried: struct mappings one over another, each of
 * which turns the fields of the one before round, at the top, and inside a list mapping's element, where the general
 * way decides. Then builds by number of columns that are all missing, with a table of as many entries as fit, of
 * which none is theirs: with ids in a row, and with ids that are all in one chain of the table's index; the plans of
 * slow_checks.h, slow_marks.h and slow_runs.h; and values that pass over a long type for each of their bytes: empty
 * arrays of a struct of lists, taken whole, in front of a column that thousands of selectors take, and in constants.
 * The exit status is 1 where an answer or an output is not the one due, or where it takes more than a second of
 * processor time; more than five for the mappings. */
#define _DEFAULT_SOURCE
#include "selector.h"

#include <stdio.h>
#include <stdlib.h>
#include <string.h>
#include <time.h>

enum { LEVELS = 14, ELEMENTS = 300, FIELDS = 300, MISSING = 600, HEADS = 653, LISTS = 1160, SELECTORS = 2700 };

typedef struct {
    uint8_t bytes[SELECTOR_PLAN_MAX];
    size_t length;
} text;

static void put(text *t, uint64_t value, int count) {
    for (int i = 0; i < count; i++)
        t->bytes[t->length++] = (uint8_t)(value >> (8 * i));
}

static void mark(text *t, const char *three, uint32_t count) {
    t->length = 0;
    memcpy(t->bytes, three, 3);
    t->length = 3;
    put(t, 1, 2);
    put(t, count, 2);
}

/* A constant list of so many null bytes, without a name. */
static void constant_list(text *t, int elements) {
    put(t, 1, 1);
    put(t, 0, 1);
    put(t, 0x0213, 2); /* a list of int8 */
    put(t, 1, 1);
    put(t, (uint64_t)elements, 2);
    for (int i = 0; i < elements; i++)
        put(t, 0, 1);
}

/* One column of lists in lists of date-times in nanoseconds. */
static void target_of(text *t, int levels) {
    mark(t, "LAY", 1);
    put(t, 0, 1);
    for (int i = 0; i < levels; i++)
        put(t, 19, 1);
    put(t, 0x00000E, 3);
}

/* The incoming layout: one column without a name, a list of date-times in milliseconds. */
static void incoming_of(text *t) {
    mark(t, "LAY", 1);
    put(t, 0, 1);
    put(t, 19, 1);
    put(t, 0x00020E, 3);
}

static void record_of(text *t, int elements, int64_t last) {
    t->length = 0;
    put(t, 1, 1);
    put(t, (uint64_t)elements, 2);
    for (int i = 0; i < elements; i++) {
        put(t, 1, 1);
        put(t, (uint64_t)(i + 1 == elements ? last : 0), 8);
    }
}

/* Mappings of constant lists, one inside another, the one at `empty` without elements; inside stands a strict cast
 * of a constant from milliseconds to nanoseconds. */
static void nested_of(text *t, int from, int levels, int empty, int64_t milliseconds) {
    for (int i = from; i < levels; i++) {
        put(t, 5, 1);
        constant_list(t, i == empty ? 0 : ELEMENTS);
    }
    put(t, 2, 1); /* a cast */
    put(t, 1, 1); /* of a constant without a name */
    put(t, 0, 1);
    put(t, 0x00020E, 3);
    put(t, 1, 1);
    put(t, (uint64_t)milliseconds, 8);
    put(t, 0x00000E, 3);
    put(t, 1, 1); /* Strict */
}

static void plan_of(text *t, int levels, int empty, int64_t milliseconds) {
    mark(t, "PLN", 1);
    nested_of(t, 0, levels, empty, milliseconds);
}

/* The outermost list is the incoming one. */
static void driven_of(text *t, int levels, int64_t milliseconds) {
    mark(t, "PLN", 1);
    put(t, 5, 1);
    put(t, 0, 1); /* position 0 */
    put(t, 0, 2);
    nested_of(t, 1, levels, -1, milliseconds);
}

/* The incoming list's own elements, cast. */
static void cast_of(text *t) {
    mark(t, "PLN", 1);
    put(t, 5, 1);
    put(t, 0, 1);
    put(t, 0, 2);
    put(t, 2, 1);
    put(t, 0, 1);
    put(t, 0, 2);
    put(t, 0x00000E, 3);
    put(t, 1, 1);
}

/* One column, a struct of so many int8 fields with names of their own, in order or from the last to the first; or a
 * list of such structs. */
static void struct_of(text *t, int listed, int fields, int turned) {
    mark(t, "LAY", 1);
    put(t, 0, 1);
    if (listed)
        put(t, 19, 1);
    put(t, 18, 1);
    put(t, (uint64_t)fields, 2);
    for (int i = 0; i < fields; i++) {
        put(t, 2, 1);
        put(t, (uint64_t)(turned ? fields - 1 - i : i), 2);
        put(t, 2, 1); /* int8 */
    }
}

static void fields_of(text *t, int listed, int fields, int turned) {
    t->length = 0;
    if (listed)
        put(t, 0x000101, 3); /* a list of one element */
    put(t, 1, 1);
    for (int i = 0; i < fields; i++) {
        put(t, 1, 1);
        put(t, (uint64_t)((turned ? fields - 1 - i : i) % 251), 1);
    }
}

/* Struct mappings one over another; field i of each takes the last but i of what it is over. */
static void turning_of(text *t, int listed, int mappings, int fields) {
    mark(t, "PLN", 1);
    if (listed)
        put(t, 0x00000005, 4); /* a list mapping of position 0 */
    for (int i = 0; i < mappings; i++)
        put(t, 4, 1);
    put(t, 0, 3); /* position 0 */
    for (int i = 0; i < mappings; i++) {
        put(t, (uint64_t)fields, 2);
        for (int k = 0; k < fields; k++) {
            put(t, 0, 1);
            put(t, (uint64_t)(fields - 1 - k), 2);
        }
    }
}

/* A list of arrays of width 0, whose element is a struct of so many lists in lists. */
static void empty_arrays(text *t, int fields, int lists) {
    put(t, 0x1413, 2);
    put(t, 0, 4);
    put(t, 18, 1);
    put(t, (uint64_t)fields, 2);
    for (int i = 0; i < fields; i++) {
        put(t, 0, 1);
        for (int k = 0; k < lists; k++)
            put(t, 19, 1);
        put(t, 2, 1);
    }
}

/* So many of them, each a byte. */
static void present_arrays(text *t, int elements) {
    put(t, 1, 1);
    put(t, (uint64_t)elements, 2);
    for (int i = 0; i < elements; i++)
        put(t, 1, 1);
}

/* One column of them, and behind it an int8 where it is asked for. */
static void arrays_of(text *t, int columns) {
    mark(t, "LAY", (uint32_t)columns);
    put(t, 0x6801, 2);
    empty_arrays(t, LISTS, 12);
    if (columns == 2)
        put(t, 0x0200, 2);
}

/* So many arrays, each a byte, and behind them an int8 where it is asked for. */
static void arrays_record(text *t, int elements, int columns) {
    t->length = 0;
    present_arrays(t, elements);
    if (columns == 2)
        put(t, 0x0701, 2);
}

static void positions_of(text *t, int count, int position) {
    mark(t, "PLN", (uint32_t)count);
    for (int i = 0; i < count; i++) {
        put(t, 0, 1);
        put(t, (uint64_t)position, 2);
    }
}

/* Columns of int8 by number, without names. */
static void numbered_of(text *t, int count) {
    mark(t, "LAY", (uint32_t)count);
    t->bytes[3] = 2;
    for (int i = 0; i < count; i++) {
        put(t, 0, 1);
        put(t, (uint64_t)i, 4);
        put(t, 2, 1);
    }
}

static text incoming, target, plan, record, due;
static uint8_t output[SELECTOR_RECORD_MAX];
static int failed;

static double since(const struct timespec *from) {
    struct timespec to;
    clock_gettime(CLOCK_PROCESS_CPUTIME_ID, &to);
    return (double)(to.tv_sec - from->tv_sec) * 1e3 + (double)(to.tv_nsec - from->tv_nsec) / 1e6;
}

static void expect(const char *name, uint32_t number) {
    struct timespec from;
    clock_gettime(CLOCK_PROCESS_CPUTIME_ID, &from);
    uint64_t answer = selector_run(incoming.bytes, incoming.length, target.bytes, target.length, plan.bytes, plan.length, record.bytes, record.length, output, sizeof output);
    double taken = since(&from);
    printf("%s: %u after %.2f ms\n", name, SELECTOR_NUMBER(answer), taken);
    if (SELECTOR_NUMBER(answer) != number || taken > 1000)
        failed = 1;
}

/* Checks and runs so many mappings over a struct. */
static void expect_turned(int listed, int mappings) {
    struct timespec from;
    int turned = mappings % 2;
    struct_of(&incoming, listed, FIELDS, 0);
    struct_of(&target, listed, FIELDS, turned);
    turning_of(&plan, listed, mappings, FIELDS);
    fields_of(&record, listed, FIELDS, 0);
    fields_of(&due, listed, FIELDS, turned);
    clock_gettime(CLOCK_PROCESS_CPUTIME_ID, &from);
    uint64_t checked = selector_check_plan(incoming.bytes, incoming.length, target.bytes, target.length, plan.bytes, plan.length);
    double check = since(&from);
    clock_gettime(CLOCK_PROCESS_CPUTIME_ID, &from);
    uint64_t ran = selector_run(incoming.bytes, incoming.length, target.bytes, target.length, plan.bytes, plan.length, record.bytes, record.length, output, sizeof output);
    double run = since(&from);
    printf("%d mappings of %d fields one over another%s: check %u after %.2f ms, run %u after %.2f ms\n", mappings, FIELDS, listed ? " in an element" : "", SELECTOR_NUMBER(checked), check, SELECTOR_NUMBER(ran), run);
    if (checked != 0 || ran != due.length || memcmp(output, due.bytes, due.length) != 0 || check > 5000 || run > 5000)
        failed = 1;
}

/* A table of partitions that failed to load, whose ids are `step` apart; in version 2 of seven owners in turn. */
static void table_of(text *t, int version, uint32_t step) {
    uint32_t entries = (SELECTOR_LAYOUT_MAX - 7) / (version == 1 ? 6 : 8);
    mark(t, "DEF", entries);
    t->bytes[3] = (uint8_t)version;
    for (uint32_t i = 0; i < entries; i++) {
        if (version == 2)
            put(t, i % 7, 2);
        put(t, (MISSING + i) * step, 4);
        put(t, 0x0101, 2);
    }
}

/* Builds columns of bytes that are missing, each of which takes its default from the table: there is none. The index of
 * the longest table has
 * `HEADS` chains: with ids as far apart, all are in one. */
static void expect_missing(int version, uint32_t step) {
    struct timespec from;
    mark(&incoming, "LAY", 0);
    mark(&target, "LAY", MISSING);
    incoming.bytes[3] = target.bytes[3] = 2;
    mark(&due, "PLN", MISSING);
    for (uint32_t i = 0; i < MISSING; i++) {
        put(&target, 0, 1);
        put(&target, i * step, 4);
        put(&target, 2, 1);
        put(&due, 0x00020001, 4); /* a constant without a name: int8, null */
    }
    table_of(&record, version, step);
    clock_gettime(CLOCK_PROCESS_CPUTIME_ID, &from);
    uint64_t built = selector_build_by_number(SELECTOR_ALLOW_ALL, 0, 3, incoming.bytes, incoming.length, target.bytes, target.length, record.bytes, record.length, plan.bytes,
                                              sizeof plan.bytes);
    double taken = since(&from);
    printf("%d missing columns, a table of version %d with %zu bytes, ids %u apart: %u after %.2f ms\n", MISSING, version, record.length, step, SELECTOR_NUMBER(built), taken);
    if (built != due.length || memcmp(plan.bytes, due.bytes, due.length) != 0 || taken > 1000)
        failed = 1;
}

#include "slow_checks.h"
#include "slow_marks.h"
#include "slow_runs.h"

int main(void) {
    const int64_t fits = 9223372036854, exceeds = 9223372036855;
    incoming_of(&incoming);
    record_of(&record, 100, fits);
    target_of(&target, LEVELS);
    plan_of(&plan, LEVELS, -1, fits);
    expect("300^14 elements, no overflow", 45);
    plan_of(&plan, LEVELS, -1, exceeds);
    expect("300^14 elements, an overflow in each", 44);
    for (int empty = 0; empty < LEVELS; empty += 5) {
        plan_of(&plan, LEVELS, empty, exceeds);
        char name[80];
        snprintf(name, sizeof name, "an empty list at level %d, an overflow inside", empty);
        expect(name, empty == 0 ? 0 : 45);
    }
    driven_of(&plan, LEVELS, exceeds);
    expect("driven by an incoming list", 44);
    record_of(&record, 0, 0);
    expect("driven by an empty incoming list", 0);
    target_of(&target, 1);
    cast_of(&plan);
    record_of(&record, 1000, fits);
    expect("the incoming list's elements", 0);
    record_of(&record, 1000, exceeds);
    expect("the incoming list's elements, the last too large", 44);
    for (int listed = 0; listed < 2; listed++) {
        expect_turned(listed, 7);
        expect_turned(listed, 60);
    }
    for (int version = 1; version <= 2; version++) {
        expect_missing(version, 1);
        expect_missing(version, HEADS);
    }
    slow_checks();
    slow_renames();
    slow_constants();
    slow_fields();
    slow_chains();
    slow_columns();
    slow_rows();
    slow_marks();
    slow_runs();
    slow_tops();
    slow_past_the_limit();
    arrays_of(&incoming, 1);
    arrays_of(&target, 1);
    positions_of(&plan, 1, 0);
    arrays_record(&record, SELECTOR_RECORD_MAX - 3, 1);
    expect("a record of empty arrays of a struct of lists", 0);
    if (memcmp(output, record.bytes, record.length) != 0)
        failed = 1;
    arrays_of(&incoming, 2);
    numbered_of(&target, SELECTORS);
    positions_of(&plan, SELECTORS, 1);
    arrays_record(&record, 50, 2);
    expect("2,700 selectors of the column behind 50 of them", 0);
    mapped_arrays(2);
    mapped_arrays(20);
    return failed;
}
