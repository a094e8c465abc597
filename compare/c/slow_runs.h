/* Part of bounded.c: plans within the limits whose run once took seconds, since each cast of a chain was looked up
 * from the chain's start. */

enum { CHAINED = 60, OVER = 10, EACH = 46, ELEMENT = 0x4700 /* 7 as a float of 16 bits */ };

/* One column, a list of leaves of that kind. */
static void leaves_of(text *t, int kind) {
    mark(t, "LAY", 1);
    put(t, 0, 1);
    put(t, 19, 1);
    put(t, (uint64_t)kind, 1);
}

static void cast_to(text *t, int kind, int option) {
    put(t, (uint64_t)kind, 1);
    put(t, (uint64_t)option, 1);
}

/* Casts over position 0, an even number of them: from int8 or, in a later mapping, from float16 up to float64, back
 * and forth, and to float16. */
static void casts_of(text *t, int casts, int first) {
    for (int i = 0; i < casts; i++)
        put(t, 2, 1);
    position(t, 0);
    int i = 0;
    if (first)
        for (; i < 3; i++)
            cast_to(t, 3 + i, 2); /* int16, int32, int64: Overflowing */
    for (; i < casts - 1; i++)
        if (i == 3 && first)
            cast_to(t, 11, 2);
        else
            cast_to(t, i % 2 == 0 ? 12 : 11, 0);
    cast_to(t, 10, 0);
}

/* List mappings, each of which is the input of the next; every element goes through so many casts in each. */
static void chain_of(text *t, int mappings, int casts) {
    mark(t, "PLN", 1);
    for (int i = 0; i < mappings; i++)
        put(t, 5, 1);
    position(t, 0);
    for (int i = 0; i < mappings; i++)
        casts_of(t, casts, i == 0);
}

static void sevens_of(text *t, int elements) {
    t->length = 0;
    put(t, 1, 1);
    put(t, (uint64_t)elements, 2);
    for (int i = 0; i < elements; i++)
        put(t, 0x0701, 2);
}

/* A list of so many sevens, all of which are to become floats of 16 bits. */
static void expect_sevens(int elements) {
    uint32_t length = 3 + 3 * (uint32_t)elements;
    sevens_of(&record, elements);
    char name[80];
    snprintf(name, sizeof name, "a plan of %zu bytes, mostly casts, over %d elements", plan.length, elements);
    expect(name, length > SELECTOR_RECORD_MAX ? 45 : 0);
    if (length > SELECTOR_RECORD_MAX)
        return;
    for (int i = 0; i < elements; i++)
        if (output[3 + 3 * i] != 1 || output[4 + 3 * i] != (ELEMENT & 255) || output[5 + 3 * i] != ELEMENT >> 8)
            failed = 1;
}

static void slow_runs(void) {
    leaves_of(&incoming, 2);
    leaves_of(&target, 10);
    chain_of(&plan, 1, CHAINED);
    expect_sevens(8190);
    expect_sevens(5460);
    chain_of(&plan, OVER, EACH);
    expect_sevens(30);
    expect_sevens(2000);
}

/* Columns of date-times in milliseconds, each cast strictly to nanoseconds. One pass settles all selectors but one: the
 * last cast, whose time is too large; or, beside the casts, a list made of lists that are together longer than an
 * output. */
static void slow_tops(void) {
    enum { TIMES = 1700 };
    for (int listed = 0; listed < 2; listed++) {
        const char *name = listed ? "1,700 casts and a list of long lists" : "1,700 casts, the last time too large";
        mark(&incoming, "LAY", TIMES);
        mark(&target, "LAY", (uint32_t)(TIMES + listed));
        mark(&plan, "PLN", (uint32_t)(TIMES + listed));
        record.length = 0;
        for (int i = 0; i < TIMES; i++) {
            put(&incoming, 0x0E000002 | (uint64_t)i << 8, 4); /* a name of two bytes */
            put(&incoming, 2, 2);
            put(&target, 0x0E000002 | (uint64_t)i << 8, 4);
            put(&target, 0, 2);
            put(&plan, 2, 1);
            put(&plan, (uint64_t)i << 8, 3); /* position i */
            put(&plan, 0x0100000E, 4);       /* Strict */
            put(&record, 1, 1);
            put(&record, i + 1 < TIMES || listed ? 1000 : 9223372036855, 8);
        }
        if (listed) {
            put(&target, 0x021300, 3); /* a list of int8 without a name */
            put(&plan, 0x0505, 2);
            constant_list(&plan, ELEMENTS);
            constant_list(&plan, 100);
            put(&plan, 0x0701020001, 5); /* for each of the lists a constant int8, 7 */
        }
        struct timespec from;
        clock_gettime(CLOCK_PROCESS_CPUTIME_ID, &from);
        uint64_t checked = selector_check_plan(incoming.bytes, incoming.length, target.bytes, target.length, plan.bytes, plan.length);
        double check = since(&from);
        printf("%s: check %u after %.2f ms\n", name, SELECTOR_NUMBER(checked), check);
        expect(name, listed ? 0 : 44);
        if (checked != 0 || check > 1000 || (listed && (output[9 * TIMES] != 1 || output[9 * TIMES + 2 * ELEMENTS + 2] != 7)))
            failed = 1;
    }
}

/* Renames of list mappings one over another of a list, as many as a plan has room for: the output is too long after a
 * few of them. */
static void slow_past_the_limit(void) {
    enum { TOPS = 260, MAPPINGS = 60, LISTED = 5000 };
    leaves_of(&incoming, 2);
    mark(&target, "LAY", TOPS);
    mark(&plan, "PLN", TOPS);
    for (int i = 0; i < TOPS; i++) {
        put(&target, 0x000002 | (uint64_t)i << 8, 3); /* a name of two bytes */
        put(&target, 0x0213, 2);
        put(&plan, 3, 1);
        for (int k = 0; k < MAPPINGS; k++)
            put(&plan, 5, 1);
        for (int k = 0; k <= MAPPINGS; k++)
            position(&plan, 0);
        put(&plan, 0x000002 | (uint64_t)i << 8, 3);
    }
    sevens_of(&record, LISTED);
    expect("260 lists of 5,000 elements through 60 mappings each", 45);
}

/* Empty arrays of a wide struct through list mappings, each of which is the input of the next. */
static void mapped_arrays(int mappings) {
    char name[80];
    arrays_of(&incoming, 1);
    arrays_of(&target, 1);
    mark(&plan, "PLN", 1);
    for (int i = 0; i < mappings; i++)
        put(&plan, 5, 1);
    for (int i = 0; i <= mappings; i++)
        position(&plan, 0);
    arrays_record(&record, SELECTOR_RECORD_MAX - 3, 1);
    snprintf(name, sizeof name, "%d list mappings one over another, of empty arrays", mappings);
    expect(name, 0);
    if (memcmp(output, record.bytes, record.length) != 0)
        failed = 1;
}
