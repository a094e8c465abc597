/* Part of bounded.c: plans within the limits whose check once took seconds, since a type was measured or a selector
 * passed over again and again. One is refused with 33, in the other the selector of a list mapping has a transform
 * over a transform, so that the general way decides. */

enum { RENAMES = 60, RENAMED = 3900, CONSTANT = 40000, TAKEN = 7500, FIELDS_MADE = 3000, RENAMES_MADE = 11000, COLUMNS = 1000, RENAMES_LAST = 13000 };

static void position(text *t, int k) {
    put(t, 0, 1);
    put(t, (uint64_t)k, 2);
}

static void expect_check_within(const char *name, uint32_t number, double limit) {
    struct timespec from;
    clock_gettime(CLOCK_PROCESS_CPUTIME_ID, &from);
    uint64_t answer = selector_check_plan(incoming.bytes, incoming.length, target.bytes, target.length, plan.bytes, plan.length);
    double taken = since(&from);
    printf("%s, a plan of %zu bytes: check %u after %.2f ms\n", name, plan.length, SELECTOR_NUMBER(answer), taken);
    if (SELECTOR_NUMBER(answer) != number || taken > limit)
        failed = 1;
}

static void expect_check(const char *name, uint32_t number) {
    expect_check_within(name, number, 1000);
}

/* Renames of a mapping that turns the fields round. */
static void renamed_of(text *t, int renames, int fields) {
    mark(t, "PLN", 1);
    put(t, 5, 1);
    position(t, 0);
    for (int i = 0; i < renames; i++)
        put(t, 3, 1);
    put(t, 4, 1);
    position(t, 0);
    put(t, (uint64_t)fields, 2);
    for (int k = 0; k < fields; k++)
        position(t, fields - 1 - k);
    for (int i = 0; i < renames; i++)
        put(t, 0, 1); /* no name */
}

/* A constant of empty arrays, without a name. */
static void constant_arrays(text *t, int elements, int fields, int lists) {
    put(t, 0x0001, 2);
    empty_arrays(t, fields, lists);
    present_arrays(t, elements);
}

/* A plan of one list mapping, up to the field of the mapping that another one in the element stands over. */
static void over_one_field(text *t) {
    mark(t, "PLN", 1);
    put(t, 5, 1);
    position(t, 0);
    put(t, 4, 1);
    put(t, 4, 1);
    position(t, 0);
    put(t, 1, 2);
}

/* What stands before the selectors of a mapping over a mapping of one field, in an element, and how many they are. */
static void mapping_over(text *t, int selectors) {
    over_one_field(t);
    position(t, 0);
    put(t, (uint64_t)selectors, 2);
}

/* Its first selector is a constant list, the others take the one field. */
static void constant_first(text *t, int elements, int positions) {
    mapping_over(t, positions + 1);
    constant_list(t, elements);
    for (int k = 0; k < positions; k++)
        position(t, 0);
}

/* The first is a constant of empty arrays of a struct of 1,000 lists. */
static void arrays_first(text *t, int elements, int positions) {
    mapping_over(t, positions + 1);
    constant_arrays(t, elements, 1000, 10);
    for (int k = 0; k < positions; k++)
        position(t, 0);
}

/* A list of structs of a list and so many int8 fields, all without names; or of one int8 field. */
static void taken_of(text *t, int fields, int listed) {
    mark(t, "LAY", 1);
    put(t, 0, 1);
    put(t, 0x1213, 2);
    put(t, (uint64_t)(fields + listed), 2);
    if (listed)
        put(t, 0x021300, 3);
    for (int k = 0; k < fields; k++)
        put(t, 0x0200, 2);
}

/* A list of structs of one field, a struct of so many int8 fields, all without names. */
static void inner_of(text *t, int fields) {
    mark(t, "LAY", 1);
    put(t, 0, 1);
    put(t, 0x1213, 2);
    put(t, 1, 2);
    put(t, 0x1200, 2);
    put(t, (uint64_t)fields, 2);
    for (int k = 0; k < fields; k++)
        put(t, 0x0200, 2);
}

static void rename_position(text *t, int k) {
    put(t, 3, 1);
    position(t, k);
    put(t, 0, 1); /* no name */
}

/* In an element, renames of what a mapping of so many fields makes, each by a position. */
static void renamed_made(text *t, int renames, int fields) {
    over_one_field(t);
    put(t, 4, 1);
    position(t, 0);
    put(t, (uint64_t)fields, 2);
    for (int k = 0; k < fields; k++)
        position(t, k);
    put(t, (uint64_t)renames, 2);
    for (int k = 0; k < renames; k++)
        rename_position(t, 0);
}

/* So many columns of twelve lists in lists. */
static void lists_of(text *t, int columns) {
    mark(t, "LAY", (uint32_t)columns);
    for (int k = 0; k < columns; k++) {
        put(t, 2, 1);
        put(t, (uint64_t)k, 2);
        for (int i = 0; i < 12; i++)
            put(t, 19, 1);
        put(t, 2, 1);
    }
}

/* Renames of one column. */
static void renamed_last(text *t, int renames, int last) {
    mark(t, "PLN", (uint32_t)renames);
    for (int k = 0; k < renames; k++)
        rename_position(t, last);
}

/* Renames of positions: what is known to be within the limits is not measured again. */
static void slow_renames(void) {
    inner_of(&incoming, FIELDS_MADE);
    taken_of(&target, 1, 0);
    renamed_made(&plan, RENAMES_MADE, FIELDS_MADE);
    expect_check("renames of what a mapping makes in an element", 32);
    lists_of(&incoming, COLUMNS);
    taken_of(&target, 1, 0);
    renamed_last(&plan, RENAMES_LAST, COLUMNS - 1);
    expect_check("renames of the last column", 33);
}

static void slow_checks(void) {
    struct_of(&incoming, 1, RENAMED, 0);
    struct_of(&target, 1, RENAMED, 1);
    target.bytes[target.length - 1] = 3; /* the last field is an int16 */
    renamed_of(&plan, RENAMES, RENAMED);
    expect_check("renames of a mapping in an element", 33);
    taken_of(&incoming, 1, 0);
    taken_of(&target, TAKEN, 1);
    constant_first(&plan, CONSTANT, TAKEN);
    expect_check("a constant before positions in an element", 0);
}

/* In an element of a column, a mapping over one of so many fields, up to the first of these. */
static void over_fields_of(text *t, int column, int fields) {
    put(t, 5, 1);
    position(t, column);
    put(t, 0x0404, 2);
    position(t, 0);
    put(t, (uint64_t)fields, 2);
}

/* In an element, positions that take what stands behind a constant of empty arrays of a struct of ten fields. */
static void behind_arrays(text *t, int elements, int positions) {
    mark(t, "PLN", 1);
    over_fields_of(t, 0, 2);
    constant_arrays(t, elements, 10, 2);
    position(t, 0);
    put(t, (uint64_t)positions, 2);
    for (int k = 0; k < positions; k++)
        position(t, 1);
}

/* Checks a plan that gives a list of one struct of an int8 field's copies, and runs it. */
static void expect_taken(const char *name) {
    expect_check(name, 0);
    record.length = 0;
    put(&record, 0x01000101, 4); /* a list of one struct */
    put(&record, 0x0701, 2);
    expect("the same, run", 0);
    if (output[0] != 1 || output[4] != 1 || output[5] != 7)
        failed = 1;
}

/* A selector in front of others: a rename, two casts, or a constant of so many empty arrays. */
static void in_front(text *t, int kind) {
    if (kind == 0) {
        rename_position(t, 0);
    } else if (kind == 1) {
        put(t, 0x0202, 2);
        position(t, 0);
        put(t, 0x02040203, 4); /* int16 and int32, Overflowing */
    } else {
        constant_arrays(t, kind, 1, 0);
    }
}

/* In an element, positions that take what stands behind so many selectors of that kind. */
static void behind_many(text *t, int kind, int many, int positions) {
    mark(t, "PLN", 1);
    over_fields_of(t, 0, many + 1);
    for (int k = 0; k < many; k++)
        in_front(t, kind);
    position(t, 0);
    put(t, (uint64_t)positions, 2);
    for (int k = 0; k < positions; k++)
        position(t, many);
}

/* Fields of a mapping, each behind thousands of short selectors. */
static void slow_fields(void) {
    static const struct {
        int kind, many, positions;
        const char *name;
    } tried[] = {
        {0, 8000, 8000, "8,000 fields of a mapping, each behind 8,000 renames"},
        {1, 4700, 7400, "7,400 fields of a mapping, each behind 4,700 casts over casts"},
        {23, 1000, 7800, "7,800 fields of a mapping, each behind 1,000 short constants"},
        {45, 660, 7800, "7,800 fields of a mapping, each behind 660 constants"},
    };
    for (size_t i = 0; i < sizeof tried / sizeof *tried; i++) {
        taken_of(&incoming, 1, 0);
        taken_of(&target, tried[i].positions, 0);
        behind_many(&plan, tried[i].kind, tried[i].many, tried[i].positions);
        expect_taken(tried[i].name);
    }
}

/* Chains of mappings one over another, of a column of one field, each of which has an entry in the table of where
 * selectors end, as often as there is room for; and behind them fields that take what stands behind constants. */
static void slow_chains(void) {
    enum { CHAINS = 24, LINKS = 60, WIDE = 45, BEFORE = 480, TAKEN_BEHIND = 6000 };
    mark(&incoming, "LAY", 2);
    put(&incoming, 0x126101, 3);
    put(&incoming, 0x02000001, 4);
    put(&incoming, 0x12136201, 4);
    put(&incoming, 0x02000001, 4);
    taken_of(&target, 1, 0);
    mark(&plan, "PLN", CHAINS + 1);
    for (int i = 0; i < CHAINS; i++) {
        for (int k = 0; k < LINKS; k++)
            put(&plan, 4, 1);
        position(&plan, 0);
        put(&plan, WIDE, 2);
        for (int k = 0; k < WIDE; k++)
            position(&plan, 0);
        for (int k = 1; k < LINKS; k++) {
            put(&plan, 1, 2);
            position(&plan, 0);
        }
    }
    over_fields_of(&plan, 1, BEFORE + 1);
    for (int k = 0; k < BEFORE; k++)
        constant_arrays(&plan, 40, 1, 0);
    position(&plan, 0);
    put(&plan, TAKEN_BEHIND, 2);
    for (int k = 0; k < TAKEN_BEHIND; k++)
        position(&plan, BEFORE);
    expect_check("6,000 fields, each behind 480 constants, after 24 chains of mappings", 33);
}

/* Casts of the last of many columns. */
static void slow_columns(void) {
    enum { LISTS_BEFORE = 999, CASTS_LAST = 10900 };
    lists_of(&incoming, LISTS_BEFORE);
    put(&incoming, 0x0200, 2);
    incoming.bytes[5] = (LISTS_BEFORE + 1) & 255;
    incoming.bytes[6] = (LISTS_BEFORE + 1) >> 8;
    taken_of(&target, 1, 0);
    mark(&plan, "PLN", CASTS_LAST);
    for (int k = 0; k < CASTS_LAST; k++) {
        put(&plan, 2, 1);
        position(&plan, LISTS_BEFORE);
        put(&plan, 0x0203, 2); /* int16, Overflowing */
    }
    expect_check("casts of the last column", 33);
}

/* A name of so many bytes. */
static void name_of(text *t, int length) {
    put(t, (uint64_t)length, 1);
    for (int i = 0; i < length; i++)
        put(t, 'x', 1);
}

static void positions_in_row(text *t, int count, int k) {
    put(t, (uint64_t)count, 2);
    for (int i = 0; i < count; i++)
        position(t, k);
}

/* In an element mappings one over another, whose codes begin where 128 bytes of the plan do: 32 steps through the
 * entries of these bytes do not come to that of the innermost mapping's first fields. They are a cast and positions;
 * the mapping over it has as many fields, of its last, then come mappings of one field, and the outermost. */
static void rows_of(text *t, int mappings, int inner, int outer) {
    mark(t, "PLN", 1);
    put(t, 5, 1);
    put(t, 0x0303, 2); /* two renames of position 0 */
    position(t, 0);
    name_of(t, 63);
    name_of(t, 127 - (int)t->length);
    for (int i = 0; i < mappings; i++)
        put(t, 4, 1);
    position(t, 0);
    put(t, (uint64_t)inner, 2);
    put(t, 2, 1);
    position(t, 0);
    put(t, 0x0203, 2); /* int16, Overflowing */
    for (int i = 1; i < inner; i++)
        position(t, 0);
    positions_in_row(t, inner, inner - 1);
    for (int i = 3; i < mappings; i++)
        positions_in_row(t, 1, i == 3 ? inner - 1 : 0);
    positions_in_row(t, outer, 0);
}

/* Rows of positions behind fields whose entry in the table of where selectors end is not found. */
static void slow_rows(void) {
    enum { MAPPINGS = 34, INNER = 8180, OUTER = 5300 };
    taken_of(&incoming, 1, 0);
    mark(&target, "LAY", 1);
    name_of(&target, 50);
    put(&target, 0x1213, 2);
    put(&target, OUTER, 2);
    for (int k = 0; k < OUTER; k++)
        put(&target, 0x0200, 2);
    rows_of(&plan, MAPPINGS, INNER, OUTER);
    expect_check("5,300 fields behind rows of 8,180 in 34 mappings", 0);
}

/* Constants whose values pass over a type for each of their bytes. */
static void slow_constants(void) {
    taken_of(&incoming, 1, 0);
    taken_of(&target, 7000, 0);
    behind_arrays(&plan, 40000, 7000);
    expect_taken("7,000 fields of a mapping, each behind 40,000 empty arrays of a short struct");
    taken_of(&incoming, 1, 0);
    mark(&target, "LAY", 1);
    put(&target, 0, 1);
    put(&target, 0x1213, 2);
    put(&target, 701, 2);
    put(&target, 0, 1);
    empty_arrays(&target, 1000, 10);
    for (int k = 0; k < 700; k++)
        put(&target, 0x0200, 2);
    arrays_first(&plan, 20000, 700);
    expect_check("a constant of 20,000 empty arrays of a long struct before positions", 0);
    record.length = 0;
    put(&record, 0x01000101, 4); /* a list of one struct */
    put(&record, 0x0701, 2);
    expect("the same, run", 45);
    mark(&plan, "PLN", 1);
    constant_arrays(&plan, 32000, 16300, 0);
    expect_check("a constant of 32,000 empty arrays of a struct of 32,000 bytes", 33);
}
