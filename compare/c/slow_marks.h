/* Part of bounded.c: the check of required marks, at its dearest. Every required place of the target asks what the
 * plan gives there, so plans are made in which each answer is far: in every element of a large constant, behind a
 * large constant, behind a column of a long type, below mappings one over another or inside each other. Each plan is
 * tried as it passes, and with a null at the last place that is looked at, or an optional field there (55). Then
 * builds whose missing structs have a default for each required field, or for all but the last (54). */

/* As many int8 columns without names as a layout of version 3 has, less what is around them; and a default for each
 * of so many in a table. */
enum { MARKED = 2330, DEFAULTED = 2040, NESTED_STRUCTS = 14 };

enum { OPTIONAL, REQUIRED };

static void head_of_three(text *t, uint32_t columns) {
    mark(t, "LAY", columns);
    t->bytes[3] = 3;
}

/* A label without a name. */
static void label_of(text *t, uint32_t id, int required) {
    put(t, 0, 1);
    put(t, id, 4);
    put(t, (uint64_t)required, 1);
}

/* A column or field of int8. */
static void int8_of(text *t, uint32_t id, int required) {
    label_of(t, id, required);
    put(t, 2, 1);
}

/* Fields of int8, the last with a mark of its own. */
static void int8_fields(text *t, int fields, int required, int last) {
    put(t, 18, 1);
    put(t, (uint64_t)fields, 2);
    for (int i = 0; i < fields; i++)
        int8_of(t, (uint32_t)i, i + 1 == fields ? last : required);
}

/* One column: so many lists around a struct of such fields. All lists and elements are optional but where `required`
 * says otherwise. */
static void wide_of(text *t, int lists, int fields, int required, int last) {
    head_of_three(t, 1);
    label_of(t, 0, required);
    for (int i = 0; i < lists; i++) {
        put(t, 19, 1);
        label_of(t, 0, OPTIONAL);
    }
    int8_fields(t, fields, required, last);
}

/* The same type as plans have it. */
static void wide_type(text *t, int lists, int fields) {
    for (int i = 0; i < lists; i++)
        put(t, 19, 1);
    put(t, 18, 1);
    put(t, (uint64_t)fields, 2);
    for (int i = 0; i < fields; i++)
        put(t, 0x0200, 2);
}

/* A struct of present int8 values, the last null where it is said. */
static void wide_value(text *t, int fields, int null) {
    put(t, 1, 1);
    for (int i = 0; i < fields; i++)
        put(t, null && i + 1 == fields ? 0 : 1, null && i + 1 == fields ? 1 : 2);
}

/* A constant list: nulls, then as many structs as there is space for, the last of them perhaps with a null. */
static void many_values(text *t, int nulls, int fields, int null) {
    put(t, 0x0001, 2);
    wide_type(t, 1, fields);
    size_t size = 1 + 2 * (size_t)fields;
    size_t structs = (SELECTOR_PLAN_MAX - t->length - 3 - (size_t)nulls) / size;
    put(t, 1, 1);
    put(t, (uint64_t)nulls + structs, 2);
    for (int i = 0; i < nulls; i++)
        put(t, 0, 1);
    for (size_t i = 0; i < structs; i++)
        wide_value(t, fields, null && i + 1 == structs);
}

static void large_constants(void) {
    mark(&incoming, "LAY", 0);
    wide_of(&target, 1, MARKED, REQUIRED, REQUIRED);
    for (int null = 0; null < 2; null++) {
        mark(&plan, "PLN", 1);
        many_values(&plan, 0, MARKED, null);
        expect_check("2,330 required fields in each element of a constant", null ? 55 : 0);
        mark(&plan, "PLN", 1);
        many_values(&plan, 50000, MARKED, null);
        expect_check("the same behind 50,000 null elements", null ? 55 : 0);
    }
}

/* A mapping over a struct constant, or an incoming struct: a constant list, then the fields from the last to the
 * first. */
static void mapped_of(text *t, int constant, int fields, int null) {
    mark(t, "PLN", 1);
    put(t, 4, 1);
    if (constant) {
        put(t, 0x0001, 2);
        wide_type(t, 0, fields);
        wide_value(t, fields, null);
    } else {
        position(t, 0);
    }
    put(t, (uint64_t)fields + 1, 2);
    constant_list(t, 40000);
    for (int k = 0; k < fields; k++)
        position(t, fields - 1 - k);
}

static void wide_mappings(void) {
    enum { FEWER = 2300 };
    head_of_three(&target, 1);
    label_of(&target, 0, OPTIONAL);
    put(&target, 18, 1);
    put(&target, FEWER + 1, 2);
    label_of(&target, 99999, OPTIONAL);
    put(&target, 19, 1);
    int8_of(&target, 0, OPTIONAL);
    for (uint32_t i = 0; i < FEWER; i++)
        int8_of(&target, i, REQUIRED);
    for (int null = 0; null < 2; null++) {
        mark(&incoming, "LAY", 0);
        mapped_of(&plan, 1, FEWER, null);
        expect_check("2,300 required fields of a constant, taken behind one of 40,000 elements", null ? 55 : 0);
        wide_of(&incoming, 0, FEWER, REQUIRED, null ? OPTIONAL : REQUIRED);
        mapped_of(&plan, 0, FEWER, 0);
        expect_check("2,300 required fields of a column, taken behind such a constant", null ? 55 : 0);
    }
}

/* Struct mappings one over another, as in turning_of, over fields that are required; the last is optional where it
 * is said. */
static void marked_turns(void) {
    for (int optional = 0; optional < 2; optional++) {
        wide_of(&incoming, 0, FIELDS, REQUIRED, optional ? OPTIONAL : REQUIRED);
        wide_of(&target, 0, FIELDS, REQUIRED, REQUIRED);
        turning_of(&plan, 0, 60, FIELDS);
        expect_check("60 mappings of 300 required fields one over another", optional ? 55 : 0);
        wide_of(&incoming, 1, FIELDS, REQUIRED, optional ? OPTIONAL : REQUIRED);
        wide_of(&target, 1, FIELDS, REQUIRED, REQUIRED);
        turning_of(&plan, 1, 60, FIELDS);
        expect_check("the same in an element", optional ? 55 : 0);
    }
}

/* Required lists in lists down to a required int8. */
static void marked_lists(text *t, int levels) {
    head_of_three(t, 1);
    label_of(t, 0, REQUIRED);
    for (int i = 0; i < levels; i++) {
        put(t, 19, 1);
        label_of(t, 0, REQUIRED);
    }
    put(t, 2, 1);
}

/* A value of lists in lists: at each level but the last so many empty ones, and then the next. */
static void lists_value(text *t, int levels, int empty, int null) {
    for (int i = 0; i < levels; i++) {
        int last = i + 1 == levels;
        put(t, 1, 1);
        put(t, (uint64_t)(last ? 1 : empty + 1), 2);
        for (int k = 0; !last && k < empty; k++)
            put(t, 0x000001, 3);
    }
    put(t, null ? 0 : 1, null ? 1 : 2);
}

/* Mappings of constant lists one inside another; the innermost gives an int8, or null. */
static void nested_marks(text *t, int levels, int null) {
    mark(t, "PLN", 1);
    for (int i = 0; i < levels; i++) {
        put(t, 5, 1);
        constant_list(t, ELEMENTS);
    }
    put(t, 0x020001, 3);
    put(t, null ? 0 : 1, null ? 1 : 2);
}

static void required_elements(void) {
    enum { DEEP = 15, EMPTY = 1400 };
    mark(&incoming, "LAY", 0);
    marked_lists(&target, DEEP);
    for (int null = 0; null < 2; null++) {
        nested_marks(&plan, DEEP, null);
        expect_check("required elements of 15 lists mapped one inside another", null ? 55 : 0);
        mark(&plan, "PLN", 1);
        put(&plan, 0x0001, 2);
        for (int i = 0; i < DEEP; i++)
            put(&plan, 19, 1);
        put(&plan, 2, 1);
        lists_value(&plan, DEEP, EMPTY, null);
        expect_check("required elements of a constant of 15 lists in lists", null ? 55 : 0);
    }
}

/* Thousands of required columns, each of which takes the one that stands behind a column of a long type. */
static void behind_a_long_type(void) {
    head_of_three(&target, MARKED);
    for (uint32_t i = 0; i < MARKED; i++)
        int8_of(&target, i, REQUIRED);
    positions_of(&plan, MARKED, 1);
    for (int optional = 0; optional < 2; optional++) {
        head_of_three(&incoming, 2);
        label_of(&incoming, 7, REQUIRED);
        int8_fields(&incoming, MARKED - 2, REQUIRED, REQUIRED);
        int8_of(&incoming, 8, optional ? OPTIONAL : REQUIRED);
        expect_check("2,330 required columns that take the one behind a wide struct", optional ? 55 : 0);
    }
}

/* A null that is cast to a struct of required fields, and a mapping that takes each of them. */
static void cast_nulls(void) {
    mark(&incoming, "LAY", 1);
    put(&incoming, 0, 2);
    for (int required = 0; required < 2; required++) {
        wide_of(&target, 0, MARKED, REQUIRED, REQUIRED);
        target.bytes[12] = (uint8_t)required;
        mark(&plan, "PLN", 1);
        put(&plan, 0x0204, 2);
        position(&plan, 0);
        wide_type(&plan, 0, MARKED);
        put(&plan, 0, 1);
        put(&plan, MARKED, 2);
        for (int k = 0; k < MARKED; k++)
            position(&plan, MARKED - 1 - k);
        expect_check("a null cast to a struct of 2,330 required fields", required ? 55 : 0);
    }
}

/* A missing column of structs in structs, the innermost with required fields that have a default each, the last
 * where it is said. */
static void expect_defaults(int lacking) {
    struct timespec from;
    mark(&incoming, "LAY", 0);
    incoming.bytes[3] = 2;
    head_of_three(&target, 1);
    label_of(&target, 0, REQUIRED);
    for (int i = 0; i < NESTED_STRUCTS; i++) {
        put(&target, 0x000112, 3);
        label_of(&target, 0, REQUIRED);
    }
    int8_fields(&target, DEFAULTED, REQUIRED, REQUIRED);
    mark(&record, "DEF", (uint32_t)(DEFAULTED - lacking));
    for (uint32_t i = 0; i < (uint32_t)(DEFAULTED - lacking); i++) {
        put(&record, i, 4);
        put(&record, 0x0200, 2); /* initial, int8 */
        put(&record, 0x0701, 2);
    }
    clock_gettime(CLOCK_PROCESS_CPUTIME_ID, &from);
    uint64_t built = selector_build_by_number(SELECTOR_ALLOW_ALL, 0, 0, incoming.bytes, incoming.length, target.bytes, target.length, record.bytes, record.length, plan.bytes,
                                              sizeof plan.bytes);
    double taken = since(&from);
    printf("a missing struct of 2,040 required fields, %d without a default: %u after %.2f ms\n", lacking, SELECTOR_NUMBER(built), taken);
    if (SELECTOR_NUMBER(built) != (lacking ? 54 : 0) || taken > 1000)
        failed = 1;
    if (SELECTOR_NUMBER(built) == 0) {
        plan.length = (size_t)built;
        expect_check("the plan of that build", 0);
    }
}

static void slow_marks(void) {
    large_constants();
    wide_mappings();
    marked_turns();
    required_elements();
    behind_a_long_type();
    cast_nulls();
    expect_defaults(0);
    expect_defaults(1);
}
