/* Part of search.c: layouts, labels and values at random. All choices are numbers of a tape, so that a tape with a few
 * numbers changed gives an input of nearly the same shape. Types are trees in which thousands of fields of one type are
 * one run. */

enum { GENES = 128, RUNS = 4, TYPES = 20000, NOTE = 700 };

typedef struct {
    uint32_t genes[GENES];
} tape;

/* What the input at hand is made from: counts are multiplied by the scale of what is made, layouts and plan, record or
 * table of defaults. */
enum scaled { SHAPES, CONTENT, TABLE, SCALES };

static const tape *drawn;
static int drawn_at;
static double scales[SCALES];
static enum scaled scaling;

static uint32_t draw(uint32_t n) { return drawn->genes[drawn_at++ % GENES] % n; }

/* Of each size from 1 to some 32,000 equally many. */
static uint32_t draw_count(void) {
    uint32_t gene = drawn->genes[drawn_at++ % GENES];
    double count = (1 + (gene >> 8) % (UINT32_C(1) << gene % 16)) * scales[scaling];
    return count < 1 ? 1 : count > 65535 ? 65535 : (uint32_t)count;
}

/* The input in words: what makes it slow can be read there. */
static char note[NOTE];
static size_t noted;

static void say(const char *form, long value) {
    if (noted < NOTE - 40)
        noted += (size_t)snprintf(note + noted, NOTE - noted, form, value);
}

/* Too long, or too many types: the input is made again at a smaller scale. */
static int overfull;

static void put(text *t, uint64_t value, int count) {
    for (int i = 0; i < count; i++) {
        if (t->length == sizeof t->bytes) {
            overfull = 1;
            return;
        }
        t->bytes[t->length++] = (uint8_t)(value >> (8 * i));
    }
}

static void head(text *t, const char *mark, int version, uint32_t count) {
    memcpy(t->bytes, mark, 3);
    t->length = 3;
    put(t, (uint64_t)version, 2);
    put(t, count, 2);
}

/* Types. */

typedef struct type type;

/* Columns of one type, labelled `first`, `first + step`, .. */
typedef struct {
    uint32_t count;
    const type *type;
    int first, step;
} run;

typedef struct {
    int runs;
    run of[RUNS];
} row;

struct type {
    uint8_t code, unit, zone; /* of a decimal: precision and scale */
    uint32_t width;
    const type *element;
    row fields;
};

static type types[TYPES];
static int type_count;

/* Where there are too many, earlier ones are written over, and the input is not finished. */
static type *new_type(uint8_t code) {
    if (type_count == TYPES) {
        overfull = 1;
        type_count = 0;
    }
    type *t = &types[type_count++];
    memset(t, 0, sizeof *t);
    t->code = code;
    return t;
}

static int is_leaf(const type *t) { return t->code < 18 || t->code == 21; }

static type *some_leaf(void) {
    static const uint8_t codes[] = {2, 14, 0, 2, 14, 15, 21, 11, 17, 1};
    type *t = new_type(codes[draw(sizeof codes)]);
    if (t->code == 14)
        t->unit = 2;
    if (t->code == 21)
        t->unit = 5, t->zone = 2;
    return t;
}

/* Lists and arrays around a type, arrays mostly without elements. */
static const type *wrapped(const type *inner, int levels) {
    static const uint32_t widths[] = {0, 1, 0, 3, 0, 2};
    uint32_t pattern = draw(64);
    for (int i = 0; i < levels; i++) {
        type *t = new_type(pattern >> i % 6 & 1 ? 20 : 19);
        if (t->code == 20)
            t->width = widths[draw(6)];
        t->element = inner;
        inner = t;
    }
    return inner;
}

/* Levels of lists, fewer more often. */
static int some_levels(int depth) {
    static const int levels[] = {0, 1, 0, 2, 1, 15, 0, 4, 12, 3};
    int n = levels[draw(10)];
    return n > depth - 1 ? (depth > 1 ? depth - 1 : 0) : n;
}

static const type *some_type(int depth, int structs);

static void some_row(row *r, int depth, int structs) {
    static const int numbers[] = {1, 2, 1, 3};
    int labels = 0;
    r->runs = numbers[draw(4)];
    for (int i = 0; i < r->runs; i++) {
        r->of[i].count = draw(2) ? 1 : draw_count();
        r->of[i].type = some_type(depth, structs);
        r->of[i].first = labels;
        r->of[i].step = 1;
        labels += (int)r->of[i].count;
    }
}

/* A type of at most the depth, with so many structs one inside another. */
static const type *some_type(int depth, int structs) {
    int levels = some_levels(depth);
    const type *core;
    if (structs == 0 || depth - levels < 2 || draw(3) == 0) {
        core = some_leaf();
    } else {
        type *t = new_type(18);
        some_row(&t->fields, depth - levels - 1, structs - 1);
        core = t;
    }
    return wrapped(core, levels);
}

static void say_row(const row *r);

static void say_type(const type *t) {
    if (overfull)
        return;
    static const char *const names[] = {"null", "boolean", "int8", "int16", "int32", "int64", "", "", "", "", "",
                                        "float32", "float64", "", "clock", "string", "binary", "category", "struct",
                                        "list", "array", "decimal"};
    say(names[t->code], 0);
    if (t->code == 14)
        say(t->unit == 0 ? ".ns" : ".ms", 0);
    if (t->code == 20)
        say("%ld", t->width);
    if (t->code == 18)
        say_row(&t->fields);
    if (t->element != NULL) {
        int same = 1;
        while (t->element->code == t->code && t->element->width == t->width)
            same++, t = t->element;
        if (same > 1)
            say("^%ld", same);
        say(" ", 0);
        say_type(t->element);
    }
}

static void say_row(const row *r) {
    say("(", 0);
    for (int i = 0; i < r->runs; i++) {
        say(i == 0 ? "%ld " : ", %ld ", r->of[i].count);
        say_type(r->of[i].type);
    }
    say(")", 0);
}

/* Labels. */

/* Labels from the second on are missing in the incoming layout of a build. */
enum { MOST_LABELS = 70000, MISSING_LABELS = 4100 };

/* How labels are made: numbers as they are; or such as share a chain of a table of so many columns (labels.c), or a
 * word of the table of bits (crates/layout/src/seen.rt). */
enum style { PLAIN_LABELS, ONE_CHAIN, ONE_WORD, STYLES };

static struct {
    enum style style;
    int ids;
    uint32_t columns, salt, known;
    uint32_t of[MOST_LABELS], next;
} labels;

static uint32_t mix(uint32_t hash, uint32_t value) { return (hash + value) * UINT32_C(0x5BD1E995); }

static uint32_t hash_of(uint32_t label) {
    if (labels.ids)
        return mix(mix(0, labels.salt), label);
    return mix(mix(mix(labels.salt, label & 255), label >> 8 & 255), label >> 16);
}

static int shares(uint32_t label) {
    uint32_t hash = hash_of(label);
    return labels.style == ONE_CHAIN ? hash % (labels.columns / 2 + 1) == 0 : hash >> 23 == 0;
}

static void set_labels(enum style style, int ids, uint32_t columns, uint32_t salt) {
    labels.style = style, labels.ids = ids, labels.columns = columns, labels.salt = salt;
    labels.known = labels.next = 0;
}

/* While the scale is looked for, labels have their length alone. */
static int measuring;

/* Names of two or three bytes, or ids. */
static uint32_t label_of(int number) {
    if (measuring || labels.style == PLAIN_LABELS || number >= MOST_LABELS)
        return (uint32_t)number;
    for (; labels.known <= (uint32_t)number && labels.next < (labels.ids ? UINT32_MAX : 1u << 24); labels.next++)
        if (shares(labels.next))
            labels.of[labels.known++] = labels.next;
    return labels.known > (uint32_t)number ? labels.of[number] : (uint32_t)number;
}

/* Whether the columns inside structs have names; those at the top always have. */
static int nested_names;

static void put_name(text *t, int number) {
    if (number < 0) {
        put(t, 0, 1);
        return;
    }
    int plain = labels.style == PLAIN_LABELS || labels.ids;
    put(t, plain ? 2 : 3, 1);
    put(t, plain ? (uint64_t)number : label_of(number), plain ? 2 : 3);
}

/* Layouts. */

/* A version; which depths are required; whether ids are the labels, or count the siblings. */
typedef struct {
    int version;
    uint32_t required;
    int own_ids, names;
} edition;

static void put_type(text *t, const edition *e, const type *of, int depth);

static void put_label(text *t, const edition *e, int number, uint32_t id, int depth) {
    put_name(t, e->version == 1 ? (depth == 1 || nested_names ? number : -1) : e->names ? number : -1);
    if (e->version > 1)
        put(t, id, 4);
    if (e->version > 2)
        put(t, e->required >> depth & 1, 1);
}

static void put_row(text *t, const edition *e, const row *r, int depth) {
    uint32_t position = 0;
    for (int i = 0; i < r->runs; i++)
        for (uint32_t k = 0; k < r->of[i].count && !overfull; k++, position++) {
            int number = r->of[i].first + (int)k * r->of[i].step;
            put_label(t, e, number, e->own_ids && e->version > 1 ? label_of(number) : position, depth);
            put_type(t, e, r->of[i].type, depth);
        }
}

static uint32_t columns_of(const row *r) {
    uint32_t count = 0;
    for (int i = 0; i < r->runs; i++)
        count += r->of[i].count;
    if (count > 65535)
        overfull = 1;
    return count;
}

/* Somewhat deeper than a type may be, so that this is tried too. */
enum { DEEPEST = 20 };

static void put_type(text *t, const edition *e, const type *of, int depth) {
    overfull |= depth > DEEPEST;
    if (overfull)
        return;
    put(t, of->code, 1);
    if (of->code == 14) {
        put(t, of->unit, 1);
        put(t, of->zone, 1);
        if (of->zone)
            put(t, 'Z', 1);
    }
    if (of->code == 21)
        put(t, of->unit | of->zone << 8, 2);
    if (of->code == 20)
        put(t, of->width, 4);
    if (of->code == 18) {
        put(t, columns_of(&of->fields), 2);
        put_row(t, e, &of->fields, depth + 1);
    }
    if (of->element != NULL) {
        if (e->version > 1)
            put_label(t, e, -1, 0, depth + 1);
        put_type(t, e, of->element, depth + 1);
    }
}

static void put_layout(text *t, const edition *e, const row *r) {
    head(t, "LAY", e->version, columns_of(r));
    put_row(t, e, r, 1);
}

/* Of a plan. */
static void put_form(text *t, const type *of) {
    static const edition one = {.version = 1};
    put_type(t, &one, of, 1);
}

/* Values. */

/* What stands at each depth: null, or so many elements of a list. */
typedef struct {
    uint32_t elements[18];
    uint32_t null;
    size_t last_clock;
} content;

static void some_content(content *c) {
    static const uint32_t few[] = {0, 1, 1, 3};
    int large = (int)draw(6);
    for (int depth = 0; depth < 18; depth++)
        c->elements[depth] = few[draw(4)];
    c->elements[large] = draw_count();
    c->null = draw(3) == 0 ? UINT32_C(1) << draw(10) : 0;
    c->last_clock = 0;
}

static void put_value(text *t, const type *of, content *c, int depth);

static void put_values(text *t, const row *r, content *c, int depth) {
    for (int i = 0; i < r->runs; i++)
        for (uint32_t k = 0; k < r->of[i].count && !overfull; k++)
            put_value(t, r->of[i].type, c, depth);
}

static void put_value(text *t, const type *of, content *c, int depth) {
    if (overfull)
        return;
    static const uint8_t widths[] = {0, 1, 1, 2, 4, 8, 1, 2, 4, 8, 2, 4, 8, 4, 8};
    if (depth > 17 || of->code == 0 || c->null >> depth & 1) {
        put(t, 0, 1);
        return;
    }
    put(t, 1, 1);
    if (of->code == 14)
        c->last_clock = t->length;
    if (of->code < 15)
        put(t, 1, widths[of->code]);
    else if (of->code < 18)
        put(t, 0, 2);
    else if (of->code == 18)
        put_values(t, &of->fields, c, depth + 1);
    else if (of->code == 21)
        put(t, 1, 8);
    else {
        uint32_t count = of->code == 20 ? of->width : c->elements[depth];
        if (of->code == 19)
            put(t, count, 2);
        for (uint32_t k = 0; k < count && !overfull; k++)
            put_value(t, of->element, c, depth + 1);
    }
}

/* The last date-time becomes too large for nanoseconds. */
static void exceed(text *t, const content *c) {
    if (c->last_clock != 0 && c->last_clock + 8 <= t->length)
        t->bytes[c->last_clock + 7] = 0x7F;
}
