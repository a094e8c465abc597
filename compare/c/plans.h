/* Part of search.c, over shapes.h: plans and builds at random. The type that a selector gives is worked out as its
 * bytes are written, so that the target can be what a plan gives. */

/* Plans. */

enum { NESTING = 64 };

typedef struct {
    const type *type;
    int name;
} column;

/* Which column of a row a selector takes: of the run, so far from its start. */
typedef struct {
    const row *scope;
    int run;
    uint32_t offset;
} place;

static int saying;

static void tell(const char *form, long value) {
    if (saying)
        say(form, value);
}

/* What a leaf is cast to, and by which option; none where it has no cast. */
static const type *cast_of(const type *from, int turn, int *option) {
    type *to = new_type(from->code);
    *option = 0;
    to->unit = from->unit, to->zone = from->zone;
    switch (from->code) {
    case 2:
    case 3:
    case 4:
        to->code++;
        *option = 2;
        return to;
    case 5:
        to->code = 12;
        *option = 2;
        return to;
    case 11:
    case 12:
        to->code = from->code == 11 ? 12 : 11;
        return to;
    case 14:
        if (turn % 3 == 2) {
            to->zone = !from->zone;
        } else {
            to->unit = from->unit == 2 ? 0 : 2;
            *option = to->unit == 0;
        }
        return to;
    case 17:
        to->code = 15;
        return to;
    case 21:
        to->unit++;
        return from->unit < 18 ? to : NULL;
    default:
        return NULL;
    }
}

static column selector(text *t, const row *scope, int nest, place at);

/* So many selectors that take the columns of one run, in order, turned round, or one of them again and again. */
static void selectors(text *t, const row *scope, int nest, row *made) {
    static const int numbers[] = {1, 2, 1, 3};
    int groups = numbers[draw(4)], was = saying;
    made->runs = groups;
    for (int i = 0; i < groups; i++) {
        place at = {.scope = scope, .run = (int)draw((uint32_t)scope->runs)};
        const run *from = &scope->of[at.run];
        int way = (int)draw(4);
        uint32_t count = draw(3) == 0 ? 1 : way == 0 ? draw_count() : from->count;
        int start = drawn_at;
        tell(i == 0 ? "{%ld" : ", %ld", count);
        tell(way == 0 ? " last" : way == 1 ? " turned" : "", 0);
        for (uint32_t k = 0; k < count && !overfull; k++) {
            drawn_at = start;
            at.offset = way == 0 ? from->count - 1 : way == 1 ? from->count - 1 - k : k;
            column c = selector(t, scope, nest, at);
            if (k == 0)
                made->of[i] = (run){.count = count, .type = c.type, .first = c.name};
            else if (k == 1)
                made->of[i].step = c.name - made->of[i].first;
            saying = 0;
        }
        saying = was;
    }
    tell("}", 0);
}

static void put_selectors(text *t, const row *scope, int nest, row *made) {
    size_t at = t->length;
    put(t, 0, 2);
    selectors(t, scope, nest, made);
    uint32_t count = columns_of(made);
    if (!overfull)
        t->bytes[at] = (uint8_t)count, t->bytes[at + 1] = (uint8_t)(count >> 8);
}

/* What follows the input of a transform, of which `c` is the type. */
static void put_tail(text *t, int code, int nest, int turn, column *c) {
    type *made;
    row element = {.runs = 1};
    int option = 0;
    switch (code) {
    case 2:
        c->type = c->type->code == 0 ? some_type(4, 2) : cast_of(c->type, turn, &option);
        if (c->type->code == 0)
            c->type = new_type(2);
        put_form(t, c->type);
        put(t, (uint64_t)option, 1);
        break;
    case 3:
        c->name = nested_names ? 7 + turn : c->name;
        put_name(t, c->name);
        break;
    case 4:
        made = new_type(18);
        put_selectors(t, &c->type->fields, nest + 1, &made->fields);
        c->type = made;
        break;
    default:
        made = new_type(c->type->code);
        made->width = c->type->width;
        element.of[0] = (run){.count = 1, .type = c->type->element, .first = -1};
        made->element = selector(t, &element, nest + 1, (place){.scope = &element}).type;
        c->type = made;
    }
}

static int mapping_of(const type *t) { return t->code == 18 ? 4 : t->code == 19 ? 5 : 6; }

/* How many casts a type can have, one over another. */
static int casts_of(const type *of) {
    int endless = (of->code >= 2 && of->code <= 5) || of->code == 11 || of->code == 12 || of->code == 14;
    return of->code == 21 ? 18 - of->unit : of->code == 17 || of->code == 0 ? 1 : endless ? NESTING : 0;
}

/* The transforms of a chain, innermost first, over a column: renames where the pattern has them, else what its type
 * has. */
static void chain_of(uint8_t *codes, int length, uint32_t renames, const type *of) {
    int casts = casts_of(of);
    for (int i = 0; i < length; i++)
        if (renames >> i % 4 & 1)
            codes[i] = 3;
        else if (is_leaf(of))
            codes[i] = casts-- > 0 ? 2 : 3;
        else
            codes[i] = (uint8_t)mapping_of(of);
}

/* A constant; its value is large more often than not. */
static void put_constant(text *t, const column *c) {
    content value;
    put(t, 1, 1);
    put_name(t, c->name);
    put_form(t, c->type);
    some_content(&value);
    put_value(t, c->type, &value, 1);
    if (draw(4) == 0)
        exceed(t, &value);
    if (saying) {
        say(" constant ", 0);
        say_type(c->type);
    }
}

static void say_codes(const uint8_t *codes, int length) {
    static const char *const names[] = {"", "", "cast", "rename", "fields", "elements", "items"};
    for (int i = length - 1, same; i >= 0; i -= same) {
        for (same = 1; i - same >= 0 && codes[i - same] == codes[i];)
            same++;
        tell(same > 1 ? " %ld " : " ", same);
        tell(names[codes[i]], 0);
    }
}

static void put_position(text *t, const row *scope, const place *at) {
    uint32_t position = at->offset;
    for (int i = 0; i < at->run; i++)
        position += scope->of[i].count;
    put(t, 0, 1);
    put(t, position, 2);
    tell(" %ld", position);
}

static column selector(text *t, const row *scope, int nest, place at) {
    /* Lists and structs are mapped more often than not, numbers are mostly taken as they are. */
    static const int leaf_lengths[] = {0, 0, 0, 1, 0, 0, 60, 2}, lengths[] = {1, 1, 0, 1, 60, 1, 2, 7};
    static const uint32_t patterns[] = {0, 15, 0, 0, 5, 0, 14, 1};
    uint8_t codes[NESTING];
    column c = {.type = scope->of[at.run].type, .name = scope->of[at.run].first};
    if (c.name >= 0)
        c.name += (int)at.offset * scope->of[at.run].step;
    int constant = draw(5) == 0;
    if (constant)
        c = (column){.type = some_type(draw(2) ? 15 : 4, 2), .name = nested_names ? 3 : -1};
    int length = (is_leaf(c.type) ? leaf_lengths : lengths)[draw(8)], most = NESTING - nest;
    uint32_t renames = patterns[draw(8)];
    if (length > most)
        length = most;
    chain_of(codes, length, renames, c.type);
    say_codes(codes, length);
    for (int i = length - 1; i >= 0; i--)
        put(t, codes[i], 1);
    if (constant)
        put_constant(t, &c);
    else
        put_position(t, scope, &at);
    for (int i = 0; i < length && !overfull; i++)
        put_tail(t, codes[i], nest + length - 1 - i, i, &c);
    return c;
}

/* Inputs. */

static void some_edition(edition *e) {
    static const uint32_t marks[] = {0, UINT32_MAX, 2, 6, ~UINT32_C(2), 0xAAAA};
    e->version = 1 + (int)draw(3);
    e->required = marks[draw(6)];
    e->names = (int)draw(2);
}

/* A plan over an incoming layout; the target is what it gives, or that with another last byte. */
static void planned(input *in) {
    row columns, made;
    edition incoming = {0}, target = {0};
    content record;
    some_edition(&incoming);
    some_edition(&target);
    nested_names = (int)draw(2);
    incoming.names = target.names = nested_names;
    some_row(&columns, 15, 2);
    say("v%ld ", incoming.version);
    say_row(&columns);
    say(" v%ld ", target.version);
    put_layout(&in->parts[INCOMING], &incoming, &columns);
    text *plan = &in->parts[PLAN];
    head(plan, "PLN", 1, 0);
    plan->length = 5;
    saying = 1;
    put_selectors(plan, &columns, 1, &made);
    saying = 0;
    put_layout(&in->parts[TARGET], &target, &made);
    if (draw(5) == 0 && in->parts[TARGET].length > 0)
        in->parts[TARGET].bytes[in->parts[TARGET].length - 1] ^= 3;
    scaling = CONTENT;
    some_content(&record);
    put_values(&in->parts[RECORD], &columns, &record, 1);
    if (draw(4) == 0)
        exceed(&in->parts[RECORD], &record);
}

static const type *changed_type(const type *of, int same);

/* The columns of a target: turned round, with other labels, or fewer of them. */
static void changed_row(const row *from, row *to) {
    int same = (int)draw(2);
    *to = *from;
    for (int i = 0; i < to->runs; i++) {
        run *r = &to->of[i];
        switch (draw(4)) {
        case 0:
            r->first += (int)r->count - 1;
            r->step = -1;
            break;
        case 1:
            r->first += MISSING_LABELS;
            break;
        default:
            break;
        }
        r->type = changed_type(r->type, same);
    }
}

static const type *changed_type(const type *of, int same) {
    int option;
    if (is_leaf(of)) {
        const type *cast = same ? NULL : cast_of(of, 0, &option);
        return cast == NULL ? of : cast;
    }
    type *to = new_type(of->code);
    to->width = of->width;
    if (of->element != NULL)
        to->element = changed_type(of->element, same);
    else
        changed_row(&of->fields, &to->fields);
    return to;
}

/* A table of defaults: as many entries as there is space for, for missing labels or for none. */
static void some_defaults(text *t) {
    scaling = TABLE;
    int version = 1 + (int)draw(2), kind = (int)draw(3), first = draw(2) ? 0 : MISSING_LABELS;
    uint32_t count = draw(4) == 0 ? 0 : draw_count();
    head(t, "DEF", version, count);
    say(kind == 0 ? " %ld failed partitions" : kind == 1 ? " %ld defaults" : " %ld partitions", count);
    for (uint32_t i = 0; i < count && !overfull; i++) {
        if (version == 2)
            put(t, i % 3 == 0, 2);
        put(t, label_of(first + (int)i), 4);
        if (kind == 0)
            put(t, 0x0101, 2);
        else if (kind == 1)
            put(t, UINT32_C(0x07010200), 4);
        else
            put(t, UINT64_C(0x07010001020001), 7); /* loaded, one int8 */
    }
}

/* Two layouts to build a plan from, with labels that are chosen for it. */
static void buildable(input *in) {
    row columns, made;
    edition incoming = {0}, target = {0};
    some_edition(&incoming);
    target = incoming;
    target.required = draw(3) == 0 ? UINT32_MAX : 0;
    incoming.own_ids = target.own_ids = 1;
    nested_names = 1;
    enum style style = (enum style)draw(STYLES);
    uint32_t salt = draw(2) ? 0 : 7;
    some_row(&columns, draw(2) ? 15 : 3, 3);
    changed_row(&columns, &made);
    set_labels(style, incoming.version > 1, columns.of[0].count, salt);
    say(style == PLAIN_LABELS ? "" : style == ONE_CHAIN ? "one chain, " : "one word of bits, ", 0);
    say("build v%ld ", incoming.version);
    say_row(&columns);
    say(" to ", 0);
    say_row(&made);
    put_layout(&in->parts[INCOMING], &incoming, &columns);
    put_layout(&in->parts[TARGET], &target, &made);
    if (incoming.version > 1)
        some_defaults(&in->parts[DEFAULTS]);
}

/* Makes the input of a tape at the scales; false where it is too long. */
static int made_at(const tape *from, input *in) {
    drawn = from, drawn_at = 0, scaling = SHAPES;
    noted = 0, note[0] = 0, overfull = 0, type_count = 0, saying = 0;
    for (int part = 0; part < PARTS; part++)
        in->parts[part].length = 0;
    set_labels(PLAIN_LABELS, 0, 0, 0);
    (draw(3) == 0 ? buildable : planned)(in);
    for (int part = 0; part < PARTS; part++)
        overfull |= in->parts[part].length > part_limits[part];
    return !overfull;
}

/* Makes one scale the largest that is within the limits, if there is one. */
static void enlarge(const tape *from, input *in, double *of) {
    *of = 1;
    double low = made_at(from, in) ? 1 : 0, high = low > 0 ? 64 : 1;
    for (int i = 0; i < 8; i++) {
        *of = low == 0 ? high / 8 : (low + high) / 2;
        if (made_at(from, in))
            low = *of;
        else
            high = *of;
    }
    *of = low;
}

/* The input of a tape, as large as may be. */
static int made(const tape *from, input *in) {
    memset(scales, 0, sizeof scales);
    measuring = 1;
    for (int i = 0; i < SCALES; i++)
        enlarge(from, in, &scales[i]);
    measuring = 0;
    return made_at(from, in);
}
