/* The stack that each call takes, measured on a thread's painted stack: over the cases of a list (its form: the head of
 * crates/cases/stdin) and over the deepest layouts and plans. The exit status is 1 where a call takes more than
 * include/selector.h says.
 *
 *   stack LIST
 */
#define _DEFAULT_SOURCE
#include "list.h"
#include "selector.h"

#include <pthread.h>
#include <stdio.h>
#include <stdlib.h>
#include <string.h>
#include <sys/mman.h>

enum { SPACE = 73728, STACK = 1 << 20, PAINT = 0xA5, INPUTS = 4 };

enum kind { BUILD_NAME, BUILD_NUMBER, CHECK, RUN, KINDS };

static const char *const names[KINDS] = {"build_name", "build_number", "check", "run"};
static const size_t said[KINDS] = {SELECTOR_BUILD_STACK, SELECTOR_BUILD_STACK, SELECTOR_CHECK_STACK, SELECTOR_RUN_STACK};
static size_t most[KINDS];

static enum kind kind;
static uint32_t policy, source_index;
static uint16_t owner;
static uint8_t bytes[INPUTS][SPACE], buffer[SPACE];
static size_t length[INPUTS], space;

static void *call(void *unused) {
    switch (kind) {
    case BUILD_NAME:
        selector_build_by_name(policy, bytes[0], length[0], bytes[1], length[1], buffer, space);
        break;
    case BUILD_NUMBER:
        selector_build_by_number(policy, source_index, owner, bytes[0], length[0], bytes[1], length[1], bytes[2], length[2], buffer, space);
        break;
    case CHECK:
        selector_check_plan(bytes[0], length[0], bytes[1], length[1], bytes[2], length[2]);
        break;
    default:
        selector_run(bytes[0], length[0], bytes[1], length[1], bytes[2], length[2], bytes[3], length[3], buffer, space);
    }
    return unused;
}

static void *no_call(void *unused) { return unused; }

static uint8_t *stack;

/* How much of a stack a thread changes. */
static size_t touched(void *(*work)(void *)) {
    pthread_attr_t attributes;
    pthread_t thread;
    memset(stack, PAINT, STACK);
    if (pthread_attr_init(&attributes) != 0 || pthread_attr_setstack(&attributes, stack, STACK) != 0 ||
        pthread_create(&thread, &attributes, work, NULL) != 0 || pthread_join(thread, NULL) != 0)
        exit(2);
    pthread_attr_destroy(&attributes);
    size_t free_bytes = 0;
    while (free_bytes < STACK && stack[free_bytes] == PAINT)
        free_bytes++;
    return STACK - free_bytes;
}

static void measure(void) {
    static size_t without;
    if (without == 0)
        without = touched(no_call);
    size_t taken = touched(call) - without;
    if (taken > most[kind])
        most[kind] = taken;
}

/* --- the list
 * ----------------------------------------------------------------------------------------------------------------- */

static void one_case(enum kind k, char *rest) {
    char *word = strtok(rest, " ");
    int inputs = k == BUILD_NAME ? 2 : k == RUN ? 4 : 3;
    kind = k;
    if (k == BUILD_NAME || k == BUILD_NUMBER) {
        policy = (uint32_t)strtoul(word, NULL, 10);
        word = strtok(NULL, " ");
    }
    if (k == BUILD_NUMBER) {
        source_index = (uint32_t)strtoul(word, NULL, 10);
        word = strtok(NULL, " ");
        owner = (uint16_t)strtoul(word, NULL, 10);
        word = strtok(NULL, " ");
    }
    if (k != CHECK) {
        space = strtoul(word, NULL, 10);
        word = strtok(NULL, " ");
    }
    for (int i = 0; i < inputs && word != NULL; i++) {
        length[i] = decode(word, bytes[i], SPACE);
        word = strtok(NULL, " ");
    }
    if (space <= SPACE)
        measure();
}

static void one_line(unsigned long line, char *text) {
    (void)line;
    for (int k = 0; k < KINDS; k++) {
        size_t n = strlen(names[k]);
        if (strncmp(text, names[k], n) == 0 && text[n] == ' ')
            one_case((enum kind)k, text + n + 1);
    }
}

/* --- the deepest layouts
 * ------------------------------------------------------------------------------------------------------ */

static void put(int i, uint64_t value, int count) {
    for (int k = 0; k < count; k++)
        bytes[i][length[i]++] = (uint8_t)(value >> (8 * k));
}

/* In version 3 everything is required. */
static void label(int i, uint32_t version, uint32_t name, uint32_t id) {
    put(i, 1, 1);
    put(i, name, 1);
    if (version >= 2)
        put(i, id, 4);
    if (version == 3)
        put(i, 1, 1);
}

/* A layout whose last column has so many levels with a leaf inside. From one level on, the top being 0, there are so
 * many columns or fields, of which the last goes on; before it there is one. */
static void nested_from(int i, uint32_t version, uint32_t code, uint32_t levels, uint32_t from, uint32_t fields,
                        uint32_t leaf) {
    length[i] = 0;
    put(i, 'L' | 'A' << 8 | 'Y' << 16, 3);
    put(i, version, 2);
    put(i, from == 0 ? fields : 1, 2);
    for (uint32_t k = 0; k <= levels; k++) {
        for (uint32_t j = 1; k >= from && j < fields; j++) {
            label(i, version, 'A' + j, 64 * (k + 1) + j);
            put(i, 3, 1);
        }
        if (k == 0 || code == 18 || version >= 2)
            label(i, version, 'a', k + 1);
        put(i, k < levels ? code : leaf, 1);
        if (k < levels && code != 19)
            put(i, code == 18 && k + 1 >= from ? fields : 1, code == 18 ? 2 : 4);
    }
}

/* The same with so many at every level. */
static void nested(int i, uint32_t version, uint32_t code, uint32_t levels, uint32_t fields, uint32_t leaf) {
    nested_from(i, version, code, levels, 0, fields, leaf);
}

/* From one such layout to another with a cast at the bottom, and from no column, so that the target's are constants. */
static void deepest_of(uint32_t version, uint32_t code, uint32_t from, uint32_t fields) {
    nested_from(0, version, code, 15, from, fields, 3);
    nested_from(1, version, code, 15, from, fields, 5);
    length[2] = 7;
    memcpy(bytes[2], "DEF\x01\x00\x00\x00", 7);
    kind = version == 1 ? BUILD_NAME : BUILD_NUMBER;
    measure();
    length[0] = 7;
    bytes[0][5] = 0;
    measure();
}

/* More than 16 columns or fields have tables on the stack: structs of 18 fields from each level on, and of 32 at every
 * level, whose plan goes into the longer buffer at once. Extra fields and columns are looked for where they are not
 * ignored. */
static void deepest(void) {
    space = SPACE;
    for (uint32_t version = 1; version <= 3; version++)
        for (uint32_t ignore = 0; ignore <= 1; ignore++) {
            policy = SELECTOR_ALLOW_ALL;
            if (!ignore)
                policy &= ~(SELECTOR_IGNORE_EXTRA_FIELDS | SELECTOR_IGNORE_EXTRA_COLUMNS);
            for (uint32_t code = 18; code <= 20; code++)
                deepest_of(version, code, 0, 1);
            for (uint32_t from = 0; from <= 15; from++)
                deepest_of(version, 18, from, 18);
            deepest_of(version, 18, 0, 32);
        }
}

/* --- the deepest plans
 * -------------------------------------------------------------------------------------------------------- */

/* Selectors 64 deep, one inside another: fields of struct mappings (4), elements of list or array mappings (5, 6),
 * or inputs of renames (3). Most are refused, but only once the innermost has been looked at. */
static void nested_plan(uint32_t code, int levels) {
    length[2] = 0;
    put(2, 'P' | 'L' << 8 | 'N' << 16, 3);
    put(2, 1, 2);
    put(2, 1, 2);
    for (int k = 1; k < levels; k++) {
        put(2, code, 1);
        if (code == 3)
            continue;
        put(2, 1, 2); /* a constant without a name */
        if (code == 4)
            put(2, 0x01000012, 4); /* a struct without fields, present */
        else if (code == 5)
            put(2, 0x00010213, 4); /* a list of int8, */
        else
            put(2, 0x0000000114, 5); /* an array of one */
        if (code == 5)
            put(2, 0, 1); /* which has no elements */
        if (code == 6) {
            put(2, 2, 1);
            put(2, 0x0001, 2); /* int8, null */
        }
        if (code == 4)
            put(2, 1, 2);
    }
    put(2, 1, 2);
    put(2, 0x0002, 2); /* a null int8 */
    for (int k = 1; k < levels && code == 3; k++)
        put(2, 0, 1);
}

/* Measures the check and the run of what was put together. */
static void check_and_run(void) {
    kind = CHECK;
    measure();
    kind = RUN;
    measure();
}

/* Two layouts of nested structs of so many fields, and the head of a plan of so many selectors between them. */
static void between_nested(uint32_t version, uint32_t fields, uint32_t selectors) {
    nested(0, version, 18, 15, fields, 3);
    nested(1, version, 18, 15, fields, 3);
    length[2] = 0;
    put(2, 'P' | 'L' << 8 | 'N' << 16, 3);
    put(2, 1, 2);
    put(2, selectors, 2);
}

static void deepest_plans(void) {
    for (uint32_t code = 3; code <= 6; code++)
        for (int levels = 12; levels <= 64; levels += 26) {
            nested(0, 1, 18, 15, 1, 3);
            nested(1, 1, 18, 15, 1, 3);
            nested_plan(code, levels);
            length[3] = 1;
            bytes[3][0] = 0;
            check_and_run();
        }
}

/* 63 struct mappings nested as fields, each over a constant struct of one field, which the innermost takes: the check
 * refuses them, but only once it has been there. */
static void fields_over_constants(void) {
    between_nested(1, 1, 1);
    for (int k = 1; k <= 63; k++) {
        put(2, 4, 1);
        put(2, 1, 2); /* a constant without a name: */
        put(2, 18, 1);
        put(2, 1, 2);
        put(2, 0x027801, 3); /* a struct of "x", int8, */
        put(2, 0x0001, 2);   /* present, with null inside */
        put(2, 1, 2);        /* to one field */
    }
    put(2, 0, 3); /* which is position 0 */
    length[3] = 1;
    bytes[3][0] = 0;
    check_and_run();
    uint64_t answer = selector_check_plan(bytes[0], length[0], bytes[1], length[1], bytes[2], length[2]);
    if (answer != (uint64_t)SELECTOR_UNFIT_TRANSFORM << 32)
        exit(2);
}

/* Selectors of a struct of 32 fields: each its own position, the last a struct mapping of it, so many levels deep. */
static void fields_by(uint32_t levels) {
    put(2, 32, 2);
    for (uint32_t k = 0; k < 31; k++)
        put(2, k << 8, 3);
    if (levels > 0) {
        put(2, 4, 1);
        put(2, 31 << 8, 3);
        fields_by(levels - 1);
    } else
        put(2, 31 << 8, 3);
}

/* A leaf of the record: null, in version 3 a value. */
static void leaf_of(uint32_t version) { put(3, version == 3, version == 3 ? 3 : 1); }

/* Struct mappings one over another, the outermost over all levels of its struct: what one pass writes out, in its
 * longer buffers. In version 3 the check follows every required place through all of them. */
static void composed_plans(uint32_t version) {
    for (uint32_t levels = 0; levels <= 14; levels += 7) {
        between_nested(version, 32, 32);
        for (uint32_t k = 0; k < 31; k++)
            put(2, k << 8, 3);
        uint32_t mappings = 63 - levels;
        for (uint32_t k = 0; k < mappings; k++)
            put(2, 4, 1);
        put(2, 31 << 8, 3);
        for (uint32_t k = 1; k < mappings; k++)
            fields_by(0);
        fields_by(levels);
        length[3] = 0;
        for (uint32_t k = 0; k <= 15; k++) {
            for (uint32_t j = 0; j < 31; j++)
                leaf_of(version);
            if (k < 15)
                put(3, 1, 1);
            else
                leaf_of(version);
        }
        check_and_run();
        if (selector_run(bytes[0], length[0], bytes[1], length[1], bytes[2], length[2], bytes[3], length[3], buffer, space) != length[3])
            exit(2);
    }
}

/* A required place that is 15 lists deep: in a constant, in mappings one inside another, and below a null that is
 * cast. */
static void required_places(void) {
    length[0] = 0;
    put(0, 'L' | 'A' << 8 | 'Y' << 16, 3);
    put(0, 1, 2);
    put(0, 1, 2);
    put(0, 0, 2); /* a null column without a name */
    nested(1, 3, 19, 15, 1, 2);
    bytes[1][7 + 2 + 4] = 0; /* the column itself is optional */
    length[3] = 1;
    bytes[3][0] = 0;
    for (int shape = 0; shape < 3; shape++) {
        length[2] = 0;
        put(2, 'P' | 'L' << 8 | 'N' << 16, 3);
        put(2, 1, 2);
        put(2, 1, 2);
        put(2, 3, 1); /* a rename, so that the column has its name */
        if (shape == 1) {
            for (int k = 0; k < 15; k++) {
                put(2, 0x0105, 2); /* a list mapping of a constant without a name, */
                put(2, 0x021300, 3);
                put(2, 0x000001, 3); /* an empty list of int8 */
            }
            put(2, 0x01020001, 4); /* the constant 1, int8 */
            put(2, 1, 1);
        } else {
            put(2, shape == 0 ? 1 : 2, 1);
            put(2, 0, shape == 0 ? 1 : 3);
            for (int k = 0; k < 15; k++)
                put(2, 19, 1);
            put(2, 2, 1);
            for (int k = 0; shape == 0 && k < 15; k++)
                put(2, 0x000101, 3); /* one element */
            put(2, shape == 0 ? 0x0101 : 0, shape == 0 ? 2 : 1);
        }
        put(2, 0x6101, 2);
        check_and_run();
        if (selector_check_plan(bytes[0], length[0], bytes[1], length[1], bytes[2], length[2]) != 0)
            exit(2);
    }
}

int main(int count, char **words) {
    if (count != 2)
        return 2;
    stack = mmap(NULL, STACK, PROT_READ | PROT_WRITE, MAP_PRIVATE | MAP_ANONYMOUS, -1, 0);
    if (stack == MAP_FAILED)
        return 2;
    deepest();
    deepest_plans();
    fields_over_constants();
    composed_plans(1);
    composed_plans(3);
    required_places();
    each_line(words[1], one_line);
    int within = 1;
    for (int k = 0; k < KINDS; k++) {
        printf("stack of %s: %zu bytes, of %zu\n", names[k], most[k], said[k]);
        within = within && most[k] <= said[k];
    }
    return within ? EXIT_SUCCESS : EXIT_FAILURE;
}
