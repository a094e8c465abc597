/* Replays the layouts of a list of cases (its form: the head of crates/cases/stdin) through the C interface, and tries
 * damaged layouts.
 *
 *   replay LIST [ROUNDS [SEED]]
 *
 * Each input ends right before a page that cannot be read, and in a second pass begins right after one, so that a
 * read outside of it ends the program. Then ROUNDS layouts (default 300,000) are made at random and damaged; each
 * answer is compared with that of a second reader, below, which is written from documents 01 and 02 alone. One line
 * sums up; the exit status is 1 where anything differs. */
#define _DEFAULT_SOURCE
#include "list.h"
#include "selector.h"

#include <stdio.h>
#include <stdlib.h>
#include <string.h>

enum { LIMIT = 16384, SPACE = 20480, MOST_DEPTH = 16 };

/* --- inputs between pages that cannot be read
 * --------------------------------------------------------------------------------- */

static uint8_t *room; /* SPACE bytes, with a page that cannot be read on either side */

/* The bytes, right before the upper page or right after the lower one. */
static const uint8_t *placed(const uint8_t *bytes, size_t length, int before_end) {
    uint8_t *to = before_end ? room + SPACE - length : room;
    memcpy(to, bytes, length);
    return to;
}

/* --- a second reader of layouts, from documents 01 and 02
 * --------------------------------------------------------------------- */

typedef struct {
    const uint8_t *bytes;
    size_t length, at;
    int version;
    unsigned refusal; /* 0 as long as there is none */
} reader;

static uint32_t get(reader *r, unsigned bytes) {
    uint32_t value = 0;
    for (unsigned i = 0; i < bytes && r->refusal == 0; i++) {
        if (r->at == r->length)
            r->refusal = 2;
        else
            value |= (uint32_t)r->bytes[r->at++] << (8 * i);
    }
    return value;
}

/* A name or a zone: answers where it starts, with its length. */
static size_t get_text(reader *r, size_t *length) {
    *length = get(r, 1);
    if (r->refusal == 0 && *length > 63)
        r->refusal = 4;
    else if (r->refusal == 0 && r->length - r->at < *length)
        r->refusal = 2;
    size_t start = r->at;
    if (r->refusal == 0)
        r->at += *length;
    return start;
}

typedef struct {
    size_t start, length;
    uint32_t id;
} label;

static label get_label(reader *r) {
    label l = {0, 0, 0};
    l.start = get_text(r, &l.length);
    if (r->version >= 2)
        l.id = get(r, 4);
    if (r->version == 3 && get(r, 1) > 1 && r->refusal == 0)
        r->refusal = 3;
    return l;
}

static int same_name(const reader *r, label a, label b) {
    return a.length == b.length && memcmp(r->bytes + a.start, r->bytes + b.start, a.length) == 0;
}

/* Each level keeps the labels of its columns on one stack: a column takes at least two bytes, so all fit. */
static label labels[LIMIT];
static size_t labels_used;

static void get_type(reader *r, int depth);

static void get_columns(reader *r, int depth, int top) {
    uint32_t count = get(r, 2);
    size_t first = labels_used;
    for (uint32_t i = 0; i < count && r->refusal == 0; i++) {
        label l = get_label(r);
        get_type(r, depth);
        for (size_t j = first; j < labels_used && r->refusal == 0; j++)
            if (r->version >= 2 ? labels[j].id == l.id : top && same_name(r, labels[j], l))
                r->refusal = 5;
        if (r->refusal == 0)
            labels[labels_used++] = l;
    }
    labels_used = first;
}

static void get_type(reader *r, int depth) {
    if (r->refusal == 0 && depth > MOST_DEPTH)
        r->refusal = 4;
    uint32_t code = get(r, 1);
    if (r->refusal != 0)
        return;
    size_t length;
    uint32_t precision, scale;
    switch (code) {
    case 14:
        if (get(r, 1) > 2 && r->refusal == 0)
            r->refusal = 3;
        if (r->refusal == 0)
            get_text(r, &length);
        break;
    case 18:
        get_columns(r, depth + 1, 0);
        break;
    case 20:
        get(r, 4);
        /* fall through */
    case 19:
        if (r->version >= 2)
            get_label(r);
        get_type(r, depth + 1);
        break;
    case 21:
        precision = get(r, 1);
        scale = get(r, 1);
        if (r->refusal == 0 && (precision < 1 || precision > 18 || scale > precision))
            r->refusal = 50;
        break;
    default:
        if (code > 21)
            r->refusal = 3;
    }
}

static unsigned second_answer(const uint8_t *bytes, size_t length) {
    if (length > LIMIT)
        return 4;
    if (length < 5 || memcmp(bytes, "LAY", 3) != 0 || bytes[3] < 1 || bytes[3] > 3 || bytes[4] != 0)
        return 1;
    reader r = {bytes, length, 5, bytes[3], 0};
    labels_used = 0;
    get_columns(&r, 1, 1);
    if (r.refusal == 0 && r.at < length)
        r.refusal = 6;
    return r.refusal;
}

/* --- the list
 * ----------------------------------------------------------------------------------------------------------------- */

static unsigned long differences;

static void differs(const char *what, unsigned long at, uint64_t given, unsigned number, unsigned place) {
    if (++differences <= 20)
        printf("%s %lu: answered %u %u, expected %u %u\n", what, at, (unsigned)SELECTOR_NUMBER(given), (unsigned)SELECTOR_REST(given),
               number, place);
}

static int digit(char c) {
    if (c >= '0' && c <= '9')
        return c - '0';
    return c >= 'a' && c <= 'f' ? c - 'a' + 10 : -1;
}

/* Decodes a word, `-` for no bytes; answers 0 where it is none or does not fit. */
static int decoded(const char *word, uint8_t *bytes, size_t space, size_t *length) {
    *length = 0;
    if (strcmp(word, "-") == 0)
        return 1;
    for (; word[0] != 0; word += 2, ++*length) {
        if (digit(word[0]) < 0 || digit(word[1]) < 0 || *length == space)
            return 0;
        bytes[*length] = (uint8_t)(digit(word[0]) * 16 + digit(word[1]));
    }
    return *length > 0;
}

/* layout <layout> <number> <place> */
static void replay_layout(unsigned long line, char *rest) {
    static uint8_t bytes[SPACE];
    size_t length;
    unsigned number, place;
    char end;
    char *word = strtok(rest, " "), *answer = strtok(NULL, "");
    if (word == NULL || answer == NULL || !decoded(word, bytes, SPACE, &length) ||
        sscanf(answer, "%u %u %c", &number, &place, &end) != 2) {
        printf("line %lu: no case\n", line);
        differences++;
        return;
    }
    for (int before_end = 1; before_end >= 0; before_end--) {
        uint64_t given = selector_read_layout(placed(bytes, length, before_end), length);
        if (given != ((uint64_t)number << 32) + place)
            differs("line", line, given, number, place);
    }
}

static unsigned long cases;

static void one_line(unsigned long line, char *text) {
    if (strncmp(text, "layout ", 7) == 0) {
        cases++;
        replay_layout(line, text + 7);
    }
}

/* --- layouts at random
 * -------------------------------------------------------------------------------------------------------- */

static uint64_t state;

static uint32_t random_below(uint32_t n) { return below(&state, n); }

typedef struct {
    uint8_t bytes[SPACE];
    size_t length;
    int version;
    int deep; /* types go down to the limit, and one level past it */
} text;

static void put(text *t, uint32_t value, unsigned bytes) {
    for (unsigned i = 0; i < bytes && t->length < SPACE; i++)
        t->bytes[t->length++] = (uint8_t)(value >> (8 * i));
}

static void put_name(text *t) {
    uint32_t length = random_below(40) == 0 ? 63 : random_below(5);
    put(t, length, 1);
    for (uint32_t i = 0; i < length; i++)
        put(t, 'a' + random_below(length > 3 ? 26 : 8), 1);
}

static void put_label(text *t) {
    put_name(t);
    if (t->version >= 2)
        put(t, random_below(10) == 0 ? random_below(4) << 24 : random_below(2000), 4);
    if (t->version == 3)
        put(t, random_below(2), 1);
}

static void put_type(text *t, int depth);

static void put_columns(text *t, int depth, uint32_t count) {
    put(t, count, 2);
    for (uint32_t i = 0; i < count; i++) {
        put_label(t);
        put_type(t, depth);
    }
}

static void put_type(text *t, int depth) {
    uint32_t code = random_below(22);
    if (t->deep && depth < MOST_DEPTH + (int)random_below(2) && random_below(64) != 0)
        code = 18 + random_below(3);
    if (depth > MOST_DEPTH || t->length > 12000)
        code = random_below(18);
    put(t, code, 1);
    if (code == 14) {
        put(t, random_below(3), 1);
        put_name(t);
    } else if (code == 21) {
        uint32_t precision = 1 + random_below(18);
        put(t, precision, 1);
        put(t, random_below(precision + 1), 1);
    } else if (code == 18) {
        put_columns(t, depth + 1, t->deep ? 1 + (random_below(8) == 0) : random_below(4));
    } else if (code >= 19) {
        if (code == 20)
            put(t, random_below(70000), 4);
        if (t->version >= 2)
            put_label(t);
        put_type(t, depth + 1);
    }
}

static void make(text *t) {
    t->length = 0;
    t->version = 1 + (int)random_below(3);
    t->deep = random_below(4) == 0;
    put(t, 'L' | 'A' << 8 | 'Y' << 16, 3);
    put(t, (uint32_t)t->version, 2);
    put_columns(t, 1, random_below(50) == 0 ? random_below(600) : random_below(8));
    if (random_below(500) == 0) /* about the limit of the whole */
        for (size_t end = LIMIT - 4 + random_below(9); t->length < end;)
            put(t, 0, 1);
}

/* One change: cut, lengthened, a bit or a byte changed, a run of bytes taken out or doubled. */
static void damage(text *t) {
    uint32_t at = t->length == 0 ? 0 : random_below((uint32_t)t->length);
    uint32_t run = 1 + random_below(8);
    switch (random_below(8)) {
    case 0:
        t->length = at;
        break;
    case 1:
        put(t, random_below(256), 1 + random_below(3));
        break;
    case 2:
        t->bytes[at] ^= (uint8_t)(1u << random_below(8));
        break;
    case 3:
        t->bytes[at] = (uint8_t)random_below(256);
        break;
    case 4: /* a count or a length: one more, one less */
        t->bytes[at] = (uint8_t)(t->bytes[at] + (random_below(2) == 0 ? 1 : 255));
        break;
    case 5: /* a code or a limit */
        t->bytes[at] = (uint8_t)"\x00\x01\x02\x03\x0E\x12\x13\x14\x15\x16\x3F\x40\xFF"[random_below(13)];
        break;
    case 6:
        if (at + run <= t->length) {
            memmove(t->bytes + at, t->bytes + at + run, t->length - at - run);
            t->length -= run;
        }
        break;
    default:
        if (at + run <= t->length && t->length + run <= SPACE) {
            memmove(t->bytes + at + run, t->bytes + at, t->length - at);
            t->length += run;
        }
    }
}

static unsigned long met[51];

static void try_random(unsigned long rounds) {
    static text t;
    for (unsigned long i = 0; i < rounds; i++) {
        make(&t);
        for (uint32_t n = random_below(4); n > 0; n--)
            damage(&t);
        unsigned due = second_answer(t.bytes, t.length);
        uint64_t given = selector_read_layout(placed(t.bytes, t.length, (int)(i % 2)), t.length);
        unsigned place = due >= 1 && due <= 6;
        if (given != ((uint64_t)due << 32) + place)
            differs("round", i, given, due, place);
        if (SELECTOR_NUMBER(given) <= 50)
            met[SELECTOR_NUMBER(given)]++;
    }
}

int main(int count, char **words) {
    if (count < 2 || count > 4) {
        fprintf(stderr, "usage: replay LIST [ROUNDS [SEED]]\n");
        return 2;
    }
    unsigned long rounds = count > 2 ? strtoul(words[2], NULL, 10) : 300000;
    state = count > 3 ? strtoull(words[3], NULL, 10) | 1 : 20261115;
    room = guarded(SPACE);
    each_line(words[1], one_line);
    try_random(rounds);
    printf("%lu cases, %lu random layouts (0 to 6, 50: %lu %lu %lu %lu %lu %lu %lu %lu), %lu differ\n", cases, rounds, met[0], met[1], met[2],
           met[3], met[4], met[5], met[6], met[50], differences);
    return differences != 0;
}
