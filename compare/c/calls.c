/* Replays the builds, checks and runs of a list of cases (its form: the head of crates/cases/stdin) through the C
 * interface, then damages their inputs at random and holds the calls to what the header promises of every call.
 *
 *   calls LIST [ROUNDS [SEED]]
 *
 * Each input and the lent buffer ends right before a page that cannot be touched, and in a second pass begins right
 * after one, so that a read or write outside of it ends the program. Of damaged inputs it is tested that a refused
 * call changes nothing of the buffer, that an accepted one changes no byte after its result, that the number is one
 * of the call's, and that a plan which was built passes the check between its own layouts. One line sums up; the
 * exit status is 1 where anything differs. */
#define _DEFAULT_SOURCE
#include "list.h"
#include "selector.h"

#include <stdio.h>
#include <stdlib.h>
#include <string.h>

enum { INPUTS = 4, SPACE = 73728, FILL = 165, NUMBERS = 128 };

/* --- memory between pages that cannot be touched
 * ------------------------------------------------------------------------------ */

static uint8_t *rooms[INPUTS + 1]; /* SPACE bytes each; the last is the lent buffer */

static void make_rooms(void) {
    for (int i = 0; i <= INPUTS; i++)
        rooms[i] = guarded(SPACE);
}

static uint8_t *place(int i, size_t length, int before_end) { return before_end ? rooms[i] + SPACE - length : rooms[i]; }

/* --- a case
 * ------------------------------------------------------------------------------------------------------------------- */

enum kind { BUILD_NAME, BUILD_NUMBER, CHECK, RUN, KINDS };

static const char *const names[KINDS] = {"build_name", "build_number", "check", "run"};

typedef struct {
    enum kind kind;
    uint32_t policy, source_index;
    uint16_t owner;
    size_t space; /* the lent buffer's length */
    int inputs;
    uint8_t bytes[INPUTS][SPACE];
    size_t length[INPUTS];
} call;

/* Calls with the inputs and the buffer at one side of their rooms. The buffer is filled before. */
static uint64_t made(const call *c, int before_end) {
    const uint8_t *in[INPUTS] = {rooms[0], rooms[1], rooms[2], rooms[3]};
    for (int i = 0; i < c->inputs; i++) {
        uint8_t *to = place(i, c->length[i], before_end);
        memcpy(to, c->bytes[i], c->length[i]);
        in[i] = to;
    }
    uint8_t *out = place(INPUTS, c->space, before_end);
    memset(out, FILL, c->space);
    const size_t *n = c->length;
    switch (c->kind) {
    case BUILD_NAME:
        return selector_build_by_name(c->policy, in[0], n[0], in[1], n[1], out, c->space);
    case BUILD_NUMBER:
        return selector_build_by_number(c->policy, c->source_index, c->owner, in[0], n[0], in[1], n[1], in[2], n[2], out, c->space);
    case CHECK:
        return selector_check_plan(in[0], n[0], in[1], n[1], in[2], n[2]);
    default:
        return selector_run(in[0], n[0], in[1], n[1], in[2], n[2], in[3], n[3], out, c->space);
    }
}

static int is_filled(const uint8_t *bytes, size_t length) {
    for (size_t i = 0; i < length; i++)
        if (bytes[i] != FILL)
            return 0;
    return 1;
}

/* --- the list
 * ----------------------------------------------------------------------------------------------------------------- */

static unsigned long differences, cases[KINDS];

/* The words of a line after the first; false where there are too few. */
static int parse(enum kind kind, char *rest, call *c, char **number, char **last) {
    char *word = strtok(rest, " ");
    c->kind = kind;
    c->space = 0;
    c->policy = c->source_index = 0;
    c->owner = 0;
    c->inputs = kind == BUILD_NAME ? 2 : kind == RUN ? 4 : 3;
    if (kind == BUILD_NAME || kind == BUILD_NUMBER) {
        c->policy = (uint32_t)strtoul(word ? word : "", NULL, 10);
        word = strtok(NULL, " ");
    }
    if (kind == BUILD_NUMBER) {
        c->source_index = (uint32_t)strtoul(word ? word : "", NULL, 10);
        word = strtok(NULL, " ");
        c->owner = (uint16_t)strtoul(word ? word : "", NULL, 10);
        word = strtok(NULL, " ");
    }
    if (kind != CHECK) {
        c->space = strtoul(word ? word : "", NULL, 10);
        word = strtok(NULL, " ");
    }
    for (int i = 0; i < c->inputs; i++) {
        if (word == NULL)
            return 0;
        c->length[i] = decode(word, c->bytes[i], SPACE);
        word = strtok(NULL, " ");
    }
    *number = word;
    *last = strtok(NULL, " ");
    return *number != NULL && *last != NULL && c->space <= SPACE;
}

static void replay(unsigned long line, const call *c, const char *number, const char *last) {
    static uint8_t result[SPACE];
    unsigned long due = strtoul(number, NULL, 10);
    for (int side = 0; side < 2; side++) {
        uint64_t given = made(c, side);
        const uint8_t *out = place(INPUTS, c->space, side);
        int agrees;
        if (due != 0) {
            agrees = given == ((uint64_t)due << 32) + strtoul(last, NULL, 10) && is_filled(out, c->space);
        } else if (c->kind == CHECK) {
            agrees = given == 0;
        } else {
            size_t n = decode(last, result, SPACE);
            agrees = given == n && n <= c->space && memcmp(out, result, n) == 0 && is_filled(out + n, c->space - n);
        }
        if (!agrees) {
            printf("line %lu: answered %u %u, expected %s %.20s\n", line, SELECTOR_NUMBER(given), SELECTOR_REST(given), number, last);
            differences++;
        }
    }
}

/* --- damaged inputs
 * ----------------------------------------------------------------------------------------------------------- */

static uint64_t state;
static unsigned long met[KINDS][NUMBERS], accepted[KINDS];

static uint32_t random_below(uint32_t n) { return below(&state, n); }

static void damage(call *c) {
    int i = (int)random_below((uint32_t)c->inputs);
    uint8_t *bytes = c->bytes[i];
    size_t length = c->length[i];
    uint32_t at = length == 0 ? 0 : random_below((uint32_t)length);
    uint32_t run = 1 + random_below(8);
    switch (random_below(9)) {
    case 0:
        c->length[i] = at;
        break;
    case 1:
        if (length < SPACE)
            bytes[c->length[i]++] = (uint8_t)random_below(256);
        break;
    case 2:
        bytes[at] ^= (uint8_t)(1u << random_below(8));
        break;
    case 3:
        bytes[at] = (uint8_t)random_below(256);
        break;
    case 4:
        bytes[at] = (uint8_t)(bytes[at] + (random_below(2) == 0 ? 1 : 255));
        break;
    case 5:
        bytes[at] = (uint8_t)"\x00\x01\x02\x03\x04\x05\x06\x0E\x12\x13\x14\x15\x16\x3F\x40\xFF"[random_below(16)];
        break;
    case 6:
        if (at + run <= length) {
            memmove(bytes + at, bytes + at + run, length - at - run);
            c->length[i] -= run;
        }
        break;
    case 7:
        if (at + run <= length && length + run <= SPACE) {
            memmove(bytes + at + run, bytes + at, length - at);
            c->length[i] += run;
        }
        break;
    default:
        c->policy ^= 1u << random_below(32);
        c->space = random_below(4) == 0 ? random_below(64) : c->space;
    }
}

/* The refusals of each call, from one number to another, as docs/refusals.txt has them. */
static const struct {
    enum kind kind;
    uint32_t first, last;
} refusals[] = {
    {BUILD_NAME, 1, 6}, {BUILD_NAME, 10, 24}, {BUILD_NAME, 27, 27}, {BUILD_NAME, 50, 51}, {BUILD_NAME, 53, 53},
    {BUILD_NUMBER, 1, 6}, {BUILD_NUMBER, 10, 11}, {BUILD_NUMBER, 13, 28}, {BUILD_NUMBER, 50, 51}, {BUILD_NUMBER, 53, 55},
    {CHECK, 1, 6}, {CHECK, 30, 33}, {CHECK, 50, 50}, {CHECK, 55, 55},
    {RUN, 1, 6}, {RUN, 30, 33}, {RUN, 40, 45}, {RUN, 50, 50}, {RUN, 52, 52}, {RUN, 55, 56},
};

/* Whether a call of the kind may answer with the number. */
static int possible(enum kind kind, uint32_t n) {
    if (n == 0)
        return 1;
    for (size_t i = 0; i < sizeof refusals / sizeof *refusals; i++)
        if (refusals[i].kind == kind && n >= refusals[i].first && n <= refusals[i].last)
            return 1;
    return 0;
}

/* What holds of every call, and of a plan that was built. */
static int lawful(const call *c, int side) {
    uint64_t given = made(c, side);
    uint32_t number = SELECTOR_NUMBER(given);
    const uint8_t *out = place(INPUTS, c->space, side);
    if (number < NUMBERS)
        met[c->kind][number]++;
    if (!possible(c->kind, number))
        return 0;
    if (c->kind == CHECK)
        return number != 0 || given == 0;
    if (number != 0)
        return is_filled(out, c->space);
    size_t n = (size_t)given;
    accepted[c->kind]++;
    if (n > c->space || !is_filled(out + n, c->space - n))
        return 0;
    return c->kind == RUN || selector_check_plan(place(0, c->length[0], side), c->length[0], place(1, c->length[1], side), c->length[1], out, n) == 0;
}

static void try_damaged(unsigned long line, const call *c, unsigned long times) {
    static call d;
    for (unsigned long i = 0; i < times; i++) {
        d = *c;
        for (uint32_t n = 1 + random_below(3); n > 0; n--)
            damage(&d);
        if (!lawful(&d, (int)(i % 2))) {
            printf("line %lu, round %lu: a promise does not hold\n", line, i);
            differences++;
        }
    }
}

static unsigned long rounds, tried;

static void one_line(unsigned long line, char *text) {
    static call c;
    for (int k = 0; k < KINDS; k++) {
        size_t n = strlen(names[k]);
        char *number, *last;
        if (strncmp(text, names[k], n) != 0 || text[n] != ' ')
            continue;
        if (!parse((enum kind)k, text + n + 1, &c, &number, &last)) {
            printf("line %lu: no case\n", line);
            differences++;
            break;
        }
        cases[k]++;
        replay(line, &c, number, last);
        try_damaged(line, &c, rounds);
        tried += rounds;
        break;
    }
}

int main(int count, char **words) {
    if (count < 2 || count > 4) {
        fprintf(stderr, "usage: calls LIST [ROUNDS [SEED]]\n");
        return 2;
    }
    rounds = count > 2 ? strtoul(words[2], NULL, 10) : 100;
    state = count > 3 ? strtoull(words[3], NULL, 10) | 1 : 20261115;
    make_rooms();
    each_line(words[1], one_line);
    for (int k = 0; k < KINDS; k++) {
        printf("%s: %lu cases; damaged, by number:", names[k], cases[k]);
        for (int n = 0; n < NUMBERS; n++)
            if (met[k][n] != 0)
                printf(" %d:%lu", n, met[k][n]);
        printf("\n");
    }
    printf("%lu cases, %lu damaged, %lu differ\n", cases[0] + cases[1] + cases[2] + cases[3], tried, differences);
    return differences != 0;
}
