/* Searches at random for inputs within the limits that take a call long: shapes.h and plans.h make them, the slowest of
 * each kind are kept for each call and changed further in their sizes, depths, widths and order.
 *
 *   search SECONDS SEED [FOLDER]
 *
 * takes so many seconds of processor time, prints the slowest found for each call and writes their files into folders
 * of the folder. A call is broken off after two seconds. What counts is the time beyond that of the calls which it
 * contains: a build and a check read both layouts, a run checks its plan. The exit status is 1 where a call takes more
 * than a second. */
#define _DEFAULT_SOURCE
#include "timed.h"

#include "list.h"
#include "shapes.h"

#include "plans.h"

/* How many of the slowest are kept of a call, each of another shape; and how many of them are printed. */
enum { KEPT = 24, PRINTED = 4 };

static const double longest = 2, allowed = 1;

typedef struct {
    double counted, seconds;
    uint64_t answer;
    uint32_t shape;
    tape tape;
    char note[NOTE];
} finding;

static finding kept[CALLS][KEPT];
static int kept_count[CALLS];
static uint64_t state;
static input in;

/* Inputs whose words differ in numbers alone have one shape. */
static uint32_t shape_of(const char *words) {
    uint32_t hash = 0;
    for (; *words != 0; words++)
        if (*words < '0' || *words > '9')
            hash = mix(hash, (uint8_t)*words);
    return hash;
}

/* Keeps a finding in order; of its shape only the slowest stays. */
static void keep(enum call call, const finding *f) {
    finding *list = kept[call];
    int count = kept_count[call], at = 0;
    while (at < count && list[at].shape != f->shape)
        at++;
    if (at < count && list[at].counted >= f->counted)
        return;
    if (at == count && count < KEPT)
        kept_count[call] = ++count;
    else if (at == count && list[--at].counted >= f->counted)
        return;
    for (; at > 0 && list[at - 1].counted < f->counted; at--)
        list[at] = list[at - 1];
    list[at] = *f;
}

static double measure(enum call call, double less, const tape *from) {
    finding f = {.shape = shape_of(note), .tape = *from};
    f.seconds = timed(call, &in, longest, &f.answer);
    f.counted = f.seconds - less;
    memcpy(f.note, note, NOTE);
    keep(call, &f);
    return f.seconds;
}

/* Makes the plan of a build the input's, with a record of nulls. */
static void take_plan(enum call build) {
    uint64_t built = answer_of(build, &in);
    if (SELECTOR_NUMBER(built) != 0)
        return;
    in.parts[PLAN].length = (size_t)built;
    memcpy(in.parts[PLAN].bytes, result, (size_t)built);
    in.parts[RECORD].length = (size_t)in.parts[INCOMING].bytes[5] + 256u * in.parts[INCOMING].bytes[6];
    memset(in.parts[RECORD].bytes, 0, in.parts[RECORD].length);
}

static double reading_target(void) {
    double from = processor_seconds();
    selector_read_layout(in.parts[TARGET].bytes, in.parts[TARGET].length);
    return processor_seconds() - from;
}

static void try_input(const tape *from) {
    if (!made(from, &in))
        return;
    double reads = measure(READ, 0, from) + reading_target();
    if (in.parts[PLAN].length == 0) {
        enum call build = in.parts[INCOMING].bytes[3] == 1 ? BUILD_BY_NAME : BUILD_BY_NUMBER;
        /* Built plans are seldom slow: some are checked and run. */
        if (measure(build, reads, from) < longest && below(&state, 4) == 0)
            take_plan(build);
    }
    if (in.parts[PLAN].length == 0)
        return;
    double check = measure(CHECK, reads, from);
    if (check < longest)
        measure(RUN, check, from);
}

/* Some numbers of a tape changed: another, a near one, two exchanged, one left out, or a piece of another tape. */
static void change(tape *t, const tape *other) {
    for (uint32_t times = 1 + below(&state, 4); times > 0; times--) {
        /* the first numbers are used most */
        uint32_t at = below(&state, 1 + below(&state, GENES)), length = below(&state, GENES - at);
        uint32_t *gene = &t->genes[at];
        switch (below(&state, 6)) {
        case 0:
            *gene = below(&state, UINT32_MAX);
            break;
        case 1:
            *gene += below(&state, 2) ? 1 : UINT32_MAX;
            break;
        case 2:
            *gene += (below(&state, 64) - 32) << 8;
            break;
        case 3:
            memmove(gene, gene + 1, (GENES - 1 - at) * sizeof *gene);
            break;
        case 4:
            memmove(gene + 1, gene, (GENES - 1 - at) * sizeof *gene);
            break;
        default:
            memcpy(gene, &other->genes[at], length * sizeof *gene);
        }
    }
}

static const tape *parent(void) {
    enum call call = (enum call)(below(&state, 2) ? CHECK + below(&state, 2) : below(&state, CALLS));
    int count = kept_count[call];
    if (count == 0)
        return NULL;
    uint32_t a = below(&state, (uint32_t)count), b = below(&state, (uint32_t)count);
    return &kept[call][a < b ? a : b].tape;
}

static void next_tape(tape *t) {
    const tape *one = parent(), *other = parent();
    if (one == NULL || other == NULL || below(&state, 4) == 0) {
        for (int i = 0; i < GENES; i++)
            t->genes[i] = below(&state, UINT32_MAX);
        return;
    }
    *t = *one;
    change(t, other);
}

static void report(enum call call, const char *folder) {
    for (int i = 0; i < PRINTED && i < kept_count[call]; i++) {
        const finding *f = &kept[call][i];
        if (f->answer == UINT64_MAX)
            printf("%s: over %.0f s: %s\n", call_names[call], longest, f->note);
        else
            printf("%s: %u after %.2f ms: %s\n", call_names[call], SELECTOR_NUMBER(f->answer), f->seconds * 1e3,
                   f->note);
        if (folder != NULL && made(&f->tape, &in)) {
            char path[2048];
            if (in.parts[PLAN].length == 0 && call >= CHECK)
                take_plan(in.parts[INCOMING].bytes[3] == 1 ? BUILD_BY_NAME : BUILD_BY_NUMBER);
            snprintf(path, sizeof path, "%s/%s-%d", folder, call_names[call], i + 1);
            for (char *at = path + strlen(folder); *at != 0; at++)
                if (*at == ' ')
                    *at = '-';
            write_input(path, &in);
        }
    }
}

int main(int count, char **words) {
    if (count < 3 || count > 4) {
        fprintf(stderr, "search SECONDS SEED [FOLDER]\n");
        return 2;
    }
    double seconds = strtod(words[1], NULL);
    unsigned long tried = 0;
    int failed = 0;
    state = strtoull(words[2], NULL, 10) * 2 + 1;
    tape t;
    for (; processor_seconds() < seconds; tried++) {
        next_tape(&t);
        try_input(&t);
    }
    for (enum call call = READ; call < CALLS; call++) {
        report(call, count == 4 ? words[3] : NULL);
        for (int i = 0; i < kept_count[call]; i++)
            failed |= kept[call][i].seconds > allowed;
    }
    printf("%lu inputs tried\n", tried);
    return failed;
}
