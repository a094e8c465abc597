/* An argument of length 0 may have any address, null too: each call, with every choice of its arguments empty, answers
 * the same at null, at a page that cannot be touched, and at an address that can.
 *
 * The exit status is 1 where an answer differs. */
#define _DEFAULT_SOURCE
#include "list.h"
#include "selector.h"

enum { ARGUMENTS = 5, SPACE = 64 };

enum kind { READ, BUILD_NAME, BUILD_NUMBER, CHECK, RUN, KINDS };

static const char *const names[KINDS] = {"read_layout", "build_by_name", "build_by_number", "check_plan", "run"};
static const int counts[KINDS] = {1, 3, 4, 3, 5};

/* The arguments of a call, the lent buffer last. */
typedef struct {
    uint8_t *at[ARGUMENTS];
    size_t length[ARGUMENTS];
} arguments;

static uint64_t call(enum kind kind, const arguments *a) {
    uint8_t *const *p = a->at;
    const size_t *n = a->length;
    switch (kind) {
    case READ:
        return selector_read_layout(p[0], n[0]);
    case BUILD_NAME:
        return selector_build_by_name(SELECTOR_ALLOW_ALL, p[0], n[0], p[1], n[1], p[2], n[2]);
    case BUILD_NUMBER:
        return selector_build_by_number(SELECTOR_ALLOW_ALL, 0, 0, p[0], n[0], p[1], n[1], p[2], n[2], p[3], n[3]);
    case CHECK:
        return selector_check_plan(p[0], n[0], p[1], n[1], p[2], n[2]);
    default:
        return selector_run(p[0], n[0], p[1], n[1], p[2], n[2], p[3], n[3], p[4], n[4]);
    }
}

static uint8_t room[ARGUMENTS][SPACE];
static uint8_t *untouchable;
static unsigned long tried, accepted, differences;

/* A call with some of its arguments empty. */
static void one(enum kind kind, const arguments *whole, unsigned empty) {
    uint64_t given[3];
    for (int way = 0; way < 3; way++) {
        arguments a = *whole;
        for (int i = 0; i < counts[kind]; i++)
            if (empty >> i & 1) {
                a.length[i] = 0;
                a.at[i] = way == 0 ? NULL : way == 1 ? untouchable : a.at[i];
            }
        given[way] = call(kind, &a);
    }
    tried++;
    accepted += empty != 0 && SELECTOR_NUMBER(given[0]) == 0;
    if (given[0] != given[1] || given[0] != given[2]) {
        printf("%s, empty %x: %llx at null, %llx, %llx\n", names[kind], empty, (unsigned long long)given[0],
               (unsigned long long)given[1], (unsigned long long)given[2]);
        differences++;
    }
}

/* The words of a call's arguments in hexadecimal; `+` is a buffer with space. */
static void all(enum kind kind, const char *const *words) {
    arguments whole;
    for (int i = 0; i < counts[kind]; i++) {
        whole.at[i] = room[i];
        whole.length[i] = strcmp(words[i], "+") == 0 ? SPACE : decode(words[i], room[i], SPACE);
    }
    for (unsigned empty = 0; empty < 1u << counts[kind]; empty++)
        one(kind, &whole, empty);
}

#define OLDER "4c415901000100017403"
#define OURS "4c41590100020001740401730f"
#define PLAN "504c4e010002000200000004020101730f00"
#define OLDER_BY_NUMBER "4c41590200010001740100000003"
#define NO_COLUMN "4c415901000000"
#define NO_SELECTOR "504c4e01000000"

int main(void) {
    untouchable = guarded((size_t)sysconf(_SC_PAGESIZE)) - 1;
    all(READ, (const char *const[]){OLDER});
    all(BUILD_NAME, (const char *const[]){OLDER, OURS, "+"});
    all(BUILD_NUMBER, (const char *const[]){OLDER_BY_NUMBER, OLDER_BY_NUMBER, "44454601000000", "+"});
    all(CHECK, (const char *const[]){OLDER, OURS, PLAN});
    all(RUN, (const char *const[]){OLDER, OURS, PLAN, "01feff", "+"});
    /* Without columns the record and the output are empty, and a call with null for both is accepted. */
    all(RUN, (const char *const[]){NO_COLUMN, NO_COLUMN, NO_SELECTOR, "-", "+"});
    printf("%lu calls with empty arguments, %lu of them accepted, %lu differ\n", tried, accepted, differences);
    return differences != 0 || accepted != 3;
}
