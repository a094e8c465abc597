/* What the programs share that try inputs for their time: an input of the calls as files have it, and a call of the
 * library with its processor time, broken off where it takes too long. They define _DEFAULT_SOURCE. */
#ifndef TIMED_H
#define TIMED_H

#include "selector.h"

#include <setjmp.h>
#include <signal.h>
#include <stdio.h>
#include <stdlib.h>
#include <string.h>
#include <sys/stat.h>
#include <sys/time.h>
#include <time.h>

enum call { READ, BUILD_BY_NAME, BUILD_BY_NUMBER, CHECK, RUN, CALLS };

static const char *const call_names[CALLS] = {"read", "build by name", "build by number", "check", "run"};

/* The parts of an input, and the files that they are. */
enum part { INCOMING, TARGET, DEFAULTS, PLAN, RECORD, PARTS };

static const char *const part_files[PARTS] = {"incoming.lay", "target.lay", "defaults.def", "plan.pln", "record.bin"};
static const size_t part_limits[PARTS] = {SELECTOR_LAYOUT_MAX, SELECTOR_LAYOUT_MAX, SELECTOR_LAYOUT_MAX,
                                          SELECTOR_PLAN_MAX, SELECTOR_RECORD_MAX};

/* A part may be a byte longer than its limit, which is enough to refuse it. */
typedef struct {
    uint8_t bytes[SELECTOR_PLAN_MAX + 1];
    size_t length;
} text;

typedef struct {
    text parts[PARTS];
} input;

static uint8_t result[SELECTOR_PLAN_MAX];

static inline uint64_t answer_of(enum call call, const input *in) {
    const text *incoming = &in->parts[INCOMING], *target = &in->parts[TARGET], *defaults = &in->parts[DEFAULTS],
               *plan = &in->parts[PLAN], *record = &in->parts[RECORD];
    switch (call) {
    case READ:
        return selector_read_layout(incoming->bytes, incoming->length);
    case BUILD_BY_NAME:
        return selector_build_by_name(SELECTOR_ALLOW_ALL, incoming->bytes, incoming->length, target->bytes,
                                      target->length, result, sizeof result);
    case BUILD_BY_NUMBER:
        return selector_build_by_number(SELECTOR_ALLOW_ALL, 0, 0, incoming->bytes, incoming->length, target->bytes,
                                        target->length, defaults->bytes, defaults->length, result, sizeof result);
    case CHECK:
        return selector_check_plan(incoming->bytes, incoming->length, target->bytes, target->length, plan->bytes,
                                   plan->length);
    default:
        return selector_run(incoming->bytes, incoming->length, target->bytes, target->length, plan->bytes,
                            plan->length, record->bytes, record->length, result, SELECTOR_RECORD_MAX);
    }
}

/* The thread's clock: the process's goes by ticks while a timer runs. */
static inline double processor_seconds(void) {
    struct timespec now;
    clock_gettime(CLOCK_THREAD_CPUTIME_ID, &now);
    return (double)now.tv_sec + (double)now.tv_nsec / 1e9;
}

static sigjmp_buf broken_off;

static inline void break_off(int number) {
    (void)number;
    siglongjmp(broken_off, 1);
}

/* The processor time of a call, no more than `most` seconds: it is broken off there, and the answer is all ones. That
 * can be done, since a call holds no memory and keeps nothing. */
static inline double timed(enum call call, const input *in, double most, uint64_t *answer) {
    struct itimerval timer = {.it_value = {.tv_sec = (time_t)most, .tv_usec = (suseconds_t)(most * 1e6) % 1000000}};
    static double from;
    signal(SIGPROF, break_off);
    if (sigsetjmp(broken_off, 1) != 0) {
        *answer = UINT64_MAX;
        return most;
    }
    setitimer(ITIMER_PROF, &timer, NULL);
    from = processor_seconds();
    *answer = answer_of(call, in);
    double taken = processor_seconds() - from;
    memset(&timer, 0, sizeof timer);
    setitimer(ITIMER_PROF, &timer, NULL);
    return taken;
}

/* The parts of a folder. A file that is not there is empty; of a longer one, one byte past its limit is read. */
static inline void read_input(const char *folder, input *in) {
    for (int part = 0; part < PARTS; part++) {
        char path[4096];
        snprintf(path, sizeof path, "%s/%s", folder, part_files[part]);
        FILE *file = fopen(path, "rb");
        in->parts[part].length = file == NULL ? 0 : fread(in->parts[part].bytes, 1, part_limits[part] + 1, file);
        if (file != NULL)
            fclose(file);
    }
}

static inline void write_input(const char *folder, const input *in) {
    mkdir(folder, 0777);
    for (int part = 0; part < PARTS; part++) {
        char path[4096];
        if (in->parts[part].length == 0)
            continue;
        snprintf(path, sizeof path, "%s/%s", folder, part_files[part]);
        FILE *file = fopen(path, "wb");
        if (file == NULL || fwrite(in->parts[part].bytes, 1, in->parts[part].length, file) != in->parts[part].length ||
            fclose(file) != 0) {
            perror(path);
            exit(2);
        }
    }
}

#endif
