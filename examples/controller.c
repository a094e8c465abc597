/* How a controller uses the library: a plan is built and checked once for two layouts, then run for every record that
 * arrives.
 *
 *   compare/library
 *   cc -std=c11 -Iinclude -o controller examples/controller.c target/staticlib/libselector.a
 */
#include <stdio.h>
#include <stdlib.h>

#include "selector.h"

/* An older neighbour sends one column, `t`, of 16 bits. */
static const uint8_t incoming[] = {'L', 'A', 'Y', 1, 0, 1, 0, 1, 't', 3};
/* Our own layout has `t` with 32 bits, and a text `s` beside it. */
static const uint8_t target[] = {'L', 'A', 'Y', 1, 0, 2, 0, 1, 't', 4, 1, 's', 15};
/* What the neighbour sends: `t` is present, and is -2. */
static const uint8_t record[] = {1, 0xFE, 0xFF};

static uint8_t plan[SELECTOR_PLAN_MAX];
static uint8_t output[SELECTOR_RECORD_MAX];

/* The length of an accepted result. A refusal is told by its number and place, as a fitter looks it up in
 * selector.h. */
static size_t accepted(const char *call, uint64_t answer) {
    if (SELECTOR_NUMBER(answer) != 0) {
        fprintf(stderr, "%s: refused %u, place %u\n", call, SELECTOR_NUMBER(answer), SELECTOR_REST(answer));
        exit(EXIT_FAILURE);
    }
    return SELECTOR_REST(answer);
}

int main(void) {
    uint64_t answer = selector_build_by_name(SELECTOR_ALLOW_ALL, incoming, sizeof incoming, target, sizeof target, plan, sizeof plan);
    size_t plan_length = accepted("build", answer);
    answer = selector_check_plan(incoming, sizeof incoming, target, sizeof target, plan, plan_length);
    accepted("check", answer);
    answer = selector_run(incoming, sizeof incoming, target, sizeof target, plan, plan_length, record, sizeof record, output, sizeof output);
    size_t output_length = accepted("run", answer);

    printf("a plan of %zu bytes takes %zu bytes to %zu:", plan_length, sizeof record, output_length);
    for (size_t i = 0; i < output_length; i++) {
        printf(" %02X", output[i]);
    }
    printf("\n");
    return EXIT_SUCCESS;
}
