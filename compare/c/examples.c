/* Holds the library to the folders of examples/: builds each plan again from the two layouts, checks it and runs it
 * over the record.
 *
 *   examples FOLDER...
 */
#include <stdio.h>
#include <stdlib.h>
#include <string.h>

#include "selector.h"

struct bytes {
    uint8_t data[SELECTOR_PLAN_MAX];
    size_t length;
};

/* A file of a folder; false where there is none. */
static int load(const char *folder, const char *name, struct bytes *into) {
    char path[4096];
    snprintf(path, sizeof path, "%s/%s", folder, name);
    FILE *file = fopen(path, "rb");
    if (file == NULL) {
        into->length = 0;
        return 0;
    }
    into->length = fread(into->data, 1, sizeof into->data, file);
    fclose(file);
    return 1;
}

static int same(const struct bytes *a, const struct bytes *b) {
    return a->length == b->length && memcmp(a->data, b->data, a->length) == 0;
}

/* What a run answered, as the program `apply` writes it. */
static void report(uint64_t answer, struct bytes *output) {
    if (SELECTOR_NUMBER(answer) == 0) {
        output->length = SELECTOR_REST(answer);
    } else {
        output->length = (size_t)sprintf((char *)output->data, "refused %u\n", SELECTOR_NUMBER(answer));
    }
}

/* Builds a plan, checks it and runs it over the record. */
static int carry(const char *folder) {
    static struct bytes incoming, target, defaults, record, plan, output, wanted_plan, wanted;
    if (!load(folder, "incoming.lay", &incoming) || !load(folder, "target.lay", &target) || !load(folder, "record.bin", &record) ||
        !load(folder, "plan.pln", &wanted_plan) || !load(folder, "output.bin", &wanted)) {
        printf("%s: a file is missing\n", folder);
        return 0;
    }
    uint64_t answer;
    if (load(folder, "defaults.def", &defaults)) {
        answer = selector_build_by_number(SELECTOR_ALLOW_ALL, 0, 0, incoming.data, incoming.length, target.data, target.length, defaults.data,
                                          defaults.length, plan.data, sizeof plan.data);
    } else {
        answer = selector_build_by_name(SELECTOR_ALLOW_ALL, incoming.data, incoming.length, target.data, target.length, plan.data, sizeof plan.data);
    }
    plan.length = SELECTOR_REST(answer);
    if (SELECTOR_NUMBER(answer) != 0 || !same(&plan, &wanted_plan)) {
        printf("%s: the plan differs\n", folder);
        return 0;
    }
    answer = selector_check_plan(incoming.data, incoming.length, target.data, target.length, plan.data, plan.length);
    if (answer != 0) {
        printf("%s: the plan does not pass\n", folder);
        return 0;
    }
    answer = selector_run(incoming.data, incoming.length, target.data, target.length, plan.data, plan.length, record.data, record.length,
                          output.data, SELECTOR_RECORD_MAX);
    report(answer, &output);
    if (!same(&output, &wanted)) {
        printf("%s: the output differs\n", folder);
        return 0;
    }
    return 1;
}

int main(int count, char **folders) {
    int agreed = 0;
    for (int i = 1; i < count; i++) {
        agreed += carry(folders[i]);
    }
    printf("examples: %d of %d agree\n", agreed, count - 1);
    return agreed == count - 1 ? EXIT_SUCCESS : EXIT_FAILURE;
}
