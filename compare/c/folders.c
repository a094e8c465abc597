/* The time of each call over the files of folders, as ./apply has them: incoming.lay, target.lay and, where they are
 * there, plan.pln, record.bin and defaults.def. What `search` writes can be tried so, and what others found.
 *
 *   folders SECONDS FOLDER..
 *
 * The exit status is 1 where a call takes more than so many seconds of processor time. */
#define _DEFAULT_SOURCE
#include "timed.h"

static input in;

/* Whether the call is asked for by the files, so that it reads more than a part that is missing. */
static int asked(enum call call) {
    const text *parts = in.parts;
    switch (call) {
    case READ:
        return 1;
    case BUILD_BY_NAME:
        return parts[INCOMING].bytes[3] == 1 && parts[TARGET].length > 3 && parts[TARGET].bytes[3] == 1;
    case BUILD_BY_NUMBER:
        return parts[INCOMING].bytes[3] > 1 && parts[TARGET].length > 3 && parts[TARGET].bytes[3] > 1;
    case CHECK:
        return parts[PLAN].length > 0;
    default:
        return parts[PLAN].length > 0 && parts[RECORD].length > 0;
    }
}

int main(int count, char **words) {
    const double most = 20;
    int failed = 0;
    const double allowed = count < 2 ? 0 : atof(words[1]);
    if (allowed <= 0) {
        fprintf(stderr, "usage: folders SECONDS FOLDER..\n");
        return 2;
    }
    for (int i = 2; i < count; i++) {
        read_input(words[i], &in);
        if (in.parts[INCOMING].length == 0) {
            fprintf(stderr, "%s: no incoming.lay\n", words[i]);
            return 2;
        }
        if (in.parts[DEFAULTS].length == 0) {
            memcpy(in.parts[DEFAULTS].bytes, "DEF\1\0\0\0", 7);
            in.parts[DEFAULTS].length = 7;
        }
        for (enum call call = READ; call < CALLS; call++) {
            uint64_t answer;
            if (!asked(call))
                continue;
            double taken = timed(call, &in, most, &answer);
            if (answer == UINT64_MAX)
                printf("%s, %s: broken off after %.1f s\n", words[i], call_names[call], taken);
            else
                printf("%s, %s: %u after %.2f ms\n", words[i], call_names[call], SELECTOR_NUMBER(answer), taken * 1e3);
            failed |= taken > allowed;
        }
    }
    return failed;
}
