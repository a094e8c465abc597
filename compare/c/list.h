/* What the programs share that replay a list of cases (its form: the head of crates/cases/stdin) and damage its
 * inputs. They define _DEFAULT_SOURCE. */
#ifndef LIST_H
#define LIST_H

#include <stddef.h>
#include <stdint.h>
#include <stdio.h>
#include <stdlib.h>
#include <string.h>
#include <sys/mman.h>
#include <unistd.h>

/* Hands each line of a file, without its end, to a function, counted from 1. */
static inline void each_line(const char *path, void (*visit)(unsigned long line, char *text)) {
    FILE *file = fopen(path, "r");
    char *text = NULL;
    size_t size = 0;
    if (file == NULL) {
        perror(path);
        exit(2);
    }
    for (unsigned long line = 1; getline(&text, &size, file) >= 0; line++) {
        text[strcspn(text, "\n")] = 0;
        visit(line, text);
    }
    free(text);
    fclose(file);
}

/* The bytes of a hexadecimal word, `-` for none, as far as they fit. */
static inline size_t decode(const char *word, uint8_t *to, size_t space) {
    size_t n = 0;
    if (strcmp(word, "-") == 0)
        return 0;
    for (; word[0] != 0 && word[1] != 0 && n < space; word += 2) {
        char pair[3] = {word[0], word[1], 0};
        to[n++] = (uint8_t)strtoul(pair, NULL, 16);
    }
    return n;
}

/* So many bytes, a multiple of a page, with a page that cannot be touched on either side. */
static inline uint8_t *guarded(size_t space) {
    size_t page = (size_t)sysconf(_SC_PAGESIZE);
    uint8_t *all = mmap(NULL, space + 2 * page, PROT_READ | PROT_WRITE, MAP_PRIVATE | MAP_ANONYMOUS, -1, 0);
    if (space % page != 0 || all == MAP_FAILED || mprotect(all, page, PROT_NONE) != 0 || mprotect(all + page + space, page, PROT_NONE) != 0) {
        perror("no guarded memory");
        exit(2);
    }
    return all + page;
}

/* xorshift64*, below n */
static inline uint32_t below(uint64_t *state, uint32_t n) {
    *state ^= *state >> 12;
    *state ^= *state << 25;
    *state ^= *state >> 27;
    return (uint32_t)((*state * 2685821657736338717u >> 32) % n);
}

#endif
