/* What the tests in C share. */
#include "sofaduck.h"
#include <stdbool.h>
#include <stdio.h>

/* Before each line of a program that defines it. */
#ifndef ABOUT
#define ABOUT ""
#endif

static bool failed;

static inline void test(const char *what, bool passed) {
    printf("%s: " ABOUT "%s\n", passed ? "passed" : "FAILED", what);
    failed = failed || !passed;
}

/* One of several of which the same is tested. */
static inline void test_of(const char *what, const char *of, bool passed) {
    char line[200];
    snprintf(line, sizeof line, "%s: %s", what, of);
    test(line, passed);
}

/* Random numbers, the same ones each time. */
static inline unsigned below(size_t n) {
    static uint64_t seed = 1;
    seed = seed * 6364136223846793005u + 1442695040888963407u;
    return (unsigned)((seed >> 33) % n);
}

static inline bool all(const uint16_t *words, size_t count, uint16_t word) {
    for (size_t i = 0; i < count; i++)
        if (words[i] != word) return false;
    return true;
}
