// What the benchmarks share: a clock, the least time, the verdict on a goal, and random numbers that are the same from the same seed.
#include <stdbool.h>
#include <stdint.h>
#include <time.h>

static inline double nanoseconds(clockid_t clock) {
    struct timespec t;
    clock_gettime(clock, &t);
    return t.tv_sec * 1e9 + t.tv_nsec;
}

static inline void least(double *of, double t) {
    if (t < *of) *of = t;
}

static inline const char *verdict(bool reached) { return reached ? "reached" : "missed"; }

static inline unsigned random_below(uint64_t *seed, unsigned n) {
    *seed = *seed * 6364136223846793005u + 1442695040888963407u;
    return (unsigned)(*seed >> 33) % n;
}
