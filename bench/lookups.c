// Times lookups that fail along 24 classes, ours and C's by turns; the least of all runs counts. Each is a begin that is refused by 9, put into one
// list, so that a check is made once for all of them. One selector sought again and again is what a processor foresees best, many in random order
// what it foresees least. Then lookups of all sorts in random images: both sides have to find the same and to read as many pairs and dictionaries.
#include "images.h"
#include "machine.h"
#include "measure.h"
#include <stdio.h>
#include <string.h>

enum { CALLS = 10 * CLIMBING, RUNS = 200, STACK = 64, IMAGES = 200, LOOKUPS = 100 };

void bench_table(uint16_t *table);
bool bench_lookup(const uint16_t *contents, size_t contents_length, const uint16_t *bodies, size_t bodies_length, const uint16_t *stack,
                  size_t stack_length, const uint16_t *cache, size_t cache_length, const uint16_t registers[REGISTERS], uint16_t selector,
                  uint16_t class, uint16_t *method, size_t *pairs, size_t *dictionaries);

static uint16_t entries[256], list[4 * CALLS];
static uint8_t image[MOST_IMAGE];
static uint16_t contents[SOFADUCK_CONTENTS], bodies[SOFADUCK_BODIES], stack[STACK], cache[SOFADUCK_CACHE];
static uint32_t answers[2][CALLS][SOFADUCK_ANSWER];
static uint64_t seed = 5;

static unsigned below(unsigned n) { return random_below(&seed, n); }

static double now(void) { return nanoseconds(CLOCK_MONOTONIC); }

static machine empty(void) {
    return (machine){contents, SOFADUCK_CONTENTS, bodies, SOFADUCK_BODIES, stack, STACK, cache, SOFADUCK_CACHE, {0}};
}

// The pairs that a lookup reads: in each dictionary those below the selector, and the next.
static size_t pairs_read(const objects *o, unsigned selector, unsigned class) {
    size_t count = 0;
    for (; class != NIL_WORD; class = body(o, class)[0]) {
        const unsigned dictionary = body(o, class)[1];
        const uint16_t *pair = body(o, dictionary), *const end = pair + of(o, dictionary)->size;
        for (; pair < end && *pair < selector; pair += 2) count++;
        if (pair == end) continue;
        count++;
        if (*pair == selector) break;
    }
    return count;
}

// Play as one writes it in C, of begins whose lookups fail. How many were made.
static uint32_t c_begins(const machine *m, const sofaduck_calls *calls, uint32_t to[][SOFADUCK_ANSWER]) {
    const objects o = objects_of(m);
    if (c_check(entries, m) != 0) return 0;
    uint32_t made = 0;
    for (const uint16_t *w = calls->words; w < calls->words + calls->length; w += 4 + w[3], made++) {
        uint32_t number = 8;
        if (valid(&o, w[1]) && is(&o, BYTES, w[2])) number = lookup(&o, w[2], class_of(&o, w[1])).method == 0 ? 9 : 0;
        memset(to[made], 0, sizeof *to);
        to[made][SOFADUCK_ANSWER_NUMBER] = number;
    }
    return made;
}

// So many selectors in each class, and so many that are sought.
static bool measure(size_t count, unsigned sought) {
    unsigned unknown[CLIMBING];
    double a = 1e18, b = 1e18;
    size_t read = 0;
    machine m = empty();
    sofaduck_calls calls = {list, 4 * CALLS, 0, 0};
    if (sofaduck_state_load(&m, image, climbing(image, count, unknown)) != 0) return printf("lookup: the image is refused\n"), false;
    const objects o = objects_of(&m);
    for (int i = 0; i < CALLS; i++) {
        const unsigned selector = 2 * unknown[sought == 1 ? CLIMBING / 2 : below(sought)];
        sofaduck_put_begin(&calls, m.registers[START_RECEIVER], selector, NULL, 0);
        read += pairs_read(&o, selector, class_of(&o, m.registers[START_RECEIVER]));
    }
    for (int run = 0; run < RUNS; run++) {
        uint32_t made = 0;
        const double t0 = now();
        const uint32_t r = sofaduck_state_play(&m, &calls, answers[0][0], CALLS * SOFADUCK_ANSWER, &made);
        const double t1 = now();
        const uint32_t other = c_begins(&m, &calls, answers[1]);
        const double t2 = now();
        least(&a, t1 - t0), least(&b, t2 - t1);
        if (r != 0 || made != CALLS || other != CALLS || answers[0][0][SOFADUCK_ANSWER_NUMBER] != 9
            || memcmp(answers[0], answers[1], sizeof answers[0]) != 0)
            return printf("lookup: the begins differ, or are not refused by 9; made %u and %u, answer %u\n", made, other, r), false;
    }
    printf("lookup failing in 24 classes, %2zu selectors each, %3u sought, %5.1f pairs read   ours %6.1f ns   C %6.1f   speed relative to C: %.2f\n",
           count, sought, (double)read / CALLS, a / CALLS, b / CALLS, b / a);
    return true;
}

// A selector that stands in a class of the chain or next to one that does, another selector, or any word.
static unsigned any_selector(const objects *o, unsigned class) {
    for (; class != NIL_WORD; class = body(o, class)[0]) {
        const unsigned dictionary = body(o, class)[1], pairs = of(o, dictionary)->size / 2;
        if (pairs > 0 && below(3) == 0) return body(o, dictionary)[2 * below(pairs)] + (below(2) == 0 ? 0 : below(5) - 2);
    }
    return below(4) == 0 ? below(65536) : 2 * (1 + below(o->n));
}

static unsigned any_class(const objects *o) {
    for (;;) {
        const unsigned class = 2 * (1 + below(o->n));
        if (is(o, CLASS, class)) return class;
    }
}

static bool differential(void) {
    size_t finding = 0, above_first = 0, failed = 0, along_all = 0, early = 0, refused = 0;
    for (int i = 0; i < IMAGES; i++) {
        unsigned unknown[CLIMBING];
        machine m = empty();
        const size_t length = i % 3 == 0 ? climbing(image, 1 + below(60), unknown)
                            : i % 3 == 1 ? ordinary(image, 1 + i % 2, 400 + below(1000), i)
                                         : lively(image, 1 + i % 2, 900 + below(1000), i);
        if (sofaduck_state_load(&m, image, length) != 0) return printf("lookup: an image is refused\n"), false;
        const objects o = objects_of(&m);
        for (int k = 0; k < LOOKUPS; k++) {
            const unsigned class = below(20) == 0 ? below(65536) : any_class(&o);
            const bool starts = is(&o, CLASS, class);
            const unsigned selector = starts ? any_selector(&o, class) : below(65536);
            uint16_t method = 65535;
            size_t pairs = 99999, dictionaries = 99999;
            const bool made = bench_lookup(m.contents, m.contents_length, m.bodies, m.bodies_length, m.stack, m.stack_length, m.cache, m.cache_length,
                                           m.registers, selector, class, &method, &pairs, &dictionaries);
            const found f = starts ? lookup(&o, selector, class) : (found){65535, 99999};
            const size_t read = starts ? pairs_read(&o, selector, class) : 99999;
            if (made != starts || method != f.method || pairs != read || dictionaries != f.dictionaries)
                return printf("lookup: of %u from %u finds %u and %u, and reads %zu and %zu pairs in %zu and %u dictionaries\n", selector, class,
                              method, f.method, pairs, read, dictionaries, f.dictionaries),
                       false;
            refused += !made, finding += made && method != 0, failed += made && method == 0;
            above_first += made && method != 0 && dictionaries > 1, along_all += made && method == 0 && dictionaries == MOST_CHAIN;
            early += made && pairs < pairs_read(&o, 65535, class);
        }
    }
    printf("%zu lookups agree in what they find and in pairs and dictionaries read: %zu found, %zu of them above the first class, %zu failed, %zu of "
           "them in 24 classes, %zu left pairs unread; %zu from no class\n",
           finding + failed, finding, above_first, failed, along_all, early, refused);
    if (finding == 0 || above_first == 0 || failed == 0 || along_all == 0 || early == 0 || refused == 0)
        return printf("lookup: one of these was never met\n"), false;
    return true;
}

int main(void) {
    static const size_t counts[] = {1, 8, 60};
    bench_table(entries);
    for (int i = 0; i < 3; i++)
        if (!measure(counts[i], 1) || !measure(counts[i], CLIMBING)) return 1;
    return differential() ? 0 : 1;
}
