// Times load, and check of a state with no handler, ours and C's by turns; the least of all runs counts. Both have to answer and leave the same.
#include "image.h"
#include "images.h"
#include "machine.h"
#include "measure.h"
#include <stdio.h>
#include <string.h>

enum { CONTENTS = 4 * 2047, BODIES = 24000, CACHE = CACHE_WORDS, MOST_CACHE = 400, EDITS = 100000 };

void bench_table(uint16_t *table);

static uint16_t entries[256];
static uint8_t image[MOST_IMAGE], edited[10 + 8 * 65536 + 2 * 65536];
static uint16_t contents[2][CONTENTS], bodies[2][BODIES], cache[MOST_CACHE];
static uint64_t seed = 7;

static unsigned below(unsigned n) { return random_below(&seed, n); }

static double now(void) { return nanoseconds(CLOCK_MONOTONIC); }

static unsigned word(const uint8_t *of, size_t i) { return of[2 * i] << 8 | of[2 * i + 1]; }

static void put(uint8_t *of, size_t i, unsigned w) { of[2 * i] = w >> 8, of[2 * i + 1] = w & 255; }

static bool alike(void) {
    return memcmp(contents[0], contents[1], sizeof contents[0]) == 0 && memcmp(bodies[0], bodies[1], sizeof bodies[0]) == 0;
}

// Buffers that both sides find alike and that no image has.
static void fill(void) {
    memset(contents, 0xa5, sizeof contents);
    memset(bodies, 0x5a, sizeof bodies);
}

// One side's buffers, with these lengths.
static machine on(int side, size_t room, size_t space, size_t cached) {
    return (machine){contents[side], room, bodies[side], space, NULL, 0, cache, cached, {0}};
}

// The objects of an image as a state that nothing has judged yet.
static machine unjudged(int side) {
    machine m = on(side, CONTENTS, BODIES, CACHE);
    m.registers[N] = word(image, 1), m.registers[B] = word(image, 2);
    m.registers[START_RECEIVER] = word(image, 3), m.registers[START_SELECTOR] = word(image, 4);
    m.registers[EDITION] = word(image, 0);
    c_place(image, m.registers[N], m.registers[B], contents[side], bodies[side]);
    return m;
}

// The times of one image: check, load.
typedef struct {
    double ours[2], c[2];
} times;

// `number` is what both loads have to answer; check has one number for all of these.
static bool measure(const char *name, size_t length, uint32_t number, int runs, times *t) {
    for (int k = 0; k < 2; k++) t->ours[k] = t->c[k] = 1e18;
    for (int run = 0; run < runs; run++) {
        double t0, t1, t2;
        uint32_t r, s;
        fill();
        memset(cache, 0, sizeof cache);
        const machine first = unjudged(0), second = unjudged(1);
        t0 = now();
        r = sofaduck_state_check(&first);
        t1 = now();
        s = c_check(entries, &second);
        t2 = now();
        least(t->ours, t1 - t0), least(t->c, t2 - t1);
        if (r != (number == 0 ? 0 : 11) || r != s || !alike()) return printf("%s: the checks answer %u and %u\n", name, r, s), false;
        fill();
        machine m = on(0, CONTENTS, BODIES, CACHE);
        t0 = now();
        r = sofaduck_state_load(&m, image, length);
        t1 = now();
        s = c_read(entries, image, length, contents[1], CONTENTS, bodies[1], BODIES, CACHE);
        t2 = now();
        least(t->ours + 1, t1 - t0), least(t->c + 1, t2 - t1);
        if (r != number || s != number || !alike()) return printf("%s: the loads answer %u and %u\n", name, r, s), false;
    }
    return true;
}

static const char *const parts[2] = {"check", "load"};

static size_t usual(uint8_t *to, size_t b) { return ordinary(to, 1, b, b); }

typedef struct {
    const char *name;
    size_t (*make)(uint8_t *, size_t);
    size_t size;
    uint32_t number;
    int runs;
} sample;

// Times and speeds; and how the times grow, where the sample before has half the size.
static bool report(const sample *samples, size_t count) {
    times t[2];
    for (size_t i = 0; i < count; i++) {
        const sample *s = samples + i;
        times *new = t + i % 2, *old = t + (i + 1) % 2;
        if (!measure(s->name, s->make(image, s->size), s->number, s->runs, new)) return false;
        for (int k = 0; k < 2; k++) {
            printf("load %-7s %5zu %-5s   ours %8.2f us   C %8.2f us   speed relative to C: %.2f", s->name, s->size, parts[k],
                   new->ours[k] / 1e3, new->c[k] / 1e3, new->c[k] / new->ours[k]);
            if (i > 0 && s[-1].make == s->make && 2 * s[-1].size == s->size)
                printf("   growth from half: ours %.2f, C %.2f", new->ours[k] / old->ours[k], new->c[k] / old->c[k]);
            printf("\n");
        }
    }
    return true;
}

// A word that is likely to matter: another of the image, a neighbour, one bit off, anything.
static unsigned changed(size_t words, size_t i) {
    const unsigned w = word(edited, i);
    static const uint16_t edges[] = {0, 1, 2, 7, 9, 511, 513, 16383, 16385, 65535};
    switch (below(9)) {
    case 0: return w ^ 1u << below(16);
    case 1: return word(edited, below(words));
    case 2: return w + 2;
    case 3: return w - 2;
    case 4: return w + 1 - 2 * below(2);
    case 5: return 2 * (1 + below(word(image, 1)));
    case 6: return below(8);
    case 7: return edges[below(10)];
    default: return below(65536);
    }
}

// The header of a method with another flag, T, size of frame or L.
static unsigned other_header(unsigned w) {
    switch (below(4)) {
    case 0: return (w & 0x1fff) | below(8) << 13;
    case 1: return (w & 0xe0ff) | below(below(2) == 0 ? 8 : 32) << 8;
    case 2: return w ^ 128;
    default: return (w & 0xff81) | below(64) << 1;
    }
}

// A class of the correct image.
static unsigned any_class(void) {
    for (;;) {
        const size_t k = below(word(image, 1));
        if (word(image, 5 + 4 * k + 1) == CLASS) return 2 * (k + 1);
    }
}

// One word of an edited image, often in a method's header, its next to last literal, a class or an entry.
static void edit_word(size_t words) {
    const size_t n = word(image, 1), first = 5 + 4 * n, entry = 5 + 4 * below(n), start = first + word(image, entry + 2);
    const unsigned kind = word(image, entry + 1), header = start < words ? word(image, start) : 0, where = below(40);
    size_t i = first + below(words - first);
    if (where == 0) i = below(5);
    else if (where < 8) i = entry + below(4);
    else if (where < 12 && kind == 4) return put(edited, start, other_header(header));
    else if (where < 16 && kind == 4) {
        i = start + (header >> 1 & 63);
        return put(edited, i, word(edited, i) ^ 1u << below(16));
    }
    else if (where < 14 && kind == 2) return put(edited, start + 2, 2 * (254 + below(4)) + 1);
    else if (where < 24 && start + 4 <= words) i = start + below(4);
    else if (where < 26 && kind == 2) return put(edited, start, any_class());
    // objects 6 to 8: the kind, the classes' fields and form; or object 6 as the first selector of a dictionary
    else if (where == 26) {
        const size_t which = 5 + below(3), of_it = first + word(image, 5 + 4 * which + 2);
        if (below(3) == 0) return put(edited, 5 + 4 * which + 1, below(5));
        return put(edited, of_it + 2 + below(2), 2 * below(4) + 1);
    }
    else if (where < 31 && kind == 3 && word(image, entry + 3) > 0) return put(edited, start, DOES_NOT_UNDERSTAND);
    put(edited, i, changed(words, i));
}

// An object with another size: what follows it moves. It gives the length.
static size_t resize(size_t length) {
    const size_t n = word(edited, 1), k = below(4) == 0 ? below(8) : below(n), entry = 5 + 4 * k;
    const unsigned kind = word(edited, entry + 1), size = word(edited, entry + 3), bytes = kind == 1 || kind == 4;
    const size_t start = 5 + 4 * n + word(edited, entry + 2), old = bytes ? (size + 1) / 2 : size;
    unsigned other = below(2) == 0 ? below(size + 4) : size + 2 - below(4);
    if (kind == 4 && below(2) == 0) other = 2 + 2 * (word(edited, start) >> 1 & 63) + below(6);
    if (other > size + 200) other = size;
    const size_t new = bytes ? (other + 1) / 2 : other;
    memmove(edited + 2 * (start + new), edited + 2 * (start + old), length - 2 * (start + old));
    for (size_t i = old; i < new; i++) put(edited, start + i, below(2) == 0 ? 2 * (1 + below(n)) : 2 * below(300) + 1);
    if (bytes && other % 2 == 1) edited[2 * (start + new) - 1] = 0;
    put(edited, entry + 3, other);
    for (size_t i = k + 1; i < n; i++) put(edited, 5 + 4 * i + 2, word(edited, 5 + 4 * i + 2) + new - old);
    put(edited, 2, word(edited, 2) + new - old);
    return length + 2 * new - 2 * old;
}

// An object with the class and kind of another.
static void retype(void) {
    const size_t n = word(edited, 1), to = 5 + 4 * (below(2) == 0 ? below(8) : below(n)), from = 5 + 4 * below(n);
    put(edited, to, word(edited, from));
    put(edited, to + 1, word(edited, from + 1));
}

// Headers and lengths at their bounds, over words that are all 0: rules 1 to 4.
static bool heads(void) {
    static const unsigned ns[] = {0, 4, 5, 7, 8, 2047, 2048, 65535}, bs[] = {0, 1, 24000, 24001, 65535}, caches[] = {192, 255, 256, 257};
    size_t count = 0;
    memset(edited, 0, sizeof edited);
    for (size_t i = 0; i < 8 * 5 * 4 * 5 * 3 * 3 * 4; i++) {
        size_t x = i;
        const unsigned n = ns[x % 8], b = bs[x / 8 % 5];
        x /= 40;
        put(edited, 0, x % 4), put(edited, 1, n), put(edited, 2, b);
        const size_t asked = 10 + 8 * n + 2 * b, lengths[] = {asked, asked - 1, asked + 1, 9, 0};
        const size_t length = lengths[x / 4 % 5];
        x /= 20;
        const size_t room = x % 3 == 0 ? CONTENTS : 4 * n < CONTENTS ? 4 * n + 1 - x % 3 : 0;
        const size_t space = x / 3 % 3 == 0 ? BODIES : b < BODIES ? b + 1 - x / 3 % 3 : 0, cached = caches[x / 9];
        if (room > CONTENTS || space > BODIES) continue;
        fill();
        machine m = on(0, room, space, cached);
        const uint32_t r = sofaduck_state_load(&m, edited, length);
        const uint32_t s = c_read(entries, edited, length, contents[1], room, bodies[1], space, cached);
        if (r != s || !alike()) return printf("header %u %u: the loads answer %u and %u\n", n, b, r, s), false;
        count++;
    }
    printf("%zu headers loaded alike\n", count);
    return true;
}

// A correct image of either edition; some have chains that one more class makes too long.
static size_t any_image(uint64_t from) {
    const unsigned which = below(8), edition = 1 + below(2);
    if (which == 0) return chain(image, 24 + below(60));
    return which == 1 ? lively(image, edition, 900 + below(600), from) : ordinary(image, edition, 400 + below(600), from);
}

// Correct images edited, lengths and buffers too: both answer the same and leave the same words. Every number has to be met, and so has each rule
// that edition 2 adds: an image refused by it that is accepted as one of edition 1.
static bool spoil(void) {
    static const uint8_t numbers[] = {1, 2, 3, 4, 5, 14, 6, 7, 8};
    size_t seen[15] = {0}, by_edition[15] = {0}, second = 0, length = 0;
    bool met = true;
    for (int edit = 0; edit < EDITS; edit++) {
        if (edit % 20 == 0) length = any_image(edit + 1);
        memcpy(edited, image, length);
        const size_t words = length / 2, n = word(image, 1);
        const unsigned how = below(8);
        const size_t now = how == 0 ? resize(length) : length;
        if (how == 1) retype();
        else if (how > 1) for (unsigned k = 1 + below(2); k > 0; k--) edit_word(words);
        const size_t given = below(200) == 0 ? below(below(2) == 0 ? 12 : now) : now;
        const size_t room = below(200) == 0 ? below(4 * n + 1) : CONTENTS, space = below(200) == 0 ? below(1000) : BODIES;
        const size_t cached = below(400) == 0 ? below(MOST_CACHE) : CACHE;
        fill();
        machine m = on(0, room, space, cached);
        const uint32_t r = sofaduck_state_load(&m, edited, given);
        const uint32_t s = c_read(entries, edited, given, contents[1], room, bodies[1], space, cached);
        if (r != s || r >= sizeof seen / sizeof *seen || !alike()) {
            printf("edit %d: the loads answer %u and %u%s\n", edit, r, s, r == s ? " and leave different words" : "");
            return false;
        }
        seen[r]++;
        second += r == 0 && word(edited, 0) == 2;
        if ((r != 6 && r != 7) || word(edited, 0) != 2) continue;
        put(edited, 0, 1);
        by_edition[r] += c_read(entries, edited, given, contents[1], room, bodies[1], space, cached) == 0;
    }
    printf("%d edited images loaded alike: %zu accepted", EDITS, seen[0]);
    for (size_t k = 0; k < sizeof numbers; k++) {
        printf(", %zu refused by %d", seen[numbers[k]], numbers[k]);
        met = met && seen[numbers[k]] > 0;
    }
    printf("%s\n", met ? "" : ": a number was never met");
    printf("%zu of those accepted have edition 2, which alone refuses %zu by 6 and %zu by 7\n", second, by_edition[6], by_edition[7]);
    if (second == 0 || by_edition[6] == 0 || by_edition[7] == 0) return printf("a rule of edition 2 was never met\n"), false;
    return met;
}

int main(void) {
    bench_table(entries);
    static const sample samples[] = {
        {"image", usual, 1000, 0, 300},  {"image", usual, 2000, 0, 300},  {"image", usual, 6000, 0, 200},
        {"image", usual, 12000, 0, 150}, {"image", usual, 24000, 0, 100}, {"chain", chain, 1000, 0, 300},
        {"chain", chain, 2000, 0, 300},  {"long", long_chain, 2000, 14, 300}, {"circle", circle, 2000, 14, 300},
        {"shared", shared, 500, 7, 60},  {"shared", shared, 1000, 7, 60},
    };
    return report(samples, sizeof samples / sizeof *samples) && heads() && spoil() ? 0 : 1;
}
