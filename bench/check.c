// Times check, ours and C's by turns, as a run of 0 bytecodes, on states of handlers that were begun; the least of all runs counts. What a
// call's check costs an engine is the median of our runs. Then runs handlers of random images of both editions in both machines, spoils single words
// of the states that they leave, and checks and runs these; runs at:, at:put: and size at the ends of objects; and sends that fail where there is just
// room for their messages, and just not. Answers, registers and every word have to agree. Argument: a file to which the goals are added.
#include "image.h"
#include "images.h"
#include "machine.h"
#include "measure.h"
#include <stdio.h>
#include <stdlib.h>
#include <string.h>

// contents and bodies longer than an image can use, so that its limits and not theirs are met
enum { CONTENTS = 4 * (MOST_OBJECTS + 3), BODIES = MOST_WORDS + 100, STACK = 65536, CACHE = CACHE_WORDS, SIZE = CONTENTS + BODIES + STACK + CACHE };
enum { RUNS = 400, IMAGES = 1200, HANDLERS = 8, SPOILED = 4 };

void bench_table(uint16_t *table);

static uint16_t entries[256];
static uint8_t image[MOST_IMAGE];
static uint16_t words[4][SIZE];
static uint64_t seed = 11, dictionaries; // those of all runs in both

static unsigned below(unsigned n) { return random_below(&seed, n); }

static double now(void) { return nanoseconds(CLOCK_MONOTONIC); }

// A machine whose buffers have these lengths.
static machine on(uint16_t *at, size_t contents, size_t bodies, size_t stack) {
    uint16_t *const b = at + CONTENTS, *const s = b + BODIES, *const c = s + STACK;
    return (machine){at, contents, b, bodies, s, stack, c, CACHE, {0}};
}

// A buffer, and those of a state.
typedef struct {
    uint16_t *at;
    size_t length;
} buffer;

enum { BUFFERS = 4 };

static void buffers(const machine *m, buffer to[BUFFERS]) {
    to[0] = (buffer){m->contents, m->contents_length};
    to[1] = (buffer){m->bodies, m->bodies_length};
    to[2] = (buffer){m->stack, m->stack_length};
    to[3] = (buffer){m->cache, m->cache_length};
}

// The words of a state that matter here, copied.
static machine copy(uint16_t *at, const machine *from) {
    machine to = on(at, from->contents_length, from->bodies_length, from->stack_length);
    buffer a[BUFFERS], b[BUFFERS];
    buffers(&to, a), buffers(from, b);
    for (int i = 0; i < BUFFERS; i++) memcpy(a[i].at, b[i].at, 2 * b[i].length);
    memcpy(to.registers, from->registers, sizeof to.registers);
    return to;
}

static bool same(const machine *m, const machine *n) {
    buffer a[BUFFERS], b[BUFFERS];
    buffers(m, a), buffers(n, b);
    bool alike = memcmp(m->registers, n->registers, sizeof m->registers) == 0;
    for (int i = 0; i < BUFFERS; i++) alike = alike && memcmp(a[i].at, b[i].at, 2 * a[i].length) == 0;
    return alike;
}

// A run in both: answers, count, reach, dictionaries and states have to agree. The answer, or 99.
static uint32_t both(machine *ours, machine *theirs, uint32_t n, uint32_t *made) {
    uint32_t count[2] = {7, 7}, reach[2] = {7, 7};
    uint64_t through[2] = {7, 7};
    const uint32_t r = sofaduck_state_run(ours, n, count, reach, through), s = c_run(entries, theirs, n, count + 1, reach + 1, through + 1);
    if (r == s && count[0] == count[1] && reach[0] == reach[1] && through[0] == through[1] && same(ours, theirs)) {
        *made = count[0];
        dictionaries += r == 0 ? through[0] : 0;
        return r;
    }
    printf("the runs differ: answers %u and %u, phases %u and %u, counts %u and %u, reach %u and %u, dictionaries %ju and %ju%s\n", r, s,
           ours->registers[PHASE], theirs->registers[PHASE], count[0], count[1], reach[0], reach[1], (uintmax_t)through[0], (uintmax_t)through[1],
           same(ours, theirs) ? "" : ", and so do the words");
    return 99;
}

// A handler begun on a random receiver, with random arguments, its method having so many bytes. Whether one was found that has a frame.
static bool begin_any(machine *m, unsigned least) {
    const objects o = objects_of(m);
    for (int i = 0; i < 20000; i++) {
        const unsigned selector = 2 * (1 + below(o.n)), receiver = below(8) == 0 ? 2 * below(32768) + 1 : 2 * (1 + below(o.n));
        const unsigned method = is(&o, BYTES, selector) ? lookup(&o, selector, class_of(&o, receiver)).method : 0;
        if (method == 0 || of(&o, method)->size < least) continue;
        uint16_t arguments[3];
        for (int k = 0; k < 3; k++) arguments[k] = below(2) == 0 ? 2 * (1 + below(o.n)) : 2 * below(20) + 1;
        for (size_t count = 0; count < 4; count++)
            if (sofaduck_state_begin(m, receiver, selector, arguments, count) == 0 && m->registers[PHASE] == 1) return true;
    }
    return false;
}

// The lookup of a selector from a class, in its place of the cache; none where it finds nothing.
static void keep(machine *m, const objects *o, unsigned selector, unsigned class) {
    uint16_t *const at = m->cache + 4 * ((selector & class) / 2 % 64);
    const found f = lookup(o, selector, class);
    if (f.method != 0) at[0] = selector, at[1] = class, at[2] = f.method, at[3] = f.dictionaries;
}

// Lookups of one selector from all classes.
static void fill_cache_by(machine *m, unsigned selector) {
    const objects o = objects_of(m);
    for (unsigned class = 2; class <= 2 * o.n; class += 2)
        if (is(&o, CLASS, class)) keep(m, &o, selector, class);
}

// Lookups of all classes and selectors.
static void fill_cache(machine *m) {
    const objects o = objects_of(m);
    for (unsigned class = 2; class <= 2 * o.n; class += 2) {
        if (!is(&o, CLASS, class)) continue;
        for (unsigned above = class; above != NIL_WORD; above = body(&o, above)[0]) {
            const unsigned dictionary = body(&o, above)[1];
            const uint16_t *pair = body(&o, dictionary), *const end = pair + of(&o, dictionary)->size;
            for (; pair < end; pair += 2) keep(m, &o, pair[0], class);
        }
    }
}

static int rising(const void *a, const void *b) { return *(const double *)a < *(const double *)b ? -1 : *(const double *)a > *(const double *)b; }

// The median of our times, or a negative number where the runs go wrong.
static double measure(const char *name, machine *m, int runs, double goal, FILE *goals) {
    static double times[RUNS];
    double a = 1e18, b = 1e18;
    unsigned filled = 0;
    size_t frames = 1;
    for (size_t i = 0; i < CACHE; i += 4) filled += m->cache[i] != 0;
    for (size_t base = m->registers[TOP]; base != 0; base = m->stack[base]) frames++;
    for (int run = 0; run < runs; run++) {
        uint32_t count[2] = {7, 7}, reach[2] = {0, 0};
        uint64_t through[2] = {7, 7};
        const double t0 = now();
        const uint32_t r = sofaduck_state_run(m, 0, count, reach, through);
        const double t1 = now();
        const uint32_t s = c_run(entries, m, 0, count + 1, reach + 1, through + 1);
        const double t2 = now();
        times[run] = t1 - t0;
        if (t1 - t0 < a) a = t1 - t0;
        if (t2 - t1 < b) b = t2 - t1;
        if (r != 0 || s != 0 || count[0] != 0 || count[1] != 0 || reach[0] != reach[1] || through[0] != 0 || through[1] != 0)
            return printf("%s: the runs of 0 bytecodes answer %u and %u, reach %u and %u\n", name, r, s, reach[0], reach[1]), -1;
    }
    printf("check %-8s %5u words, %4zu frames, %2u lookups   ours %9.2f us   C %9.2f us   speed relative to C: %.2f\n", name, m->registers[B],
           frames, filled, a / 1e3, b / 1e3, b / a);
    if (goals != NULL)
        fprintf(goals, "goal: check %s at %.2f of C's speed: %.2f, %s\n", name, goal, b / a, verdict(b >= goal * a));
    qsort(times, runs, sizeof *times, rising);
    return times[runs / 2];
}

// An ordinary image of so many body words, a handler begun, the cache full.
static double measure_ordinary(const char *name, size_t size, int runs, double goal, FILE *goals) {
    memset(words[0], 0, sizeof words[0]);
    machine m = on(words[0], CONTENTS, BODIES, 4096);
    if (sofaduck_state_load(&m, image, ordinary(image, 1, size, size)) != 0 || !begin_any(&m, 4)) return printf("%s: no handler\n", name), -1;
    fill_cache(&m);
    return measure(name, &m, runs, goal, goals);
}

// Chains of 24 classes, as many frames as fit, a cache full of lookups that read every pair.
static bool measure_deep(FILE *goals) {
    memset(words[0], 0, sizeof words[0]);
    machine m = on(words[0], CONTENTS, BODIES, STACK);
    const size_t length = deep(image);
    uint32_t count = 0, reach = 0;
    uint64_t through = 0;
    bool fine = sofaduck_state_load(&m, image, length) == 0;
    fine = fine && sofaduck_state_begin(&m, m.registers[START_RECEIVER], m.registers[START_SELECTOR], NULL, 0) == 0;
    // to the end of the stack; and once more, stopping one bytecode earlier
    fine = fine && sofaduck_state_run(&m, 1000000, &count, &reach, &through) == 0 && m.registers[PHASE] == 5;
    fine = fine && sofaduck_state_begin(&m, m.registers[START_RECEIVER], m.registers[START_SELECTOR], NULL, 0) == 0;
    fine = fine && sofaduck_state_run(&m, count, &count, &reach, &through) == 0 && m.registers[PHASE] == 1;
    if (!fine) return printf("the deep image is refused, or does not fill the stack\n"), false;
    fill_cache_by(&m, m.registers[START_SELECTOR]);
    return measure("hostile", &m, 100, 0.66, goals) >= 0;
}

// A class of a state that check accepts.
static unsigned any_class(const objects *o) {
    for (;;) {
        const unsigned class = 2 * (1 + below(o->n));
        if (is(o, CLASS, class)) return class;
    }
}

// One word of a state changed: the register, or the word of a buffer.
static void spoil(machine *m) {
    static const uint16_t edges[] = {0, 1, 2, 3, 4, 5, 6, 8, 12, 18, 36, 65535};
    const unsigned n = m->registers[N], where = below(14);
    // a superclass
    if (where == 12) {
        const objects o = objects_of(m);
        const unsigned class = any_class(&o);
        m->bodies[of(&o, class)->start] = any_class(&o);
        return;
    }
    // the dictionaries of a lookup that the cache holds, in its place or in another, or of none
    if (where == 13) {
        uint16_t *const at = m->cache + 4 * below(CACHE / 4);
        if (below(2) == 0) memcpy(at, m->cache + 4 * below(CACHE / 4), 3 * sizeof *at);
        at[3] = below(MOST_CHAIN + 2);
        return;
    }
    const buffer used[BUFFERS] = {
        {m->contents, 4 * n}, {m->bodies, m->registers[B]}, {m->stack, m->registers[TOP] + 18u}, {m->cache, m->cache_length}};
    const buffer from = where < 2 ? (buffer){m->registers, REGISTERS} : used[where < 4 ? 0 : where < 6 ? 1 : where < 10 ? 2 : 3];
    uint16_t *w = from.at + below(from.length);
    uint16_t *const top = m->stack + m->registers[TOP];
    // a frame's own six words; or the sender's sender for the sender
    if (where == 9) w = top + below(6);
    if (where == 9 && w == top && below(2) == 0) {
        *w = m->stack[*w];
        return;
    }
    switch (below(8)) {
    case 0: *w ^= 1u << below(16); break;
    case 1: *w = from.at[below(from.length)]; break;
    case 2: *w += 2; break;
    case 3: *w -= 2; break;
    case 4: *w += 1 - 2 * below(2); break;
    case 5: *w = 2 * (1 + below(n)); break;
    case 6: *w = edges[below(12)]; break;
    default: *w = below(65536);
    }
}

// Whether a state that check refuses has a chain that is too long, or a circle, in objects as many as they were.
static bool chain_spoiled(const machine *m, const machine *before) {
    static uint8_t notes[2 * MOST_WORDS];
    const uint16_t *const r = m->registers;
    return r[N] == before->registers[N] && r[B] == before->registers[B]
        && c_judge(entries, m->contents, m->bodies, r[EDITION], r[N], r[B], r[START_RECEIVER], r[START_SELECTOR], notes) == 14;
}

// Whether one of these states has another number of dictionaries in an entry of the cache than the other, and the other words of it alike; the entry is
// empty but for it, or has a lookup.
static bool number_spoiled(const machine *m, const machine *before, bool empty) {
    for (size_t i = 0; i < CACHE; i += 4)
        if (m->cache[i + 3] != before->cache[i + 3] && memcmp(m->cache + i, before->cache + i, 6) == 0) return (m->cache[i] == 0) == empty;
    return false;
}

// What at:, at:put: and size may meet in an object with elements behind named fields, the first two also by their index.
enum { ANY, NO_ELEMENTS, INDEX_0, FIRST_ELEMENT, LAST_ELEMENT, PAST, FIELDS_COUNTED, CASES };

// Adds what the next bytecode meets, if it sends one of the three to such an object.
static void note(const machine *m, size_t met_by[CASES][3]) {
    const objects o = objects_of(m);
    sofaduck_frame at;
    uint16_t selector;
    unsigned count;
    if (!sofaduck_top_frame(m, &at) || !sofaduck_send(m, &at, &selector, &count)) return;
    const int code = sofaduck_code(m, at.method, at.position);
    const uint16_t receiver = sofaduck_operand(m, &at, count), x = count > 0 ? sofaduck_operand(m, &at, count - 1) : 0;
    if (!is(&o, FIELDS, receiver)) return;
    const unsigned above = body(&o, body(&o, at.method)[1])[0];
    const unsigned method = lookup(&o, selector, code == 133 || code == 134 ? above : class_of(&o, receiver)).method;
    if (method == 0 || flag_of(body(&o, method)[0]) != 7) return;
    const unsigned extension = body(&o, method)[literals_of(body(&o, method)[0])], which = (extension >> 1 & 255) - 60;
    const uint16_t *const class = body(&o, class_of(&o, receiver));
    const unsigned named = class[2] / 2, whole = of(&o, receiver)->size, size = whole - named, i = x / 2u;
    if (which > 2 || count != (which + 1) % 3 || class[3] / 2 != 1 || named == 0) return;
    met_by[ANY][which]++;
    met_by[NO_ELEMENTS][which] += size == 0;
    if ((x & 1) == 0) return;
    met_by[INDEX_0][which] += i == 0;
    met_by[FIRST_ELEMENT][which] += i == 1 && size > 0;
    met_by[LAST_ELEMENT][which] += i == size && size > 0;
    met_by[PAST][which] += i == size + 1;
    met_by[FIELDS_COUNTED][which] += i > size && i <= whole;
}

// How a send may fail, and what comes of it.
enum { BY_LITERAL, BY_EXTENDED, BY_THREE_BYTES, BY_SUPER, BY_ARITHMETIC, BY_SPECIAL, OF_NIL, WITH_NONE, WITH_ONE, WITH_MORE, CANNOT_RUN, WAYS };
enum {
    EDITION_1, NOT_FOUND, OBJECT_6, NO_CONTENTS, NO_BODIES, NO_OBJECT, NO_WORD, UNFIT, NO_FRAME, IN_SMALL, IN_LARGE, FROM_CACHE, BY_PRIMITIVE,
    OUTCOMES
};

static const char *const ways[WAYS] = {
    "208 to 255", "131", "132", "super", "arithmetic", "other special", "nil", "no argument", "one", "more", "a method that cannot run"};
static const char *const outcomes[OUTCOMES] = {
    "in edition 1", "no method under object 6", "object 6 itself", "no contents", "no bodies", "N too large", "B too large",
    "unfit", "no stack room", "a small frame", "a large frame", "from the cache", "a primitive"};

// Sends that failed, by both; the ways are those of messages that were made.
static size_t failed_by[WAYS], failed_with[OUTCOMES];

// The send that a state stands before.
typedef struct {
    int code;
    unsigned count, start;
    uint16_t selector, n;
    bool found, kept;
} sending;

static sending next_send(const machine *m) {
    const objects o = objects_of(m);
    sending s = {0};
    sofaduck_frame at;
    if (!sofaduck_top_frame(m, &at) || !sofaduck_send(m, &at, &s.selector, &s.count)) return s;
    s.code = sofaduck_code(m, at.method, at.position);
    s.start = s.code == 133 || s.code == 134 ? body(&o, body(&o, at.method)[1])[0] : class_of(&o, sofaduck_operand(m, &at, s.count));
    s.n = o.n;
    s.found = lookup(&o, s.selector, s.start).method != 0;
    const uint16_t *const c = m->cache + 4 * ((DOES_NOT_UNDERSTAND & s.start) / 2 % 64);
    s.kept = c[0] == DOES_NOT_UNDERSTAND && c[1] == s.start;
    return s;
}

// Adds what came of a send that failed, in the state behind it.
static void note_failure(const sending *s, const machine *m) {
    const objects o = objects_of(m);
    const unsigned phase = m->registers[PHASE], n = m->registers[N], b = m->registers[B], words = b + s->count + 2;
    if (s->code == 0) return;
    if (n == s->n + 2u) {
        const uint8_t of[WAYS] = {s->code >= 208, s->code == 131, s->code == 132, s->code == 133 || s->code == 134, s->code >= 176 && s->code < 192,
                                  s->code >= 192 && s->code < 208, s->selector == NIL_WORD, s->count == 0, s->count == 1,
                                  s->count > 1, s->found};
        for (int w = 0; w < WAYS; w++) failed_by[w] += of[w];
        const uint16_t *const top = m->stack + m->registers[TOP];
        // the message is in a new frame, or a primitive has answered
        const bool framed = phase == 1 && top[1] == 0 && top[6] == 2 * n;
        failed_with[!framed ? BY_PRIMITIVE : frame_of(body(&o, top[3])[0]) == 18 ? IN_SMALL : IN_LARGE]++;
        failed_with[FROM_CACHE] += s->kept;
    } else if (phase == 3) {
        failed_with[m->registers[EDITION] == 1                              ? EDITION_1
                    : s->selector == DOES_NOT_UNDERSTAND                    ? OBJECT_6
                    : lookup(&o, DOES_NOT_UNDERSTAND, s->start).method == 0 ? NOT_FOUND
                    : n + 2 > MOST_OBJECTS                                  ? NO_OBJECT
                    : words > MOST_WORDS                                    ? NO_WORD
                    : m->contents_length < 4 * (n + 2)                      ? NO_CONTENTS
                    : m->bodies_length < words                              ? NO_BODIES
                                                                            : UNFIT]++;
    } else if (phase == 5 && !s->found) {
        failed_with[NO_FRAME]++;
    }
}

// Whether all that is named was met; and how often each was.
static bool all_met(const char *what, const char *const *names, const size_t *met, size_t count) {
    bool all = true;
    printf("%s:", what);
    for (size_t i = 0; i < count; i++) printf(" %s %zu%s", names[i], met[i], i + 1 < count ? "," : "\n"), all = all && met[i] > 0;
    if (!all) printf("one of these was never met\n");
    return all;
}

static bool differential(void) {
    size_t phases[6] = {0}, answers[14] = {0}, met_by[CASES][3] = {{0}}, numbers[2] = {0}, chains = 0, editions = 0;
    size_t handlers = 0, spoiled = 0, bytecodes = 0;
    for (int i = 0; i < IMAGES; i++) {
        const unsigned edition = 1 + i / 2 % 2;
        const size_t length = i % 2 == 0 ? ordinary(image, edition, 400 + below(1000), 1000 + i) : lively(image, edition, 900 + below(1000), 1000 + i);
        const size_t n = image[2] << 8 | image[3], b = image[4] << 8 | image[5];
        memset(words[0], 0, sizeof words[0]);
        // little room, so that frames and new objects do not always fit
        const size_t whole = 18 * below(6) + 38 * (1 + below(3)), room = below(3) == 0 ? whole : 38 + below(below(2) == 0 ? 400 : 4000);
        machine loaded = on(words[0], 4 * n + below(50), b + below(60), room);
        if (sofaduck_state_load(&loaded, image, length) != 0) return printf("an image is refused\n"), false;
        for (int h = 0; h < HANDLERS; h++) {
            machine ours = copy(words[1], &loaded);
            if (!begin_any(&ours, 40 + below(40))) continue;
            machine theirs = copy(words[2], &ours);
            // some bytecodes singly, then more at a time
            const int singly = i % 2 == 1 || edition > 1 ? 40 : 0;
            for (int k = singly + below(10); k > 0 && ours.registers[PHASE] == 1; k--) {
                uint32_t count = 0;
                const sending next = next_send(&ours);
                note(&ours, met_by);
                if (both(&ours, &theirs, k > 10 ? 1 : below(4) == 0 ? below(2000) : below(8), &count) != 0) return false;
                if (k > 10) note_failure(&next, &ours);
                bytecodes += count;
            }
            handlers++;
            phases[ours.registers[PHASE]]++;
            if (below(3) == 0) fill_cache(&ours);
            for (int k = 0; k < SPOILED; k++) {
                theirs = copy(words[2], &ours);
                spoil(&theirs);
                machine other = copy(words[3], &theirs);
                const uint32_t r = sofaduck_state_check(&other), s = c_check(entries, &theirs);
                if (r != s) return printf("the checks answer %u and %u\n", r, s), false;
                chains += r == 11 && chain_spoiled(&theirs, &ours);
                for (int empty = 0; empty < 2; empty++) numbers[empty] += r == 11 && number_spoiled(&theirs, &ours, empty);
                editions += r == 0 && theirs.registers[EDITION] != edition;
                uint32_t count;
                const uint32_t ran = both(&other, &theirs, below(2) == 0 ? 0 : below(30), &count);
                if (ran == 99 || (r != 0 && ran != r)) return false;
                answers[r != 0 ? r : ran]++;
                spoiled++;
            }
        }
    }
    printf("%zu handlers of random images ran alike, %zu bytecodes, %ju dictionaries; phases", handlers, bytecodes, (uintmax_t)dictionaries);
    for (int p = 1; p < 6; p++) printf(" %d: %zu%s", p, phases[p], p < 5 ? "," : "\n");
    printf("%zu states with a changed word checked and ran alike: %zu accepted, %zu of them with the other edition, %zu refused by 3, %zu by 11, "
           "%zu of them for a chain, %zu for the dictionaries of a cached lookup, %zu for those of none, %zu by 12\n",
           spoiled, answers[0], editions, answers[3], answers[11], chains, numbers[0], numbers[1], answers[12]);
    bool met = answers[0] > 0 && answers[3] > 0 && answers[11] > 0 && chains > 0 && numbers[0] > 0 && numbers[1] > 0 && editions > 0 && answers[12] > 0;
    for (int p = 1; p < 6; p++) met = met && phases[p] > 0;
    if (!met) printf("a phase, an answer, a spoiled chain, spoiled dictionaries or another edition were never met\n");
    printf("elements behind named fields were met by at: %zu times, by at:put: %zu, by size %zu\n", met_by[ANY][0], met_by[ANY][1], met_by[ANY][2]);
    bool ends = true;
    for (int f = 0; f < CASES; f++)
        for (int which = 0; which < (f < INDEX_0 ? 3 : 2); which++) ends = ends && met_by[f][which] > 0;
    if (!ends) printf("elements behind named fields were not met at all their ends\n");
    return met && ends;
}

// at:, at:put: and size on objects with none to 255 named fields and up to one element more than these three take, with indices at the ends.
static bool ends_alike(void) {
    static const unsigned named[] = {0, 1, 2, 100, 255}, counts[] = {0, 1, 2, 16382, 16383, 16384};
    size_t runs = 0, answered = 0;
    for (size_t n = 0; n < sizeof named / sizeof *named; n++)
        for (size_t c = 0; c < sizeof counts / sizeof *counts; c++) {
            const unsigned last = counts[c], indices[] = {0, 1, 2, named[n], last - 1, last, last + 1, named[n] + last, named[n] + last + 1, 32767};
            memset(words[0], 0, sizeof words[0]);
            machine loaded = on(words[0], CONTENTS, BODIES, 64);
            const size_t length = elements(image, named[n], last);
            if (sofaduck_state_load(&loaded, image, length) != 0) return printf("an object with elements is refused\n"), false;
            for (size_t k = 0; k < 3 * sizeof indices / sizeof *indices; k++) {
                const uint16_t arguments[] = {2 * indices[k / 3] + 1, 2 * 7777 + 1}, selector = 2 * (FIRST + 3 + k % 3);
                machine ours = copy(words[1], &loaded);
                const uint32_t begun = sofaduck_state_begin(&ours, loaded.registers[START_RECEIVER], selector, arguments, (k + 1) % 3);
                if (begun != 0) return printf("a handler for elements is refused\n"), false;
                machine theirs = copy(words[2], &ours);
                uint32_t count = 0;
                if (both(&ours, &theirs, 20, &count) != 0) return false;
                runs++, answered += ours.registers[VALUE] != NIL_WORD;
            }
        }
    printf("%zu runs of at:, at:put: and size at the ends of objects ran alike, %zu with an answer\n", runs, answered);
    return true;
}

// A send that fails where there is room for its message and for the frame, or lacks some in one place.
static bool room_alike(void) {
    static const unsigned counts[] = {0, 1, 2, 11, 12, 31};
    enum { PLACES = 15 };
    size_t runs = 0;
    for (unsigned i = 0; i < 2 * 2 * UNDER_6 * 6 * PLACES; i++) {
        const unsigned edition = 1 + i % 2, above = i / 2 % 2, under_6 = i / 4 % UNDER_6, arguments = counts[i / 4 / UNDER_6 % 6];
        const unsigned place = i / 24 / UNDER_6, sender = arguments > 11 ? 38 : 18, taken = under_6 == LARGE_FRAME ? 38 : 18, need = arguments + 2;
        const size_t n = place < 4 ? 2044 + place : 100, b = place < 4 ? 1000 : place < 7 ? MOST_WORDS - need - 1 + (place - 4) : 500;
        const size_t contents = place == 7 ? 4 * n + 8 : place == 8 ? 4 * n + 7 : place == 9 ? 4 * n : CONTENTS;
        const size_t bodies = place == 10 ? b + need : place == 11 ? b + need - 1 : place == 12 ? b : BODIES;
        const size_t stack = place == 13 ? sender + taken : place == 14 ? sender + taken - 1 : 100;
        memset(words[0], 0, sizeof words[0]);
        machine loaded = on(words[0], contents, bodies, stack);
        if (sofaduck_state_load(&loaded, image, unknown(image, edition, above, arguments, under_6, n, b)) != 0)
            return printf("an image with a send that fails is refused\n"), false;
        machine ours = copy(words[1], &loaded);
        if (sofaduck_state_begin(&ours, ours.registers[START_RECEIVER], ours.registers[START_SELECTOR], NULL, 0) != 0)
            return printf("a send that fails is not begun\n"), false;
        machine theirs = copy(words[2], &ours);
        uint32_t count = 0;
        if (both(&ours, &theirs, 1 + arguments, &count) != 0) return false;
        const sending next = next_send(&ours);
        if (both(&ours, &theirs, 1, &count) != 0) return false;
        note_failure(&next, &ours);
        if (ours.registers[PHASE] == 1 && both(&ours, &theirs, 5, &count) != 0) return false;
        runs++;
    }
    printf("%zu sends that fail ran alike at the limits of room\n", runs);
    return true;
}

int main(int count, char **arguments) {
    FILE *goals = count > 1 ? fopen(arguments[1], "a") : NULL;
    bench_table(entries);
    const double small = measure_ordinary("1000", 1000, RUNS, 1, goals), middle = measure_ordinary("6000", 6000, 300, 1.3, goals);
    const double large = measure_ordinary("24000", 24000, 200, 1.3, goals);
    const bool fine = small >= 0 && middle >= 0 && large >= 0 && measure_deep(goals) && differential() && ends_alike() && room_alike()
        && all_met("sends that failed and made a message", ways, failed_by, WAYS)
        && all_met("what came of sends that failed", outcomes, failed_with, OUTCOMES);
    if (fine && goals != NULL)
        fprintf(goals, "a call's check takes %.0f us for 1,000 words of bodies, %.0f us for 6,000, %.0f us for 24,000\n", small / 1e3, middle / 1e3,
                large / 1e3);
    if (goals != NULL) fclose(goals);
    return fine ? 0 : 1;
}
