// Check as one writes it in C: the image check of image.c, then registers, frames and cache.
#include "image.h"
#include "machine.h"

// The frames from the top one down to the one at 0, each by the notes of its method's code.
static bool frames_fine(const objects *o, const uint16_t *stack, size_t length, const uint8_t *notes, size_t top) {
    if (length > 65536) length = 65536;
    for (size_t base = top, above = 0;;) {
        const uint16_t *f = stack + base;
        if (length < base + 6 || !is(o, METHOD, f[3])) return false;
        const entry *e = of(o, f[3]);
        const uint16_t *m = o->bodies + e->start;
        const size_t end = base + frame_of(m[0]), literals = literals_of(m[0]);
        if (length < end || (base < top && end != above)) return false;
        if (f[4] != 0 || !valid(o, f[5]) || !in_chain(o, m[1], class_of(o, f[5]))) return false;
        if (f[1] >= e->size - 4 - 2 * literals) return false;
        if (notes[2 * (e->start + 2 + literals) + f[1]] != f[2] + (base == top ? 1 : 2)) return false;
        for (const uint16_t *w = f + 6, *over = w + temporaries_of(m[0]) + f[2]; w < over; w++)
            if (!valid(o, *w)) return false;
        if (base == 0) return f[0] == 0;
        above = base;
        base = f[0];
        if (base >= above) return false;
    }
}

static bool cache_fine(const objects *o, const uint16_t *cache) {
    for (const uint16_t *c = cache; c < cache + CACHE_WORDS; c += 4) {
        if (c[0] == 0 && c[1] == 0 && c[2] == 0 && c[3] == 0) continue;
        if (!is(o, CLASS, c[1]) || c[2] == 0) return false;
        const found f = lookup(o, c[0], c[1]);
        if (f.method != c[2] || f.dictionaries != c[3]) return false;
    }
    return true;
}

static bool fine(const uint16_t *entries, const machine *m) {
    const uint16_t *const r = m->registers;
    const objects o = objects_of(m);
    uint8_t notes[2 * MOST_WORDS];
    if (!limits_kept(r[EDITION], r[N], r[B]) || r[PHASE] > 5) return false;
    if (r[PHASE] == 2 ? !valid(&o, r[VALUE]) : r[VALUE] != 0) return false;
    if (c_judge(entries, m->contents, m->bodies, r[EDITION], r[N], r[B], r[START_RECEIVER], r[START_SELECTOR], notes) != 0) return false;
    if (r[PHASE] == 0 || r[PHASE] == 2 ? r[TOP] != 0 : !frames_fine(&o, m->stack, m->stack_length, notes, r[TOP])) return false;
    return cache_fine(&o, m->cache);
}

uint32_t c_check(const uint16_t *entries, const machine *m) {
    if (m->contents_length < 4u * m->registers[N] || m->bodies_length < m->registers[B] || m->cache_length != CACHE_WORDS) return 3;
    return fine(entries, m) ? 0 : 11;
}
