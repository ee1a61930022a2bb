// Reading and checking an image as one writes it in C: linear passes over contents and bodies, counts by selector, the walk of walk.c.
// Superclasses are followed from each class, and a shared dictionary is checked for each class, as the library does. The latter is quadratic, so
// the ratio on `shared` compares the same steps, not the best way.
#include "image.h"
#include "objects.h"
#include "walk.h"
#include <string.h>

enum { MOST_BYTES = 2 * MOST_WORDS };

static inline bool nil_or(const objects *o, unsigned kind, unsigned w) { return w == NIL_WORD || is(o, kind, w); }
static inline bool sized_in_bytes(unsigned kind) { return kind == BYTES || kind == METHOD; }

static bool layout(const objects *o) {
    size_t from = 0;
    for (size_t k = 0; k < o->n; k++) {
        const entry *e = o->at + k;
        if (e->kind > METHOD || e->start != from || (e->kind == CLASS && e->size != 4)) return false;
        if (sized_in_bytes(e->kind)) {
            const size_t last = from + e->size / 2;
            if (e->size % 2 == 1 && last < o->b && (o->bodies[last] & 255) != 0) return false;
            from += (e->size + 1u) / 2;
        } else {
            from += e->size;
        }
    }
    return from == o->b;
}

static bool words_valid(const objects *o) {
    for (size_t k = 0; k < o->n; k++) {
        const entry *e = o->at + k;
        if (!valid(o, e->class)) return false;
        if (sized_in_bytes(e->kind)) continue;
        for (const uint16_t *w = o->bodies + e->start, *end = w + e->size; w < end; w++)
            if (!valid(o, *w)) return false;
    }
    return true;
}

static bool fits(const entry *e, unsigned form, unsigned fields) {
    switch (form) {
    case 0: return e->kind == FIELDS && e->size == fields;
    case 1: return e->kind == FIELDS && e->size >= fields;
    case 2: return e->kind == BYTES;
    default: return e->kind >= CLASS && e->kind <= METHOD;
    }
}

static bool class_fine(const objects *o, const uint16_t *c) {
    const unsigned super = c[0], dictionary = c[1], fields = c[2], form = c[3];
    if (!nil_or(o, CLASS, super) || !is(o, LIST, dictionary)) return false;
    if (fields % 2 == 0 || fields / 2 > 255 || form % 2 == 0 || form / 2 > 3 || (form / 2 >= 2 && fields / 2 != 0)) return false;
    if (super != NIL_WORD && body(o, super)[2] / 2 > fields / 2) return false;
    const size_t size = of(o, dictionary)->size;
    const uint16_t *pairs = body(o, dictionary);
    if (size % 2 != 0) return false;
    for (size_t i = 0; i < size; i += 2)
        if (!is(o, BYTES, pairs[i]) || !is(o, METHOD, pairs[i + 1]) || (i > 0 && pairs[i - 2] >= pairs[i])) return false;
    return true;
}

// Whether each class and those above it, up to the first word that names none, are at most MOST_CHAIN.
static bool chains_short(const objects *o) {
    for (size_t k = 1; k <= o->n; k++) {
        if (o->at[k - 1].kind != CLASS) continue;
        unsigned c = 2 * k, left = MOST_CHAIN;
        for (; left > 0 && is(o, CLASS, c); left--) c = body(o, c)[0];
        if (is(o, CLASS, c)) return false;
    }
    return true;
}

// A class of this form with so many fields.
static bool class_with(const objects *o, unsigned w, unsigned form, unsigned fields) {
    return is(o, CLASS, w) && body(o, w)[2] == 2 * fields + 1 && body(o, w)[3] == 2 * form + 1;
}

static bool classes(const objects *o, unsigned edition) {
    const entry *e = o->at;
    if (e[0].kind != FIELDS || e[1].kind != FIELDS || e[2].kind != FIELDS || e[3].kind != CLASS) return false;
    if (body(o, 8)[3] / 2 != 3 || e[4].kind != LIST || e[4].size != 32) return false;
    for (size_t i = 0; i < 32; i++)
        if (!nil_or(o, BYTES, body(o, 10)[i])) return false;
    if (edition >= 2 && !(is(o, BYTES, DOES_NOT_UNDERSTAND) && class_with(o, MESSAGE_CLASS, 0, 2) && class_with(o, ARRAY_CLASS, 1, 0))) return false;
    for (size_t k = 0; k < o->n; k++, e++) {
        if (!is(o, CLASS, e->class)) return false;
        const uint16_t *c = body(o, e->class);
        if (!fits(e, c[3] / 2, c[2] / 2)) return false;
        if (e->kind == CLASS && !class_fine(o, o->bodies + e->start)) return false;
    }
    return true;
}

static unsigned argument_count(const uint16_t *m) {
    const unsigned flag = m[0] >> 13, literals = m[0] >> 1 & 63;
    return flag <= 4 ? flag : flag == 7 ? m[2 + literals - 2] >> 9 & 31 : 0;
}

static bool method_fine(const objects *o, const entry *e) {
    const uint16_t *m = o->bodies + e->start;
    if (e->size < 4 || m[0] % 2 != 1) return false;
    const unsigned flag = m[0] >> 13, temporaries = m[0] >> 8 & 31, literals = m[0] >> 1 & 63;
    if (e->size < 4 + 2 * literals || !is(o, CLASS, m[1])) return false;
    for (size_t i = 0; i < literals; i++)
        if (!valid(o, m[2 + i])) return false;
    if (flag == 6 && temporaries >= body(o, m[1])[2] / 2u) return false;
    if (flag == 7) {
        if (literals < 2) return false;
        const unsigned x = m[literals];
        if (x % 2 != 1 || x >= 16384) return false;
    }
    return argument_count(m) <= temporaries;
}

// One more than the count of the methods under a selector, 0 where there are none. From edition 2 on those under object 6 take one argument.
static bool counted(const objects *o, unsigned edition, uint8_t *counts) {
    for (size_t k = 1; k <= o->n; k++) {
        if (o->at[k - 1].kind != CLASS) continue;
        const unsigned dictionary = body(o, 2 * k)[1];
        const size_t size = of(o, dictionary)->size;
        const uint16_t *pairs = body(o, dictionary);
        for (size_t i = 0; i < size; i += 2) {
            const uint16_t *m = body(o, pairs[i + 1]);
            uint8_t *count = counts + pairs[i] / 2;
            const unsigned note = argument_count(m) + 1;
            if (m[1] != 2 * k || (*count != 0 && *count != note)) return false;
            if (edition >= 2 && pairs[i] == DOES_NOT_UNDERSTAND && note != 2) return false;
            *count = note;
        }
    }
    return true;
}

static bool variable(const objects *o, unsigned w) { return is(o, FIELDS, w) && of(o, w)->size >= 2; }

static bool send(const objects *o, const uint8_t *counts, unsigned selector, unsigned arguments) {
    return nil_or(o, BYTES, selector) && (counts[selector / 2] == 0 || counts[selector / 2] == arguments + 1);
}

static bool linked(const objects *o, const uint8_t *counts, const uint16_t *literals, const uint16_t *code, size_t size,
                   const uint8_t *notes) {
    static const uint8_t special[32] = {1, 1, 1, 1, 1, 1, 1, 1, 1, 1, 1, 1, 1, 1, 1, 1, 1, 2, 0, 0, 1, 0, 1, 0, 1, 0, 1, 1, 0, 1, 0, 0};
    for (size_t p = 0; p < size; p++) {
        if (notes[p] == 0) continue;
        const unsigned b = byte_at(code, p);
        if (b < 64) continue;
        if (b < 96) {
            if (!variable(o, literals[b & 31])) return false;
        } else if (b >= 208) {
            if (!send(o, counts, literals[b & 15], (b - 208) >> 4)) return false;
        } else if (b >= 176) {
            if (b != 198 && b != 199 && !send(o, counts, body(o, 10)[b - 176], special[b - 176])) return false;
        } else if (b >= 128 && b <= 130) {
            const unsigned x = byte_at(code, p + 1);
            if (x >= 192 && !variable(o, literals[x & 63])) return false;
        } else if (b == 131 || b == 133) {
            const unsigned x = byte_at(code, p + 1);
            if (!send(o, counts, literals[x & 31], x >> 5)) return false;
        } else if (b == 132 || b == 134) {
            if (!send(o, counts, literals[byte_at(code, p + 2)], byte_at(code, p + 1))) return false;
        }
    }
    return true;
}

static bool methods(const uint16_t *entries, const objects *o, unsigned edition, uint8_t *notes) {
    uint8_t counts[2048] = {0};
    uint16_t pending[MOST_BYTES];
    for (size_t k = 0; k < o->n; k++)
        if (o->at[k].kind == METHOD && !method_fine(o, o->at + k)) return false;
    if (!counted(o, edition, counts)) return false;
    for (size_t k = 0; k < o->n; k++) {
        const entry *e = o->at + k;
        const uint16_t *m = o->bodies + e->start;
        if (e->kind != METHOD) continue;
        const unsigned literals = m[0] >> 1 & 63;
        const uint16_t *code = m + 2 + literals;
        const size_t size = e->size - 4 - 2 * literals;
        uint8_t *own = notes + 2 * (code - o->bodies);
        const unsigned flag = m[0] >> 13;
        if (c_walk(entries, code, body(o, m[1])[2] / 2, m[0] >> 8 & 31, literals, m[0] & 128 ? 32 : 12, own, size, pending)
            && linked(o, counts, m + 2, code, size, own)) continue;
        // the code of flags 5 and 6 never runs: it has notes where it is sound
        if (flag != 5 && flag != 6) return false;
        memset(own, 0, size);
    }
    return true;
}

uint32_t c_judge(const uint16_t *entries, const uint16_t *contents, const uint16_t *bodies, unsigned edition, size_t n, size_t b,
                 uint16_t receiver, uint16_t selector, uint8_t *notes) {
    const objects o = {(const entry *)contents, bodies, n, b};
    if (!layout(&o)) return 4;
    if (!words_valid(&o)) return 5;
    if (!chains_short(&o)) return 14;
    if (!classes(&o, edition)) return 6;
    if (!methods(entries, &o, edition, notes)) return 7;
    return valid(&o, receiver) && is(&o, BYTES, selector) ? 0 : 8;
}

static inline uint16_t word(const uint8_t *image, size_t i) { return (uint16_t)(image[2 * i] << 8 | image[2 * i + 1]); }

void c_place(const uint8_t *image, size_t n, size_t b, uint16_t *contents, uint16_t *bodies) {
    for (size_t i = 0; i < 4 * n; i++) contents[i] = word(image, 5 + i);
    for (size_t i = 0; i < b; i++) bodies[i] = word(image, 5 + 4 * n + i);
}

uint32_t c_read(const uint16_t *entries, const uint8_t *image, size_t length, uint16_t *contents, size_t contents_length,
                uint16_t *bodies, size_t bodies_length, size_t cache_length) {
    if (length < 10) return 1;
    const size_t edition = word(image, 0), n = word(image, 1), b = word(image, 2);
    if (length != 10 + 8 * n + 2 * b) return 1;
    if (!limits_kept(edition, n, b)) return 2;
    if (contents_length < 4 * n || bodies_length < b || cache_length != CACHE_WORDS) return 3;
    c_place(image, n, b, contents, bodies);
    uint8_t notes[MOST_BYTES];
    const uint32_t number = c_judge(entries, contents, bodies, edition, n, b, word(image, 3), word(image, 4), notes);
    if (number != 0) {
        memset(contents, 0, 8 * n);
        memset(bodies, 0, 2 * b);
    }
    return number;
}
