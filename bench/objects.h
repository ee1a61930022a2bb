// Contents and bodies as C reads them.
#ifndef OBJECTS_H
#define OBJECTS_H
#include <stdbool.h>
#include <stddef.h>
#include <stdint.h>

enum { NIL_WORD = 2, FALSE_WORD = 4, TRUE_WORD = 6, INTEGER_CLASS = 8, SPECIAL_SELECTORS = 10 };
enum { DOES_NOT_UNDERSTAND = 12, MESSAGE_CLASS = 14, ARRAY_CLASS = 16 }; // from edition 2 on
enum { FIELDS, BYTES, CLASS, LIST, METHOD };
enum { MOST_OBJECTS = 2047, MOST_WORDS = 24000, MOST_CHAIN = 24, CACHE_WORDS = 256 };

typedef struct {
    uint16_t class, kind, start, size;
} entry;

typedef struct {
    const entry *at; // from object 1 on
    const uint16_t *bodies;
    size_t n, b;
} objects;

static inline const entry *of(const objects *o, unsigned w) { return o->at + (w >> 1) - 1; }
static inline const uint16_t *body(const objects *o, unsigned w) { return o->bodies + of(o, w)->start; }
static inline bool names(const objects *o, unsigned w) { return (w & 1) == 0 && w != 0 && w >> 1 <= o->n; }
static inline bool valid(const objects *o, unsigned w) { return (w & 1) != 0 || names(o, w); }
static inline bool is(const objects *o, unsigned kind, unsigned w) { return names(o, w) && of(o, w)->kind == kind; }
static inline unsigned class_of(const objects *o, unsigned w) { return w & 1 ? INTEGER_CLASS : of(o, w)->class; }
static inline unsigned byte_at(const uint16_t *words, size_t i) { return (uint8_t)(words[i >> 1] >> (i & 1 ? 0 : 8)); }

static inline unsigned flag_of(unsigned header) { return header >> 13; }
static inline unsigned temporaries_of(unsigned header) { return header >> 8 & 31; }
static inline unsigned literals_of(unsigned header) { return header >> 1 & 63; }
// The words of a frame, its first six included.
static inline unsigned frame_of(unsigned header) { return header & 128 ? 38 : 18; }

// Whether there is such an edition, and N and B are in its limits.
static inline bool limits_kept(size_t edition, size_t n, size_t b) {
    return (edition == 1 || edition == 2) && n >= (edition >= 2 ? 8 : 5) && n <= MOST_OBJECTS && b <= MOST_WORDS;
}

// The method under a selector in a class or above it, 0 if there is none, and how many dictionaries were read. Of objects that were judged: no walk up
// is longer than MOST_CHAIN, and selectors rise.
typedef struct {
    unsigned method, dictionaries;
} found;
static inline found lookup(const objects *o, unsigned selector, unsigned class) {
    unsigned read = 1;
    for (; class != NIL_WORD; class = body(o, class)[0], read++) {
        const unsigned dictionary = body(o, class)[1];
        const uint16_t *pair = body(o, dictionary), *end = pair + of(o, dictionary)->size;
        while (pair < end && *pair < selector) pair += 2;
        if (pair < end && *pair == selector) return (found){pair[1], read};
    }
    return (found){0, read - 1};
}

static inline bool in_chain(const objects *o, unsigned home, unsigned class) {
    for (; class != NIL_WORD; class = body(o, class)[0])
        if (class == home) return true;
    return false;
}
#endif
