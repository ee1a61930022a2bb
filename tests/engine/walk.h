/* A lookup as one reads it off the objects: the plain walk, by the header's readers. */
#include "sofaduck.h"

/* How many dictionaries are read from a class on, up to the one that has the selector, and the method there. 0 where none has, and no method. */
static inline unsigned walked(const sofaduck_state *s, uint16_t selector, uint16_t start, uint16_t *method) {
    unsigned count = 0;
    size_t size = 0;
    for (const uint16_t *of_class; (of_class = sofaduck_body(s, start, SOFADUCK_CLASS, &size)) != NULL; start = of_class[0]) {
        const uint16_t *const pairs = sofaduck_body(s, of_class[1], SOFADUCK_LIST, &size);
        count++;
        for (size_t i = 0; pairs != NULL && i + 1 < size; i += 2) {
            if (pairs[i] != selector) continue;
            *method = pairs[i + 1];
            return count;
        }
    }
    return 0;
}

/* The lookup in its place of the cache, where it finds. */
static inline void keep(sofaduck_state *s, uint16_t selector, uint16_t start) {
    uint16_t *const entry = s->cache + 4 * ((selector & start) / 2 % 64), method = 0;
    const unsigned count = walked(s, selector, start, &method);
    if (count == 0) return;
    entry[0] = selector, entry[1] = start, entry[2] = method, entry[3] = (uint16_t)count;
}
