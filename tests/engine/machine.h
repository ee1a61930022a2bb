/* A state with buffers of its own, and the image that a program is given, for reach.c and dictionaries.c. */
#include "tests.h"
#include <string.h>

enum { OBJECTS = 50, STACK = SOFADUCK_STACK + 64 }; /* room for so many objects more than the image has */
enum { CONTENTS = 4 * (250 + OBJECTS), BODIES = 1500 + OBJECTS };

typedef struct {
    sofaduck_state s;
    uint16_t contents[CONTENTS], bodies[BODIES], stack[STACK], cache[SOFADUCK_CACHE];
} machine;

static uint8_t image[SOFADUCK_IMAGE];
static size_t length;

/* Reads the image that is named. */
static inline bool read_image(int argc, char **argv) {
    FILE *const file = argc == 2 ? fopen(argv[1], "rb") : NULL;
    if (file == NULL) return false;
    length = fread(image, 1, sizeof image, file);
    fclose(file);
    return length >= 10;
}

/* Loaded, with a stack of so many words and room for so many objects more. */
static inline void load(machine *m, size_t stack, unsigned objects) {
    const size_t n = image[2] * 256u + image[3], b = image[4] * 256u + image[5];
    memset(m->stack, 0xa5, sizeof m->stack);
    m->s.contents = m->contents, m->s.contents_length = 4 * (n + objects);
    m->s.bodies = m->bodies, m->s.bodies_length = b + objects;
    m->s.stack = m->stack, m->s.stack_length = stack;
    m->s.cache = m->cache, m->s.cache_length = SOFADUCK_CACHE;
    if (m->s.contents_length > CONTENTS || m->s.bodies_length > BODIES || sofaduck_state_load(&m->s, image, length) != 0)
        test("the image is loaded", false);
}

/* The same words and registers, in the other's buffers. */
static inline void copy(machine *to, const machine *from) {
    to->s = from->s;
    to->s.contents = to->contents, to->s.bodies = to->bodies, to->s.stack = to->stack, to->s.cache = to->cache;
    memcpy(to->contents, from->contents, sizeof to->contents);
    memcpy(to->bodies, from->bodies, sizeof to->bodies);
    memcpy(to->stack, from->stack, 2 * from->s.stack_length);
    memcpy(to->cache, from->cache, sizeof to->cache);
}

/* Whether the two agree in registers, objects, and of the stack as many words as the shorter has; and in the cache too. */
static inline bool same_but_cache(const machine *a, const machine *b) {
    const size_t stack = a->s.stack_length < b->s.stack_length ? a->s.stack_length : b->s.stack_length;
    return memcmp(a->s.registers, b->s.registers, sizeof a->s.registers) == 0
        && memcmp(a->contents, b->contents, 2 * a->s.contents_length) == 0 && memcmp(a->bodies, b->bodies, 2 * a->s.bodies_length) == 0
        && memcmp(a->stack, b->stack, 2 * stack) == 0;
}
static inline bool same(const machine *a, const machine *b) { return same_but_cache(a, b) && memcmp(a->cache, b->cache, sizeof a->cache) == 0; }

static inline bool running(const machine *m) { return m->s.registers[SOFADUCK_PHASE] == SOFADUCK_RUNNING; }
