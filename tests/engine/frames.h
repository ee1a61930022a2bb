/* Reach as the frames in the stack tell it and dictionaries as the plain walk does, for reach.c, dictionaries.c and guard.c. */
#include "walk.h"
#include <string.h>

/* The largest end of the frames that stand; 0 where none does. */
static inline uint32_t frames_end(const sofaduck_state *s) {
    uint32_t end = 0;
    sofaduck_frame f;
    for (int more = sofaduck_top_frame(s, &f); more; more = sofaduck_next_frame(s, &f)) {
        size_t size = 0;
        const uint16_t *const method = sofaduck_body(s, f.method, SOFADUCK_METHOD, &size);
        const int large = method != NULL && (method[0] >> 7 & 1) != 0;
        const uint32_t behind = f.base + (uint32_t)(large ? SOFADUCK_LARGE_FRAME : SOFADUCK_FRAME);
        if (end < behind) end = behind;
    }
    return end;
}

/* One bytecode on an empty cache. What it then holds is the lookup that counts, if there is one: gives the walk of it, and what the run told. The entry
 * goes into the state's own cache, where the run would have put it. Returns whether the call was made, with at most one entry. */
static inline int one_step(sofaduck_state *s, uint32_t *made, uint32_t *reach, uint64_t *told, uint64_t *walk) {
    uint16_t empty[SOFADUCK_CACHE] = {0}, *const cache = s->cache, method = 0;
    unsigned entries = 0;
    s->cache = empty;
    const uint32_t number = sofaduck_state_run(s, 1, made, reach, told);
    s->cache = cache;
    *walk = 0;
    for (size_t i = 0; i < SOFADUCK_CACHE; i += 4) {
        if (empty[i] == 0) continue;
        memcpy(cache + i, empty + i, 4 * sizeof *cache);
        *walk = walked(s, empty[i], empty[i + 1], &method);
        entries++;
    }
    return number == 0 && entries <= 1;
}

/* A run made bytecode by bytecode, each on an empty cache, and the frames looked at after each: gives its count, reach and dictionaries. Returns whether
 * every call was made, and each of them told the larger of the ends before and after it, and the dictionaries of its own walk. */
static inline int stepped(sofaduck_state *s, uint32_t grant, uint32_t *count, uint32_t *reach, uint64_t *dictionaries) {
    uint32_t end = frames_end(s), made = 1, told = 0;
    *count = 0, *reach = end, *dictionaries = 0;
    while (*count < grant && made == 1 && s->registers[SOFADUCK_PHASE] == SOFADUCK_RUNNING) {
        const uint32_t before = end;
        uint64_t through = 0, walk = 0;
        if (!one_step(s, &made, &told, &through, &walk)) return 0;
        end = frames_end(s);
        if (told != (before < end ? end : before) || through != walk) return 0;
        if (*reach < end) *reach = end;
        *count += made, *dictionaries += walk;
    }
    return 1;
}
