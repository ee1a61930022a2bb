// The depth walk as one writes it in C: a table entry for each byte, along the line, only branch targets kept for later.
// Entries are packed as those of crates/bytecode: group 2 bits, length 3, need 2, leaves 2, bound 2, index 5.
#include "walk.h"
#include <string.h>

static inline unsigned byte_at(const uint16_t *words, size_t i) { return (uint8_t)(words[i >> 1] >> (i & 1 ? 0 : 8)); }

static bool walked(const uint16_t *entries, const uint16_t *words, unsigned fields, unsigned temporaries, unsigned literals,
                   unsigned limit, uint8_t *notes, size_t size, uint16_t *pending) {
    if (size == 0 || limit < temporaries) return false;
    const unsigned room = limit - temporaries;
    const unsigned counts[4] = {1, fields, temporaries, literals};
    size_t n = 1;
    notes[0] = 1;
    pending[0] = 0;
    while (n > 0) {
        size_t at = pending[--n];
        unsigned depth = notes[at] - 1u;
        for (;;) {
            const unsigned b = byte_at(words, at), e = entries[b], group = e >> 14;
            unsigned need = e >> 9 & 3;
            if (group == 0) {
                if (counts[e >> 5 & 3] <= (e & 31) || depth < need) return false;
                depth = depth - need + (e >> 7 & 3);
                at++;
                if (room < depth || size <= at) return false;
                if (notes[at] != 0) {
                    if (notes[at] != depth + 1) return false;
                    break;
                }
                notes[at] = depth + 1;
                continue;
            }
            if (group == 1) {
                if (depth < need) return false;
                break;
            }
            size_t next = at + (e >> 11 & 7), target = 0;
            bool fork = false;
            if (group > 2 || size < next) return false;
            if (b < 131) {
                const unsigned x = byte_at(words, at + 1), place = x >> 6;
                if (counts[place == 3 ? 3 : place + 1] <= (x & 63) || (b > 128 && place == 2)) return false;
            } else if (b < 135) {
                const unsigned x = byte_at(words, at + 1);
                need += b & 1 ? x >> 5 : x;
                if (literals <= (b & 1 ? x & 31 : byte_at(words, at + 2))) return false;
            } else if (b < 152) {
                next += (b & 7) + 1;
            } else if (b < 160) {
                target = next + (b & 7) + 1;
                fork = true;
            } else if (b < 168) {
                next += (b & 7) * 256 + byte_at(words, at + 1);
                if (next < 1024) return false;
                next -= 1024;
            } else {
                target = next + (b & 3) * 256 + byte_at(words, at + 1);
                fork = true;
            }
            if (depth < need) return false;
            depth = depth - need + (e >> 7 & 3);
            if (room < depth) return false;
            if (fork) {
                if (size <= target) return false;
                if (notes[target] == 0) {
                    notes[target] = depth + 1;
                    pending[n++] = target;
                } else if (notes[target] != depth + 1) {
                    return false;
                }
            }
            if (size <= next) return false;
            if (notes[next] != 0) {
                if (notes[next] != depth + 1) return false;
                break;
            }
            notes[next] = depth + 1;
            at = next;
        }
    }
    return true;
}

bool c_walk(const uint16_t *entries, const uint16_t *words, uint8_t fields, uint8_t temporaries, uint8_t literals, size_t limit,
            uint8_t *notes, size_t size, uint16_t *pending) {
    memset(notes, 0, size);
    if (walked(entries, words, fields, temporaries, literals, limit, notes, size, pending)) return true;
    memset(notes, 0, size);
    return false;
}
