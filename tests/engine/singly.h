/* A list's calls made singly, for border.c, messages.c and dictionaries.c. */
#include "sofaduck.h"
#include <string.h>

/* Writes the answers that play has to write. Returns how many calls were made. */
static inline uint32_t singly(sofaduck_state *t, const uint16_t *calls, size_t calls_length, uint32_t *to, size_t room) {
    uint32_t made = 0;
    for (size_t at = 0, size; at < calls_length && made < room / SOFADUCK_ANSWER; at += size, made++) {
        const uint16_t *const c = calls + at;
        const size_t left = calls_length - at;
        uint32_t number, count = 0, reach = 0;
        uint64_t dictionaries = 0;
        size = c[0] == SOFADUCK_PLAY_BEGIN ? 4 : c[0] == SOFADUCK_PLAY_RUN ? 3 : 1;
        if (c[0] == SOFADUCK_PLAY_BEGIN && left >= 4) size += c[3];
        if (size > left || c[0] > SOFADUCK_PLAY_FORGET) break;
        if (c[0] == SOFADUCK_PLAY_BEGIN) number = sofaduck_begin(SOFADUCK_STATE(t), c[1], c[2], c + 4, c[3]);
        else if (c[0] == SOFADUCK_PLAY_RUN) number = sofaduck_run(SOFADUCK_STATE(t), 65536u * c[1] + c[2], &count, &reach, &dictionaries);
        else if (c[0] == SOFADUCK_PLAY_DROP) number = sofaduck_drop(SOFADUCK_STATE(t));
        else number = sofaduck_forget(SOFADUCK_STATE(t));
        const int ran = c[0] == SOFADUCK_PLAY_RUN && number == 0;
        const uint32_t answer[SOFADUCK_ANSWER] = {number, ran ? t->registers[SOFADUCK_PHASE] : 0u, count, ran ? t->registers[SOFADUCK_VALUE] : 0u,
                                                  reach, (uint32_t)(dictionaries >> 32), (uint32_t)dictionaries};
        memcpy(to + SOFADUCK_ANSWER * made, answer, sizeof answer);
    }
    return made;
}
