/* Another file of the same program that has the header too. */
#include "second.h"

const char *second_refusal(uint32_t number) { return sofaduck_refusal_text(number); }

unsigned second_frames(const sofaduck_state *state) {
    sofaduck_frame frame;
    unsigned count = 0;
    for (int more = sofaduck_top_frame(state, &frame); more; more = sofaduck_next_frame(state, &frame)) count++;
    return count;
}
