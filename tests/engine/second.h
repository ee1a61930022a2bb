#include "sofaduck.h"

const char *second_refusal(uint32_t number);
unsigned second_frames(const sofaduck_state *state);
