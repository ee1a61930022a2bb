// The state that the library's calls take, and the C peers of these calls.
#include "objects.h"
#include "walk.h"
#include "../include/sofaduck.h"

// The registers, by their places.
enum { N, B, START_RECEIVER, START_SELECTOR, PHASE, TOP, VALUE, EDITION, REGISTERS };

// The library's state serves the peers as well.
typedef sofaduck_state machine;

static inline objects objects_of(const machine *m) {
    return (objects){(const entry *)m->contents, m->bodies, m->registers[N], m->registers[B]};
}

// The peers take the table's entries beside what the library takes. Refused calls write nothing.
uint32_t c_check(const uint16_t *entries, const machine *m);
uint32_t c_run(const uint16_t *entries, machine *m, uint32_t n, uint32_t *count, uint32_t *reach, uint64_t *dictionaries);
