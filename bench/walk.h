#include <stdbool.h>
#include <stddef.h>
#include <stdint.h>

bool c_walk(const uint16_t *entries, const uint16_t *words, uint8_t fields, uint8_t temporaries, uint8_t literals, size_t limit,
            uint8_t *notes, size_t size, uint16_t *pending);
