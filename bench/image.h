#include <stddef.h>
#include <stdint.h>

// The table's entries are those of bench_table. The rules of load, objects put in place: 0, or the number of the refusal.
uint32_t c_read(const uint16_t *entries, const uint8_t *image, size_t length, uint16_t *contents, size_t contents_length,
                uint16_t *bodies, size_t bodies_length, size_t cache_length);
// The image's words in place, in buffers that hold them.
void c_place(const uint8_t *image, size_t n, size_t b, uint16_t *contents, uint16_t *bodies);
// Rules 4, 5, 14, 6, 7 and 8 of an edition, in this order. `notes` has 2b bytes.
uint32_t c_judge(const uint16_t *entries, const uint16_t *contents, const uint16_t *bodies, unsigned edition, size_t n, size_t b,
                 uint16_t receiver, uint16_t selector, uint8_t *notes);
