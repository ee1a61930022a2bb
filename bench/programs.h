#include "build.h"

// Images whose start words begin the work of loops.lua of the same name. The length in bytes.
size_t fib_image(uint8_t *image);
size_t stores_image(uint8_t *image);
size_t arithmetic_image(uint8_t *image);
// The first of these with its methods at the top of a chain of 24 classes, and the receiver at the bottom.
size_t climbing_fib_image(uint8_t *image);
// One of edition 2 whose start words send PROXY_SENDS messages to an object that understands none, which answers each by its argument. Lua has none.
enum { PROXY_SENDS = 1000 };
size_t proxy_image(uint8_t *image);
// The image that is being built, with a handler added in CONTACT_WORDS words. The start words are its receiver and selector, and it takes an integer.
enum { CONTACT_WORDS = 33 };
size_t with_contact(uint8_t *image);
