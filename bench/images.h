#include "build.h"

// A correct image of b body words, from 400 on: what a compiler writes. In either edition some classes have methods under object 6. It gives the
// length in bytes.
size_t ordinary(uint8_t *image, unsigned edition, size_t b, uint64_t seed);
// The same from 900 words on, but most selectors are understood and conditions are mostly booleans, so that handlers run on. In half of these images
// chains are about as long as they may be.
size_t lively(uint8_t *image, unsigned edition, size_t b, uint64_t seed);
// A correct image of so many classes, up to 2,000, in chains as long as they may be.
size_t chain(uint8_t *image, size_t count);
// So many classes in one chain, or in a circle: refused by 14, the first where it is more than load allows.
size_t long_chain(uint8_t *image, size_t count);
size_t circle(uint8_t *image, size_t count);
// So many classes with one dictionary of as many pairs, up to 1,000: refused by 7, for its methods have one home.
size_t shared(uint8_t *image, size_t count);
// A correct image that check is slow on, once its handler has filled the stack and lookups of its start selector the cache. 23 classes are below each
// other, each with 400 pairs, and all classes that fit beside them, next to each other, are below the lowest: each ends a chain of 24. The start words
// begin a method of the uppermost class, on an instance of one below all 23, that sends itself again and again. The start selector is the last in the
// uppermost dictionary alone, so lookup reads all pairs; its number has its low 6 bits set, so classes next to each other have places next to each
// other in the cache. Other mixes of pairs and classes take a little less. Random code in place of most of them takes a tenth more, but that is time
// for the walk over code.
size_t deep(uint8_t *image);
// A correct image with a chain of 24 classes, each with so many selectors out of CLIMBING. Between these stand as many that no class has, which are
// given. The start words are an instance of the lowest class and one of the unknown selectors.
enum { CLIMBING = 240 };
size_t climbing(uint8_t *image, size_t count, unsigned unknown[CLIMBING]);
// A correct image of so many objects and words. Its start words begin a method that sends what nobody implements with so many arguments, by 132, or
// above its class by 134; and answers what comes of it. Under object 6 there is a method that answers its argument, or none.
enum { NO_METHOD, SMALL_FRAME, LARGE_FRAME, IDENTICAL, FAILING, UNDER_6 }; // the two before the last have primitives 110 and 60
size_t unknown(uint8_t *image, unsigned edition, bool above, unsigned arguments, unsigned under_6, size_t objects, size_t words);
// A correct image of an object with so many named fields and elements. It understands the selectors FIRST to FIRST + 2, at:, at:put: and size by their
// primitives, which answer nil where they fail, and FIRST + 3 to FIRST + 5, methods that send it these with their own arguments.
size_t elements(uint8_t *image, unsigned named, unsigned count);
