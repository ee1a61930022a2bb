// An image that is being built: objects by their numbers, and their bodies in order. There is one at a time.
#ifndef BUILD_H
#define BUILD_H
#include "objects.h"

enum { MOST_IMAGE = 10 + 8 * 2047 + 2 * 24000 };
// The objects that every image here begins with.
enum { NIL = 1, FALSE, TRUE, INTEGERS, SELECTORS, NOT_UNDERSTOOD, MESSAGES, ARRAYS, CLASSES, PLAIN, EMPTY, STRINGS, VARIABLES, FIRST };

// Objects and body words so far. A caller may set them back.
extern size_t object_count, word_count;

// In edition 1 the selector NOT_UNDERSTOOD and the classes MESSAGES and ARRAYS are there as well, and mean nothing.
void new_image(unsigned edition);
unsigned new_object(unsigned class, unsigned kind, unsigned size);
uint16_t *body_of(unsigned object);
unsigned kind_of(unsigned object);
unsigned new_class(unsigned super, unsigned dictionary, unsigned fields, unsigned form);
void put_byte(uint16_t *words, size_t at, unsigned byte);
unsigned new_string(const char *text);
unsigned new_method(unsigned home, unsigned flag, unsigned temporaries, unsigned large, const uint16_t *literals, unsigned literal_count,
                    const uint8_t *code, size_t size);
// The bytes of the image, and their number.
size_t written(uint8_t *image, unsigned receiver, unsigned selector);
#endif
