// Building images.
#include "build.h"
#include <string.h>

static uint16_t contents[4 * 2048], bodies[65536], edition;
size_t object_count, word_count;

unsigned new_object(unsigned class, unsigned kind, unsigned size) {
    uint16_t *e = contents + 4 * object_count++;
    e[0] = 2 * class, e[1] = kind, e[2] = word_count, e[3] = size;
    const size_t words = kind == BYTES || kind == METHOD ? (size + 1) / 2 : size;
    memset(bodies + word_count, 0, 2 * words);
    word_count += words;
    return object_count;
}

uint16_t *body_of(unsigned object) { return bodies + contents[4 * object - 2]; }

unsigned kind_of(unsigned object) { return contents[4 * object - 3]; }

unsigned new_class(unsigned super, unsigned dictionary, unsigned fields, unsigned form) {
    const unsigned k = new_object(CLASSES, CLASS, 4);
    uint16_t *c = body_of(k);
    c[0] = 2 * super, c[1] = 2 * dictionary, c[2] = 2 * fields + 1, c[3] = 2 * form + 1;
    return k;
}

void put_byte(uint16_t *words, size_t at, unsigned byte) {
    const unsigned w = words[at / 2];
    words[at / 2] = at % 2 == 0 ? (byte << 8) | (w & 255) : (w & 65280) | byte;
}

unsigned new_string(const char *text) {
    const unsigned k = new_object(STRINGS, BYTES, strlen(text));
    for (size_t i = 0; text[i] != 0; i++) put_byte(body_of(k), i, (uint8_t)text[i]);
    return k;
}

unsigned new_method(unsigned home, unsigned flag, unsigned temporaries, unsigned large, const uint16_t *literals, unsigned literal_count,
                    const uint8_t *code, size_t size) {
    const unsigned k = new_object(CLASSES, METHOD, 4 + 2 * literal_count + size);
    uint16_t *m = body_of(k);
    m[0] = flag << 13 | temporaries << 8 | large << 7 | literal_count << 1 | 1;
    m[1] = 2 * home;
    for (unsigned i = 0; i < literal_count; i++) m[2 + i] = literals[i];
    for (size_t i = 0; i < size; i++) put_byte(m + 2 + literal_count, i, code[i]);
    return k;
}

// The objects with a fixed number, and the classes that all images have.
void new_image(unsigned of_edition) {
    edition = of_edition;
    object_count = word_count = 0;
    for (int i = 0; i < 3; i++) body_of(new_object(PLAIN, FIELDS, 1))[0] = 2 * NIL;
    new_class(NIL, EMPTY, 0, 3);
    new_object(CLASSES, LIST, 32);
    for (int i = 0; i < 32; i++) body_of(SELECTORS)[i] = 2 * NIL;
    new_string("doesNotUnderstand:");
    new_class(NIL, EMPTY, 2, 0);
    new_class(NIL, EMPTY, 0, 1);
    new_class(NIL, EMPTY, 0, 3);
    new_class(NIL, EMPTY, 1, 0);
    new_object(CLASSES, LIST, 0);
    new_class(NIL, EMPTY, 0, 2);
    new_class(NIL, EMPTY, 2, 0);
}

size_t written(uint8_t *image, unsigned receiver, unsigned selector) {
    const uint16_t header[5] = {edition, object_count, word_count, receiver, selector};
    uint8_t *to = image;
    for (size_t i = 0; i < 5; i++) *to++ = header[i] >> 8, *to++ = header[i] & 255;
    for (size_t i = 0; i < 4 * object_count; i++) *to++ = contents[i] >> 8, *to++ = contents[i] & 255;
    for (size_t i = 0; i < word_count; i++) *to++ = bodies[i] >> 8, *to++ = bodies[i] & 255;
    return to - image;
}
