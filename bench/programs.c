// The programs that the run is timed on, and a contact's handler. loops.lua has the same work as the first three in Lua.
#include "programs.h"

// Bytecodes by their names; a number or count in brackets is added to the first of its range.
enum {
    FIELD = 0, TEMPORARY = 16, LITERAL = 32, POP_FIELD = 96, POP_TEMPORARY = 104,
    PUSH_SELF = 112, PUSH_0 = 117, PUSH_1 = 118, PUSH_2 = 119, RETURN_SELF = 120, RETURN_TOP = 124, POP = 135,
    JUMP_FALSE = 151,      // plus the bytes jumped over, 1 to 8
    JUMP_BACK = 163,       // the next byte is 256 less the bytes back from behind it
    LONG_JUMP_FALSE = 172, // the next byte is what is jumped over
    PLUS = 176, MINUS = 177, LESS = 178, AT_MOST = 180, TIMES = 184, BIT_AND = 190, AT = 192, AT_PUT = 193,
    SEND_0 = 208, SEND_1 = 224, // plus the literal that names the selector
};

#define BACK(count) JUMP_BACK, 256 - (count)
#define INTEGER(i) (2 * (i) + 1)

static unsigned selector(const char *name) { return new_string(name); }

// A class's dictionary of selectors, rising, and methods.
static void understands(unsigned class, unsigned count, const unsigned (*pairs)[2]) {
    const unsigned dictionary = new_object(CLASSES, LIST, 2 * count);
    for (unsigned i = 0; i < count; i++) {
        body_of(dictionary)[2 * i] = 2 * pairs[i][0];
        body_of(dictionary)[2 * i + 1] = 2 * pairs[i][1];
    }
    body_of(class)[1] = 2 * dictionary;
}

// fib: n     n < 2 ifTrue: [^n]. ^(self fib: n - 1) + (self fib: n - 2)
// start      1 to: 4 do: [:i | self fib: 20]
// The receiver's class is so many below the one that has the methods.
static size_t fib_below(uint8_t *image, unsigned classes) {
    new_image(1);
    const unsigned fib = selector("fib:"), start = selector("start");
    const unsigned class = new_class(NIL, EMPTY, 0, 0);
    static const uint8_t fib_code[] = {
        TEMPORARY + 0, PUSH_2, LESS, JUMP_FALSE + 2,       // n < 2
        TEMPORARY + 0, RETURN_TOP,                         // n
        PUSH_SELF, TEMPORARY + 0, PUSH_1, MINUS, SEND_1 + 0, // self fib: n - 1
        PUSH_SELF, TEMPORARY + 0, PUSH_2, MINUS, SEND_1 + 0, // self fib: n - 2
        PLUS, RETURN_TOP,
    };
    const uint16_t fib_literals[] = {2 * fib};
    const unsigned fib_method = new_method(class, 1, 1, 0, fib_literals, 1, fib_code, sizeof fib_code);
    static const uint8_t start_code[] = {
        PUSH_1, POP_TEMPORARY + 0,                         // i := 1
        TEMPORARY + 0, LITERAL + 1, AT_MOST, LONG_JUMP_FALSE, 10, // i <= 4
        PUSH_SELF, LITERAL + 2, SEND_1 + 0, POP,           // self fib: 20
        TEMPORARY + 0, PUSH_1, PLUS, POP_TEMPORARY + 0,    // i := i + 1
        BACK(15),
        RETURN_SELF,
    };
    const uint16_t start_literals[] = {2 * fib, INTEGER(4), INTEGER(20)};
    const unsigned start_method = new_method(class, 0, 1, 0, start_literals, 3, start_code, sizeof start_code);
    understands(class, 2, (const unsigned[][2]){{fib, fib_method}, {start, start_method}});
    unsigned lowest = class;
    for (unsigned i = 0; i < classes; i++) lowest = new_class(lowest, EMPTY, 0, 0);
    return written(image, 2 * new_object(lowest, FIELDS, 0), 2 * start);
}

size_t fib_image(uint8_t *image) { return fib_below(image, 0); }
size_t climbing_fib_image(uint8_t *image) { return fib_below(image, MOST_CHAIN - 1); }

// A method that answers by a primitive; where it fails, the receiver.
static unsigned primitive(unsigned class, unsigned number, unsigned arguments) {
    const uint16_t literals[] = {arguments << 9 | number << 1 | 1, 2 * NIL};
    static const uint8_t code[] = {RETURN_SELF};
    return new_method(class, 7, arguments, 0, literals, 2, code, sizeof code);
}

// Fields: put, got, elements.
// start      1 to: 5000 do: [:i | 1 to: 10 do: [:j | put := i. elements at: j put: put. got := elements at: j]]
size_t stores_image(uint8_t *image) {
    new_image(1);
    const unsigned at = selector("at:"), at_put = selector("at:put:"), start = selector("start");
    body_of(SELECTORS)[AT - 176] = 2 * at;
    body_of(SELECTORS)[AT_PUT - 176] = 2 * at_put;
    const unsigned arrays = new_class(NIL, EMPTY, 0, 1), class = new_class(NIL, EMPTY, 3, 0);
    const unsigned at_method = primitive(arrays, 60, 1), at_put_method = primitive(arrays, 61, 2);
    understands(arrays, 2, (const unsigned[][2]){{at, at_method}, {at_put, at_put_method}});
    static const uint8_t code[] = {
        PUSH_1, POP_TEMPORARY + 0,                         // i := 1
        TEMPORARY + 0, LITERAL + 0, AT_MOST, LONG_JUMP_FALSE, 30, // i <= 5000
        PUSH_1, POP_TEMPORARY + 1,                         // j := 1
        TEMPORARY + 1, LITERAL + 1, AT_MOST, LONG_JUMP_FALSE, 17, // j <= 10
        TEMPORARY + 0, POP_FIELD + 0,                      // put := i
        FIELD + 2, TEMPORARY + 1, FIELD + 0, AT_PUT, POP,  // elements at: j put: put
        FIELD + 2, TEMPORARY + 1, AT, POP_FIELD + 1,       // got := elements at: j
        TEMPORARY + 1, PUSH_1, PLUS, POP_TEMPORARY + 1,    // j := j + 1
        BACK(22),
        TEMPORARY + 0, PUSH_1, PLUS, POP_TEMPORARY + 0,    // i := i + 1
        BACK(35),
        RETURN_SELF,
    };
    const uint16_t literals[] = {INTEGER(5000), INTEGER(10)};
    const unsigned method = new_method(class, 0, 2, 0, literals, 2, code, sizeof code);
    understands(class, 1, (const unsigned[][2]){{start, method}});
    const unsigned elements = new_object(arrays, FIELDS, 10), receiver = new_object(class, FIELDS, 3);
    for (int i = 0; i < 10; i++) body_of(elements)[i] = 2 * NIL;
    body_of(receiver)[0] = body_of(receiver)[1] = INTEGER(0);
    body_of(receiver)[2] = 2 * elements;
    return written(image, 2 * receiver, 2 * start);
}

// start      s := 0. 1 to: 10 do: [:k | 1 to: 10000 do: [:i | s := (s * 3 + i bitAnd: 1023) - 1]]. ^s
size_t arithmetic_image(uint8_t *image) {
    new_image(1);
    const unsigned start = selector("start"), class = new_class(NIL, EMPTY, 0, 0);
    static const uint8_t code[] = {
        PUSH_0, POP_TEMPORARY + 0,                         // s := 0
        PUSH_1, POP_TEMPORARY + 1,                         // k := 1
        TEMPORARY + 1, LITERAL + 0, AT_MOST, LONG_JUMP_FALSE, 29, // k <= 10
        PUSH_1, POP_TEMPORARY + 2,                         // i := 1
        TEMPORARY + 2, LITERAL + 1, AT_MOST, LONG_JUMP_FALSE, 16, // i <= 10000
        TEMPORARY + 0, LITERAL + 2, TIMES, TEMPORARY + 2, PLUS, // s * 3 + i
        LITERAL + 3, BIT_AND, PUSH_1, MINUS, POP_TEMPORARY + 0, // s := (.. bitAnd: 1023) - 1
        TEMPORARY + 2, PUSH_1, PLUS, POP_TEMPORARY + 2,    // i := i + 1
        BACK(21),
        TEMPORARY + 1, PUSH_1, PLUS, POP_TEMPORARY + 1,    // k := k + 1
        BACK(34),
        TEMPORARY + 0, RETURN_TOP,
    };
    const uint16_t literals[] = {INTEGER(10), INTEGER(10000), INTEGER(3), INTEGER(1023)};
    const unsigned method = new_method(class, 0, 3, 0, literals, 4, code, sizeof code);
    understands(class, 1, (const unsigned[][2]){{start, method}});
    return written(image, 2 * new_object(class, FIELDS, 0), 2 * start);
}

// Field: proxy.
// start      s := 0. 1 to: PROXY_SENDS do: [:i | s := (s + (proxy echo: i)) bitAnd: 1023]. ^s
// doesNotUnderstand: message, of the proxy      ^message arguments at: 1
size_t proxy_image(uint8_t *image) {
    new_image(2);
    const unsigned arguments = selector("arguments"), at = selector("at:"), echo = selector("echo:"), start = selector("start");
    body_of(SELECTORS)[AT - 176] = 2 * at;
    const unsigned class = new_class(NIL, EMPTY, 1, 0), proxies = new_class(NIL, EMPTY, 0, 0);
    const unsigned arguments_method = new_method(MESSAGES, 6, 1, 0, NULL, 0, NULL, 0), at_method = primitive(ARRAYS, 60, 1);
    understands(MESSAGES, 1, (const unsigned[][2]){{arguments, arguments_method}});
    understands(ARRAYS, 1, (const unsigned[][2]){{at, at_method}});
    static const uint8_t forward[] = {TEMPORARY + 0, SEND_0 + 0, PUSH_1, AT, RETURN_TOP}; // message arguments at: 1
    const uint16_t forward_literals[] = {2 * arguments};
    const unsigned forward_method = new_method(proxies, 1, 1, 0, forward_literals, 1, forward, sizeof forward);
    understands(proxies, 1, (const unsigned[][2]){{NOT_UNDERSTOOD, forward_method}});
    static const uint8_t code[] = {
        PUSH_0, POP_TEMPORARY + 0,                         // s := 0
        PUSH_1, POP_TEMPORARY + 1,                         // i := 1
        TEMPORARY + 1, LITERAL + 0, AT_MOST, LONG_JUMP_FALSE, 14, // i <= PROXY_SENDS
        TEMPORARY + 0, FIELD + 0, TEMPORARY + 1, SEND_1 + 2, PLUS, // s + (proxy echo: i)
        LITERAL + 1, BIT_AND, POP_TEMPORARY + 0,           // s := .. bitAnd: 1023
        TEMPORARY + 1, PUSH_1, PLUS, POP_TEMPORARY + 1,    // i := i + 1
        BACK(19),
        TEMPORARY + 0, RETURN_TOP,
    };
    const uint16_t literals[] = {INTEGER(PROXY_SENDS), INTEGER(1023), 2 * echo};
    const unsigned method = new_method(class, 0, 2, 0, literals, 3, code, sizeof code);
    understands(class, 1, (const unsigned[][2]){{start, method}});
    const unsigned proxy = new_object(proxies, FIELDS, 0), receiver = new_object(class, FIELDS, 1);
    body_of(receiver)[0] = 2 * proxy;
    return written(image, 2 * receiver, 2 * start);
}

// Field: sum.
// hit: x     1 to: 2 do: [:i | self add: x]. ^sum
// add: x     sum := sum + x bitAnd: 1023
size_t with_contact(uint8_t *image) {
    const unsigned hit = selector("hit:"), add = selector("add:"), class = new_class(NIL, EMPTY, 1, 0);
    static const uint8_t hit_code[] = {
        PUSH_1, POP_TEMPORARY + 1,                         // i := 1
        TEMPORARY + 1, PUSH_2, AT_MOST, LONG_JUMP_FALSE, 10, // i <= 2
        PUSH_SELF, TEMPORARY + 0, SEND_1 + 0, POP,         // self add: x
        TEMPORARY + 1, PUSH_1, PLUS, POP_TEMPORARY + 1,    // i := i + 1
        BACK(15),
        FIELD + 0, RETURN_TOP,
    };
    const uint16_t hit_literals[] = {2 * add};
    const unsigned hit_method = new_method(class, 1, 2, 0, hit_literals, 1, hit_code, sizeof hit_code);
    static const uint8_t add_code[] = {FIELD + 0, TEMPORARY + 0, PLUS, LITERAL + 0, BIT_AND, POP_FIELD + 0, RETURN_SELF};
    const uint16_t add_literals[] = {INTEGER(1023)};
    const unsigned add_method = new_method(class, 1, 1, 0, add_literals, 1, add_code, sizeof add_code);
    understands(class, 2, (const unsigned[][2]){{hit, hit_method}, {add, add_method}});
    const unsigned receiver = new_object(class, FIELDS, 1);
    body_of(receiver)[0] = INTEGER(0);
    return written(image, 2 * receiver, 2 * hit);
}
