// Images for the benchmarks.
#include "images.h"
#include "measure.h"
#include <string.h>

static uint64_t state;

static unsigned below(unsigned n) { return random_below(&state, n); }

static unsigned bytes(unsigned size) {
    const unsigned k = new_object(STRINGS, BYTES, size);
    for (unsigned i = 0; i < size; i++) put_byte(body_of(k), i, 97 + below(26));
    return k;
}

static bool runs_on; // whether conditions are booleans and sends are understood, most of them

// An integer, or the name of an object that is there.
static unsigned any(void) {
    static const int16_t edges[] = {0, 1, 2, 3, 4, 5, 7, 8, 14, 15, 16, -1, -2, -14, -15, -16, 127, 255, 256, 8191, 8192, 16383, -16384};
    if (runs_on && below(2) == 0) {
        const unsigned k = 1 + below(object_count);
        // more classes than there are, for 70 and 71
        return below(2) == 0 ? (uint16_t)(2 * edges[below(23)] + 1) : kind_of(k) == CLASS || below(4) == 0 ? 2 * k : 2 * (1 + below(object_count));
    }
    return below(2) == 0 ? 2 * below(32768) + 1 : 2 * (1 + below(object_count));
}

static void any_words(unsigned k, unsigned count) {
    for (unsigned i = 0; i < count; i++) body_of(k)[i] = any();
}

// The argument counts of bytecodes 176 to 207.
static const uint8_t special[32] = {1, 1, 1, 1, 1, 1, 1, 1, 1, 1, 1, 1, 1, 1, 1, 1, 1, 2, 0, 0, 1, 0, 1, 0, 1, 0, 1, 1, 0, 1, 0, 0};

// Code of the method that is being written. Its literals: 8 selectors, two for each count from 0 to 3, then 4 variables, then others.
enum { VARIABLE = 8, LITERALS = 14, MOST_CODE = 2000 };
static uint8_t code[MOST_CODE];
static size_t end;
static unsigned fields, temporaries;

static void emit(unsigned x) { code[end++] = x; }

static void value(unsigned deep);

static void send(unsigned deep, unsigned count) {
    const unsigned literal = 2 * count + below(2), how = below(6);
    for (unsigned i = 0; i <= count; i++) value(deep - 1);
    if (how < 3 && count < 3) emit(208 + 16 * count + literal);
    else if (how < 5) { emit(131 + 2 * below(2)); emit(32 * count + literal); }
    else { emit(132 + 2 * below(2)); emit(count); emit(literal); }
}

// A special send to the last literal, with the one before it as index or as value.
static void element(void) {
    static const uint8_t none[] = {194, 195, 197, 201, 204}, one[] = {192, 196, 200, 202, 203, 205};
    const unsigned count = below(3);
    emit(32 + LITERALS - 1);
    if (count > 0) emit(below(2) == 0 ? 117 + below(3) : 32 + LITERALS - 2);
    if (count == 2 && below(2) == 0) value(0);
    else if (count == 2) emit(32 + LITERALS - 2);
    emit(count == 0 ? none[below(5)] : count == 1 ? one[below(6)] : 193);
}

// One value pushed.
static void value(unsigned deep) {
    const unsigned kind = below(deep == 0 ? 12 : 18);
    if (runs_on && deep > 0 && below(4) == 0) return element();
    if (kind < 2) emit(below(fields < 16 ? fields : 16));
    else if (kind < 5) emit(temporaries > 0 ? 16 + below(temporaries) : 112);
    else if (kind < 6) emit(32 + below(LITERALS));
    else if (kind < 7) emit(64 + VARIABLE + below(4));
    else if (kind < 10) emit(112 + below(8));
    else if (kind < 11) { emit(128); emit(below(fields)); }
    else if (kind < 12) { emit(128); emit(192 + VARIABLE + below(4)); }
    else if (kind < 15) send(deep, below(4));
    else if (kind == 15 && below(2) == 0) { value(deep - 1); emit(136); emit(176 + below(16)); }
    else if (kind < 17) { value(deep - 1); value(deep - 1); emit(176 + below(16)); }
    else {
        const unsigned k = 16 + below(16);
        for (unsigned i = 0; i <= special[k]; i++) value(deep - 1);
        emit(176 + k);
    }
}

static void condition(void) {
    const unsigned kind = runs_on ? below(3) : 3;
    if (kind == 0) { value(0); value(0); emit(198); }
    else if (kind == 1) { emit(116 + below(4)); emit(116 + below(4)); emit(178 + below(6)); }
    else if (kind == 2) emit(113 + below(2));
    else value(1);
}

static void statement(unsigned deep) {
    const unsigned kind = below(10);
    if (kind < 5 || deep == 0) {
        value(2);
        const unsigned to = below(5);
        if (to == 0) emit(96 + below(fields < 8 ? fields : 8));
        else if (to == 1 && temporaries > 0) emit(104 + below(temporaries < 8 ? temporaries : 8));
        else if (to == 2) { emit(130); emit(192 + VARIABLE + below(4)); }
        else if (to == 3) { emit(129); emit(below(fields)); emit(135); }
        else emit(135);
        return;
    }
    const size_t top = end;
    condition();
    const size_t from = end;
    const unsigned jump = below(4) == 0 ? 168 : 172; // over what follows, on true or on false
    emit(jump);
    emit(0);
    for (unsigned i = below(2) + 1; i > 0; i--) statement(deep - 1);
    const bool loop = kind > 7, other = kind == 5;
    const size_t over = end - from - 2 + (loop ? 2 : other ? 1 : 0);
    code[from] = jump + over / 256;
    code[from + 1] = over % 256;
    if (loop) {
        const size_t back = 1024 - (end + 2 - top);
        emit(160 + back / 256);
        emit(back % 256);
    } else if (other) {
        emit(144 + 1);
        emit(118), emit(135);
    } else if (jump == 172 && over <= 8) {
        // the short form: what follows moves up
        code[from] = 151 + over;
        memmove(code + from + 1, code + from + 2, over);
        end--;
    }
}

static unsigned first_selector, selectors, first_variable, count_under_6;

// The first objects of form 1: how many named fields and elements each has.
enum { ROWS = 256 };
static struct {
    unsigned object, named, elements;
} rows[ROWS];
static size_t row_count;

// An object with so many words behind the named fields of its class.
static void new_fields(unsigned class, unsigned elements) {
    const unsigned named = body_of(class)[2] / 2, k = new_object(class, FIELDS, named + elements);
    any_words(k, named + elements);
    if (body_of(class)[3] / 2 == 0 || row_count == ROWS) return;
    rows[row_count].object = k, rows[row_count].named = named, rows[row_count].elements = elements;
    row_count++;
}

// A selector under which methods take this count.
static unsigned selector_of(unsigned count) { return first_selector + 4 * below(selectors / 4) + count; }

static unsigned method(unsigned home, unsigned count) {
    unsigned flag = count;
    const unsigned how = below(8);
    fields = body_of(home)[2] / 2;
    temporaries = count + below(4);
    if (how == 0) flag = 7;
    else if (how == 1 && count == 0) flag = 5;
    else if (how < 4 && count == 0) flag = 6, temporaries = below(fields < 32 ? fields : 32);
    end = 0;
    for (unsigned i = below(4) + 1; i > 0; i--) statement(2);
    if (below(2) == 0) emit(120 + below(4));
    else { value(2); emit(124); }
    uint16_t literals[LITERALS];
    const unsigned large = temporaries > 5 || below(2) == 0; // no depth is above 7
    for (unsigned i = 0; i < 8; i++) literals[i] = below(8) == 0 ? 2 * NIL : 2 * selector_of(i / 2);
    if (below(4) == 0) literals[2 * count_under_6] = 2 * NOT_UNDERSTOOD;
    for (unsigned i = VARIABLE; i < LITERALS; i++) literals[i] = i < VARIABLE + 4 ? 2 * (first_variable + below(8)) : any();
    // bytes or a class, for element
    const unsigned last = 1 + below(object_count);
    if (runs_on && (kind_of(last) == CLASS || kind_of(last) == BYTES)) literals[LITERALS - 1] = 2 * last;
    // or an object with elements, and an index at their ends
    if (runs_on && row_count > 0 && below(3) > 0) {
        const size_t r = below(row_count);
        const unsigned size = rows[r].elements, ends[] = {0, 1, size, size + 1, rows[r].named + size};
        literals[LITERALS - 2] = 2 * ends[below(5)] + 1;
        literals[LITERALS - 1] = 2 * rows[r].object;
    }
    if (flag == 7) literals[LITERALS - 2] = count << 9 | below(256) << 1 | 1;
    return new_method(home, flag, temporaries, large, literals, LITERALS, code, end);
}

// A class's dictionary of selectors, rising, and methods.
static void understands(unsigned class, unsigned count, unsigned (*pairs)[2]) {
    const unsigned dictionary = new_object(CLASSES, LIST, 2 * count);
    for (unsigned i = 0; i < count; i++) body_of(dictionary)[2 * i] = 2 * pairs[i][0], body_of(dictionary)[2 * i + 1] = 2 * pairs[i][1];
    body_of(class)[1] = 2 * dictionary;
}

// A class with its methods and some objects. It gives the class.
static unsigned group(unsigned super) {
    const unsigned above = super == NIL ? 0 : body_of(super)[2] / 2, form = below(2), own = (above == 0 ? 1 : above) + below(3);
    const unsigned k = new_class(super, EMPTY, own < 200 ? own : 200, form);
    unsigned pairs[16][2], count = 0;
    if (below(3) == 0) pairs[0][0] = NOT_UNDERSTOOD, pairs[count++][1] = method(k, count_under_6);
    for (unsigned s = first_selector + below(selectors / 2); s < first_selector + selectors && count < 6; s += 1 + below(selectors / 3)) {
        pairs[count][0] = s;
        pairs[count++][1] = method(k, (s - first_selector) % 4);
    }
    if (below(4) == 0) method(k, below(4));
    understands(k, count, pairs);
    for (unsigned i = below(3); i > 0; i--) new_fields(k, form * below(8));
    // beside it a class without methods, with named fields from none to as many as there can be
    if (runs_on && below(2) == 0) {
        const unsigned named = below(16) == 0 ? 255 : below(3);
        new_fields(new_class(super, EMPTY, named < above ? above : named, 1), below(4));
    }
    bytes(below(24));
    if (below(2) == 0) {
        const unsigned size = below(8);
        any_words(new_object(CLASSES, LIST, size), size);
    }
    return k;
}

// A class that answers nearly every selector, in half of all images object 6 too, and that the classes of all images have above them. Its methods take
// a primitive, or answer at once.
static unsigned root(void) {
    static const uint8_t primitives[3][8] = {{62, 70, 111, 62, 70, 111, 0, 62}, {60, 71, 110, 60, 71, 60, 60, 17}, {61, 61, 61, 61, 61, 61, 61, 9}};
    const bool under_6 = below(2) == 0;
    unsigned pairs[256][2], taken = 0;
    const unsigned k = new_class(NIL, EMPTY, 0, 0);
    for (unsigned i = 0; i <= selectors; i++) {
        if (i == 0 ? !under_6 : below(8) == 0) continue;
        const unsigned count = i == 0 ? count_under_6 : (i - 1) % 4, how = below(4);
        const uint8_t constant[] = {112 + below(8), 124}, argument[] = {16, 124};
        const uint16_t literals[] = {count << 9 | (count < 3 ? primitives[count][below(8)] : 1) << 1 | 1, any()};
        const unsigned m = new_method(k, how > 0 ? 7 : count == 0 ? 5 : count, count, below(2), literals, 2, count > 0 ? argument : constant, 2);
        pairs[taken][0] = i == 0 ? NOT_UNDERSTOOD : first_selector + i - 1, pairs[taken++][1] = m;
    }
    understands(k, taken, pairs);
    static const uint8_t below_it[] = {INTEGERS, CLASSES, PLAIN, STRINGS, VARIABLES, ARRAYS};
    for (size_t i = 0; i < sizeof below_it; i++) body_of(below_it[i])[0] = 2 * k;
    return k;
}

// The classes from one up to nil, itself counted.
static unsigned chain_length(unsigned class) {
    unsigned count = 0;
    for (; class != NIL; class = body_of(class)[0] / 2) count++;
    return count;
}

static size_t classes(uint8_t *image, unsigned edition, size_t words, uint64_t seed) {
    state = seed;
    row_count = 0;
    new_image(edition);
    count_under_6 = edition == 1 ? below(4) : 1;
    // to edition 1 the three mean nothing
    if (edition == 1 && below(2) == 0) body_of(MESSAGES)[2] = 2 * below(4) + 1, body_of(ARRAYS)[3] = 1;
    selectors = 16 + words / 1000 * 4;
    first_selector = object_count + 1;
    for (unsigned i = 0; i < selectors; i++) bytes(1 + below(9));
    for (unsigned i = 0; i < 32; i++)
        if (below(4) > 0) body_of(SELECTORS)[i] = 2 * selector_of(i == 22 || i == 23 ? below(4) : special[i]);
        else if (special[i] == count_under_6 && below(8) == 0) body_of(SELECTORS)[i] = 2 * NOT_UNDERSTOOD;
    first_variable = object_count + 1;
    for (unsigned i = 0; i < 8; i++) any_words(new_object(VARIABLES, FIELDS, 2), 2);
    unsigned uppermost = runs_on ? root() : NIL, made[1024], count = 0;
    // lookups that climb as far as a chain goes
    if (runs_on && below(2) == 0)
        for (unsigned i = 16 + below(7); i > 0; i--) uppermost = new_class(uppermost, EMPTY, 0, 0);
    for (;;) {
        const size_t objects = object_count, before = word_count;
        const unsigned super = count == 0 || below(4) == 0 ? uppermost : made[below(count)];
        const unsigned k = group(chain_length(super) < MOST_CHAIN ? super : uppermost);
        if (word_count > words || object_count > 2000 || count == 1024) {
            object_count = objects;
            word_count = before;
            break;
        }
        made[count++] = k;
    }
    if (word_count < words) bytes(2 * (words - word_count) - 1);
    return written(image, any(), 2 * selector_of(0));
}

size_t ordinary(uint8_t *image, unsigned edition, size_t words, uint64_t seed) {
    runs_on = false;
    return classes(image, edition, words, seed);
}

size_t lively(uint8_t *image, unsigned edition, size_t words, uint64_t seed) {
    runs_on = true;
    return classes(image, edition, words, seed);
}

// So many classes, each below the one before, and after `most` of them from nil anew. It gives the first. The selector of the start words is FIRST.
static unsigned chains(size_t count, size_t most) {
    new_image(1);
    bytes(1);
    const unsigned first = object_count + 1;
    for (size_t i = 0; i < count; i++) new_class(i % most == 0 ? NIL : object_count, EMPTY, 0, 0);
    return first;
}

size_t chain(uint8_t *image, size_t count) {
    chains(count, MOST_CHAIN);
    return written(image, 2 * NIL, 2 * FIRST);
}

size_t long_chain(uint8_t *image, size_t count) {
    chains(count, count);
    return written(image, 2 * NIL, 2 * FIRST);
}

size_t circle(uint8_t *image, size_t count) {
    body_of(chains(count, count))[0] = 2 * object_count;
    return written(image, 2 * NIL, 2 * FIRST);
}

size_t shared(uint8_t *image, size_t count) {
    new_image(1);
    const unsigned selector = object_count + 1;
    for (size_t i = 0; i < count; i++) bytes(1);
    const unsigned m = new_object(CLASSES, METHOD, 5);
    body_of(m)[0] = 1;
    body_of(m)[1] = 2 * (object_count + 2);
    body_of(m)[2] = 120 << 8;
    const unsigned dictionary = new_object(CLASSES, LIST, 2 * count);
    for (size_t i = 0; i < count; i++) body_of(dictionary)[2 * i] = 2 * (selector + i), body_of(dictionary)[2 * i + 1] = 2 * m;
    for (size_t i = 0; i < count; i++) new_class(NIL, dictionary, 0, 0);
    return written(image, 2 * NIL, 2 * selector);
}

size_t deep(uint8_t *image) {
    enum { LAST = 2047, PAIRS = 400, TEMPORARIES = 11 }; // with the operand a frame is full
    new_image(1);
    const unsigned first = object_count + 1;
    while (object_count < first - 1 + PAIRS) bytes(0);
    unsigned class = NIL, lowest = NIL;
    for (int above = 0; above < MOST_CHAIN - 1; above++) {
        static const uint8_t again[] = {112, 208, 124}; // push self, send the first literal, return top
        const uint16_t literals[] = {2 * LAST};
        const unsigned pairs = above == 0 ? PAIRS + 1 : PAIRS;
        class = new_class(class, EMPTY, 0, 0);
        const unsigned m = new_method(class, 0, TEMPORARIES, 0, literals, 1, again, sizeof again), dictionary = new_object(CLASSES, LIST, 2 * pairs);
        for (unsigned i = 0; i < pairs; i++) body_of(dictionary)[2 * i] = 2 * (i < PAIRS ? first + i : LAST), body_of(dictionary)[2 * i + 1] = 2 * m;
        body_of(class)[1] = 2 * dictionary;
    }
    while (word_count + 4 <= MOST_WORDS && object_count + 2 < LAST) lowest = new_class(class, EMPTY, 0, 0);
    const unsigned instance = new_object(lowest, FIELDS, 0);
    while (object_count + 1 < LAST) bytes(0);
    bytes(2 * (MOST_WORDS - word_count));
    return written(image, 2 * instance, 2 * LAST);
}

size_t climbing(uint8_t *image, size_t count, unsigned unknown[CLIMBING]) {
    static const uint8_t code[] = {120};
    state = count;
    new_image(1);
    const unsigned first = object_count + 1;
    for (unsigned i = 0; i < 2 * CLIMBING; i++) bytes(1);
    for (unsigned i = 0; i < CLIMBING; i++) unknown[i] = first + 2 * i;
    unsigned class = NIL;
    for (int above = 0; above < MOST_CHAIN; above++) {
        class = new_class(class, EMPTY, 0, 0);
        const unsigned m = new_method(class, 0, 0, 0, NULL, 0, code, sizeof code), dictionary = new_object(CLASSES, LIST, 2 * count);
        uint16_t *pair = body_of(dictionary);
        // so many of all, rising
        for (unsigned i = 0, taken = 0; taken < count; i++) {
            if (below(CLIMBING - i) >= count - taken) continue;
            *pair++ = 2 * (first + 2 * i + 1), *pair++ = 2 * m;
            taken++;
        }
        body_of(class)[1] = 2 * dictionary;
    }
    return written(image, 2 * new_object(class, FIELDS, 0), 2 * first);
}

size_t unknown(uint8_t *image, unsigned edition, bool above, unsigned arguments, unsigned under_6, size_t objects, size_t words) {
    static const uint8_t answers[] = {16, 124}; // push the argument, return top
    uint8_t send[40] = {112};                   // push self and the arguments, send the first literal, return top
    uint16_t literals[32] = {2 * (FIRST + 1)};
    unsigned pairs[2][2], count = 0;
    new_image(edition);
    bytes(1), bytes(2);
    for (unsigned i = 1; i <= arguments; i++) send[i] = 32 + i, literals[i] = 2 * (100 + i) + 1;
    uint8_t *const code = send + 1 + arguments;
    code[0] = above ? 134 : 132, code[1] = arguments, code[2] = 0, code[3] = 124;
    const unsigned upper = new_class(NIL, EMPTY, 0, 0), class = above ? new_class(upper, EMPTY, 0, 0) : upper;
    if (under_6 != NO_METHOD) {
        const bool tries = under_6 >= IDENTICAL;
        const uint16_t extension[] = {1 << 9 | (under_6 == IDENTICAL ? 110 : 60) << 1 | 1, 2 * NIL};
        pairs[count][0] = NOT_UNDERSTOOD;
        pairs[count++][1] = new_method(upper, tries ? 7 : 1, 1, under_6 == LARGE_FRAME, extension, tries ? 2 : 0, answers, sizeof answers);
        if (above) understands(upper, count, pairs), count = 0;
    }
    pairs[count][0] = FIRST;
    pairs[count++][1] = new_method(class, 0, 0, arguments > 11, literals, 1 + arguments, send, 5 + arguments);
    understands(class, count, pairs);
    const unsigned receiver = new_object(class, FIELDS, 0);
    while (object_count + 1 < objects) bytes(0);
    bytes(2 * (words - word_count));
    return written(image, 2 * receiver, 2 * FIRST);
}

size_t elements(uint8_t *image, unsigned named, unsigned count) {
    // push self and the arguments, send the literal, return top
    static const uint8_t codes[3][5] = {{112, 16, 224, 124}, {112, 16, 17, 240, 124}, {112, 208, 124}}, fails[] = {123};
    new_image(1);
    for (unsigned i = 0; i < 6; i++) bytes(1);
    const unsigned class = new_class(NIL, EMPTY, named, 1);
    unsigned methods[6];
    for (unsigned i = 0; i < 3; i++) {
        const unsigned arguments = (i + 1) % 3;
        const uint16_t extension[] = {arguments << 9 | (60 + i) << 1 | 1, 2 * NIL}, selector[] = {2 * (FIRST + i)};
        methods[i] = new_method(class, 7, arguments, 0, extension, 2, fails, 1);
        methods[3 + i] = new_method(class, arguments, arguments, 0, selector, 1, codes[i], 3 + arguments);
    }
    const unsigned dictionary = new_object(CLASSES, LIST, 12), k = new_object(class, FIELDS, named + count);
    for (unsigned i = 0; i < 6; i++) body_of(dictionary)[2 * i] = 2 * (FIRST + i), body_of(dictionary)[2 * i + 1] = 2 * methods[i];
    body_of(class)[1] = 2 * dictionary;
    for (unsigned i = 0; i < named + count; i++) body_of(k)[i] = 2 * i + 1;
    return written(image, 2 * k, 2 * FIRST);
}
