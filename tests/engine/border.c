/* The functions for C from outside: every call, every refusal, what is written and what is not, null pointers, lists of calls against the same calls
 * made singly, elements behind named fields, what an engine may write itself, small C stacks, two threads.
 * A line for each test; the exit status says whether all passed. Usage: border IMAGE MESSAGES, of border.source and messages.source. */
#define _DEFAULT_SOURCE /* MAP_ANONYMOUS */
#include "singly.h"
#include "tests.h"
#include "border.h"
#include "walk.h"
#include <pthread.h>
#include <stdlib.h>
#include <sys/mman.h>

enum { STACK = 1024, GUARD = 65536, OWN_STACK = 32768, PAINT = 0x5c, ROUNDS = 2000, ANSWERS = 200 };

/* The words that a state lends. */
typedef struct {
    uint16_t contents[SOFADUCK_CONTENTS], bodies[SOFADUCK_BODIES], stack[STACK], cache[SOFADUCK_CACHE + 1];
} words;

static uint8_t image[SOFADUCK_IMAGE], messages[SOFADUCK_IMAGE], other[SOFADUCK_IMAGE + 1], output[SOFADUCK_IMAGE + 1];
static size_t length, messages_length;
static sofaduck_state s, before;
static words lent, lent_before;

/* A state whose buffers have the whole lengths and are full of old words. */
static void fresh(sofaduck_state *t, words *of) {
    memset(of, 0xa5, sizeof *of);
    memset(t->registers, 0xa5, sizeof t->registers);
    t->contents = of->contents, t->contents_length = SOFADUCK_CONTENTS;
    t->bodies = of->bodies, t->bodies_length = SOFADUCK_BODIES;
    t->stack = of->stack, t->stack_length = STACK;
    t->cache = of->cache, t->cache_length = SOFADUCK_CACHE;
}

static uint32_t begin(sofaduck_state *t, uint16_t receiver, uint16_t selector) {
    return sofaduck_begin(SOFADUCK_STATE(t), receiver, selector, NULL, 0);
}

static void loaded(void) {
    fresh(&s, &lent);
    if (sofaduck_state_load(&s, image, length) != 0) test("the image is loaded", false);
}

/* The state that a call is about to see. */
static void note(void) {
    before = s;
    lent_before = lent;
}

static bool unchanged(void) {
    return memcmp(&lent, &lent_before, sizeof lent) == 0 && memcmp(s.registers, before.registers, sizeof s.registers) == 0;
}

/* A call that was refused, by the right number and with every word of the state as it was noted. */
static void refused(const char *what, uint32_t wanted, uint32_t got) {
    char line[200];
    snprintf(line, sizeof line, "refused by %u: %s", (unsigned)wanted, what);
    if (got != wanted) printf("it gave %u\n", (unsigned)got);
    test(line, got == wanted && unchanged());
}

static bool all_bytes(const uint8_t *bytes, size_t count, uint8_t byte) {
    for (size_t i = 0; i < count; i++)
        if (bytes[i] != byte) return false;
    return true;
}

static void put(size_t place, unsigned word) {
    other[2 * place] = (uint8_t)(word >> 8);
    other[2 * place + 1] = (uint8_t)word;
}

static unsigned get(size_t place) { return image[2 * place] * 256u + image[2 * place + 1]; }

/* A load that is refused: registers are zero; by 4 and above the image's words are zero; all else is as before. */
static void load_refused(const char *what, uint32_t wanted, size_t count) {
    const size_t n = wanted < 4 ? 0 : 4 * get(1), b = wanted < 4 ? 0 : get(2);
    note();
    const uint32_t got = sofaduck_state_load(&s, count == 0 ? NULL : other, count);
    const bool zero = all(s.registers, SOFADUCK_REGISTERS, 0) && all(lent.contents, n, 0) && all(lent.bodies, b, 0);
    memcpy(s.registers, before.registers, sizeof s.registers);
    memcpy(lent.contents, lent_before.contents, n * sizeof *lent.contents);
    memcpy(lent.bodies, lent_before.bodies, b * sizeof *lent.bodies);
    if (!zero) test("registers and words of a refused load are zero", false);
    refused(what, wanted, got);
    fresh(&s, &lent);
    memcpy(other, image, sizeof image);
}

/* Where the body of a class begins, in the image's words. */
static size_t class_at(uint16_t class) { return 5 + 4 * get(1) + get(5 + 4 * (class / 2u - 1) + 2); }

/* The header of the first method there. */
static size_t header_at(void) {
    size_t entry = 5;
    while (get(entry + 1) != SOFADUCK_METHOD) entry += 4;
    return 5 + 4 * get(1) + get(entry + 2);
}

/* The classes from one up to the first word that names none, in a state that load accepted. */
static unsigned chain_length(uint16_t class) {
    size_t size = 0;
    unsigned count = 0;
    for (const uint16_t *body; (body = sofaduck_body(&s, class, SOFADUCK_CLASS, &size)) != NULL; class = body[0]) count++;
    return count;
}

/* Lengths of a cache that are refused: an older version's, and those next to the right one. */
static const size_t wrong_caches[] = {0, 192, SOFADUCK_CACHE - 1, SOFADUCK_CACHE + 1};
enum { WRONG_CACHES = sizeof wrong_caches / sizeof *wrong_caches };
static const char *of_words(const char *what, size_t count) {
    static char line[100];
    snprintf(line, sizeof line, "%s %zu words", what, count);
    return line;
}

/* Chains of more than 24 classes, and what else is wrong beside them: 1 to 5 come before 14, and 6 to 8 behind it. */
static void long_chains(void) {
    const size_t aside = class_at(CLASS_Aside), object = class_at(CLASS_Object);
    const struct {
        const char *what;
        size_t place;
        unsigned word;
        uint32_t number;
    } beside[] = {
        {"edition 3", 0, 3, 2},
        {"kind 9", 6, 9, 4},
        {"class 0", 5, 0, 5},
        {"a form that is 0", class_at(CLASS_Box) + 3, 0, 5},
        {"nil as a class", 5, SOFADUCK_NIL, 14},
        {"nil as a dictionary", aside + 1, SOFADUCK_NIL, 14},
        {"a superclass that is an integer, of the uppermost", object, sofaduck_word(0), 14},
        {"a superclass of another kind, of the uppermost", object, OBJECT_box, 14},
        {"object 4 with form 0", class_at(SOFADUCK_INTEGER_CLASS) + 3, sofaduck_word(0), 14},
        {"a method's header without its tag", header_at(), get(header_at()) - 1, 14},
        {"nil as start selector", 4, SOFADUCK_NIL, 14},
    };
    char line[100];
    loaded();
    test("load: a chain of 24 classes is accepted", chain_length(CLASS_Level24) == SOFADUCK_CHAIN);
    fresh(&s, &lent);
    put(aside, CLASS_Level24);
    load_refused("load: a chain of 25 classes", 14, length);
    put(aside, CLASS_Level23);
    test("load: a second chain of 24 classes is accepted", sofaduck_state_load(&s, other, length) == 0 && chain_length(CLASS_Aside) == SOFADUCK_CHAIN);
    fresh(&s, &lent);
    put(aside, CLASS_Level24);
    s.contents_length = 4 * get(1), s.bodies_length = get(2);
    load_refused("load: a chain of 25 classes, buffers that just fit", 14, length);
    put(aside, CLASS_Level24);
    s.contents_length = 4 * get(1) - 1;
    load_refused("load: a chain of 25 classes, and contents a word short", 3, length);
    put(aside, CLASS_Level24);
    load_refused("load: a chain of 25 classes, and a byte too few", 1, length - 1);
    put(aside, CLASS_Aside);
    load_refused("load: a class that is its own superclass", 14, length);
    put(object, CLASS_Object);
    load_refused("load: a class above all others that is its own superclass", 14, length);
    put(object, CLASS_Level24);
    load_refused("load: a circle of 24 classes", 14, length);
    put(class_at(CLASS_Level2), CLASS_Level3);
    load_refused("load: a circle of two classes", 14, length);
    put(object, sofaduck_word(0));
    load_refused("load: a chain of 24 classes that ends at an integer", 6, length);
    put(object, OBJECT_box);
    load_refused("load: a chain of 24 classes that ends at another object", 6, length);
    put(aside + 1, SOFADUCK_NIL);
    load_refused("load: nil as a dictionary", 6, length);
    for (size_t i = 0; i < sizeof beside / sizeof *beside; i++) {
        put(aside, CLASS_Level24);
        put(beside[i].place, beside[i].word);
        snprintf(line, sizeof line, "load: a chain of 25 classes, and %s", beside[i].what);
        load_refused(line, beside[i].number, length);
    }
    put(aside, CLASS_Aside);
    put(5, SOFADUCK_NIL);
    load_refused("load: a class that is its own superclass, and nil as a class", 14, length);
}

static void loads(void) {
    const unsigned n = get(1), b = get(2);
    fresh(&s, &lent);
    memcpy(other, image, sizeof image);
    load_refused("load: no bytes, a null pointer", 1, 0);
    load_refused("load: nine bytes", 1, 9);
    load_refused("load: a byte too few", 1, length - 1);
    load_refused("load: a byte too many", 1, length + 1);
    put(0, 0);
    load_refused("load: edition 0", 2, length);
    put(0, 3);
    load_refused("load: edition 3", 2, length);
    s.contents_length = 4 * n - 1;
    load_refused("load: contents a word short", 3, length);
    s.contents = NULL, s.contents_length = 0;
    load_refused("load: no contents, a null pointer", 3, length);
    s.bodies_length = b - 1;
    load_refused("load: bodies a word short", 3, length);
    s.bodies = NULL, s.bodies_length = 0;
    load_refused("load: no bodies, a null pointer", 3, length);
    for (size_t i = 0; i < WRONG_CACHES; i++) {
        s.cache_length = wrong_caches[i];
        load_refused(of_words("load: a cache of", wrong_caches[i]), 3, length);
    }
    s.cache = NULL, s.cache_length = 0;
    load_refused("load: no cache, a null pointer", 3, length);
    put(6, 9);
    load_refused("load: kind 9", 4, length);
    put(5, 0);
    load_refused("load: class 0", 5, length);
    put(5, SOFADUCK_NIL);
    load_refused("load: nil as a class", 6, length);
    put(header_at(), get(header_at()) - 1);
    load_refused("load: a method's header without its tag", 7, length);
    put(4, SOFADUCK_NIL);
    load_refused("load: nil as start selector", 8, length);
    long_chains();

    fresh(&s, &lent);
    const uint16_t expected[] = {(uint16_t)n, (uint16_t)b, OBJECT_box, SELECTOR_a, SOFADUCK_IDLE, 0, 0, 1};
    test("load: accepted", sofaduck_state_load(&s, image, length) == 0);
    test("load: registers", memcmp(s.registers, expected, sizeof expected) == 0);
    test("load: the cache is empty, what lies behind contents, bodies and cache is untouched",
         all(s.cache, SOFADUCK_CACHE, 0) && s.cache[SOFADUCK_CACHE] == 0xa5a5 && all(s.contents + 4 * n, SOFADUCK_CONTENTS - 4 * n, 0xa5a5)
             && all(s.bodies + b, SOFADUCK_BODIES - b, 0xa5a5));
    bool same = true;
    for (size_t i = 0; i < 4 * n; i++) same = same && s.contents[i] == get(5 + i);
    for (size_t i = 0; i < b; i++) same = same && s.bodies[i] == get(5 + 4 * n + i);
    test("load: words are in host order", same);
    s.contents_length = 4 * n, s.bodies_length = b;
    test("load: buffers that just fit", sofaduck_state_load(&s, image, length) == 0);
}

/* A list with each of the calls, and room for answers. */
static const uint16_t four_calls[] = {
    SOFADUCK_PLAY_BEGIN, OBJECT_box, SELECTOR_deeper, 0, SOFADUCK_PLAY_RUN, 0, 500, SOFADUCK_PLAY_DROP, SOFADUCK_PLAY_FORGET};
enum { FOUR_CALLS = sizeof four_calls / sizeof *four_calls };
static uint32_t answers[ANSWERS];

/* Every call but load on this state: refused by the number, results unwritten. */
static void all_refused(const char *why, uint32_t wanted) {
    uint32_t count = 77, reach = 78, bytes = 79, made = 80;
    uint64_t dictionaries = 81;
    char line[100];
    note();
#define ONE(name, call) snprintf(line, sizeof line, name ": %s", why), refused(line, wanted, call)
    ONE("begin", begin(&s, OBJECT_box, SELECTOR_a));
    ONE("run", sofaduck_run(SOFADUCK_STATE(&s), 1, &count, &reach, &dictionaries));
    ONE("drop", sofaduck_drop(SOFADUCK_STATE(&s)));
    ONE("forget", sofaduck_forget(SOFADUCK_STATE(&s)));
    memset(answers, 0x5a, sizeof answers);
    ONE("play", sofaduck_play(SOFADUCK_STATE(&s), four_calls, FOUR_CALLS, answers, ANSWERS, &made));
    ONE("play without calls", sofaduck_play(SOFADUCK_STATE(&s), NULL, 0, NULL, 0, &made));
    ONE("check", sofaduck_check(SOFADUCK_STATE(&s)));
    memset(output, 0x5a, sizeof output);
    ONE("save", sofaduck_save(SOFADUCK_STATE(&s), output, sizeof output, &bytes));
#undef ONE
    test_of("results stay unwritten", why,
            count == 77 && reach == 78 && dictionaries == 81 && bytes == 79 && all_bytes(output, sizeof output, 0x5a) && made == 80
                && all_bytes((const uint8_t *)answers, sizeof answers, 0x5a));
}

/* Entries of the cache: selector, class, method, dictionaries. */
static void caches(void) {
    static const uint16_t filled[][2] = {{SELECTOR_waiting, CLASS_Level24}, {SELECTOR_a, CLASS_Ring}, {SELECTOR_a, CLASS_Box}};
    static const uint16_t dictionaries[] = {SOFADUCK_CHAIN, 2, 1};
    char line[100];
    for (size_t i = 0; i < 3; i++) {
        const uint16_t selector = filled[i][0], class = filled[i][1], right = dictionaries[i];
        const uint16_t wrong[] = {(uint16_t)(right - 1), (uint16_t)(right + 1), (uint16_t)(right + 256), 65535, 0};
        loaded();
        uint16_t *const entry = s.cache + 4 * ((selector & class) / 2 % 64);
        keep(&s, selector, class);
        snprintf(line, sizeof line, "check: a lookup kept with its dictionaries, %u", (unsigned)right);
        test(line, sofaduck_check(SOFADUCK_STATE(&s)) == 0 && entry[0] == selector && entry[1] == class && entry[3] == right);
        for (size_t k = 0; k < (right == 1 ? 4 : 5); k++) { /* one less than 1 is 0 already */
            entry[3] = wrong[k];
            snprintf(line, sizeof line, "a lookup kept with %u dictionaries, not %u", (unsigned)wrong[k], (unsigned)right);
            all_refused(line, 11);
        }
        entry[3] = right;
        for (size_t k = 0; k < SOFADUCK_CACHE; k++) s.cache[k] = entry[k % 4];
        bool every = sofaduck_check(SOFADUCK_STATE(&s)) == 0;
        for (size_t k = 3; k < SOFADUCK_CACHE; k += 4) {
            s.cache[k] ^= 1;
            every = every && sofaduck_check(SOFADUCK_STATE(&s)) == 11;
            s.cache[k] ^= 1;
        }
        snprintf(line, sizeof line, "check: the same in each of 64 entries, %u", (unsigned)right);
        test(line, every);
    }
    for (size_t i = 0; i < 4; i++) {
        static const uint16_t alone[] = {1, SOFADUCK_CHAIN, 256, 65535};
        loaded();
        s.cache[4 * 21 * i + 3] = alone[i];
        snprintf(line, sizeof line, "an entry of the cache that is empty but for its dictionaries, %u", (unsigned)alone[i]);
        all_refused(line, 11);
    }
}

static void states(void) {
    loaded();
    s.contents_length = 4 * s.registers[SOFADUCK_N] - 1u;
    all_refused("contents a word short", 3);
    loaded();
    s.bodies = NULL, s.bodies_length = 0;
    all_refused("no bodies, a null pointer", 3);
    for (size_t i = 0; i < WRONG_CACHES; i++) {
        loaded();
        s.cache_length = wrong_caches[i];
        all_refused(of_words("a cache of", wrong_caches[i]), 3);
    }
    loaded();
    s.contents[1] = 9;
    all_refused("a spoiled word of contents", 11);
    static const struct {
        const char *what;
        uint16_t class, superclass;
    } spoiled[] = {
        {"a superclass that makes a chain of 25 classes", CLASS_Aside, CLASS_Level24},
        {"a class that is its own superclass", CLASS_Aside, CLASS_Aside},
        {"a superclass that makes a circle of 24 classes", CLASS_Object, CLASS_Level24},
    };
    for (size_t i = 0; i < 2 * (sizeof spoiled / sizeof *spoiled); i++) {
        char line[100];
        loaded();
        if (i % 2 == 1) begin(&s, OBJECT_bottom, SELECTOR_waiting);
        s.bodies[sofaduck_start(s.contents, spoiled[i / 2].class)] = spoiled[i / 2].superclass;
        snprintf(line, sizeof line, "%s%s", spoiled[i / 2].what, i % 2 == 1 ? ", a handler running" : "");
        all_refused(line, 11);
    }
    loaded();
    s.bodies[sofaduck_start(s.contents, CLASS_Aside)] = CLASS_Level23;
    test("check: a superclass that makes a second chain of 24 classes", sofaduck_check(SOFADUCK_STATE(&s)) == 0);
    loaded();
    s.cache[0] = SELECTOR_a;
    all_refused("a spoiled cache", 11);
    caches();
    loaded();
    s.registers[SOFADUCK_PHASE] = 6;
    all_refused("phase 6", 11);
    loaded();
    begin(&s, OBJECT_box, SELECTOR_forever);
    s.stack = NULL, s.stack_length = 0;
    all_refused("a frame, but no stack, a null pointer", 11);
    loaded();
    begin(&s, OBJECT_box, SELECTOR_forever);
    memset(lent.stack, 0x33, sizeof lent.stack);
    all_refused("other words in the stack of a handler", 11);
    fresh(&s, &lent);
    memset(s.registers, 0, sizeof s.registers);
    all_refused("registers of a refused load", 11);
}

static void begins(void) {
    const uint16_t two[] = {sofaduck_word(-3), sofaduck_word(39)}, wrong[] = {sofaduck_word(1), 0};
    uint32_t count = 77, reach = 78;
    uint64_t dictionaries = 79;
    loaded();
    note();
    refused("run: nothing begun", 12, sofaduck_run(SOFADUCK_STATE(&s), 0, &count, &reach, &dictionaries));
    test("count, reach and dictionaries stay unwritten: nothing begun", count == 77 && reach == 78 && dictionaries == 79);
    refused("begin: receiver 0", 8, begin(&s, 0, SELECTOR_a));
    refused("begin: a receiver behind the last object", 8, begin(&s, (uint16_t)(2 * s.registers[SOFADUCK_N] + 2), SELECTOR_a));
    refused("begin: nil as selector", 8, begin(&s, OBJECT_box, SOFADUCK_NIL));
    refused("begin: an integer as selector", 8, begin(&s, OBJECT_box, sofaduck_word(1)));
    refused("begin: an argument 0", 8, sofaduck_begin(SOFADUCK_STATE(&s), OBJECT_box, SELECTOR_a_b_, wrong, 2));
    refused("begin: no method", 9, begin(&s, SOFADUCK_TRUE, SELECTOR_a));
    refused("begin: no method, and another count", 9, sofaduck_begin(SOFADUCK_STATE(&s), sofaduck_word(5), SELECTOR_a, two, 2));
    refused("begin: no arguments, a null pointer, where two are taken", 10, begin(&s, OBJECT_box, SELECTOR_a_b_));
    refused("begin: an argument where none is taken", 10, sofaduck_begin(SOFADUCK_STATE(&s), OBJECT_box, SELECTOR_a, two, 1));
    s.stack_length = SOFADUCK_FRAME - 1;
    note();
    refused("begin: a stack of 17 words", 13, begin(&s, OBJECT_box, SELECTOR_forever));
    s.stack_length = SOFADUCK_LARGE_FRAME - 1;
    note();
    refused("begin: a stack of 37 words for a large frame", 13, begin(&s, OBJECT_box, SELECTOR_wide));
    s.stack = NULL, s.stack_length = 0;
    note();
    refused("begin: no stack, a null pointer", 13, begin(&s, OBJECT_box, SELECTOR_forever));
    test("begin: a field is answered without a stack",
         begin(&s, OBJECT_box, SELECTOR_a) == 0 && s.registers[SOFADUCK_PHASE] == SOFADUCK_FINISHED
             && sofaduck_integer(s.registers[SOFADUCK_VALUE]) == 7);
    test("check: no stack, a null pointer", sofaduck_check(SOFADUCK_STATE(&s)) == 0);
    s.stack = lent.stack, s.stack_length = SOFADUCK_FRAME;
    test("begin: a stack of 18 words", begin(&s, OBJECT_box, SELECTOR_forever) == 0 && s.registers[SOFADUCK_PHASE] == SOFADUCK_RUNNING);
    note();
    refused("begin: a handler is running", 12, begin(&s, OBJECT_box, SELECTOR_a));
    s.stack_length = SOFADUCK_LARGE_FRAME;
    test("drop: phase, top and value are 0",
         sofaduck_drop(SOFADUCK_STATE(&s)) == 0 && all(s.registers + SOFADUCK_PHASE, 3, 0) && sofaduck_check(SOFADUCK_STATE(&s)) == 0);
    test("begin: a stack of 38 words for a large frame", begin(&s, OBJECT_box, SELECTOR_wide) == 0);
    loaded();
    note();
    refused("begin: no method in 24 classes", 9, begin(&s, OBJECT_bottom, SELECTOR_a));
    test("begin: a method of the 24th class up is found, and answers",
         begin(&s, OBJECT_bottom, SELECTOR_yourself) == 0 && s.registers[SOFADUCK_VALUE] == OBJECT_bottom);
    test("check: a frame whose home is the 24th class up",
         begin(&s, OBJECT_bottom, SELECTOR_waiting) == 0 && sofaduck_run(SOFADUCK_STATE(&s), 9, &count, &reach, &dictionaries) == 0
             && count == 9 && dictionaries == 0 && sofaduck_check(SOFADUCK_STATE(&s)) == 0);
}

/* A handler of no arguments, run to its end or halt. */
static void goes(const char *what, uint16_t selector, unsigned phase, uint32_t made, uint16_t value, uint32_t needed, uint64_t through) {
    uint32_t count = 77, reach = 78;
    uint64_t dictionaries = 79;
    loaded();
    const bool ran = begin(&s, OBJECT_box, selector) == 0 && sofaduck_run(SOFADUCK_STATE(&s), 500, &count, &reach, &dictionaries) == 0;
    test(what, ran && s.registers[SOFADUCK_PHASE] == phase && count == made && s.registers[SOFADUCK_VALUE] == value
                   && reach == needed && dictionaries == through && sofaduck_check(SOFADUCK_STATE(&s)) == 0);
}

static void runs(void) {
    const uint16_t two[] = {sofaduck_word(-3), sofaduck_word(39)};
    uint32_t count = 77, reach = 78;
    uint64_t dictionaries = 79;
    goes("run: goes on", SELECTOR_forever, SOFADUCK_RUNNING, 500, 0, SOFADUCK_FRAME, 0);
    goes("run: not understood", SELECTOR_lost, SOFADUCK_NOT_UNDERSTOOD, 1, 0, SOFADUCK_FRAME, 0);
    goes("run: no boolean", SELECTOR_undecided, SOFADUCK_NO_BOOLEAN, 1, 0, SOFADUCK_FRAME, 0);
    goes("run: a large frame", SELECTOR_wide, SOFADUCK_FINISHED, 2, SOFADUCK_NIL, SOFADUCK_LARGE_FRAME, 0);
    goes("run: no stack room, 56 frames fit", SELECTOR_deeper, SOFADUCK_NO_STACK_ROOM, 111, 0, 56 * SOFADUCK_FRAME, 55);
    note();
    refused("run: after a halt", 12, sofaduck_run(SOFADUCK_STATE(&s), 1, &count, &reach, &dictionaries));
    test("count, reach and dictionaries stay unwritten: after a halt", count == 77 && reach == 78 && dictionaries == 79);
    test("begin: after a halt", begin(&s, OBJECT_box, SELECTOR_a) == 0 && s.registers[SOFADUCK_PHASE] == SOFADUCK_FINISHED);
    loaded();
    test("begin: two arguments in order",
         sofaduck_begin(SOFADUCK_STATE(&s), OBJECT_box, SELECTOR_a_b_, two, 2) == 0
             && sofaduck_run(SOFADUCK_STATE(&s), 0, &count, &reach, &dictionaries) == 0 && count == 0 && reach == SOFADUCK_FRAME
             && sofaduck_run(SOFADUCK_STATE(&s), 4294967295u, &count, &reach, &dictionaries) == 0 && count == 8 && reach == SOFADUCK_FRAME
             && s.registers[SOFADUCK_PHASE] == SOFADUCK_FINISHED && sofaduck_integer(s.registers[SOFADUCK_VALUE]) == -42
             && s.bodies[sofaduck_start(s.contents, OBJECT_box) + FIELD_Box_b] == two[1] && sofaduck_size(s.contents, OBJECT_box) == 2);
    goes("run: an object is made", SELECTOR_more, SOFADUCK_FINISHED, 5, (uint16_t)(2 * get(1) + 2), SOFADUCK_FRAME, 1);
    test("forget: the cache was filled and is empty",
         !all(s.cache, SOFADUCK_CACHE, 0) && sofaduck_forget(SOFADUCK_STATE(&s)) == 0 && all(s.cache, SOFADUCK_CACHE, 0));
    memset(lent.stack, 0x33, sizeof lent.stack);
    test("check: the stack's words are free after a handler has finished", sofaduck_check(SOFADUCK_STATE(&s)) == 0);
    test("N and B count it", s.registers[SOFADUCK_N] == get(1) + 1 && s.registers[SOFADUCK_B] == get(2) + 2);
    loaded();
    s.contents_length = 4 * get(1);
    test("run: no room for an object, new answers nil in a frame of its own",
         begin(&s, OBJECT_box, SELECTOR_more) == 0 && sofaduck_run(SOFADUCK_STATE(&s), 9, &count, &reach, &dictionaries) == 0
             && count == 6 && dictionaries == 1 && s.registers[SOFADUCK_VALUE] == SOFADUCK_NIL && reach == 2 * SOFADUCK_FRAME);
    bool kept = true;
    for (int k = -16384; k < 16384; k++)
        kept = kept && sofaduck_is_integer(sofaduck_word(k)) && sofaduck_integer(sofaduck_word(k)) == k;
    test("words of integers and back", kept && sofaduck_word(-1) == 65535 && sofaduck_word(-16384) == 32769 && !sofaduck_is_integer(SOFADUCK_NIL));
}

/* A list played on the state, and its calls made singly on a copy. Returns how many were made, where registers, every word and all answers are the
 * same, those behind the calls made too; else DIFFERENT. */
static const uint32_t DIFFERENT = 4294967295u;
static uint32_t plays(const uint16_t *calls, size_t calls_length, size_t answers_length) {
    static uint32_t expected[ANSWERS];
    static words lent_copy;
    uint32_t made = 80;
    sofaduck_state copy = s;
    copy.contents = lent_copy.contents, copy.bodies = lent_copy.bodies, copy.stack = lent_copy.stack, copy.cache = lent_copy.cache;
    lent_copy = lent;
    memset(answers, 0x5a, sizeof answers);
    memset(expected, 0x5a, sizeof expected);
    const uint32_t count = singly(&copy, calls, calls_length, expected, answers_length);
    const uint32_t number = sofaduck_play(SOFADUCK_STATE(&s), calls, calls_length, answers, answers_length, &made);
    const bool same = number == 0 && made == count && memcmp(answers, expected, sizeof answers) == 0
        && memcmp(&lent, &lent_copy, sizeof lent) == 0 && memcmp(s.registers, copy.registers, sizeof s.registers) == 0;
    return same ? made : DIFFERENT;
}

/* Every call, every refusal of one and every phase, on a stack that holds two frames and no large one. */
static void every_call(void) {
    static const uint16_t list[] = {
        SOFADUCK_PLAY_RUN, 0, 0,
        SOFADUCK_PLAY_BEGIN, 0, SELECTOR_a, 0,
        SOFADUCK_PLAY_BEGIN, SOFADUCK_TRUE, SELECTOR_a, 0,
        SOFADUCK_PLAY_BEGIN, OBJECT_box, SELECTOR_a_b_, 1, 3,
        SOFADUCK_PLAY_BEGIN, OBJECT_box, SELECTOR_wide, 0,
        SOFADUCK_PLAY_BEGIN, OBJECT_box, SELECTOR_a, 0,
        SOFADUCK_PLAY_RUN, 0, 1,
        SOFADUCK_PLAY_BEGIN, OBJECT_box, SELECTOR_a_b_, 2, 1, 5,
        SOFADUCK_PLAY_RUN, 0, 6,
        SOFADUCK_PLAY_BEGIN, OBJECT_box, SELECTOR_a, 0,
        SOFADUCK_PLAY_RUN, 0, 6,
        SOFADUCK_PLAY_BEGIN, OBJECT_box, SELECTOR_more, 0,
        SOFADUCK_PLAY_RUN, 0, 5,
        SOFADUCK_PLAY_FORGET,
        SOFADUCK_PLAY_BEGIN, OBJECT_box, SELECTOR_lost, 0,
        SOFADUCK_PLAY_RUN, 0, 9,
        SOFADUCK_PLAY_BEGIN, OBJECT_box, SELECTOR_undecided, 0,
        SOFADUCK_PLAY_RUN, 0, 9,
        SOFADUCK_PLAY_DROP,
        SOFADUCK_PLAY_BEGIN, OBJECT_box, SELECTOR_deeper, 0,
        SOFADUCK_PLAY_RUN, 0, 9,
        SOFADUCK_PLAY_RUN, 0, 9,
        SOFADUCK_PLAY_BEGIN, OBJECT_box, SELECTOR_forever, 0,
        SOFADUCK_PLAY_RUN, 1, 2,
        SOFADUCK_PLAY_DROP,
        SOFADUCK_PLAY_DROP,
    };
    const uint32_t expected[][SOFADUCK_ANSWER] = {
        {12}, {8}, {9}, {10}, {13},                                             /* refused, and nothing is running behind them */
        {0}, {12},                                                              /* answered at once: nothing to run */
        {0}, {0, SOFADUCK_RUNNING, 6, 0, 18, 0, 0},
        {12}, {0, SOFADUCK_FINISHED, 2, sofaduck_word(-2), 18, 0, 0},           /* no begin: the run goes on with the old handler */
        {0}, {0, SOFADUCK_FINISHED, 5, 2 * get(1) + 2, 18, 0, 1}, {0},
        {0}, {0, SOFADUCK_NOT_UNDERSTOOD, 1, 0, 18, 0, 0},
        {0}, {0, SOFADUCK_NO_BOOLEAN, 1, 0, 18, 0, 0}, {0},                     /* a begin after a halt */
        {0}, {0, SOFADUCK_NO_STACK_ROOM, 3, 0, 36, 0, 1}, {12},                 /* of its two sends the second halts */
        {0}, {0, SOFADUCK_RUNNING, 65538, 0, 18, 0, 0}, {0}, {0},               /* the high word of a grant is its first */
    };
    loaded();
    s.stack_length = SOFADUCK_LARGE_FRAME - 1;
    test("play: every call, every refusal and every phase, as the same calls singly",
         plays(list, sizeof list / sizeof *list, ANSWERS) == sizeof expected / sizeof *expected && memcmp(answers, expected, sizeof expected) == 0);
}

/* What a list ends at, behind a begin and a run that make an object. */
static void ends(void) {
    enum { FRONT = 7 };
    static const struct {
        const char *what;
        uint16_t words[5];
        size_t length, room;
        uint32_t made;
    } tails[] = {
        {"its words", {0}, 0, ANSWERS, 2},
        {"a begin alone", {SOFADUCK_PLAY_BEGIN}, 1, ANSWERS, 2},
        {"a begin without a count", {SOFADUCK_PLAY_BEGIN, OBJECT_box, SELECTOR_a}, 3, ANSWERS, 2},
        {"a begin that lacks an argument", {SOFADUCK_PLAY_BEGIN, OBJECT_box, SELECTOR_a_b_, 2, 1}, 5, ANSWERS, 2},
        {"a begin that lacks 65,534", {SOFADUCK_PLAY_BEGIN, OBJECT_box, SELECTOR_a, 65535, 1}, 5, ANSWERS, 2},
        {"a run alone", {SOFADUCK_PLAY_RUN}, 1, ANSWERS, 2},
        {"a run without its low word", {SOFADUCK_PLAY_RUN, 0}, 2, ANSWERS, 2},
        {"first word 4", {4, SOFADUCK_PLAY_DROP}, 2, ANSWERS, 2},
        {"first word 65,535", {65535, SOFADUCK_PLAY_DROP}, 2, ANSWERS, 2},
        {"first word 256", {256, SOFADUCK_PLAY_DROP}, 2, ANSWERS, 2},
        {"room for no word of an answer", {SOFADUCK_PLAY_DROP}, 1, 0, 0},
        {"room for 6 words of answers", {SOFADUCK_PLAY_DROP}, 1, 6, 0},
        {"room for 7", {SOFADUCK_PLAY_DROP}, 1, 7, 1},
        {"room for 13", {SOFADUCK_PLAY_DROP}, 1, 13, 1},
        {"room for 14", {SOFADUCK_PLAY_DROP}, 1, 14, 2},
        {"room for 20", {SOFADUCK_PLAY_DROP}, 1, 20, 2},
        {"room for 21", {SOFADUCK_PLAY_DROP}, 1, 21, 3},
    };
    uint16_t list[FRONT + 5] = {SOFADUCK_PLAY_BEGIN, OBJECT_box, SELECTOR_more, 0, SOFADUCK_PLAY_RUN, 0, 9};
    for (size_t i = 0; i < sizeof tails / sizeof *tails; i++) {
        char line[100];
        loaded();
        memcpy(list + FRONT, tails[i].words, sizeof tails[i].words);
        snprintf(line, sizeof line, "play: a list ends at %s", tails[i].what);
        test(line, plays(list, FRONT + tails[i].length, tails[i].room) == tails[i].made);
    }
}

/* Lists of random calls, some of them cut, with room for all or some of the answers. */
static void random_lists(void) {
    static const uint16_t selectors[] = {SELECTOR_a,      SELECTOR_a_b_, SELECTOR_forever, SELECTOR_lost, SELECTOR_undecided,
                                         SELECTOR_deeper, SELECTOR_wide, SELECTOR_more,    SOFADUCK_NIL,  SELECTOR_found};
    const uint16_t values[] = {OBJECT_box, OBJECT_box, OBJECT_box, sofaduck_word(7), SOFADUCK_TRUE, 0};
    unsigned numbers = 0, phases = 0; /* a bit for each that was answered */
    bool same = true;
    for (unsigned i = 0; i < ROUNDS && same; i++) {
        uint16_t list[200];
        size_t length = 0;
        if (i % 50 == 0) {
            loaded();
            s.stack_length = 20 + below(80);
        }
        for (unsigned calls = below(20); calls > 0; calls--) {
            const unsigned which = below(41), given = below(3);
            if (which < 16) {
                list[length++] = SOFADUCK_PLAY_BEGIN;
                list[length++] = values[below(6)];
                list[length++] = selectors[below(10)];
                list[length++] = (uint16_t)given;
                for (unsigned k = 0; k < given; k++) list[length++] = values[below(6)];
            } else if (which < 32) {
                list[length++] = SOFADUCK_PLAY_RUN;
                list[length++] = below(20) == 0;
                list[length++] = (uint16_t)below(30);
            } else list[length++] = (uint16_t)(which < 36 ? SOFADUCK_PLAY_DROP : which < 40 ? SOFADUCK_PLAY_FORGET : 4 + below(65532));
        }
        if (below(3) == 0) length = below((unsigned)length + 1);
        const uint32_t made = plays(list, length, below(3) == 0 ? below(84) : ANSWERS);
        same = made != DIFFERENT;
        for (uint32_t k = 0; same && k < made; k++) {
            numbers |= 1u << answers[SOFADUCK_ANSWER * k + SOFADUCK_ANSWER_NUMBER];
            phases |= 1u << answers[SOFADUCK_ANSWER * k + SOFADUCK_ANSWER_PHASE];
        }
    }
    test("play: random lists, as the same calls singly", same);
    test("play: random lists answer every number and phase",
         numbers == (1u << 0 | 1u << 8 | 1u << 9 | 1u << 10 | 1u << 12 | 1u << 13) && phases == 63);
}

static void lists(void) {
    static uint16_t most[4 + 65535 + 1] = {SOFADUCK_PLAY_BEGIN, OBJECT_box, SELECTOR_a, 65535};
    uint32_t made = 80;
    loaded();
    begin(&s, OBJECT_box, SELECTOR_forever);
    note();
    test("play: no calls and no room for answers, null pointers",
         sofaduck_play(SOFADUCK_STATE(&s), NULL, 0, NULL, 0, &made) == 0 && made == 0 && unchanged());
    made = 80;
    test("play: calls and no room, a null pointer",
         sofaduck_play(SOFADUCK_STATE(&s), four_calls, FOUR_CALLS, NULL, 0, &made) == 0 && made == 0 && unchanged());
    test("play: no calls, a null pointer, and room", plays(NULL, 0, ANSWERS) == 0 && unchanged());
    every_call();
    ends();
    for (size_t i = 4; i < 4 + 65535; i++) most[i] = 1;
    most[4 + 65535] = SOFADUCK_PLAY_DROP;
    test("play: a begin of 65,535 arguments is refused by 10, and the list goes on",
         plays(most, sizeof most / sizeof *most, ANSWERS) == 2 && answers[0] == 10 && answers[SOFADUCK_ANSWER] == 0);
    random_lists();
}

static void saves(void) {
    uint32_t bytes = 79;
    loaded();
    note();
    memset(output, 0x5a, sizeof output);
    refused("save: no output, a null pointer", 3, sofaduck_save(SOFADUCK_STATE(&s), NULL, 0, &bytes));
    refused("save: output a byte short", 3, sofaduck_save(SOFADUCK_STATE(&s), output, length - 1, &bytes));
    test("length and output stay unwritten: output too short", bytes == 79 && all_bytes(output, sizeof output, 0x5a));
    test("save: just enough output, the image's own bytes",
         sofaduck_save(SOFADUCK_STATE(&s), output, length, &bytes) == 0 && bytes == length && memcmp(output, image, length) == 0);
    test("save: what lies behind the image is untouched", sofaduck_save(SOFADUCK_STATE(&s), output, sizeof output, &bytes) == 0 && bytes == length
                                                              && all_bytes(output + length, sizeof output - length, 0x5a));
    test("save: the state is untouched", unchanged());
    begin(&s, OBJECT_box, SELECTOR_forever);
    test("save: while a handler runs", sofaduck_save(SOFADUCK_STATE(&s), output, sizeof output, &bytes) == 0 && bytes == length);
}

/* at:, at:put: or size on an object, by begin at once, by a method that sends it and is run, or by that method in a list. Returns what is answered, nil
 * where it fails, or 0. */
static uint16_t asked(unsigned how, unsigned which, uint16_t object, const uint16_t arguments[2]) {
    static const uint16_t at_once[] = {SELECTOR_at_, SELECTOR_at_put_, SELECTOR_size}, sent[] = {SELECTOR_item_, SELECTOR_item_put_, SELECTOR_count};
    const uint16_t selector = how == 0 ? at_once[which] : sent[which];
    const size_t given = (which + 1) % 3;
    uint32_t count = 0, reach = 0, number = 0;
    uint64_t dictionaries = 0;
    if (how < 2) {
        number = sofaduck_state_begin(&s, object, selector, arguments, given);
        if (number == 0 && s.registers[SOFADUCK_PHASE] == SOFADUCK_RUNNING) number = sofaduck_state_run(&s, 20, &count, &reach, &dictionaries);
    } else {
        uint16_t list[9];
        sofaduck_calls calls = {list, 9, 0, 0};
        sofaduck_put_begin(&calls, object, selector, arguments, given);
        sofaduck_put_run(&calls, 20);
        number = sofaduck_state_play(&s, &calls, answers, ANSWERS, &count);
    }
    return number == 0 && s.registers[SOFADUCK_PHASE] == SOFADUCK_FINISHED ? s.registers[SOFADUCK_VALUE] : 0;
}

/* Whether at:, at:put: and size find the elements of an object behind its named fields, and no other word changes. Each word has a number of its own. */
static bool elements_of(uint16_t object, int named, int elements) {
    const uint16_t value = sofaduck_word(-5);
    const int indices[] = {-16384, -named, -1, 0, 1, 2, named, named + 1, elements - 1, elements, elements + 1, elements + named, 16383};
    uint16_t *const body = s.bodies + sofaduck_start(s.contents, object);
    bool fine = sofaduck_size(s.contents, object) == (size_t)(named + elements);
    for (int k = 0; k < named + elements; k++) body[k] = sofaduck_word(k % 16000);
    for (size_t i = 0; i < sizeof indices / sizeof *indices; i++) {
        const int index = indices[i] > 16383 ? 16383 : indices[i];
        const uint16_t arguments[] = {sofaduck_word(index), value};
        for (unsigned which = 0; which < 3; which++) {
            const bool right = elements <= 16383 && (which == 2 || (index >= 1 && index <= elements));
            uint16_t *const at = body + (right && which < 2 ? named + index - 1 : 0), old = *at;
            const uint16_t answer = !right ? SOFADUCK_NIL : which == 0 ? old : which == 1 ? value : sofaduck_word(elements);
            for (unsigned how = 0; how < 3; how++) {
                note();
                fine = fine && asked(how, which, object, arguments) == answer;
                if (right && which == 1) fine = fine && *at == value;
                *at = old;
                fine = fine && memcmp(lent.bodies, lent_before.bodies, sizeof lent.bodies) == 0
                    && memcmp(lent.contents, lent_before.contents, sizeof lent.contents) == 0 && s.registers[SOFADUCK_N] == before.registers[SOFADUCK_N];
            }
        }
    }
    return fine;
}

/* Elements behind named fields: of objects in the image, and of new ones up to as many elements as there can be. */
static void elements(void) {
    static const int counts[] = {0, 1, 4, 16382, 16383, 16384}, fields[] = {FIELD_Ring_next + 1, 255};
    const uint16_t two[] = {sofaduck_word(700), sofaduck_word(800)}, one[] = {sofaduck_word(1), sofaduck_word('b')};
    uint32_t count, reach;
    uint64_t dictionaries;
    char line[100];
    loaded();
    test("elements: behind named fields, in an object of the image", elements_of(OBJECT_ring, fields[0], 3));
    test("elements: none, in a body of named fields alone", elements_of(OBJECT_bare, fields[0], 0));
    for (unsigned i = 0; i < 2 * sizeof counts / sizeof *counts; i++) {
        const int named = fields[i % 2], elements = counts[i / 2];
        const uint16_t class = i % 2 == 0 ? CLASS_Ring : CLASS_Wide, argument = sofaduck_word(elements > 16383 ? 16383 : elements);
        loaded();
        s.bodies[sofaduck_start(s.contents, class) + 2] = sofaduck_word(named);
        const unsigned made = sofaduck_state_begin(&s, class, SELECTOR_new_, &argument, 1) == 0 ? s.registers[SOFADUCK_VALUE] : 0;
        /* one more than new: makes, and than at:, at:put: and size take */
        if (elements > 16383) s.contents[4 * (s.registers[SOFADUCK_N] - 1u) + 3]++, s.bodies[s.registers[SOFADUCK_B]++] = SOFADUCK_NIL;
        snprintf(line, sizeof line, "elements: %d behind %d named fields", elements, named);
        test(line, made == 2u * s.registers[SOFADUCK_N] && elements_of((uint16_t)made, named, elements));
    }
    bool none = true, bytes = true;
    loaded();
    for (unsigned how = 0; how < 3; how++) {
        for (unsigned which = 0; which < 3; which++) none = none && asked(how, which, OBJECT_box, one) == SOFADUCK_NIL;
        bytes = bytes && asked(how, 0, SELECTOR_a, one) == sofaduck_word(how == 0 ? 'a' : 'b') && asked(how, 1, SELECTOR_a, one) == one[1]
            && asked(how, 2, SELECTOR_a, NULL) == sofaduck_word(1);
    }
    test("elements: an object of form 0 has none", none);
    test("elements: of an object of bytes", bytes && sofaduck_byte(s.bodies + sofaduck_start(s.contents, SELECTOR_a), 0) == 'b');
    loaded();
    note();
    uint16_t *const ring = lent_before.bodies + sofaduck_start(s.contents, OBJECT_ring);
    ring[FIELD_Ring_a] = two[0], ring[FIELD_Ring_b] = two[1];
    test("elements: a method that stores into named fields leaves them",
         sofaduck_state_begin(&s, OBJECT_ring, SELECTOR_a_b_, two, 2) == 0 && sofaduck_state_run(&s, 20, &count, &reach, &dictionaries) == 0
             && s.registers[SOFADUCK_VALUE] == sofaduck_word(-100) && memcmp(lent.bodies, lent_before.bodies, sizeof lent.bodies) == 0);
}

/* What an engine may write itself: valid words into fields, bytes into objects of bytes, while a handler runs. */
static void writes(void) {
    unsigned fields = 0, bytes = 0;
    uint32_t count, reach;
    uint64_t dictionaries;
    bool accepted = true;
    loaded();
    begin(&s, OBJECT_box, SELECTOR_deeper);
    for (unsigned i = 0; i < 10 * ROUNDS; i++) {
        const unsigned n = s.registers[SOFADUCK_N];
        const uint16_t object = (uint16_t)(2 + 2 * below(n));
        const unsigned kind = s.contents[4 * (object / 2 - 1) + 1], size = (unsigned)sofaduck_size(s.contents, object);
        uint16_t *const body = s.bodies + sofaduck_start(s.contents, object);
        if (size == 0 || kind > SOFADUCK_BYTES) continue;
        const unsigned k = below(size), old = body[k / 2];
        if (kind == SOFADUCK_FIELDS) body[k] = (uint16_t)(below(2) == 0 ? 2 * below(32768) + 1 : 2 + 2 * below(n)), fields++;
        else body[k / 2] = (uint16_t)(k % 2 == 0 ? old % 256 + 256 * below(256) : old - old % 256 + below(256)), bytes++;
        accepted = accepted && sofaduck_check(SOFADUCK_STATE(&s)) == 0;
        if (i % 500 == 0) accepted = accepted && sofaduck_run(SOFADUCK_STATE(&s), 1, &count, &reach, &dictionaries) == 0;
    }
    test("check: accepts valid words that an engine wrote into fields, and bytes", accepted && fields > 100 && bytes > 100);
    uint16_t *const field = s.bodies + sofaduck_start(s.contents, OBJECT_box) + FIELD_Box_b;
    const uint16_t old = *field;
    *field = 0;
    note();
    refused("check: a field that is 0", 11, sofaduck_check(SOFADUCK_STATE(&s)));
    *field = (uint16_t)(2 * s.registers[SOFADUCK_N] + 2);
    note();
    refused("check: a field that names an object behind the last", 11, sofaduck_check(SOFADUCK_STATE(&s)));
    *field = old;
    test("the selector a has one byte", sofaduck_size(s.contents, SELECTOR_a) == 1 && sofaduck_check(SOFADUCK_STATE(&s)) == 0);
    s.bodies[sofaduck_start(s.contents, SELECTOR_a)] |= 1;
    note();
    refused("check: a byte behind an odd number of them", 11, sofaduck_check(SOFADUCK_STATE(&s)));
}

/* Each call on a C stack of SOFADUCK_CALL_STACK bytes and some for the thread itself, a guard below, painted to see how far it went. */
static uint32_t count_made, reach_made, bytes_made;
static uint64_t dictionaries_made;
static uint32_t call_load(void) { return sofaduck_state_load(&s, image, length); }
static uint32_t call_begin(void) { return begin(&s, OBJECT_box, SELECTOR_deeper); }
static uint32_t call_run(void) { return sofaduck_run(SOFADUCK_STATE(&s), 500, &count_made, &reach_made, &dictionaries_made); }
/* to its end, through a send that fails */
static uint32_t call_failing(void) { return sofaduck_run(SOFADUCK_STATE(&s), 500, &count_made, &reach_made, &dictionaries_made); }
static uint32_t call_play_failing(void) {
    const uint16_t list[] = {
        SOFADUCK_PLAY_BEGIN, s.registers[SOFADUCK_START_RECEIVER], s.registers[SOFADUCK_START_SELECTOR], 0, SOFADUCK_PLAY_RUN, 0, 500};
    return sofaduck_play(SOFADUCK_STATE(&s), list, sizeof list / sizeof *list, answers, ANSWERS, &count_made);
}
static uint32_t call_drop(void) { return sofaduck_drop(SOFADUCK_STATE(&s)); }
static uint32_t call_forget(void) { return sofaduck_forget(SOFADUCK_STATE(&s)); }
static uint32_t call_play(void) {
    return sofaduck_play(SOFADUCK_STATE(&s), four_calls, FOUR_CALLS, answers, ANSWERS, &count_made);
}
static uint32_t call_check(void) { return sofaduck_check(SOFADUCK_STATE(&s)); }
static uint32_t call_save(void) { return sofaduck_save(SOFADUCK_STATE(&s), output, sizeof output, &bytes_made); }

static uint32_t (*called)(void);
static uint32_t answered;
static const uint8_t *entered;

static void *in_thread(void *unused) {
    const uint8_t here = 0;
    entered = &here;
    answered = called();
    return unused;
}

static void small_stack(const char *name, uint32_t (*call)(void)) {
    const size_t size = SOFADUCK_CALL_STACK + OWN_STACK;
    uint8_t *const low = mmap(NULL, GUARD + size, PROT_READ | PROT_WRITE, MAP_PRIVATE | MAP_ANONYMOUS, -1, 0);
    pthread_attr_t attributes;
    pthread_t thread;
    char line[100];
    if (low == MAP_FAILED || mprotect(low, GUARD, PROT_NONE) != 0) {
        test("memory for a small stack", false);
        return;
    }
    memset(low + GUARD, PAINT, size);
    called = call;
    if (pthread_attr_init(&attributes) != 0 || pthread_attr_setstack(&attributes, low + GUARD, size) != 0
        || pthread_create(&thread, &attributes, in_thread, NULL) != 0 || pthread_join(thread, NULL) != 0) {
        test("a thread with a small stack", false);
        return;
    }
    const uint8_t *deepest = low + GUARD;
    while (*deepest == PAINT) deepest++;
    const size_t used = (size_t)(entered - deepest);
    snprintf(line, sizeof line, "%s in a thread with a small stack: %zu bytes of it", name, used);
    test(line, answered == 0 && used < SOFADUCK_CALL_STACK);
    munmap(low, GUARD + size);
}

static void small_stacks(void) {
    fresh(&s, &lent);
    small_stack("load", call_load);
    small_stack("begin", call_begin);
    small_stack("run", call_run);
    small_stack("drop", call_drop);
    small_stack("forget", call_forget);
    small_stack("play", call_play);
    small_stack("check", call_check);
    small_stack("save", call_save);
    fresh(&s, &lent);
    bool fine = sofaduck_state_load(&s, messages, messages_length) == 0;
    const unsigned n = s.registers[SOFADUCK_N];
    fine = fine && begin(&s, s.registers[SOFADUCK_START_RECEIVER], s.registers[SOFADUCK_START_SELECTOR]) == 0;
    small_stack("run with a send that fails", call_failing);
    small_stack("play with a send that fails", call_play_failing);
    test("each of the two made a message", fine && s.registers[SOFADUCK_N] == n + 4 && s.registers[SOFADUCK_PHASE] == SOFADUCK_FINISHED);
}

/* The same calls on two states at once. */
static void *many_calls(void *state) {
    sofaduck_state *const t = state;
    static const uint16_t selectors[] = {SELECTOR_more, SELECTOR_deeper, SELECTOR_a, SELECTOR_lost};
    uint32_t count, reach;
    uint64_t dictionaries;
    sofaduck_state_load(t, image, length);
    for (unsigned i = 0; i < ROUNDS; i++) {
        begin(t, OBJECT_box, selectors[i % 4]);
        sofaduck_state_run(t, i % 200, &count, &reach, &dictionaries);
        if (t->registers[SOFADUCK_PHASE] == SOFADUCK_RUNNING && i % 3 == 0) sofaduck_state_drop(t);
    }
    return NULL;
}

static void threads(void) {
    static sofaduck_state one, two, alone;
    static words of_one, of_two, of_alone;
    pthread_t first, second;
    fresh(&one, &of_one), fresh(&two, &of_two), fresh(&alone, &of_alone);
    const bool started = pthread_create(&first, NULL, many_calls, &one) == 0 && pthread_create(&second, NULL, many_calls, &two) == 0;
    test("two states on two threads come to the same words, and to those of one alone",
         started && pthread_join(first, NULL) == 0 && pthread_join(second, NULL) == 0 && many_calls(&alone) == NULL
             && memcmp(&of_one, &of_two, sizeof of_one) == 0 && memcmp(&of_one, &of_alone, sizeof of_one) == 0
             && memcmp(one.registers, two.registers, sizeof one.registers) == 0
             && memcmp(one.registers, alone.registers, sizeof one.registers) == 0 && one.registers[SOFADUCK_N] > get(1));
}

int main(int argc, char **argv) {
    FILE *file = argc == 3 ? fopen(argv[1], "rb") : NULL, *second = argc == 3 ? fopen(argv[2], "rb") : NULL;
    if (file == NULL || second == NULL || (length = fread(image, 1, sizeof image, file)) < 10
        || (messages_length = fread(messages, 1, sizeof messages, second)) < 10) {
        fprintf(stderr, "usage: border IMAGE MESSAGES, of border.source and messages.source\n");
        return 2;
    }
    fclose(file), fclose(second);
    small_stacks();
    loads();
    states();
    begins();
    runs();
    lists();
    saves();
    elements();
    writes();
    threads();
    return failed;
}
