/* Editions and sends that fail, from outside: what edition 2 refuses, in images and in states; the array and the message that a failed send makes, the
 * frame that takes it and every other word; halts that leave every word; limits of room; lists of calls; reach; save and load. Numbers are worked out
 * by hand from messages.source. A line for each test; the exit status says whether all passed. Usage: messages IMAGE BARE ONE, of messages.source, of
 * an image of edition 2 without methods, and of one with a single method under object 6. */
#include "singly.h"
#include "tests.h"
#include "messages.h"
#include <stdlib.h>

/* Buffers longer than an image can use, so that its limits are met and not theirs. */
enum { CONTENTS = SOFADUCK_CONTENTS + 16, BODIES = SOFADUCK_BODIES + 64, STACK = 400, ROUNDS = 1500, ANSWERS = 200 };

typedef struct {
    uint16_t contents[CONTENTS], bodies[BODIES], stack[STACK], cache[SOFADUCK_CACHE];
} words;

typedef struct {
    uint8_t bytes[SOFADUCK_IMAGE];
    size_t length;
} file;

static file image, bare, one, other;
static sofaduck_state s, before;
static words lent, lent_before;

static void fresh(void) {
    memset(&lent, 0xa5, sizeof lent);
    memset(s.registers, 0xa5, sizeof s.registers);
    s.contents = lent.contents, s.contents_length = CONTENTS;
    s.bodies = lent.bodies, s.bodies_length = BODIES;
    s.stack = lent.stack, s.stack_length = STACK;
    s.cache = lent.cache, s.cache_length = SOFADUCK_CACHE;
}

static unsigned get(const file *f, size_t place) { return f->bytes[2 * place] * 256u + f->bytes[2 * place + 1]; }

static void put(file *f, size_t place, unsigned word) {
    f->bytes[2 * place] = (uint8_t)(word >> 8);
    f->bytes[2 * place + 1] = (uint8_t)word;
}

static void loaded(const file *f) {
    fresh();
    if (sofaduck_state_load(&s, f->bytes, f->length) == 0) return;
    test("an image is loaded", false);
    exit(1);
}

static void note(void) {
    before = s;
    lent_before = lent;
}

static bool as_before(void) {
    return memcmp(&lent, &lent_before, sizeof lent) == 0 && memcmp(s.registers, before.registers, sizeof s.registers) == 0;
}

/* A load of `other`: what it answers and leaves. Accepted, the last register is the edition; refused, all eight are 0, by 4 and above the image's words
 * are, and all else is as before. */
static void loads(const char *what, uint32_t wanted) {
    const size_t n = 4 * (size_t)get(&other, 1), b = get(&other, 2);
    const unsigned edition = get(&other, 0);
    char line[200];
    fresh();
    note();
    const uint32_t got = sofaduck_state_load(&s, other.bytes, other.length);
    bool fine = got == wanted;
    if (got == 0) fine = fine && s.registers[SOFADUCK_EDITION] == edition && s.registers[SOFADUCK_N] == n / 4 && sofaduck_state_check(&s) == 0;
    else fine = fine && all(s.registers, 8, 0) && (got < 4 || (all(lent.contents, n, 0) && all(lent.bodies, b, 0)));
    memcpy(s.registers, before.registers, sizeof s.registers);
    if (got == 0 || got >= 4) {
        memcpy(lent.contents, lent_before.contents, 2 * n);
        memcpy(lent.bodies, lent_before.bodies, 2 * b);
    }
    if (got == 0) memcpy(lent.cache, lent_before.cache, sizeof lent.cache);
    snprintf(line, sizeof line, "load, edition %u: %s: %u", edition, what, (unsigned)wanted);
    if (got != wanted) printf("it gave %u\n", (unsigned)got);
    test(line, fine && as_before());
}

/* The same image as one of edition 1 and of edition 2. */
static void in_both(const char *what, uint32_t first, uint32_t second) {
    put(&other, 0, 1);
    loads(what, first);
    put(&other, 0, 2);
    loads(what, second);
}

/* Where the entry of an object and its body begin, in an image's words. */
static size_t entry_at(unsigned number) { return 5 + 4 * (number - 1u); }
static size_t body_at(const file *f, unsigned number) { return 5 + 4 * (size_t)get(f, 1) + get(f, entry_at(number) + 2); }

static void editions(void) {
    static const unsigned wrong[] = {0, 3, 256, 512, 65535};
    static const struct {
        const char *what;
        unsigned n, edition;
        uint32_t number;
    } small[] = {
        {"4 objects", 4, 1, 2}, {"5 objects, all 0", 5, 1, 5}, {"7 objects, all 0", 7, 1, 5}, {"4 objects", 4, 2, 2},
        {"5 objects, all 0", 5, 2, 2}, {"7 objects, all 0", 7, 2, 2}, {"8 objects, all 0", 8, 2, 5},
    };
    for (size_t i = 0; i < sizeof wrong / sizeof *wrong; i++) {
        other = bare;
        put(&other, 0, wrong[i]);
        loads("no such edition", 2);
        other.length--;
        loads("no such edition, and a byte too few", 1);
    }
    for (size_t i = 0; i < sizeof small / sizeof *small; i++) {
        memset(&other, 0, sizeof other);
        put(&other, 0, small[i].edition), put(&other, 1, small[i].n);
        other.length = 10 + 8 * (size_t)small[i].n;
        loads(small[i].what, small[i].number);
    }
    memset(&other, 0, sizeof other);
    put(&other, 0, 2), put(&other, 1, 5);
    s.contents_length = 0;
    other.length = 10 + 8 * 5;
    test("load, edition 2: 5 objects and no contents: 2",
         sofaduck_load(other.bytes, other.length, NULL, 0, NULL, 0, NULL, 0, s.registers) == 2 && all(s.registers, 8, 0));

    /* objects 6 to 8: without methods and instances of theirs edition 1 takes them as they are */
    other = bare;
    in_both("objects 6 to 8 as they should be", 0, 0);
    const size_t six = entry_at(6), seven = body_at(&bare, 7), eight = body_at(&bare, 8);
    const unsigned bytes = get(&bare, six + 3);
    other = bare;
    put(&other, six, SOFADUCK_ARRAY_CLASS), put(&other, six + 1, SOFADUCK_FIELDS), put(&other, six + 3, (bytes + 1) / 2);
    for (unsigned k = 0; k < (bytes + 1) / 2; k++) put(&other, body_at(&bare, 6) + k, sofaduck_word(0));
    in_both("object 6 of fields", 0, 6);
    other = bare;
    put(&other, entry_at(7) + 1, SOFADUCK_LIST);
    in_both("object 7 a list", 0, 6);
    other = bare;
    put(&other, entry_at(8) + 1, SOFADUCK_LIST);
    in_both("object 8 a list", 0, 6);
    static const int fields[] = {0, 1, 2, 3, 255};
    for (size_t i = 0; i < sizeof fields / sizeof *fields; i++) {
        char line[100];
        other = bare;
        put(&other, seven + 2, sofaduck_word(fields[i]));
        snprintf(line, sizeof line, "object 7 with %d fields", fields[i]);
        in_both(line, 0, fields[i] == 2 ? 0 : 6);
        other = bare;
        put(&other, eight + 2, sofaduck_word(fields[i]));
        snprintf(line, sizeof line, "object 8 with %d fields", fields[i]);
        in_both(line, 0, fields[i] == 0 ? 0 : 6);
    }
    other = bare;
    put(&other, seven + 3, sofaduck_word(1));
    in_both("object 7 of form 1", 0, 6);
    for (int form = 0; form < 4; form++) {
        char line[100];
        other = bare;
        put(&other, eight + 3, sofaduck_word(form));
        snprintf(line, sizeof line, "object 8 of form %d", form);
        in_both(line, 0, form == 1 ? 0 : 6);
    }
    for (int form = 2; form < 4; form++) {
        other = bare;
        put(&other, seven + 2, sofaduck_word(0)), put(&other, seven + 3, sofaduck_word(form));
        in_both("object 7 of form 2 or 3", 0, 6);
    }
    other = bare;
    put(&other, eight + 2, sofaduck_word(1)), put(&other, 4, SOFADUCK_NIL);
    in_both("object 8 with a field, and nil as start selector", 8, 6);

    /* the only method under object 6: flag 7, four temporaries, two literals, the first its extension */
    unsigned method = 1;
    while (get(&one, entry_at(method) + 1) != SOFADUCK_METHOD) method++;
    const size_t header = body_at(&one, method);
    for (unsigned count = 0; count <= 4; count++) {
        char line[100];
        other = one;
        put(&other, header + 2, count << 9 | 1);
        snprintf(line, sizeof line, "a method under object 6 that takes %u, by its extension", count);
        in_both(line, 0, count == 1 ? 0 : 7);
        other = one;
        put(&other, header, (get(&one, header) & 0x1fff) | count << 13);
        snprintf(line, sizeof line, "a method under object 6 that takes %u, by its flag", count);
        in_both(line, 0, count == 1 ? 0 : 7);
    }
    other = one;
    put(&other, header, (get(&one, header) & 0x1fff) | 5u << 13);
    in_both("a method under object 6 that answers self", 0, 7);
    other = one;
    put(&other, header, (get(&one, header) & 0x00ff) | 6u << 13);
    in_both("a method under object 6 that answers a field", 0, 7);
    put(&other, 4, SOFADUCK_NIL);
    in_both("a method under object 6 that answers a field, and nil as start selector", 8, 7);
}

/* Every call but load: refused by the number, registers and words as they were, results unwritten. */
static void all_refused(const char *why, uint32_t wanted) {
    static const uint16_t drop[] = {SOFADUCK_PLAY_DROP};
    uint32_t count = 77, reach = 77, length = 77, made = 77, answers[SOFADUCK_ANSWER] = {77};
    uint64_t dictionaries = 77;
    static uint8_t output[SOFADUCK_IMAGE];
    char line[200];
    note();
    const uint32_t numbers[] = {
        sofaduck_state_begin(&s, OBJECT_box, SELECTOR_go, NULL, 0),
        sofaduck_state_run(&s, 1, &count, &reach, &dictionaries),
        sofaduck_state_drop(&s),
        sofaduck_state_forget(&s),
        sofaduck_play(SOFADUCK_STATE(&s), drop, 1, answers, SOFADUCK_ANSWER, &made),
        sofaduck_state_check(&s),
        sofaduck_state_save(&s, output, sizeof output, &length),
    };
    bool fine = as_before() && count == 77 && reach == 77 && dictionaries == 77 && length == 77 && made == 77 && answers[0] == 77;
    for (size_t i = 0; i < sizeof numbers / sizeof *numbers; i++) fine = fine && numbers[i] == wanted;
    snprintf(line, sizeof line, "all calls but load: %s: %u", why, (unsigned)wanted);
    test(line, fine);
}

static void states(void) {
    static const uint16_t wrong[] = {0, 3, 4, 258, 65535};
    uint32_t count = 0, reach = 0;
    uint64_t dictionaries = 0;
    for (size_t i = 0; i < 2 * (sizeof wrong / sizeof *wrong); i++) {
        char line[100];
        loaded(&image);
        if (i % 2 == 1) sofaduck_state_begin(&s, OBJECT_box, SELECTOR_go, NULL, 0), sofaduck_state_run(&s, 4, &count, &reach, &dictionaries);
        s.registers[SOFADUCK_EDITION] = wrong[i / 2];
        snprintf(line, sizeof line, "edition %u%s", wrong[i / 2], i % 2 == 1 ? ", a handler running" : "");
        all_refused(line, 11);
        s.contents_length = 4 * s.registers[SOFADUCK_N] - 1u;
        snprintf(line, sizeof line, "edition %u, and contents a word short", wrong[i / 2]);
        all_refused(line, 3);
    }
    loaded(&image);
    s.registers[SOFADUCK_N] = 7, s.registers[SOFADUCK_B] = (uint16_t)(sofaduck_start(s.contents, SOFADUCK_MESSAGE_CLASS) + 4);
    all_refused("7 objects in edition 2", 11);
    fresh();
    memset(s.registers, 0, sizeof s.registers);
    all_refused("the registers of a refused load", 11);
    loaded(&image);
    s.bodies[sofaduck_start(s.contents, SOFADUCK_MESSAGE_CLASS) + 2] = sofaduck_word(3);
    all_refused("object 7 with 3 fields", 11);
    s.registers[SOFADUCK_EDITION] = 1;
    test("check: object 7 with 3 fields, edition 1", sofaduck_state_check(&s) == 0);
    loaded(&image);
    s.registers[SOFADUCK_EDITION] = 1;
    test("check: a state of edition 2 as one of edition 1", sofaduck_state_check(&s) == 0);
    other = one;
    put(&other, 0, 1);
    loaded(&other);
    unsigned method = 1;
    while (s.contents[4 * (method - 1) + 1] != SOFADUCK_METHOD) method++;
    s.bodies[s.contents[4 * (method - 1) + 2] + 2] = 2 << 9 | 1;
    test("check: a method under object 6 that takes two, edition 1", sofaduck_state_check(&s) == 0);
    s.registers[SOFADUCK_EDITION] = 2;
    all_refused("a method under object 6 that takes two", 11);
}

/* A handler up to a send that fails: begun on `receiver` with arguments, it makes so many bytecodes before. */
typedef struct {
    const char *what;
    uint16_t receiver, handler, arguments[4];
    size_t given;
    uint32_t steps;
} handler;

/* What has to come of the send. */
typedef struct {
    handler h;
    uint16_t to, selector, start, holder; /* receiver; what is sent; the class where lookup starts; the one whose method takes the message */
    unsigned count, next, left;           /* arguments; where the sender then stands, and its operands that are left */
    unsigned temporaries;                 /* of the new frame; 0 where a primitive answers */
    uint32_t sender, frame;               /* words of both frames */
    unsigned dictionaries;                /* from the start up to the holder; those of the lookup that failed do not count */
} failure;

#define INTEGER(k) ((uint16_t)(2 * (k) + 1))
#define SPECIAL(k) (65000 + (k)) /* entry k of object 5 */
#define BOX(handler, ...) OBJECT_box, handler, {__VA_ARGS__}
static const failure failures[] = {
    {{"no arguments", BOX(SELECTOR_none_, OBJECT_proxy), 1, 1}, OBJECT_proxy, SELECTOR_unknown, CLASS_Proxy, CLASS_Proxy, 0, 2, 0, 3, 18, 18, 1},
    {{"one, above an operand that stays", BOX(SELECTOR_one_of_, OBJECT_proxy, INTEGER(5)), 2, 3},
     OBJECT_proxy, SELECTOR_unknown_, CLASS_Proxy, CLASS_Proxy, 1, 4, 1, 3, 18, 18, 1},
    {{"two, in order", BOX(SELECTOR_two_of_and_, OBJECT_proxy, INTEGER(5), OBJECT_box), 3, 3},
     OBJECT_proxy, SELECTOR_unknown_and_, CLASS_Proxy, CLASS_Proxy, 2, 4, 0, 3, 18, 18, 1},
    {{"three, by 131, from a frame that is full", BOX(SELECTOR_three_of_and_or_, OBJECT_proxy, INTEGER(5), SOFADUCK_NIL, INTEGER(6)), 4, 8},
     OBJECT_proxy, SELECTOR_unknown_and_or_, CLASS_Proxy, CLASS_Proxy, 3, 10, 4, 3, 18, 18, 1},
    {{"31, by 132, from a large frame that is full", BOX(SELECTOR_most, 0), 0, 32},
     OBJECT_proxy, SELECTOR_unknown_, CLASS_Proxy, CLASS_Proxy, 31, 36, 0, 3, 38, 18, 1},
    {{"one, by 131", BOX(SELECTOR_long_of_, OBJECT_proxy, SOFADUCK_TRUE), 2, 2},
     OBJECT_proxy, SELECTOR_unknown_, CLASS_Proxy, CLASS_Proxy, 1, 4, 0, 3, 18, 18, 1},
    {{"one, by 132", BOX(SELECTOR_longer_of_, OBJECT_proxy, SOFADUCK_TRUE), 2, 2},
     OBJECT_proxy, SELECTOR_unknown_, CLASS_Proxy, CLASS_Proxy, 1, 5, 0, 3, 18, 18, 1},
    {{"arithmetic on a proxy", BOX(SELECTOR_sum_of_, OBJECT_proxy, INTEGER(1)), 2, 2},
     OBJECT_proxy, SPECIAL(0), CLASS_Proxy, CLASS_Proxy, 1, 3, 0, 3, 18, 18, 1},
    {{"arithmetic that passes 16,383", BOX(SELECTOR_sum_of_, INTEGER(16383), INTEGER(1)), 2, 2},
     INTEGER(16383), SPECIAL(0), CLASS_Integer, CLASS_Integer, 1, 3, 0, 1, 18, 18, 1},
    {{"an integer and a proxy", BOX(SELECTOR_sum_of_, INTEGER(4), OBJECT_proxy), 2, 2},
     INTEGER(4), SPECIAL(0), CLASS_Integer, CLASS_Integer, 1, 3, 0, 1, 18, 18, 1},
    {{"at:", BOX(SELECTOR_at_of_, OBJECT_proxy, INTEGER(1)), 2, 2}, OBJECT_proxy, SELECTOR_at_, CLASS_Proxy, CLASS_Proxy, 1, 3, 0, 3, 18, 18, 1},
    {{"at:put:", BOX(SELECTOR_put_of_and_, OBJECT_proxy, INTEGER(1), INTEGER(2)), 3, 3},
     OBJECT_proxy, SELECTOR_at_put_, CLASS_Proxy, CLASS_Proxy, 2, 4, 0, 3, 18, 18, 1},
    {{"value", BOX(SELECTOR_value_, OBJECT_proxy), 1, 1}, OBJECT_proxy, SELECTOR_value, CLASS_Proxy, CLASS_Proxy, 0, 2, 0, 3, 18, 18, 1},
    {{"nil as selector", BOX(SELECTOR_nil_of_, OBJECT_proxy, INTEGER(3)), 2, 2},
     OBJECT_proxy, SOFADUCK_NIL, CLASS_Proxy, CLASS_Proxy, 1, 3, 0, 3, 18, 18, 1},
    {{"object 6 is inherited", BOX(SELECTOR_one_of_, OBJECT_kin, OBJECT_kin), 2, 3},
     OBJECT_kin, SELECTOR_unknown_, CLASS_Kin, CLASS_Proxy, 1, 4, 1, 3, 18, 18, 2},
    {{"a large frame takes the message", BOX(SELECTOR_one_of_, OBJECT_wide, INTEGER(-1)), 2, 3},
     OBJECT_wide, SELECTOR_unknown_, CLASS_Wide, CLASS_Wide, 1, 4, 1, 13, 18, 38, 1},
    {{"a primitive that fails", BOX(SELECTOR_two_of_and_, OBJECT_index, INTEGER(1), INTEGER(2)), 3, 3},
     OBJECT_index, SELECTOR_unknown_and_, CLASS_Index, CLASS_Index, 2, 4, 0, 1, 18, 18, 1},
    {{"a primitive that answers", BOX(SELECTOR_two_of_and_, OBJECT_same, INTEGER(1), OBJECT_same), 3, 3},
     OBJECT_same, SELECTOR_unknown_and_, CLASS_Same, CLASS_Same, 2, 4, 0, 0, 18, 0, 1},
    {{"a primitive that answers, above an operand", BOX(SELECTOR_one_of_, OBJECT_same, OBJECT_same), 2, 3},
     OBJECT_same, SELECTOR_unknown_, CLASS_Same, CLASS_Same, 1, 4, 1, 0, 18, 0, 1},
    {{"super, above the home", OBJECT_heir, SELECTOR_up, {0}, 0, 1}, OBJECT_heir, SELECTOR_unknown, CLASS_Proxy, CLASS_Proxy, 0, 3, 0, 3, 18, 18, 1},
    {{"super, by 134", OBJECT_heir, SELECTOR_up_, {INTEGER(8)}, 1, 2}, OBJECT_heir, SELECTOR_unknown_, CLASS_Proxy, CLASS_Proxy, 1, 5, 0, 3, 18, 18, 1},
    {{"super to another receiver, whose chain lacks the home", OBJECT_lower, SELECTOR_strange_, {OBJECT_side}, 1, 1},
     OBJECT_side, SELECTOR_known, CLASS_Middle, CLASS_Upper, 0, 3, 0, 1, 18, 18, 2},
    {{"super to another receiver, which lacks the field", OBJECT_lower, SELECTOR_field_, {OBJECT_side}, 1, 1},
     OBJECT_side, SELECTOR_f, CLASS_Middle, CLASS_Upper, 0, 3, 0, 1, 18, 18, 2},
};
enum { FAILURES = sizeof failures / sizeof *failures };

static bool begun(const handler *h) {
    uint32_t count = 0, reach = 0;
    uint64_t dictionaries = 0;
    return sofaduck_state_begin(&s, h->receiver, h->handler, h->arguments, h->given) == 0
        && sofaduck_state_run(&s, h->steps, &count, &reach, &dictionaries) == 0 && count == h->steps;
}

/* The next bytecode, by run or by play: whether it gives this count, this reach and so many dictionaries. */
static bool next_gives(bool by_play, uint32_t made, uint32_t reach, uint64_t dictionaries) {
    uint32_t got[2] = {77, 77};
    uint64_t through = 77;
    if (!by_play)
        return sofaduck_state_run(&s, 1, got, got + 1, &through) == 0 && got[0] == made && got[1] == reach && through == dictionaries;
    uint16_t list[3];
    uint32_t answers[SOFADUCK_ANSWER], calls_made = 0;
    sofaduck_calls calls = {list, 3, 0, 0};
    sofaduck_put_run(&calls, 1);
    if (sofaduck_state_play(&s, &calls, answers, SOFADUCK_ANSWER, &calls_made) != 0 || calls_made != 1) return false;
    const sofaduck_answer a = sofaduck_answer_at(answers, 0);
    return a.number == 0 && a.count == made && a.reach == reach && a.dictionaries == dictionaries && a.phase == s.registers[SOFADUCK_PHASE]
        && a.value == 0;
}

/* The method under object 6 in the dictionary of a class: its first pair, as no selector has a lower number. */
static uint16_t method_under_6(uint16_t class) {
    const uint16_t *const pairs = s.bodies + sofaduck_start(s.contents, s.bodies[sofaduck_start(s.contents, class) + 1]);
    return pairs[0] == SOFADUCK_DOES_NOT_UNDERSTAND ? pairs[1] : 0;
}

/* Makes of what was noted what the send has to leave: every word of the buffers, and the registers. */
static void expect(const failure *f) {
    const unsigned n = before.registers[SOFADUCK_N], b = before.registers[SOFADUCK_B];
    const uint16_t array = (uint16_t)(2 * (n + 1)), message = (uint16_t)(2 * (n + 2)), method = method_under_6(f->holder);
    const uint16_t entries[] = {SOFADUCK_ARRAY_CLASS, SOFADUCK_FIELDS, (uint16_t)b, (uint16_t)f->count,
                                SOFADUCK_MESSAGE_CLASS, SOFADUCK_FIELDS, (uint16_t)(b + f->count), 2};
    memcpy(lent_before.contents + 4 * n, entries, sizeof entries);
    uint16_t *body = lent_before.bodies + b;
    const bool most = f->h.handler == SELECTOR_most, above = f->h.receiver != OBJECT_box;
    for (unsigned k = 0; k < f->count; k++) *body++ = most ? INTEGER(10 + k) : f->h.arguments[above ? k : k + 1];
    *body++ = f->selector >= 65000 ? s.bodies[sofaduck_start(s.contents, SOFADUCK_SPECIAL_SELECTORS) + f->selector - 65000u] : f->selector;
    *body = array;
    before.registers[SOFADUCK_N] = (uint16_t)(n + 2);
    before.registers[SOFADUCK_B] = (uint16_t)(b + f->count + 2);
    uint16_t *const stack = lent_before.stack + before.registers[SOFADUCK_TOP], *const kept = lent_before.cache + 4 * ((12u & f->start) / 2 % 64);
    stack[1] = (uint16_t)f->next;
    stack[2] = (uint16_t)(f->left + (f->temporaries == 0 ? 1 : 0));
    kept[0] = 12, kept[1] = f->start, kept[2] = method, kept[3] = (uint16_t)f->dictionaries;
    if (f->temporaries == 0) {
        stack[6 + f->h.given + f->left] = SOFADUCK_FALSE;
        return;
    }
    uint16_t *const frame = stack + f->sender;
    const uint16_t first[] = {before.registers[SOFADUCK_TOP], 0, 0, method, 0, f->to, message};
    memcpy(frame, first, sizeof first);
    for (unsigned k = 1; k < f->temporaries; k++) frame[6 + k] = SOFADUCK_NIL;
    before.registers[SOFADUCK_TOP] = (uint16_t)(before.registers[SOFADUCK_TOP] + f->sender);
}

/* Whether the send makes the objects and the frame, by run and by play, from the state that is there. */
static bool made_of(const failure *f) {
    static words start;
    const sofaduck_state begins = s;
    bool fine = true;
    start = lent;
    for (int by_play = 0; by_play < 2; by_play++) {
        lent = start, s = begins;
        fine = fine && begun(&f->h);
        note();
        expect(f);
        fine = fine && next_gives(by_play, 1, f->sender + f->frame, f->dictionaries) && as_before() && sofaduck_state_check(&s) == 0;
    }
    return fine;
}

/* Whether the send halts in this phase with every other word as it was, by run and by play, and cannot be run on. */
static bool halts(const handler *h, unsigned phase, uint32_t reach) {
    static words start;
    const sofaduck_state begins = s;
    uint32_t count = 77, unwritten = 77;
    uint64_t dictionaries = 77;
    bool fine = true;
    start = lent;
    for (int by_play = 0; by_play < 2; by_play++) {
        lent = start, s = begins;
        fine = fine && begun(h);
        note();
        before.registers[SOFADUCK_PHASE] = (uint16_t)phase;
        fine = fine && next_gives(by_play, 0, reach, 0) && as_before() && sofaduck_state_check(&s) == 0;
        fine = fine && sofaduck_state_run(&s, 1, &count, &unwritten, &dictionaries) == 12 && count == 77 && unwritten == 77
            && dictionaries == 77 && as_before();
    }
    before.registers[SOFADUCK_PHASE] = before.registers[SOFADUCK_TOP] = 0;
    return fine && sofaduck_state_drop(&s) == 0 && as_before();
}

static void made(void) {
    uint32_t count = 0, reach = 0;
    uint64_t dictionaries = 0;
    file first = image;
    put(&first, 0, 1);
    for (size_t i = 0; i < FAILURES; i++) {
        const failure *const f = failures + i;
        loaded(&image);
        test_of("a send that fails", f->h.what, made_of(f));
        /* the method answers the message, and so does the handler; or the primitive answers false */
        const uint16_t answer = f->temporaries == 0 ? SOFADUCK_FALSE : (uint16_t)(2 * s.registers[SOFADUCK_N]);
        test_of("its answer", f->h.what,
                sofaduck_state_run(&s, 50, &count, &reach, &dictionaries) == 0 && dictionaries == 0 && s.registers[SOFADUCK_PHASE] == SOFADUCK_FINISHED
                    && s.registers[SOFADUCK_VALUE] == answer && s.registers[SOFADUCK_EDITION] == 2);
        /* on top of what it left: object 6 is found in the cache */
        test_of("once more, behind the objects made", f->h.what, made_of(f));
        loaded(&first);
        test_of("edition 1, phase 3", f->h.what, halts(&f->h, SOFADUCK_NOT_UNDERSTOOD, f->sender));
    }
    loaded(&image);
    note();
    test("begin makes no message: 9", sofaduck_state_begin(&s, OBJECT_proxy, SELECTOR_unknown, NULL, 0) == 9 && as_before());
    const uint16_t argument = sofaduck_word(6);
    test("begin of object 6 itself is a begin as any other",
         sofaduck_state_begin(&s, OBJECT_proxy, SOFADUCK_DOES_NOT_UNDERSTAND, &argument, 1) == 0
             && sofaduck_state_run(&s, 9, &count, &reach, &dictionaries) == 0 && dictionaries == 0
             && s.registers[SOFADUCK_VALUE] == argument && s.registers[SOFADUCK_N] == before.registers[SOFADUCK_N]);
    test("begin of object 6 without its argument: 10", sofaduck_state_begin(&s, OBJECT_proxy, SOFADUCK_DOES_NOT_UNDERSTAND, NULL, 0) == 10);
    note();
    test("begin of object 6 where nobody has it: 9",
         sofaduck_state_begin(&s, OBJECT_mute, SOFADUCK_DOES_NOT_UNDERSTAND, &argument, 1) == 9 && as_before());
    const uint16_t own = OBJECT_lower;
    test("a field that is there is answered, and no message made",
         sofaduck_state_begin(&s, OBJECT_lower, SELECTOR_field_, &own, 1) == 0 && sofaduck_state_run(&s, 9, &count, &reach, &dictionaries) == 0
             && count == 3 && dictionaries == 1 && s.registers[SOFADUCK_VALUE] == sofaduck_word(3)
             && s.registers[SOFADUCK_N] == before.registers[SOFADUCK_N]);
    const uint16_t sum[] = {sofaduck_word(3), sofaduck_word(4)};
    test("arithmetic that succeeds makes none", sofaduck_state_begin(&s, OBJECT_box, SELECTOR_sum_of_, sum, 2) == 0
                                                    && sofaduck_state_run(&s, 9, &count, &reach, &dictionaries) == 0 && dictionaries == 0
                                                    && s.registers[SOFADUCK_VALUE] == sofaduck_word(7)
                                                    && s.registers[SOFADUCK_N] == before.registers[SOFADUCK_N]);
}

/* More objects, so that N is n; or one with so many bytes that B is b. */
static void grow(unsigned n, unsigned b) {
    for (unsigned k = s.registers[SOFADUCK_N]; k < n; k++) {
        const unsigned words = k + 1 == n ? b - s.registers[SOFADUCK_B] : 0;
        const uint16_t entry[] = {CLASS_Symbol, SOFADUCK_BYTES, s.registers[SOFADUCK_B], (uint16_t)(2 * words)};
        memcpy(s.contents + 4 * k, entry, sizeof entry);
        memset(s.bodies + s.registers[SOFADUCK_B], 0, 2 * words);
        s.registers[SOFADUCK_B] = (uint16_t)(s.registers[SOFADUCK_B] + words);
        s.registers[SOFADUCK_N] = (uint16_t)(k + 1);
    }
    if (sofaduck_state_check(&s) != 0) test("a state with more objects", false);
}

/* With room for array and message they are made, without it nothing is. */
static void room(const failure *f, bool enough, bool *fits, bool *lacks) {
    if (enough) *fits = *fits && made_of(f);
    else *lacks = *lacks && halts(&f->h, SOFADUCK_NOT_UNDERSTOOD, f->sender);
}

static void halted(void) {
    static const struct {
        handler h;
        uint32_t reach;
    } none[] = {
        {{"nothing is found under object 6", BOX(SELECTOR_one_of_, OBJECT_mute, INTEGER(1)), 2, 3}, 18},
        {{"nor for nil", BOX(SELECTOR_none_, SOFADUCK_NIL), 1, 1}, 18},
        {{"nor above a root", OBJECT_proxy, SELECTOR_root, {0}, 0, 1}, 18},
        {{"object 6 itself is sent, and not found", BOX(SELECTOR_tell_of_, OBJECT_mute, INTEGER(1)), 2, 2}, 18},
        {{"what is found under object 6 cannot run on the receiver", OBJECT_lower, SELECTOR_strange_, {OBJECT_box}, 1, 1}, 18},
        {{"nor on an integer, where a field is missing", OBJECT_lower, SELECTOR_field_, {INTEGER(5)}, 1, 1}, 18},
        {{"nor on one with a method of its own under object 6", OBJECT_lower, SELECTOR_strange_, {OBJECT_proxy}, 1, 1}, 18},
    };
    static const size_t tried[] = {0, 1, 3, 4, 15, 17, 19, 20}; /* failures with 0, 1, 3 and 31 arguments, a large frame, a primitive, super */
    for (size_t i = 0; i < sizeof none / sizeof *none; i++) {
        loaded(&image);
        test_of("phase 3 and nothing made", none[i].h.what, halts(&none[i].h, SOFADUCK_NOT_UNDERSTOOD, none[i].reach));
        loaded(&image);
        s.stack_length = 18;
        test_of("so it is on a full stack", none[i].h.what, halts(&none[i].h, SOFADUCK_NOT_UNDERSTOOD, none[i].reach));
    }
    for (size_t i = 0; i < sizeof tried / sizeof *tried; i++) {
        const failure *const f = failures + tried[i];
        loaded(&image);
        const unsigned n = s.registers[SOFADUCK_N], b = s.registers[SOFADUCK_B], words = f->count + 2;
        bool fits = true, lacks = true;
        for (unsigned most = 2043; most <= 2047; most++) {
            loaded(&image);
            grow(most, b);
            room(f, most <= 2045, &fits, &lacks);
        }
        test_of("2,043 to 2,045 objects have room for two more", f->h.what, fits);
        test_of("2,046 and 2,047 have none", f->h.what, lacks);
        fits = lacks = true;
        for (unsigned k = 0; k <= 1 + words; k++) { /* from one word to spare up to none at all */
            loaded(&image);
            grow(n + 1, 24000 - words - 1 + k);
            room(f, k <= 1, &fits, &lacks);
        }
        test_of("bodies up to 24,000 words", f->h.what, fits);
        test_of("and no more", f->h.what, lacks);
        fits = lacks = true;
        for (unsigned k = 0; k <= 10; k++) {
            loaded(&image);
            s.contents_length = 4 * n + k;
            room(f, k >= 8, &fits, &lacks);
        }
        for (unsigned k = 0; k <= words + 1; k++) {
            loaded(&image);
            s.bodies_length = b + k;
            room(f, k >= words, &fits, &lacks);
        }
        test_of("contents and bodies that are just long enough", f->h.what, fits);
        test_of("contents and bodies that are too short", f->h.what, lacks);
        fits = lacks = true;
        for (unsigned k = 0; k <= f->frame; k++) {
            loaded(&image);
            s.stack_length = f->sender + k;
            if (k == f->frame) fits = fits && made_of(f);
            else lacks = lacks && halts(&f->h, SOFADUCK_NO_STACK_ROOM, f->sender);
            loaded(&image);
            s.stack_length = f->sender + k;
            s.bodies_length = b + words - 1;
            lacks = lacks && halts(&f->h, SOFADUCK_NOT_UNDERSTOOD, f->sender);
        }
        test_of("a stack that just holds both frames", f->h.what, fits);
        test_of("a shorter one, phase 5 and nothing made; without room for the message phase 3", f->h.what, lacks);
    }
}

/* A send that fails some frames down: reach is the end of the frame that takes the message, and on a word less of stack it never stands. */
static void reaches(void) {
    bool fine = true;
    for (int k = 0; k < 6; k++)
        for (int large = 0; large < 2; large++) {
            const uint16_t arguments[] = {sofaduck_word(k), large ? OBJECT_wide : OBJECT_proxy};
            const uint32_t needed = 18 * (uint32_t)(k + 1) + (large ? 38 : 18);
            uint32_t count = 0, reach = 0;
            uint64_t dictionaries = 0;
            loaded(&image);
            s.stack_length = needed;
            fine = fine && sofaduck_state_begin(&s, OBJECT_box, SELECTOR_down_to_, arguments, 2) == 0
                && sofaduck_state_run(&s, 500, &count, &reach, &dictionaries) == 0 && s.registers[SOFADUCK_PHASE] == SOFADUCK_FINISHED
                && dictionaries == (uint64_t)k + 1 && reach == needed && s.registers[SOFADUCK_VALUE] == 2 * s.registers[SOFADUCK_N];
            const uint32_t whole = count;
            loaded(&image);
            s.stack_length = needed - 1;
            const unsigned n = s.registers[SOFADUCK_N];
            fine = fine && sofaduck_state_begin(&s, OBJECT_box, SELECTOR_down_to_, arguments, 2) == 0
                && sofaduck_state_run(&s, 500, &count, &reach, &dictionaries) == 0 && s.registers[SOFADUCK_PHASE] == SOFADUCK_NO_STACK_ROOM
                && dictionaries == (uint64_t)k && reach == needed - (large ? 38 : 18) && s.registers[SOFADUCK_N] == n
                && count == whole - 3 - (uint32_t)(k + 1); /* the send, two bytecodes of the method that takes it, a return each */
        }
    test("reach is the end of the frame that takes a message, some frames down", fine);
}

/* A run cut at every bytecode comes to the same; and so does one as a whole until there is no more room. */
static void runs(void) {
    static words whole;
    const uint16_t proxy = OBJECT_proxy;
    uint32_t count = 0, reach = 0, parts = 0;
    uint64_t dictionaries = 0, added = 0;
    loaded(&image);
    const unsigned n = s.registers[SOFADUCK_N], b = s.registers[SOFADUCK_B];
    s.contents_length = 4 * (n + 41);
    bool fine = sofaduck_state_begin(&s, OBJECT_box, SELECTOR_forever_, &proxy, 1) == 0
        && sofaduck_state_run(&s, 100000, &count, &reach, &dictionaries) == 0;
    /* 20 messages fit: push, send, push message, return, pop, jump for each; then push, and a send that halts */
    fine = fine && s.registers[SOFADUCK_PHASE] == SOFADUCK_NOT_UNDERSTOOD && count == 20 * 6 + 1 && reach == 36 && dictionaries == 20
        && s.registers[SOFADUCK_N] == n + 40
        && s.registers[SOFADUCK_B] == b + 40;
    test("a handler halts when the room for its messages is spent", fine);
    whole = lent;
    before = s;
    loaded(&image);
    s.contents_length = 4 * (n + 41);
    fine = sofaduck_state_begin(&s, OBJECT_box, SELECTOR_forever_, &proxy, 1) == 0;
    while (fine && s.registers[SOFADUCK_PHASE] == SOFADUCK_RUNNING) 
        fine = sofaduck_state_run(&s, 1, &count, &reach, &dictionaries) == 0, parts += count, added += dictionaries;
    test("bytecode by bytecode it is the same", fine && parts == 121 && added == 20 && memcmp(&whole, &lent, sizeof lent) == 0
                                                    && memcmp(s.registers, before.registers, sizeof s.registers) == 0);
}

static uint32_t answers[ANSWERS], expected[ANSWERS];

/* Random lists, played and made singly, where room and stack are short. */
static void lists(void) {
    static words copied;
    unsigned numbers = 0, phases = 0;
    uint32_t most = 0;
    bool same = true;
    for (unsigned round = 0; round < ROUNDS && same; round++) {
        uint16_t list[200];
        sofaduck_calls calls = {list, 200, 0, 0};
        if (round % 20 == 0) {
            file of = image;
            put(&of, 0, round % 100 == 0 ? 1 : 2);
            loaded(&of);
            s.contents_length = 4 * s.registers[SOFADUCK_N] + below(200);
            s.bodies_length = s.registers[SOFADUCK_B] + below(200);
            s.stack_length = 18 + below(120);
        }
        for (unsigned k = below(16); k > 0; k--) {
            const handler *const h = &failures[below(FAILURES)].h;
            const uint16_t receivers[] = {OBJECT_proxy, OBJECT_kin, OBJECT_wide, OBJECT_same, OBJECT_index, OBJECT_mute, OBJECT_box, 11, 0};
            const uint16_t tried[] = {receivers[below(9)], receivers[below(8)], receivers[below(8)], receivers[below(8)]};
            const bool own = below(3) == 0;
            const unsigned which = below(40);
            if (which < 18) sofaduck_put_begin(&calls, h->receiver, h->handler, own ? h->arguments : tried, below(20) == 0 ? below(4) : h->given);
            else if (which < 36) sofaduck_put_run(&calls, below(50));
            else if (which < 38) sofaduck_put_drop(&calls);
            else sofaduck_put_forget(&calls);
        }
        sofaduck_state copy = s;
        uint32_t made = 77;
        copied = lent;
        copy.contents = copied.contents, copy.bodies = copied.bodies, copy.stack = copied.stack, copy.cache = copied.cache;
        memset(answers, 0x5a, sizeof answers), memset(expected, 0x5a, sizeof expected);
        const uint32_t count = singly(&copy, list, calls.length, expected, ANSWERS);
        same = sofaduck_state_play(&s, &calls, answers, ANSWERS, &made) == 0 && made == count && made == calls.count
            && memcmp(answers, expected, sizeof answers) == 0 && memcmp(&lent, &copied, sizeof lent) == 0
            && memcmp(s.registers, copy.registers, sizeof s.registers) == 0;
        for (uint32_t k = 0; same && k < made; k++) {
            numbers |= 1u << sofaduck_answer_at(answers, k).number;
            phases |= 1u << sofaduck_answer_at(answers, k).phase;
        }
        if (s.registers[SOFADUCK_EDITION] == 2 && most < s.registers[SOFADUCK_N]) most = s.registers[SOFADUCK_N];
    }
    test("play: random lists with sends that fail, as the same calls singly", same);
    test("they answer every number, and halt and finish",
         numbers == (1u << 0 | 1u << 8 | 1u << 10 | 1u << 12 | 1u << 13) && phases == (1u << 0 | 1u << 1 | 1u << 2 | 1u << 3 | 1u << 5)
             && most > get(&image, 1) + 30);
}

/* Objects that failed sends made are saved and loaded as all others, with the edition; and both states go on alike. */
static void saves(void) {
    static words copied, second;
    uint32_t length = 0, count = 0, reach = 0, counts[2] = {0, 0};
    uint64_t dictionaries = 0;
    bool fine = true;
    for (unsigned edition = 1; edition <= 2; edition++) {
        file of = image;
        put(&of, 0, edition);
        loaded(&of);
        for (size_t i = 0; i < FAILURES && edition == 2; i++)
            fine = fine && begun(&failures[i].h) && sofaduck_state_run(&s, 1, &count, &reach, &dictionaries) == 0 && sofaduck_state_drop(&s) == 0;
        const unsigned n = s.registers[SOFADUCK_N], b = s.registers[SOFADUCK_B];
        fine = fine && n == get(&image, 1) + (edition == 2 ? 2 * FAILURES : 0);
        note();
        fine = fine && sofaduck_state_save(&s, other.bytes, sizeof other.bytes, &length) == 0 && as_before() && length == 10 + 8 * n + 2 * b;
        other.length = length;
        fine = fine && get(&other, 0) == edition && get(&other, 1) == n && get(&other, 2) == b;
        for (size_t i = 0; i < 4 * n; i++) fine = fine && get(&other, 5 + i) == s.contents[i];
        for (size_t i = 0; i < b; i++) fine = fine && get(&other, 5 + 4 * n + i) == s.bodies[i];
        fine = fine && sofaduck_state_forget(&s) == 0;
        const sofaduck_state kept = s;
        copied = lent;
        loaded(&other);
        fine = fine && memcmp(s.registers, kept.registers, sizeof s.registers) == 0 && memcmp(lent.contents, copied.contents, 8 * n) == 0
            && memcmp(lent.bodies, copied.bodies, 2 * b) == 0;
        fine = fine && begun(&failures[2].h) && sofaduck_state_run(&s, 9, counts, &reach, &dictionaries) == 0;
        second = lent, lent = copied;
        const uint16_t value = s.registers[SOFADUCK_VALUE];
        s = kept;
        fine = fine && begun(&failures[2].h) && sofaduck_state_run(&s, 9, counts + 1, &reach, &dictionaries) == 0
            && counts[0] == counts[1] && s.registers[SOFADUCK_VALUE] == value && s.registers[SOFADUCK_EDITION] == edition;
        const unsigned made = edition == 2 ? 2 : 0;
        fine = fine && s.registers[SOFADUCK_N] == n + made && memcmp(lent.contents, second.contents, 8 * (n + made)) == 0
            && memcmp(lent.bodies, second.bodies, 2 * (size_t)s.registers[SOFADUCK_B]) == 0;
    }
    test("messages and the edition are saved and loaded, and both states go on alike", fine);
}

static bool read_file(file *to, const char *name) {
    FILE *const from = fopen(name, "rb");
    to->length = from == NULL ? 0 : fread(to->bytes, 1, sizeof to->bytes, from);
    if (from != NULL) fclose(from);
    return to->length >= 10;
}

int main(int argc, char **argv) {
    if (argc != 4 || !read_file(&image, argv[1]) || !read_file(&bare, argv[2]) || !read_file(&one, argv[3])) {
        fprintf(stderr, "usage: messages IMAGE BARE ONE\n");
        return 2;
    }
    editions();
    states();
    made();
    halted();
    reaches();
    runs();
    lists();
    saves();
    return failed;
}
