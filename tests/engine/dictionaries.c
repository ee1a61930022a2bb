/* The dictionaries of a run's lookups: numbers worked out by hand from dictionaries.source, made on caches that are empty, full and in between, by run
 * and by play, as a whole and in parts; the plain walk after each bytecode; a number that 32 bits do not hold. A line for each test; the exit status
 * says whether all passed. Usage: dictionaries IMAGE, of dictionaries.source. */
#define ABOUT "dictionaries: "
#include "frames.h"
#include "machine.h"
#include "singly.h"
#include "dictionaries.h"

enum { ROUNDS = 400, GRANT = 200, LISTED = 12, WORDS = 6 * LISTED, ANSWERS = SOFADUCK_ANSWER * LISTED }; /* calls in a list, their words and answers */

static machine first, second, third;

/* Handlers, what they are given, the lengths of stack and the room for objects that they are tried with, and what must come of a run. */
typedef struct {
    const char *what;
    uint16_t receiver, selector, arguments[2];
    size_t given, stack;
    unsigned objects, phase;
    uint32_t count;
    uint64_t dictionaries;
} handler;

#define INTEGER(k) ((uint16_t)(2 * (k) + 1))
#define BOTTOM(selector, x) OBJECT_bottom, selector, {x, 0}, 1
#define ROOM 1000, OBJECTS
static const handler handlers[] = {
    /* push, send, two bytecodes of the method, return; begin has climbed 24 classes to get there */
    {"a method of the own class", BOTTOM(SELECTOR_own_, OBJECT_low), ROOM, SOFADUCK_FINISHED, 5, 1},
    {"one of the class above", BOTTOM(SELECTOR_mid_, OBJECT_low), ROOM, SOFADUCK_FINISHED, 5, 2},
    {"the same for that class", BOTTOM(SELECTOR_mid_, OBJECT_middle), ROOM, SOFADUCK_FINISHED, 5, 1},
    {"one three classes up", BOTTOM(SELECTOR_far_, OBJECT_low), ROOM, SOFADUCK_FINISHED, 5, 4},
    {"the same two classes up", BOTTOM(SELECTOR_far_, OBJECT_middle), ROOM, SOFADUCK_FINISHED, 5, 3},
    {"the same along another chain", BOTTOM(SELECTOR_far_, OBJECT_aside), ROOM, SOFADUCK_FINISHED, 5, 2},
    {"the same by 131", BOTTOM(SELECTOR_long_, OBJECT_low), ROOM, SOFADUCK_FINISHED, 5, 4},
    {"the same by 132", BOTTOM(SELECTOR_longer_, OBJECT_low), ROOM, SOFADUCK_FINISHED, 5, 4},
    {"with two arguments, in a large frame", BOTTOM(SELECTOR_two_, OBJECT_middle), ROOM, SOFADUCK_FINISHED, 7, 3},
    {"24 classes", BOTTOM(SELECTOR_here_, OBJECT_bottom), ROOM, SOFADUCK_FINISHED, 5, 24},
    {"to an integer", BOTTOM(SELECTOR_here_, INTEGER(-7)), ROOM, SOFADUCK_FINISHED, 5, 2},
    {"to nil", BOTTOM(SELECTOR_here_, SOFADUCK_NIL), ROOM, SOFADUCK_FINISHED, 5, 2},
    {"to a class", BOTTOM(SELECTOR_here_, CLASS_Level24), ROOM, SOFADUCK_FINISHED, 5, 2},
    /* answered without a frame */
    {"self is answered", BOTTOM(SELECTOR_me_, OBJECT_low), ROOM, SOFADUCK_FINISHED, 3, 4},
    {"self is answered, 24 classes", BOTTOM(SELECTOR_yours_, OBJECT_bottom), ROOM, SOFADUCK_FINISHED, 3, 24},
    {"a field is answered", BOTTOM(SELECTOR_field_, OBJECT_low), ROOM, SOFADUCK_FINISHED, 3, 4},
    {"a field of the own class", BOTTOM(SELECTOR_field_, OBJECT_top), ROOM, SOFADUCK_FINISHED, 3, 1},
    {"a primitive answers", OBJECT_bottom, SELECTOR_item_of_, {INTEGER(2), OBJECT_row}, 2, ROOM, SOFADUCK_FINISHED, 4, 2},
    {"a primitive fails, and its code runs", OBJECT_bottom, SELECTOR_item_of_, {INTEGER(3), OBJECT_row}, 2, ROOM, SOFADUCK_FINISHED, 6, 2},
    {"a primitive fails, 24 classes", OBJECT_bottom, SELECTOR_item_of_, {INTEGER(1), OBJECT_bottom}, 2, ROOM, SOFADUCK_FINISHED, 6, 24},
    /* 176 to 191, 198 and 199 */
    {"arithmetic, ==, class", BOTTOM(SELECTOR_plain_, INTEGER(3)), ROOM, SOFADUCK_FINISHED, 17, 0},
    {"arithmetic that succeeds", OBJECT_bottom, SELECTOR_less_of_, {INTEGER(3), INTEGER(5)}, 2, ROOM, SOFADUCK_FINISHED, 4, 0},
    {"arithmetic that passes 16,383 is a send", OBJECT_bottom, SELECTOR_less_of_, {INTEGER(-1), INTEGER(16383)}, 2, ROOM, SOFADUCK_FINISHED, 6, 2},
    {"so is arithmetic on another object", OBJECT_bottom, SELECTOR_less_of_, {INTEGER(1), OBJECT_bottom}, 2, ROOM, SOFADUCK_FINISHED, 6, 24},
    /* super sends: from above the home of the method that sends, which a handler of a class below inherits */
    {"super, found there", OBJECT_low, SELECTOR_near, {0, 0}, 0, ROOM, SOFADUCK_FINISHED, 5, 1},
    {"super, found above that", OBJECT_low, SELECTOR_above, {0, 0}, 0, ROOM, SOFADUCK_FINISHED, 5, 3},
    {"super, from the class above", OBJECT_middle, SELECTOR_above, {0, 0}, 0, ROOM, SOFADUCK_FINISHED, 5, 2},
    {"super by 134, in a method that is inherited", OBJECT_low, SELECTOR_over, {0, 0}, 0, ROOM, SOFADUCK_FINISHED, 5, 1},
    {"super to another receiver", OBJECT_low, SELECTOR_strange_, {OBJECT_middle, 0}, 1, ROOM, SOFADUCK_FINISHED, 5, 1},
    /* object 6: its lookup alone */
    {"object 6 in the third of four classes", OBJECT_bottom, SELECTOR_lost_with_, {OBJECT_child, 1}, 2, ROOM, SOFADUCK_FINISHED, 6, 3},
    {"a send before it", BOTTOM(SELECTOR_lost_, OBJECT_low), ROOM, SOFADUCK_FINISHED, 10, 1 + 4},
    {"object 6 answered by a primitive, in the second of three", OBJECT_bottom, SELECTOR_lost_with_, {OBJECT_twin, 1}, 2, ROOM, SOFADUCK_FINISHED, 4, 2},
    {"object 6 for a method that cannot run on the receiver", OBJECT_low, SELECTOR_strange_, {OBJECT_aside, 0}, 1, ROOM, SOFADUCK_FINISHED, 5, 3},
    /* halts: the send that halts does not count, those before it do */
    {"not understood", BOTTOM(SELECTOR_lost_, OBJECT_deaf), ROOM, SOFADUCK_NOT_UNDERSTOOD, 6, 2},
    {"not understood at once", BOTTOM(SELECTOR_far_, OBJECT_deaf), ROOM, SOFADUCK_NOT_UNDERSTOOD, 1, 0},
    {"no room for a message", BOTTOM(SELECTOR_lost_, OBJECT_low), 1000, 1, SOFADUCK_NOT_UNDERSTOOD, 6, 1},
    {"no boolean", BOTTOM(SELECTOR_undecided_, OBJECT_low), ROOM, SOFADUCK_NO_BOOLEAN, 4, 2},
    {"no stack room in the fourth frame", OBJECT_bottom, SELECTOR_deeper, {0, 0}, 0, 4 * 18 - 1, OBJECTS, SOFADUCK_NO_STACK_ROOM, 5, 48},
    {"no stack room for a first send", BOTTOM(SELECTOR_here_, OBJECT_bottom), 2 * 18 - 1, OBJECTS, SOFADUCK_NO_STACK_ROOM, 1, 0},
    {"no stack room for object 6", OBJECT_bottom, SELECTOR_lost_with_, {OBJECT_child, 1}, 2, 2 * 18 - 1, OBJECTS, SOFADUCK_NO_STACK_ROOM, 2, 0},
    /* the same again and again: push, then send and jump by turns */
    {"a hundred sends, 24 classes", OBJECT_bottom, SELECTOR_again, {0, 0}, 0, ROOM, SOFADUCK_RUNNING, GRANT, 24 * (GRANT / 2)},
    {"a hundred sends, the own class", OBJECT_low, SELECTOR_again, {0, 0}, 0, ROOM, SOFADUCK_RUNNING, GRANT, GRANT / 2},
};
enum { HANDLERS = sizeof handlers / sizeof *handlers };

/* Lookups of every selector from every class, as many as the cache holds. */
static void fill(sofaduck_state *s) {
    for (unsigned class = 2; class <= 2u * s->registers[SOFADUCK_N]; class += 2)
        for (unsigned selector = 2; selector <= 2u * s->registers[SOFADUCK_N]; selector += 2) keep(s, (uint16_t)selector, (uint16_t)class);
}

static bool begun(machine *m, const handler *h) {
    return sofaduck_state_begin(&m->s, h->receiver, h->selector, h->arguments, h->given) == 0 && running(m);
}

/* What a run has to give, and a second one that is refused writes nothing. */
static bool gives(machine *m, const handler *h) {
    uint32_t count = 77, reach = 78;
    uint64_t dictionaries = 79;
    if (!begun(m, h) || sofaduck_state_run(&m->s, 0, &count, &reach, &dictionaries) != 0 || count != 0 || dictionaries != 0) return false;
    const bool fine = sofaduck_state_run(&m->s, GRANT, &count, &reach, &dictionaries) == 0 && m->s.registers[SOFADUCK_PHASE] == h->phase
        && count == h->count && dictionaries == h->dictionaries && sofaduck_state_check(&m->s) == 0;
    if (dictionaries != h->dictionaries) printf("%u bytecodes, %u dictionaries\n", (unsigned)count, (unsigned)dictionaries);
    if (running(m)) return fine && sofaduck_state_drop(&m->s) == 0;
    count = 77, reach = 78, dictionaries = 79;
    return fine && sofaduck_state_run(&m->s, 1, &count, &reach, &dictionaries) == 12 && count == 77 && reach == 78 && dictionaries == 79;
}

/* The same in a list, in one run and in two; begins have no number. */
static bool plays(machine *m, const handler *h) {
    uint16_t words[40];
    uint32_t answers[6 * SOFADUCK_ANSWER], made = 0;
    sofaduck_calls calls = {words, 40, 0, 0};
    sofaduck_put_begin(&calls, h->receiver, h->selector, h->arguments, h->given);
    sofaduck_put_run(&calls, GRANT);
    sofaduck_put_drop(&calls);
    sofaduck_put_begin(&calls, h->receiver, h->selector, h->arguments, h->given);
    sofaduck_put_run(&calls, h->count / 2);
    sofaduck_put_run(&calls, GRANT - h->count / 2);
    memset(answers, 0x5a, sizeof answers);
    if (sofaduck_state_play(&m->s, &calls, answers, sizeof answers / sizeof *answers, &made) != 0 || made != 6) return false;
    bool fine = true;
    for (size_t k = 0; k < 6; k++) {
        const sofaduck_answer a = sofaduck_answer_at(answers, k);
        const bool runs = k == 1 || k > 3;
        fine = fine && a.number == 0 && (runs || (a.count == 0 && a.dictionaries == 0));
    }
    const sofaduck_answer whole = sofaduck_answer_at(answers, 1);
    return fine && whole.phase == h->phase && whole.count == h->count && whole.dictionaries == h->dictionaries
        && sofaduck_answer_dictionaries(answers, 4) + sofaduck_answer_dictionaries(answers, 5) == h->dictionaries;
}

/* On an empty cache, on what that left, after forget, on a full one, by play, and bytecode by bytecode. */
static void worked(void) {
    for (size_t i = 0; i < HANDLERS; i++) {
        const handler *const h = handlers + i;
        uint32_t count = 0, reach = 0;
        uint64_t dictionaries = 0;
        load(&first, h->stack, h->objects);
        copy(&second, &first), copy(&third, &first);
        test(h->what, gives(&first, h));
        bool others = gives(&first, h) && sofaduck_state_forget(&first.s) == 0 && all(first.cache, SOFADUCK_CACHE, 0) && gives(&first, h);
        fill(&second.s);
        copy(&first, &second);
        others = others && sofaduck_state_check(&second.s) == 0 && !all(second.cache, SOFADUCK_CACHE, 0) && gives(&second, h);
        test_of("on other caches", h->what, others);
        copy(&second, &third);
        test_of("by play", h->what, plays(&first, h) && plays(&second, h));
        test_of("bytecode by bytecode", h->what, begun(&third, h) && stepped(&third.s, GRANT, &count, &reach, &dictionaries) && count == h->count
                                                     && dictionaries == h->dictionaries);
    }
}

/* What else decides: the edition, and dictionaries that classes share. */
static void others(void) {
    static const handler halts = {"edition 1", BOTTOM(SELECTOR_lost_, OBJECT_low), ROOM, SOFADUCK_NOT_UNDERSTOOD, 6, 1};
    load(&first, 1000, OBJECTS);
    first.s.registers[SOFADUCK_EDITION] = 1;
    test("a send that fails, in edition 1", gives(&first, &halts));
    load(&first, 1000, OBJECTS);
    const uint16_t shared = first.bodies[sofaduck_start(first.contents, CLASS_Level24) + 1];
    for (uint16_t class = CLASS_Level2; class < CLASS_Level24; class = (uint16_t)(class + CLASS_Level3 - CLASS_Level2))
        first.bodies[sofaduck_start(first.contents, class) + 1] = shared;
    bool fine = true;
    for (size_t i = 0; i < HANDLERS; i++) {
        if (handlers[i].stack != 1000 || handlers[i].objects != OBJECTS) continue;
        copy(&second, &first);
        fine = fine && gives(&second, handlers + i);
    }
    test("a dictionary that several classes share counts for each", fine);
}

/* As a tool finds the sends that climb: bytecode by bytecode, each send named before it is made. */
static void attributed(void) {
    const uint16_t low = OBJECT_low;
    uint32_t count = 0, reach = 0;
    uint64_t dictionaries = 0, through[2] = {0, 0};
    load(&first, 1000, OBJECTS);
    bool fine = sofaduck_state_begin(&first.s, OBJECT_bottom, SELECTOR_lost_, &low, 1) == 0;
    while (fine && running(&first)) {
        sofaduck_frame f;
        uint16_t selector = 0;
        unsigned arguments = 0;
        const bool sends = sofaduck_top_frame(&first.s, &f) && sofaduck_send(&first.s, &f, &selector, &arguments);
        fine = sofaduck_state_run(&first.s, 1, &count, &reach, &dictionaries) == 0 && count == 1 && (sends || dictionaries == 0);
        if (selector == SELECTOR_own) through[0] += dictionaries;
        if (selector == SELECTOR_unknown) through[1] += dictionaries;
    }
    test("a run of one bytecode gives those of the send before which it stood", fine && through[0] == 1 && through[1] == 4);
}

/* Lists of random calls: played; singly, each on an empty cache; and the runs of them bytecode by bytecode. */
static void lists(void) {
    bool alike = true;
    uint64_t most = 0;
    unsigned phases = 0;
    for (unsigned round = 0; round < ROUNDS && alike; round++) {
        uint32_t answers[ANSWERS], answer[SOFADUCK_ANSWER], made = 0;
        uint16_t words[WORDS];
        sofaduck_calls calls = {words, WORDS, 0, 0};
        load(&first, 18 + below(120), below(2) == 0 ? 0 : below(OBJECTS));
        copy(&second, &first);
        if (below(2) == 0) fill(&first.s);
        for (unsigned k = below(LISTED); k > 0; k--) {
            static const uint16_t others[] = {OBJECT_low,  OBJECT_middle, OBJECT_top,    OBJECT_aside, OBJECT_child,
                                              OBJECT_twin, OBJECT_deaf,   OBJECT_bottom, OBJECT_row,   INTEGER(2)};
            const handler *const h = handlers + below(HANDLERS);
            const uint16_t tried[] = {below(2) == 0 ? others[below(10)] : h->arguments[0], below(2) == 0 ? others[below(10)] : h->arguments[1]};
            const unsigned which = below(20);
            if (which < 9) sofaduck_put_begin(&calls, h->receiver, h->selector, tried, h->given);
            else if (which < 17) sofaduck_put_run(&calls, below(40));
            else if (which < 19) sofaduck_put_drop(&calls);
            else sofaduck_put_forget(&calls);
        }
        memset(answers, 0x5a, sizeof answers);
        alike = sofaduck_state_play(&first.s, &calls, answers, ANSWERS, &made) == 0 && made == calls.count;
        size_t at = 0;
        for (uint32_t k = 0; alike && k < made; k++) {
            const size_t size = words[at] == SOFADUCK_PLAY_BEGIN ? 4u + words[at + 3] : words[at] == SOFADUCK_PLAY_RUN ? 3 : 1;
            const bool runs = words[at] == SOFADUCK_PLAY_RUN && running(&second);
            const sofaduck_answer a = sofaduck_answer_at(answers, k);
            uint32_t count = 0, reach = 0;
            uint64_t walks = 0;
            memset(second.cache, 0, sizeof second.cache);
            copy(&third, &second);
            alike = singly(&second.s, words + at, size, answer, SOFADUCK_ANSWER) == 1
                && memcmp(answer, answers + SOFADUCK_ANSWER * k, sizeof answer) == 0;
            if (runs) {
                alike = alike && stepped(&third.s, 65536u * words[at + 1] + words[at + 2], &count, &reach, &walks) && a.count == count
                    && a.dictionaries == walks && a.reach == reach && same_but_cache(&second, &third);
                phases |= 1u << a.phase;
            }
            if (most < a.dictionaries) most = a.dictionaries;
            at += size;
        }
        alike = alike && same_but_cache(&first, &second);
    }
    test("random lists by play, singly on empty caches, and bytecode by bytecode", alike);
    test("they climb, and end in every phase", most > 100 && phases == 62);
}

/* 180 million sends through 24 dictionaries each are a number above 32 bits, and of 270 million the low word has its highest bit too. A send and a jump
 * are two bytecodes. */
static void large(void) {
    const uint32_t sends = 180000000, more = 270000000;
    uint32_t count = 0, reach = 0, made = 0, answers[2 * SOFADUCK_ANSWER];
    uint64_t dictionaries = 0;
    uint16_t words[7];
    sofaduck_calls calls = {words, 7, 0, 0};
    load(&first, 1000, OBJECTS);
    test("more than 32 bits, by run", sofaduck_state_begin(&first.s, OBJECT_bottom, SELECTOR_again, NULL, 0) == 0
                                          && sofaduck_state_run(&first.s, 2 * sends, &count, &reach, &dictionaries) == 0 && count == 2 * sends
                                          && dictionaries == 24 * (uint64_t)sends && sofaduck_state_drop(&first.s) == 0);
    sofaduck_put_begin(&calls, OBJECT_bottom, SELECTOR_again, NULL, 0);
    sofaduck_put_run(&calls, 2 * more);
    test("more than 32 bits, by play, the high word first",
         sofaduck_state_play(&first.s, &calls, answers, 2 * SOFADUCK_ANSWER, &made) == 0 && made == 2 && sofaduck_answer_at(answers, 1).count == 2 * more
             && sofaduck_answer_dictionaries(answers, 1) == 24 * (uint64_t)more && answers[SOFADUCK_ANSWER + 5] == 1
             && answers[SOFADUCK_ANSWER + 6] == 24 * more);
}

int main(int argc, char **argv) {
    if (!read_image(argc, argv)) {
        fprintf(stderr, "usage: dictionaries IMAGE, of dictionaries.source\n");
        return 2;
    }
    worked();
    others();
    attributed();
    lists();
    large();
    return failed;
}
