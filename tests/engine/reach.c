/* Reach to the word: held to the frames that the readers find in the stack after each bytecode, to numbers worked out by hand, and to what it is for:
 * a stack of so many words is enough, and one word less is not. A line for each test; the exit status says whether all passed. Usage: reach IMAGE,
 * of reach.source. */
#define ABOUT "reach: "
#include "frames.h"
#include "machine.h"
#include "reach.h"

enum { ROUNDS = 400, LISTED = 40, WORDS = 5 * LISTED }; /* calls in a list, and their words */

static machine first, whole, steps;

static uint32_t begin(machine *m, uint16_t selector, int argument) {
    const uint16_t word = sofaduck_word(argument);
    return sofaduck_state_begin(&m->s, OBJECT_box, selector, &word, selector == SELECTOR_deeper ? 0 : 1);
}

/* Handlers, the lengths of stack and the room for objects that they are tried with. Frames have 18 and 38 words. What must come of a run to the end,
 * or of 2,000 bytecodes, is worked out by hand from reach.source. */
typedef struct {
    const char *what;
    uint16_t selector;
    int argument;
    size_t stack;
    unsigned objects, phase;
    uint32_t reach;
} handler;
static const handler handlers[] = {
    {"frames that return count", SELECTOR_tree_, 1, 1000, OBJECTS, SOFADUCK_FINISHED, 18 + 38},
    {"the highest is not the last: small, large, small", SELECTOR_tree_, 2, 1000, OBJECTS, SOFADUCK_FINISHED, 18 + 38 + 18},
    {"small and large by turns, seven deep", SELECTOR_tree_, 6, 1000, OBJECTS, SOFADUCK_FINISHED, 4 * 18 + 3 * 38},
    {"without room for an object new has a frame", SELECTOR_tree_, 0, 1000, 0, SOFADUCK_FINISHED, 18 + 18},
    {"with room it has none, nor have answers of self and a field", SELECTOR_tree_, 0, 1000, 1, SOFADUCK_FINISHED, 18},
    {"where none is needed a full stack is enough", SELECTOR_tree_, 0, 18, 1, SOFADUCK_FINISHED, 18},
    {"a handler that goes on", SELECTOR_back_, 3, 1000, OBJECTS, SOFADUCK_RUNNING, 18 + 18 + 38 + 18 + 38},
    {"not understood, five frames deep", SELECTOR_lost_, 4, 1000, OBJECTS, SOFADUCK_NOT_UNDERSTOOD, 5 * 18},
    {"no boolean, five frames deep", SELECTOR_undecided_, 4, 1000, OBJECTS, SOFADUCK_NO_BOOLEAN, 5 * 18},
    {"a frame that does not fit does not count", SELECTOR_deeper, 0, 100, OBJECTS, SOFADUCK_NO_STACK_ROOM, 5 * 18},
    {"frames up to the last word", SELECTOR_deeper, 0, 90, OBJECTS, SOFADUCK_NO_STACK_ROOM, 90},
    {"a word less, a frame less", SELECTOR_deeper, 0, 89, OBJECTS, SOFADUCK_NO_STACK_ROOM, 4 * 18},
    {"a large frame that does not fit where a small one would", SELECTOR_fill_, 2, 2 * 38 + 37, OBJECTS, SOFADUCK_NO_STACK_ROOM, 2 * 38},
    {"three large frames and two small ones", SELECTOR_fill_, 2, 3 * 38 + 2 * 18 + 17, OBJECTS, SOFADUCK_NO_STACK_ROOM, 3 * 38 + 2 * 18},
};
enum { HANDLERS = sizeof handlers / sizeof *handlers };

static void begun(const handler *h) {
    load(&first, h->stack, h->objects);
    if (begin(&first, h->selector, h->argument) != 0) test("a handler is begun", false);
}

/* Numbers worked out by hand; and a run of 0 at the start, which gives the first frame's end. */
static void worked(void) {
    for (size_t i = 0; i < HANDLERS; i++) {
        const handler *const h = handlers + i;
        const uint32_t one = h->selector == SELECTOR_fill_ ? SOFADUCK_LARGE_FRAME : SOFADUCK_FRAME;
        uint32_t count = 77, reach = 78;
        uint64_t dictionaries = 79;
        begun(h);
        const bool none = sofaduck_state_run(&first.s, 0, &count, &reach, &dictionaries) == 0 && count == 0 && reach == one;
        const bool all = sofaduck_state_run(&first.s, 2000, &count, &reach, &dictionaries) == 0 && first.s.registers[SOFADUCK_PHASE] == h->phase;
        if (reach != h->reach) printf("reach %u, not %u\n", (unsigned)reach, (unsigned)h->reach);
        test(h->what, none && all && reach == h->reach);
    }
}

/* From the beginning of each handler a run of every length, against as many runs of one; and a run of 0 from where it leaves the handler. */
static void every_length(void) {
    bool fine = true;
    for (size_t i = 0; i < HANDLERS && fine; i++) {
        uint32_t highest = 0;
        uint64_t through = 0;
        begun(handlers + i);
        copy(&steps, &first);
        highest = frames_end(&steps.s);
        for (uint32_t n = 0; n < 900 && fine; n++) {
            uint32_t made[2], reach[2], before[2];
            uint64_t dictionaries[2];
            copy(&whole, &first);
            fine = sofaduck_state_run(&whole.s, n, made, reach, dictionaries) == 0 && reach[0] == highest && dictionaries[0] == through
                && same(&whole, &steps);
            if (!running(&whole)) break;
            fine = fine && sofaduck_state_run(&whole.s, 0, before, before + 1, dictionaries) == 0 && before[0] == 0
                && before[1] == frames_end(&steps.s) && dictionaries[0] == 0;
            fine = fine && stepped(&steps.s, 1, made + 1, reach + 1, dictionaries + 1);
            if (highest < reach[1]) highest = reach[1];
            through += dictionaries[1];
        }
    }
    test("runs of every length, against the frames after each bytecode", fine);
}

/* A run cut into several: each gives what the frames tell of it alone, and the largest is that of the run as a whole. */
static void cut(void) {
    bool fine = true;
    unsigned lower = 0; /* parts that reach less than one before them */
    for (unsigned round = 0; round < ROUNDS && fine; round++) {
        uint32_t granted = 0, most = 0, counted = 0, count = 0, reach = 0;
        uint64_t added = 0, dictionaries = 0;
        begun(handlers + round % HANDLERS);
        copy(&whole, &first);
        for (unsigned part = 1 + below(8); part > 0 && running(&first) && fine; part--) {
            const uint32_t n = below(4) == 0 ? below(400) : below(40);
            uint32_t expected[2];
            uint64_t walks;
            copy(&steps, &first);
            fine = stepped(&steps.s, n, expected, expected + 1, &walks) && sofaduck_state_run(&first.s, n, &count, &reach, &dictionaries) == 0
                && count == expected[0] && reach == expected[1] && dictionaries == walks && same(&first, &steps);
            lower += reach < most;
            granted += n, counted += count, added += dictionaries;
            if (most < reach) most = reach;
        }
        fine = fine && sofaduck_state_run(&whole.s, granted, &count, &reach, &dictionaries) == 0 && count == counted && reach == most
            && dictionaries == added && same(&first, &whole);
    }
    test("of a run that is cut the largest reach is that of the whole, and counts and dictionaries add up to its own", fine);
    test("a frame that returned before a run does not count in it", lower > ROUNDS / 20);
}

/* Eight large frames and 3,624 small ones are 65,536 words, which 16 bits do not hold. */
static void largest(void) {
    uint32_t count = 77, reach = 78, made = 79, expected[2], answers[3 * SOFADUCK_ANSWER];
    uint64_t dictionaries = 80, walks = 81;
    uint16_t words[WORDS];
    sofaduck_calls calls = {words, WORDS, 0, 0};
    load(&first, SOFADUCK_STACK, OBJECTS);
    bool fine = begin(&first, SELECTOR_fill_, 7) == 0;
    copy(&whole, &first), copy(&steps, &first);
    fine = fine && sofaduck_state_run(&whole.s, 1000000, &count, &reach, &dictionaries) == 0;
    test("a stack of 65,536 words is filled to the last", fine && whole.s.registers[SOFADUCK_PHASE] == SOFADUCK_NO_STACK_ROOM
                                                              && whole.s.registers[SOFADUCK_TOP] == 65518 && reach == 65536);
    test("so it is bytecode by bytecode", stepped(&steps.s, 1000000, expected, expected + 1, &walks) && expected[0] == count
                                              && expected[1] == 65536 && walks == dictionaries && same(&whole, &steps));
    copy(&steps, &first);
    fine = sofaduck_state_run(&steps.s, count, &made, &reach, &dictionaries) == 0 && made == count && reach == 65536 && running(&steps);
    test("a run of 0 gives it too", fine && sofaduck_state_run(&steps.s, 0, &made, &reach, &dictionaries) == 0 && made == 0 && reach == 65536);
    sofaduck_put_run(&calls, count);
    sofaduck_put_run(&calls, 0);
    sofaduck_put_run(&calls, 1);
    copy(&steps, &first);
    fine = sofaduck_state_play(&steps.s, &calls, answers, 3 * SOFADUCK_ANSWER, &made) == 0 && made == 3 && same(&whole, &steps);
    for (size_t k = 0; k < 3; k++) fine = fine && answers[SOFADUCK_ANSWER * k + SOFADUCK_ANSWER_REACH] == 65536;
    test("and so does play", fine && answers[2 * SOFADUCK_ANSWER + SOFADUCK_ANSWER_PHASE] == SOFADUCK_NO_STACK_ROOM);

    load(&steps, STACK, OBJECTS);
    fine = begin(&steps, SELECTOR_fill_, 7) == 0 && sofaduck_state_run(&steps.s, 1000000, expected, &reach, &dictionaries) == 0;
    test("a longer stack is of no use", fine && expected[0] == count && reach == 65536 && same(&whole, &steps));
    load(&steps, SOFADUCK_STACK - 1, OBJECTS);
    fine = begin(&steps, SELECTOR_fill_, 7) == 0 && sofaduck_state_run(&steps.s, 1000000, expected, &reach, &dictionaries) == 0;
    test("in 65,535 words there is one frame less", fine && expected[0] == count - 2 && reach == 65536 - 18);
}

/* Random calls; behind each begin there is a run, if only of 0, so that its frame counts. */
static void put(sofaduck_calls *calls) {
    static const uint16_t selectors[] = {SELECTOR_deeper, SELECTOR_fill_, SELECTOR_tree_,     SELECTOR_wide_,
                                         SELECTOR_back_,  SELECTOR_lost_, SELECTOR_undecided_};
    for (unsigned k = 1 + below(8); k > 0; k--) {
        const uint16_t selector = selectors[below(7)], word = sofaduck_word((int)below(5));
        if (below(2) == 0) sofaduck_put_drop(calls);
        sofaduck_put_begin(calls, OBJECT_box, selector, &word, selector == SELECTOR_deeper ? 0 : 1);
        for (unsigned runs = 1 + below(2); runs > 0; runs--) sofaduck_put_run(calls, below(4) == 0 ? 0 : below(below(2) == 0 ? 20 : 200));
        if (below(9) == 0) sofaduck_put_forget(calls);
    }
}

/* As a team finds the length of its stack: the largest reach of all runs on a long one. The same list is played on so many words, and on one less. */
static void sized(void) {
    bool enough = true, exact = true;
    unsigned refused = 0, halted = 0;
    for (unsigned round = 0; round < ROUNDS && enough && exact; round++) {
        uint32_t answers[3][SOFADUCK_ANSWER * LISTED], made[3] = {0, 0, 0}, needed = 0;
        uint16_t words[WORDS];
        sofaduck_calls calls = {words, WORDS, 0, 0};
        put(&calls);
        machine *const machines[] = {&first, &whole, &steps};
        for (int k = 0; k < 3; k++) {
            const size_t long_one = below(2) == 0 ? SOFADUCK_STACK : SOFADUCK_LARGE_FRAME + below(200);
            load(machines[k], k == 0 ? long_one : k == 1 ? needed : needed - 1, round % 3 == 0 ? 1 : OBJECTS);
            memset(answers[k], 0x5a, sizeof answers[k]);
            enough = enough && sofaduck_state_play(&machines[k]->s, &calls, answers[k], SOFADUCK_ANSWER * LISTED, made + k) == 0
                && made[k] == calls.count;
            for (uint32_t i = 0; k == 0 && i < made[0]; i++) {
                const uint32_t reach = sofaduck_answer_at(answers[0], i).reach;
                if (needed < reach) needed = reach;
            }
        }
        enough = enough && memcmp(answers[0], answers[1], sizeof answers[0]) == 0 && same(&first, &whole);
        uint32_t i = 0;
        while (i < made[0] && memcmp(answers[0] + SOFADUCK_ANSWER * i, answers[2] + SOFADUCK_ANSWER * i, SOFADUCK_ANSWER * sizeof(uint32_t)) == 0) i++;
        if (i == made[0]) exact = false;
        if (!exact) break;
        const sofaduck_answer fits = sofaduck_answer_at(answers[0], i), lacks = sofaduck_answer_at(answers[2], i);
        const bool no_begin = fits.number == 0 && lacks.number == SOFADUCK_NO_FIRST_FRAME;
        const bool no_room = fits.number == 0 && lacks.number == 0 && lacks.phase == SOFADUCK_NO_STACK_ROOM && fits.reach == needed
            && lacks.reach < needed && lacks.count < fits.count;
        exact = no_begin || no_room;
        refused += no_begin, halted += no_room;
    }
    test("on a stack of as many words as were needed the same calls give the same", enough);
    test("on one a word shorter a run halts for want of room, or a begin is refused by 13", exact && refused > ROUNDS / 40 && halted > ROUNDS / 4);
}

int main(int argc, char **argv) {
    if (!read_image(argc, argv)) {
        fprintf(stderr, "usage: reach IMAGE, of reach.source\n");
        return 2;
    }
    worked();
    every_length();
    cut();
    largest();
    sized();
    return failed;
}
