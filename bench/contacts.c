// Times the contacts of a frame, each a begin and a run of a short handler, by turns made singly and put into a list that is played; the least of all
// runs counts. Both have to leave the same answers, registers and words. Before each another image is loaded, since an engine does other things
// between frames: a check right behind one of the same state takes up to a third less. Argument: a file to which the goal is added.
#include "images.h"
#include "machine.h"
#include "measure.h"
#include "programs.h"
#include <stdio.h>
#include <string.h>

enum { STACK = 4096, GRANT = 1000, RUNS = 100, MOST = 100, FRAMES = 3 };
static const uint32_t in_frame[FRAMES] = {1, 10, MOST};
static const double GOAL = 20; // times the speed of single calls: MOST in a frame, 6,000 words of bodies

// The words of a state, and the answers of a frame's calls as play writes them.
typedef struct {
    uint16_t contents[SOFADUCK_CONTENTS], bodies[SOFADUCK_BODIES], stack[STACK], cache[SOFADUCK_CACHE];
    uint32_t answers[MOST][2][SOFADUCK_ANSWER];
} words;

static words of_singly, of_played, elsewhere;
static uint8_t image[MOST_IMAGE], other[MOST_IMAGE];
static size_t other_length;

static double now(void) { return nanoseconds(CLOCK_MONOTONIC); }

static machine on(words *w) {
    return (machine){w->contents, SOFADUCK_CONTENTS, w->bodies, SOFADUCK_BODIES, w->stack, STACK, w->cache, SOFADUCK_CACHE, {0}};
}

static bool between_frames(void) {
    machine m = on(&elsewhere);
    return sofaduck_state_load(&m, other, other_length) == 0;
}

// What contact i of a frame gives its handler.
static uint16_t argument(uint32_t i) { return sofaduck_word(i); }

static void make_singly(machine *m, uint32_t contacts, words *w) {
    const uint16_t *const r = m->registers;
    for (uint32_t i = 0; i < contacts; i++) {
        const uint16_t x = argument(i);
        uint32_t *const begun = w->answers[i][0], *const ran = w->answers[i][1];
        begun[SOFADUCK_ANSWER_NUMBER] = sofaduck_state_begin(m, r[START_RECEIVER], r[START_SELECTOR], &x, 1);
        uint64_t dictionaries = 0;
        ran[SOFADUCK_ANSWER_NUMBER] = sofaduck_state_run(m, GRANT, ran + SOFADUCK_ANSWER_COUNT, ran + SOFADUCK_ANSWER_REACH, &dictionaries);
        ran[SOFADUCK_ANSWER_DICTIONARIES_HIGH] = dictionaries >> 32;
        ran[SOFADUCK_ANSWER_DICTIONARIES_LOW] = dictionaries;
        ran[SOFADUCK_ANSWER_PHASE] = r[PHASE];
        ran[SOFADUCK_ANSWER_VALUE] = r[VALUE];
    }
}

// How many calls were made.
static uint32_t make_by_play(machine *m, uint32_t contacts, words *w) {
    static uint16_t list[MOST * (5 + 3)];
    sofaduck_calls calls = {list, MOST * (5 + 3), 0, 0};
    uint32_t made = 0;
    for (uint32_t i = 0; i < contacts; i++) {
        const uint16_t x = argument(i);
        sofaduck_put_begin(&calls, m->registers[START_RECEIVER], m->registers[START_SELECTOR], &x, 1);
        sofaduck_put_run(&calls, GRANT);
    }
    return sofaduck_state_play(m, &calls, w->answers[0][0], sizeof w->answers / sizeof(uint32_t), &made) == 0 ? made : 0;
}

static bool alike(const machine *m, const machine *p) {
    return memcmp(m->registers, p->registers, sizeof m->registers) == 0 && memcmp(&of_singly, &of_played, sizeof of_singly) == 0;
}

static bool measure(size_t size, FILE *goals) {
    double single[FRAMES] = {1e18, 1e18, 1e18}, played[FRAMES] = {1e18, 1e18, 1e18};
    memset(&of_singly, 0, sizeof of_singly), memset(&of_played, 0, sizeof of_played);
    machine m = on(&of_singly), p = on(&of_played);
    ordinary(image, 1, size - CONTACT_WORDS, size);
    const size_t length = with_contact(image);
    if (sofaduck_state_load(&m, image, length) != 0 || sofaduck_state_load(&p, image, length) != 0)
        return printf("contacts: the image of %zu words is refused\n", size), false;
    const uint32_t *const last = of_singly.answers[MOST - 1][1];
    for (int run = 0; run < RUNS; run++)
        for (int k = 0; k < FRAMES; k++) {
            bool fine = between_frames();
            const double t0 = now();
            make_singly(&m, in_frame[k], &of_singly);
            const double t1 = now();
            fine = fine && between_frames();
            const double t2 = now();
            const uint32_t made = make_by_play(&p, in_frame[k], &of_played);
            const double t3 = now();
            least(single + k, (t1 - t0) / in_frame[k]), least(played + k, (t3 - t2) / in_frame[k]);
            if (!fine || made != 2 * in_frame[k] || m.registers[PHASE] != SOFADUCK_FINISHED || !alike(&m, &p))
                return printf("contacts: %u made singly and by play differ, or do not finish; calls made by play: %u\n", in_frame[k], made), false;
        }
    for (int k = 0; k < FRAMES; k++)
        printf("contacts %5u words, %3u a frame, %u bytecodes each   singly %6.2f us each   by play %6.2f   speed relative to single calls: %.1f\n",
               m.registers[B], in_frame[k], last[SOFADUCK_ANSWER_COUNT], single[k] / 1e3, played[k] / 1e3, single[k] / played[k]);
    const double speed = single[FRAMES - 1] / played[FRAMES - 1];
    if (goals != NULL && size == 6000)
        fprintf(goals, "goal: %d contacts a frame by play at %.0f times the speed of single calls, at 6,000 words: %.1f, %s\n", MOST, GOAL, speed,
                verdict(speed >= GOAL));
    return true;
}

int main(int count, char **arguments) {
    FILE *goals = count > 1 ? fopen(arguments[1], "a") : NULL;
    other_length = ordinary(other, 1, SOFADUCK_BODIES, 1);
    const bool fine = measure(1000, goals) && measure(6000, goals) && measure(24000, goals);
    if (goals != NULL) fclose(goals);
    return fine ? 0 : 1;
}
