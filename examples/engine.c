/* A small collision engine over the library. It plays a scene of a wooden crate, whose contact handlers are in crate.source: the contacts of a frame
 * are one list, played by one call; each handler gets a few bytecodes a frame, one that needs more goes on in the next frame, and contacts wait for
 * it. One handler halts, and where it stands is reported. Then it saves the objects, loads them into a second state, and plays both on, side by side.
 * A proxy keeps a message that nobody implements, which is read. At the end it says how many words of stack the handlers needed, and how much room
 * for objects is left.
 *
 *     engine IMAGE
 */
#include "sofaduck.h"
#include "crate.h" /* the objects and fields of crate.source, written by examples/assemble */
#include <stdbool.h>
#include <stdio.h>
#include <stdlib.h>
#include <string.h>

enum { STACK = 256, GRANT = 48, CONTACTS = 4 }; /* words of stack; bytecodes that a handler gets in a frame; contacts in a list */
enum { CALLS = 1 + 2 * CONTACTS, WORDS = 3 + (6 + 3) * CONTACTS, ANSWERS = SOFADUCK_ANSWER * CALLS }; /* a run; for each contact begin and run */

/* A state with buffers of its own. */
typedef struct {
    sofaduck_state state;
    uint16_t contents[SOFADUCK_CONTENTS], bodies[SOFADUCK_BODIES], stack[STACK], cache[SOFADUCK_CACHE];
} world;

typedef struct {
    int frame, impulse;
    uint16_t other;
    const char *name;
} contact;

static uint16_t handler; /* the selector that a contact sends */
static uint32_t needed;  /* words of stack: the largest reach of the runs so far */

static void quit(const char *what, uint32_t number) {
    fprintf(stderr, "engine: %s is refused by %u: %s\n", what, (unsigned)number, sofaduck_refusal_text(number));
    exit(1);
}
static void fail(const char *what) {
    fprintf(stderr, "engine: %s\n", what);
    exit(1);
}

/* A call that has to be made. */
static void made(const char *what, uint32_t number) {
    if (number != 0) quit(what, number);
}

static sofaduck_state *load(world *w, const uint8_t *image, size_t length) {
    sofaduck_state *const s = &w->state;
    s->contents = w->contents, s->contents_length = SOFADUCK_CONTENTS;
    s->bodies = w->bodies, s->bodies_length = SOFADUCK_BODIES;
    s->stack = w->stack, s->stack_length = STACK;
    s->cache = w->cache, s->cache_length = SOFADUCK_CACHE;
    made("load", sofaduck_state_load(s, image, length));
    return s;
}

static uint16_t field(const sofaduck_state *s, uint16_t object, size_t k) {
    size_t size = 0;
    const uint16_t *const fields = sofaduck_body(s, object, SOFADUCK_FIELDS, &size);
    return fields != NULL && k < size ? fields[k] : SOFADUCK_NIL;
}
static int integer(const sofaduck_state *s, uint16_t object, size_t k) { return sofaduck_integer(field(s, object, k)); }

static void show_crate(const sofaduck_state *s) {
    const uint16_t splinter = field(s, OBJECT_crate, FIELD_Crate_splinter);
    const size_t contacts = (size_t)integer(s, OBJECT_crate, FIELD_Crate_contacts);
    size_t count = 0;
    const uint16_t *const met = sofaduck_elements(s, OBJECT_crate, &count); /* behind the named fields, filled in turns */
    printf("         crate: %d planks, %d contacts, the last with", integer(s, OBJECT_crate, FIELD_Crate_planks), (int)contacts);
    for (size_t k = 0; met != NULL && k < count && k < contacts; k++) {
        const uint16_t body = met[(contacts - 1 - k) % count];
        printf(" %s", body == OBJECT_floor ? "floor" : body == OBJECT_hammer ? "hammer" : body == OBJECT_glove ? "glove" : "nothing");
    }
    printf(", %s", field(s, OBJECT_crate, FIELD_Crate_broken) == SOFADUCK_TRUE ? "broken" : "whole");
    if (splinter != SOFADUCK_NIL) printf(", its splinter is object %d", splinter / 2);
    printf("; wrecks: %d; objects: %d\n", integer(s, OBJECT_Wrecks, FIELD_Association_value), s->registers[SOFADUCK_N]);
}

static void show_word(uint16_t word) {
    if (sofaduck_is_integer(word)) printf("%d", sofaduck_integer(word));
    else if (word == SOFADUCK_NIL) printf("nil");
    else printf("object %d", word / 2);
}

/* The last message that the glove did not understand and kept. Each message took two objects, whether it was kept or not. */
static void show_kept(const sofaduck_state *s) {
    uint16_t selector;
    size_t count = 0;
    char text[80];
    const uint16_t *const arguments = sofaduck_message(s, field(s, OBJECT_glove, FIELD_Proxy_last), &selector, &count);
    if (arguments == NULL) {
        printf("the glove kept no message\n");
        return;
    }
    sofaduck_text(s, selector, text, sizeof text);
    printf("the glove kept %s with", text);
    for (size_t k = 0; k < count; k++) {
        printf(" ");
        show_word(arguments[k]);
    }
    printf("\n");
}

/* Why a handler halted, and where it stands: its frames, the top one first. */
static void show_halt(const sofaduck_state *s) {
    const unsigned phase = s->registers[SOFADUCK_PHASE];
    sofaduck_frame at;
    uint16_t selector;
    unsigned count;
    char text[80];
    if (!sofaduck_top_frame(s, &at)) return;
    if (sofaduck_send(s, &at, &selector, &count)) {
        sofaduck_text(s, selector, text, sizeof text);
        printf("         ");
        show_word(sofaduck_operand(s, &at, count));
        printf(phase == SOFADUCK_NOT_UNDERSTOOD ? " does not understand %s\n" : " is sent %s, which has no room\n", text);
    } else {
        printf("         a jump finds ");
        show_word(sofaduck_operand(s, &at, 0));
        printf("\n");
    }
    do {
        sofaduck_text(s, sofaduck_method_selector(s, at.method), text, sizeof text);
        printf("         in %s of ", text);
        show_word(at.receiver);
        printf(", method %d at %d, bytecode %d\n", at.method / 2, at.position, sofaduck_code(s, at.method, at.position));
    } while (sofaduck_next_frame(s, &at));
}

/* What came of a handler that was run, with the dictionaries that its sends went through; `met` is null where it goes on from the frame before. */
static void show_run(int now, const contact *met, sofaduck_answer run) {
    printf("frame %2d: ", now);
    if (met == NULL) printf("the handler goes on: ");
    else printf("the crate meets %s, impulse %d: ", met->name, met->impulse);
    if (run.number != 0) {
        printf("answered at once\n");
        return;
    }
    printf("%s, %u bytecodes, %llu dictionaries", sofaduck_phase_text(run.phase), (unsigned)run.count, (unsigned long long)run.dictionaries);
    if (run.phase == SOFADUCK_FINISHED) printf(", value %d", sofaduck_integer(run.value));
    printf("\n");
}

/* A frame's list: a run if a handler goes on, then a begin and a run for each contact. */
static sofaduck_calls listed(uint16_t words[WORDS], bool goes_on, const contact *contacts, size_t count) {
    sofaduck_calls calls = {words, WORDS, 0, 0};
    bool fits = !goes_on || sofaduck_put_run(&calls, GRANT);
    for (size_t i = 0; i < count; i++) {
        const uint16_t arguments[] = {sofaduck_word(contacts[i].impulse), contacts[i].other};
        fits = fits && sofaduck_put_begin(&calls, OBJECT_crate, handler, arguments, 2) && sofaduck_put_run(&calls, GRANT);
    }
    if (!fits) fail("a list does not fit in its words");
    return calls;
}

/* The first calls of a list, as many as there is room for their answers. */
static void play_first(sofaduck_state *s, const sofaduck_calls *calls, uint32_t count, uint32_t *answers) {
    uint32_t length = 0;
    made("play", sofaduck_state_play(s, calls, answers, SOFADUCK_ANSWER * count, &length));
    if (length != count) fail("a call of a list was not made");
}

/* A begin that was made, whose answer has no phase; a run that finished; or one that had nothing to run, since begin answered at once. */
static bool done(sofaduck_answer a) {
    return a.number == 0 ? a.phase == SOFADUCK_IDLE || a.phase == SOFADUCK_FINISHED : a.number == SOFADUCK_BAD_PHASE;
}

/* Plays a list up to and with the first call that is not done. Returns how many calls these are.
 *
 * A list does not stop there by itself. Behind a handler that is still running the next begin is refused, and the run that was meant for it goes on
 * with the old handler, so that contacts would change places; behind a halt the next begin removes the frames that say where it was. So the world
 * is copied first. Most lists are done to their end, and that is all. Where one is not, the copy is put back and the list is played once more, with
 * room for the answers up to that call: it comes to the same words again, and stops there.
 *
 * An engine that would rather give up a handler than have it go on puts a drop before each begin, and needs no copy. */
static uint32_t play_list(world *w, const sofaduck_calls *calls, uint32_t *answers) {
    static world before; /* all of it, to be simple; sofaduck.h says how much of a state is enough */
    before = *w;
    play_first(&w->state, calls, calls->count, answers);
    uint32_t count = 1;
    while (count < calls->count && done(sofaduck_answer_at(answers, count - 1))) count++;
    if (count < calls->count) {
        *w = before;
        play_first(&w->state, calls, count, answers);
    }
    return count;
}

static bool running(const sofaduck_state *s) { return s->registers[SOFADUCK_PHASE] == SOFADUCK_RUNNING; }

/* One frame, in which so many contacts wait. They are handled in their order, until a handler has used up its grant: it goes on in the next frame,
 * and the contacts behind it wait. A handler that halts is given up, and the contacts behind it are another list. Returns how many were begun. */
static size_t frame(world *w, int now, const contact *contacts, size_t waiting, bool shown) {
    sofaduck_state *const s = &w->state;
    uint16_t words[WORDS];
    uint32_t answers[ANSWERS];
    size_t begun = 0;
    do {
        const bool goes_on = running(s);
        const sofaduck_calls calls = listed(words, goes_on, contacts + begun, waiting - begun < CONTACTS ? waiting - begun : CONTACTS);
        const uint32_t count = play_list(w, &calls, answers);
        for (uint32_t k = 0; k < count; k++) {
            const contact *const met = goes_on && k == 0 ? NULL : contacts + begun++;
            if (met != NULL) made("begin", sofaduck_answer_at(answers, k++).number); /* the next answer is its run's */
            const sofaduck_answer run = sofaduck_answer_at(answers, k);
            if (needed < run.reach) needed = run.reach;
            if (shown) show_run(now, met, run);
        }
        if (s->registers[SOFADUCK_PHASE] > SOFADUCK_FINISHED) {
            if (shown) show_halt(s);
            made("drop", sofaduck_state_drop(s));
        }
    } while (begun < waiting && !running(s));
    if (shown) show_crate(s);
    return begun;
}

/* Frames from `now` on, until all contacts are handled. Returns the frame after the last. */
static int play(world *w, int now, const contact *contacts, size_t length, bool shown) {
    for (size_t next = 0; next < length || running(&w->state); now++) {
        size_t waiting = 0;
        while (next + waiting < length && contacts[next + waiting].frame <= now) waiting++;
        if (waiting > 0 || running(&w->state)) next += frame(w, now, contacts + next, waiting, shown);
    }
    return now;
}

/* Calls that a careful engine never makes. They answer a number and leave the state as it was. */
static void mistakes(world *w) {
    static world before;
    sofaduck_state *const s = &w->state;
    uint32_t count = 0, reach = 0, answers[ANSWERS];
    uint64_t dictionaries = 0;
    uint16_t words[WORDS];
    const uint16_t impulse = sofaduck_word(5);
    before = *w;
    const struct {
        const char *what;
        uint32_t number, wanted;
    } tried[] = {
        {"run with nothing begun", sofaduck_state_run(s, GRANT, &count, &reach, &dictionaries), SOFADUCK_BAD_PHASE},
        {"a contact of an integer", sofaduck_state_begin(s, impulse, handler, NULL, 0), SOFADUCK_NO_METHOD},
        {"a contact with one argument", sofaduck_state_begin(s, OBJECT_crate, handler, &impulse, 1), SOFADUCK_BAD_COUNT},
    };
    for (size_t i = 0; i < sizeof tried / sizeof *tried; i++) {
        if (tried[i].number != tried[i].wanted) quit(tried[i].what, tried[i].number);
        printf("%s: refused by %u: %s\n", tried[i].what, (unsigned)tried[i].number, sofaduck_refusal_text(tried[i].number));
    }
    sofaduck_calls calls = {words, WORDS, 0, 0};
    sofaduck_put_run(&calls, GRANT);
    sofaduck_put_begin(&calls, OBJECT_crate, handler, &impulse, 1);
    calls.length--; /* the begin lacks its argument: it is not made, nor what would come behind it */
    made("play", sofaduck_state_play(s, &calls, answers, ANSWERS, &count));
    printf("a list whose last call is cut short: %u of %u calls are made\n", (unsigned)count, (unsigned)calls.count);
    if (memcmp(&before, w, sizeof before) != 0) fail("a refused call changed the state");
}

int main(int argc, char **argv) {
    static const contact before[] = {
        {1, 4, OBJECT_floor, "the floor"}, {1, 25, OBJECT_floor, "the floor"}, {1, 8, OBJECT_hammer, "the hammer"},
        {7, 3, OBJECT_hammer, "the hammer"}, {7, 4, SOFADUCK_NIL, "nothing"}, {7, 2, OBJECT_glove, "the glove"}, {7, 5, OBJECT_floor, "the floor"},
    };
    static const contact after[] = {
        {20, 1, OBJECT_floor, "the floor"}, {20, 2, OBJECT_floor, "the floor"}, {20, 3, OBJECT_floor, "the floor"},
        {20, 4, OBJECT_floor, "the floor"}, {20, 5, OBJECT_floor, "the floor"}, {21, 20, OBJECT_glove, "the glove"},
    };
    static uint8_t image[SOFADUCK_IMAGE + 1]; /* one more, so that a longer file is refused by its length */
    static world scene, second;
    if (argc != 2) {
        fprintf(stderr, "usage: engine IMAGE\n");
        return 2;
    }
    FILE *file = fopen(argv[1], "rb");
    if (file == NULL) {
        perror(argv[1]);
        return 1;
    }
    const size_t length = fread(image, 1, sizeof image, file);
    if (ferror(file)) {
        perror(argv[1]);
        return 1;
    }
    fclose(file);
    sofaduck_state *const s = load(&scene, image, length);
    printf("loaded: edition %d, %d objects, %d words of bodies\n", s->registers[SOFADUCK_EDITION], s->registers[SOFADUCK_N],
           s->registers[SOFADUCK_B]);
    handler = sofaduck_find_selector(s, "contact:with:", strlen("contact:with:"));
    if (handler == 0) fail("no class of the image has a method contact:with:");
    play(&scene, 1, before, sizeof before / sizeof *before, true);
    show_kept(s);
    mistakes(&scene);

    uint32_t saved = 0;
    made("save", sofaduck_state_save(s, image, sizeof image, &saved));
    sofaduck_state *const other = load(&second, image, saved);
    printf("saved and loaded: %u bytes, edition %d\n", (unsigned)saved, other->registers[SOFADUCK_EDITION]);
    const int end = play(&scene, 20, after, sizeof after / sizeof *after, true);
    if (play(&second, 20, after, sizeof after / sizeof *after, false) != end
        || memcmp(s->registers, other->registers, sizeof s->registers) != 0
        || memcmp(s->contents, other->contents, 4 * s->registers[SOFADUCK_N] * sizeof(uint16_t)) != 0
        || memcmp(s->bodies, other->bodies, s->registers[SOFADUCK_B] * sizeof(uint16_t)) != 0)
        fail("the two states differ");
    made("check", sofaduck_state_check(other));
    printf("both states are the same\n");
    show_kept(other);
    printf("the handlers needed %u of %d words of stack\n", (unsigned)needed, STACK);
    printf("room is left for %d objects and %d words, which nothing gives back\n", SOFADUCK_OBJECTS - s->registers[SOFADUCK_N],
           SOFADUCK_BODIES - s->registers[SOFADUCK_B]);
    return 0;
}
