/* The library with every buffer at the end of its memory: a page that nobody may touch lies behind each. Images are edited at random, what is
 * accepted is begun and run, lists of calls are played, states are spoiled and read. An access past a buffer ends the program; otherwise it fails
 * where check refuses a state that the calls left, where count, reach or dictionaries are not those of the same run made bytecode by bytecode, or where
 * some number was never answered, no message made or nothing looked up. Usage: guard IMAGE... */
#define _DEFAULT_SOURCE /* MAP_ANONYMOUS */
#include "frames.h"
#include "tests.h"
#include <stdlib.h>
#include <string.h>
#include <sys/mman.h>

enum { EDITS = 100000, ROOM = 1 << 18, PAGE = 4096, IMAGES = 8, LIST = 50, MOST_STACK = 400 };

/* The last bytes before a guard, for each of the buffers. */
static void *last(int buffer, size_t bytes) {
    static uint8_t *ends[11];
    if (ends[buffer] == NULL) {
        uint8_t *const low = mmap(NULL, ROOM + PAGE, PROT_READ | PROT_WRITE, MAP_PRIVATE | MAP_ANONYMOUS, -1, 0);
        if (low == MAP_FAILED || mprotect(low + ROOM, PAGE, PROT_NONE) != 0) {
            perror("guard");
            exit(1);
        }
        ends[buffer] = low + ROOM;
    }
    return ends[buffer] - bytes;
}

static sofaduck_state *s;
static uint32_t *count, *reach, *made;
static uint64_t *dictionaries;
static unsigned long answers[SOFADUCK_LONG_CHAIN + 1], messages, read_in_all;

static uint32_t counted(uint32_t answer) {
    answers[answer]++;
    return answer;
}

/* A word changed, a bit of it, or copied from elsewhere. */
static void edit(uint8_t *image, size_t words) {
    uint8_t *const at = image + 2 * below(words), *const from = image + 2 * below(words);
    switch (below(3)) {
    case 0: at[0] = (uint8_t)below(256), at[1] = (uint8_t)below(256); break;
    case 1: at[below(2)] ^= (uint8_t)(1u << below(8)); break;
    default: memmove(at, from, 2);
    }
}

static uint16_t any_word(void) { return (uint16_t)(below(2) == 0 ? 2 * below(200) + 1 : 2 * (1 + below(s->registers[SOFADUCK_N]))); }

static uint16_t any_selector(void) {
    for (int tries = 0; tries < 200; tries++) {
        const unsigned object = below(s->registers[SOFADUCK_N]);
        if (s->contents[4 * object + 1] == 1) return (uint16_t)(2 * (object + 1));
    }
    return s->registers[SOFADUCK_START_SELECTOR];
}

/* What a run has to give, from runs of one on a copy of the state. */
static bool expected(uint32_t n, uint32_t *made_singly, uint32_t *ends, uint64_t *walks) {
    static uint16_t contents[SOFADUCK_CONTENTS], bodies[SOFADUCK_BODIES], stack[MOST_STACK], cache[SOFADUCK_CACHE];
    sofaduck_state copy = *s;
    memcpy(copy.contents = contents, s->contents, 2 * s->contents_length);
    memcpy(copy.bodies = bodies, s->bodies, 2 * s->bodies_length);
    memcpy(copy.stack = stack, s->stack, 2 * s->stack_length);
    memcpy(copy.cache = cache, s->cache, 2 * s->cache_length);
    return stepped(&copy, n, made_singly, ends, walks);
}

/* Begin something and run it for some grants. Returns whether check accepts what is left, no call found the state wrong and the runs gave what they
 * have to. */
static bool handled(bool start) {
    const size_t given = below(3);
    uint16_t *const arguments = last(7, 2 * given);
    for (size_t i = 0; i < given; i++) arguments[i] = any_word();
    const uint16_t receiver = start ? s->registers[SOFADUCK_START_RECEIVER] : any_word();
    const uint16_t selector = start ? s->registers[SOFADUCK_START_SELECTOR] : any_selector();
    const uint32_t begun = counted(sofaduck_state_begin(s, receiver, selector, arguments, given));
    bool fine = begun != SOFADUCK_NO_ROOM && begun != SOFADUCK_BAD_STATE;
    while (s->registers[SOFADUCK_PHASE] == SOFADUCK_RUNNING && below(8) > 0) {
        const uint32_t n = below(60);
        uint32_t singly = 0, ends = 0;
        uint64_t walks = 0;
        fine = expected(n, &singly, &ends, &walks) && counted(sofaduck_state_run(s, n, count, reach, dictionaries)) == 0 && *count == singly
            && *reach == ends && *dictionaries == walks && fine;
        read_in_all += walks;
    }
    uint16_t last_selector = 0;
    size_t last_count = 0;
    messages += sofaduck_message(s, (uint16_t)(2 * s->registers[SOFADUCK_N]), &last_selector, &last_count) != NULL;
    if (below(2) == 0) fine = counted(sofaduck_state_drop(s)) == 0 && fine;
    return counted(sofaduck_state_check(s)) == 0 && fine;
}

/* A list of calls played, with room for so many words of answers. */
static uint32_t played(const uint16_t *words, size_t length, size_t room) {
    uint16_t *const calls = last(7, 2 * length);
    uint32_t *const told = last(8, 4 * room);
    memcpy(calls, words, 2 * length);
    const uint32_t number = counted(sofaduck_play(SOFADUCK_STATE(s), calls, length, told, room, made));
    for (uint32_t k = 0; number == 0 && k < *made; k++) counted(sofaduck_answer_at(told, k).number);
    return number;
}

/* Random calls in a list, which may be cut, or have a first word that is no call's. Returns as handled does. */
static bool listed(void) {
    uint16_t words[LIST];
    sofaduck_calls calls = {words, LIST, 0, 0};
    for (unsigned k = below(9); k > 0; k--) {
        const uint16_t arguments[] = {any_word(), any_word()};
        const unsigned which = below(24);
        if (which < 12) sofaduck_put_begin(&calls, any_word(), any_selector(), arguments, below(3));
        else if (which < 20) sofaduck_put_run(&calls, below(60));
        else if (which < 22) sofaduck_put_drop(&calls);
        else if (which < 23) sofaduck_put_forget(&calls);
        else sofaduck_put(&calls, (uint16_t)below(65536), 1);
    }
    const size_t length = below(4) == 0 ? below(calls.length + 1) : calls.length, room = below(40);
    const bool fine = played(words, length, room) == 0 && *made <= length && *made <= room / SOFADUCK_ANSWER;
    return counted(sofaduck_state_check(s)) == 0 && fine;
}

/* The header's readers, whatever the words are. Adding up keeps the compiler from leaving them out. */
static void readers(void) {
    static volatile unsigned long sum;
    sofaduck_frame frame;
    uint16_t selector = 0;
    unsigned arguments = 0;
    for (int more = sofaduck_top_frame(s, &frame); more; more = sofaduck_next_frame(s, &frame)) {
        char text[8] = "";
        sum += sofaduck_text(s, sofaduck_method_selector(s, frame.method), text, sizeof text) + (unsigned char)text[1];
        if (sofaduck_send(s, &frame, &selector, &arguments)) sum += selector + (unsigned long)sofaduck_operand(s, &frame, arguments);
    }
    size_t count = 0;
    const uint16_t *const elements = sofaduck_elements(s, (uint16_t)(2 + 2 * below(200)), &count);
    sum += sofaduck_find_selector(s, "a", 1) + (elements != NULL && count > 0 ? elements[count - 1] : 0u);
    const uint16_t *const arguments_of = sofaduck_message(s, (uint16_t)(2 * s->registers[SOFADUCK_N]), &selector, &count);
    sum += arguments_of != NULL && count > 0 ? arguments_of[count - 1] + (unsigned long)selector : 0u;
}

/* One word of the state changed: the calls answer something. */
static void spoiled(void) {
    uint16_t *const buffers[] = {s->contents, s->bodies, s->stack, s->cache, s->registers};
    const size_t lengths[] = {s->contents_length, s->bodies_length, s->stack_length, SOFADUCK_CACHE, SOFADUCK_REGISTERS};
    const size_t output_length = 10 + 8 * (size_t)s->registers[SOFADUCK_N] + 2 * (size_t)s->registers[SOFADUCK_B];
    const unsigned which = below(5);
    static const uint16_t list[] = {SOFADUCK_PLAY_RUN, 0, 100, SOFADUCK_PLAY_DROP, SOFADUCK_PLAY_BEGIN, SOFADUCK_NIL, SOFADUCK_NIL, 0};
    uint32_t length;
    if (lengths[which] > 0) buffers[which][below(lengths[which])] ^= (uint16_t)(1u << below(16));
    readers();
    counted(sofaduck_state_run(s, 100, count, reach, dictionaries));
    counted(sofaduck_state_forget(s));
    counted(sofaduck_state_save(s, last(7, output_length), output_length, &length));
    counted(sofaduck_state_begin(s, SOFADUCK_NIL, SOFADUCK_NIL, NULL, 0));
    played(list, sizeof list / sizeof *list, 3 * SOFADUCK_ANSWER);
    counted(sofaduck_state_drop(s));
}

int main(int argc, char **argv) {
    static uint8_t images[IMAGES][SOFADUCK_IMAGE];
    size_t lengths[IMAGES];
    unsigned given = 0;
    for (int i = 1; i < argc && given < IMAGES; i++, given++) {
        FILE *file = fopen(argv[i], "rb");
        if (file == NULL || (lengths[given] = fread(images[given], 1, SOFADUCK_IMAGE, file)) < 10) {
            fprintf(stderr, "guard: %s is no image\n", argv[i]);
            return 2;
        }
        fclose(file);
    }
    if (given == 0) {
        fprintf(stderr, "usage: guard IMAGE...\n");
        return 2;
    }
    s = last(5, sizeof *s); /* the registers are its last words */
    s->cache = last(4, 2 * SOFADUCK_CACHE);
    s->cache_length = SOFADUCK_CACHE;
    count = last(6, 8);
    reach = count + 1;
    made = last(9, 4);
    dictionaries = last(10, 8);
    for (int k = 0; k < EDITS; k++) {
        const unsigned which = below(given);
        const size_t length = below(50) == 0 ? below(lengths[which]) : lengths[which];
        uint8_t *const image = last(0, length);
        memcpy(image, images[which], length);
        for (unsigned edits = below(4); edits > 0 && length > 1; edits--) edit(image, length / 2);
        s->contents_length = 4 * (images[which][2] * 256u + images[which][3] + below(3));
        s->bodies_length = images[which][4] * 256u + images[which][5] + below(20);
        s->stack_length = below(3) == 0 ? below(60) : below(MOST_STACK);
        s->contents = last(1, 2 * s->contents_length);
        s->bodies = last(2, 2 * s->bodies_length);
        s->stack = last(3, 2 * s->stack_length);
        if (counted(sofaduck_state_load(s, image, length)) != 0) continue;
        for (int turn = 0; turn < 5; turn++)
            if (!(turn == 3 ? listed() : handled(turn == 0))) {
                printf("FAILED: edit %d: the calls left a state that check refuses, or a run's count, reach or dictionaries are wrong\n", k);
                return 1;
            }
        spoiled();
    }
    bool all = messages > 0 && read_in_all > 0;
    for (size_t i = 0; i < sizeof answers / sizeof *answers; i++) all = all && answers[i] > 0;
    printf("%s: %d edited images in buffers with a guard behind each; %lu handlers behind a message, %lu dictionaries; answers 0 to 14:",
           all ? "passed" : "FAILED", EDITS, messages, read_in_all);
    for (size_t i = 0; i < sizeof answers / sizeof *answers; i++) printf(" %lu", answers[i]);
    printf("\n");
    return !all;
}
