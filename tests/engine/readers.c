/* The header's inline part: texts, the state, lists of calls, readers of objects and frames, snapshots. In C99 and in C++11; every buffer is an
 * allocation of its own, so that a sanitizer sees an access past it. Usage: readers BORDER READERS MESSAGES, images of the sources of these names. */
#include "second.h"
#include "tests.h"
#include "border.h"
#include <stdlib.h>
#include <string.h>

#if SOFADUCK_VERSION_MAJOR != 4 || SOFADUCK_VERSION_MINOR < 0 || SOFADUCK_VERSION_PATCH < 0 || SOFADUCK_EDITIONS != 2
#error "the version's numbers"
#endif

enum { REFUSALS = SOFADUCK_LONG_CHAIN + 1, PHASES = SOFADUCK_NO_STACK_ROOM + 1, STACK = 1024, SPOILED = 20000 };

static uint8_t border[SOFADUCK_IMAGE], sends[SOFADUCK_IMAGE], messages[SOFADUCK_IMAGE];
static size_t border_length, sends_length, messages_length;

/* Words of its own, none for a length of 0. */
static uint16_t *words(size_t count) {
    uint16_t *const made = count == 0 ? NULL : (uint16_t *)malloc(2 * count);
    if (made == NULL && count > 0) exit(2);
    if (count > 0) memset(made, 0xa5, 2 * count);
    return made;
}

static sofaduck_state lend(size_t contents, size_t bodies, size_t stack) {
    sofaduck_state s;
    memset(&s, 0xa5, sizeof s);
    s.contents = words(contents), s.contents_length = contents;
    s.bodies = words(bodies), s.bodies_length = bodies;
    s.stack = words(stack), s.stack_length = stack;
    s.cache = words(SOFADUCK_CACHE), s.cache_length = SOFADUCK_CACHE;
    return s;
}

static void end(sofaduck_state *s) { free(s->contents), free(s->bodies), free(s->stack), free(s->cache); }

static sofaduck_state loaded(const uint8_t *image, size_t length, size_t stack) {
    sofaduck_state s = lend(SOFADUCK_CONTENTS, SOFADUCK_BODIES, stack);
    if (sofaduck_state_load(&s, image, length) != 0) test("the image is loaded", 0);
    return s;
}

/* Begun on the box and run for so many bytecodes. */
static sofaduck_state begun(uint16_t selector, const uint16_t *arguments, size_t given, uint32_t n) {
    uint32_t count = 0, reach = 0;
    uint64_t dictionaries = 0;
    sofaduck_state s = loaded(border, border_length, STACK);
    if (sofaduck_state_begin(&s, OBJECT_box, selector, arguments, given) != 0 || sofaduck_state_run(&s, n, &count, &reach, &dictionaries) != 0)
        test("a handler is begun", 0);
    return s;
}

static void texts(void) {
    int fine = 1;
    const char *const none = sofaduck_refusal_text(REFUSALS), *const no_phase = sofaduck_phase_text(PHASES);
    for (uint32_t i = 0; i <= REFUSALS; i++) {
        fine = fine && strlen(sofaduck_refusal_text(i)) > 0 && strcmp(sofaduck_refusal_text(i), second_refusal(i)) == 0;
        for (uint32_t j = 0; j < i; j++) fine = fine && strcmp(sofaduck_refusal_text(i), sofaduck_refusal_text(j)) != 0;
    }
    test("every refusal has a text of its own, in both files", fine);
    fine = 1;
    for (unsigned i = 0; i <= PHASES; i++)
        for (unsigned j = 0; j < i; j++) fine = fine && strcmp(sofaduck_phase_text(i), sofaduck_phase_text(j)) != 0;
    test("every phase has a text of its own", fine && strcmp(sofaduck_phase_text(SOFADUCK_NO_BOOLEAN), "no boolean") == 0);
    test("so have other numbers", strcmp(sofaduck_refusal_text(4294967295u), none) == 0 && strcmp(sofaduck_phase_text(65535), no_phase) == 0);
}

/* A list with so much room, its words an allocation of their own. */
static sofaduck_calls list(size_t room) {
    sofaduck_calls calls;
    memset(&calls, 0, sizeof calls);
    calls.words = words(room), calls.room = room;
    return calls;
}

/* Every call put into a list with this much room, one after the other: a bit for each that fits. */
static unsigned put(sofaduck_calls *calls) {
    const uint16_t arguments[] = {sofaduck_word(-3), sofaduck_word(39)};
    unsigned fits = (unsigned)sofaduck_put_begin(calls, OBJECT_box, SELECTOR_a_b_, arguments, 2);
    fits |= (unsigned)sofaduck_put_run(calls, 65536 * 7 + 9) << 1;
    fits |= (unsigned)sofaduck_put_drop(calls) << 2;
    fits |= (unsigned)sofaduck_put_forget(calls) << 3;
    return fits | (unsigned)sofaduck_put_begin(calls, OBJECT_box, SELECTOR_a, NULL, 0) << 4;
}

static void lists(void) {
    static const uint16_t whole[] = {0, OBJECT_box, SELECTOR_a_b_, 2, 65531, 79, 1, 7, 9, 2, 3, 0, OBJECT_box, SELECTOR_a, 0};
    enum { WHOLE = sizeof whole / sizeof *whole };
    sofaduck_calls calls = list(WHOLE);
    test("calls are put into a list as play reads them",
         put(&calls) == 31 && calls.count == 5 && calls.length == WHOLE && memcmp(calls.words, whole, sizeof whole) == 0);
    test("nothing is put into a list that is full", put(&calls) == 0 && calls.count == 5 && calls.length == WHOLE && calls.room == WHOLE
                                                        && memcmp(calls.words, whole, sizeof whole) == 0);
    free(calls.words);
    calls = list(0);
    test("nor into one without words, a null pointer", put(&calls) == 0 && calls.count == 0 && calls.length == 0);

    static const unsigned sizes[] = {6, 3, 1, 1, 4};
    int fine = 1;
    for (size_t room = 0; room < WHOLE; room++) {
        size_t length = 0;
        unsigned fits = 0, count = 0;
        for (unsigned k = 0; k < 5; k++)
            if (length + sizes[k] <= room) fits |= 1u << k, length += sizes[k], count++;
        calls = list(room);
        fine = fine && put(&calls) == fits && calls.count == count && calls.length == length;
        for (size_t k = length; k < room; k++) fine = fine && calls.words[k] == 0xa5a5;
        free(calls.words);
    }
    test("a call that does not fit is not put, and writes nothing", fine);

    uint16_t *const arguments = words(65536);
    calls = list(4 + 65536);
    test("nor is a begin of 65,536 arguments", !sofaduck_put_begin(&calls, OBJECT_box, SELECTOR_a, arguments, 65536) && calls.count == 0
                                                   && calls.length == 0 && calls.words[0] == 0xa5a5);
    arguments[65534] = 77;
    test("one of 65,535 is", sofaduck_put_begin(&calls, OBJECT_box, SELECTOR_a, arguments, 65535) && calls.count == 1 && calls.length == 4 + 65535
                                 && calls.words[3] == 65535 && calls.words[4 + 65534] == 77 && calls.words[4 + 65535] == 0xa5a5);
    free(arguments), free(calls.words);

    enum { ANSWERS = 5 * SOFADUCK_ANSWER };
    sofaduck_state s = loaded(border, border_length, STACK);
    uint32_t *const answers = (uint32_t *)malloc(ANSWERS * sizeof *answers);
    uint32_t made = 80;
    if (answers == NULL) exit(2);
    calls = list(WHOLE);
    put(&calls);
    test("a list is played on a state", sofaduck_state_play(&s, &calls, answers, ANSWERS, &made) == 0 && made == 5
                                            && sofaduck_integer(s.registers[SOFADUCK_VALUE]) == -3);
    const sofaduck_answer begin = sofaduck_answer_at(answers, 0), run = sofaduck_answer_at(answers, 1);
    test("its answers are read", begin.number == 0 && begin.phase == SOFADUCK_IDLE && begin.count == 0 && begin.value == 0 && begin.reach == 0
                                     && begin.dictionaries == 0 && run.number == 0 && run.phase == SOFADUCK_FINISHED && run.count == 8
                                     && sofaduck_integer(run.value) == -42 && run.reach == SOFADUCK_FRAME && run.dictionaries == 0);
    calls.length = calls.count = 0;
    test("a new list is put into the same words",
         sofaduck_put_run(&calls, 1) && sofaduck_state_play(&s, &calls, answers, ANSWERS, &made) == 0 && made == 1
             && sofaduck_answer_at(answers, 0).number == SOFADUCK_BAD_PHASE);
    free(answers), free(calls.words);
    end(&s);
}

/* The two words of an answer's dictionaries, and what number they are. */
static void numbers(void) {
    static const struct {
        uint32_t high, low;
        uint64_t number;
    } tried[] = {
        {0, 0, 0}, {0, 1, 1}, {0, 2147483648u, 2147483648u}, {0, 4294967295u, 4294967295u},
        {1, 0, (uint64_t)4294967295u + 1}, {1, 2, (uint64_t)4294967295u + 3},
        {23, 4294967272u, 24 * (uint64_t)4294967295u}, /* the most that a run gives */
        {2147483648u, 2147483648u, UINT64_MAX / 2 + 1 + 2147483648u}, {4294967295u, 4294967295u, UINT64_MAX},
    };
    uint32_t *const answers = (uint32_t *)malloc(3 * SOFADUCK_ANSWER * sizeof *answers);
    int fine = SOFADUCK_ANSWER == 7 && SOFADUCK_ANSWER_DICTIONARIES_HIGH == 5 && SOFADUCK_ANSWER_DICTIONARIES_LOW == 6;
    if (answers == NULL) exit(2);
    for (size_t i = 0; i < sizeof tried / sizeof *tried; i++)
        for (size_t k = 0; k < 3; k++) {
            memset(answers, 0x5a, 3 * SOFADUCK_ANSWER * sizeof *answers);
            answers[7 * k + 5] = tried[i].high, answers[7 * k + 6] = tried[i].low;
            const sofaduck_answer a = sofaduck_answer_at(answers, k);
            fine = fine && sofaduck_answer_dictionaries(answers, k) == tried[i].number && a.dictionaries == tried[i].number
                && a.number == 0x5a5a5a5a && a.phase == 0x5a5a5a5a && a.count == 0x5a5a5a5a && a.value == 0x5a5a && a.reach == 0x5a5a5a5a;
        }
    test("dictionaries are read from both words of an answer", fine);
    free(answers);
}

/* What the text of an object is. */
static int reads(const sofaduck_state *s, uint16_t object, const char *wanted) {
    char text[40];
    return sofaduck_text(s, object, text, sizeof text) == strlen(wanted) && strcmp(text, wanted) == 0;
}

static uint16_t find(const sofaduck_state *s, const char *bytes) { return sofaduck_find_selector(s, bytes, strlen(bytes)); }

static void selectors(void) {
    sofaduck_state s = loaded(border, border_length, 0);
    char text[4] = "xyz";
    size_t size = 77;
    test("a selector is found by its bytes", find(&s, "a") == SELECTOR_a && find(&s, "a:b:") == SELECTOR_a_b_ && find(&s, "forever") == SELECTOR_forever
                                                 && find(&s, "wide") == SELECTOR_wide && find(&s, "yourself") == SELECTOR_yourself);
    test("a selector without methods is not", find(&s, "found") == 0 && reads(&s, SELECTOR_found, "found"));
    test("nor are other bytes", find(&s, "") == 0 && find(&s, "foreve") == 0 && find(&s, "forever:") == 0 && find(&s, "widf") == 0);
    test("an object's text is cut to the room", sofaduck_text(&s, SELECTOR_forever, text, 4) == 7 && strcmp(text, "for") == 0
                                                    && sofaduck_text(&s, SELECTOR_forever, text, 1) == 7 && text[0] == 0
                                                    && sofaduck_text(&s, SELECTOR_forever, NULL, 0) == 7);
    test("what is no object of bytes has none", reads(&s, OBJECT_box, "") && reads(&s, 1, "") && reads(&s, 0, "") && reads(&s, 65534, ""));
    const uint16_t *const box = s.bodies + sofaduck_start(s.contents, OBJECT_box);
    test("a body is given by its kind", sofaduck_body(&s, OBJECT_box, SOFADUCK_BYTES, &size) == NULL && size == 77
                                            && sofaduck_body(&s, OBJECT_box, SOFADUCK_FIELDS, &size) == box && size == 2
                                            && sofaduck_body(&s, SOFADUCK_INTEGER_CLASS, SOFADUCK_CLASS, &size) != NULL && size == 4
                                            && sofaduck_body(&s, SOFADUCK_SPECIAL_SELECTORS, SOFADUCK_LIST, &size) != NULL && size == 32);
    /* an engine may write bytes: two selectors with the same ones */
    s.bodies[sofaduck_start(s.contents, SELECTOR_lost)] = 'w' * 256 + 'i';
    s.bodies[sofaduck_start(s.contents, SELECTOR_lost) + 1] = 'd' * 256 + 'e';
    const uint16_t lower = SELECTOR_lost < SELECTOR_wide ? SELECTOR_lost : SELECTOR_wide;
    test("of two with equal bytes the lower is found", find(&s, "wide") == lower && find(&s, "lost") == 0 && sofaduck_state_check(&s) == 0);
    end(&s);
}

/* As much as a snapshot needs, put back into other buffers. */
static sofaduck_state restored(const sofaduck_state *s, size_t contents, size_t bodies) {
    const size_t n = 4 * (size_t)s->registers[SOFADUCK_N], b = s->registers[SOFADUCK_B];
    const size_t behind = (size_t)s->registers[SOFADUCK_TOP] + SOFADUCK_LARGE_FRAME;
    sofaduck_state to = lend(contents, bodies, s->stack_length);
    memcpy(to.contents, s->contents, 2 * n);
    memcpy(to.bodies, s->bodies, 2 * b);
    memcpy(to.stack, s->stack, 2 * (behind < s->stack_length ? behind : s->stack_length));
    memcpy(to.cache, s->cache, 2 * SOFADUCK_CACHE);
    memcpy(to.registers, s->registers, sizeof to.registers);
    return to;
}

/* The elements that a reader finds are those that handlers count. */
static void elements(void) {
    sofaduck_state s = loaded(border, border_length, STACK);
    size_t count = 77;
    const uint16_t *const ring = s.bodies + sofaduck_start(s.contents, OBJECT_ring), *const row = s.bodies + sofaduck_start(s.contents, OBJECT_row);
    const uint16_t *const found = sofaduck_elements(&s, OBJECT_ring, &count);
    int fine = found == ring + FIELD_Ring_next + 1 && count == 3;
    for (int i = 1; fine && i <= 3; i++) {
        const uint16_t index = sofaduck_word(i);
        fine = sofaduck_state_begin(&s, OBJECT_ring, SELECTOR_at_, &index, 1) == 0 && s.registers[SOFADUCK_VALUE] == found[i - 1];
    }
    test("elements stand behind the named fields", fine && sofaduck_state_begin(&s, OBJECT_ring, SELECTOR_size, NULL, 0) == 0
                                                       && s.registers[SOFADUCK_VALUE] == sofaduck_word((int)count));
    test("without named fields they are the whole body", sofaduck_elements(&s, OBJECT_row, &count) == row && count == 2);
    test("a body of named fields alone has none", sofaduck_elements(&s, OBJECT_bare, &count) != NULL && count == 0);
    count = 77;
    test("nor has what is no collection", sofaduck_elements(&s, OBJECT_box, &count) == NULL && sofaduck_elements(&s, SELECTOR_a, &count) == NULL
                                              && sofaduck_elements(&s, CLASS_Ring, &count) == NULL && sofaduck_elements(&s, 1, &count) == NULL
                                              && sofaduck_elements(&s, 0, &count) == NULL && sofaduck_elements(&s, 65534, &count) == NULL && count == 77);
    const uint16_t n = s.registers[SOFADUCK_N], b = s.registers[SOFADUCK_B];
    sofaduck_state t = restored(&s, 4 * (size_t)n, b);
    uint16_t *const of_ring = t.contents + 4 * (CLASS_Ring / 2 - 1);
    of_ring[2] = (uint16_t)(b - 1), of_ring[3] = 1;
    test("nor an object whose class lacks words", sofaduck_elements(&t, OBJECT_ring, &count) == NULL && count == 77);
    end(&s), end(&t);
}

/* A message as a failed send made it, and what is none. */
static void message(void) {
    sofaduck_state s = loaded(messages, messages_length, STACK);
    const uint16_t box = s.registers[SOFADUCK_START_RECEIVER];
    uint32_t made = 0, reach = 0;
    uint64_t dictionaries = 0;
    uint16_t selector = 77;
    size_t count = 77;
    sofaduck_frame f;
    memset(&f, 0, sizeof f);
    test("the edition is the last register", s.registers[SOFADUCK_EDITION] == 2 && SOFADUCK_EDITION == SOFADUCK_REGISTERS - 1);
    /* push three words and send unknown:and: with 1 and 2 */
    int fine = sofaduck_state_begin(&s, box, s.registers[SOFADUCK_START_SELECTOR], NULL, 0) == 0
        && sofaduck_state_run(&s, 4, &made, &reach, &dictionaries) == 0 && made == 4 && dictionaries == 1
        && sofaduck_top_frame(&s, &f) && f.base == SOFADUCK_FRAME && second_frames(&s) == 2;
    const uint16_t object = s.stack[f.base + SOFADUCK_FRAME_TEMPORARIES], proxy = f.receiver;
    const uint16_t *arguments = sofaduck_message(&s, object, &selector, &count);
    test("a message has its selector and arguments",
         fine && object == 2 * s.registers[SOFADUCK_N] && arguments != NULL && reads(&s, selector, "unknown:and:") && count == 2
             && arguments[0] == sofaduck_word(1) && arguments[1] == sofaduck_word(2)
             && sofaduck_method_selector(&s, f.method) == SOFADUCK_DOES_NOT_UNDERSTAND);
    test("its fields are those of the image", arguments == s.bodies + sofaduck_start(s.contents, (uint16_t)(object - 2))
                                                  && selector == s.bodies[sofaduck_start(s.contents, object) + SOFADUCK_MESSAGE_SELECTOR]);
    selector = 77, count = 77;
    const uint16_t others[] = {0, 1, SOFADUCK_NIL, box, SOFADUCK_MESSAGE_CLASS, SOFADUCK_DOES_NOT_UNDERSTAND, 65534, (uint16_t)(object - 2),
                               (uint16_t)(object + 2)};
    s.bodies[sofaduck_start(s.contents, box) + SOFADUCK_MESSAGE_ARGUMENTS] = (uint16_t)(object - 2); /* fields as a message has them do not make one */
    for (unsigned k = 0; k < sizeof others / sizeof *others; k++) fine = fine && sofaduck_message(&s, others[k], &selector, &count) == NULL;
    const size_t n = s.registers[SOFADUCK_N], b = s.registers[SOFADUCK_B];
    sofaduck_state t = restored(&s, 4 * n, b);
    t.contents[4 * n - 2] = (uint16_t)(b - 1), t.contents[4 * n - 1] = 1;
    fine = fine && sofaduck_message(&t, object, &selector, &count) == NULL; /* it lacks a word, behind which the buffer ends */
    end(&t);
    s.registers[SOFADUCK_EDITION] = 1;
    fine = fine && sofaduck_message(&s, object, &selector, &count) == NULL;
    s.registers[SOFADUCK_EDITION] = 2;
    s.bodies[sofaduck_start(s.contents, object) + SOFADUCK_MESSAGE_ARGUMENTS] = SOFADUCK_NIL;
    fine = fine && sofaduck_message(&s, object, &selector, &count) == NULL && sofaduck_state_check(&s) == 0;
    test("other words, edition 1 and a message without its array have none", fine && selector == 77 && count == 77);
    fine = sofaduck_state_drop(&s) == 0 && sofaduck_state_begin(&s, box, find(&s, "none:"), &proxy, 1) == 0
        && sofaduck_state_run(&s, 9, &made, &reach, &dictionaries) == 0;
    arguments = sofaduck_message(&s, s.registers[SOFADUCK_VALUE], &selector, &count);
    test("a message without arguments has none, and is one", fine && arguments != NULL && count == 0 && reads(&s, selector, "unknown"));
    end(&s);
}

static int stands(const sofaduck_frame *f, unsigned base, unsigned position, unsigned depth) {
    return f->base == base && f->position == position && f->depth == depth && f->receiver == OBJECT_box;
}

static void frames(void) {
    const uint16_t two[] = {sofaduck_word(-3), sofaduck_word(39)};
    sofaduck_frame f;
    uint16_t selector = 0;
    unsigned count = 77;
    int fine = 1;
    memset(&f, 0, sizeof f);
    sofaduck_state s = loaded(border, border_length, STACK);
    test("no frame in phase idle", !sofaduck_top_frame(&s, &f) && second_frames(&s) == 0);
    sofaduck_state_begin(&s, OBJECT_box, SELECTOR_a, NULL, 0);
    test("no frame in phase finished", s.registers[SOFADUCK_PHASE] == SOFADUCK_FINISHED && !sofaduck_top_frame(&s, &f) && f.base == 0);
    end(&s);
    /* push self, send deeper: two bytecodes a frame */
    for (unsigned n = 0; n < 120; n++) {
        s = begun(SELECTOR_deeper, NULL, 0, n);
        const unsigned made = n < 111 ? n : 111; /* 56 frames fit */
        unsigned base = SOFADUCK_FRAME * (made / 2);
        fine = fine && second_frames(&s) == made / 2 + 1 && sofaduck_top_frame(&s, &f) && stands(&f, base, made % 2, made % 2);
        fine = fine && sofaduck_code(&s, f.method, f.position) == (made % 2 == 0 ? 112 : 208) && sofaduck_code(&s, f.method, 3) == -1;
        fine = fine && sofaduck_operand(&s, &f, 0) == (made % 2 == 0 ? 0 : OBJECT_box) && sofaduck_operand(&s, &f, 1) == 0;
        fine = fine && sofaduck_send(&s, &f, &selector, &count) == (int)(made % 2);
        if (made % 2 == 1) fine = fine && selector == SELECTOR_deeper && count == 0;
        while (fine && base > 0) {
            base -= SOFADUCK_FRAME;
            fine = sofaduck_next_frame(&s, &f) && stands(&f, base, 2, 0) && sofaduck_method_selector(&s, f.method) == SELECTOR_deeper;
        }
        fine = fine && !sofaduck_next_frame(&s, &f) && f.base == 0;
        end(&s);
    }
    test("the frames of a recursion, from one to all that fit", fine);
    s = begun(SELECTOR_lost, NULL, 0, 9);
    test("a halt: not understood", s.registers[SOFADUCK_PHASE] == SOFADUCK_NOT_UNDERSTOOD && sofaduck_top_frame(&s, &f) && stands(&f, 0, 1, 1)
                                       && sofaduck_send(&s, &f, &selector, &count) && reads(&s, selector, "found") && count == 0
                                       && sofaduck_operand(&s, &f, count) == OBJECT_box && sofaduck_literal(&s, f.method, 0) == selector
                                       && sofaduck_literal(&s, f.method, 1) == 0);
    end(&s);
    s = begun(SELECTOR_undecided, NULL, 0, 9);
    test("a halt: no boolean", s.registers[SOFADUCK_PHASE] == SOFADUCK_NO_BOOLEAN && sofaduck_top_frame(&s, &f) && stands(&f, 0, 1, 1)
                                   && !sofaduck_send(&s, &f, &selector, &count) && sofaduck_operand(&s, &f, 0) == OBJECT_box);
    end(&s);
    s = begun(SELECTOR_a_b_, two, 2, 6);
    test("operands of a special send", sofaduck_top_frame(&s, &f) && stands(&f, 0, 6, 2) && sofaduck_send(&s, &f, &selector, &count) && count == 1
                                           && selector == SOFADUCK_NIL && sofaduck_operand(&s, &f, 0) == two[1]
                                           && sofaduck_operand(&s, &f, 1) == two[0] && sofaduck_operand(&s, &f, 2) == 0
                                           && s.stack[f.base + SOFADUCK_FRAME_TEMPORARIES] == two[0] && s.stack[f.base + SOFADUCK_FRAME_ZERO] == 0);
    const uint16_t n = s.registers[SOFADUCK_N], b = s.registers[SOFADUCK_B];
    sofaduck_state t = restored(&s, 4 * (size_t)n, b);
    uint16_t *const specials = t.contents + 4 * (SOFADUCK_SPECIAL_SELECTORS / 2 - 1);
    specials[2] = (uint16_t)(b - 1), specials[3] = 1;
    test("no special send where its selector is missing", !sofaduck_send(&t, &f, &selector, &count));
    end(&s), end(&t);
}

/* Bytecode by bytecode: where a frame was made, it is that of the send which was read before. */
static void every_send(void) {
    sofaduck_state s = loaded(sends, sends_length, STACK);
    uint32_t count = 0, reach = 0;
    uint64_t dictionaries = 0;
    unsigned seen[256] = {0}, made = 0;
    int fine = sofaduck_state_begin(&s, s.registers[SOFADUCK_START_RECEIVER], s.registers[SOFADUCK_START_SELECTOR], NULL, 0) == 0;
    for (unsigned i = 0; fine && s.registers[SOFADUCK_PHASE] == SOFADUCK_RUNNING && i < 1000; i++) {
        sofaduck_frame before, after;
        uint16_t selector = 0;
        unsigned arguments = 0;
        if (!sofaduck_top_frame(&s, &before)) fine = 0;
        if (!fine) break;
        const int sent = sofaduck_send(&s, &before, &selector, &arguments);
        const int code = sofaduck_code(&s, before.method, before.position);
        const uint16_t receiver = sofaduck_operand(&s, &before, arguments);
        const uint16_t last = sofaduck_operand(&s, &before, 0);
        fine = fine && sofaduck_state_run(&s, 1, &count, &reach, &dictionaries) == 0 && count == 1;
        if (!fine || !sofaduck_top_frame(&s, &after) || after.base <= before.base) continue;
        fine = sent && sofaduck_method_selector(&s, after.method) == selector && after.receiver == receiver && code >= 0;
        if (fine && arguments > 0) fine = s.stack[after.base + SOFADUCK_FRAME_TEMPORARIES + arguments - 1] == last;
        fine = fine && sofaduck_next_frame(&s, &after) && after.base == before.base && after.method == before.method
            && after.depth + arguments + 1 == before.depth;
        if (fine) seen[code]++, made++;
    }
    test("every send is read as it is made", fine && s.registers[SOFADUCK_PHASE] == SOFADUCK_FINISHED && made == 12);
    test("by every kind of bytecode", seen[131] == 2 && seen[132] == 1 && seen[133] > 0 && seen[134] == 1 && seen[177] == 1 && seen[193] == 1);
    end(&s);
}

static int same(const sofaduck_state *s, const sofaduck_state *t) {
    return memcmp(s->registers, t->registers, sizeof s->registers) == 0 && memcmp(s->contents, t->contents, 8 * (size_t)s->registers[SOFADUCK_N]) == 0
        && memcmp(s->bodies, t->bodies, 2 * (size_t)s->registers[SOFADUCK_B]) == 0 && memcmp(s->cache, t->cache, 2 * SOFADUCK_CACHE) == 0;
}

static void snapshots(void) {
    static const uint16_t handlers[] = {SELECTOR_more, SELECTOR_deeper, SELECTOR_lost, SELECTOR_forever, SELECTOR_wide};
    uint32_t count[2] = {0, 0}, reach[2] = {0, 0};
    uint64_t dictionaries[2] = {0, 0};
    int fine = 1;
    for (unsigned i = 0; i < 5; i++)
        for (unsigned n = 0; n < 60; n++) {
            sofaduck_state s = begun(handlers[i], NULL, 0, n), t = restored(&s, s.contents_length, s.bodies_length);
            fine = fine && sofaduck_state_check(&t) == 0;
            if (s.registers[SOFADUCK_PHASE] == SOFADUCK_RUNNING)
                fine = fine && sofaduck_state_run(&s, 200, count, reach, dictionaries) == 0
                    && sofaduck_state_run(&t, 200, count + 1, reach + 1, dictionaries + 1) == 0 && count[0] == count[1] && reach[0] == reach[1]
                    && dictionaries[0] == dictionaries[1];
            fine = fine && same(&s, &t) && second_frames(&s) == second_frames(&t);
            end(&s), end(&t);
        }
    test("a snapshot in the middle of a handler goes on to the same words", fine);

    const size_t n = 4 * (border[2] * 256u + border[3]), b = border[4] * 256u + border[5];
    sofaduck_state s = lend(n, b, STACK);
    fine = sofaduck_state_load(&s, border, border_length) == 0 && sofaduck_state_begin(&s, OBJECT_box, SELECTOR_more, NULL, 0) == 0
        && sofaduck_state_run(&s, 1, count, reach, dictionaries) == 0;
    sofaduck_state t = restored(&s, n + 4, b + 2);
    fine = fine && sofaduck_state_run(&s, 9, count, reach, dictionaries) == 0 && sofaduck_state_run(&t, 9, count, reach, dictionaries) == 0;
    test("in longer buffers a handler makes the object that it had no room for",
         fine && s.registers[SOFADUCK_VALUE] == SOFADUCK_NIL && t.registers[SOFADUCK_VALUE] == n / 2 + 2);
    end(&s), end(&t);
}

/* All readers on one state; what they say is added up, so that nothing is left out. */
static size_t read_all(const sofaduck_state *s) {
    sofaduck_frame f;
    uint16_t selector = 0;
    unsigned count = 0, frames = 0;
    char text[8];
    size_t elements = 0, sum = find(s, "deeper") + second_frames(s);
    const uint16_t collections[] = {OBJECT_ring, OBJECT_bare, OBJECT_row, (uint16_t)below(65536)};
    for (unsigned i = 0; i < 4; i++) {
        const uint16_t *const found = sofaduck_elements(s, collections[i], &elements);
        for (size_t k = 0; found != NULL && k < elements; k++) sum += found[k];
    }
    const uint16_t last = (uint16_t)(2 * s->registers[SOFADUCK_N]), tried[] = {last, (uint16_t)(last - 4), (uint16_t)below(65536)};
    for (unsigned i = 0; i < 3; i++) {
        const uint16_t *const found = sofaduck_message(s, tried[i], &selector, &elements);
        for (size_t k = 0; found != NULL && k < elements; k++) sum += found[k] + (size_t)selector;
    }
    for (int more = sofaduck_top_frame(s, &f); more; more = sofaduck_next_frame(s, &f)) {
        if (++frames > 65536) test("frames end", 0);
        sum += sofaduck_method_selector(s, f.method) + (size_t)(sofaduck_code(s, f.method, f.position) + 1);
        sum += (size_t)sofaduck_operand(s, &f, 0) + sofaduck_operand(s, &f, f.depth - (size_t)1) + sofaduck_literal(s, f.method, below(64));
        if (sofaduck_send(s, &f, &selector, &count)) sum += sofaduck_text(s, selector, text, sizeof text) + sofaduck_operand(s, &f, count);
    }
    f.base = (uint16_t)below(65536), f.method = (uint16_t)below(65536), f.depth = (uint16_t)below(65536), f.position = (uint16_t)below(65536);
    sum += sofaduck_operand(s, &f, below(65536)) + (size_t)sofaduck_send(s, &f, &selector, &count) + (size_t)sofaduck_next_frame(s, &f);
    return sum;
}

static void spoiled(void) {
    static const uint16_t edges[] = {0, 1, 2, 3, 4, 5, 6, 10, 18, 36, 32767, 65534, 65535};
    const uint16_t handlers[] = {SELECTOR_deeper, SELECTOR_lost, SELECTOR_undecided, SELECTOR_wide};
    size_t sum = 0;
    for (int i = 0; i < SPOILED; i++) {
        /* by turns, and room for what a failed send makes */
        const uint8_t *const image = i % 2 == 0 ? border : messages;
        const size_t n = 4 * (image[2] * 256u + image[3]) + (i % 2 == 0 ? 0 : 8u), b = image[4] * 256u + image[5] + (i % 2 == 0 ? 0 : 4u);
        uint32_t count, reach;
        uint64_t dictionaries;
        sofaduck_state s = lend(n, b, 18 + below(200));
        sofaduck_state_load(&s, image, i % 2 == 0 ? border_length : messages_length);
        const uint16_t begun = i % 2 == 0 ? handlers[below(4)] : s.registers[SOFADUCK_START_SELECTOR];
        if (sofaduck_state_begin(&s, i % 2 == 0 ? (uint16_t)OBJECT_box : s.registers[SOFADUCK_START_RECEIVER], begun, NULL, 0) == 0)
            sofaduck_state_run(&s, below(20), &count, &reach, &dictionaries);
        const size_t frame = s.registers[SOFADUCK_TOP] + (size_t)SOFADUCK_FRAME;
        for (unsigned k = 1 + below(6); k > 0; k--) {
            uint16_t *const buffers[] = {s.contents, s.bodies, s.stack, s.registers};
            const size_t lengths[] = {n, b, frame < s.stack_length ? frame : s.stack_length, SOFADUCK_REGISTERS};
            const unsigned which = below(4);
            buffers[which][below((unsigned)lengths[which])] = (uint16_t)(below(2) == 0 ? edges[below(13)] : below(65536));
        }
        sum += read_all(&s);
        /* and lengths that are too short, down to none */
        sofaduck_state t = lend(below(3) == 0 ? 0 : below((unsigned)n), below(3) == 0 ? 0 : below((unsigned)b), below(3) == 0 ? 0 : below(60));
        if (t.contents_length > 0) memcpy(t.contents, s.contents, 2 * t.contents_length);
        if (t.bodies_length > 0) memcpy(t.bodies, s.bodies, 2 * t.bodies_length);
        if (t.stack_length > 0) memcpy(t.stack, s.stack, 2 * (t.stack_length < s.stack_length ? t.stack_length : s.stack_length));
        memcpy(t.registers, s.registers, sizeof t.registers);
        sum += read_all(&t);
        end(&s), end(&t);
    }
    test("readers on spoiled states and short buffers", sum > 0);
}

static size_t read_image(const char *name, uint8_t *image) {
    FILE *const file = fopen(name, "rb");
    const size_t length = file == NULL ? 0 : fread(image, 1, SOFADUCK_IMAGE, file);
    if (file != NULL) fclose(file);
    return length;
}

int main(int argc, char **argv) {
    if (argc == 4) {
        border_length = read_image(argv[1], border), sends_length = read_image(argv[2], sends);
        messages_length = read_image(argv[3], messages);
    }
    if (border_length < 10 || sends_length < 10 || messages_length < 10) {
        fprintf(stderr, "usage: readers BORDER READERS MESSAGES\n");
        return 2;
    }
    texts();
    lists();
    numbers();
    selectors();
    elements();
    message();
    frames();
    every_send();
    snapshots();
    spoiled();
    return failed;
}
