/* Sofaduck: a Smalltalk-80 bytecode machine for contact handlers in games.
 *
 * A studio compiles its handlers to an image: classes, methods and objects in a table of contents and their bodies. The engine loads the image into
 * buffers of its own, begins a handler at a contact, and runs it for as many bytecodes as the frame has time for; a handler that is not done goes
 * on in the next frame. A wrong image is refused by a number, and an accepted one runs without ever leaving its buffers. Answers, objects and frames
 * follow from the image, the lengths of the buffers, the calls made and what the engine wrote into fields itself: machines that agree in these agree
 * in all of it.
 *
 * Order of use: load once; for each contact begin, then run until the phase is no longer SOFADUCK_RUNNING; save whenever the objects are to be kept.
 * A state runs one handler at a time: another contact waits, or has the handler dropped first, or goes to a state of its own. Play makes the calls
 * for all contacts of a frame in one, and in far less time.
 *
 * There are the functions of the library, which take buffers, lengths and registers one by one, and behind them a struct that holds these, with
 * the same calls on it, a list of calls for play, and readers of objects and frames. What is behind the functions is inline: the library knows
 * nothing of it.
 *
 * The library is libsofaduck.a, for x86-64 with the System V calling convention. It calls memcpy and memset and nothing else: it allocates nothing
 * and has no global state. Threads may call at once, each on a state of its own; calls on one state come one after the other. No call takes
 * SOFADUCK_CALL_STACK bytes of the C stack, whatever the image and the handler do.
 *
 * Buffers are the caller's. A length counts elements: words of 16 bits, of 32 for `answers`, or an image's bytes. The library trusts that behind
 * every pointer there are as many elements as its length says, that no two buffers of a call overlap, and that `registers`, `count`, `reach`,
 * `dictionaries`, `made` and `length` are not null. Everything else it checks. A null pointer is fine where the length is 0.
 */
#ifndef SOFADUCK_H
#define SOFADUCK_H

#include <stddef.h>
#include <stdint.h>

#ifdef __cplusplus
extern "C" {
#endif

/* The version of header and library, and the last edition of images that load accepts: it takes those from 1 to this. What was compiled with a header
 * of another first number has to be compiled anew. With that of version 3 it comes to no harm before: its cache has 192 words, and so load and every
 * other call are refused by 3. */
#define SOFADUCK_VERSION_MAJOR 4
#define SOFADUCK_VERSION_MINOR 0
#define SOFADUCK_VERSION_PATCH 0
#define SOFADUCK_EDITIONS 2

/* Sizes */
enum {
    SOFADUCK_OBJECTS = 2047,     /* objects of the largest image */
    SOFADUCK_CONTENTS = 8188,    /* words of contents for so many, 4 for each */
    SOFADUCK_BODIES = 24000,     /* words of bodies that an image can use */
    SOFADUCK_CHAIN = 24,         /* classes of the longest chain, from a class up through its superclasses: a lookup reads no more dictionaries */
    SOFADUCK_CACHE = 256,        /* words of the cache, exactly: 64 lookups, 4 words for each */
    SOFADUCK_REGISTERS = 8,      /* words of the registers, exactly */
    SOFADUCK_IMAGE = 64386,      /* bytes of the largest image: 10, 8 for each object, 2 for each word of bodies */
    SOFADUCK_FRAME = 18,         /* words of stack for a frame: 6, and 12 for temporaries and operands ... */
    SOFADUCK_LARGE_FRAME = 38,   /* ... or 32, for a method whose header says large */
    SOFADUCK_STACK = 65536,      /* words of stack that can be of use; run tells how many were needed */
    SOFADUCK_CALL_STACK = 163840 /* bytes of C stack, more than a call takes */
};

/* Registers: what a state is, beside its buffers. Only the calls write them. */
enum {
    SOFADUCK_N,              /* objects: those of the image, and those that handlers made since */
    SOFADUCK_B,              /* words of bodies in use */
    SOFADUCK_START_RECEIVER, /* the start words, a receiver and a selector: the image says them, the engine may begin them */
    SOFADUCK_START_SELECTOR,
    SOFADUCK_PHASE,
    SOFADUCK_TOP,            /* where in the stack the top frame begins; 0 if there is no frame */
    SOFADUCK_VALUE,          /* what the handler answered, in phase SOFADUCK_FINISHED; else 0 */
    SOFADUCK_EDITION         /* the image's edition, 1 or 2: load takes it from the image, no other call changes it, and save writes it */
};

/* Phases. The last three are halts: the handler stands before the bytecode that it could not make, which is not counted. It cannot be run on,
 * begin or drop ends it, and what it wrote into objects stays. */
enum {
    SOFADUCK_IDLE,           /* nothing begun, or dropped */
    SOFADUCK_RUNNING,        /* begun and not done */
    SOFADUCK_FINISHED,       /* done: the answer is in the register value */
    SOFADUCK_NOT_UNDERSTOOD, /* a send fails: it finds no method, or by a super send one that cannot run on its receiver. From edition 2 on only where
                                no message can be made of it or nothing takes the message: "Sends that fail" below says when */
    SOFADUCK_NO_BOOLEAN,     /* a jump finds neither true nor false */
    SOFADUCK_NO_STACK_ROOM   /* a send finds a method whose frame does not fit in the stack. From edition 2 on that may be the one which was to take
                                the message of a send that failed; no message was made then */
};

/* What every function returns: 0, or the number of the refusal. Where there are several it is the first, in the order 1 to 5, 14, 6, 7, 8 for load,
 * and for the others 3, 11, 12, 8, 9, 10, 13. A refused call changes no buffer, register or result; only load does, see there. */
enum {
    SOFADUCK_BAD_LENGTH = 1, /* the image's length is not the one that its header tells, or is below 10 bytes */
    SOFADUCK_BAD_HEADER,     /* an edition other than 1 and 2, less than 5 objects, or 8 in edition 2, more than 2,047, or 24,000 words of bodies */
    SOFADUCK_NO_ROOM,        /* contents, bodies or save's output are too short, or the cache has not 256 words */
    SOFADUCK_BAD_LAYOUT,     /* image: a kind, a start, a class's size or padding is wrong, or bodies do not end where they should */
    SOFADUCK_BAD_WORD,       /* image: an object's class, or a word of an object, a class or a list, is no integer and names no object */
    SOFADUCK_BAD_CLASS,      /* image: a class or dictionary is wrong, an object does not fit its class, or one of objects 1 to 5 is wrong. From
                                edition 2 on also: 6 is not of bytes, 7 no class of form 0 with two fields, or 8 no class of form 1 with none */
    SOFADUCK_BAD_METHOD,     /* image: a method's header, home class, literals, count of arguments or code is wrong. From edition 2 on also: one that
                                a dictionary has under object 6 does not take one argument */
    SOFADUCK_BAD_MESSAGE,    /* start words or begin: a receiver or argument is no integer and names nothing, or the selector is no object of bytes */
    SOFADUCK_NO_METHOD,      /* the receiver has no method under the selector */
    SOFADUCK_BAD_COUNT,      /* the method takes another number of arguments */
    SOFADUCK_BAD_STATE,      /* objects, cache, registers or frames break a rule that every call keeps */
    SOFADUCK_BAD_PHASE,      /* begin while a handler is running, or run while none is */
    SOFADUCK_NO_FIRST_FRAME, /* the handler's first frame does not fit in the stack */
    SOFADUCK_LONG_CHAIN      /* image: a class's chain of superclasses, itself counted, has more than 24 classes, or goes round */
};

/* Words. An odd word is an integer, -16,384 to 16,383. An even word names an object: twice its number, from 1 to N. In the buffers a word is a
 * uint16_t as C has it, in an image the high byte comes first. */
enum {
    SOFADUCK_NIL = 2,
    SOFADUCK_FALSE = 4,
    SOFADUCK_TRUE = 6,
    SOFADUCK_INTEGER_CLASS = 8,
    SOFADUCK_SPECIAL_SELECTORS = 10,   /* the list of those that bytecodes 176 to 207 send */
    SOFADUCK_DOES_NOT_UNDERSTAND = 12, /* from edition 2 on: the selector that is sent where another finds no method */
    SOFADUCK_MESSAGE_CLASS = 14,       /* from edition 2 on: the class of its argument, a message, with the fields below */
    SOFADUCK_ARRAY_CLASS = 16          /* from edition 2 on: the class of the array of arguments that a message has */
};

/* The fields of a message. sofaduck_message, among the readers, reads both. */
enum { SOFADUCK_MESSAGE_SELECTOR, SOFADUCK_MESSAGE_ARGUMENTS };

/* Kinds of objects. */
enum { SOFADUCK_FIELDS, SOFADUCK_BYTES, SOFADUCK_CLASS, SOFADUCK_LIST, SOFADUCK_METHOD };

static inline int sofaduck_is_integer(uint16_t word) { return word & 1; }
/* The integer of an odd word, and the word of an integer in range. */
static inline int sofaduck_integer(uint16_t word) { return (word >> 1) - (word >> 15) * 32768; }
static inline uint16_t sofaduck_word(int integer) { return (uint16_t)(2 * integer + 1); }

/* For a word that names an object: where its body begins in bodies, and its size. Field k, from 0, is bodies[sofaduck_start(contents, object) + k].
 * The size is in words; for objects of bytes and for methods it is in bytes, two to a word, the high one first.
 *
 * An object of a class with form 1, a collection, has the F named fields of its class first, inherited ones counted, and then its elements: element i,
 * from 1 as handlers count in at:, at:put: and size, is field F + i - 1, and there are size - F of them. sofaduck_elements, among the readers, finds
 * them. (Up to version 2.1 handlers counted from the first field.) */
static inline size_t sofaduck_start(const uint16_t *contents, uint16_t object) { return contents[4 * (object / 2u - 1) + 2]; }
static inline size_t sofaduck_size(const uint16_t *contents, uint16_t object) { return contents[4 * (object / 2u - 1) + 3]; }

/* Load copies an accepted image into contents and bodies, clears the cache and sets the registers, in phase idle. Any bytes may be given; they are not
 * needed afterwards.
 *
 *   image       all bytes of the image and no more
 *   contents    4 words for each object, and room for objects that handlers make: SOFADUCK_CONTENTS words are always enough
 *   bodies      the words that the header tells, and room in the same way: SOFADUCK_BODIES words are always enough
 *   cache       SOFADUCK_CACHE words
 *   registers   written in every case
 *
 * Returns 0; or 1, 2, 4 to 8 or 14, what is wrong with the image; or 3, a buffer of the wrong length. A refused load sets all registers to 0, with
 * which every other call is refused. By 1 to 3 it changes no buffer. By 4 to 8 and 14 the words that the image would have in contents and in bodies
 * are 0 afterwards, and the rest of both and the cache are as before. */
uint32_t sofaduck_load(const uint8_t *image, size_t image_length,
                       uint16_t *contents, size_t contents_length,
                       uint16_t *bodies, size_t bodies_length,
                       uint16_t *cache, size_t cache_length,
                       uint16_t registers[SOFADUCK_REGISTERS]);

/* The calls below take the whole state: contents, bodies, cache and registers as the last call left them, and a stack. In phases idle and
 * finished the stack may have any length and any words, so that one stack can serve many states by turns; in the others the frames are in it, and
 * it too stays as the last call left it. A handler that halted is dropped before its stack goes to another state.
 *
 * Each call checks all of it first, so a spoiled state does no harm. It is refused by 3 where contents have less than 4 * N words, bodies less than
 * B, or the cache other than 256, and by 11 where objects, cache, registers or frames break a rule that every call keeps. The time for that grows
 * with the image and the frames, and is spent once a call: one run of a thousand bytecodes takes far less than a thousand runs of one, and one play
 * far less than its calls made singly. On a shared two-core x86-64 machine, where the library was built by the older rattle-kit-5b, it took about 4,
 * 21 and 195 microseconds for images of 1,000, 6,000 and 24,000 words of bodies with one frame, and 600 for a state made to be slow: 1,300 classes
 * with chains of 24, 3,640 frames, and a cache full of lookups that read 9,200 pairs each. Of 100 contacts in a frame, with handlers of about 50
 * bytecodes and 6,000 words of bodies, each took 43 microseconds singly and half of one by play (bench/run prints it).
 *
 * What an engine may write itself, between calls and in any phase: into a field of an object of kind SOFADUCK_FIELDS, any integer and any word that
 * names an object; into an object of kind SOFADUCK_BYTES, any bytes, but for the one behind an odd number of them, which stays 0. Check accepts it.
 * Elements and global variables of the image are fields as well. Classes, lists, methods, contents, cache, registers and frames are for the calls alone.
 *
 * A copy of all buffers and registers is a snapshot, in any phase. Put back into buffers of the same lengths it goes on, a running handler too, and
 * comes to the same words. It is enough to copy 4 * N words of contents, B of bodies, the cache, the registers, and of the stack, except in phases
 * idle and finished, the first TOP + SOFADUCK_LARGE_FRAME words, or all where it is shorter. Save writes less: objects, and no handler.
 *
 * Sends that fail. In edition 1 they halt the handler in phase not understood, and images of edition 1 run as they did before there was another. From
 * edition 2 on, run makes two objects of such a send: object N + 1, an array of its arguments in order, and object N + 2, a message, whose fields are
 * the selector (nil where nil was sent) and the array. Then SOFADUCK_DOES_NOT_UNDERSTAND is sent to the same receiver with the message as argument,
 * sought from the class where the failed lookup began; what that method answers is the answer of the send. All of it is one bytecode. So an image has
 * proxies, objects that hand on or keep what they do not understand themselves. Such a handler halts all the same, in phase not understood, where
 * no method is found under SOFADUCK_DOES_NOT_UNDERSTAND, or one that cannot run on the receiver, or where there is no room for both objects; and in
 * phase no stack room where the method's frame does not fit. Then neither object was made, and the handler stands before the send that failed. Begin
 * makes no message: where it finds no method it is refused by 9, in every edition.
 *
 * Objects that handlers make are never reclaimed. Where contents or bodies have no room for another, or N is SOFADUCK_OBJECTS, or B would pass
 * SOFADUCK_BODIES, the primitive that makes it fails and the code of its method runs: the image says what happens then, often that nil is answered.
 * That is neither a halt nor a refusal. A send that fails is another matter: it takes two objects and two words of bodies more than it has arguments,
 * each time, and where these do not fit (N above SOFADUCK_OBJECTS - 2, contents shorter than 4 * (N + 2), bodies shorter than B and its words, or B
 * past SOFADUCK_BODIES with them) the handler halts. A proxy that is sent something at every contact gets there in the end. An engine sees either
 * coming in N and B. What helps: longer buffers, up to SOFADUCK_CONTENTS and SOFADUCK_BODIES, into which contents and bodies are copied between two
 * calls; or the image loaded anew, or a snapshot put back, with what is to be kept written into its fields (a word that names an object made since
 * names nothing there). Saving and loading does not help: save writes all objects. And an image helps by methods of its proxies' own for what is sent
 * to them often. */

/* Begin sends `selector` with the arguments to `receiver`. Frames of a handler that halted are removed.
 *
 *   receiver    an object or an integer
 *   selector    an object of bytes, the one that the image's methods are found under
 *   arguments   as many words as the method takes
 *
 * Returns 0, in phase running, or finished where the method is answered at once. Or 3 or 11; 12, a handler is running (drop it first); 8, a word is
 * invalid or the selector none; 9, no method, in every edition; 10, another number of arguments; 13, no room in the stack. Refused, or answered at
 * once, it writes no word of the stack. */
uint32_t sofaduck_begin(uint16_t *contents, size_t contents_length,
                        uint16_t *bodies, size_t bodies_length,
                        uint16_t *stack, size_t stack_length,
                        const uint16_t *cache, size_t cache_length,
                        uint16_t registers[SOFADUCK_REGISTERS],
                        uint16_t receiver, uint16_t selector,
                        const uint16_t *arguments, size_t arguments_length);

/* Run makes bytecodes until as many as granted are made or the phase is no longer running.
 *
 *   grant       any number of bytecodes, 0 too
 *   count       written: the bytecodes made, less than granted only where the handler finished or halted
 *   reach       written: the words of stack that this run needed, which is the largest end of a frame that stood when it started or after one of its
 *               bytecodes; at most SOFADUCK_STACK, which is no 16-bit number
 *   dictionaries
 *               written: how far the lookups of this run's sends went, added up; no more than SOFADUCK_CHAIN for each bytecode counted, so that 64 bits
 *               never overflow
 *
 * Returns 0, or 3 or 11; 12, no handler is running, with a grant of 0 too. Refused, it leaves count, reach and dictionaries unwritten.
 *
 * A frame's end is its base and its size, SOFADUCK_FRAME or SOFADUCK_LARGE_FRAME. Frames that returned during the run count, those that had returned
 * before it do not; a grant of 0 gives the top frame's end. Where a run halts for want of room, the frame that did not fit never stood and does not
 * count. Of runs that continue each other, the largest reach is that of one run with all their grants.
 *
 * How a team finds the length of its stack: it plays the game on a long one (more than SOFADUCK_STACK words are of no use) and keeps the largest
 * reach of all runs, of every state that uses the stack. On a stack of that many words the same calls, from load on, give the same answers and leave
 * the same registers, objects and frames, which is proved: every frame that stood fits, what did not fit still does not, and nothing else depends on
 * the stack's length. On a stack one word shorter one of these calls ends otherwise: a run halts in phase no stack room, or a begin is refused by 13.
 * Two things to mind. Begin gives no reach, and its frame is counted by the run behind it: where a handler is begun and dropped unrun, a run with a
 * grant of 0 between the two tells what it needs. And reach is of the runs that were made: a contact that was not tried may go deeper, and halts
 * where it finds no room.
 *
 * A lookup reads the dictionary of the class where it starts, then that of its superclass and so on, up to the one that has the selector. Their number
 * is what counts: 1 for a method of the receiver's own class, 2 for one inherited from the class above it, up to SOFADUCK_CHAIN. It is the same where
 * the cache knew the method and no dictionary was read: the cache keeps the number beside the method. So `dictionaries` depends on what everything else
 * depends on, image, lengths, calls and what the engine wrote, and not on what the cache held. Of runs that continue each other the numbers add up to
 * that of one run with all their grants.
 *
 * Counted are the sends of the bytecodes counted that found their method by lookup: super sends too, which start above the class that has the running
 * method, and those answered without a frame, by self, a field or a primitive. A primitive that fails changes nothing in it. Where a send fails and
 * SOFADUCK_DOES_NOT_UNDERSTAND is sent for it, the lookup of that one counts and the one before it does not. Not counted: arithmetic and comparisons
 * of integers that succeed, 198 (==) and 199 (class), which look nothing up; a send that halts; and begin, which gives no number.
 *
 * What it is for: finding hot sends that climb. Divided by the number of such sends it tells how far one climbs, 1 at best. A tool finds those that do
 * by running a handler bytecode by bytecode: sofaduck_send, among the readers, names the send that comes next, and the run of it gives its number. What
 * helps is in the image: methods that are sent often move down the chain, or classes whose objects are sent them often get methods of their own under
 * the same selector. A method that the cache knows takes the same time however far up it is; one that it does not know takes longer with each class. */
uint32_t sofaduck_run(uint16_t *contents, size_t contents_length,
                      uint16_t *bodies, size_t bodies_length,
                      uint16_t *stack, size_t stack_length,
                      uint16_t *cache, size_t cache_length,
                      uint16_t registers[SOFADUCK_REGISTERS],
                      uint32_t grant, uint32_t *count, uint32_t *reach, uint64_t *dictionaries);

/* Drop ends the handler, in any phase: phase idle, top and value 0. What it wrote into objects stays. Returns 0, or 3 or 11. */
uint32_t sofaduck_drop(const uint16_t *contents, size_t contents_length,
                       const uint16_t *bodies, size_t bodies_length,
                       const uint16_t *stack, size_t stack_length,
                       const uint16_t *cache, size_t cache_length,
                       uint16_t registers[SOFADUCK_REGISTERS]);

/* Forget empties the cache, in any phase. Nothing but time depends on what the cache holds, `dictionaries` neither. Returns 0, or 3 or 11. */
uint32_t sofaduck_forget(const uint16_t *contents, size_t contents_length,
                         const uint16_t *bodies, size_t bodies_length,
                         const uint16_t *stack, size_t stack_length,
                         uint16_t *cache, size_t cache_length,
                         const uint16_t registers[SOFADUCK_REGISTERS]);

/* What play is given, the first word of each call in a list; and what it answers, so many words for each call. Those behind the number are 0, but
 * for a run that was not refused. */
enum { SOFADUCK_PLAY_BEGIN, SOFADUCK_PLAY_RUN, SOFADUCK_PLAY_DROP, SOFADUCK_PLAY_FORGET };
enum {
    SOFADUCK_ANSWER_NUMBER,            /* 0, or the number of the refusal */
    SOFADUCK_ANSWER_PHASE,             /* the register phase after the run */
    SOFADUCK_ANSWER_COUNT,             /* the bytecodes that it made */
    SOFADUCK_ANSWER_VALUE,             /* the register value after it */
    SOFADUCK_ANSWER_REACH,             /* the words of stack that it needed */
    SOFADUCK_ANSWER_DICTIONARIES_HIGH, /* how far its lookups went, the high 32 bits ... */
    SOFADUCK_ANSWER_DICTIONARIES_LOW,  /* ... and the low ones: sofaduck_answer_dictionaries reads both */
    SOFADUCK_ANSWER                    /* how many words that are */
};

/* Play makes a list of begin, run, drop and forget calls, one after the other, and checks the state once for all of them. Made singly, a call whose
 * handler is short spends nearly all its time on its check: so an engine plays the contacts of a frame. What a call of the list does, its answer, the
 * registers and every word after it are those of the same call made singly.
 *
 *   calls       one call after another, each told by its first word, with what it is given behind it:
 *                 SOFADUCK_PLAY_BEGIN, receiver, selector, the number of arguments, the arguments
 *                 SOFADUCK_PLAY_RUN, the high word of the grant, its low word
 *                 SOFADUCK_PLAY_DROP
 *                 SOFADUCK_PLAY_FORGET
 *   answers     written: SOFADUCK_ANSWER words for each call made, in order; what is behind them stays unwritten
 *   made        written: how many calls were made
 *
 * The list ends with its words; or before a call that is not whole, or has another first word, or for whose answer there is no room (and after
 * 4,294,967,295 calls). That is no refusal: the calls before it were made. An engine notices a bad list by `made`, which is less than the number of
 * calls that it put in; and it plays the front of a list by giving room for so many answers.
 *
 * A list does not stop at a call that is refused, which changes nothing, nor at a handler that is not done. Where a run leaves its handler running,
 * the begin behind it is refused by 12, and the run behind that goes on with the OLD handler. An engine that wants every contact handled on its own
 * puts a drop before each begin, and gives up what is not done by then; or it looks at the answers, and puts the rest of the contacts into the next
 * list. Where a run halts, the begin behind it removes the frames that say where (examples/engine.c shows how to see them). Where begin answers at
 * once, the run behind it is refused by 12, and the value is in no answer: the register has it, until the next begin or drop.
 *
 * Returns 0; or 3 or 11, and then no call is made, and answers and made stay unwritten. */
uint32_t sofaduck_play(uint16_t *contents, size_t contents_length,
                       uint16_t *bodies, size_t bodies_length,
                       uint16_t *stack, size_t stack_length,
                       uint16_t *cache, size_t cache_length,
                       uint16_t registers[SOFADUCK_REGISTERS],
                       const uint16_t *calls, size_t calls_length,
                       uint32_t *answers, size_t answers_length, uint32_t *made);

/* Check says whether the state is right, as every call but load asks first, and writes nothing. Returns 0, or 3 or 11. */
uint32_t sofaduck_check(const uint16_t *contents, size_t contents_length,
                        const uint16_t *bodies, size_t bodies_length,
                        const uint16_t *stack, size_t stack_length,
                        const uint16_t *cache, size_t cache_length,
                        const uint16_t registers[SOFADUCK_REGISTERS]);

/* Save writes the objects, the start words and the edition as an image, which load accepts, in any phase. A handler that is running is no part of it.
 *
 *   output      10 + 8 * N + 2 * B bytes or more, of which so many are written: SOFADUCK_IMAGE bytes are always enough
 *   length      written: the image's bytes
 *
 * Returns 0, or 3, where output is too short as well; 11. Refused, it leaves output and length unwritten. */
uint32_t sofaduck_save(const uint16_t *contents, size_t contents_length,
                       const uint16_t *bodies, size_t bodies_length,
                       const uint16_t *stack, size_t stack_length,
                       const uint16_t *cache, size_t cache_length,
                       const uint16_t registers[SOFADUCK_REGISTERS],
                       uint8_t *output, size_t output_length, uint32_t *length);

/* A state: the buffers that are lent, and the registers. The engine sets pointers and lengths and loads; registers need not be set before. */
typedef struct sofaduck_state {
    uint16_t *contents;
    size_t contents_length;
    uint16_t *bodies;
    size_t bodies_length;
    uint16_t *stack;
    size_t stack_length;
    uint16_t *cache;
    size_t cache_length;
    uint16_t registers[SOFADUCK_REGISTERS];
} sofaduck_state;

/* A state as the functions above take it, from a pointer without side effects. */
#define SOFADUCK_STATE(state) \
    (state)->contents, (state)->contents_length, (state)->bodies, (state)->bodies_length, (state)->stack, (state)->stack_length, \
        (state)->cache, (state)->cache_length, (state)->registers

/* The functions above on a state. */
static inline uint32_t sofaduck_state_load(sofaduck_state *state, const uint8_t *image, size_t image_length) {
    return sofaduck_load(image, image_length, state->contents, state->contents_length, state->bodies, state->bodies_length, state->cache,
                         state->cache_length, state->registers);
}
static inline uint32_t sofaduck_state_begin(sofaduck_state *state, uint16_t receiver, uint16_t selector, const uint16_t *arguments,
                                            size_t arguments_length) {
    return sofaduck_begin(SOFADUCK_STATE(state), receiver, selector, arguments, arguments_length);
}
static inline uint32_t sofaduck_state_run(sofaduck_state *state, uint32_t grant, uint32_t *count, uint32_t *reach, uint64_t *dictionaries) {
    return sofaduck_run(SOFADUCK_STATE(state), grant, count, reach, dictionaries);
}
static inline uint32_t sofaduck_state_drop(sofaduck_state *state) { return sofaduck_drop(SOFADUCK_STATE(state)); }
static inline uint32_t sofaduck_state_forget(sofaduck_state *state) { return sofaduck_forget(SOFADUCK_STATE(state)); }
static inline uint32_t sofaduck_state_check(const sofaduck_state *state) { return sofaduck_check(SOFADUCK_STATE(state)); }
static inline uint32_t sofaduck_state_save(const sofaduck_state *state, uint8_t *output, size_t output_length, uint32_t *length) {
    return sofaduck_save(SOFADUCK_STATE(state), output, output_length, length);
}

/* A list of calls for play, as it is put together. The engine sets words and room, and for each new list length and count to 0. */
typedef struct sofaduck_calls {
    uint16_t *words;
    size_t room;    /* how many words there are */
    size_t length;  /* the words of the calls so far */
    uint32_t count; /* the calls so far */
} sofaduck_calls;

/* For the four below: the words of one more call, the first of them written; null where there is no room. */
static inline uint16_t *sofaduck_put(sofaduck_calls *calls, uint16_t first, size_t length) {
    if (calls->room - calls->length < length) return NULL;
    uint16_t *const words = calls->words + calls->length;
    words[0] = first;
    calls->length += length;
    calls->count++;
    return words;
}

/* One more call behind those so far, with what the function of its name takes. Each returns 1; or 0, and writes nothing, where there is no room, or
 * begin has more than 65,535 arguments. */
static inline int sofaduck_put_begin(sofaduck_calls *calls, uint16_t receiver, uint16_t selector, const uint16_t *arguments,
                                     size_t arguments_length) {
    uint16_t *const words = arguments_length > 65535 ? NULL : sofaduck_put(calls, SOFADUCK_PLAY_BEGIN, 4 + arguments_length);
    if (words == NULL) return 0;
    words[1] = receiver;
    words[2] = selector;
    words[3] = (uint16_t)arguments_length;
    for (size_t k = 0; k < arguments_length; k++) words[4 + k] = arguments[k];
    return 1;
}
static inline int sofaduck_put_run(sofaduck_calls *calls, uint32_t grant) {
    uint16_t *const words = sofaduck_put(calls, SOFADUCK_PLAY_RUN, 3);
    if (words == NULL) return 0;
    words[1] = (uint16_t)(grant >> 16);
    words[2] = (uint16_t)grant;
    return 1;
}
static inline int sofaduck_put_drop(sofaduck_calls *calls) { return sofaduck_put(calls, SOFADUCK_PLAY_DROP, 1) != NULL; }
static inline int sofaduck_put_forget(sofaduck_calls *calls) { return sofaduck_put(calls, SOFADUCK_PLAY_FORGET, 1) != NULL; }

/* Play on a state; and of answer k, from 0, of the calls that were made, `dictionaries`, and all of it. */
static inline uint32_t sofaduck_state_play(sofaduck_state *state, const sofaduck_calls *calls, uint32_t *answers, size_t answers_length,
                                           uint32_t *made) {
    return sofaduck_play(SOFADUCK_STATE(state), calls->words, calls->length, answers, answers_length, made);
}
static inline uint64_t sofaduck_answer_dictionaries(const uint32_t *answers, size_t k) {
    const uint32_t *const words = answers + SOFADUCK_ANSWER * k;
    return (uint64_t)words[SOFADUCK_ANSWER_DICTIONARIES_HIGH] << 32 | words[SOFADUCK_ANSWER_DICTIONARIES_LOW];
}
typedef struct sofaduck_answer {
    uint32_t number, phase, count;
    uint16_t value;
    uint32_t reach;
    uint64_t dictionaries;
} sofaduck_answer;
static inline sofaduck_answer sofaduck_answer_at(const uint32_t *answers, size_t k) {
    const uint32_t *const words = answers + SOFADUCK_ANSWER * k;
    const sofaduck_answer answer = {words[SOFADUCK_ANSWER_NUMBER], words[SOFADUCK_ANSWER_PHASE], words[SOFADUCK_ANSWER_COUNT],
                                    (uint16_t)words[SOFADUCK_ANSWER_VALUE], words[SOFADUCK_ANSWER_REACH], sofaduck_answer_dictionaries(answers, k)};
    return answer;
}

/* A refusal and a phase in words; any number has some. */
static inline const char *sofaduck_refusal_text(uint32_t number) {
    static const char *const texts[] = {
        "not refused",
        "the image has another length than its header says",
        "the image's edition, number of objects or length of bodies",
        "a buffer is too short, or the cache has not 256 words",
        "the layout of the image's objects",
        "a word of the image is no integer and names no object",
        "a class of the image, an object that does not fit its class, or one with a fixed number",
        "a method of the image",
        "a receiver or argument is no integer and names no object, or the selector is no object of bytes",
        "the receiver has no method under the selector",
        "the method takes another number of arguments",
        "the state was spoiled",
        "the phase is not one for this call",
        "the first frame does not fit in the stack",
        "a chain of more than 24 classes"
    };
    return number < sizeof texts / sizeof *texts ? texts[number] : "no number of a refusal";
}
static inline const char *sofaduck_phase_text(unsigned phase) {
    static const char *const texts[] = {"idle", "running", "finished", "not understood", "no boolean", "no stack room"};
    return phase < sizeof texts / sizeof *texts ? texts[phase] : "no number of a phase";
}

/* Readers. What they say is of use for a state that check accepts. For another they read inside of the buffers all the same, and answer something. */

/* The body of the object that a word names, if it has this kind, and its size, in bytes for SOFADUCK_BYTES and SOFADUCK_METHOD, else in words.
 * Null for another word, or another kind. */
static inline const uint16_t *sofaduck_body(const sofaduck_state *state, uint16_t object, unsigned kind, size_t *size) {
    const size_t number = object / 2u;
    if (object % 2 != 0 || number == 0 || number > state->registers[SOFADUCK_N] || 4 * number > state->contents_length) return NULL;
    const uint16_t *const entry = state->contents + 4 * (number - 1);
    const size_t words = kind == SOFADUCK_BYTES || kind == SOFADUCK_METHOD ? (entry[3] + 1u) / 2 : entry[3];
    if (entry[1] != kind || state->bodies_length == 0 || entry[2] + words > state->bodies_length) return NULL;
    *size = entry[3];
    return state->bodies + entry[2];
}

/* The elements of an object whose class has form 1, and how many there are: element i, as handlers count, is the one at i - 1. They stand behind the
 * named fields in its body. Null for other words and objects. */
static inline const uint16_t *sofaduck_elements(const sofaduck_state *state, uint16_t object, size_t *count) {
    size_t size = 0, words = 0;
    const uint16_t *const body = sofaduck_body(state, object, SOFADUCK_FIELDS, &size);
    const uint16_t *const of_class =
        body == NULL ? NULL : sofaduck_body(state, state->contents[4 * (object / 2u - 1)], SOFADUCK_CLASS, &words);
    if (of_class == NULL || words < 4 || of_class[3] != sofaduck_word(1) || of_class[2] / 2u > size) return NULL;
    *count = size - of_class[2] / 2u;
    return body + of_class[2] / 2u;
}

/* What a message says that a failed send made: its arguments in order, how many there are, and the selector, which may be nil. A frame of a method
 * under SOFADUCK_DOES_NOT_UNDERSTAND has the message as its first temporary, until it stores another word there. Null for other words and objects,
 * in edition 1, and for a message whose second field has no elements, since handlers and engine may store into it. */
static inline const uint16_t *sofaduck_message(const sofaduck_state *state, uint16_t object, uint16_t *selector, size_t *count) {
    size_t size = 0;
    const uint16_t *const fields = sofaduck_body(state, object, SOFADUCK_FIELDS, &size);
    if (state->registers[SOFADUCK_EDITION] < 2 || fields == NULL || size < 2 || state->contents[4 * (object / 2u - 1)] != SOFADUCK_MESSAGE_CLASS)
        return NULL;
    const uint16_t *const arguments = sofaduck_elements(state, fields[SOFADUCK_MESSAGE_ARGUMENTS], count);
    if (arguments != NULL) *selector = fields[SOFADUCK_MESSAGE_SELECTOR];
    return arguments;
}

/* Byte k, from 0, of a body that is bytes. */
static inline unsigned sofaduck_byte(const uint16_t *body, size_t k) { return (unsigned)body[k / 2] >> (k % 2 == 0 ? 8 : 0) & 255u; }

/* Copies the bytes of an object of bytes, such as a selector, as many as fit before a zero that ends them. Returns how many it has; 0 for another
 * object. */
static inline size_t sofaduck_text(const sofaduck_state *state, uint16_t object, char *text, size_t room) {
    size_t size = 0, k = 0;
    const uint16_t *const body = sofaduck_body(state, object, SOFADUCK_BYTES, &size);
    for (; body != NULL && k < size && k + 1 < room; k++) text[k] = (char)sofaduck_byte(body, k);
    if (room > 0) text[k] = 0;
    return size;
}

/* The selector that has these bytes: an object of bytes under which some class has a method. 0 where there is none. Two objects with equal bytes are
 * two selectors; the one with the lower number is found. */
static inline uint16_t sofaduck_find_selector(const sofaduck_state *state, const char *bytes, size_t length) {
    uint16_t found = 0;
    for (unsigned number = 1; number <= state->registers[SOFADUCK_N]; number++) {
        size_t words = 0, size = 0;
        const uint16_t *const of_class = sofaduck_body(state, (uint16_t)(2 * number), SOFADUCK_CLASS, &words);
        const uint16_t *const pairs = of_class == NULL || words < 2 ? NULL : sofaduck_body(state, of_class[1], SOFADUCK_LIST, &words);
        for (size_t i = 0; pairs != NULL && i + 1 < words; i += 2) {
            const uint16_t *const selector = sofaduck_body(state, pairs[i], SOFADUCK_BYTES, &size);
            if (selector == NULL || size != length || (found != 0 && found <= pairs[i])) continue;
            size_t k = 0;
            while (k < length && sofaduck_byte(selector, k) == (unsigned char)bytes[k]) k++;
            if (k == length) found = pairs[i];
        }
    }
    return found;
}

/* The selector under which a method stands in the dictionary of its home class; 0 where it stands in none. */
static inline uint16_t sofaduck_method_selector(const sofaduck_state *state, uint16_t method) {
    size_t size = 0;
    const uint16_t *body = sofaduck_body(state, method, SOFADUCK_METHOD, &size);
    if (body != NULL && size >= 4) body = sofaduck_body(state, body[1], SOFADUCK_CLASS, &size);
    else body = NULL;
    if (body != NULL && size >= 2) body = sofaduck_body(state, body[1], SOFADUCK_LIST, &size);
    else body = NULL;
    for (size_t i = 0; body != NULL && i + 1 < size; i += 2)
        if (body[i + 1] == method) return body[i];
    return 0;
}

/* Literal k of a method; 0 where it has none. */
static inline uint16_t sofaduck_literal(const sofaduck_state *state, uint16_t method, size_t k) {
    size_t size = 0;
    const uint16_t *const body = sofaduck_body(state, method, SOFADUCK_METHOD, &size);
    return body != NULL && size >= 4 && k < (body[0] >> 1 & 63u) && 2 * (k + 3) <= size ? body[2 + k] : (uint16_t)0;
}

/* The byte of a method's code at a position, from 0; -1 where it has none. */
static inline int sofaduck_code(const sofaduck_state *state, uint16_t method, size_t position) {
    size_t size = 0;
    const uint16_t *const body = sofaduck_body(state, method, SOFADUCK_METHOD, &size);
    if (body == NULL || size < 4) return -1;
    const size_t code = 4 + 2 * (body[0] >> 1 & 63u);
    return code < size && position < size - code ? (int)sofaduck_byte(body, code + position) : -1;
}

/* The words of a frame, from its base in the stack on. */
enum {
    SOFADUCK_FRAME_SENDER,     /* the base of the frame below; 0 for the bottom frame, whose base is 0 */
    SOFADUCK_FRAME_POSITION,   /* where in the code it stands, in bytes from 0 */
    SOFADUCK_FRAME_DEPTH,      /* how many operands it has */
    SOFADUCK_FRAME_METHOD,
    SOFADUCK_FRAME_ZERO,       /* always 0 */
    SOFADUCK_FRAME_RECEIVER,
    SOFADUCK_FRAME_TEMPORARIES /* from here on: arguments, other temporaries, operands */
};

/* Where a handler stands: its top frame, and the frames that wait for it. The top one stands before the bytecode that is made next, or that could not
 * be made; each below it behind its send, where it goes on with the answer. */
typedef struct sofaduck_frame {
    uint16_t base, method, position, receiver, depth;
} sofaduck_frame;

/* For the two below: the frame at a base, if its words are in the stack. */
static inline int sofaduck_frame_at(const sofaduck_state *state, uint16_t base, sofaduck_frame *frame) {
    if ((size_t)base + SOFADUCK_FRAME_TEMPORARIES > state->stack_length) return 0;
    const uint16_t *const words = state->stack + base;
    frame->base = base;
    frame->method = words[SOFADUCK_FRAME_METHOD];
    frame->position = words[SOFADUCK_FRAME_POSITION];
    frame->receiver = words[SOFADUCK_FRAME_RECEIVER];
    frame->depth = words[SOFADUCK_FRAME_DEPTH];
    return 1;
}

/* The top frame; and from a frame the one below it, its sender. Each returns 1; or 0 and leaves the frame, where there is none: the first in phases
 * idle and finished, the second at the bottom frame. */
static inline int sofaduck_top_frame(const sofaduck_state *state, sofaduck_frame *frame) {
    const unsigned phase = state->registers[SOFADUCK_PHASE];
    return phase != SOFADUCK_IDLE && phase != SOFADUCK_FINISHED && sofaduck_frame_at(state, state->registers[SOFADUCK_TOP], frame);
}
static inline int sofaduck_next_frame(const sofaduck_state *state, sofaduck_frame *frame) {
    if (frame->base == 0 || frame->base >= state->stack_length) return 0;
    const uint16_t sender = state->stack[frame->base + SOFADUCK_FRAME_SENDER];
    return sender < frame->base && sofaduck_frame_at(state, sender, frame); /* always lower, so that a loop over frames ends */
}

/* Operand k of a frame, from 0 at the top; 0 where it has none. In phase no boolean the top frame's operand 0 is what the jump found. */
static inline uint16_t sofaduck_operand(const sofaduck_state *state, const sofaduck_frame *frame, size_t k) {
    size_t size = 0;
    const uint16_t *const body = sofaduck_body(state, frame->method, SOFADUCK_METHOD, &size);
    if (body == NULL || size < 4 || k >= frame->depth) return 0;
    const size_t at = frame->base + SOFADUCK_FRAME_TEMPORARIES + (body[0] >> 8 & 31u) + frame->depth - 1 - k;
    return at < state->stack_length ? state->stack[at] : (uint16_t)0;
}

/* The send that a frame stands before: its selector, which may be nil, and how many arguments it has. In phases not understood and no stack room the
 * top frame stands before one, and operand `count` is its receiver. Returns 1, or 0 where there is no send; 198 (==) and 199 (class) are none. */
static inline int sofaduck_send(const sofaduck_state *state, const sofaduck_frame *frame, uint16_t *selector, unsigned *count) {
    static const uint8_t counts[] = {1, 2, 0, 0, 1, 0, 1, 0, 1, 0, 1, 1, 0, 1, 0, 0}; /* of bytecodes 192 to 207 */
    const int code = sofaduck_code(state, frame->method, frame->position);
    const int second = sofaduck_code(state, frame->method, frame->position + (size_t)1);
    const int third = sofaduck_code(state, frame->method, frame->position + (size_t)2);
    size_t size = 0;
    if (code == 198 || code == 199) return 0;
    if (code >= 176 && code < 208) {
        const uint16_t *const selectors = sofaduck_body(state, SOFADUCK_SPECIAL_SELECTORS, SOFADUCK_LIST, &size);
        if (selectors == NULL || size < 32) return 0;
        *selector = selectors[code - 176];
        *count = code < 192 ? 1u : counts[code - 192];
        return 1;
    }
    int literal = 0, arguments = 0;
    if (code >= 208) literal = code % 16, arguments = (code - 208) / 16;
    else if ((code == 131 || code == 133) && second >= 0) literal = second % 32, arguments = second / 32;
    else if ((code == 132 || code == 134) && third >= 0) literal = third, arguments = second;
    else return 0;
    *count = (unsigned)arguments;
    *selector = sofaduck_literal(state, frame->method, (size_t)literal);
    return 1;
}

#ifdef __cplusplus
}
#endif

#endif
