// The run as one writes it in C: position, stack pointer, base and method in locals, and a switch on the byte. Position and depth are written
// into the frame's words at a send that makes a frame, a return, a halt and the end.
#include "machine.h"

static inline int integer(uint16_t w) { return (int16_t)w >> 1; }

static inline bool number(int z, uint16_t *answer) {
    *answer = (uint16_t)(2 * z + 1);
    return z >= -16384 && z <= 16383;
}

static inline bool truth(bool x, uint16_t *answer) {
    *answer = x ? TRUE_WORD : FALSE_WORD;
    return true;
}

static inline int floor_quotient(int a, int b) {
    const int q = a / b;
    return a % b != 0 && (a < 0) != (b < 0) ? q - 1 : q;
}

// Primitives 1 to 17. False where one fails.
static inline bool arithmetic(unsigned k, uint16_t v, uint16_t w, uint16_t *answer) {
    if ((v & w & 1) == 0) return false;
    const int a = integer(v), b = integer(w);
    switch (k) {
    case 1: return number(a + b, answer);
    case 2: return number(a - b, answer);
    case 3: return truth(a < b, answer);
    case 4: return truth(a > b, answer);
    case 5: return truth(a <= b, answer);
    case 6: return truth(a >= b, answer);
    case 7: return truth(a == b, answer);
    case 8: return truth(a != b, answer);
    case 9: return number(a * b, answer);
    case 10: return b != 0 && a % b == 0 && number(a / b, answer);
    case 11: return b != 0 && number(a - b * floor_quotient(a, b), answer);
    case 12: return b != 0 && number(floor_quotient(a, b), answer);
    case 13: return b != 0 && number(a / b, answer);
    case 14: *answer = v & w; return true;
    case 15: *answer = v | w; return true;
    case 16: *answer = (v ^ w) | 1; return true;
    // 15 places to the right leave no digit, 15 to the left only 0 in range
    case 17: return number(b < 0 ? a >> (b < -15 ? 15 : -b) : a * (1 << (b > 15 ? 15 : b)), answer);
    default: return false;
    }
}

static bool make(machine *m, uint16_t class, uint16_t kind, unsigned size, unsigned count, uint16_t word, uint16_t *answer) {
    const size_t n = m->registers[N], b = m->registers[B];
    if (n == MOST_OBJECTS || b + count > MOST_WORDS || m->contents_length < 4 * (n + 1) || m->bodies_length < b + count) return false;
    ((entry *)m->contents)[n] = (entry){class, kind, b, size};
    for (unsigned i = 0; i < count; i++) m->bodies[b + i] = word;
    m->registers[N] = n + 1;
    m->registers[B] = b + count;
    *answer = 2 * (n + 1);
    return true;
}

// Whether there is room for the two objects of a send with so many arguments that fails.
static bool message_fits(const machine *m, unsigned count) {
    const size_t n = m->registers[N] + 2u, b = m->registers[B] + count + 2u;
    return n <= MOST_OBJECTS && b <= MOST_WORDS && 4 * n <= m->contents_length && b <= m->bodies_length;
}

// These two: the array of the arguments, and behind it the message of selector and array.
static void make_message(machine *m, uint16_t selector, const uint16_t *arguments, unsigned count) {
    const size_t n = m->registers[N], b = m->registers[B];
    ((entry *)m->contents)[n] = (entry){ARRAY_CLASS, FIELDS, b, count};
    ((entry *)m->contents)[n + 1] = (entry){MESSAGE_CLASS, FIELDS, b + count, 2};
    for (unsigned i = 0; i < count; i++) m->bodies[b + i] = arguments[i];
    m->bodies[b + count] = selector;
    m->bodies[b + count + 1] = 2 * (n + 1);
    m->registers[N] = n + 2;
    m->registers[B] = b + count + 2;
}

// 60 and 61 on an object with elements, which stand behind the named fields of its class: false where the index or the word stored is wrong.
static inline bool element(const objects *o, uint16_t *bodies, unsigned k, uint16_t w, uint16_t x, uint16_t v, uint16_t *answer) {
    const entry *e = of(o, w);
    const uint16_t *class = body(o, e->class);
    const unsigned form = class[3] / 2, named = class[2] / 2, size = e->size - named, i = x / 2u - 1;
    if (size > 16383 || (x & 1) == 0 || i >= size) return false;
    uint16_t *at = bodies + e->start + named;
    if (form == 1) {
        *answer = k == 60 ? at[i] : (at[i] = v);
        return true;
    }
    if (form != 2) return false;
    if (k == 60) {
        *answer = 2 * byte_at(at, i) + 1;
        return true;
    }
    if ((v & 1) == 0 || v > 511) return false;
    at[i / 2] = i & 1 ? (at[i / 2] & 0xff00) | v / 2 : (v / 2) << 8 | (at[i / 2] & 255);
    *answer = v;
    return true;
}

// A primitive on a receiver and the arguments above it. False where it fails.
static bool primitive(machine *m, unsigned extension, const uint16_t *receiver, uint16_t *answer) {
    const objects o = objects_of(m);
    const unsigned k = extension >> 1 & 255, count = extension >> 9 & 31;
    const uint16_t w = receiver[0];
    const unsigned takes = k == 61 ? 2 : k == 62 || k == 70 || k == 111 ? 0 : 1;
    if (count != takes) return false;
    switch (k) {
    case 60: return (w & 1) == 0 && element(&o, m->bodies, k, w, receiver[1], 0, answer);
    case 61: return (w & 1) == 0 && element(&o, m->bodies, k, w, receiver[1], receiver[2], answer);
    case 62: {
        if (w & 1) return false;
        const entry *e = of(&o, w);
        const uint16_t *class = body(&o, e->class);
        const unsigned form = class[3] / 2, size = e->size - class[2] / 2;
        *answer = 2 * size + 1;
        return size <= 16383 && (form == 1 || form == 2);
    }
    case 70: {
        if (!is(&o, CLASS, w) || body(&o, w)[3] / 2 != 0) return false;
        const unsigned size = body(&o, w)[2] / 2;
        return make(m, w, FIELDS, size, size, NIL_WORD, answer);
    }
    case 71: {
        const uint16_t x = receiver[1];
        if (!is(&o, CLASS, w) || (x & 1) == 0 || x / 2 > 16383) return false;
        const unsigned form = body(&o, w)[3] / 2, size = body(&o, w)[2] / 2 + x / 2;
        if (form == 1) return make(m, w, FIELDS, size, size, NIL_WORD, answer);
        return form == 2 && make(m, w, BYTES, x / 2, (x / 2 + 1) / 2, 0, answer);
    }
    case 110: return truth(w == receiver[1], answer);
    case 111: *answer = class_of(&o, w); return true;
    default: return arithmetic(k, w, receiver[1], answer);
    }
}

// The answer of flag 6, 0 where the receiver has no such field.
static inline uint16_t field(const objects *o, unsigned header, uint16_t receiver) {
    if (!is(o, FIELDS, receiver) || of(o, receiver)->size <= temporaries_of(header)) return 0;
    return body(o, receiver)[temporaries_of(header)];
}

// The arguments of 192 to 207.
static const uint8_t counts[16] = {1, 2, 0, 0, 1, 0, 1, 0, 1, 0, 1, 1, 0, 1, 0, 0};

static void run(machine *m, uint32_t grant, uint32_t *made, uint32_t *reach, uint64_t *dictionaries) {
    const entry *const contents = (const entry *)m->contents - 1; // by object number
    uint16_t *const bodies = m->bodies, *const stack = m->stack, *const cache = m->cache;
    const size_t room = m->stack_length < 65536 ? m->stack_length : 65536;
    uint16_t *frame = stack + m->registers[TOP], *operands, *sp;
    const uint16_t *method, *literals, *code;
    size_t at, before;
    uint32_t count = 0;
    uint64_t read = 0;
    uint16_t value, phase = 1;
    const uint16_t *end;

#define START(w) (contents[(w) >> 1].start)
#define ENTER() \
    (method = bodies + START(frame[3]), literals = method + 2, code = literals + literals_of(method[0]), \
     operands = frame + 6 + temporaries_of(method[0]), at = frame[1], sp = operands + frame[2])
#define LEAVE() (frame[1] = at, frame[2] = sp - operands)
#define NEXT() byte_at(code, at++)
#define PUSH(w) (*sp++ = (w))
#define TRY(k) \
    if (!arithmetic(k, sp[-2], sp[-1], &value)) goto special; \
    sp--, sp[-1] = value; \
    break
#define JUMP_ON(yes, no, distance) \
    { \
        const size_t ahead = (distance); \
        if (sp[-1] == (yes)) at += ahead; \
        else if (sp[-1] != (no)) { phase = 4; goto halt; } \
        sp--; \
        break; \
    }

    ENTER();
    end = frame + frame_of(method[0]);
    for (; count < grant; count++) {
        unsigned x, arguments;
        uint16_t selector, class;
        bool sure = true;
        before = at;
        const unsigned op = NEXT();
        switch (op) {
        case 0 ... 15: PUSH(bodies[START(frame[5]) + op]); break;
        case 16 ... 31: PUSH(frame[6 + op - 16]); break;
        case 32 ... 63: PUSH(literals[op - 32]); break;
        case 64 ... 95: PUSH(bodies[START(literals[op - 64]) + 1]); break;
        case 96 ... 103: bodies[START(frame[5]) + op - 96] = *--sp; break;
        case 104 ... 111: frame[6 + op - 104] = *--sp; break;
        case 112: PUSH(frame[5]); break;
        case 113: PUSH(TRUE_WORD); break;
        case 114: PUSH(FALSE_WORD); break;
        case 115: PUSH(NIL_WORD); break;
        case 116: PUSH(65535); break;
        case 117: PUSH(1); break;
        case 118: PUSH(3); break;
        case 119: PUSH(5); break;
        case 120: value = frame[5]; goto answer;
        case 121: value = TRUE_WORD; goto answer;
        case 122: value = FALSE_WORD; goto answer;
        case 123: value = NIL_WORD; goto answer;
        case 124:
            value = sp[-1];
        answer:
            at = before;
            LEAVE();
            if (frame == stack) {
                m->registers[PHASE] = 2;
                m->registers[TOP] = 0;
                m->registers[VALUE] = value;
                *made = count + 1;
                *reach = end - stack;
                *dictionaries = read;
                return;
            }
            frame = stack + frame[0];
            ENTER();
            PUSH(value);
            break;
        case 128:
            x = NEXT();
            switch (x >> 6) {
            case 0: PUSH(bodies[START(frame[5]) + x]); break;
            case 1: PUSH(frame[6 + (x & 63)]); break;
            case 2: PUSH(literals[x & 63]); break;
            default: PUSH(bodies[START(literals[x & 63]) + 1]);
            }
            break;
        case 129: case 130:
            x = NEXT();
            switch (x >> 6) {
            case 0: bodies[START(frame[5]) + x] = sp[-1]; break;
            case 1: frame[6 + (x & 63)] = sp[-1]; break;
            default: bodies[START(literals[x & 63]) + 1] = sp[-1];
            }
            sp -= op - 129;
            break;
        case 131: x = NEXT(); selector = literals[x & 31]; arguments = x >> 5; goto send;
        case 132: arguments = NEXT(); selector = literals[NEXT()]; goto send;
        case 133: x = NEXT(); selector = literals[x & 31]; arguments = x >> 5; goto super;
        case 134: arguments = NEXT(); selector = literals[NEXT()]; goto super;
        case 135: sp--; break;
        case 136: sp[0] = sp[-1], sp++; break;
        case 144 ... 151: at += op - 143; break;
        case 152 ... 159: JUMP_ON(FALSE_WORD, TRUE_WORD, op - 151)
        case 160 ... 167: x = NEXT(); at += 256 * (op - 160) + x; at -= 1024; break;
        case 168 ... 171: x = NEXT(); JUMP_ON(TRUE_WORD, FALSE_WORD, 256 * (op - 168) + x)
        case 172 ... 175: x = NEXT(); JUMP_ON(FALSE_WORD, TRUE_WORD, 256 * (op - 172) + x)
        case 176: TRY(1);
        case 177: TRY(2);
        case 178: TRY(3);
        case 179: TRY(4);
        case 180: TRY(5);
        case 181: TRY(6);
        case 182: TRY(7);
        case 183: TRY(8);
        case 184: TRY(9);
        case 185: TRY(10);
        case 186: TRY(11);
        case 187: goto special;
        case 188: TRY(17);
        case 189: TRY(12);
        case 190: TRY(14);
        case 191: TRY(15);
        special:
            selector = bodies[START(SPECIAL_SELECTORS) + op - 176];
            arguments = 1;
            goto send;
        case 198: sp--, sp[-1] = sp[-1] == sp[0] ? TRUE_WORD : FALSE_WORD; break;
        case 199: sp[-1] = sp[-1] & 1 ? INTEGER_CLASS : contents[sp[-1] >> 1].class; break;
        case 192 ... 197: case 200 ... 207:
            selector = bodies[START(SPECIAL_SELECTORS) + op - 176];
            arguments = counts[op - 192];
            goto send;
        case 208 ... 223: selector = literals[op & 15]; arguments = 0; goto send;
        case 224 ... 239: selector = literals[op & 15]; arguments = 1; goto send;
        case 240 ... 255: selector = literals[op & 15]; arguments = 2;
        send:
            x = sp[-1 - (int)arguments];
            class = x & 1 ? INTEGER_CLASS : contents[x >> 1].class;
            goto found;
        super:
            class = bodies[START(method[1])];
            sure = sp[-1 - (int)arguments] == frame[5];
        found: {
            const objects o = objects_of(m);
            uint16_t *const receiver = sp - 1 - arguments;
            const uint16_t message[2] = {*receiver, 2 * (o.n + 2)}; // receiver and argument of object 6, where the send fails
            const uint16_t *from = receiver;                        // receiver and arguments of what is sought
            unsigned given = arguments;
            uint16_t sought = selector;
        seek:;
            uint16_t *const kept = cache + 4 * ((sought & class) >> 1 & 63);
            const bool hit = kept[0] == sought && kept[1] == class;
            const found f = hit ? (found){kept[2], kept[3]} : lookup(&o, sought, class);
            const uint16_t callee = f.method;
            phase = 3;
            if (callee == 0) goto fails;
            const uint16_t *const other = bodies + START(callee);
            const unsigned header = other[0];
            switch (flag_of(header)) {
            case 5: value = *receiver; break;
            case 6:
                value = field(&o, header, *receiver);
                if (value == 0) goto fails;
                break;
            case 7:
                if (primitive(m, other[literals_of(header)], from, &value)) break;
                // fall through
            default: {
                if (!sure && !in_chain(&o, other[1], class_of(&o, *receiver))) goto fails;
                uint16_t *const top = frame + frame_of(method[0]), *const over = top + frame_of(header);
                phase = 5;
                if ((size_t)(over - stack) > room) goto halt;
                if (from == message) make_message(m, selector, receiver + 1, arguments);
                sp = receiver;
                LEAVE();
                top[0] = frame - stack, top[1] = 0, top[2] = 0, top[3] = callee, top[4] = 0, top[5] = *receiver;
                const unsigned temporaries = temporaries_of(header);
                unsigned i = 0;
                for (; i < given; i++) top[6 + i] = from[1 + i];
                for (; i < temporaries; i++) top[6 + i] = NIL_WORD;
                frame = top, method = other, literals = other + 2, code = literals + literals_of(header);
                operands = sp = top + 6 + temporaries;
                at = 0;
                if (end < over) end = over;
                goto sent;
            }
            }
            if (from == message) make_message(m, selector, receiver + 1, arguments);
            *receiver = value;
            sp = receiver + 1;
        sent:
            phase = 1;
            read += f.dictionaries;
            if (!hit) kept[0] = sought, kept[1] = class, kept[2] = callee, kept[3] = f.dictionaries;
            break;
        fails:
            if (m->registers[EDITION] < 2 || from == message || !message_fits(m, arguments)) goto halt;
            from = message, given = 1, sought = DOES_NOT_UNDERSTAND;
            goto seek;
        }
        }
    }
    before = at;
halt:
    at = before;
    LEAVE();
    m->registers[PHASE] = phase;
    m->registers[TOP] = frame - stack;
    *made = count;
    *reach = end - stack;
    *dictionaries = read;
}

uint32_t c_run(const uint16_t *entries, machine *m, uint32_t n, uint32_t *count, uint32_t *reach, uint64_t *dictionaries) {
    const uint32_t number = c_check(entries, m);
    if (number != 0) return number;
    if (m->registers[PHASE] != 1) return 12;
    run(m, n, count, reach, dictionaries);
    return 0;
}
