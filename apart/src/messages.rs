//! How sends fail and what comes of it, for the report on coverage. It is told by the words before the bytecode is made.

use crate::code::*;
use crate::counts::Counts;
use crate::machine::*;
use crate::objects::*;
use crate::primitives::*;
use crate::words::*;

/// Ways to fail.
pub const CAUSES: [&str; 11] = [
    "a send finds nothing",
    "a special send finds nothing",
    "arithmetic fails and its send finds nothing",
    "a literal nil is sent",
    "a special selector is nil",
    "object 6 itself is not found",
    "a super send from a root",
    "a super send finds nothing",
    "a super send finds a method of another home",
    "a super send finds a primitive that fails, of another home",
    "a super send finds a field that the receiver has not",
];
const OBJECT_6: usize = 5;
const ROOT: usize = 6;
const SUPER: usize = 7;

/// What comes of a send that fails.
#[derive(Clone, Copy, PartialEq)]
pub enum End {
    /// Phase 3, in an edition that makes no messages.
    EarlierEdition,
    /// Phase 3, object 6 is not found either.
    NotFound,
    /// Phase 3, array or message find no room.
    NoRoom,
    Answer,
    Frame,
    /// Phase 3, the method under object 6 is none for this receiver.
    Home,
    /// Phase 5.
    NoStackRoom,
}

/// The same, by what lacks where there is no room.
pub const ENDS: [&str; 10] = [
    "in edition 1, where a later one would send object 6",
    "object 6 is not found",
    "no room for lack of objects alone",
    "no room for lack of body words alone",
    "no room for lack of contents alone",
    "no room for lack of bodies alone",
    "the primitive under object 6 answers",
    "the method under object 6 gets a frame",
    "the method under object 6 has another home",
    "the frame does not fit",
];
const NOT_FOUND: usize = 1;
const ANSWERS: usize = 6;
const OTHER_HOME: usize = 8;

/// Whether a send that fails in this way can end in that way. Object 6 is not found above the last class, and only super sends find another home.
pub fn possible(cause: usize, end: usize) -> bool {
    match cause {
        OBJECT_6 | ROOT => end == NOT_FOUND,
        _ => end != OTHER_HOME || cause >= SUPER,
    }
}

/// Whether object 6 can be sent in the stead of a send that fails in this way.
pub fn sends_6(cause: usize) -> bool {
    possible(cause, ANSWERS)
}

// The ends where something counts.
const MADE: &[End] = &[End::Answer, End::Frame];
const FRAME: &[End] = &[End::Frame];
const NO_ROOM: &[End] = &[End::NoRoom];
const HOME: &[End] = &[End::Home];
const TOO_LONG: &[End] = &[End::NoStackRoom];
const NOTHING: &[End] = &[End::NotFound];

/// What else a failed send can show.
pub const SHOWN: [(&str, &[End]); 55] = [
    ("failed send: no arguments", MADE),
    ("failed send: one argument", MADE),
    ("failed send: two arguments", MADE),
    ("failed send: 3 to 7 arguments", MADE),
    ("failed send: 8 arguments or more", MADE),
    ("failed send: 11 arguments in a small frame", MADE),
    ("failed send: 31 arguments in a large frame", MADE),
    ("failed send: the operands fill the frame", MADE),
    ("failed send: the last two objects", MADE),
    ("failed send: one object too many", NO_ROOM),
    ("failed send: two objects too many", NO_ROOM),
    ("failed send: the last body word", MADE),
    ("failed send: one body word too many", NO_ROOM),
    ("failed send: body words for the array alone", NO_ROOM),
    ("failed send: contents just long enough", MADE),
    ("failed send: contents a word too short", NO_ROOM),
    ("failed send: contents for the array alone", NO_ROOM),
    ("failed send: bodies just long enough", MADE),
    ("failed send: bodies a word too short", NO_ROOM),
    ("failed send: bodies for the array alone", NO_ROOM),
    ("failed send: bodies just long enough, no arguments", MADE),
    ("failed send: bodies a word too short, no arguments", NO_ROOM),
    ("failed send: no room, and the frame would not fit", NO_ROOM),
    ("failed send: no room, where the primitive would answer", NO_ROOM),
    ("failed send: another home, and the frame would not fit", HOME),
    ("failed send: the frame ends with the stack", FRAME),
    ("failed send: the stack is a word too short", TOO_LONG),
    ("failed send: the frame ends at 65,536", FRAME),
    ("failed send: the frame would end behind 65,536, on a longer stack", TOO_LONG),
    ("failed send: a frame without other temporaries", FRAME),
    ("failed send: a frame with other temporaries", FRAME),
    ("failed send: a large frame", FRAME),
    ("failed send: arithmetic under object 6 fails", FRAME),
    ("failed send: at: under object 6 fails", FRAME),
    ("failed send: new: under object 6 fails", FRAME),
    ("failed send: a primitive of another count under object 6 fails", FRAME),
    ("failed send: a primitive that there is not under object 6 fails", FRAME),
    ("failed send: object 6 found where the lookup starts", MADE),
    ("failed send: object 6 found further up", MADE),
    ("failed send: from the receiver's class another method under object 6", MADE),
    ("failed send: from the receiver's class no method under object 6", MADE),
    ("failed send: object 6 found from the receiver's class alone", NOTHING),
    ("failed send: the cache has the lookup of object 6", MADE),
    ("failed send: the cache's entry is empty", MADE),
    ("failed send: the cache's entry is another's", MADE),
    ("failed send: not in the cache, and no room", NO_ROOM),
    ("failed send: not in the cache, and another home", HOME),
    ("failed send: not in the cache, and the frame does not fit", TOO_LONG),
    ("failed send: an argument is a message", MADE),
    ("failed send: to a message", MADE),
    ("failed send: to an array", MADE),
    ("failed send: to an integer", MADE),
    ("failed send: to a class", MADE),
    ("failed send: to nil", MADE),
    ("failed send: by the method under object 6", MADE),
];

/// What can follow: uses of the message that was made last, and of its array.
pub const THEN: [&str; 7] = [
    "the last message: a field pushed",
    "the last message: a field answered by flag 6",
    "the last message: a field stored",
    "the last message: at: of its array",
    "the last message: at:put: of its array",
    "the last message: size of its array",
    "the last message: the receiver of begin",
];
pub const BEGUN: usize = 6;

pub type Failures = [[u64; ENDS.len()]; CAUSES.len()];

/// A send that failed, as it was before anything was made.
pub struct Facts {
    cause: usize,
    lacking: [bool; ROOMS],
    /// Whether object 6 would be sent if the edition had it.
    would_go: bool,
    shown: [bool; SHOWN.len()],
    /// Of the lookup of object 6: whether it found further up than where it started, and whether the cache has it.
    climb: [bool; 2],
}

fn cause(machine: &Machine, sending: &Sending, failure: Failure) -> usize {
    let frame = machine.frames.last().unwrap();
    let instruction = decode(&machine.world.method(frame.method).code, frame.position).unwrap().0;
    let found = machine.world.objects.lookup(sending.start, sending.selector).map(|found| found.method);
    match (instruction, failure) {
        (_, Failure::NoMethod) if sending.selector == DOES_NOT_UNDERSTAND => OBJECT_6,
        (_, Failure::NoMethod) if sending.start == NIL => ROOT,
        (Instruction::Special(_), _) if sending.selector == NIL => 4,
        _ if sending.selector == NIL => 3,
        (Instruction::Special(special), _) => 1 + (special < 16) as usize,
        (_, Failure::Field) => 10,
        (_, Failure::Home) if found.map_or(false, |found| machine.world.method(found).flag == 7) => 9,
        (_, Failure::Home) => 8,
        (Instruction::SuperSend { .. }, _) => SUPER,
        _ => 0,
    }
}

pub fn facts(machine: &Machine, sending: &Sending, failure: Failure, looked_up: Option<Found>) -> Facts {
    let found = looked_up.map(|found| found.method);
    let (world, objects) = (&machine.world, &machine.world.objects);
    let frame = machine.frames.last().unwrap();
    let (sender, count) = (world.method(frame.method), sending.arguments.len());
    let words = count + MESSAGE_WORDS;
    let (n, b) = (objects.list.len() + 2, objects.body_total() + words);
    // Room that is left behind the two objects; below 0 it lacks.
    let left = |room: usize, used: usize| room as i64 - used as i64;
    let [object, word, entry, body] =
        [left(MOST_OBJECTS, n), left(MOST_BODY_WORDS, b), left(machine.room.contents, 4 * n), left(machine.room.bodies, b)];
    let lacking = lacking(objects, machine.room, 2, words);
    let alone = |room: usize| lacking[room] && lacking.iter().filter(|lacks| **lacks).count() == 1;
    let method = found.map(|found| world.method(found));
    let end = machine.next_base() + 6 + method.map_or(0, |method| method.room());
    let (stack, fits) = (left(machine.stack.len(), end), found.map_or(false, |found| machine.fits(machine.next_base(), found)));
    let under_6 = |wanted: &dyn Fn(&Method) -> bool| method.map_or(false, wanted);
    let primitive = |wanted: &dyn Fn(u16) -> bool| under_6(&|method| method.flag == 7 && wanted(method.primitive));
    let under_6_from = |class: u16| objects.lookup(class, DOES_NOT_UNDERSTAND).map(|found| found.method);
    let from_class = under_6_from(objects.class_of(sending.receiver));
    let cached = machine.cached(DOES_NOT_UNDERSTAND, sending.start);
    let empty = machine.cache[cache_index(DOES_NOT_UNDERSTAND, sending.start)] == 0;
    let in_chain = under_6(&|method| objects.in_chain(sending.receiver, method.home));
    let is = |class: u16| objects.class_of(sending.receiver) == class;
    let others = [61, 62, 70, 111];
    let shown = [
        count == 0,
        count == 1,
        count == 2,
        (3..8).contains(&count),
        count >= 8,
        count == 11 && !sender.large,
        count == 31,
        sender.temporaries + frame.operands.len() == sender.room(),
        object == 0,
        object == -1 && alone(0),
        object == -2 && alone(0),
        word == 0,
        word == -1 && alone(1),
        word == -2 && alone(1),
        entry == 0,
        entry == -1 && alone(2),
        entry == -4 && alone(2),
        body == 0,
        body == -1 && alone(3),
        body == -2 && alone(3),
        body == 0 && count == 0,
        body == -1 && count == 0 && alone(3),
        !fits && in_chain,
        primitive(&|number| number == 110),
        !fits,
        stack == 0,
        stack == -1,
        end == MOST_STACK,
        end > MOST_STACK && stack >= 0,
        under_6(&|method| method.temporaries == 1),
        under_6(&|method| method.temporaries > 1),
        under_6(&|method| method.large),
        primitive(&|number| (1..=17).contains(&number)),
        primitive(&|number| number == 60),
        primitive(&|number| number == 71),
        primitive(&|number| others.contains(&number)),
        primitive(&|number| !(1..=17).contains(&number) && ![60, 71, 110].contains(&number) && !others.contains(&number)),
        under_6(&|method| method.home == sending.start),
        under_6(&|method| method.home != sending.start),
        from_class.is_some() && from_class != found,
        from_class.is_none(),
        from_class.is_some(),
        cached,
        empty,
        !cached && !empty,
        !cached,
        !cached,
        !cached,
        sending.arguments.iter().any(|word| objects.class_of(*word) == MESSAGE_CLASS),
        is(MESSAGE_CLASS),
        is(ARRAY_CLASS),
        is_integer(sending.receiver),
        objects.has_kind(sending.receiver, CLASS),
        sending.receiver == NIL,
        under_6_from(sender.home) == Some(frame.method),
    ];
    let takes_one = under_6(&|method| method.arguments == 1);
    let would_go = takes_one && (in_chain || primitive(&|number| number == 110)) && !lacking.contains(&true);
    let climb = [looked_up.map_or(false, |found| found.dictionaries > 1), cached];
    Facts { cause: cause(machine, sending, failure), lacking, would_go, shown, climb }
}

impl Counts {
    pub fn failed_send(&mut self, facts: &Facts, end: End) {
        let lacking: Vec<usize> = (0..ROOMS).filter(|room| facts.lacking[*room]).collect();
        let row = match (end, &lacking[..]) {
            (End::EarlierEdition, _) => facts.would_go.then_some(0),
            (End::NotFound, _) => Some(NOT_FOUND),
            (End::NoRoom, [room]) => Some(2 + room),
            (End::NoRoom, _) => None,
            (End::Answer, _) => Some(ANSWERS),
            (End::Frame, _) => Some(7),
            (End::Home, _) => Some(OTHER_HOME),
            (End::NoStackRoom, _) => Some(9),
        };
        if let Some(row) = row {
            self.failures[facts.cause][row] += 1;
        }
        if MADE.contains(&end) {
            let [climbs, cached] = facts.climb;
            self.climbs.messages[facts.cause][climbs as usize][cached as usize] += 1;
        }
        for ((name, ends), shown) in SHOWN.iter().zip(facts.shown) {
            if shown && ends.contains(&end) {
                self.event(name);
            }
        }
    }

    /// The receiver of begin or of a field, used in one of the ways of `THEN`.
    pub fn message_used(&mut self, receiver: u16, then: usize) {
        if self.message == Some(receiver) {
            self.event(THEN[then]);
        }
    }

    /// at:, at:put: or size, counted from 60.
    pub fn array_used(&mut self, receiver: u16, primitive: usize) {
        if self.message.map_or(false, |message| message - 2 == receiver) {
            self.event(THEN[3 + primitive]);
        }
    }
}
