//! What a send looks up, and what comes of it.

use crate::names::Names;
use apart::code::*;
use apart::listing::instruction_words;
use apart::machine::{Failure, Frame};
use apart::objects::{Found, Method, Objects, BYTES, FIELDS, MOST_BODY_WORDS, MOST_OBJECTS, WITH_MESSAGES};
use apart::primitives::*;
use apart::rules::World;
use apart::words::*;

/// A send that looks its selector up.
pub struct Lookup {
    pub selector: u16,
    pub receiver: u16,
    pub arguments: Vec<u16>,
    /// The class where it starts; nil above the last class.
    pub start: u16,
    pub is_super: bool,
    pub found: Option<Found>,
    /// What the walk reads, where it is made. None for nil, which is no selector.
    pub read: Option<Read>,
    /// Why it fails, where it does.
    pub failure: Option<Failure>,
    /// The lookup of object 6 where it fails, in an edition that makes messages.
    pub message: Option<MessageLookup>,
}

impl Lookup {
    /// Of a send that was made, the lookup that counts: its selector, and what was found. In a failed send's stead it is that of object 6.
    pub fn counted(&self) -> Option<(u16, Found)> {
        match &self.message {
            Some(message) => message.found.map(|found| (DOES_NOT_UNDERSTAND, found)),
            None => self.found.map(|found| (self.selector, found)),
        }
    }
}

/// What the walk of a lookup reads.
#[derive(Clone, Copy)]
pub struct Read {
    pub pairs: usize,
    pub dictionaries: usize,
}

impl Read {
    fn of(objects: &Objects, class: u16, selector: u16) -> Read {
        Read { pairs: objects.pairs_read(class, selector), dictionaries: objects.dictionaries_read(class, selector) }
    }
}

/// What a failed send asks for in its stead.
pub struct MessageLookup {
    pub found: Option<Found>,
    pub read: Read,
    /// Whether the method found is one for the receiver.
    pub fits_receiver: bool,
    /// Why array and message find no room.
    pub lack: Option<String>,
}

/// What an instruction of a frame asks for.
pub enum Asked {
    Lookup(Lookup),
    /// A special send that its primitive answers.
    Primitive(u16),
    /// No send, or one that looks nothing up.
    Nothing,
}

pub fn asked(world: &World, frame: &Frame, room: Room) -> Asked {
    let method = world.method(frame.method);
    let instruction = match decode(&method.code, frame.position) {
        Some((instruction, _)) => instruction,
        None => return Asked::Nothing,
    };
    let (selector, count, is_super) = match instruction {
        Instruction::Send { arguments, literal } => (method.literals.get(literal).copied(), arguments, false),
        Instruction::SuperSend { arguments, literal } => (method.literals.get(literal).copied(), arguments, true),
        Instruction::Special(IDENTITY | CLASS_OF) => return Asked::Nothing,
        Instruction::Special(special) => {
            let selectors = world.objects.get(SPECIALS).map(|object| &object.body);
            (selectors.and_then(|body| body.get(special)).copied(), special_arguments(special), false)
        }
        _ => return Asked::Nothing,
    };
    let (selector, below) = match (selector, frame.operands.len().checked_sub(count + 1)) {
        (Some(selector), Some(below)) => (selector, below),
        _ => return Asked::Nothing,
    };
    let (receiver, arguments) = (frame.operands[below], frame.operands[below + 1..].to_vec());
    if let (Instruction::Special(special), [argument]) = (instruction, &arguments[..]) {
        let number = special_primitive(special);
        if number != 0 && arithmetic(number, receiver, *argument).is_some() {
            return Asked::Primitive(number);
        }
    }
    let above = world.objects.class(method.home).map_or(NIL, |home| home.superclass);
    let start = if is_super { above } else { world.objects.class_of(receiver) };
    let found = world.objects.lookup(start, selector);
    let read = (selector != NIL).then(|| Read::of(&world.objects, start, selector));
    let failure = match found {
        Some(found) => unfit(world, found.method, receiver, &arguments, room),
        None => Some(Failure::NoMethod),
    };
    let message = failure.filter(|_| world.edition >= WITH_MESSAGES).map(|_| message_lookup(world, start, receiver, arguments.len(), room));
    Asked::Lookup(Lookup { selector, receiver, arguments, start, is_super, found, read, failure, message })
}

/// Why a method that was found is none for a receiver.
fn unfit(world: &World, found: u16, receiver: u16, arguments: &[u16], room: Room) -> Option<Failure> {
    let method = world.method(found);
    match method.flag {
        _ if world.objects.in_chain(receiver, method.home) => None,
        5 => None,
        6 => {
            let object = world.objects.get(receiver).filter(|object| object.kind == FIELDS);
            let field = object.and_then(|object| object.body.get(method.temporaries));
            if field.is_some() {
                None
            } else {
                Some(Failure::Field)
            }
        }
        // On a copy, since the bytecode is still to be made.
        7 if primitive(&mut world.objects.clone(), room, method.primitive, receiver, arguments).is_some() => None,
        _ => Some(Failure::Home),
    }
}

fn message_lookup(world: &World, start: u16, receiver: u16, count: usize, room: Room) -> MessageLookup {
    let (objects, words) = (&world.objects, count + MESSAGE_WORDS);
    let found = objects.lookup(start, DOES_NOT_UNDERSTAND);
    let (n, b) = (objects.list.len() + 2, objects.body_total() + words);
    let lacks = [
        format!("they make {n} objects, and {MOST_OBJECTS} are the most"),
        format!("they make {b} body words, and {MOST_BODY_WORDS} are the most"),
        format!("they need contents of {} words, and there are {}", 4 * n, room.contents),
        format!("they need bodies of {b} words, and there are {}", room.bodies),
    ];
    let lack = lacking(objects, room, 2, words).iter().zip(lacks).find(|(lacks, _)| **lacks).map(|(_, text)| text);
    // Of the primitives only == can answer with a message.
    let answers = |found: u16| world.method(found).flag == 7 && world.method(found).primitive == 110;
    let fits = |method: u16| answers(method) || objects.in_chain(receiver, world.method(method).home);
    let fits_receiver = found.map_or(false, |found| fits(found.method));
    MessageLookup { found, read: Read::of(objects, start, DOES_NOT_UNDERSTAND), fits_receiver, lack }
}

/// Why a method that was found is none for the receiver, in words.
pub fn unfit_words(names: &Names, method: &Method, failure: Option<Failure>) -> Option<String> {
    match failure? {
        Failure::NoMethod => None,
        Failure::Field => Some(format!("it answers field {}, which the receiver has not", method.temporaries)),
        Failure::Home => Some(format!("its home, {}, is not in the receiver's class chain", names.name(method.home))),
    }
}

/// The instruction at a position; what listings have behind `;` stands in brackets.
pub fn words(names: &Names, method: &Method, position: usize) -> String {
    let text = instruction_words(&names.image, method, position).unwrap_or_default();
    match text.split_once("    ; ") {
        Some((text, note)) => format!("{text} ({note})"),
        None => text,
    }
}

/// How a method that was found answered without a frame.
pub fn answered(names: &Names, method: &Method, answer: u16) -> String {
    let answer = names.name(answer);
    match method.flag {
        5 => format!("answers its receiver, {answer}"),
        6 => format!("answers field {}, {answer}", method.temporaries),
        _ => format!("primitive {} answers {answer}", method.primitive),
    }
}

/// The frame of a method that was sent to a receiver; nothing has changed since.
pub fn framed(names: &Names, objects: &Objects, method: &Method, base: usize, receiver: u16, arguments: &[u16]) -> String {
    let frame = format!("a frame of {} words at {base}", 6 + method.room());
    if method.flag != 7 {
        return frame;
    }
    let why = failed_access(names, objects, method.primitive, receiver, arguments).map_or(String::new(), |why| format!(" ({why})"));
    format!("primitive {} fails{why}, {frame}", method.primitive)
}

/// Why at:, at:put: or size fails; none for another primitive, and with another count of arguments.
fn failed_access(names: &Names, objects: &Objects, number: u16, receiver: u16, arguments: &[u16]) -> Option<String> {
    if !matches!((number, arguments.len()), (60, 1) | (61, 2) | (62, 0)) {
        return None;
    }
    let count = match elements(objects, receiver) {
        Some(elements) => elements.count,
        None => return Some("the receiver has no elements".to_string()),
    };
    let inside = |index: u16| is_integer(index) && (1..=count as i64).contains(&(integer(index) as i64));
    match arguments {
        _ if count > MOST_ELEMENTS => Some(format!("size {count}, above {MOST_ELEMENTS}")),
        [index, ..] if !inside(*index) => Some(format!("index {}, size {count}", names.name(*index))),
        [_, stored] if objects.has_kind(receiver, BYTES) => Some(format!("{} is no byte", names.name(*stored))),
        _ => None,
    }
}
