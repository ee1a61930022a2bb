//! Frames, and why a handler halted, in words.

use crate::names::Names;
use crate::sends::*;
use apart::code::*;
use apart::machine::*;
use apart::objects::*;
use apart::primitives::Room;
use apart::rules::World;
use apart::words::*;

/// Why the top frame's bytecode could not be made, with buffers of these lengths: contents, bodies, stack.
pub fn cause(names: &Names, world: &World, frames: &[Frame], phase: u16, [contents, bodies, stack]: [usize; 3]) -> String {
    let frame = match frames.last() {
        Some(frame) => frame,
        None => return String::new(),
    };
    match (phase, asked(world, frame, Room { contents, bodies })) {
        (NO_BOOLEAN, _) => format!("  operand: {}, neither true nor false\n", frame.operands.last().map_or(String::new(), |word| names.name(*word))),
        (_, Asked::Lookup(lookup)) => {
            let mut out = format!("  selector: {}\n  receiver: {}\n", names.name(lookup.selector), with_class(names, world, lookup.receiver));
            if !lookup.arguments.is_empty() {
                out += &format!("  arguments: {}\n", names.list(&lookup.arguments));
            }
            let pairs = lookup.read.map_or(String::new(), |read| format!("; pairs read: {}", read.pairs));
            out += &format!("  lookup: {}{pairs}\n", found(names, world, &lookup));
            if let Some(message) = &lookup.message {
                out += &format!("  object 6: {}\n", message_halted(names, world, &lookup, message));
            }
            let framed = lookup.message.as_ref().map_or(lookup.found, |message| message.found);
            if let (NO_STACK_ROOM, Some(found)) = (phase, framed) {
                let base = frame.base + 6 + world.method(frame.method).room();
                let needed = 6 + world.method(found.method).room();
                let of_use = if stack > MOST_STACK { format!(", of which {MOST_STACK} are of use") } else { String::new() };
                out += &format!("  frame: {needed} words at {base}, so {} in all; the stack has {stack}{of_use}\n", base + needed);
            }
            out
        }
        _ => String::new(),
    }
}

/// A word with its class, which some names say already.
fn with_class(names: &Names, world: &World, word: u16) -> String {
    let (name, class) = (names.name(word), world.objects.class_of(word));
    if name.ends_with(&format!(" of {}", names.image.class_name(class as usize / 2))) {
        name
    } else {
        format!("{name}, of {}", names.name(class))
    }
}

/// How far the send of object 6 came.
fn message_halted(names: &Names, world: &World, lookup: &Lookup, message: &MessageLookup) -> String {
    let sent = format!("{} in its stead, from {} upwards,", names.name(DOES_NOT_UNDERSTAND), names.name(lookup.start));
    let found = match message.found {
        Some(found) => found.method,
        None if lookup.start == NIL => return format!("{} in its stead finds no method either", names.name(DOES_NOT_UNDERSTAND)),
        None => return format!("{sent} finds no method either; pairs read: {}", message.read.pairs),
    };
    let but = match &message.lack {
        Some(lack) => format!("; array and message find no room: {lack}"),
        None if message.fits_receiver => String::new(),
        None => format!("; its home, {}, is not in the receiver's class chain", names.name(world.method(found).home)),
    };
    format!("{sent} finds {}{but}; pairs read: {}", names.name(found), message.read.pairs)
}

fn found(names: &Names, world: &World, lookup: &Lookup) -> String {
    let send = if lookup.is_super { "a super send" } else { "a send" };
    let start = names.name(lookup.start);
    let found = match lookup.found {
        Some(found) => found.method,
        None if lookup.selector == NIL => return format!("{send} of nil, which is no selector and finds nothing"),
        None if lookup.start == NIL => return format!("{send} from a home without a superclass finds no method"),
        None => return format!("{send}, from {start} upwards, finds no method"),
    };
    let finds = format!("{send}, from {start} upwards, finds {}", names.name(found));
    match unfit_words(names, world.method(found), lookup.failure) {
        Some(why) => format!("{finds}; {why}"),
        None => finds,
    }
}

/// The frames from the top: at most so many, and the bottom one.
pub fn frames_shown(names: &Names, world: &World, frames: &[Frame], most: usize) -> String {
    let mut out = String::new();
    let mut left_out = 0;
    for (index, frame) in frames.iter().enumerate().rev() {
        if frames.len() - index > most && index != 0 {
            left_out += 1;
            continue;
        }
        if left_out > 0 {
            out += &format!("  {left_out} more\n");
        }
        out += &shown(names, world, frame, index, index + 1 == frames.len());
    }
    out
}

fn shown(names: &Names, world: &World, frame: &Frame, index: usize, is_top: bool) -> String {
    let method = world.method(frame.method);
    let at = match waiting(method, frame.position) {
        Some(at) if !is_top => format!("in the send at {at}: {}; goes on at {}", words(names, method, at), frame.position),
        _ if is_top => format!("before {}: {}", frame.position, words(names, method, frame.position)),
        _ => format!("goes on at {}: {}", frame.position, words(names, method, frame.position)),
    };
    let mut out = format!("  frame {index} at {}, {}, {at}\n", frame.base, names.name(frame.method));
    out += &format!("    receiver: {}\n", names.name(frame.receiver));
    let (arguments, others) = frame.temporaries.split_at(method.arguments.min(frame.temporaries.len()));
    if !arguments.is_empty() {
        out += &format!("    arguments: {}\n", names.list(arguments));
    }
    if !others.is_empty() {
        out += &format!("    temporaries from {}: {}\n", arguments.len(), names.list(others));
    }
    if !frame.operands.is_empty() {
        out += &format!("    operands: {}\n", names.list(&frame.operands));
    }
    out
}

/// The position of the send that a frame below the top waits for, where only one can be it.
fn waiting(method: &Method, goes_on: usize) -> Option<usize> {
    let table = method.table.as_ref()?;
    let is_send =
        |instruction: Instruction| matches!(instruction, Instruction::Send { .. } | Instruction::SuperSend { .. } | Instruction::Special(_));
    let reached = (goes_on.saturating_sub(3)..goes_on).filter(|position| table.get(*position).copied().flatten().is_some());
    let sends: Vec<usize> = reached
        .filter(|position| decode(&method.code, *position).map_or(false, |(instruction, next)| next == goes_on && is_send(instruction)))
        .collect();
    match sends[..] {
        [position] => Some(position),
        _ => None,
    }
}
