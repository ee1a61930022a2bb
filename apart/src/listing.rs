//! Code, one instruction a line, in the words of examples/assemble; what follows `;` is for the reader.

use crate::code::*;
use crate::image::Image;
use crate::objects::*;
use crate::words::*;
use std::collections::BTreeMap;

/// How a position is reached: with which depths, at most two, and from where.
#[derive(Default)]
pub struct Reached {
    pub depths: Vec<usize>,
    pub from: Vec<usize>,
}

/// All positions that are reached, those outside the code too. A third depth of a position is not followed, so this ends.
pub fn walk(code: &[u8]) -> BTreeMap<i64, Reached> {
    let mut reached: BTreeMap<i64, Reached> = BTreeMap::new();
    let mut pending = vec![(0i64, 0usize, None)];
    while let Some((position, depth, from)) = pending.pop() {
        let here = reached.entry(position).or_default();
        if let Some(from) = from.filter(|from| !here.from.contains(from) && here.from.len() < 8) {
            here.from.push(from);
        }
        if here.depths.contains(&depth) || here.depths.len() == 2 {
            continue;
        }
        here.depths.push(depth);
        let (instruction, next) = match usize::try_from(position).ok().and_then(|position| decode(code, position)) {
            Some(found) => found,
            None => continue,
        };
        let (need, left) = need_and_left(instruction);
        if depth >= need {
            let after = depth - need + left;
            pending.extend(successors(instruction, next).into_iter().map(|successor| (successor, after, Some(position as usize))));
        }
    }
    reached
}

/// The lines of a method's code with their positions. Its depths are those of the depth table where there is one.
pub fn listing(image: &Image, method: &Method) -> Vec<(usize, String)> {
    let code = &method.code;
    let reached = walk(code);
    let depths = |position: usize| match (&method.table, method.flag) {
        (Some(table), _) => table[position].into_iter().collect(),
        (None, 5 | 6) => vec![],
        (None, _) => reached.get(&(position as i64)).map_or(vec![], |here| here.depths.clone()),
    };
    let (mut lines, mut covered) = (vec![], 0);
    for position in 0..code.len() {
        let found: Vec<String> = depths(position).iter().map(usize::to_string).collect();
        if found.is_empty() && position < covered {
            continue;
        }
        // What is not reached gives way to what is.
        let whole = |next: &usize| !found.is_empty() || (position + 1..*next).all(|inner| depths(inner).is_empty());
        let (end, text) = match decode(code, position).filter(|(_, next)| whole(next)) {
            Some((instruction, next)) => (next, format!("{}{}", form(code[position], instruction), words(image, method, instruction, next))),
            None => (position + 1, format!("bytes {}    ; {}", code[position], no_instruction(code, position))),
        };
        let bytes: Vec<String> = code[position..end].iter().map(u8::to_string).collect();
        let depth = if found.is_empty() { "unreached".to_string() } else { format!("depth {}", found.join(" and ")) };
        let inside = if position < covered { "    ; inside the instruction before" } else { "" };
        lines.push((position, format!("{position:>5}  {depth:<9}  {:<11}  {text}{inside}", bytes.join(" "))));
        covered = covered.max(end);
    }
    lines
}

fn no_instruction(code: &[u8], position: usize) -> &'static str {
    match code[position] {
        125 => "unused: a return from a block",
        126 | 127 | 138..=143 => "unused",
        137 => "unused: a push of the active context",
        _ if decode(code, position).is_some() => "its operand bytes are instructions",
        _ => "not whole",
    }
}

/// The assembler's word for a form that is not the shortest.
fn form(byte: u8, instruction: Instruction) -> &'static str {
    use Instruction::*;
    let long = match (byte, instruction) {
        (128, Push(Place::Field(k) | Place::Temporary(k))) => k < 16,
        (128, Push(Place::Literal(k) | Place::Variable(k))) => k < 32,
        (130, PopInto(Place::Field(k) | Place::Temporary(k))) => k < 8,
        (131, Send { arguments, literal }) => arguments < 3 && literal < 16,
        (132, Send { arguments, literal }) | (134, SuperSend { arguments, literal }) if arguments < 8 && literal < 32 => return "longer ",
        (160..=167, Jump(distance)) | (172..=175, JumpOn(_, distance)) => (1..=8).contains(&distance),
        _ => false,
    };
    if long {
        "long "
    } else {
        ""
    }
}

fn words(image: &Image, method: &Method, instruction: Instruction, next: usize) -> String {
    use Instruction::*;
    let literal = |k: usize| method.literals.get(k).map_or("no such literal".to_string(), |word| image.name(*word));
    let place = |place: Place| match place {
        Place::Field(k) => format!("field {k}"),
        Place::Temporary(k) => format!("temporary {k}"),
        Place::Literal(k) => format!("literal {k}    ; {}", literal(k)),
        Place::Variable(k) => format!("variable {k}    ; {}", literal(k)),
    };
    let target = |distance: i32| next as i64 + distance as i64;
    match instruction {
        Push(from) => format!("push {}", place(from)),
        Store(to) => format!("store {}", place(to)),
        PopInto(to) => format!("pop {}", place(to)),
        PushSelf => "push self".to_string(),
        PushWord(word) => format!("push {}", image.name(word)),
        ReturnSelf => "return self".to_string(),
        ReturnWord(word) => format!("return {}", image.name(word)),
        ReturnTop => "return".to_string(),
        Pop => "pop".to_string(),
        Duplicate => "duplicate".to_string(),
        Jump(distance) => format!("jump {}", target(distance)),
        JumpOn(condition, distance) => format!("jump {} {}", if condition == TRUE { "true" } else { "false" }, target(distance)),
        Special(k) => format!("special {k}    ; {}", special(image, k)),
        Send { arguments, literal: k } => format!("send {arguments} {k}    ; {}", literal(k)),
        SuperSend { arguments, literal: k } => format!("super send {arguments} {k}    ; {}", literal(k)),
    }
}

fn special(image: &Image, special: usize) -> String {
    let selector = image.word(5, special).map_or("no selector".to_string(), |word| image.name(word));
    match (special, special_primitive(special)) {
        (IDENTITY, _) => "==, without a send".to_string(),
        (CLASS_OF, _) => "class, without a send".to_string(),
        (_, 0) => selector,
        (_, primitive) => format!("primitive {primitive} on integers, else {selector}"),
    }
}

/// The selector and the count of a send.
pub fn sent(image: &Image, method: &Method, instruction: Instruction) -> Option<(u16, usize)> {
    match instruction {
        Instruction::Send { arguments, literal } | Instruction::SuperSend { arguments, literal } => Some((*method.literals.get(literal)?, arguments)),
        Instruction::Special(IDENTITY | CLASS_OF) => None,
        Instruction::Special(special) => Some((image.word(5, special)?, special_arguments(special))),
        _ => None,
    }
}

/// One instruction in words, without what surrounds it in a listing.
pub fn instruction_words(image: &Image, method: &Method, position: usize) -> Option<String> {
    let (instruction, next) = decode(&method.code, position)?;
    Some(format!("{}{}", form(method.code[position], instruction), words(image, method, instruction, next)))
}
