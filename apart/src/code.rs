//! Bytecodes, and the depth table of a method's code.

use crate::objects::*;
use crate::words::*;
use std::collections::HashMap;

#[derive(Clone, Copy, Debug, PartialEq)]
pub enum Place {
    Field(usize),
    Temporary(usize),
    Literal(usize),
    Variable(usize),
}

#[derive(Clone, Copy, Debug, PartialEq)]
pub enum Instruction {
    Push(Place),
    Store(Place),
    PopInto(Place),
    PushSelf,
    PushWord(u16),
    ReturnSelf,
    ReturnWord(u16),
    ReturnTop,
    Pop,
    Duplicate,
    Jump(i32),
    /// Pops, and jumps where it popped this boolean.
    JumpOn(u16, i32),
    /// A special send, from 0.
    Special(usize),
    Send {
        arguments: usize,
        literal: usize,
    },
    SuperSend {
        arguments: usize,
        literal: usize,
    },
}

pub const IDENTITY: usize = 198 - 176;
pub const CLASS_OF: usize = 199 - 176;

/// Arguments of the special sends.
pub fn special_arguments(special: usize) -> usize {
    const FROM_192: [usize; 16] = [1, 2, 0, 0, 1, 0, 1, 0, 1, 0, 1, 1, 0, 1, 0, 0];
    if special < 16 {
        1
    } else {
        FROM_192[special - 16]
    }
}

/// The primitive that 176 to 191 try; 0 where there is none.
pub fn special_primitive(special: usize) -> u16 {
    const TRIED: [u16; 16] = [1, 2, 3, 4, 5, 6, 7, 8, 9, 10, 11, 0, 17, 12, 14, 15];
    if special < 16 {
        TRIED[special]
    } else {
        0
    }
}

fn constant(low: u8) -> u16 {
    match low {
        1 => TRUE,
        2 => FALSE,
        3 => NIL,
        4 => word(-1).unwrap(),
        5 => word(0).unwrap(),
        6 => word(1).unwrap(),
        _ => word(2).unwrap(),
    }
}

/// The place that a byte jjkkkkkk names.
fn extended(byte: u8) -> Place {
    let index = (byte % 64) as usize;
    match byte / 64 {
        0 => Place::Field(index),
        1 => Place::Temporary(index),
        2 => Place::Literal(index),
        _ => Place::Variable(index),
    }
}

/// The instruction at a position and the position after it; none where it is outside, not whole or unused.
pub fn decode(code: &[u8], position: usize) -> Option<(Instruction, usize)> {
    use Instruction::*;
    let byte = *code.get(position)?;
    let second = code.get(position + 1).copied();
    let third = code.get(position + 2).copied();
    let low = |bits: u32| (byte & ((1 << bits) - 1)) as usize;
    let short = |instruction| Some((instruction, position + 1));
    let long = |instruction| Some((instruction, position + 2));
    let longer = |instruction| Some((instruction, position + 3));
    match byte {
        0..=15 => short(Push(Place::Field(low(4)))),
        16..=31 => short(Push(Place::Temporary(low(4)))),
        32..=63 => short(Push(Place::Literal(low(5)))),
        64..=95 => short(Push(Place::Variable(low(5)))),
        96..=103 => short(PopInto(Place::Field(low(3)))),
        104..=111 => short(PopInto(Place::Temporary(low(3)))),
        112 => short(PushSelf),
        113..=119 => short(PushWord(constant(byte - 112))),
        120 => short(ReturnSelf),
        121..=123 => short(ReturnWord(constant(byte - 120))),
        124 => short(ReturnTop),
        128 => long(Push(extended(second?))),
        129 => long(Store(extended(second?))),
        130 => long(PopInto(extended(second?))),
        131 => long(Send { arguments: (second? / 32) as usize, literal: (second? % 32) as usize }),
        133 => long(SuperSend { arguments: (second? / 32) as usize, literal: (second? % 32) as usize }),
        132 => longer(Send { arguments: second? as usize, literal: third? as usize }),
        134 => longer(SuperSend { arguments: second? as usize, literal: third? as usize }),
        135 => short(Pop),
        136 => short(Duplicate),
        144..=151 => short(Jump(low(3) as i32 + 1)),
        152..=159 => short(JumpOn(FALSE, low(3) as i32 + 1)),
        160..=167 => long(Jump((low(3) as i32 - 4) * 256 + second? as i32)),
        168..=171 => long(JumpOn(TRUE, low(2) as i32 * 256 + second? as i32)),
        172..=175 => long(JumpOn(FALSE, low(2) as i32 * 256 + second? as i32)),
        176..=207 => short(Special((byte - 176) as usize)),
        208..=223 => short(Send { arguments: 0, literal: low(4) }),
        224..=239 => short(Send { arguments: 1, literal: low(4) }),
        240..=255 => short(Send { arguments: 2, literal: low(4) }),
        125..=127 | 137..=143 => None,
    }
}

/// What the code of a method is judged against.
pub struct Surroundings<'a> {
    pub objects: &'a Objects,
    /// Fields of the home class.
    pub fields: usize,
    /// The count of arguments under each selector that has methods.
    pub counts: &'a HashMap<u16, usize>,
}

type Found = Result<(), &'static str>;

fn ask(truth: bool, why: &'static str) -> Found {
    if truth {
        Ok(())
    } else {
        Err(why)
    }
}

fn place_fine(around: &Surroundings, method: &Method, place: Place) -> Found {
    match place {
        Place::Field(index) => ask(index < around.fields, "a field that the home class has not"),
        Place::Temporary(index) => ask(index < method.temporaries, "a temporary that the method has not"),
        Place::Literal(index) => ask(index < method.literals.len(), "a literal that the method has not"),
        Place::Variable(index) => {
            ask(index < method.literals.len(), "a literal that the method has not")?;
            let variable = around.objects.get(method.literals[index]);
            ask(variable.map_or(false, |object| object.kind == FIELDS && object.size >= 2), "a literal variable without field 1")
        }
    }
}

fn selector_fine(around: &Surroundings, selector: u16, arguments: usize) -> Found {
    ask(selector == NIL || around.objects.has_kind(selector, BYTES), "a selector that is neither nil nor bytes")?;
    let count = around.counts.get(&selector);
    ask(count.map_or(true, |count| *count == arguments), "a send with another count than the methods under its selector")
}

/// The rules of one instruction that do not depend on the depth.
fn instruction_fine(around: &Surroundings, method: &Method, instruction: Instruction) -> Found {
    match instruction {
        Instruction::Push(place) => place_fine(around, method, place),
        Instruction::Store(Place::Literal(_)) | Instruction::PopInto(Place::Literal(_)) => Err("a store to a literal"),
        Instruction::Store(place) | Instruction::PopInto(place) => place_fine(around, method, place),
        Instruction::Send { arguments, literal } | Instruction::SuperSend { arguments, literal } => {
            ask(literal < method.literals.len(), "a literal that the method has not")?;
            selector_fine(around, method.literals[literal], arguments)
        }
        Instruction::Special(IDENTITY) | Instruction::Special(CLASS_OF) => Ok(()),
        Instruction::Special(special) => {
            let selectors = &around.objects.get(SPECIALS).unwrap().body;
            selector_fine(around, selectors[special], special_arguments(special))
        }
        _ => Ok(()),
    }
}

/// Operands that an instruction needs, and what it leaves in their stead.
pub fn need_and_left(instruction: Instruction) -> (usize, usize) {
    match instruction {
        Instruction::Push(_) | Instruction::PushSelf | Instruction::PushWord(_) => (0, 1),
        Instruction::Store(_) => (1, 1),
        Instruction::PopInto(_) | Instruction::Pop | Instruction::JumpOn(..) => (1, 0),
        Instruction::ReturnSelf | Instruction::ReturnWord(_) | Instruction::Jump(_) => (0, 0),
        Instruction::ReturnTop => (1, 0),
        Instruction::Duplicate => (1, 2),
        Instruction::Special(special) => (special_arguments(special) + 1, 1),
        Instruction::Send { arguments, .. } | Instruction::SuperSend { arguments, .. } => (arguments + 1, 1),
    }
}

/// Where an instruction leads.
pub fn successors(instruction: Instruction, next: usize) -> Vec<i64> {
    let next = next as i64;
    match instruction {
        Instruction::ReturnSelf | Instruction::ReturnWord(_) | Instruction::ReturnTop => vec![],
        Instruction::Jump(distance) => vec![next + distance as i64],
        Instruction::JumpOn(_, distance) => vec![next, next + distance as i64],
        _ => vec![next],
    }
}

/// Why a byte of the code cannot be decoded. What the unused ones are in Smalltalk-80 is said where they are used there.
fn undecoded(byte: u8) -> &'static str {
    match byte {
        125 => "an unused bytecode: Smalltalk-80's return from a block, and there are no blocks",
        137 => "an unused bytecode: Smalltalk-80's push of the active context, for blocks, and there are no blocks",
        126 | 127 | 138..=143 => "an unused bytecode",
        _ => "an instruction that is not whole: the code ends before its last byte",
    }
}

/// Positions where no table can exist, and why. The first is the one that counts.
pub type CodeFaults = Vec<(usize, &'static str)>;

/// The depth at each reached position. After a fault the walk goes on where the depth is known.
pub fn depth_table(around: &Surroundings, method: &Method) -> Result<Vec<Option<usize>>, CodeFaults> {
    let mut table = vec![None; method.code.len()];
    let mut faults = vec![];
    // With each position, what is wrong if it is past the end.
    let mut pending = vec![(0usize, 0usize, "a method without code")];
    while let Some((position, depth, past_end)) = pending.pop() {
        if position < table.len() && table[position].is_some() {
            if table[position] != Some(depth) {
                faults.push((position, "reached with two depths"));
            }
            continue;
        }
        let (instruction, next) = match decode(&method.code, position) {
            Some(found) => found,
            None => {
                faults.push((position, method.code.get(position).map_or(past_end, |byte| undecoded(*byte))));
                continue;
            }
        };
        table[position] = Some(depth);
        if let Err(why) = instruction_fine(around, method, instruction) {
            faults.push((position, why));
        }
        let after = match depth_after(method, instruction, depth) {
            Ok(after) => after,
            Err(why) => {
                faults.push((position, why));
                continue;
            }
        };
        for successor in successors(instruction, next) {
            if successor < 0 {
                faults.push((position, "a jump before the code"));
                continue;
            }
            let falls = successor == next as i64;
            pending.push((successor as usize, after, if falls { "code that falls off the end" } else { "a jump past the end of the code" }));
        }
    }
    if faults.is_empty() {
        Ok(table)
    } else {
        Err(faults)
    }
}

/// The depth after an instruction, if it is right at this depth.
fn depth_after(method: &Method, instruction: Instruction, depth: usize) -> Result<usize, &'static str> {
    ask(method.temporaries + depth <= method.room(), "more temporaries and operands than the frame has")?;
    let (need, left) = need_and_left(instruction);
    ask(depth >= need, "fewer operands than needed")?;
    Ok(depth - need + left)
}
