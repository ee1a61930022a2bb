//! The calls, on lent buffers.

use crate::counts::Counts;
use crate::machine::*;
use crate::objects::*;
use crate::primitives::Room;
use crate::refusal::Place::*;
use crate::refusal::*;
use crate::rules::*;

/// N, B, start receiver, start selector, phase, top, value, edition.
pub type Registers = [u16; 8];
pub const PHASE: usize = 4;
pub const TOP: usize = 5;
pub const VALUE: usize = 6;
pub const EDITION: usize = 7;

pub const CACHE_WORDS: usize = CACHE_ENTRIES * ENTRY_WORDS;

// What can be wrong with an entry: the lookup, the number alone, and a number where the rest is empty.
pub const OTHER_LOOKUP: &str = "neither empty nor what lookup finds";
pub const OTHER_NUMBER: &str = "another number of dictionaries than lookup reads";
pub const NUMBER_ALONE: &str = "a number of dictionaries in an entry that is empty otherwise";

/// The whole state as it is lent.
pub struct Lent<'a> {
    pub contents: &'a mut [u16],
    pub bodies: &'a mut [u16],
    pub stack: &'a mut [u16],
    pub cache: &'a mut [u16],
    pub registers: &'a mut Registers,
}

/// What run gives beside the registers.
pub struct Ran {
    pub count: u32,
    /// The largest end of the frames that stood when it started and after each bytecode made, at most 65,536.
    pub reach: u32,
    /// Summed over the sends made that found by lookup.
    pub dictionaries: u64,
}

pub fn load(image: &[u8], lent: &mut Lent) -> Result<(), Refusal> {
    // A refused load gives registers all zero.
    *lent.registers = [0; 8];
    let header = header(image)?;
    ranges(header.edition, header.n, header.b)?;
    room(lent, header.n, header.b)?;
    let words: Vec<u16> = image[10..].chunks(2).map(|pair| u16::from_be_bytes([pair[0], pair[1]])).collect();
    let (contents, bodies) = words.split_at(4 * header.n);
    let judged = judge(header.edition, contents, bodies).and_then(|world| start_words(&world.objects, header.receiver, header.selector));
    if let Err(faults) = judged {
        lent.contents[..contents.len()].fill(0);
        lent.bodies[..bodies.len()].fill(0);
        return Err(faults.into());
    }
    lent.contents[..contents.len()].copy_from_slice(contents);
    lent.bodies[..bodies.len()].copy_from_slice(bodies);
    lent.cache.fill(0);
    *lent.registers = [header.n as u16, header.b as u16, header.receiver, header.selector, IDLE, 0, 0, header.edition];
    Ok(())
}

/// Rule 3.
fn room(lent: &Lent, n: usize, b: usize) -> Result<(), Refusal> {
    if lent.contents.len() < 4 * n {
        return refuse(3, Buffer("contents"), "too short");
    }
    if lent.bodies.len() < b {
        return refuse(3, Buffer("bodies"), "too short");
    }
    if lent.cache.len() != CACHE_WORDS {
        return refuse(3, Buffer("cache"), "not 256 words");
    }
    Ok(())
}

fn state_room(lent: &Lent) -> Result<(), Refusal> {
    room(lent, lent.registers[0] as usize, lent.registers[1] as usize)
}

/// Whatever is wrong with a state is 11; the place stays.
fn state_right(lent: &Lent) -> Result<(World, Vec<Frame>), Refusal> {
    judge_state(lent).map_err(|refusal| Refusal { number: 11, ..refusal })
}

fn judge_state(lent: &Lent) -> Result<(World, Vec<Frame>), Refusal> {
    let [n, b, receiver, selector, ..] = *lent.registers;
    let (n, b) = (n as usize, b as usize);
    let edition = lent.registers[EDITION];
    ranges(edition, n, b)?;
    let world = judge(edition, &lent.contents[..4 * n], &lent.bodies[..b])?;
    start_words(&world.objects, receiver, selector)?;
    cache_right(&world.objects, lent.cache)?;
    registers_right(&world.objects, lent.registers)?;
    let frames = match lent.registers[PHASE] {
        IDLE | FINISHED => vec![],
        _ => frames(&world, lent)?,
    };
    Ok((world, frames))
}

fn cache_right(objects: &Objects, cache: &[u16]) -> Result<(), Refusal> {
    for (index, entry) in cache.chunks(ENTRY_WORDS).enumerate() {
        let (selector, class, method, dictionaries) = (entry[0], entry[1], entry[2], entry[3]);
        if entry[..3] == [0, 0, 0] {
            if dictionaries != 0 {
                return refuse(11, Cache(index), NUMBER_ALONE);
            }
            continue;
        }
        let sought = objects.has_kind(selector, BYTES) && objects.has_kind(class, CLASS);
        match objects.lookup(class, selector).filter(|found| sought && found.method == method) {
            Some(found) if found.dictionaries == dictionaries as usize => {}
            Some(_) => return refuse(11, Cache(index), OTHER_NUMBER),
            None => return refuse(11, Cache(index), OTHER_LOOKUP),
        }
    }
    Ok(())
}

fn registers_right(objects: &Objects, registers: &Registers) -> Result<(), Refusal> {
    let (phase, top, value) = (registers[PHASE], registers[TOP], registers[VALUE]);
    if phase > NO_STACK_ROOM {
        return refuse(11, Register(PHASE), "a phase above 5");
    }
    let value_right = if phase == FINISHED { objects.valid(value) } else { value == 0 };
    if !value_right {
        return refuse(11, Register(VALUE), "a value that this phase cannot have");
    }
    if (phase == IDLE || phase == FINISHED) && top != 0 {
        return refuse(11, Register(TOP), "a top frame in phase 0 or 2");
    }
    Ok(())
}

/// The frames of a state, bottom first.
fn frames(world: &World, lent: &Lent) -> Result<Vec<Frame>, Refusal> {
    let mut frames: Vec<Frame> = vec![];
    let mut base = lent.registers[TOP] as usize;
    loop {
        let (frame, end, sender) = frame(world, lent.stack, base, frames.is_empty())?;
        if let Some(above) = frames.last() {
            if end != above.base {
                return refuse(11, FrameWord(base, 0), "the next frame does not start where this one ends");
            }
        }
        frames.push(frame);
        if base == 0 {
            if sender != 0 {
                return refuse(11, FrameWord(0, 0), "the bottom frame has a sender");
            }
            frames.reverse();
            return Ok(frames);
        }
        if sender >= base {
            return refuse(11, FrameWord(base, 0), "a sender that is not below");
        }
        base = sender;
    }
}

/// One frame, its end and its sender.
fn frame(world: &World, stack: &[u16], base: usize, is_top: bool) -> Result<(Frame, usize, usize), Refusal> {
    let at = |word: usize| stack.get(base + word).copied();
    let receiver = match at(5) {
        Some(receiver) => receiver,
        None => return refuse(11, FrameWord(base, 5), "outside the stack"),
    };
    let (sender, position, depth, method_word) = (stack[base] as usize, stack[base + 1] as usize, stack[base + 2] as usize, stack[base + 3]);
    if !world.objects.has_kind(method_word, METHOD) {
        return refuse(11, FrameWord(base, 3), "no method");
    }
    let method = world.method(method_word);
    let end = base + 6 + method.room();
    if end > stack.len() || end > MOST_STACK {
        return refuse(11, FrameWord(base, 3), "a frame that does not fit");
    }
    if stack[base + 4] != 0 {
        return refuse(11, FrameWord(base, 4), "not zero");
    }
    if !world.objects.valid(receiver) || !world.objects.in_chain(receiver, method.home) {
        return refuse(11, FrameWord(base, 5), "the method's home is not in the receiver's chain");
    }
    let reached = method.table.as_ref().and_then(|table| table.get(position).copied().flatten());
    let table_depth = match reached {
        Some(table_depth) => table_depth,
        None => return refuse(11, FrameWord(base, 1), "a position that is not reached"),
    };
    let expected = if is_top { depth } else { depth + 1 };
    if expected != table_depth {
        return refuse(11, FrameWord(base, 2), "another depth than the table's");
    }
    let temporaries = base + 6..base + 6 + method.temporaries;
    let operands = temporaries.end..temporaries.end + depth;
    if let Some(word) = (temporaries.start..operands.end).find(|index| !world.objects.valid(stack[*index])) {
        return refuse(11, FrameWord(base, word - base), "an invalid word");
    }
    let frame = Frame { base, method: method_word, receiver, position, temporaries: stack[temporaries].to_vec(), operands: stack[operands].to_vec() };
    Ok((frame, end, sender))
}

/// The objects and frames of a state that keeps the rules.
pub fn opened(lent: &Lent) -> Result<(World, Vec<Frame>), Refusal> {
    state_room(lent)?;
    state_right(lent)
}

pub fn check(lent: &Lent) -> Result<(), Refusal> {
    opened(lent)?;
    Ok(())
}

pub fn drop(lent: &mut Lent) -> Result<(), Refusal> {
    check(lent)?;
    lent.registers[PHASE..EDITION].copy_from_slice(&[IDLE, 0, 0]);
    Ok(())
}

pub fn forget(lent: &mut Lent) -> Result<(), Refusal> {
    check(lent)?;
    lent.cache.fill(0);
    Ok(())
}

/// Writes an image at the output's front and gives its length.
pub fn save(lent: &Lent, output: &mut [u8]) -> Result<u32, Refusal> {
    state_room(lent)?;
    let (n, b) = (lent.registers[0] as usize, lent.registers[1] as usize);
    let length = 10 + 8 * n + 2 * b;
    if output.len() < length {
        return refuse(3, Buffer("output"), "too short");
    }
    state_right(lent)?;
    let header = [lent.registers[EDITION], lent.registers[0], lent.registers[1], lent.registers[2], lent.registers[3]];
    let words = header.iter().chain(&lent.contents[..4 * n]).chain(&lent.bodies[..b]);
    for (pair, word) in output.chunks_mut(2).zip(words) {
        pair.copy_from_slice(&word.to_be_bytes());
    }
    Ok(length as u32)
}

/// What a machine leaves in the lent words, its stack and cache aside.
fn settle(world: &World, contents: &mut [u16], bodies: &mut [u16], registers: &mut Registers, last: [u16; 3]) {
    world.objects.flat(contents, bodies);
    registers[0] = world.objects.list.len() as u16;
    registers[1] = world.objects.body_total() as u16;
    registers[PHASE..EDITION].copy_from_slice(&last);
}

pub fn begin(lent: &mut Lent, receiver: u16, selector: u16, arguments: &[u16], counts: &mut Counts) -> Result<(), Refusal> {
    state_room(lent)?;
    let (world, _) = state_right(lent)?;
    if lent.registers[PHASE] == RUNNING {
        return refuse(12, Register(PHASE), "a handler is running");
    }
    let objects = &world.objects;
    if !objects.valid(receiver) || arguments.iter().any(|word| !objects.valid(*word)) || !objects.has_kind(selector, BYTES) {
        return refuse(8, Message, "an invalid word, or a selector that is no byte object");
    }
    let method = match objects.lookup(objects.class_of(receiver), selector) {
        Some(found) => found.method,
        None => return refuse(9, Message, "no method"),
    };
    if world.method(method).arguments != arguments.len() {
        return refuse(10, Message, "another count of arguments");
    }
    let room = Room { contents: lent.contents.len(), bodies: lent.bodies.len() };
    let mut machine = Machine { world, frames: vec![], stack: lent.stack, cache: lent.cache, room, dictionaries: 0, counts };
    let last = match machine.activate(method, receiver, arguments) {
        Ok(Activation::Answer(word)) => [FINISHED, 0, word],
        Ok(Activation::Frame) if !machine.fits(0, method) => return refuse(13, Buffer("stack"), "the first frame does not fit"),
        Ok(Activation::Frame) => {
            machine.enter(0, method, receiver, arguments.to_vec());
            [RUNNING, 0, 0]
        }
        Err(_) => unreachable!("a lookup from the receiver's class finds what the receiver can run"),
    };
    settle(&machine.world, lent.contents, lent.bodies, lent.registers, last);
    Ok(())
}

pub fn run(lent: &mut Lent, n: u32, counts: &mut Counts) -> Result<Ran, Refusal> {
    run_watched(lent, n, counts, &mut Unwatched)
}

pub fn run_watched<W: Watch>(lent: &mut Lent, n: u32, counts: &mut Counts, watch: &mut W) -> Result<Ran, Refusal> {
    state_room(lent)?;
    let (world, frames) = state_right(lent)?;
    if lent.registers[PHASE] != RUNNING {
        return refuse(12, Register(PHASE), "no handler is running");
    }
    let room = Room { contents: lent.contents.len(), bodies: lent.bodies.len() };
    let mut machine = Machine { world, frames, stack: lent.stack, cache: lent.cache, room, dictionaries: 0, counts };
    let (ran, last) = steps(&mut machine, n, watch);
    settle(&machine.world, lent.contents, lent.bodies, lent.registers, last);
    Ok(ran)
}

/// At most so many steps; what run gives, and the phase, top and value that it leaves.
pub fn steps<W: Watch>(machine: &mut Machine, n: u32, watch: &mut W) -> (Ran, [u16; 3]) {
    let (first, before) = (machine.largest_end(), machine.counts.climbs.made);
    let mut reach = first;
    let mut count = 0;
    let mut end = (RUNNING, 0);
    while count < n && end.0 == RUNNING {
        watch.before(machine);
        let made = machine.step();
        watch.after(machine, &made);
        match made {
            Ok(Made::Goes) => count += 1,
            Ok(Made::Finishes(value)) => {
                count += 1;
                end = (FINISHED, value);
            }
            Err(phase) => end = (phase, 0),
        }
        // A halt has left the frames as they were.
        reach = reach.max(machine.largest_end());
    }
    let (last, dictionaries) = (machine.largest_end(), machine.dictionaries);
    machine.counts.reach(n, end.0, [first, reach, last]);
    let lookups = machine.counts.climbs.made - before;
    machine.counts.sum(end.0, count, lookups, dictionaries);
    let top = machine.frames.last().map_or(0, |frame| frame.base) as u16;
    (Ran { count, reach: reach as u32, dictionaries }, [end.0, top, end.1])
}
