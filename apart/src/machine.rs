//! Frames and the step. The frames are structs; `stack` is their flat view, in which the words of frames that are gone stay as they were.

use crate::accesses::{Access, By, ANSWERED, PUSHED, STORED};
use crate::code::*;
use crate::counts::{Counts, SENDS, SUPER_SENDS};
use crate::messages::{facts, End};
use crate::objects::*;
use crate::primitives::*;
use crate::rules::World;
use crate::words::*;

pub const IDLE: u16 = 0;
pub const RUNNING: u16 = 1;
pub const FINISHED: u16 = 2;
pub const NOT_UNDERSTOOD: u16 = 3;
pub const NO_BOOLEAN: u16 = 4;
pub const NO_STACK_ROOM: u16 = 5;

/// No frame ends beyond.
pub const MOST_STACK: usize = 65_536;

pub struct Frame {
    pub base: usize,
    pub method: u16,
    pub receiver: u16,
    pub position: usize,
    pub temporaries: Vec<u16>,
    pub operands: Vec<u16>,
}

pub struct Machine<'a> {
    pub world: World,
    pub frames: Vec<Frame>,
    pub stack: &'a mut [u16],
    pub cache: &'a mut [u16],
    pub room: Room,
    /// Read by the lookups of sends that were made and found, a method that answers at once included; where object 6 was sent, by its lookup alone.
    pub dictionaries: u64,
    pub counts: &'a mut Counts,
}

/// What a bytecode that was made leads to.
pub enum Made {
    Goes,
    Finishes(u16),
}

/// A method that answers at once, or the frame that it needs.
pub enum Activation {
    Answer(u16),
    Frame,
}

/// Why a send fails, whose receiver does not understand it.
#[derive(Clone, Copy, Debug, PartialEq)]
pub enum Failure {
    NoMethod,
    /// The method found needs a frame, and the receiver's chain lacks its home.
    Home,
    /// The method found answers a field, and the receiver has no such.
    Field,
}

/// A send with what lies on the operands.
pub struct Sending {
    pub selector: u16,
    /// The class where lookup starts; nil above the last one.
    pub start: u16,
    pub receiver: u16,
    pub arguments: Vec<u16>,
    /// Where its frame goes on.
    next: usize,
}

/// Is told of each bytecode, before it is made and after.
pub trait Watch {
    fn before(&mut self, machine: &Machine);
    fn after(&mut self, machine: &Machine, made: &Result<Made, u16>);
}

pub struct Unwatched;

impl Watch for Unwatched {
    fn before(&mut self, _: &Machine) {}
    fn after(&mut self, _: &Machine, _: &Result<Made, u16>) {}
}

impl<W: Watch> Watch for Option<W> {
    fn before(&mut self, machine: &Machine) {
        self.iter_mut().for_each(|watch| watch.before(machine));
    }

    fn after(&mut self, machine: &Machine, made: &Result<Made, u16>) {
        self.iter_mut().for_each(|watch| watch.after(machine, made));
    }
}

impl<W: Watch> Watch for &mut W {
    fn before(&mut self, machine: &Machine) {
        (**self).before(machine);
    }

    fn after(&mut self, machine: &Machine, made: &Result<Made, u16>) {
        (**self).after(machine, made);
    }
}

impl<V: Watch, W: Watch> Watch for (V, W) {
    fn before(&mut self, machine: &Machine) {
        self.0.before(machine);
        self.1.before(machine);
    }

    fn after(&mut self, machine: &Machine, made: &Result<Made, u16>) {
        self.0.after(machine, made);
        self.1.after(machine, made);
    }
}

/// Entries of the cache, and the words of one: selector, class where lookup starts, method, dictionaries. An empty one has zeros.
pub const CACHE_ENTRIES: usize = 64;
pub const ENTRY_WORDS: usize = 4;

/// Where the cache has the entry of a selector and a class.
pub fn cache_index(selector: u16, class: u16) -> usize {
    ENTRY_WORDS * ((selector & class) as usize / 2 % CACHE_ENTRIES)
}

impl Machine<'_> {
    fn top(&mut self) -> &mut Frame {
        self.frames.last_mut().unwrap()
    }

    fn end_of(&self, frame: &Frame) -> usize {
        frame.base + 6 + self.world.method(frame.method).room()
    }

    /// The largest end of the frames that stand.
    pub fn largest_end(&self) -> usize {
        self.frames.iter().map(|frame| self.end_of(frame)).max().unwrap_or(0)
    }

    /// Where the next frame would start.
    pub fn next_base(&self) -> usize {
        self.frames.last().map_or(0, |frame| self.end_of(frame))
    }

    pub fn fits(&self, base: usize, method: u16) -> bool {
        let end = base + 6 + self.world.method(method).room();
        end <= self.stack.len() && end <= MOST_STACK
    }

    /// Writes the words of one frame, up to its depth, into the flat view.
    fn show(&mut self, index: usize) {
        let frame = &self.frames[index];
        let sender = if index == 0 { 0 } else { self.frames[index - 1].base };
        let six = [sender as u16, frame.position as u16, frame.operands.len() as u16, frame.method, 0, frame.receiver];
        let words = six.iter().chain(&frame.temporaries).chain(&frame.operands);
        for (place, word) in self.stack[frame.base..].iter_mut().zip(words) {
            *place = *word;
        }
    }

    /// One bytecode. A halt gives its phase and changes nothing.
    pub fn step(&mut self) -> Result<Made, u16> {
        let frame = self.frames.last().unwrap();
        let code = &self.world.method(frame.method).code;
        let byte = code[frame.position];
        let (instruction, next) = decode(code, frame.position).expect("a reached position");
        let before = self.frames.len();
        let made = self.execute(instruction, next)?;
        self.counts.bytecodes[byte as usize] += 1;
        if let Made::Goes = made {
            // A send writes its caller too, whose operands are fewer and whose position is past the send.
            if self.frames.len() > before {
                self.show(before - 1);
            }
            self.show(self.frames.len() - 1);
        }
        Ok(made)
    }

    fn execute(&mut self, instruction: Instruction, next: usize) -> Result<Made, u16> {
        match instruction {
            Instruction::Push(place) => {
                let word = self.read(place);
                self.push(word);
            }
            Instruction::PushSelf => {
                let receiver = self.top().receiver;
                self.push(receiver);
            }
            Instruction::PushWord(word) => self.push(word),
            Instruction::Store(place) => {
                let word = *self.top().operands.last().unwrap();
                self.write(place, word);
            }
            Instruction::PopInto(place) => {
                let word = self.pop();
                self.write(place, word);
            }
            Instruction::Pop => {
                self.pop();
            }
            Instruction::Duplicate => {
                let word = *self.top().operands.last().unwrap();
                self.push(word);
            }
            Instruction::ReturnSelf => {
                let receiver = self.top().receiver;
                return Ok(self.give_back(receiver));
            }
            Instruction::ReturnWord(word) => return Ok(self.give_back(word)),
            Instruction::ReturnTop => {
                let word = self.pop();
                return Ok(self.give_back(word));
            }
            Instruction::Jump(distance) => {
                self.top().position = (next as i64 + distance as i64) as usize;
                return Ok(Made::Goes);
            }
            Instruction::JumpOn(truth, distance) => return self.jump_on(truth, distance, next),
            Instruction::Special(special) => return self.special(special, next),
            Instruction::Send { arguments, literal } => {
                let selector = self.literal(literal);
                let class = self.world.objects.class_of(self.receiver_below(arguments));
                return self.send(selector, class, arguments, next);
            }
            Instruction::SuperSend { arguments, literal } => {
                let selector = self.literal(literal);
                let method = self.top().method;
                let home = self.world.method(method).home;
                let above = self.world.objects.class(home).unwrap().superclass;
                self.count_far(home, self.world.objects.lookup(above, selector), SUPER_SENDS);
                return self.send(selector, above, arguments, next);
            }
        }
        self.top().position = next;
        Ok(Made::Goes)
    }

    fn push(&mut self, word: u16) {
        self.top().operands.push(word);
    }

    fn pop(&mut self) -> u16 {
        self.top().operands.pop().expect("an operand")
    }

    fn literal(&mut self, index: usize) -> u16 {
        let method = self.top().method;
        self.world.method(method).literals[index]
    }

    /// The receiver of a send lies below its arguments.
    fn receiver_below(&self, arguments: usize) -> u16 {
        let operands = &self.frames.last().unwrap().operands;
        operands[operands.len() - 1 - arguments]
    }

    fn read(&mut self, place: Place) -> u16 {
        match place {
            Place::Field(index) => {
                let receiver = self.top().receiver;
                self.counts.field(receiver, PUSHED);
                self.world.objects.get(receiver).unwrap().body[index]
            }
            Place::Temporary(index) => self.top().temporaries[index],
            Place::Literal(index) => self.literal(index),
            Place::Variable(index) => {
                let variable = self.literal(index);
                self.world.objects.get(variable).unwrap().body[1]
            }
        }
    }

    fn write(&mut self, place: Place, word: u16) {
        match place {
            Place::Field(index) => {
                let receiver = self.top().receiver;
                self.counts.field(receiver, STORED);
                self.world.objects.get_mut(receiver).unwrap().body[index] = word;
            }
            Place::Temporary(index) => self.top().temporaries[index] = word,
            Place::Literal(_) => unreachable!("no table has a store to a literal"),
            Place::Variable(index) => {
                let variable = self.literal(index);
                self.world.objects.get_mut(variable).unwrap().body[1] = word;
            }
        }
    }

    fn give_back(&mut self, word: u16) -> Made {
        self.frames.pop();
        if self.frames.is_empty() {
            return Made::Finishes(word);
        }
        self.push(word);
        Made::Goes
    }

    fn jump_on(&mut self, truth: u16, distance: i32, next: usize) -> Result<Made, u16> {
        let word = *self.top().operands.last().unwrap();
        if word != TRUE && word != FALSE {
            return Err(NO_BOOLEAN);
        }
        self.pop();
        self.top().position = if word == truth { next + distance as usize } else { next };
        Ok(Made::Goes)
    }

    fn special(&mut self, special: usize, next: usize) -> Result<Made, u16> {
        let arguments = special_arguments(special);
        let receiver = self.receiver_below(arguments);
        if special == CLASS_OF {
            let class = self.world.objects.class_of(receiver);
            return self.answer(arguments, class, next);
        }
        let argument = *self.top().operands.last().unwrap();
        if special == IDENTITY {
            return self.answer(arguments, boolean(receiver == argument), next);
        }
        let number = special_primitive(special);
        if number != 0 {
            let answer = arithmetic(number, receiver, argument);
            self.counts.event(if answer.is_some() { "special arithmetic answered" } else { "special arithmetic sent" });
            if let Some(word) = answer {
                return self.answer(arguments, word, next);
            }
        }
        let selector = self.world.objects.get(SPECIALS).unwrap().body[special];
        self.send(selector, self.world.objects.class_of(receiver), arguments, next)
    }

    /// Takes receiver and arguments away and puts an answer in their stead.
    fn answer(&mut self, arguments: usize, word: u16, next: usize) -> Result<Made, u16> {
        self.take(arguments, next);
        self.push(word);
        Ok(Made::Goes)
    }

    /// Takes receiver and arguments away; gives the arguments.
    fn take(&mut self, arguments: usize, next: usize) -> Vec<u16> {
        let frame = self.top();
        let taken = frame.operands.split_off(frame.operands.len() - arguments);
        frame.operands.pop();
        frame.position = next;
        taken
    }

    fn send(&mut self, selector: u16, start: u16, arguments: usize, next: usize) -> Result<Made, u16> {
        let found = self.world.objects.lookup(start, selector);
        self.count_far(start, found, SENDS);
        let receiver = self.receiver_below(arguments);
        let operands = &self.frames.last().unwrap().operands;
        let sending = Sending { selector, start, receiver, arguments: operands[operands.len() - arguments..].to_vec(), next };
        let failure = match found {
            Some(found) => match self.activate(found.method, receiver, &sending.arguments) {
                Ok(activation) => return self.activated(&sending, selector, found, activation, sending.arguments.clone()),
                Err(failure) => failure,
            },
            None => Failure::NoMethod,
        };
        self.not_understood(&sending, failure)
    }

    /// What comes of a method that the lookup of a selector found, with these arguments, which need not be those on the operands.
    fn activated(&mut self, sending: &Sending, selector: u16, found: Found, activation: Activation, arguments: Vec<u16>) -> Result<Made, u16> {
        let (base, answers) = (self.next_base(), matches!(activation, Activation::Answer(_)));
        if !answers && !self.fits(base, found.method) {
            return Err(NO_STACK_ROOM);
        }
        self.count_climb(sending, selector, found, answers);
        self.dictionaries += found.dictionaries as u64;
        self.fill(selector, sending.start, found);
        match activation {
            Activation::Answer(word) => self.answer(sending.arguments.len(), word, sending.next),
            Activation::Frame => {
                self.take(sending.arguments.len(), sending.next);
                self.enter(base, found.method, sending.receiver, arguments);
                Ok(Made::Goes)
            }
        }
    }

    /// A send that failed: in the editions that have it, object 6 is sent with a message in its stead. Where that halts, nothing is made.
    fn not_understood(&mut self, sending: &Sending, failure: Failure) -> Result<Made, u16> {
        let found = self.world.objects.lookup(sending.start, DOES_NOT_UNDERSTAND);
        let facts = facts(self, sending, failure, found);
        let before = self.world.objects.list.len();
        let (end, made) = self.send_message(sending, found);
        match made {
            Ok(_) => self.counts.message = Some(pointer(before + 2)),
            Err(_) => self.world.objects.list.truncate(before),
        }
        self.counts.failed_send(&facts, end);
        made
    }

    /// Makes the objects and sends them under object 6, whose lookup found this.
    fn send_message(&mut self, sending: &Sending, found: Option<Found>) -> (End, Result<Made, u16>) {
        if self.world.edition < WITH_MESSAGES {
            return (End::EarlierEdition, Err(NOT_UNDERSTOOD));
        }
        let found = match found {
            Some(found) => found,
            None => return (End::NotFound, Err(NOT_UNDERSTOOD)),
        };
        let message = match message(&mut self.world.objects, self.room, sending.selector, &sending.arguments) {
            Some(message) => message,
            None => return (End::NoRoom, Err(NOT_UNDERSTOOD)),
        };
        let activation = match self.activate(found.method, sending.receiver, &[message]) {
            Ok(activation) => activation,
            Err(_) => return (End::Home, Err(NOT_UNDERSTOOD)),
        };
        let answers = matches!(activation, Activation::Answer(_));
        let made = self.activated(sending, DOES_NOT_UNDERSTAND, found, activation, vec![message]);
        let end = match made {
            Ok(_) if answers => End::Answer,
            Ok(_) => End::Frame,
            Err(_) => End::NoStackRoom,
        };
        (end, made)
    }

    /// Counts a lookup along a chain of as many classes as there can be, up to the last one.
    fn count_far(&mut self, class: u16, found: Option<Found>, [finds, nothing]: [&'static str; 2]) {
        let last = self.world.objects.chain(class).nth(MOST_CHAIN - 1);
        match found.map(|found| self.world.method(found.method).home) {
            Some(home) if last == Some(home) => self.counts.event(finds),
            None if last.is_some() => self.counts.event(nothing),
            _ => {}
        }
    }

    /// Flags 5 and 6 and primitives answer; a frame asks that the home is in the receiver's chain.
    pub fn activate(&mut self, method: u16, receiver: u16, arguments: &[u16]) -> Result<Activation, Failure> {
        let Method { flag, temporaries, primitive: number, home, .. } = *self.world.method(method);
        if flag == 5 {
            self.counts.event("answered by flag 5");
            return Ok(Activation::Answer(receiver));
        }
        if flag == 6 {
            return self.field_answer(receiver, temporaries);
        }
        if flag == 7 {
            self.count_access(number, home, receiver, arguments);
            let answer = primitive(&mut self.world.objects, self.room, number, receiver, arguments);
            self.counts.primitive(number, answer.is_some());
            if let Some(word) = answer {
                return Ok(Activation::Answer(word));
            }
        }
        if !self.world.objects.in_chain(receiver, home) {
            return Err(Failure::Home);
        }
        Ok(Activation::Frame)
    }

    /// Counts a call of at:, at:put: or size with as many arguments as it takes.
    fn count_access(&mut self, number: u16, home: u16, receiver: u16, arguments: &[u16]) {
        if !(60..=62).contains(&number) || arguments.len() != [1, 2, 0][number as usize - 60] {
            return;
        }
        // A send has not moved its frame's position yet.
        let sent = self.frames.last().and_then(|frame| decode(&self.world.method(frame.method).code, frame.position));
        let by = match sent {
            None => By::Begin,
            Some((Instruction::Special(_), _)) => By::Special,
            Some((Instruction::SuperSend { .. }, _)) => By::Super,
            _ => By::Send,
        };
        self.counts.access(&self.world.objects, &Access { number, by, home, receiver, arguments });
    }

    fn field_answer(&mut self, receiver: u16, field: usize) -> Result<Activation, Failure> {
        let object = self.world.objects.get(receiver).filter(|object| object.kind == FIELDS);
        match object.and_then(|object| object.body.get(field)) {
            Some(word) => {
                self.counts.event("answered by flag 6");
                self.counts.field(receiver, ANSWERED);
                Ok(Activation::Answer(*word))
            }
            None => Err(Failure::Field),
        }
    }

    /// Whether the cache has a lookup.
    pub fn cached(&self, selector: u16, class: u16) -> bool {
        let at = cache_index(selector, class);
        self.cache[at] == selector && self.cache[at + 1] == class
    }

    /// The entry of a lookup that found. Where it hits, the words are the same.
    fn fill(&mut self, selector: u16, class: u16, found: Found) {
        self.counts.event(if self.cached(selector, class) { "cache hit" } else { "cache filled" });
        let at = cache_index(selector, class);
        self.cache[at..at + ENTRY_WORDS].copy_from_slice(&[selector, class, found.method, found.dictionaries as u16]);
    }

    /// A new frame on top.
    pub fn enter(&mut self, base: usize, method: u16, receiver: u16, arguments: Vec<u16>) {
        let mut temporaries = arguments;
        temporaries.resize(self.world.method(method).temporaries, NIL);
        self.frames.push(Frame { base, method, receiver, position: 0, temporaries, operands: vec![] });
        self.show(self.frames.len() - 1);
    }
}
