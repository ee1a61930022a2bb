//! A line for each bytecode.

use crate::both::PHASES;
use crate::names::Names;
use crate::out::Out;
use crate::sends::*;
use apart::code::*;
use apart::machine::*;
use apart::words::*;

/// Deeper frames are indented no further.
const MOST_INDENT: usize = 30;

pub struct Trace<'a> {
    out: &'a mut Out,
    names: &'a mut Names,
    /// Bytecodes since begin.
    made: u64,
    line: String,
    before: Before,
    writes: u64,
}

/// What is kept of the state before a bytecode.
#[derive(Default)]
struct Before {
    frames: usize,
    instruction: Option<Instruction>,
    asked: Option<Asked>,
    cached: bool,
    /// The same of object 6, where the send fails.
    message_cached: bool,
}

/// What a send came to.
#[derive(Clone, Copy, PartialEq)]
enum After {
    Frame,
    Answer(u16),
    Halt,
}

/// Handlers change names by the primitive at:put: and by new objects alone.
fn writes(machine: &Machine) -> u64 {
    machine.counts.answered[61] + machine.world.objects.list.len() as u64
}

/// Whether a lookup is in the cache, or else how many pairs it reads; and the dictionaries, which are the same in both cases.
fn cached_words(cached: bool, read: Option<Read>) -> String {
    match read {
        Some(Read { dictionaries, .. }) if cached => format!("in the cache, dictionaries: {dictionaries}"),
        Some(Read { pairs, dictionaries }) => format!("not in the cache, pairs read: {pairs}, dictionaries: {dictionaries}"),
        None => "not in the cache".to_string(),
    }
}

impl<'a> Trace<'a> {
    pub fn new(out: &'a mut Out, names: &'a mut Names, made: u64) -> Trace<'a> {
        Trace { out, names, made, line: String::new(), before: Before::default(), writes: 0 }
    }

    fn refresh(&mut self, machine: &Machine) {
        if self.writes != writes(machine) {
            self.writes = writes(machine);
            self.names.refresh(&machine.world.objects);
        }
    }

    fn looked_up(&self, machine: &Machine, lookup: &Lookup, after: After) -> String {
        let start = if lookup.start == NIL { "above the last class".to_string() } else { format!("from {}", self.names.name(lookup.start)) };
        let cached = cached_words(self.before.cached, lookup.read);
        let found = lookup.found.map(|found| found.method);
        let what = match found {
            Some(found) => format!("lookup {start}, {cached}, finds {}", self.names.name(found)),
            None => format!("lookup {start}, {cached}, finds nothing"),
        };
        match (&lookup.message, found) {
            (Some(message), found) => {
                let unfit = found.and_then(|found| unfit_words(self.names, machine.world.method(found), lookup.failure));
                let what = unfit.map_or(what.clone(), |unfit| format!("{what}, but {unfit}"));
                format!("{what}: {}", self.message_sent(machine, lookup, message, after))
            }
            (None, Some(found)) => self.came(machine, what, found, (lookup.receiver, &lookup.arguments), after),
            (None, None) => what,
        }
    }

    /// Object 6, sent in a failed send's stead.
    fn message_sent(&self, machine: &Machine, lookup: &Lookup, message: &MessageLookup, after: After) -> String {
        let cached = cached_words(self.before.message_cached, Some(message.read));
        let what = format!("{} in its stead, {cached}, finds", self.names.name(DOES_NOT_UNDERSTAND));
        let found = match message.found {
            Some(found) => found.method,
            None => return format!("{what} nothing"),
        };
        let what = format!("{what} {}", self.names.name(found));
        let made = pointer(machine.world.objects.list.len());
        match &message.lack {
            Some(lack) => return format!("{what}, but array and message find no room ({lack})"),
            None if !message.fits_receiver => {
                let home = machine.world.method(found).home;
                return format!("{what}, but its home, {}, is not in the receiver's class chain", self.names.name(home));
            }
            None if after == After::Halt => return what,
            None => {}
        }
        let (array, arguments) = (self.names.name(made - 2), self.names.list(&lookup.arguments));
        let elements = if arguments.is_empty() { String::new() } else { format!(" with {arguments}") };
        let what = format!("{what} with {} ({}, {array}{elements})", self.names.name(made), self.names.name(lookup.selector));
        self.came(machine, what, found, (lookup.receiver, &[made]), after)
    }

    /// The frame or answer of a method that was found.
    fn came(&self, machine: &Machine, what: String, found: u16, (receiver, arguments): (u16, &[u16]), after: After) -> String {
        let method = machine.world.method(found);
        match after {
            After::Frame => {
                let base = machine.frames.last().map_or(0, |frame| frame.base);
                format!("{what}: {}", framed(self.names, &machine.world.objects, method, base, receiver, arguments))
            }
            After::Answer(answer) => format!("{what}: {}", answered(self.names, method, answer)),
            After::Halt => what,
        }
    }

    /// What came of a bytecode that was made.
    fn outcome(&self, machine: &Machine, made: &Made) -> String {
        let top = match (made, machine.frames.last()) {
            (Made::Goes, Some(top)) => top,
            (Made::Finishes(value), _) => return format!("finished, {}", self.names.name(*value)),
            _ => return String::new(),
        };
        let answer = top.operands.last().copied();
        let answer_name = answer.map_or(String::new(), |answer| self.names.name(answer));
        let after = match answer {
            Some(answer) if machine.frames.len() == self.before.frames => After::Answer(answer),
            _ => After::Frame,
        };
        match (&self.before.asked, self.before.instruction) {
            (Some(Asked::Lookup(lookup)), _) => self.looked_up(machine, lookup, after),
            (Some(Asked::Primitive(number)), _) => format!("primitive {number} answers {answer_name}"),
            (_, Some(Instruction::Special(_))) => format!("answers {answer_name}"),
            (_, Some(Instruction::ReturnTop | Instruction::ReturnSelf | Instruction::ReturnWord(_))) => {
                format!("answers {answer_name} to {} at {}", self.names.method(top.method), top.position)
            }
            (_, Some(Instruction::JumpOn(..))) => format!("goes on at {}", top.position),
            _ => String::new(),
        }
    }
}

impl Watch for Trace<'_> {
    fn before(&mut self, machine: &Machine) {
        let frame = match machine.frames.last() {
            Some(frame) if self.out.is_open() => frame,
            _ => return,
        };
        self.refresh(machine);
        let method = machine.world.method(frame.method);
        let indent = "  ".repeat((machine.frames.len() - 1).min(MOST_INDENT));
        let (name, position) = (self.names.method(frame.method), frame.position);
        let (words, operands) = (words(self.names, method, position), self.names.list(&frame.operands));
        self.line = format!("{:>7}  {indent}{name}  {position}  {words}  [{operands}]", self.made + 1);
        let asked = asked(&machine.world, frame, machine.room);
        let (cached, message_cached) = match &asked {
            Asked::Lookup(lookup) => (machine.cached(lookup.selector, lookup.start), machine.cached(DOES_NOT_UNDERSTAND, lookup.start)),
            _ => (false, false),
        };
        let instruction = decode(&method.code, position).map(|(instruction, _)| instruction);
        self.before = Before { frames: machine.frames.len(), instruction, asked: Some(asked), cached, message_cached };
    }

    fn after(&mut self, machine: &Machine, made: &Result<Made, u16>) {
        self.made += made.is_ok() as u64;
        if !self.out.is_open() {
            return;
        }
        self.refresh(machine);
        let outcome = match (made, &self.before.asked) {
            (Ok(made), _) => self.outcome(machine, made),
            (Err(phase), Some(Asked::Lookup(lookup))) => {
                format!("{}: halts, {}", self.looked_up(machine, lookup, After::Halt), PHASES[*phase as usize])
            }
            (Err(phase), _) => format!("halts, {}", PHASES[*phase as usize]),
        };
        let line = std::mem::take(&mut self.line);
        self.out.line(&if outcome.is_empty() { line } else { format!("{line}  {outcome}") });
    }
}
