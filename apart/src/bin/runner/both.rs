//! The calls, each on both machines, and a line for each.

use crate::climbs::Climbs;
use crate::halts::*;
use crate::names::Names;
use crate::options::{Message, Options};
use crate::out::Out;
use crate::sends::*;
use crate::sides::*;
use crate::trace::Trace;
use apart::calls::{self, CACHE_WORDS, EDITION, PHASE, VALUE};
use apart::counts::Counts;
use apart::machine::*;
use apart::objects::Objects;
use apart::refusal::Refusal;
use apart::rules::World;

pub const PHASES: [&str; 6] = ["idle", "running", "finished", "not understood", "no boolean", "no stack room"];

const REFUSALS: [&str; 15] = [
    "",
    "the length is not the one that the header tells",
    "a wrong header",
    "a buffer is too short",
    "a wrong layout",
    "an invalid word",
    "a wrong class, dictionary or object",
    "a wrong method",
    "a receiver or argument is an invalid word, or the selector is no object of bytes",
    "no method is found",
    "another number of arguments",
    "the state is not right",
    "not in this phase",
    "no room for the first frame",
    "a chain of more than 24 classes",
];

/// Bytes of the largest image.
const MOST_BYTES: usize = 64_386;
const FRAMES: usize = 20;

pub enum End {
    /// The two machines differ.
    Differs,
    /// The arguments are wrong, or a file cannot be written.
    Wrong(String),
}

/// The two machines, and what was said of them.
pub struct Both<'a> {
    options: &'a Options,
    out: &'a mut Out,
    plain: Buffers,
    proved: Buffers,
    counts: Counts,
    climbs: Climbs,
    names: Names,
    refused: bool,
    halted: bool,
}

/// What is begun: receiver, selector, arguments.
struct Begun(u16, u16, Vec<u16>);

impl<'a> Both<'a> {
    pub fn new(options: &'a Options, out: &'a mut Out) -> Both<'a> {
        let [contents, bodies, stack] = options.lengths;
        let lengths = [contents, bodies, stack, CACHE_WORDS];
        let buffers = Buffers { words: lengths.map(|length| vec![0; length + GUARD]), lengths, registers: [0; 8] };
        let names = Names::new(0, &Objects::default(), "");
        Both {
            options,
            out,
            plain: buffers.clone(),
            proved: buffers,
            counts: Counts::default(),
            climbs: Climbs::default(),
            names,
            refused: false,
            halted: false,
        }
    }

    /// Everything that the options ask for; the status.
    pub fn all(&mut self, image: Vec<u8>, names: &str) -> Result<i32, End> {
        if !self.load(image, names)? {
            return Ok(1);
        }
        let messages: Vec<Begun> = self.options.messages.iter().map(|message| self.begun(message)).collect::<Result<_, _>>()?;
        let shown: Vec<u16> = self.options.show.iter().map(|text| self.names.value(text).map_err(End::Wrong)).collect::<Result<_, _>>()?;
        for message in messages {
            self.handler(message)?;
        }
        if let Some(most) = self.options.climbs {
            self.out.text(&self.climbs.shown(&self.names, most));
        }
        for (word, text) in shown.iter().zip(&self.options.show) {
            let is_object = word % 2 == 0 && *word != 0;
            let what = if is_object { self.names.image.shown(*word as usize / 2) } else { self.names.name(*word) };
            self.out.line(&format!("show {text}: {what}"));
        }
        self.save()?;
        Ok(if self.refused {
            1
        } else if self.halted {
            4
        } else {
            0
        })
    }

    fn begun(&self, message: &Message) -> Result<Begun, End> {
        let values = |texts: &[String]| texts.iter().map(|text| self.names.value(text)).collect::<Result<Vec<u16>, String>>();
        let registers = &self.proved.registers;
        let begun = match message {
            Message::Start(arguments) => values(arguments).map(|arguments| Begun(registers[2], registers[3], arguments)),
            Message::Send { receiver, selector, arguments } => self.names.value(receiver).and_then(|receiver| {
                let selector = self.names.selector(selector)?;
                Ok(Begun(receiver, selector, values(arguments)?))
            }),
        };
        begun.map_err(End::Wrong)
    }

    /// A call on both machines. The line has what the library gave. A run has the number of bytecodes that were made before it.
    fn call(&mut self, call: &Call, made: u64, line: impl FnOnce(&Both, &Outcome, Option<Refusal>) -> String) -> Result<Outcome, End> {
        let proved = library(call, &mut self.proved);
        let trace = if self.options.trace { Some(Trace::new(self.out, &mut self.names, made)) } else { None };
        let climbs = if self.options.climbs.is_some() { Some(&mut self.climbs) } else { None };
        let plain = plain_watched(call, &mut self.plain, &mut self.counts, &mut (trace, climbs));
        if let Ok((world, _)) = self.opened() {
            self.names.refresh(&world.objects);
        }
        let line = line(self, &proved, plain.refusal);
        self.out.line(&line);
        self.refused |= proved.number != 0;
        if let Some(what) = difference(&plain, &proved, &self.plain, &self.proved) {
            self.out.line(&format!("THE TWO MACHINES DIFFER: {what}"));
            return Err(End::Differs);
        }
        Ok(proved)
    }

    /// The state of the plain machine, taken apart.
    fn opened(&mut self) -> Result<(World, Vec<Frame>), Refusal> {
        calls::opened(&self.plain.lent())
    }

    fn phase(&self) -> u16 {
        self.proved.registers[PHASE]
    }

    /// Phase, and the value in phase finished.
    fn phase_words(&self, between: &str) -> String {
        let name = PHASES.get(self.phase() as usize).copied().unwrap_or("no phase");
        let value = self.proved.registers[VALUE];
        let shown = if self.phase() == FINISHED { format!(", value {} (word {value})", self.names.name(value)) } else { String::new() };
        format!("{name}{between}{shown}")
    }

    fn load(&mut self, image: Vec<u8>, names: &str) -> Result<bool, End> {
        let loaded = self.call(&Call::Load(image), 0, |both, outcome, refusal| match outcome.number {
            0 => {
                let registers = &both.proved.registers;
                format!("load: edition {}, objects {}, body words {}", registers[EDITION], registers[0], registers[1])
            }
            number => format!("load: {}", refused(number, refusal)),
        })?;
        if let Ok((world, _)) = self.opened() {
            self.names = Names::new(world.edition, &world.objects, names);
        }
        Ok(loaded.number == 0)
    }

    /// One message from begin to its last run.
    fn handler(&mut self, begun: Begun) -> Result<(), End> {
        if self.phase() == RUNNING {
            self.call(&Call::Drop, 0, |both, _, _| format!("drop: {}, the handler was not done", both.phase_words("")))?;
        }
        // A refused begin leaves the frames of a handler that halted before.
        if !self.begin(begun)? {
            return Ok(());
        }
        let (mut runs, mut made, mut reach, mut dictionaries) = (0, 0, 0, 0);
        for _ in 0..self.options.runs {
            if self.phase() != RUNNING {
                break;
            }
            let ran = self.call(&Call::Run(self.options.grant), made, |both, outcome, refusal| {
                let between = format!(", count {}, reach {}, dictionaries {}", outcome.count, outcome.reach, outcome.dictionaries);
                let what = if outcome.number == 0 { both.phase_words(&between) } else { refused(outcome.number, refusal) };
                format!("run {}: {what}", both.options.grant)
            })?;
            if ran.number != 0 {
                break;
            }
            runs += 1;
            made += ran.count as u64;
            reach = reach.max(ran.reach);
            dictionaries += ran.dictionaries;
        }
        if runs > 1 {
            self.out.line(&format!("all {runs} runs: count {made}, reach {reach}, dictionaries {dictionaries}"));
        }
        let halted = self.phase() > FINISHED;
        if halted || self.phase() == RUNNING && self.options.frames.is_some() {
            self.show_frames();
        }
        self.halted |= halted;
        Ok(())
    }

    /// Whether it was not refused.
    fn begin(&mut self, Begun(receiver, selector, arguments): Begun) -> Result<bool, End> {
        let opened = self.opened().ok();
        let call = Call::Begin { receiver, selector, arguments: arguments.clone() };
        let began = self.call(&call, 0, |both, outcome, refusal| {
            let with = if arguments.is_empty() { String::new() } else { format!(" with {}", both.names.list(&arguments)) };
            let sent = format!("begin: {} is sent {}{with}", both.names.name(receiver), both.names.name(selector));
            let what = match (outcome.number, &opened) {
                (0, _) => both.phase_words(""),
                (number @ (9 | 10 | 13), Some((world, _))) => both.begin_refused(number, world, receiver, selector, arguments.len()),
                (number, _) => refused(number, refusal),
            };
            format!("{sent}: {what}")
        })?;
        let found = opened.as_ref().and_then(|(world, _)| Some((world, world.objects.lookup(world.objects.class_of(receiver), selector)?.method)));
        if let (true, 0, Some((world, found))) = (self.options.trace, began.number, found) {
            let (class, method) = (world.objects.class_of(receiver), world.method(found));
            let (start, pairs) = (self.names.name(class), world.objects.pairs_read(class, selector));
            let came = if self.phase() == FINISHED {
                answered(&self.names, method, self.proved.registers[VALUE])
            } else {
                framed(&self.names, &world.objects, method, 0, receiver, &arguments)
            };
            self.out.line(&format!("         lookup from {start}, pairs read: {pairs}, finds {}: {came}", self.names.name(found)));
        }
        Ok(began.number == 0)
    }

    fn begin_refused(&self, number: u32, world: &World, receiver: u16, selector: u16, count: usize) -> String {
        let class = world.objects.class_of(receiver);
        let found = world.objects.lookup(class, selector).map(|found| found.method);
        let why = match (number, found) {
            (9, None) => format!("no method under {} from {} upwards", self.names.name(selector), self.names.name(class)),
            (10, Some(found)) => format!("{} takes {} arguments, not {count}", self.names.name(found), world.method(found).arguments),
            (13, Some(found)) => {
                format!("the first frame needs {} words, and the stack has {}", 6 + world.method(found).room(), self.options.lengths[2])
            }
            _ => REFUSALS[number as usize].to_string(),
        };
        format!("refused {number}, {why}")
    }

    fn show_frames(&mut self) {
        let (phase, lengths, most) = (self.phase(), self.options.lengths, self.options.frames.unwrap_or(FRAMES));
        if let Ok((world, frames)) = self.opened() {
            if phase != RUNNING {
                let name = PHASES.get(phase as usize).copied().unwrap_or("no phase");
                self.out.text(&format!("halted: {name}\n{}", cause(&self.names, &world, &frames, phase, lengths)));
            }
            self.out.text(&format!("frames, the top first:\n{}", frames_shown(&self.names, &world, &frames, most)));
        }
    }

    fn save(&mut self) -> Result<(), End> {
        let file = match &self.options.save {
            Some(file) => file,
            None => return Ok(()),
        };
        let name = file.to_string_lossy();
        let saved = self.call(&Call::Save(MOST_BYTES), 0, |_, outcome, refusal| match outcome.number {
            0 => format!("save: {} bytes in {name}", outcome.length),
            number => format!("save: {}", refused(number, refusal)),
        })?;
        if saved.number == 0 {
            let bytes = saved.output.get(..saved.length as usize).unwrap_or(&[]);
            std::fs::write(file, bytes).map_err(|error| End::Wrong(format!("{name}: {error}")))?;
        }
        Ok(())
    }
}

/// A refusal by its number, and where the plain machine found the reason.
fn refused(number: u32, refusal: Option<Refusal>) -> String {
    let words = REFUSALS.get(number as usize).copied().unwrap_or("no such number");
    let place = refusal.map_or(String::new(), |refusal| format!("; {}: {}", refusal.place, refusal.why));
    format!("refused {number}, {words}{place}")
}
