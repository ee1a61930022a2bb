//! One call, made on the plain machine and on the proved library.

use apart::calls::{self, Lent, Ran, Registers, PHASE, VALUE};
use apart::counts::Counts;
use apart::machine::{Unwatched, Watch};
use apart::play::{self, other_answer, ran_answer, Listed, ANSWER, ANSWER_WORDS};
use apart::refusal::Refusal;

extern "C" {
    fn sofaduck_load(
        image: *const u8,
        image_length: usize,
        contents: *mut u16,
        contents_length: usize,
        bodies: *mut u16,
        bodies_length: usize,
        cache: *mut u16,
        cache_length: usize,
        registers: *mut Registers,
    ) -> u32;
    fn sofaduck_begin(
        contents: *mut u16,
        contents_length: usize,
        bodies: *mut u16,
        bodies_length: usize,
        stack: *mut u16,
        stack_length: usize,
        cache: *const u16,
        cache_length: usize,
        registers: *mut Registers,
        receiver: u16,
        selector: u16,
        arguments: *const u16,
        arguments_length: usize,
    ) -> u32;
    fn sofaduck_run(
        contents: *mut u16,
        contents_length: usize,
        bodies: *mut u16,
        bodies_length: usize,
        stack: *mut u16,
        stack_length: usize,
        cache: *mut u16,
        cache_length: usize,
        registers: *mut Registers,
        n: u32,
        count: *mut u32,
        reach: *mut u32,
        dictionaries: *mut u64,
    ) -> u32;
    fn sofaduck_drop(
        contents: *const u16,
        contents_length: usize,
        bodies: *const u16,
        bodies_length: usize,
        stack: *const u16,
        stack_length: usize,
        cache: *const u16,
        cache_length: usize,
        registers: *mut Registers,
    ) -> u32;
    fn sofaduck_forget(
        contents: *const u16,
        contents_length: usize,
        bodies: *const u16,
        bodies_length: usize,
        stack: *const u16,
        stack_length: usize,
        cache: *mut u16,
        cache_length: usize,
        registers: *const Registers,
    ) -> u32;
    fn sofaduck_check(
        contents: *const u16,
        contents_length: usize,
        bodies: *const u16,
        bodies_length: usize,
        stack: *const u16,
        stack_length: usize,
        cache: *const u16,
        cache_length: usize,
        registers: *const Registers,
    ) -> u32;
    fn sofaduck_save(
        contents: *const u16,
        contents_length: usize,
        bodies: *const u16,
        bodies_length: usize,
        stack: *const u16,
        stack_length: usize,
        cache: *const u16,
        cache_length: usize,
        registers: *const Registers,
        output: *mut u8,
        output_length: usize,
        length: *mut u32,
    ) -> u32;
    fn sofaduck_play(
        contents: *mut u16,
        contents_length: usize,
        bodies: *mut u16,
        bodies_length: usize,
        stack: *mut u16,
        stack_length: usize,
        cache: *mut u16,
        cache_length: usize,
        registers: *mut Registers,
        calls: *const u16,
        calls_length: usize,
        answers: *mut u32,
        answers_length: usize,
        made: *mut u32,
    ) -> u32;
}

#[derive(Clone, Debug, PartialEq)]
pub enum Call {
    Load(Vec<u8>),
    Begin {
        receiver: u16,
        selector: u16,
        arguments: Vec<u16>,
    },
    Run(u32),
    Drop,
    Forget,
    Check,
    /// With an output of so many bytes.
    Save(usize),
    /// A list of calls in words, with room for so many words of answers.
    Play {
        words: Vec<u16>,
        room: usize,
    },
    /// Words changed from outside, from an index on: contents, bodies, stack, cache or registers.
    Write {
        buffer: usize,
        index: usize,
        words: Vec<u16>,
    },
    /// The lengths from here on: contents, bodies, stack, cache.
    Lengths([usize; 4]),
    /// Lookups, each on the state as it is. No function of the library proper makes one; `compare` has the function that does.
    Lookups(Vec<Sought>),
}

/// A selector, and the class where its lookup starts.
#[derive(Clone, Copy, Debug, PartialEq)]
pub struct Sought {
    pub selector: u16,
    pub class: u16,
}

pub const CALLS: [&str; 8] = ["load", "begin", "run", "drop", "forget", "check", "save", "play"];

impl Call {
    /// Its place in `CALLS`.
    pub fn index(&self) -> Option<usize> {
        match self {
            Call::Load(_) => Some(0),
            Call::Begin { .. } => Some(1),
            Call::Run(_) => Some(2),
            Call::Drop => Some(3),
            Call::Forget => Some(4),
            Call::Check => Some(5),
            Call::Save(_) => Some(6),
            Call::Play { .. } => Some(7),
            _ => None,
        }
    }

    pub fn text(&self) -> String {
        match self {
            Call::Load(image) => format!("load {} bytes", image.len()),
            Call::Write { buffer, index, words } if words.len() > 100 => format!("Write {} words into buffer {buffer} from {index} on", words.len()),
            Call::Play { words, room } => {
                let (calls, rest) = listed(words);
                let lines: String = calls.iter().map(|call| format!("\n    {}", call.text())).collect();
                let behind = if rest.is_empty() { String::new() } else { format!("\n    {rest:?}, no call") };
                format!("Play with {room} words for answers{lines}{behind}")
            }
            other => format!("{other:?}"),
        }
    }

    /// Its words in a list; none for a call that no list can have.
    pub fn words(&self) -> Vec<u16> {
        match self {
            Call::Begin { receiver, selector, arguments } => [&[0, *receiver, *selector, arguments.len() as u16], &arguments[..]].concat(),
            Call::Run(n) => vec![1, (n >> 16) as u16, *n as u16],
            Call::Drop => vec![2],
            Call::Forget => vec![3],
            _ => vec![],
        }
    }
}

impl From<Listed<'_>> for Call {
    fn from(call: Listed) -> Call {
        match call {
            Listed::Begin { receiver, selector, arguments } => Call::Begin { receiver, selector, arguments: arguments.to_vec() },
            Listed::Run(n) => Call::Run(n),
            Listed::Drop => Call::Drop,
            Listed::Forget => Call::Forget,
        }
    }
}

/// The calls of a list, and the words behind them that are none.
pub fn listed(words: &[u16]) -> (Vec<Call>, &[u16]) {
    let (mut calls, mut words) = (vec![], words);
    while let Ok((call, rest)) = play::first(words) {
        calls.push(call.into());
        words = rest;
    }
    (calls, words)
}

/// Words behind each buffer that no call may touch.
pub const GUARD: usize = 8;

#[derive(Clone)]
pub struct Buffers {
    /// Contents, bodies, stack, cache, each with the guard behind it.
    pub words: [Vec<u16>; 4],
    pub lengths: [usize; 4],
    pub registers: Registers,
}

impl Buffers {
    /// As they are lent to a call.
    pub fn lent(&mut self) -> Lent<'_> {
        let [a, b, c, d] = self.lengths;
        let [contents, bodies, stack, cache] = &mut self.words;
        Lent {
            contents: &mut contents[..a],
            bodies: &mut bodies[..b],
            stack: &mut stack[..c],
            cache: &mut cache[..d],
            registers: &mut self.registers,
        }
    }
}

pub const UNWRITTEN: u32 = 0xDEAD_BEEF;
const UNWRITTEN_SUM: u64 = (UNWRITTEN as u64) << 32 | UNWRITTEN as u64;

#[derive(Clone)]
pub struct Outcome {
    pub number: u32,
    pub count: u32,
    pub reach: u32,
    pub dictionaries: u64,
    pub length: u32,
    pub output: Vec<u8>,
    pub made: u32,
    pub answers: Vec<u32>,
    pub refusal: Option<Refusal>,
}

fn outcome(call: &Call) -> Outcome {
    let bytes = if let Call::Save(bytes) = call { bytes + GUARD } else { 0 };
    let words = if let Call::Play { room, .. } = call { room + GUARD } else { 0 };
    Outcome {
        number: 0,
        count: UNWRITTEN,
        reach: UNWRITTEN,
        dictionaries: UNWRITTEN_SUM,
        length: UNWRITTEN,
        output: vec![0xA5; bytes],
        made: UNWRITTEN,
        answers: vec![UNWRITTEN; words],
        refusal: None,
    }
}

/// Words changed from outside, or other lengths: the same on both sides.
fn changed(call: &Call, buffers: &mut Buffers) {
    match call {
        Call::Write { buffer: 4, index, words } => buffers.registers[*index..][..words.len()].copy_from_slice(words),
        Call::Write { buffer, index, words } => buffers.words[*buffer][*index..][..words.len()].copy_from_slice(words),
        Call::Lengths(lengths) => buffers.lengths = *lengths,
        _ => {}
    }
}

pub fn plain(call: &Call, buffers: &mut Buffers, counts: &mut Counts) -> Outcome {
    plain_watched(call, buffers, counts, &mut Unwatched)
}

/// A call on the plain machine; `watch` is told of each bytecode of a run.
pub fn plain_watched<W: Watch>(call: &Call, buffers: &mut Buffers, counts: &mut Counts, watch: &mut W) -> Outcome {
    let mut outcome = outcome(call);
    changed(call, buffers);
    let mut lent = buffers.lent();
    let answer = match call {
        Call::Load(image) => calls::load(image, &mut lent),
        Call::Begin { receiver, selector, arguments } => calls::begin(&mut lent, *receiver, *selector, arguments, counts),
        Call::Run(n) => calls::run_watched(&mut lent, *n, counts, watch).map(|ran| {
            outcome.count = ran.count;
            outcome.reach = ran.reach;
            outcome.dictionaries = ran.dictionaries;
        }),
        Call::Drop => calls::drop(&mut lent),
        Call::Forget => calls::forget(&mut lent),
        Call::Check => calls::check(&lent),
        Call::Save(bytes) => calls::save(&lent, &mut outcome.output[..*bytes]).map(|length| outcome.length = length),
        Call::Play { words, room } => play::play(&mut lent, words, &mut outcome.answers[..*room], counts).map(|made| outcome.made = made),
        Call::Write { .. } | Call::Lengths(_) | Call::Lookups(_) => Ok(()),
    };
    if let Err(refusal) = answer {
        outcome.number = refusal.number;
        outcome.refusal = Some(refusal);
    }
    outcome
}

pub fn library(call: &Call, buffers: &mut Buffers) -> Outcome {
    let mut outcome = outcome(call);
    changed(call, buffers);
    let [a, b, c, d] = buffers.lengths;
    let [contents, bodies, stack, cache] = &mut buffers.words;
    let (contents, bodies, stack, cache) = (contents.as_mut_ptr(), bodies.as_mut_ptr(), stack.as_mut_ptr(), cache.as_mut_ptr());
    let registers: *mut Registers = &mut buffers.registers;
    // Every pointer has at least as many elements behind it as its length says, and none overlap.
    outcome.number = unsafe {
        match call {
            Call::Load(image) => sofaduck_load(image.as_ptr(), image.len(), contents, a, bodies, b, cache, d, registers),
            Call::Begin { receiver, selector, arguments } => {
                sofaduck_begin(contents, a, bodies, b, stack, c, cache, d, registers, *receiver, *selector, arguments.as_ptr(), arguments.len())
            }
            Call::Run(n) => {
                let (count, reach, dictionaries) = (&mut outcome.count, &mut outcome.reach, &mut outcome.dictionaries);
                sofaduck_run(contents, a, bodies, b, stack, c, cache, d, registers, *n, count, reach, dictionaries)
            }
            Call::Drop => sofaduck_drop(contents, a, bodies, b, stack, c, cache, d, registers),
            Call::Forget => sofaduck_forget(contents, a, bodies, b, stack, c, cache, d, registers),
            Call::Check => sofaduck_check(contents, a, bodies, b, stack, c, cache, d, registers),
            Call::Save(bytes) => {
                sofaduck_save(contents, a, bodies, b, stack, c, cache, d, registers, outcome.output.as_mut_ptr(), *bytes, &mut outcome.length)
            }
            Call::Play { words, room } => {
                let (list, length, answers) = (words.as_ptr(), words.len(), outcome.answers.as_mut_ptr());
                sofaduck_play(contents, a, bodies, b, stack, c, cache, d, registers, list, length, answers, *room, &mut outcome.made)
            }
            Call::Write { .. } | Call::Lengths(_) | Call::Lookups(_) => 0,
        }
    };
    outcome
}

/// What the library's other calls come to when a list is made by them, one after the other: play has to come to the same.
pub fn library_singly(call: &Call, before: &Buffers) -> Option<(Outcome, Buffers)> {
    let (words, room) = match call {
        Call::Play { words, room } => (words, *room),
        _ => return None,
    };
    let (mut outcome, mut buffers) = (outcome(call), before.clone());
    outcome.number = library(&Call::Check, &mut buffers).number;
    if outcome.number == 0 {
        outcome.made = 0;
        for (call, answer) in listed(words).0.iter().zip(outcome.answers[..room].chunks_exact_mut(ANSWER_WORDS)) {
            let single = library(call, &mut buffers);
            let Outcome { number, count, reach, dictionaries, .. } = single;
            answer.copy_from_slice(&match call {
                Call::Run(_) if number == 0 => ran_answer(buffers.registers[PHASE], buffers.registers[VALUE], &Ran { count, reach, dictionaries }),
                _ => other_answer(number),
            });
            outcome.made += 1;
        }
    }
    Some((outcome, buffers))
}

/// The first place where two differ.
fn first_other<T: PartialEq>(left: &[T], right: &[T]) -> Option<usize> {
    if left == right {
        return None;
    }
    (0..left.len()).find(|index| left[*index] != right[*index])
}

/// What differs after a call, in words.
pub fn difference(plain: &Outcome, proved: &Outcome, ours: &Buffers, theirs: &Buffers) -> Option<String> {
    if plain.number != proved.number {
        let place = plain.refusal.map_or("accepted".to_string(), |refusal| refusal.to_string());
        return Some(format!("answer: plain {} ({place}), library {}", plain.number, proved.number));
    }
    if plain.count != proved.count {
        return Some(format!("count: plain {}, library {}", plain.count, proved.count));
    }
    if plain.reach != proved.reach {
        return Some(format!("reach: plain {}, library {}", plain.reach, proved.reach));
    }
    if plain.dictionaries != proved.dictionaries {
        return Some(format!("dictionaries: plain {}, library {}", plain.dictionaries, proved.dictionaries));
    }
    if plain.length != proved.length || plain.output != proved.output {
        return Some(format!("output: plain length {}, library {}", plain.length, proved.length));
    }
    if plain.made != proved.made {
        return Some(format!("calls made: plain {}, library {}", plain.made, proved.made));
    }
    if let Some(index) = first_other(&plain.answers, &proved.answers) {
        let (call, word) = (index / ANSWER_WORDS, ANSWER[index % ANSWER_WORDS]);
        return Some(format!("answers, call {call} from 0, {word}: plain {}, library {}", plain.answers[index], proved.answers[index]));
    }
    if ours.registers != theirs.registers {
        return Some(format!("registers: plain {:?}, library {:?}", ours.registers, theirs.registers));
    }
    for (buffer, name) in ["contents", "bodies", "stack", "cache"].iter().enumerate() {
        let (left, right) = (&ours.words[buffer], &theirs.words[buffer]);
        if let Some(index) = first_other(left, right) {
            return Some(format!("{name} word {index}: plain {}, library {}", left[index], right[index]));
        }
    }
    None
}
