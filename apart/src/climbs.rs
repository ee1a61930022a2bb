//! How far the lookups of sends went, for the report on coverage: those that count, and the sums of runs. It is told by the words before the bytecode is made.

use crate::counts::Counts;
use crate::machine::*;
use crate::messages;
use crate::objects::*;

/// How a lookup came to be made.
pub const SENT: [&str; 6] = [
    "a send of 208 to 255",
    "a send of 131 or 132",
    "a super send",
    "a special send of 192 to 207",
    "arithmetic that fails",
    "object 6 in a failed send's stead",
];
const SUPER: usize = 2;
const ARITHMETIC: usize = 4;
const OBJECT_6: usize = 5;

/// What the method found comes to.
pub const CAME: [&str; 5] = ["flag 5", "flag 6", "a primitive that answers", "a primitive that fails", "a frame at once"];
const PRIMITIVE_ANSWERS: usize = 2;

/// Dictionaries read.
pub const NUMBERS: [&str; 5] = ["1", "2", "3 to 22", "23", "24"];
pub const CACHED: [&str; 2] = ["not in the cache", "in the cache"];

fn number(dictionaries: usize) -> usize {
    match dictionaries {
        0 | 1 => 0,
        2 => 1,
        3..=22 => 2,
        23 => 3,
        _ => 4,
    }
}

/// Whether a lookup can come about so. Methods of flags 5 and 6 take no arguments; above a home there are 23 classes at most.
pub fn possible(sent: usize, came: usize, number: usize) -> bool {
    (came >= PRIMITIVE_ANSWERS || ![ARITHMETIC, OBJECT_6].contains(&sent)) && (sent != SUPER || number + 1 < NUMBERS.len())
}

/// Lookups of object 6, by the class where it was found.
pub const FOUND_6: [&str; 2] = ["object 6 in the first class", "object 6 further up"];

/// What the sum of a run can show. Each lookup that counts has at least one.
pub const SUMS: [&str; 7] = [
    "sum of dictionaries: 0 in a run that made bytecodes",
    "sum of dictionaries: as many as lookups",
    "sum of dictionaries: more than lookups",
    "sum of dictionaries: not 0, and phase 3",
    "sum of dictionaries: not 0, and phase 4",
    "sum of dictionaries: not 0, and phase 5",
    "sum of dictionaries: above 65,535",
];

/// On the way of a lookup that counts.
pub const ON_THE_WAY: [&str; 1] = ["a send that found above two classes with the same dictionary"];

#[derive(Default)]
pub struct Climbs {
    /// By `SENT`, `CAME`, `NUMBERS` and `CACHED`.
    pub lookups: [[[[u64; CACHED.len()]; NUMBERS.len()]; CAME.len()]; SENT.len()],
    /// By the cause of the failed send, `FOUND_6` and `CACHED`.
    pub messages: [[[u64; CACHED.len()]; FOUND_6.len()]; messages::CAUSES.len()],
    /// Lookups that count, in all runs.
    pub made: u64,
}

impl Machine<'_> {
    /// Counts a lookup that counts in the sum. The send has not moved its frame's position yet.
    pub fn count_climb(&mut self, sending: &Sending, selector: u16, found: Found, answers: bool) {
        let frame = self.frames.last().unwrap();
        let sent = match self.world.method(frame.method).code[frame.position] {
            _ if selector != sending.selector => OBJECT_6,
            131 | 132 => 1,
            133 | 134 => SUPER,
            176..=191 => ARITHMETIC,
            192..=207 => 3,
            _ => 0,
        };
        let came = match self.world.method(found.method).flag {
            5 => 0,
            6 => 1,
            7 if answers => PRIMITIVE_ANSWERS,
            7 => 3,
            _ => 4,
        };
        let cached = self.cached(selector, sending.start) as usize;
        let twice = found.dictionaries > 1 && self.world.objects.reads_twice(sending.start, found.dictionaries);
        self.counts.climbs.lookups[sent][came][number(found.dictionaries)][cached] += 1;
        self.counts.climbs.made += 1;
        self.counts.events_met(ON_THE_WAY, [twice]);
    }
}

impl Counts {
    /// A run that left this phase: the bytecodes made, the lookups that count, and their sum.
    pub fn sum(&mut self, phase: u16, count: u32, lookups: u64, sum: u64) {
        let halted = |halt: u16| sum != 0 && phase == halt;
        let (alike, more) = (sum != 0 && sum == lookups, sum > lookups);
        let halts = [NOT_UNDERSTOOD, NO_BOOLEAN, NO_STACK_ROOM].map(halted);
        self.events_met(SUMS, [sum == 0 && count > 0, alike, more, halts[0], halts[1], halts[2], sum > 65_535]);
    }
}
