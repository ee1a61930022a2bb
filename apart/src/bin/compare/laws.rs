//! What those rely on who size stacks by reach, on the library alone. Several runs that go on from each other and are granted as much together as one
//! run come to the same words and registers, their counts and sums of dictionaries to its count and sum, and their largest reach is its reach. On a stack
//! of reach words a run comes to the same; a word less is too short.

use crate::random::Random;
use crate::sides::*;
use apart::calls::{PHASE, TOP};
use apart::counts::Counts;
use apart::machine::{NO_STACK_ROOM, RUNNING};

/// What a run in parts can show.
pub const CUTS: [&str; 5] = [
    "a run cut: the first part has the largest reach, the last one less",
    "a run cut: the last part has the largest reach, the first one less",
    "a run cut: a part between has the largest reach",
    "a run cut: the handler was done before the last part",
    "a run cut: several parts have a sum of dictionaries that is not 0",
];

/// How a stack can be a word too short.
pub const SHORT: [&str; 2] = ["a word less than reach: a frame that stood at the start is cut", "a word less than reach: a frame does not fit"];

/// A grant in two to five parts, small ones and empty ones among them.
fn parts(random: &mut Random, grant: u32) -> Vec<u32> {
    let mut left = grant;
    let mut parts = vec![];
    for _ in 0..random.from(1, 4) {
        let most = random.pick(&[0, 3, 40, left]).min(left);
        let part = random.below(most as usize + 1) as u32;
        left -= part;
        parts.push(part);
    }
    parts.push(left);
    parts
}

/// What the library comes to when a run is cut; where it is cut depends on the grant and the top frame alone.
pub fn library_cut(call: &Call, before: &Buffers, counts: &mut Counts) -> Option<(Outcome, Buffers)> {
    let grant = if let Call::Run(grant) = call { *grant } else { return None };
    let mut random = Random::new(grant as u64, before.registers[TOP] as u64);
    let mut buffers = before.clone();
    let ran: Vec<Outcome> = parts(&mut random, grant).iter().map(|part| library(&Call::Run(*part), &mut buffers)).collect();
    let is_done = buffers.registers[PHASE] != RUNNING;
    let mut together = ran[0].clone();
    for part in &ran[1..] {
        match part.number {
            0 => {
                together.count = together.count.wrapping_add(part.count);
                together.reach = together.reach.max(part.reach);
                together.dictionaries = together.dictionaries.wrapping_add(part.dictionaries);
            }
            12 if is_done => {}
            number => together.number = number,
        }
    }
    if together.number == 0 {
        let made: Vec<&Outcome> = ran.iter().filter(|part| part.number == 0).collect();
        let (first, last, largest) = (made[0].reach, made[made.len() - 1].reach, together.reach);
        let climb = made.iter().filter(|part| part.dictionaries != 0).count();
        let orders = [last < first && first == largest, first < last && last == largest, first.max(last) < largest];
        counts.events_met(CUTS, [orders[0], orders[1], orders[2], made.len() < ran.len(), climb > 1]);
    }
    Some((together, buffers))
}

/// A run on a stack of so many words, but no more than there are.
fn on_stack(call: &Call, before: &Buffers, length: u32) -> (Outcome, Buffers) {
    let mut buffers = before.clone();
    buffers.lengths[2] = before.lengths[2].min(length as usize);
    (library(call, &mut buffers), buffers)
}

/// What the library comes to on a stack that has just a run's reach.
pub fn library_tight(call: &Call, ran: &Outcome, before: &Buffers) -> Option<(Outcome, Buffers)> {
    (ran.reach != UNWRITTEN).then(|| on_stack(call, before, ran.reach))
}

/// Whether a word less than a run's reach is enough, which it must not be.
pub fn less_is_enough(call: &Call, ran: &Outcome, before: &Buffers, counts: &mut Counts) -> bool {
    if ran.reach == UNWRITTEN {
        return false;
    }
    let (outcome, buffers) = on_stack(call, before, ran.reach.saturating_sub(1));
    let does_not_fit = outcome.number == 0 && buffers.registers[PHASE] == NO_STACK_ROOM && outcome.reach < ran.reach;
    let short = [outcome.number == 11, does_not_fit];
    counts.events_met(SHORT, short);
    !short.contains(&true)
}
