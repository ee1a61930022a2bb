//! What was executed, for the report on coverage.

use crate::accesses::Accesses;
use crate::climbs::Climbs;
use crate::machine::{FINISHED, MOST_STACK, NO_STACK_ROOM};
use crate::messages::Failures;
use std::collections::BTreeMap;

/// How the reach of a run can come about.
pub const REACHES: [&str; 7] = [
    "reach of a run of no bytecodes",
    "reach below a frame that did not fit",
    "reach of a frame made in the run that still stands",
    "reach of a frame made in the run that has returned",
    "reach of a frame from before the run that has returned",
    "reach with large frames",
    "reach of 65,536 words",
];

// How a lookup can go through as many classes as a chain can have: what it finds there, and that it finds nothing.
pub const SENDS: [&str; 2] = ["a send that found in the 24th class", "a send that found nothing in 24 classes"];
pub const SUPER_SENDS: [&str; 2] =
    ["a super send that found in the 24th class, its home counted", "a super send that found nothing in 24 classes, its home counted"];

pub struct Counts {
    pub bytecodes: [u64; 256],
    /// By primitive number: how often it answered, and how often it failed.
    pub answered: [u64; 256],
    pub failed: [u64; 256],
    pub accesses: Accesses,
    pub climbs: Climbs,
    /// By the cause of a failed send and what came of it.
    pub failures: Failures,
    /// The message that was made last. It is for one image alone.
    pub message: Option<u16>,
    pub events: BTreeMap<&'static str, u64>,
}

impl Default for Counts {
    fn default() -> Counts {
        Counts {
            bytecodes: [0; 256],
            answered: [0; 256],
            failed: [0; 256],
            accesses: Accesses::default(),
            climbs: Climbs::default(),
            failures: Failures::default(),
            message: None,
            events: BTreeMap::new(),
        }
    }
}

impl Counts {
    pub fn event(&mut self, name: &'static str) {
        *self.events.entry(name).or_insert(0) += 1;
    }

    /// Those of the events that were met.
    pub fn events_met<const K: usize>(&mut self, names: [&'static str; K], met: [bool; K]) {
        for (name, _) in names.iter().zip(met).filter(|(_, met)| *met) {
            self.event(name);
        }
    }

    /// The largest ends of frames: when a run started, its reach, and where it stopped.
    pub fn reach(&mut self, n: u32, phase: u16, [first, reach, last]: [usize; 3]) {
        let (grew, shrank) = (reach > first, reach > last && phase != FINISHED);
        // Small frames end at multiples of 18.
        let large = reach % 18 != 0;
        let most = reach == MOST_STACK;
        self.events_met(REACHES, [n == 0, phase == NO_STACK_ROOM, grew && reach == last, grew && shrank, !grew && shrank, large, most]);
    }

    pub fn primitive(&mut self, number: u16, answered: bool) {
        let counts = if answered { &mut self.answered } else { &mut self.failed };
        counts[number as usize] += 1;
    }
}
