//! What was covered.

use crate::chains::{self, CHAINS};
use crate::climbs::{OTHER_CACHES, WRITTEN};
use crate::elements::MOVED;
use crate::laws::{CUTS, SHORT};
use crate::lookups::LOOKUPS;
use crate::messages::{self, IMAGES, REASONS, STATES};
use crate::sides::*;
use apart::accesses::{self, NAMES, NO_BYTES, OTHERS, RECEIVERS, SHOWN, THEN};
use apart::calls::{NUMBER_ALONE, OTHER_LOOKUP, OTHER_NUMBER};
use apart::climbs::{self, CACHED, CAME, FOUND_6, NUMBERS, ON_THE_WAY, SENT, SUMS};
use apart::counts::{Counts, REACHES, SENDS, SUPER_SENDS};
use apart::messages as failures;
use apart::play::{ANSWER_WORDS, ENDS};
use apart::refusal::Place;
use apart::rules::{CIRCLE, TOO_LONG};
use std::collections::BTreeMap;
use std::ops::Range;

#[derive(Default)]
pub struct Report {
    pub counts: Counts,
    pub cases: u64,
    /// By call and refusal number; 0 is accepted.
    answers: Tally,
    /// By refusal number and what was wrong.
    reasons: BTreeMap<(u32, &'static str), u64>,
    /// By number of the call, begin or run, and the phase it left.
    phases: Tally,
    /// The same of the calls that play made. There a begin's answer has no phase.
    listed_answers: Tally,
    listed_phases: Tally,
    /// By call and those of the lengths of a cache for which it was refused.
    caches: Tally,
}

/// How often each number came, by call.
type Tally = BTreeMap<(usize, u32), u64>;

/// The refusals that a call can give.
const POSSIBLE: [&[u32]; 8] = [
    &[0, 1, 2, 3, 4, 5, 14, 6, 7, 8],
    &[0, 3, 8, 9, 10, 11, 12, 13],
    &[0, 3, 11, 12],
    &[0, 3, 11],
    &[0, 3, 11],
    &[0, 3, 11],
    &[0, 3, 11],
    &[0, 3, 11],
];

/// The calls that a list can have: begin, run, drop, forget.
const LISTED: Range<usize> = 1..5;

/// Ranges of bytecodes, by their first and last.
const RANGES: [(usize, usize); 28] = [
    (0, 15),
    (16, 31),
    (32, 63),
    (64, 95),
    (96, 103),
    (104, 111),
    (112, 119),
    (120, 123),
    (124, 124),
    (128, 128),
    (129, 129),
    (130, 130),
    (131, 131),
    (132, 132),
    (133, 133),
    (134, 134),
    (135, 135),
    (136, 136),
    (144, 151),
    (152, 159),
    (160, 163),
    (164, 167),
    (168, 171),
    (172, 175),
    (176, 191),
    (192, 207),
    (208, 223),
    (224, 255),
];

const PRIMITIVES: [u16; 24] = [1, 2, 3, 4, 5, 6, 7, 8, 9, 10, 11, 12, 13, 14, 15, 16, 17, 60, 61, 62, 70, 71, 110, 111];

fn count(tally: &mut Tally, call: usize, number: u32) {
    *tally.entry((call, number)).or_insert(0) += 1;
}

/// Those of the numbers that a call did not come to.
fn unmet<'a>(tally: &'a Tally, call: usize, numbers: &'a [u32]) -> impl Iterator<Item = &'a u32> {
    numbers.iter().filter(move |number| !tally.contains_key(&(call, **number)))
}

fn print_tally(tally: &Tally, calls: Range<usize>) {
    for call in calls {
        let of_call = tally.iter().filter(|((of, _), _)| *of == call);
        let texts: Vec<String> = of_call.map(|((_, number), count)| format!("{number}: {count}")).collect();
        println!("  {:7}{}", CALLS[call], texts.join(", "));
    }
}

impl Report {
    pub fn note(&mut self, call: &Call, outcome: &Outcome, after: &Buffers) {
        let index = match call.index() {
            Some(index) => index,
            None => return,
        };
        count(&mut self.answers, index, outcome.number);
        if let Some(refusal) = outcome.refusal {
            *self.reasons.entry((refusal.number, refusal.why)).or_insert(0) += 1;
            if refusal.place == Place::Buffer("cache") && OTHER_CACHES.contains(&after.lengths[3]) {
                count(&mut self.caches, index, after.lengths[3] as u32);
            }
        }
        if let Call::Load(image) = call {
            self.counts.accesses.put = None;
            self.counts.message = None;
            self.counts.events_met(CHAINS, chains::met(image, outcome.number));
            self.counts.events_met(IMAGES, messages::met(image, outcome.refusal));
        }
        if let (0, Call::Begin { receiver, .. }) = (outcome.number, call) {
            self.counts.message_used(*receiver, failures::BEGUN);
        }
        if outcome.number == 0 && (index == 1 || index == 2) {
            count(&mut self.phases, index, after.registers[4] as u32);
        }
        if let (0, Call::Play { words, .. }) = (outcome.number, call) {
            let answers = outcome.answers.chunks(ANSWER_WORDS).take(outcome.made as usize);
            for (call, answer) in listed(words).0.iter().zip(answers) {
                self.note_listed(call, answer[0], answer[1]);
            }
        }
    }

    fn note_listed(&mut self, call: &Call, number: u32, phase: u32) {
        if let Some(index) = call.index() {
            count(&mut self.listed_answers, index, number);
            if number == 0 && index == 2 {
                count(&mut self.listed_phases, index, phase);
            }
        }
    }

    /// What the run did not meet.
    pub fn missing(&self) -> Vec<String> {
        let mut missing = vec![];
        for (index, numbers) in POSSIBLE.iter().enumerate() {
            missing.extend(unmet(&self.answers, index, numbers).map(|number| format!("{} answering {number}", CALLS[index])));
        }
        for index in LISTED {
            // A state that is not right refuses the whole list.
            let numbers = unmet(&self.listed_answers, index, POSSIBLE[index]).filter(|number| ![3, 11].contains(*number));
            missing.extend(numbers.map(|number| format!("{} in a list answering {number}", CALLS[index])));
        }
        let halts_too = &[1, 2, 3, 4, 5][..];
        for (tally, call, phases, place) in
            [(&self.phases, 1, &[1, 2][..], ""), (&self.phases, 2, halts_too, ""), (&self.listed_phases, 2, halts_too, " in a list")]
        {
            missing.extend(unmet(tally, call, phases).map(|phase| format!("phase {phase} after {}{place}", CALLS[call])));
        }
        let others = OTHER_CACHES.map(|length| length as u32);
        for (call, name) in CALLS.iter().enumerate() {
            missing.extend(unmet(&self.caches, call, &others).map(|length| format!("{name} with a cache of {length} words")));
        }
        let of_states = REASONS.iter().map(|(_, why)| *why).chain([OTHER_LOOKUP, OTHER_NUMBER, NUMBER_ALONE]).map(|why| (11, why));
        for reason in [(14, TOO_LONG), (14, CIRCLE), (11, TOO_LONG), (11, CIRCLE)].into_iter().chain(REASONS).chain(of_states) {
            if !self.reasons.contains_key(&reason) {
                missing.push(format!("refusal {} by {}", reason.0, reason.1));
            }
        }
        let events = ENDS.iter().chain(&REACHES).chain(&CUTS).chain(&SHORT).chain(&CHAINS).chain(&LOOKUPS).chain(&SENDS).chain(&SUPER_SENDS);
        let events = events.chain(&THEN).chain(&NO_BYTES).chain(&MOVED).chain(&IMAGES).chain(&STATES).chain(&failures::THEN);
        let events = events.chain(failures::SHOWN.iter().map(|(name, _)| name)).chain(&SUMS).chain(&ON_THE_WAY).chain(&WRITTEN);
        missing.extend(events.filter(|event| !self.counts.events.contains_key(*event)).map(|event| event.to_string()));
        for (cause, end) in (0..failures::CAUSES.len()).flat_map(|cause| (0..failures::ENDS.len()).map(move |end| (cause, end))) {
            if failures::possible(cause, end) && self.counts.failures[cause][end] == 0 {
                missing.push(format!("{}: {}", failures::CAUSES[cause], failures::ENDS[end]));
            }
        }
        missing.extend(self.climbs().into_iter().filter(|(_, count)| *count == 0).map(|(what, _)| what));
        for (primitive, name) in NAMES.iter().enumerate() {
            let found = &self.counts.accesses;
            for (receiver, shown) in (0..RECEIVERS.len()).flat_map(|receiver| (0..SHOWN.len()).map(move |shown| (receiver, shown))) {
                if accesses::possible(primitive, receiver, shown) && found.shown[primitive][receiver][shown] == 0 {
                    missing.push(format!("{name} on {}: {}", RECEIVERS[receiver], SHOWN[shown]));
                }
            }
            let others = OTHERS.iter().zip(found.others[primitive]).filter(|(_, count)| *count == 0);
            missing.extend(others.map(|(other, _)| format!("{name} on {other}")));
        }
        for byte in (0..256).filter(|byte| !(125..128).contains(byte) && !(137..144).contains(byte)) {
            if self.counts.bytecodes[byte] == 0 {
                missing.push(format!("bytecode {byte}"));
            }
        }
        for number in PRIMITIVES.map(|number| number as usize) {
            if self.counts.answered[number] == 0 {
                missing.push(format!("primitive {number} that answers"));
            }
            // == and class fail only in a method with another count.
            if self.counts.failed[number] == 0 {
                missing.push(format!("primitive {number} that fails"));
            }
        }
        missing
    }

    pub fn print(&self) {
        println!("answers (0 is accepted, else the refusal):");
        print_tally(&self.answers, 0..CALLS.len());
        println!("phases:");
        print_tally(&self.phases, 1..3);
        println!("answers within the lists of play:");
        print_tally(&self.listed_answers, LISTED);
        println!("phases within the lists of play:");
        print_tally(&self.listed_phases, 2..3);
        println!("bytecodes made:");
        for (first, last) in RANGES {
            let made = &self.counts.bytecodes[first..=last];
            println!("  {first:3} to {last:3}: {:10}, the rarest {}", made.iter().sum::<u64>(), made.iter().min().unwrap());
        }
        println!("primitives, answered and failed:");
        let texts: Vec<String> = PRIMITIVES.iter().map(|number| self.primitive(*number)).collect();
        for line in texts.chunks(6) {
            println!("  {}", line.join("; "));
        }
        self.print_accesses();
        self.print_failures();
        println!("dictionaries read by sends that found:");
        for (what, count) in self.climbs() {
            println!("  {what}: {count}");
        }
        println!("caches of other lengths, refused:");
        print_tally(&self.caches, 0..CALLS.len());
        println!("events:");
        for (name, count) in &self.counts.events {
            println!("  {name}: {count}");
        }
        println!("what was wrong, by refusal:");
        for ((number, why), count) in &self.reasons {
            println!("  {number:2} {why}: {count}");
        }
    }

    /// What lookups of sends can meet, with how often they did.
    fn climbs(&self) -> Vec<(String, u64)> {
        let found = &self.counts.climbs;
        let mut all = vec![];
        for (sent, came) in (0..SENT.len()).flat_map(|sent| (0..CAME.len()).map(move |came| (sent, came))) {
            for (number, cached) in (0..NUMBERS.len()).flat_map(|number| (0..CACHED.len()).map(move |cached| (number, cached))) {
                if climbs::possible(sent, came, number) {
                    let what = format!("{}, {}, {}, dictionaries {}", SENT[sent], CAME[came], CACHED[cached], NUMBERS[number]);
                    all.push((what, found.lookups[sent][came][number][cached]));
                }
            }
        }
        for cause in (0..failures::CAUSES.len()).filter(|cause| failures::sends_6(*cause)) {
            for (first, cached) in (0..FOUND_6.len()).flat_map(|first| (0..CACHED.len()).map(move |cached| (first, cached))) {
                let what = format!("{}: {}, {}", failures::CAUSES[cause], FOUND_6[first], CACHED[cached]);
                all.push((what, found.messages[cause][first][cached]));
            }
        }
        all
    }

    fn print_failures(&self) {
        println!("failed sends:");
        for (cause, name) in failures::CAUSES.iter().enumerate() {
            println!("  {name}");
            for (end, came) in failures::ENDS.iter().enumerate().filter(|(end, _)| failures::possible(cause, *end)) {
                println!("    {came}: {}", self.counts.failures[cause][end]);
            }
        }
    }

    fn print_accesses(&self) {
        println!("at:, at:put: and size on {}:", RECEIVERS.join("; "));
        let found = &self.counts.accesses;
        for (primitive, name) in NAMES.iter().enumerate() {
            for (shown, what) in SHOWN.iter().enumerate() {
                let count = |receiver: usize| {
                    if accesses::possible(primitive, receiver, shown) {
                        found.shown[primitive][receiver][shown].to_string()
                    } else {
                        "-".to_string()
                    }
                };
                if accesses::possible(primitive, RECEIVERS.len() - 1, shown) {
                    println!("  {name}, {what}: {}", (0..RECEIVERS.len()).map(count).collect::<Vec<_>>().join("; "));
                }
            }
            let others: Vec<String> = OTHERS.iter().zip(found.others[primitive]).map(|(other, count)| format!("{other}: {count}")).collect();
            println!("  {name} on {}", others.join("; "));
        }
    }

    fn primitive(&self, number: u16) -> String {
        format!("{number}: {} and {}", self.counts.answered[number as usize], self.counts.failed[number as usize])
    }
}
