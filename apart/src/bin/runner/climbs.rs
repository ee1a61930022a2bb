//! Sends whose lookup finds above the class where it starts, by selector and class.

use crate::names::Names;
use crate::sends::*;
use apart::machine::*;
use apart::objects::Found;
use std::cmp::Reverse;
use std::collections::BTreeMap;

/// Sends of a selector, by the class where their lookup starts. Handlers change no class and no dictionary, so all find the same.
#[derive(Clone, Copy)]
struct Sends {
    selector: u16,
    class: u16,
    found: Found,
    times: u64,
}

impl Sends {
    fn dictionaries(&self) -> u64 {
        self.found.dictionaries as u64 * self.times
    }
}

#[derive(Default)]
pub struct Climbs {
    /// All that found, by selector and class.
    sends: BTreeMap<(u16, u16), Sends>,
    /// The send of the bytecode that is about to be made.
    next: Option<Sends>,
}

/// A number with its noun.
fn counted(number: u64, one: &str, more: &str) -> String {
    format!("{number} {}", if number == 1 { one } else { more })
}

fn sums(sends: &[Sends]) -> String {
    let (times, dictionaries) = (sends.iter().map(|sends| sends.times).sum(), sends.iter().map(Sends::dictionaries).sum());
    format!("{}, {}", counted(times, "send", "sends"), counted(dictionaries, "dictionary", "dictionaries"))
}

impl Climbs {
    /// At most so many of those that climb, the most dictionaries first; of equal ones the lower selector and class.
    pub fn shown(&self, names: &Names, most: usize) -> String {
        let all: Vec<Sends> = self.sends.values().copied().collect();
        let mut climbing: Vec<Sends> = all.iter().copied().filter(|sends| sends.found.dictionaries > 1).collect();
        if all.is_empty() {
            return "sends that climb: none; no send found a method by lookup\n".to_string();
        }
        if climbing.is_empty() {
            return format!("sends that climb: none; each found its method in the class where its lookup started ({})\n", sums(&all));
        }
        climbing.sort_by_key(|sends| Reverse(sends.dictionaries()));
        let mut out = format!("sends that climb: {}; all that found a method: {}\n", sums(&climbing), sums(&all));
        let (listed, left_out) = climbing.split_at(most.min(climbing.len()));
        if !listed.is_empty() {
            out += "  dictionaries       sends    each\n";
        }
        for sends in listed {
            let Sends { found: Found { method, dictionaries }, times, .. } = sends;
            let (selector, class, method) = (names.name(sends.selector), names.name(sends.class), names.name(*method));
            out += &format!("  {:>12}  {times:>10}  {dictionaries:>6}  {selector} from {class}, finds {method}\n", sends.dictionaries());
        }
        if !left_out.is_empty() {
            out += &format!("  {} more of these: {}; --climbs all lists them\n", left_out.len(), sums(left_out));
        }
        out
    }
}

impl Watch for Climbs {
    fn before(&mut self, machine: &Machine) {
        let asked = machine.frames.last().map(|frame| asked(&machine.world, frame, machine.room));
        self.next = match asked {
            Some(Asked::Lookup(lookup)) => lookup.counted().map(|(selector, found)| Sends { selector, class: lookup.start, found, times: 0 }),
            _ => None,
        };
    }

    fn after(&mut self, _: &Machine, made: &Result<Made, u16>) {
        // A send that halts was not made.
        if let (Some(sends), Ok(_)) = (self.next.take(), made) {
            self.sends.entry((sends.selector, sends.class)).or_insert(sends).times += 1;
        }
    }
}
