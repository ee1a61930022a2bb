//! Lookups, which give what is found and how many pairs and dictionaries were read, on the plain machine and by the library's function for this.

use crate::draft::*;
use crate::random::Random;
use crate::sides::*;
use apart::calls::{self, Registers};
use apart::counts::Counts;
use apart::objects::*;
use apart::words::*;

extern "C" {
    fn bench_lookup(
        contents: *const u16,
        contents_length: usize,
        bodies: *const u16,
        bodies_length: usize,
        stack: *const u16,
        stack_length: usize,
        cache: *const u16,
        cache_length: usize,
        registers: *const Registers,
        selector: u16,
        class: u16,
        method: *mut u16,
        pairs: *mut usize,
        dictionaries: *mut usize,
    ) -> bool;
}

/// What lookups can meet: in a dictionary that is read, on the way, in the end, and words that are no selectors.
pub const LOOKUPS: [&str; 29] = [
    "lookup: below all of a dictionary",
    "lookup: the first of several in a dictionary",
    "lookup: between two of a dictionary",
    "lookup: one of a dictionary, with others on both sides",
    "lookup: the last of several in a dictionary",
    "lookup: above all of a dictionary",
    "lookup: a dictionary of one pair",
    "lookup: a dictionary of 8 pairs or more",
    "lookup: an empty dictionary on the way",
    "lookup: found in the first class",
    "lookup: found, and again further up",
    "lookup: found above dictionaries that were left before their last pair",
    "lookup: found in the 24th class",
    "lookup: nothing found in 24 classes",
    "lookup: nil sought",
    "lookup: an integer sought",
    "lookup: 0 sought",
    "lookup: a word sought that is above 32,767 and no integer",
    "lookup: more than 255 pairs, and found",
    "lookup: more than 1,000 pairs",
    "lookup: refused, a buffer is too short",
    "lookup: refused, the state is not right",
    "lookup: refused, the state is right but the word names no class",
    "lookup: found in the second class",
    "lookup: found in the 3rd to 23rd class",
    "lookup: found, and a dictionary was read twice",
    "lookup: nothing found in one class",
    "lookup: nothing found in 2 to 23 classes",
    "lookup: nothing found, and a dictionary was read twice",
];

/// What a lookup gives: the method's word or 0, the pairs and the dictionaries.
#[derive(PartialEq)]
struct Given {
    accepted: bool,
    method: u16,
    pairs: usize,
    dictionaries: usize,
}

/// What is there before, and stays where it is refused.
const NOTHING: Given = Given { accepted: false, method: 0xBEEF, pairs: UNWRITTEN as usize, dictionaries: UNWRITTEN as usize };

impl Given {
    fn text(&self) -> String {
        let Given { accepted, method, pairs, dictionaries } = *self;
        format!("{}, method {method}, pairs {pairs}, dictionaries {dictionaries}", if accepted { "accepted" } else { "refused" })
    }
}

fn plain(objects: Option<&Objects>, sought: Sought) -> Given {
    let Sought { selector, class } = sought;
    match objects.filter(|objects| objects.has_kind(class, CLASS)) {
        Some(objects) => Given {
            accepted: true,
            method: objects.lookup(class, selector).map_or(0, |found| found.method),
            pairs: objects.pairs_read(class, selector),
            dictionaries: objects.dictionaries_read(class, selector),
        },
        None => NOTHING,
    }
}

fn library(buffers: &Buffers, sought: Sought) -> Given {
    let [a, b, c, d] = buffers.lengths;
    let [contents, bodies, stack, cache] = &buffers.words;
    let (contents, bodies, stack, cache) = (contents.as_ptr(), bodies.as_ptr(), stack.as_ptr(), cache.as_ptr());
    let mut given = NOTHING;
    // Every pointer has at least as many elements behind it as its length says, and what is written lies elsewhere.
    given.accepted = unsafe {
        let (registers, method, pairs, dictionaries) = (&buffers.registers, &mut given.method, &mut given.pairs, &mut given.dictionaries);
        bench_lookup(contents, a, bodies, b, stack, c, cache, d, registers, sought.selector, sought.class, method, pairs, dictionaries)
    };
    given
}

/// Makes lookups on both; what differs.
pub fn difference(all: &[Sought], ours: &mut Buffers, theirs: &Buffers, counts: &mut Counts) -> Option<String> {
    let opened = calls::opened(&ours.lent());
    let objects = opened.as_ref().map(|(world, _)| &world.objects).map_err(|refusal| refusal.number);
    for sought in all {
        counts.event("lookup: made on both");
        counts.events_met(LOOKUPS, met(objects, *sought));
        let (ours, theirs) = (plain(objects.ok(), *sought), library(theirs, *sought));
        if ours != theirs {
            let (ours, theirs) = (ours.text(), theirs.text());
            return Some(format!("lookup of word {} from word {}: plain {ours}; library {theirs}", sought.selector, sought.class));
        }
    }
    None
}

/// Those of the events that a lookup shows: on the objects of a state, or the number by which the state is refused.
fn met(objects: Result<&Objects, u32>, sought: Sought) -> [bool; LOOKUPS.len()] {
    let mut met = [false; LOOKUPS.len()];
    let Sought { selector, class } = sought;
    let objects = match objects {
        Ok(objects) => objects,
        Err(number) => {
            met[if number == 3 { 20 } else { 21 }] = true;
            return met;
        }
    };
    let dictionaries: Vec<Vec<u16>> = objects.chain(class).map(|word| objects.selectors(word)).collect();
    if dictionaries.is_empty() {
        met[22] = true;
        return met;
    }
    let holds = |dictionary: &Vec<u16>| dictionary.contains(&selector);
    let found = dictionaries.iter().position(holds);
    let read = &dictionaries[..found.map_or(dictionaries.len(), |index| index + 1)];
    for dictionary in read {
        let (below, above) = (dictionary.iter().any(|other| *other < selector), dictionary.iter().any(|other| *other > selector));
        let (before, between, behind) = (above && !below, above && below, below && !above);
        let places = if holds(dictionary) { [false, before, false, between, behind, false] } else { [before, false, between, false, false, behind] };
        (0..places.len()).filter(|index| places[*index]).for_each(|index| met[index] = true);
        met[6] |= dictionary.len() == 1;
        met[7] |= dictionary.len() >= 8;
        met[8] |= dictionary.is_empty();
    }
    let left_early = |dictionary: &Vec<u16>| !holds(dictionary) && dictionary.iter().filter(|other| **other > selector).count() > 1;
    met[9] = found == Some(0);
    met[10] = dictionaries.iter().filter(|dictionary| holds(dictionary)).count() > 1;
    met[11] = found.is_some() && read.iter().any(left_early);
    met[12] = found == Some(MOST_CHAIN - 1);
    met[13] = found.is_none() && dictionaries.len() == MOST_CHAIN;
    met[14] = selector == NIL;
    met[15] = is_integer(selector);
    met[16] = selector == 0;
    met[17] = selector > 32_767 && !is_integer(selector);
    let pairs = objects.pairs_read(class, selector);
    met[18] = pairs > 255 && found.is_some();
    met[19] = pairs > 1_000;
    let twice = objects.reads_twice(class, read.len());
    met[23] = found == Some(1);
    met[24] = found.map_or(false, |index| (2..MOST_CHAIN - 1).contains(&index));
    met[25] = found.is_some() && twice;
    met[26] = found.is_none() && read.len() == 1;
    met[27] = found.is_none() && (2..MOST_CHAIN).contains(&read.len());
    met[28] = found.is_none() && twice;
    met
}

/// Lookups for a state, whose objects are these where they keep the rules, and that has so many.
pub fn some(random: &mut Random, objects: Option<&Objects>, n: usize) -> Call {
    let empty = Objects::default();
    let objects = objects.unwrap_or(&empty);
    let classes: Vec<u16> = (1..=objects.list.len()).map(pointer).filter(|word| objects.has_kind(*word, CLASS)).collect();
    let all = (0..random.from(4, 12)).map(|_| {
        let class = start(random, objects, &classes, n);
        Sought { selector: selector(random, objects, class, n), class }
    });
    Call::Lookups(all.collect())
}

/// Where a lookup starts: most often a class, the lowest of the longest chain more often than others.
fn start(random: &mut Random, objects: &Objects, classes: &[u16], n: usize) -> u16 {
    let lowest = classes.iter().copied().max_by_key(|word| objects.chain(*word).count());
    match (random.below(12), lowest) {
        (0, _) => random.pick(&[0, NIL, 1, pointer(n + 1), 65_534]),
        (1, Some(class)) => class.wrapping_add(random.pick(&[1, 2, 65_535])),
        (2..=4, Some(class)) => class,
        (5..=11, Some(_)) => random.pick(classes),
        _ => pointer(random.from(1, n)),
    }
}

/// What is sought from a class: most often what stands in the dictionaries of its chain, or lies beside it.
fn selector(random: &mut Random, objects: &Objects, class: u16, n: usize) -> u16 {
    let near: Vec<u16> = objects.chain(class).flat_map(|word| objects.selectors(word)).collect();
    let bytes: Vec<u16> = (1..=objects.list.len()).map(pointer).filter(|word| objects.has_kind(*word, BYTES)).collect();
    match random.below(12) {
        0..=2 if !near.is_empty() => random.pick(&near),
        3..=5 if !near.is_empty() => random.pick(&near).wrapping_add(random.pick(&[1, 2, 65_534, 65_535])),
        6 | 7 if !bytes.is_empty() => random.pick(&bytes),
        8 => random.pick(&[0, 65_535, 65_534, 32_768, pointer(n), pointer(n + 1)]),
        9 => NIL,
        10 => random.word(),
        11 => word(random.from(0, n) as i64).unwrap(),
        _ => pointer(random.from(1, n)),
    }
}

/// More pairs for each class, under selectors that no code sends, with one method for all of a class.
pub fn widen(random: &mut Random, draft: &mut Draft) {
    let classes: Vec<usize> = (0..draft.objects.len()).filter(|index| draft.objects[*index].kind == CLASS).collect();
    let (bytes, meta) = (draft.objects[draft.selector as usize / 2 - 1].class, draft.objects[classes[0]].class);
    let count = random.pick(&[10, 100, 300, 600, 1_200]);
    let first = draft.objects.len() + 1;
    draft.objects.extend((0..count).map(|_| Made { class: bytes, kind: BYTES, size: 0, body: vec![] }));
    let used: usize = draft.objects.iter().map(|made| made.body.len()).sum();
    let room = (MOST_BODY_WORDS - used - 3 * classes.len()) / 2 / classes.len();
    for class in classes {
        // Returns self.
        let body = vec![1, pointer(class + 1), 120 << 8];
        draft.objects.push(Made { class: meta, kind: METHOD, size: 5, body });
        let method = pointer(draft.objects.len());
        let chance = random.pick(&[0, 2, 30, 100, 100]);
        let selectors: Vec<u16> = (first..first + count).map(pointer).filter(|_| random.percent(chance)).take(room).collect();
        let dictionary = draft.objects[class].body[1] as usize / 2 - 1;
        let made = &mut draft.objects[dictionary];
        made.body.extend(selectors.iter().flat_map(|selector| [*selector, method]));
        made.size = made.body.len();
    }
}
