//! Sends that climb: a chain with methods of each kind at chosen heights, and handlers of its lowest class that send them in every way.

use crate::draft::*;
use crate::elements::{header, understand};
use crate::generate;
use crate::messages;
use crate::random::Random;
use crate::sides::*;
use apart::calls::{CACHE_WORDS, PHASE};
use apart::code::*;
use apart::machine::*;
use apart::objects::*;
use apart::play::*;
use apart::words::*;

/// Entries of the cache that were written from outside, each with what check gives.
pub const WRITTEN: [&str; 7] = [
    "a cache entry written: what lookup finds, accepted",
    "a cache entry written: one dictionary too many, refused",
    "a cache entry written: one dictionary too few, refused",
    "a cache entry written: no dictionary, refused",
    "a cache entry written: a number alone, refused",
    "a cache entry written: nothing is found, with the number of the chain, refused",
    "a cache entry written: 256 dictionaries too many, refused",
];

/// Lengths of a cache that no call takes, among them the one it had before entries had a number.
pub const OTHER_CACHES: [usize; 3] = [192, 255, 257];

/// Where a chain has methods, by the dictionaries that a lookup from its lowest class reads.
const HEIGHTS: [usize; 6] = [1, 2, 3, BETWEEN, 23, 24];
/// It stands for one of 4 to 22.
const BETWEEN: usize = 12;

/// A method that handlers send.
#[derive(Clone, Copy)]
struct Target {
    selector: u16,
    arguments: usize,
    height: usize,
    special: Option<usize>,
}

/// What is begun.
pub struct Climbing {
    receiver: u16,
    handlers: Vec<u16>,
}

impl Climbing {
    pub fn begin(&self, random: &mut Random) -> Call {
        Call::Begin { receiver: self.receiver, selector: random.pick(&self.handlers), arguments: vec![] }
    }
}

/// Adds a chain, its methods, and handlers with an object to begin them on.
pub fn add(random: &mut Random, draft: &mut Draft) -> Climbing {
    let bytes = draft.objects[draft.selector as usize / 2 - 1].class;
    let length = random.pick(&[1, 2, 3, 13, 22, 23, 24, 24, 24, 24, 24]);
    let classes = chain(draft, length);
    let mut targets = vec![];
    for height in HEIGHTS.into_iter().filter(|height| *height <= length) {
        let height = if height == BETWEEN { random.from(4, length.min(22)) } else { height };
        targets.extend((0..random.from(3, 4)).map(|_| put_target(random, draft, bytes, classes[height - 1], height)));
    }
    random.shuffle(&mut targets);
    put_specials(random, draft, &mut targets);
    if messages::is_able(draft) && random.percent(85) {
        let height = random.pick(&[1, 2, BETWEEN, 23, 24, 24]).min(length);
        put_under_6(random, draft, classes[height - 1]);
    }
    let mut handlers: Vec<u16> = (0..5).map(|_| put_handler(random, draft, bytes, classes[0], &targets)).collect();
    if let Some(target) = targets.iter().filter(|target| target.arguments == 0).max_by_key(|target| target.height) {
        handlers.push(put_loop(draft, bytes, classes[0], target.selector, 40));
    }
    let receiver = draft.add(classes[0], FIELDS, vec![word(7).unwrap()]);
    Climbing { receiver, handlers }
}

/// So many classes with a field, the lowest first. Those without methods share a dictionary, which is empty.
fn chain(draft: &mut Draft, length: usize) -> Vec<u16> {
    let meta = draft.objects[INTEGER_CLASS as usize / 2 - 1].class;
    let shared = draft.add(meta, LIST, vec![]);
    let mut classes = vec![];
    for _ in 0..length {
        let above = classes.last().copied().unwrap_or(NIL);
        classes.push(draft.add(meta, CLASS, vec![above, shared, word(1).unwrap(), word(0).unwrap()]));
    }
    classes.reverse();
    classes
}

/// A method under a selector of its own; the class gets a dictionary of its own with its first.
fn put(draft: &mut Draft, bytes: u16, class: u16, words: Vec<u16>, code: &[u8]) -> u16 {
    let selector = draft.add(bytes, BYTES, vec![]);
    put_under(draft, class, selector, words, code);
    selector
}

fn put_under(draft: &mut Draft, class: u16, selector: u16, words: Vec<u16>, code: &[u8]) {
    let (meta, list) = (draft.objects[class as usize / 2 - 1].class, draft.objects[class as usize / 2 - 1].body[1]);
    if draft.objects[list as usize / 2 - 1].body.is_empty() {
        draft.objects[class as usize / 2 - 1].body[1] = draft.add(meta, LIST, vec![]);
    }
    understand(draft, class, selector, words, code);
}

/// A method that answers by its flag, by a primitive, or gets a frame, with a primitive that fails or without.
fn put_target(random: &mut Random, draft: &mut Draft, bytes: u16, class: u16, height: usize) -> Target {
    let primitive = |number: u16, arguments: usize| vec![header(7, arguments, 2), class, (arguments << 9) as u16 | number << 1 | 1, NIL];
    let (arguments, words) = match random.below(10) {
        0 | 1 => (0, vec![header(5, 0, 0), class]),
        2 | 3 => (0, vec![header(6, 0, 0), class]),
        // class and == answer; size and at: fail on what has no elements.
        4 => (0, primitive(111, 0)),
        5 => (1, primitive(110, 1)),
        6 => (0, primitive(62, 0)),
        7 => (1, primitive(60, 1)),
        8 => (0, vec![header(0, 0, 0), class]),
        _ => (1, vec![header(1, 1, 0), class]),
    };
    let selector = put(draft, bytes, class, words, &[120]);
    Target { selector, arguments, height, special: None }
}

/// Most of the methods get a special send of their count.
fn put_specials(random: &mut Random, draft: &mut Draft, targets: &mut [Target]) {
    let mut free: Vec<usize> = (0..32).filter(|special| ![IDENTITY, CLASS_OF].contains(special)).collect();
    random.shuffle(&mut free);
    for target in targets.iter_mut().filter(|_| random.percent(75)) {
        if let Some(at) = free.iter().position(|special| special_arguments(*special) == target.arguments) {
            let special = free.remove(at);
            draft.objects[SPECIALS as usize / 2 - 1].body[special] = target.selector;
            target.special = Some(special);
        }
    }
}

/// == answers false, at: fails, and without a primitive there is a frame too.
fn put_under_6(random: &mut Random, draft: &mut Draft, class: u16) {
    let words = match random.below(3) {
        0 => vec![header(1, 1, 0), class],
        kind => vec![header(7, 1, 2), class, 1 << 9 | [110, 60][kind - 1] << 1 | 1, NIL],
    };
    put_under(draft, class, DOES_NOT_UNDERSTAND, words, &[16, 124]);
}

/// Sends of some of the methods to self, each once or twice; now and then one that nobody implements.
fn put_handler(random: &mut Random, draft: &mut Draft, bytes: u16, class: u16, targets: &[Target]) -> u16 {
    let mut literals: Vec<u16> = vec![NIL];
    let mut code = vec![];
    for _ in 0..random.from(3, 12) {
        let target = random.pick(targets);
        literals.push(target.selector);
        let sent = match random.below(12) {
            0 | 1 => vec![112, 208, 135],
            2 => vec![112, 133, 0, 135],
            _ => sending(random, &target, literals.len() - 1),
        };
        for _ in 0..random.from(1, 2) {
            code.extend(&sent);
        }
    }
    code.push(120);
    let mut words = vec![header(0, 0, literals.len()), class];
    words.extend(literals);
    put(draft, bytes, class, words, &code)
}

/// A send to self by one of the ways that there are, and its answer popped.
fn sending(random: &mut Random, target: &Target, literal: usize) -> Vec<u8> {
    let (arguments, literal) = (target.arguments as u8, literal as u8);
    let mut code = vec![112];
    code.extend(std::iter::repeat(117).take(target.arguments));
    match (random.below(8), target.special) {
        (0..=2, Some(special)) => code.push(176 + special as u8),
        (3, _) => code.extend([131, 32 * arguments + literal]),
        (4, _) => code.extend([132, arguments, literal]),
        // Above the lowest class.
        (5, _) if target.height > 1 => code.extend([133, 32 * arguments + literal]),
        (6, _) if target.height > 1 => code.extend([134, arguments, literal]),
        _ => code.push(208 + 16 * arguments + literal),
    }
    code.push(135);
    code
}

/// Sends so often to self, each time to what the send before answered, and goes on without end.
fn put_loop(draft: &mut Draft, bytes: u16, class: u16, selector: u16, sends: usize) -> u16 {
    let mut code = vec![112];
    code.resize(1 + sends, 208);
    code.push(135);
    let back = 1_024 - (code.len() + 2);
    code.extend([160 + (back / 256) as u8, (back % 256) as u8]);
    put(draft, bytes, class, vec![header(0, 0, 1), class, selector], &code)
}

/// Four words for the cache, where they go, and which of `WRITTEN` they are.
pub fn written(random: &mut Random, objects: &Objects, cache: &[u16]) -> Option<(usize, [u16; ENTRY_WORDS], Option<usize>)> {
    let classes: Vec<u16> = (1..=objects.list.len()).map(pointer).filter(|word| objects.has_kind(*word, CLASS)).collect();
    let class = random.pick(&classes);
    let near: Vec<u16> = objects.chain(class).flat_map(|word| objects.selectors(word)).collect();
    let bytes: Vec<u16> = (1..=objects.list.len()).map(pointer).filter(|word| objects.has_kind(*word, BYTES)).collect();
    // What is there, or what a lookup would put there.
    let filled: Vec<&[u16]> = cache.chunks(ENTRY_WORDS).filter(|entry| entry[0] != 0).collect();
    let (selector, class) = match random.below(4) {
        0 | 1 if !filled.is_empty() => {
            let entry = filled[random.below(filled.len())];
            (entry[0], entry[1])
        }
        2 if !near.is_empty() => (random.pick(&near), class),
        _ => (random.pick(&bytes), class),
    };
    let at = cache_index(selector, class);
    let number = objects.dictionaries_read(class, selector) as u16;
    let found = match objects.lookup(class, selector) {
        Some(found) => found.method,
        None => return Some((at, [selector, class, random.pick(&[0, 0, selector]), number], Some(5))),
    };
    let entry = |number: u16| [selector, class, found, number];
    Some(match random.below(10) {
        0 => (at, entry(number), Some(0)),
        // Anywhere, where no lookup goes.
        1 => (ENTRY_WORDS * random.below(CACHE_ENTRIES), entry(number), Some(0)),
        2 => (at, entry(number + 1), Some(1)),
        3 => (at, entry(number - 1), Some(if number == 1 { 3 } else { 2 })),
        4 => (at, entry(0), Some(3)),
        5 => (at, [0, 0, 0, number], Some(4)),
        6 => (ENTRY_WORDS * random.below(CACHE_ENTRIES), [0, 0, 0, random.pick(&[1, 24, 256, 65_535])], Some(4)),
        7 => (at, entry(number + 256), Some(6)),
        8 => (at, entry(random.word() | 32), None),
        _ => (at, [random.pick(&[0, selector]), random.pick(&[0, class]), random.pick(&[0, found]), random.pick(&[0, number])], None),
    })
}

/// More sends in a turn of the loop than a run of the plain machine could make often enough.
const SENDS: usize = 1_000;
const TURNS: u32 = 180_000;

/// A run of the library alone whose sum has more than 32 bits, singly and in a list: each turn has three bytecodes more than sends, and each send reads as many
/// dictionaries as a chain can have. What differs.
pub fn beyond_32_bits() -> Option<String> {
    let mut draft = generate::of_edition(&mut Random::new(0, 0), 1, false);
    let bytes = draft.objects[draft.selector as usize / 2 - 1].class;
    let classes = chain(&mut draft, MOST_CHAIN);
    let (low, top) = (classes[0], classes[MOST_CHAIN - 1]);
    let climbing = put(&mut draft, bytes, top, vec![header(5, 0, 0), top], &[]);
    let selector = put_loop(&mut draft, bytes, low, climbing, SENDS);
    let receiver = draft.add(low, FIELDS, vec![NIL]);
    let lengths = [8_188, 24_000, 18, CACHE_WORDS];
    let mut first = Buffers { words: lengths.map(|length| vec![0; length + GUARD]), lengths, registers: [0; 8] };
    let grant = TURNS * (SENDS as u32 + 3);
    let sum = TURNS as u64 * SENDS as u64 * MOST_CHAIN as u64;
    let (begin, run) = (Call::Begin { receiver, selector, arguments: vec![] }, Call::Run(grant));
    let loaded = library(&Call::Load(draft.image()), &mut first).number;
    let mut singly = first.clone();
    let began = library(&begin, &mut singly).number;
    let ran = library(&run, &mut singly);
    let given = (loaded, began, ran.number, singly.registers[PHASE], ran.count, ran.reach, ran.dictionaries);
    if given != (0, 0, 0, RUNNING, grant, 18, sum) {
        return Some(format!("a run of {grant} bytecodes whose sum of dictionaries is {sum}: numbers, phase, count, reach and sum are {given:?}"));
    }
    let list = Call::Play { words: [begin.words(), run.words()].concat(), room: 2 * ANSWER_WORDS };
    let answers = library(&list, &mut first).answers;
    let expected = [0, 1, grant, 0, 18, 1, sum as u32];
    let is_same = answers[ANSWER_WORDS..2 * ANSWER_WORDS] == expected;
    (!is_same).then(|| format!("the same run in a list: the answer is {:?}, not {expected:?}", &answers[ANSWER_WORDS..2 * ANSWER_WORDS]))
}
