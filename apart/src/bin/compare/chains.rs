//! Chains near the limit of 24 classes: long ones, circles, and such as end at an object that is no class.

use crate::draft::*;
use crate::random::Random;
use apart::objects::*;
use apart::refusal::Faults;
use apart::rules;
use apart::words::*;

/// What the chains of an image can show when it is loaded.
pub const CHAINS: [&str; 12] = [
    "load: accepted, the longest chain 23 classes",
    "load: accepted, the longest chain 24 classes",
    "load: accepted, 24 classes and then nil, whose first field is a class",
    "load: refused 14, the longest chain 25 classes",
    "load: refused 14, a chain of more than 25 classes that ends",
    "load: refused 14, a class that is its own superclass",
    "load: refused 14, a circle of up to 24 classes",
    "load: refused 14, a circle of more than 24 classes",
    "load: refused 14, a chain into a circle",
    "load: refused 14, and a rule of 6 is broken too",
    "load: refused 5, and the rule of 14 is broken too",
    "load: refused 6, up to 24 classes and then an object that is none and names a class first",
];

/// Those of them that an image shows, which is refused by this number or, by 0, accepted.
pub fn met(image: &[u8], number: u32) -> [bool; CHAINS.len()] {
    let mut met = [false; CHAINS.len()];
    let header = match rules::header(image) {
        Ok(header) if [0, 5, 14, 6].contains(&number) => header,
        _ => return met,
    };
    let words: Vec<u16> = image[10..].chunks(2).map(|pair| u16::from_be_bytes([pair[0], pair[1]])).collect();
    let objects = match rules::layout(&words[..4 * header.n], &words[4 * header.n..]) {
        Ok(objects) => objects,
        Err(_) => return met,
    };
    let is_broken = |number: u32| {
        let mut faults = Faults::new(number);
        rules::TESTS.iter().find(|test| test.0 == number).unwrap().1(header.edition, &objects, &mut faults);
        !faults.list.is_empty()
    };
    let chains: Vec<Chain> = (1..=header.n).map(pointer).filter(|word| objects.has_kind(*word, CLASS)).map(|word| chain(&objects, word)).collect();
    let longest = chains.iter().map(|chain| if chain.round == 0 { chain.classes } else { usize::MAX }).max().unwrap_or(0);
    let circle = |wanted: std::ops::RangeInclusive<usize>| chains.iter().any(|chain| wanted.contains(&chain.round));
    // Where a walk would go on that takes no notice of kinds.
    let names_class =
        |word: u16| objects.get(word).map_or(false, |object| object.body.first().map_or(false, |first| objects.has_kind(*first, CLASS)));
    match number {
        0 => {
            met[0] = longest == 23;
            met[1] = longest == 24;
            met[2] = chains.iter().any(|chain| chain.classes == 24 && names_class(chain.end));
        }
        14 => {
            met[3] = longest == 25;
            met[4] = chains.iter().any(|chain| chain.round == 0 && chain.classes > 25);
            met[5] = circle(1..=1);
            met[6] = circle(2..=24);
            met[7] = circle(25..=MOST_OBJECTS);
            met[8] = chains.iter().any(|chain| chain.round > 0 && chain.classes > chain.round);
            met[9] = is_broken(6);
        }
        5 => met[10] = is_broken(14),
        _ => met[11] = chains.iter().any(|chain| chain.end != NIL && names_class(chain.end)),
    }
    met
}

/// How many classes there are, how many of them make a circle, and else the word at the end.
struct Chain {
    classes: usize,
    round: usize,
    end: u16,
}

fn chain(objects: &Objects, class: u16) -> Chain {
    let mut classes: Vec<u16> = vec![];
    for word in objects.chain(class) {
        if let Some(first) = classes.iter().position(|known| *known == word) {
            return Chain { classes: classes.len(), round: classes.len() - first, end: NIL };
        }
        classes.push(word);
    }
    let last = classes[classes.len() - 1];
    Chain { classes: classes.len(), round: 0, end: objects.class(last).unwrap().superclass }
}

/// So many classes with an empty dictionary, fields and form as those of a class, each below the one before, the first below a word.
fn add_classes(draft: &mut Draft, above: u16, like: usize, count: usize) -> Vec<u16> {
    let Made { class: meta, body, .. } = draft.objects[like].clone();
    let dictionary = draft.add(meta, LIST, vec![]);
    let mut classes: Vec<u16> = vec![];
    for _ in 0..count {
        let superclass = classes.last().copied().unwrap_or(above);
        classes.push(draft.add(meta, CLASS, vec![superclass, dictionary, body[2], body[3]]));
    }
    classes
}

/// The number of classes in a chain that ends.
pub fn length(draft: &Draft, class: usize) -> usize {
    let mut at = class;
    for length in 1..=draft.objects.len() {
        let above = draft.objects[at].body[0];
        if is_integer(above) || draft.objects[above as usize / 2 - 1].kind != CLASS {
            return length;
        }
        at = above as usize / 2 - 1;
    }
    draft.objects.len()
}

/// More classes below one of a right image: too long, a circle, or what ends at an object that is no class.
pub fn spoil(random: &mut Random, draft: &mut Draft) {
    let classes: Vec<usize> = (0..draft.objects.len()).filter(|index| draft.objects[*index].kind == CLASS).collect();
    let class = random.pick(&classes);
    let many = if random.percent(2) { 1_500 } else { 40 };
    match random.below(8) {
        0..=2 => {
            let wanted: usize = random.pick(&[23, 24, 24, 25, 25, 26, many]);
            let count = wanted.saturating_sub(length(draft, class));
            let lowest = add_classes(draft, pointer(class + 1), class, count).last().copied();
            instance(draft, lowest);
        }
        3 | 4 => {
            let circle = add_classes(draft, NIL, class, random.pick(&[1, 1, 2, 3, 24, 25, 30, many]));
            draft.objects[circle[0] as usize / 2 - 1].body[0] = circle[circle.len() - 1];
            if random.percent(50) {
                let count = random.from(1, 30);
                add_classes(draft, random.pick(&circle), class, count);
            }
        }
        // Itself, or whatever is below it.
        5 => {
            let below = if random.percent(50) { class } else { random.pick(&classes) };
            draft.objects[class].body[0] = pointer(1 + below);
        }
        6 => {
            let end = no_class(random, draft, pointer(class + 1));
            add_classes(draft, end, class, random.pick(&[1, 5, 12, 23, 24, 24, 25, 26]));
        }
        _ => {
            nil_names(draft, class);
            let lowest = add_classes(draft, NIL, class, random.pick(&[23, 24, 24, 25])).last().copied();
            instance(draft, lowest);
        }
    }
}

/// An object of a class of forms 0 and 1, with nil in its fields.
fn instance(draft: &mut Draft, class: Option<u16>) {
    if let Some(class) = class {
        let body = &draft.objects[class as usize / 2 - 1].body;
        if body[3] == word(0).unwrap() || body[3] == word(1).unwrap() {
            let fields = integer(body[2]) as usize;
            draft.add(class, FIELDS, vec![NIL; fields]);
        }
    }
}

/// An integer, or an object that looks as a class does whose superclass is this one, but has another kind.
fn no_class(random: &mut Random, draft: &mut Draft, class: u16) -> u16 {
    let Made { class: meta, body, .. } = draft.objects[class as usize / 2 - 1].clone();
    let like = vec![class, body[1], body[2], body[3]];
    let bytes = draft.objects[draft.selector as usize / 2 - 1].class;
    match random.below(5) {
        0 => class + 1,
        1 => draft.add(meta, LIST, like),
        2 => draft.add(bytes, BYTES, like),
        3 => pointer(1 + random.below(draft.objects.len())),
        _ => draft.add(random.pick(&[class, meta]), FIELDS, like),
    }
}

/// nil gets fields, of which the first is a class.
fn nil_names(draft: &mut Draft, class: usize) {
    let Made { class: meta, body, .. } = draft.objects[class].clone();
    let dictionary = draft.add(meta, LIST, vec![]);
    let of = draft.add(meta, CLASS, vec![NIL, dictionary, word(4).unwrap(), word(0).unwrap()]);
    draft.put(NIL, of, FIELDS, vec![pointer(class + 1), dictionary, body[2], body[3]]);
}
