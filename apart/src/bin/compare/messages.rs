//! Failed sends, in images whose objects 6 to 8 are those for messages: classes with and without a method under object 6, handlers that fail in each way, and
//! buffers that just have room for what is made, or just not.

use crate::cases::argument;
use crate::draft::*;
use crate::elements::{header, understand};
use crate::random::Random;
use crate::sides::Call;
use apart::code::*;
use apart::machine::MOST_STACK;
use apart::objects::*;
use apart::refusal::Refusal;
use apart::rules::{self, *};
use apart::words::*;

/// What images can show in which messages are right or wrong.
pub const IMAGES: [&str; 19] = [
    "load: edition 2 accepted",
    "load: edition 2 accepted, without a method under object 6",
    "load: edition 2 accepted, a list that is no dictionary has object 6 and a method of another count",
    "load: edition 1 accepted, objects 6 to 8 not those for messages",
    "load: edition 1 accepted, a method of another count under object 6",
    "load: edition 3, else right",
    "load: edition 2, 7 objects",
    "load: edition 2, 8 objects, not refused 2",
    "load: in edition 2 alone object 6 is no byte object",
    "load: in edition 2 alone object 7 is no class",
    "load: in edition 2 alone object 7 has another form",
    "load: in edition 2 alone object 7 has another F",
    "load: in edition 2 alone object 8 is no class",
    "load: in edition 2 alone object 8 has another form",
    "load: in edition 2 alone object 8 has another F",
    "load: in edition 2 alone methods under object 6 have flag 0, 2, 3 or 4",
    "load: in edition 2 alone methods under object 6 have flag 5",
    "load: in edition 2 alone methods under object 6 have flag 6",
    "load: in edition 2 alone methods under object 6 have flag 7 and another count",
];

/// The reasons of those of edition 2 alone, and those of a wrong header.
pub const REASONS: [(u32, &str); 10] = [
    (6, NO_SELECTOR),
    (6, NO_MESSAGES),
    (6, MESSAGE_FORM),
    (6, MESSAGE_FIELDS),
    (6, NO_ARRAYS),
    (6, ARRAY_FORM),
    (6, ARRAY_FIELDS),
    (7, NOT_ONE_ARGUMENT),
    (2, NO_EDITION),
    (2, TOO_FEW),
];
const FIRST_ALONE: usize = 8;
/// The reason of methods under object 6.
const COUNTS: usize = 7;

/// The edition of a state, changed to another.
pub const STATES: [&str; 4] = [
    "a state of edition 2 as one of edition 1, accepted",
    "a state of edition 1 as one of edition 2, accepted",
    "a state of an edition that there is not, refused",
    "a run in a state of edition 2 as one of edition 1",
];

/// Those of `IMAGES` that an image shows, with what it was refused by.
pub fn met(image: &[u8], refusal: Option<Refusal>) -> [bool; IMAGES.len()] {
    let mut met = [false; IMAGES.len()];
    let header = match rules::header(image) {
        Ok(header) if header.n <= MOST_OBJECTS && header.b <= MOST_BODY_WORDS => header,
        _ => return met,
    };
    let words: Vec<u16> = image[10..].chunks(2).map(|pair| u16::from_be_bytes([pair[0], pair[1]])).collect();
    let judged = |edition: u16| if header.n < 5 { None } else { judge(edition, &words[..4 * header.n], &words[4 * header.n..]).ok() };
    match (header.edition, refusal) {
        (1, None) => {
            if let Some(world) = judged(1) {
                met[3] = !objects_suit(&world.objects);
                met[4] = under_6(&world).any(|method| method.arguments != 1);
            }
        }
        (2, None) => {
            if let Some(world) = judged(2) {
                met[0] = true;
                met[1] = under_6(&world).next().is_none();
                met[2] = holds_6(&world);
            }
        }
        (3, Some(_)) => met[5] = judged(2).is_some(),
        (2, Some(refusal)) => {
            met[6] = header.n == 7;
            met[7] = header.n == 8 && refusal.number != 2;
            let reason = REASONS[..8].iter().position(|(number, why)| *number == refusal.number && *why == refusal.why);
            if let (Some(reason), Some(world)) = (reason, judged(1)) {
                let flags: Vec<u16> = under_6(&world).filter(|method| method.arguments != 1).map(|method| method.flag.max(4)).collect();
                match flags.first() {
                    Some(flag) if reason == COUNTS => met[FIRST_ALONE + COUNTS + *flag as usize - 4] = flags.iter().all(|other| other == flag),
                    _ => met[FIRST_ALONE + reason] = reason < COUNTS,
                }
            }
        }
        _ => {}
    }
    met
}

/// Whether objects 6 to 8 are those for messages.
fn objects_suit(objects: &Objects) -> bool {
    let is = |word: u16, form: i32, fields: usize| objects.class(word).map_or(false, |class| class.form == form && class.fields == fields);
    objects.has_kind(DOES_NOT_UNDERSTAND, BYTES) && is(MESSAGE_CLASS, 0, 2) && is(ARRAY_CLASS, 1, 0)
}

/// The methods under object 6.
fn under_6(world: &World) -> impl Iterator<Item = &Method> {
    let objects = &world.objects;
    let lists = objects.list.iter().filter(|object| object.kind == CLASS).filter_map(move |class| objects.get(class.body[1]));
    let pairs = lists.flat_map(|list| list.body.chunks(2)).filter(|pair| pair[0] == DOES_NOT_UNDERSTAND);
    pairs.map(move |pair| world.method(pair[1]))
}

/// Whether a list that is no dictionary has object 6 and then a method that does not take one argument.
fn holds_6(world: &World) -> bool {
    let objects = &world.objects;
    let is_dictionary = |list: u16| objects.list.iter().any(|object| object.kind == CLASS && object.body[1] == list);
    let other = |pair: &[u16]| pair[0] == DOES_NOT_UNDERSTAND && objects.has_kind(pair[1], METHOD) && world.method(pair[1]).arguments != 1;
    let holds = |list: u16| objects.get(list).map_or(false, |object| object.kind == LIST && object.body.chunks_exact(2).any(other));
    (1..=objects.list.len()).map(pointer).any(|list| holds(list) && !is_dictionary(list))
}

/// Whether objects 6 to 8 of a draft are those for messages.
pub fn is_able(draft: &Draft) -> bool {
    let class = |number: usize, fields: i64, form: i64| {
        let made = &draft.objects[number - 1];
        made.kind == CLASS && made.body[2..] == [word(fields).unwrap(), word(form).unwrap()]
    };
    draft.objects.len() >= 8 && draft.objects[5].kind == BYTES && class(7, 2, 0) && class(8, 0, 1)
}

/// Selectors that methods under object 6 send to the message and its array: fields 0 and 1, one whose method uses both, and at:, at:put: and size.
const USES: usize = 6;

/// What handlers speak of.
struct Added {
    uses: [u16; USES],
    /// Nobody implements it.
    unknown: u16,
    /// Found above the handlers: a field, a frame and a primitive that fails, with the count of each.
    above: [(u16, usize); 3],
    /// Special sends whose selector is nil, and unknown.
    specials: [usize; 2],
}

/// Adds classes: three in a chain, of which the middle one has methods for super sends to find and the lowest has handlers; one beside these, below the first;
/// and one by itself, with handlers too. Each may have a method under object 6.
pub fn add(random: &mut Random, draft: &mut Draft) {
    let (bytes, meta) = (draft.objects[draft.selector as usize / 2 - 1].class, draft.objects[INTEGER_CLASS as usize / 2 - 1].class);
    let mut selector = || draft.add(bytes, BYTES, vec![]);
    let uses = [(); USES].map(|_| selector());
    let (unknown, above) = (selector(), [(selector(), 0), (selector(), random.below(4)), (selector(), random.below(3))]);
    let able: Vec<usize> = (0..32).filter(|special| ![IDENTITY, CLASS_OF].contains(special)).collect();
    let specials = [random.pick(&able[..15]), random.pick(&able[16..])];
    let specials = if random.percent(50) { [specials[1], specials[0]] } else { specials };
    for (special, selector) in specials.into_iter().zip([NIL, unknown]) {
        draft.objects[SPECIALS as usize / 2 - 1].body[special] = selector;
    }
    let added = Added { uses, unknown, above, specials };
    put_uses(draft, &added);
    let mut class = |draft: &mut Draft, above: u16, fields: i64| {
        let dictionary = draft.add(meta, LIST, vec![]);
        draft.add(meta, CLASS, vec![above, dictionary, word(fields).unwrap(), word(random.pick(&[0, 1])).unwrap()])
    };
    let top = class(draft, NIL, 0);
    let middle = class(draft, top, 2);
    let low = class(draft, middle, 3);
    let other = class(draft, top, 1);
    let root = class(draft, NIL, 0);
    // == answers also where a frame would need another home.
    if random.percent(8) {
        understand(draft, middle, DOES_NOT_UNDERSTAND, vec![header(7, 1, 2), middle, 1 << 9 | 110 << 1 | 1, NIL], &[120]);
    }
    // Which have a method under object 6.
    for (class, chance) in [(top, 80), (middle, 20), (low, 35), (other, 40), (root, 50), (MESSAGE_CLASS, 60), (ARRAY_CLASS, 60), (INTEGER_CLASS, 60)]
    {
        if random.percent(chance) {
            put_under_6(random, draft, &added, class);
        }
    }
    put_above(random, draft, &added, middle);
    for home in [low, low, low, low, low, low, low, low, root, root] {
        put_handler(random, draft, &added, bytes, home);
    }
    for (class, fields) in [(top, 0), (middle, 2), (low, 3), (low, 3), (other, 1), (root, 0)] {
        let body = (0..fields).map(|field| word(900 + field).unwrap()).collect();
        draft.add(class, FIELDS, body);
    }
    if random.percent(20) {
        // No dictionary, so what the method takes does not matter.
        let method = draft.add(meta, METHOD, vec![]);
        draft.put_method(method, meta, vec![header(2, 2, 0), low], &[120]);
        draft.add(meta, LIST, vec![DOES_NOT_UNDERSTAND, method]);
    }
}

/// Methods of messages and arrays.
fn put_uses(draft: &mut Draft, added: &Added) {
    let [first, second, both, at, at_put, size] = added.uses;
    understand(draft, MESSAGE_CLASS, first, vec![header(6, 0, 0), MESSAGE_CLASS], &[]);
    understand(draft, MESSAGE_CLASS, second, vec![header(6, 1, 0), MESSAGE_CLASS], &[]);
    // Stores the array in both fields, answers the selector.
    understand(draft, MESSAGE_CLASS, both, vec![header(0, 0, 0), MESSAGE_CLASS], &[0, 1, 96, 124]);
    for (selector, primitive, arguments) in [(at, 60, 1), (at_put, 61, 2), (size, 62, 0)] {
        let extension = (arguments << 9 | primitive << 1 | 1) as u16;
        understand(draft, ARRAY_CLASS, selector, vec![header(7, arguments, 2), ARRAY_CLASS, extension, NIL], &[120]);
    }
}

/// A method under object 6: with a primitive or without, of a small frame or a large one, with more temporaries or without. Most use the message.
fn put_under_6(random: &mut Random, draft: &mut Draft, added: &Added, class: u16) {
    let large = random.percent(25);
    let temporaries = random.pick(&[1, 1, 1, 2, 3, if large { 29 } else { 9 }]);
    let mut literals = added.uses.to_vec();
    literals.push(added.unknown);
    let to_array: &[u8] = &[16, 209];
    let code = match random.below(14) {
        0..=2 => vec![16, 124],
        3 => vec![16, 208, 124],
        4 => [to_array, &[118, 227, 124]].concat(),
        5 => [to_array, &[213, 124]].concat(),
        6 => [to_array, &[118, 112, 244, 124]].concat(),
        7 | 8 => vec![16, 210, 124],
        // Fails again: with the message as argument, to the message, to its array.
        9 => vec![112, 16, 230, 124],
        10 => vec![16, 214, 124],
        11 => [to_array, &[214, 124]].concat(),
        // The last temporary is nil, or the message.
        12 => vec![128, 64 + temporaries as u8 - 1, 124],
        _ => vec![120],
    };
    let flag = if random.percent(35) { 7 } else { 1 };
    if flag == 7 {
        let primitive = random.pick(&[110, 110, 110, 1, 3, 9, 17, 60, 60, 61, 62, 70, 71, 71, 111, 0, 18, 255]);
        literals.extend([1 << 9 | primitive << 1 | 1, NIL]);
    }
    let mut words = vec![header(flag, temporaries, literals.len()) | (large as u16) << 7, class];
    words.extend(literals);
    understand(draft, class, DOES_NOT_UNDERSTAND, words, &code);
}

/// What super sends of handlers find: field 1, a method that needs a frame, and a primitive that fails, or answers now and then.
fn put_above(random: &mut Random, draft: &mut Draft, added: &Added, class: u16) {
    let [(field, _), (frame, of_frame), (failing, of_failing)] = added.above;
    understand(draft, class, field, vec![header(6, 1, 0), class], &[]);
    understand(draft, class, frame, vec![header(of_frame, of_frame, 0), class], &[120]);
    let primitive = random.pick(&[[62, 62, 70], [60, 1, 71], [61, 61, 61]][of_failing]);
    let extension = (of_failing << 9) as u16 | primitive << 1 | 1;
    understand(draft, class, failing, vec![header(7, of_failing, 2), class, extension, NIL], &[120]);
}

/// A handler whose send fails, most often to the handler's argument, or self where it has none.
fn put_handler(random: &mut Random, draft: &mut Draft, added: &Added, bytes: u16, home: u16) {
    let own = draft.add(bytes, BYTES, vec![]);
    let large = random.percent(40);
    let room = if large { 32 } else { 12 };
    let own_count = if random.percent(80) { 1 } else { 0 };
    let most = room - 1 - own_count;
    let is_root = draft.objects[home as usize / 2 - 1].body[0] == NIL;
    // Special sends have their own counts, and so have methods that are found.
    let special = random.pick(&added.specials);
    let arithmetic = random.from(0, 15);
    let any = if random.percent(25) { most } else { random.pick(&[0, 0, 1, 1, 2, 2, 3, 4, 7, 8]) }.min(most);
    let (selector, count, by) = match random.below(if is_root { 4 } else { 15 }) {
        0 if is_root => (random.pick(&[NIL, added.unknown, DOES_NOT_UNDERSTAND]), 1, Sent::Super),
        0 => (DOES_NOT_UNDERSTAND, 1, random.pick(&[Sent::Plain, Sent::Super])),
        1 | 2 => (NIL, special_arguments(special), Sent::Special(special)),
        3 => (NIL, 1, Sent::Special(arithmetic)),
        4 => (NIL, any, random.pick(&[Sent::Plain, Sent::Super])),
        5 | 6 => (added.unknown, any, Sent::Plain),
        7 | 8 => (added.unknown, any, Sent::Super),
        found => {
            let (selector, count) = added.above[found % 3];
            (selector, count, Sent::Super)
        }
    };
    let count = count.min(most);
    // Operands fill the frame where there are as many other temporaries as that takes.
    let temporaries = if random.percent(40) { room - 1 - count } else { own_count }.min(31);
    let receiver = if own_count == 1 { random.pick(&[16, 16, 16, 112, 117]) } else { random.pick(&[112, 112, 117]) };
    let mut code = vec![receiver];
    let pushes = [112, if own_count == 1 { 16 } else { 113 }, 115, 116, 117, 118, 119];
    code.extend((0..count).map(|_| random.pick(&pushes)));
    match by {
        Sent::Special(special) => code.push(176 + special as u8),
        Sent::Super => code.extend([134, count as u8, 0]),
        Sent::Plain if count < 3 => code.push(208 + 16 * count as u8),
        Sent::Plain => code.extend([132, count as u8, 0]),
    }
    code.push(124);
    let words = vec![header(own_count, temporaries, 1) | (large as u16) << 7, home, selector];
    understand(draft, home, own, words, &code);
}

#[derive(Clone, Copy)]
enum Sent {
    Plain,
    Special(usize),
    Super,
}

/// A handler as `put_handler` makes them, with what it is begun with; and how many arguments its send has.
pub struct Handler {
    pub method: u16,
    pub receiver: u16,
    pub selector: u16,
    pub arguments: Vec<u16>,
    pub count: usize,
}

impl Handler {
    pub fn begin(&self) -> Call {
        Call::Begin { receiver: self.receiver, selector: self.selector, arguments: self.arguments.clone() }
    }

    /// Its frame, of which no bytecode was made.
    pub fn frame(&self, world: &World) -> Vec<u16> {
        let mut frame = vec![0, 0, 0, self.method, 0, self.receiver];
        frame.extend(&self.arguments);
        frame.resize(6 + world.method(self.method).room(), NIL);
        frame
    }
}

/// The count of the send before the return, in code without jumps.
fn sent_last(code: &[u8]) -> Option<usize> {
    let (mut at, mut last) = (0, None);
    while let Some((instruction, next)) = decode(code, at).filter(|(_, next)| *next < code.len()) {
        (at, last) = (next, Some(instruction));
    }
    match last? {
        Instruction::Special(special) => Some(special_arguments(special)),
        Instruction::Send { arguments, .. } | Instruction::SuperSend { arguments, .. } => Some(arguments),
        _ => None,
    }
}

/// One of the handlers.
pub fn handler(random: &mut Random, world: &World) -> Option<Handler> {
    let objects = &world.objects;
    let n = objects.list.len();
    let classes = (1..=n).map(pointer).filter(|word| objects.has_kind(*word, CLASS));
    let pairs = classes.flat_map(|class| objects.get(objects.class(class).unwrap().dictionary).unwrap().body.chunks(2));
    let is_handler = |method: &Method| method.flag < 2 && method.literals.len() == 1 && method.code.ends_with(&[124]);
    let found: Vec<(u16, u16, usize)> = pairs
        .filter(|pair| is_handler(world.method(pair[1])))
        .filter_map(|pair| Some((pair[0], pair[1], sent_last(&world.method(pair[1]).code)?)))
        .collect();
    if found.is_empty() {
        return None;
    }
    let (selector, method, count) = random.pick(&found);
    let home = world.method(method).home;
    let receiver = (1..=n).map(pointer).find(|word| objects.class_of(*word) == home)?;
    // Of another class below the same: what a super send finds may be none for them.
    let in_home = |word: u16| objects.chain(home).any(|class| class == word);
    let related = |word: &u16| !objects.in_chain(*word, home) && objects.chain(objects.class_of(*word)).any(in_home);
    let relatives: Vec<u16> = (1..=n).map(pointer).filter(|word| objects.has_kind(*word, FIELDS) && related(word)).collect();
    let argument = match random.below(12) {
        4..=7 if !relatives.is_empty() => random.pick(&relatives),
        0 => receiver,
        1 => argument(random, n),
        2 => word(random.from(0, 3) as i64).unwrap(),
        3 => random.pick(&[NIL, MESSAGE_CLASS, pointer(n), pointer(n - 1)]),
        // The last objects of an image are those that were added; then come messages and arrays.
        _ => {
            let near: Vec<u16> = (1..=n).map(pointer).filter(|word| objects.has_kind(*word, FIELDS)).collect();
            near[near.len() - 1 - random.below(near.len().min(9))]
        }
    };
    Some(Handler { method, receiver, selector, arguments: vec![argument; world.method(method).arguments], count })
}

/// Lengths of contents, bodies and stack for a handler whose send has so many arguments, begun and not yet run: most often what it needs, or a little less.
pub fn lengths(random: &mut Random, [n, b, end]: [usize; 3], count: usize, most: [usize; 4]) -> [usize; 4] {
    let contents = 4 * (n + 2);
    let bodies = b + count + 2;
    let frame = end + random.pick(&[18, 18, 38]);
    let contents = if random.percent(40) { contents - random.pick(&[0, 0, 0, 1, 1, 4, 8]) } else { most[0] };
    let bodies = if random.percent(40) { bodies - random.pick(&[0, 0, 0, 1, 1, 2]) } else { most[1] };
    let stack = if random.percent(40) { frame - random.pick(&[0, 0, 1, 1, 18]) } else { most[2] };
    [contents.min(most[0]), bodies.min(most[1]), stack.min(most[2]), most[3]]
}

/// Where a handler's frame ends so that the next one ends at the last word that there can be, or would behind it.
pub fn tall_end(random: &mut Random) -> usize {
    MOST_STACK - random.pick(&[0, 18, 18, 38])
}

/// Another object in the place of object 6, 7 or 8, everywhere: else nothing is wrong with the image. For a class most often one that may differ in form or F
/// alone.
pub fn swap(random: &mut Random, draft: &mut Draft) {
    let number = random.from(6, 8);
    let alike = |made: &Made| made.kind == CLASS && [word(0), word(1)].contains(&Some(made.body[3]));
    let classes: Vec<usize> = (9..=draft.objects.len()).filter(|other| alike(&draft.objects[other - 1])).collect();
    let any = random.from(9, draft.objects.len());
    let other = if number > 6 && !classes.is_empty() && random.percent(75) { random.pick(&classes) } else { any };
    exchange(draft, pointer(number), pointer(other));
}

/// Exchanges two objects, and their words wherever they stand.
fn exchange(draft: &mut Draft, one: u16, other: u16) {
    let exchanged = |word: u16| match word {
        _ if word == one => other,
        _ if word == other => one,
        _ => word,
    };
    draft.objects.swap(one as usize / 2 - 1, other as usize / 2 - 1);
    draft.receiver = exchanged(draft.receiver);
    draft.selector = exchanged(draft.selector);
    for made in &mut draft.objects {
        made.class = exchanged(made.class);
        let words = match made.kind {
            FIELDS | CLASS | LIST => 0..made.body.len(),
            METHOD => 1..(2 + (made.body[0] >> 1 & 63) as usize).min(made.body.len()),
            _ => 0..0,
        };
        made.body[words].iter_mut().for_each(|word| *word = exchanged(*word));
    }
    let dictionaries: Vec<u16> = draft.objects.iter().filter(|made| made.kind == CLASS).map(|made| made.body[1]).collect();
    for dictionary in dictionaries {
        let made = &mut draft.objects[dictionary as usize / 2 - 1];
        let mut pairs: Vec<Vec<u16>> = made.body.chunks(2).map(|pair| pair.to_vec()).collect();
        pairs.sort();
        made.body = pairs.concat();
    }
}

/// Another count for all methods under object 6, or for the one that is left there: flags 5 to 7, or 0 to 4 with code that any of these can have.
pub fn other_count(random: &mut Random, draft: &mut Draft) {
    let classes: Vec<usize> = (0..draft.objects.len()).filter(|index| draft.objects[*index].kind == CLASS).collect();
    let list_of = |draft: &Draft, class: usize| draft.objects[class].body[1] as usize / 2 - 1;
    let has = |class: &usize| draft.objects[list_of(draft, *class)].body.chunks(2).any(|pair| pair[0] == DOES_NOT_UNDERSTAND);
    let having: Vec<usize> = classes.into_iter().filter(has).collect();
    if having.is_empty() {
        return;
    }
    let with_fields: Vec<usize> = having.iter().copied().filter(|class| draft.objects[*class].body[2] != word(0).unwrap()).collect();
    let left = if random.percent(50) { Some(random.pick(if with_fields.is_empty() { &having } else { &with_fields })) } else { None };
    let (count, shape) = (random.pick(&[0, 0, 0, 2, 3, 9]), random.below(4));
    for class in having {
        let list = list_of(draft, class);
        let at = 2 * draft.objects[list].body.chunks(2).position(|pair| pair[0] == DOES_NOT_UNDERSTAND).unwrap();
        if left.map_or(false, |left| left != class) {
            draft.objects[list].body.drain(at..at + 2);
            draft.objects[list].size -= 2;
            continue;
        }
        let method = draft.objects[list].body[at + 1];
        let made = draft.objects[method as usize / 2 - 1].clone();
        let words = match shape {
            0 if count == 0 => vec![header(5, 3, 0), made.body[1]],
            1 if count == 0 && with_fields.contains(&class) => vec![header(6, 0, 0), made.body[1]],
            2 if count < 5 => vec![header(count, count, 0), made.body[1]],
            _ => vec![header(7, count, 2), made.body[1], (count << 9 | 110 << 1 | 1) as u16, NIL],
        };
        draft.put_method(method, made.class, words, &[120]);
    }
    // Sends of object 6 would have another count.
    let sends_6 = |made: &Made| made.kind == METHOD && made.body.contains(&DOES_NOT_UNDERSTAND);
    for index in (0..draft.objects.len()).filter(|index| sends_6(&draft.objects[*index])).collect::<Vec<usize>>() {
        let made = &mut draft.objects[index];
        let literals = 2 + (made.body[0] >> 1 & 63) as usize;
        made.body[2..literals].iter_mut().filter(|word| **word == DOES_NOT_UNDERSTAND).for_each(|word| *word = NIL);
    }
    let specials = &mut draft.objects[SPECIALS as usize / 2 - 1].body;
    specials.iter_mut().filter(|word| **word == DOES_NOT_UNDERSTAND).for_each(|word| *word = NIL);
}

/// Words of a state that make objects 6 to 8 wrong, and where: buffer, index, words.
pub fn spoiled_words(random: &mut Random, objects: &Objects) -> Option<(usize, usize, Vec<u16>)> {
    let start = |class: u16| objects.get(class).map(|object| object.start as usize);
    let integer_word = |n: i64| word(n).unwrap();
    let under_6 = objects.list.iter().filter(|object| object.kind == CLASS).find_map(|class| {
        let dictionary = objects.get(class.body[1])?;
        dictionary.body.chunks(2).find(|pair| pair[0] == DOES_NOT_UNDERSTAND).and_then(|pair| objects.get(pair[1]))
    });
    match random.below(8) {
        // So few objects that there are none of the three.
        7 => Some((4, 0, vec![random.pick(&[5, 7])])),
        // Another flag, and so another count.
        6 => under_6.map(|method| (1, method.start as usize, vec![method.body[0] ^ random.pick(&[1 << 13, 3 << 13])])),
        // An object without words, of arrays' class.
        0 => Some((0, 4 * 5, vec![ARRAY_CLASS, FIELDS])),
        1 => Some((1, start(MESSAGE_CLASS)? + 3, vec![integer_word(random.from(1, 3) as i64)])),
        2 => Some((1, start(MESSAGE_CLASS)? + 2, vec![integer_word(random.pick(&[0, 1, 3, 255]))])),
        3 => Some((1, start(ARRAY_CLASS)? + 3, vec![integer_word(random.pick(&[0, 2, 3]))])),
        4 => Some((1, start(ARRAY_CLASS)? + 2, vec![integer_word(random.pick(&[1, 2, 255]))])),
        // Another kind, of which the body stays.
        _ => Some((0, 4 * random.from(6, 7) + 1, vec![random.pick(&[FIELDS, LIST])])),
    }
}
