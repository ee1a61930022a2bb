//! Elements behind named fields: classes of form 1 with few and many fields, objects of them with no, one and several elements, methods with the primitives
//! 60 to 62, handlers that use these, and calls with indices that matter.

use crate::cases::argument;
use crate::chains;
use crate::draft::*;
use crate::random::Random;
use crate::sides::Call;
use apart::objects::*;
use apart::rules::World;
use apart::words::*;

/// F moved: what it is has to be read from the class at each call.
pub const MOVED: [&str; 2] = ["at:, at:put: or size in a damaged image with another F", "at:, at:put: or size in a state with another F"];

/// Numbers of fields of classes that are each below the one before.
const FIELDS_OF: [&[usize]; 12] =
    [&[0, 0], &[1], &[255], &[0, 1], &[1, 2], &[0, 255], &[3, 255], &[1, 1, 255], &[1, 9, 254], &[0, 1, 20, 255], &[2, 2, 3], &[0, 1, 255, 255]];

/// Special sends 192, 193 and 194, with the primitive and the count of arguments.
const ACCESSORS: [(usize, u16, usize); 3] = [(16, 60, 1), (17, 61, 2), (18, 62, 0)];

/// What is added to an image.
struct Added {
    /// Selectors of the special sends in `ACCESSORS`.
    selectors: [u16; 3],
    /// Of a handler that takes an index, and of a method that answers a field.
    handler: u16,
    field: u16,
}

/// Adds classes with elements, each below the one before, and what belongs to them. Where `large`, there is an object with about as many elements as can be.
pub fn add(random: &mut Random, draft: &mut Draft, large: bool) {
    let (bytes, meta) = (draft.objects[draft.selector as usize / 2 - 1].class, draft.objects[INTEGER_CLASS as usize / 2 - 1].class);
    let selectors = ACCESSORS.map(|(special, _, _)| special_selector(draft, special, bytes));
    let (handler, field) = (draft.add(bytes, BYTES, vec![]), draft.add(bytes, BYTES, vec![]));
    let added = Added { selectors, handler, field };
    let fields = random.pick(&FIELDS_OF);
    let mut above = superclass(random, draft, fields[0], fields.len());
    let mut classes = vec![];
    for (index, count) in fields.iter().enumerate() {
        let dictionary = draft.add(meta, LIST, vec![]);
        let class = draft.add(meta, CLASS, vec![above, dictionary, integer_word(*count), integer_word(1)]);
        put_methods(random, draft, &added, class, *count, index == 0);
        for _ in 0..random.from(1, 4) {
            let more = random.pick(&[0, 0, 1, 1, 2, 3, 6]);
            put_object(random, draft, class, count + more);
        }
        classes.push((class, *count));
        above = class;
    }
    // Others that have no elements, and byte objects, understand the messages too.
    for class in [meta, INTEGER_CLASS, bytes, draft.objects[0].class] {
        if random.percent(40) {
            put_accessors(random, draft, &added, class, 100);
        }
    }
    if large {
        put_large(random, draft, &added, bytes, &classes);
    }
}

/// An object of about as many elements as can be: bytes, or of one of these classes, which stand here with their F.
fn put_large(random: &mut Random, draft: &mut Draft, added: &Added, bytes: u16, classes: &[(u16, usize)]) {
    let count = random.pick(&[16_382, 16_383, 16_383, 16_384, 16_384, 16_385]);
    let used: usize = draft.objects.iter().map(|made| made.body.len()).sum();
    let (class, fields) = random.pick(classes);
    if random.percent(25) {
        put_accessors(random, draft, added, bytes, 100);
        let own = draft.add(bytes, BYTES, vec![]);
        draft.put_bytes(own, bytes, &vec![random.byte(); count]);
    } else if used + fields + count <= MOST_BODY_WORDS {
        put_object(random, draft, class, fields + count);
    }
}

fn integer_word(n: usize) -> u16 {
    word(n as i64).unwrap()
}

/// The selector of a special send; where it is nil it gets one.
fn special_selector(draft: &mut Draft, special: usize, bytes: u16) -> u16 {
    let at = |draft: &mut Draft| draft.objects[SPECIALS as usize / 2 - 1].body[special];
    if at(draft) == NIL {
        let selector = draft.add(bytes, BYTES, vec![]);
        draft.objects[SPECIALS as usize / 2 - 1].body[special] = selector;
    }
    at(draft)
}

/// nil, or a class with no more fields below which there is room for so many in a chain.
fn superclass(random: &mut Random, draft: &Draft, fields: usize, count: usize) -> u16 {
    let able = |index: &usize| {
        let made = &draft.objects[*index];
        made.kind == CLASS && integer(made.body[2]) <= fields as i32 && chains::length(draft, *index) + count <= MOST_CHAIN
    };
    let able: Vec<usize> = (0..draft.objects.len()).filter(able).collect();
    if able.is_empty() || random.percent(30) {
        NIL
    } else {
        pointer(1 + random.pick(&able))
    }
}

/// An object whose words are integers, each another, so that a word from the wrong place is seen.
fn put_object(random: &mut Random, draft: &mut Draft, class: u16, size: usize) {
    let first = random.below(8_000);
    let body = (0..size).map(|index| integer_word((first + index) % 16_384)).collect();
    draft.add(class, FIELDS, body);
}

/// Puts a method into the dictionary of a class that has none under the selector.
pub fn understand(draft: &mut Draft, class: u16, selector: u16, words: Vec<u16>, code: &[u8]) {
    let list = draft.objects[class as usize / 2 - 1].body[1] as usize / 2 - 1;
    let meta = draft.objects[class as usize / 2 - 1].class;
    let at = match draft.objects[list].body.chunks(2).position(|pair| pair[0] >= selector) {
        Some(at) if draft.objects[list].body[2 * at] == selector => return,
        Some(at) => 2 * at,
        None => draft.objects[list].body.len(),
    };
    let method = draft.add(meta, METHOD, vec![]);
    draft.put_method(method, meta, words, code);
    let dictionary = &mut draft.objects[list];
    dictionary.body.splice(at..at, [selector, method]);
    dictionary.size = dictionary.body.len();
}

pub fn header(flag: usize, temporaries: usize, literals: usize) -> u16 {
    (flag << 13 | temporaries << 8 | literals << 1 | 1) as u16
}

/// Methods with the primitives, each so often in percent; their code is for a failure.
fn put_accessors(random: &mut Random, draft: &mut Draft, added: &Added, class: u16, chance: usize) {
    for ((_, primitive, arguments), selector) in ACCESSORS.into_iter().zip(added.selectors) {
        if random.percent(chance) {
            let extension = (arguments as u16) << 9 | primitive << 1 | 1;
            let code = if arguments > 0 && random.percent(50) { vec![16, 124] } else { vec![random.pick(&[120, 121, 122, 123])] };
            understand(draft, class, selector, vec![header(7, arguments, 2), class, extension, NIL], &code);
        }
    }
}

fn put_methods(random: &mut Random, draft: &mut Draft, added: &Added, class: u16, fields: usize, is_first: bool) {
    put_accessors(random, draft, added, class, if is_first { 95 } else { 30 });
    if fields > 0 {
        let field = random.below(fields.min(32));
        understand(draft, class, added.field, vec![header(6, field, 0), class], &[]);
    }
    if is_first || random.percent(70) {
        let mut words = vec![header(1, 2, 3), class];
        words.extend(added.selectors);
        let code = handler(random, fields, !is_first);
        understand(draft, class, added.handler, words, &code);
    }
}

/// Code that uses self: temporary 0 is an index, literals 0 to 2 are the selectors.
fn handler(random: &mut Random, fields: usize, super_sends: bool) -> Vec<u8> {
    let mut code = vec![];
    for _ in 0..random.from(2, 7) {
        let field = random.below(fields.clamp(1, 8)) as u8;
        match random.below(9) {
            0 | 1 => code.extend(accessing(random, 0, super_sends)),
            2..=4 => code.extend(accessing(random, 1, super_sends)),
            5 => code.extend(accessing(random, 2, super_sends)),
            // The last element: self at: self size.
            6 => code.extend([112, 112, 194, 192]),
            7 if fields > 0 => code.push(field),
            8 if fields > 0 => code.extend([118, 129, field]),
            _ => code.push(112),
        }
        code.push(135);
    }
    code.extend(accessing(random, 0, false));
    code.push(124);
    code
}

/// One of the three messages to self, by a special send, another, or a super send. It leaves its answer.
fn accessing(random: &mut Random, which: usize, super_sends: bool) -> Vec<u8> {
    let arguments = ACCESSORS[which].2;
    // The index, in few cases 1; and what is stored.
    let pushes = [if random.percent(85) { 16 } else { 118 }, random.pick(&[112, 115, 116, 117, 119])];
    let mut code = vec![112];
    code.extend(&pushes[..arguments]);
    match random.below(10) {
        0..=4 => code.push(192 + which as u8),
        5..=7 if super_sends => code.extend([133, (arguments * 32 + which) as u8]),
        _ => code.push((208 + 16 * arguments + which) as u8),
    }
    code
}

/// A begin of a method that uses elements, on an object of a class, or of any that has them.
pub fn message(random: &mut Random, world: &World, of: Option<u16>) -> Call {
    let objects = &world.objects;
    let n = objects.list.len();
    let form_of = |class: u16| objects.class(class).map_or(3, |class| class.form);
    let class = of.unwrap_or_else(|| {
        let able: Vec<u16> = (1..=n).map(pointer).filter(|class| form_of(*class) == 1 || form_of(*class) == 2).collect();
        random.pick(&able)
    });
    let able: Vec<u16> = (1..=n).map(pointer).filter(|word| objects.class_of(*word) == class).collect();
    // One that has nearly or just too many elements is worth more than the others.
    let large = (1..=n).map(pointer).find(|word| objects.get(*word).map_or(false, |object| object.size > 16_000));
    let receiver = match large {
        Some(large) if of.is_none() && random.percent(60) => large,
        _ if able.is_empty() || of.is_none() && random.percent(15) => argument(random, n),
        _ => random.pick(&able),
    };
    // What it understands. Of a selector in two classes of the chain the first is found, whatever is picked here.
    let lists = objects.chain(objects.class_of(receiver)).filter_map(|word| objects.get(objects.class(word)?.dictionary));
    let pairs: Vec<(u16, u16)> = lists.flat_map(|list| list.body.chunks(2).map(|pair| (pair[0], pair[1]))).collect();
    let uses = |method: u16| (60..=62).contains(&world.method(method).primitive) || handles(world, method);
    let able: Vec<(u16, u16)> = pairs.iter().copied().filter(|(_, method)| uses(*method)).collect();
    let (selector, method) = match (able.is_empty(), pairs.is_empty()) {
        (false, _) => random.pick(&able),
        (true, false) => random.pick(&pairs),
        _ => return Call::Check,
    };
    let mut arguments: Vec<u16> = (0..world.method(method).arguments).map(|_| argument(random, n)).collect();
    if let Some(first) = arguments.first_mut().filter(|_| random.percent(95)) {
        *first = index(random, objects, receiver);
    }
    Call::Begin { receiver, selector, arguments }
}

/// Whether a method is one that `put_methods` gives: it answers a field, or takes an index and sends with it.
fn handles(world: &World, method: u16) -> bool {
    let method = world.method(method);
    method.flag == 6 || method.flag == 1 && method.temporaries == 2 && method.literals.len() == 3
}

/// An index where something begins or ends: the elements, the fields, the body.
pub fn index(random: &mut Random, objects: &Objects, receiver: u16) -> u16 {
    let object = objects.get(receiver);
    let size = object.map_or(0, |object| object.size as i64);
    let fields = object.and_then(|object| objects.class(object.class)).map_or(0, |class| class.fields as i64);
    let (count, within) = (size - fields, random.below(fields.max(1) as usize) as i64);
    let near =
        [-1, 0, 1, 1, 2, count - 1, count, count, count + 1, count + 1 + within, count + 1 + within, size, size + 1, size + 100, fields, fields + 1];
    word(random.pick(&near).clamp(-16_384, 16_383)).unwrap()
}

/// The image of a draft in which a class of form 1 has another F, and the class.
pub fn moved_image(random: &mut Random, draft: &Draft) -> Option<(u16, Vec<u8>)> {
    let mut draft = draft.clone();
    let object = |made: &Made| Object { class: made.class, kind: made.kind, start: 0, size: made.size as u16, body: made.body.clone() };
    let (class, fields) = moved(random, &Objects { list: draft.objects.iter().map(object).collect() })?;
    draft.objects[class as usize / 2 - 1].body[2] = integer_word(fields);
    Some((class, draft.image()))
}

/// The place in the bodies of a class's F, and another F for it.
pub fn moved_word(random: &mut Random, objects: &Objects) -> Option<(u16, usize, u16)> {
    let (class, fields) = moved(random, objects)?;
    Some((class, objects.get(class)?.start as usize + 2, integer_word(fields)))
}

/// A class of form 1 and another F, with which its objects and the classes around it are right.
fn moved(random: &mut Random, objects: &Objects) -> Option<(u16, usize)> {
    let class_words = || (1..=objects.list.len()).map(pointer).filter(|word| objects.has_kind(*word, CLASS));
    let range = |word: u16| {
        let own = objects.class(word)?;
        let least = objects.class(own.superclass).map_or(0, |above| above.fields);
        let below = class_words().filter_map(|other| objects.class(other)).filter(|other| other.superclass == word).map(|other| other.fields);
        let sizes = objects.list.iter().filter(|object| object.class == word).map(|object| object.size as usize);
        let has_objects = sizes.clone().next().is_some();
        let most = below.chain(sizes).chain([255]).min()?;
        (own.form == 1 && has_objects && least < most).then(|| (word, own.fields, least, most))
    };
    let able: Vec<(u16, usize, usize, usize)> = class_words().filter_map(range).collect();
    if able.is_empty() {
        return None;
    }
    let (class, old, least, most) = random.pick(&able);
    let any = random.from(least, most);
    let new = random.pick(&[least, most, any, old.saturating_sub(1).max(least), (old + 1).min(most)]);
    (new != old).then(|| (class, new))
}
