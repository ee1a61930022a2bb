//! The rules of an image, number by number, in load's order: 1, 2, 3, 4, 5, 14, 6, 7, 8. An image that breaks several is refused by the first of these. Each
//! number gives all its faults, but not those that merely follow from others.

use crate::code::{depth_table, Surroundings};
use crate::objects::*;
use crate::refusal::Place::*;
use crate::refusal::*;
use crate::words::*;
use std::collections::{HashMap, HashSet};

/// The fault that takes an object and its class to be seen.
pub const DOES_NOT_FIT: &str = "an object that does not fit its class";

// The faults of rule 14.
pub const TOO_LONG: &str = "a chain of more than 24 classes";
pub const CIRCLE: &str = "a chain of more than 24 classes: a circle";

// Those of edition 2, and of editions that there are not.
pub const NO_EDITION: &str = "another edition than 1 and 2";
pub const TOO_FEW: &str = "objects not from 8 to 2047, in edition 2";
pub const NO_SELECTOR: &str = "object 6, the selector doesNotUnderstand:, is no byte object";
pub const NO_MESSAGES: &str = "object 7, the class of messages, is no class";
pub const MESSAGE_FORM: &str = "the class of messages has another form than 0";
pub const MESSAGE_FIELDS: &str = "the class of messages has not 2 fields";
pub const NO_ARRAYS: &str = "object 8, the class of arrays, is no class";
pub const ARRAY_FORM: &str = "the class of arrays has another form than 1";
pub const ARRAY_FIELDS: &str = "the class of arrays has fields";
pub const NOT_ONE_ARGUMENT: &str = "a method under object 6 that does not take one argument";

/// The words of a header.
pub struct Header {
    pub edition: u16,
    pub n: usize,
    pub b: usize,
    pub receiver: u16,
    pub selector: u16,
}

/// Objects that keep the rules, with their methods taken apart.
pub struct World {
    pub edition: u16,
    pub objects: Objects,
    /// By object number, from 1.
    pub methods: Vec<Option<Method>>,
}

impl World {
    pub fn method(&self, word: u16) -> &Method {
        self.methods[(word / 2) as usize - 1].as_ref().unwrap()
    }
}

/// Rule 1, and the header.
pub fn header(image: &[u8]) -> Result<Header, Refusal> {
    if image.len() < 10 {
        return refuse(1, Image, "shorter than a header");
    }
    let at = |index: usize| u16::from_be_bytes([image[2 * index], image[2 * index + 1]]);
    let header = Header { edition: at(0), n: at(1) as usize, b: at(2) as usize, receiver: at(3), selector: at(4) };
    if image.len() != 10 + 8 * header.n + 2 * header.b {
        return refuse(1, Image, "another length than the header tells");
    }
    Ok(header)
}

/// Rule 2.
pub fn ranges(edition: u16, n: usize, b: usize) -> Result<(), Faults> {
    let mut faults = Faults::new(2);
    let known = faults.ask((1..=LAST_EDITION).contains(&edition), HeaderWord(0), NO_EDITION);
    let (least, why) = if known && edition >= WITH_MESSAGES { (8, TOO_FEW) } else { (5, "objects not from 5 to 2047") };
    faults.ask((least..=MOST_OBJECTS).contains(&n), HeaderWord(1), why);
    faults.ask(b <= MOST_BODY_WORDS, HeaderWord(2), "more than 24000 words of bodies");
    faults.none(())
}

/// A test of the objects of an edition.
type Test = fn(u16, &Objects, &mut Faults);

/// The tests of objects that lie where rule 4 wants them, each with its number. Their order is load's; none rests on another.
pub const TESTS: [(u32, Test); 3] = [(5, words_valid), (14, chains), (6, classes_and_entries)];

/// Rules 4, 5, 14, 6 and 7 on 4N words of contents and B words of bodies.
pub fn judge(edition: u16, contents: &[u16], bodies: &[u16]) -> Result<World, Faults> {
    let objects = layout(contents, bodies)?;
    for (number, test) in TESTS {
        let mut faults = Faults::new(number);
        test(edition, &objects, &mut faults);
        faults.none(())?;
    }
    let methods = methods(edition, &objects)?;
    Ok(World { edition, objects, methods })
}

/// Rule 8 on the start words.
pub fn start_words(objects: &Objects, receiver: u16, selector: u16) -> Result<(), Faults> {
    let mut faults = Faults::new(8);
    faults.ask(objects.valid(receiver), HeaderWord(3), "the start receiver is invalid");
    faults.ask(objects.has_kind(selector, BYTES), HeaderWord(4), "the start selector is no byte object");
    faults.none(())
}

/// Rule 4: where bodies lie. It gives the objects.
pub fn layout(contents: &[u16], bodies: &[u16]) -> Result<Objects, Faults> {
    let mut faults = Faults::new(4);
    let mut objects = Objects::default();
    // A body starts at the end of the one before. After a fault it may start wherever one wrong word would explain it, or anywhere.
    let (mut end, mut other_ends, mut anywhere) = (0, vec![], false);
    let mut past_end = false;
    for (index, entry) in contents.chunks(4).enumerate() {
        let number = index + 1;
        let (class, kind, start, size) = (entry[0], entry[1], entry[2] as usize, entry[3]);
        let kind_right = faults.ask(kind <= METHOD, Entry(number, 1), "a kind above 4");
        let start_right = start == end || anywhere || other_ends.contains(&start);
        faults.ask(start_right, Entry(number, 2), "a start that is not the end of the body before");
        let size_right = faults.ask(kind != CLASS || size == 4, Entry(number, 3), "a class without 4 words");
        let words = body_words(kind, size);
        let inside = start + words <= bodies.len();
        if kind_right && start_right && !inside && !past_end {
            faults.add(Entry(number, 3), "a body past the end of the bodies");
            past_end = true;
        }
        if start_right {
            other_ends.clear();
        } else {
            other_ends.push(end);
            other_ends.iter_mut().for_each(|end| *end += words);
        }
        if !size_right {
            other_ends.push(start + 4);
        }
        end = start + words;
        anywhere = !kind_right || !inside;
        if !(kind_right && start_right && inside) {
            continue;
        }
        let body = bodies[start..start + words].to_vec();
        let halved = (kind == BYTES || kind == METHOD) && size % 2 == 1;
        if halved {
            faults.ask(body[words - 1] % 256 == 0, Body(number, words - 1), "an odd last half-word that is not zero");
        }
        objects.list.push(Object { class, kind, start: entry[2], size, body });
    }
    faults.ask(end == bodies.len() || anywhere || other_ends.contains(&bodies.len()), Image, "bodies do not end at B");
    faults.none(objects)
}

/// The objects with their numbers.
fn numbered(objects: &Objects) -> impl Iterator<Item = (usize, &Object)> {
    objects.list.iter().enumerate().map(|(index, object)| (index + 1, object))
}

fn numbered_classes(objects: &Objects) -> impl Iterator<Item = (usize, &Object)> {
    numbered(objects).filter(|(_, object)| object.kind == CLASS)
}

/// Rule 5: entries' classes, and the words of kinds 0, 2, 3.
fn words_valid(_: u16, objects: &Objects, faults: &mut Faults) {
    for (number, object) in numbered(objects) {
        faults.ask(objects.valid(object.class), Entry(number, 0), "an invalid word");
        if object.kind == BYTES || object.kind == METHOD {
            continue;
        }
        for (index, word) in object.body.iter().enumerate() {
            faults.ask(objects.valid(*word), Body(number, index), "an invalid word");
        }
    }
}

/// Rule 14. The lowest class of a chain that is too long has the fault, and the first class of a circle: what is above the one and leads into the other
/// follows from it.
fn chains(_: u16, objects: &Objects, faults: &mut Faults) {
    let superclasses: HashSet<u16> = numbered_classes(objects).map(|(_, object)| object.body[0]).collect();
    for (number, _) in numbered_classes(objects) {
        let own = pointer(number);
        if objects.chain(own).nth(MOST_CHAIN).is_none() {
            continue;
        }
        // All that there is above: a chain that goes on after as many classes as there are objects goes round.
        let above = || objects.chain(own).skip(1).take(objects.list.len());
        let goes_round = above().count() == objects.list.len();
        if !goes_round && !superclasses.contains(&own) {
            faults.add(Body(number, 0), TOO_LONG);
        }
        if above().any(|word| word == own) && above().all(|word| word >= own) {
            faults.add(Body(number, 0), CIRCLE);
        }
    }
}

/// Rule 6.
fn classes_and_entries(edition: u16, objects: &Objects, faults: &mut Faults) {
    classes(objects, faults);
    entries(objects, faults);
    first_objects(objects, faults);
    if edition >= WITH_MESSAGES {
        objects_for_messages(objects, faults);
    }
}

fn integer_up_to(word: u16, most: i32) -> bool {
    is_integer(word) && (0..=most).contains(&integer(word))
}

/// Class bodies and dictionaries.
fn classes(objects: &Objects, faults: &mut Faults) {
    for (number, object) in numbered_classes(objects) {
        class_body(objects, number, &object.body, faults);
    }
    let mut judged = vec![false; objects.list.len() + 1];
    for (number, object) in numbered_classes(objects) {
        fields_of_superclass(objects, number, faults);
        // Classes may share a dictionary.
        let list = (object.body[1] / 2) as usize;
        if objects.has_kind(object.body[1], LIST) && !judged[list] {
            judged[list] = true;
            dictionary(objects, list, faults);
        }
    }
}

fn class_body(objects: &Objects, number: usize, body: &[u16], faults: &mut Faults) {
    faults.ask(body[0] == NIL || objects.has_kind(body[0], CLASS), Body(number, 0), "a superclass that is neither nil nor a class");
    faults.ask(objects.has_kind(body[1], LIST), Body(number, 1), "a dictionary that is no list");
    let fields_right = faults.ask(integer_up_to(body[2], 255), Body(number, 2), "fields not from 0 to 255");
    let form_right = faults.ask(integer_up_to(body[3], 3), Body(number, 3), "a form not from 0 to 3");
    if fields_right && form_right {
        faults.ask(integer(body[3]) < 2 || integer(body[2]) == 0, Body(number, 2), "fields in a class of form 2 or 3");
    }
}

/// Whether F and form of a class can be judged by.
fn numbers_right(objects: &Objects, class: u16) -> bool {
    objects.get(class).map_or(false, |object| integer_up_to(object.body[2], 255) && integer_up_to(object.body[3], 3))
}

fn fields_of_superclass(objects: &Objects, number: usize, faults: &mut Faults) {
    let class = objects.class(pointer(number)).unwrap();
    if let Some(above) = objects.class(class.superclass).filter(|_| numbers_right(objects, class.superclass)) {
        faults.ask(class.fields >= above.fields, Body(number, 2), "fewer fields than the superclass");
    }
}

fn dictionary(objects: &Objects, list: usize, faults: &mut Faults) {
    let body = &objects.list[list - 1].body;
    if !faults.ask(body.len() % 2 == 0, Entry(list, 3), "a dictionary with half a pair") {
        return;
    }
    let mut last = 0;
    for at in (0..body.len()).step_by(2) {
        let selector_right = faults.ask(objects.has_kind(body[at], BYTES), Body(list, at), "a dictionary's selector that is no byte object");
        faults.ask(objects.has_kind(body[at + 1], METHOD), Body(list, at + 1), "a dictionary's method that is none");
        if selector_right {
            faults.ask(last < body[at], Body(list, at), "a dictionary's selectors do not rise");
            last = body[at];
        }
    }
}

/// Each object has a class, and fits its form.
fn entries(objects: &Objects, faults: &mut Faults) {
    for (number, object) in numbered(objects) {
        let class = match objects.class(object.class) {
            Some(class) => class,
            None => {
                faults.add(Entry(number, 0), "a class that is none");
                continue;
            }
        };
        let size = object.size as usize;
        let fits = match object.kind {
            FIELDS => (class.form == 0 && size == class.fields) || (class.form == 1 && size >= class.fields),
            BYTES => class.form == 2,
            _ => class.form == 3,
        };
        faults.ask(fits || !numbers_right(objects, object.class), Entry(number, 3), DOES_NOT_FIT);
    }
}

/// Objects 1 to 5.
fn first_objects(objects: &Objects, faults: &mut Faults) {
    for number in 1..=3 {
        faults.ask(objects.has_kind(pointer(number), FIELDS), Entry(number, 1), "nil, false or true of another kind than 0");
    }
    let form = objects.class(INTEGER_CLASS).map(|class| class.form);
    faults.ask(form == Some(3), Entry(4, 1), "the class of integers is no class of form 3");
    let specials = objects.get(SPECIALS).unwrap();
    if faults.ask(specials.kind == LIST && specials.size == 32, Entry(5, 3), "object 5 is no list of 32") {
        for (index, selector) in specials.body.iter().enumerate() {
            let fine = *selector == NIL || objects.has_kind(*selector, BYTES);
            faults.ask(fine, Body(5, index), "a special selector that is neither nil nor bytes");
        }
    }
}

/// Objects 6 to 8 where messages are sent as objects.
fn objects_for_messages(objects: &Objects, faults: &mut Faults) {
    faults.ask(objects.has_kind(DOES_NOT_UNDERSTAND, BYTES), Entry(6, 1), NO_SELECTOR);
    for (class, (form, fields), [none, other_form, other_fields]) in
        [(MESSAGE_CLASS, (0, 2), [NO_MESSAGES, MESSAGE_FORM, MESSAGE_FIELDS]), (ARRAY_CLASS, (1, 0), [NO_ARRAYS, ARRAY_FORM, ARRAY_FIELDS])]
    {
        let number = class as usize / 2;
        match objects.class(class) {
            None => faults.add(Entry(number, 1), none),
            Some(class) => {
                faults.ask(class.form == form, Body(number, 3), other_form);
                faults.ask(class.fields == fields, Body(number, 2), other_fields);
            }
        }
    }
}

/// Rule 7. It gives the methods, with a depth table for each that has one.
fn methods(edition: u16, objects: &Objects) -> Result<Vec<Option<Method>>, Faults> {
    let mut faults = Faults::new(7);
    let mut methods: Vec<Option<Method>> = vec![];
    for (number, object) in numbered(objects) {
        methods.push(if object.kind == METHOD { method(objects, number, object, &mut faults) } else { None });
    }
    let counts = counts_under_selectors(edition, objects, &mut methods, &mut faults);
    for (index, slot) in methods.iter_mut().enumerate() {
        let method = match slot {
            Some(method) => method,
            None => continue,
        };
        let fields = objects.class(method.home).unwrap().fields;
        match depth_table(&Surroundings { objects, fields, counts: &counts }, method) {
            Ok(table) => method.table = Some(table),
            // The code of flags 5 and 6 is free.
            Err(_) if method.flag == 5 || method.flag == 6 => {}
            Err(found) => found.iter().for_each(|(position, why)| faults.add(Code(index + 1, *position), why)),
        }
    }
    faults.none(methods)
}

/// One method's own words; none where they are not right.
fn method(objects: &Objects, number: usize, object: &Object, faults: &mut Faults) -> Option<Method> {
    let size = object.size as usize;
    let before = faults.list.len();
    if !faults.ask(size >= 2, Entry(number, 3), "a method without a header")
        || !faults.ask(size >= 4, Entry(number, 3), "a method without a home word")
    {
        return None;
    }
    let header = object.body[0];
    if !faults.ask(header % 2 == 1, Body(number, 0), "a header without tag") {
        return None;
    }
    let (flag, temporaries, large, literal_count) = (header >> 13, (header >> 8) & 31, (header >> 7) & 1, ((header >> 1) & 63) as usize);
    if !faults.ask(size >= 4 + 2 * literal_count, Entry(number, 3), "a method without room for its literals") {
        return None;
    }
    let home = object.body[1];
    let home_class = objects.class(home);
    faults.ask(home_class.is_some(), Body(number, 1), "a home that is no class");
    let literals = object.body[2..2 + literal_count].to_vec();
    for (index, literal) in literals.iter().enumerate() {
        faults.ask(objects.valid(*literal), Body(number, 2 + index), "an invalid literal");
    }
    let answers_field = flag != 6 || home_class.map_or(true, |class| (temporaries as usize) < class.fields);
    faults.ask(answers_field, Body(number, 0), "answers a field that the home class has not");
    let (arguments, primitive) = extension(number, flag, &literals, faults)?;
    faults.ask(arguments <= temporaries as usize, Body(number, 0), "more arguments than temporaries");
    if faults.list.len() > before {
        return None;
    }
    let code = (4 + 2 * literal_count..size).map(|index| object.byte(index)).collect();
    Some(Method { flag, temporaries: temporaries as usize, large: large == 1, home, literals, arguments, primitive, code, table: None })
}

/// The count of arguments and the primitive; 0 stands for none.
fn extension(number: usize, flag: u16, literals: &[u16], faults: &mut Faults) -> Option<(usize, u16)> {
    match flag {
        0..=4 => Some((flag as usize, 0)),
        5 | 6 => Some((0, 0)),
        _ => {
            if !faults.ask(literals.len() >= 2, Body(number, 0), "flag 7 with less than 2 literals") {
                return None;
            }
            let word = literals[literals.len() - 2];
            let right = faults.ask(is_integer(word) && word >> 14 == 0, Body(number, literals.len()), "an extension that is no such word");
            right.then(|| ((word >> 9) as usize, (word >> 1) & 255))
        }
    }
}

/// The count of arguments under each selector of a dictionary: homes are those of the class, and counts agree. A method with another home is taken out, and
/// so is a selector whose counts differ: what follows from these is not said.
fn counts_under_selectors(edition: u16, objects: &Objects, methods: &mut [Option<Method>], faults: &mut Faults) -> HashMap<u16, usize> {
    let (mut counts, mut differ) = (HashMap::new(), vec![]);
    for (number, object) in numbered_classes(objects) {
        let list = object.body[1];
        for (index, pair) in objects.get(list).unwrap().body.chunks(2).enumerate() {
            let found = (pair[1] / 2) as usize;
            let (home, arguments) = match &methods[found - 1] {
                Some(method) => (method.home, method.arguments),
                None => continue,
            };
            if !faults.ask(home == pointer(number), Body(found, 1), "another home than the class whose dictionary holds the method") {
                methods[found - 1] = None;
                continue;
            }
            let (first, why) = if edition >= WITH_MESSAGES && pair[0] == DOES_NOT_UNDERSTAND {
                (1, NOT_ONE_ARGUMENT)
            } else {
                (arguments, "another count of arguments than under this selector elsewhere")
            };
            let count = *counts.entry(pair[0]).or_insert(first);
            let place = Body((list / 2) as usize, 2 * index + 1);
            if !faults.ask(count == arguments, place, why) {
                differ.push(pair[0]);
            }
        }
    }
    for selector in differ {
        counts.remove(&selector);
    }
    counts
}
