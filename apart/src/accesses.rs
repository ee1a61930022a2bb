//! What calls of at:, at:put: and size meet, for the report on coverage. It is told by the words of receiver and class, not by what the primitives come to.

use crate::counts::Counts;
use crate::objects::*;
use crate::words::*;

/// The primitives 60, 61 and 62.
pub const NAMES: [&str; 3] = ["at:", "at:put:", "size"];

/// Receivers with elements, by form and F.
pub const RECEIVERS: [&str; 5] = ["bytes", "F 0", "F 1", "F 2 to 254", "F 255"];

/// What a call on one of these can show. Those from `INDEX` on have an index.
pub const SHOWN: [&str; 22] = [
    "no elements",
    "one element",
    "several elements",
    "16,383 elements",
    "16,384 elements",
    "by begin",
    "by a special send",
    "by another send",
    "by a super send",
    "found in a class that has fewer fields",
    "the superclass has fields too, but fewer",
    "an index below 0",
    "index 0",
    "index 1 of several",
    "an index between the first and the last",
    "the last index of several",
    "the index behind the last",
    "an index behind that, but within the body",
    "the size of the body as index",
    "the first index behind the body",
    "an index far behind the body",
    "an index that is no integer",
];
const FOUND_ABOVE: usize = 9;
const FIELDS_ABOVE: usize = 10;
const INDEX: usize = 11;
const WITHIN_BODY: usize = 17;
const SIZE_OF_BODY: usize = 18;

/// Whether a call of a primitive, counted from 60, can show it on such a receiver.
pub fn possible(primitive: usize, receiver: usize, shown: usize) -> bool {
    match shown {
        // A class that has less than one field has none.
        FIELDS_ABOVE => receiver >= 3,
        FOUND_ABOVE => receiver >= 2,
        // Of one named field the only index within the body is the one behind the last.
        WITHIN_BODY => receiver >= 3 && primitive < 2,
        SIZE_OF_BODY => receiver >= 2 && primitive < 2,
        _ => shown < INDEX || primitive < 2,
    }
}

/// Receivers without elements.
pub const OTHERS: [&str; 6] = ["form 0 without fields", "form 0 with fields", "a class", "a list", "a method", "an integer"];

/// What can follow an at:put: into an object with named fields.
pub const THEN: [&str; 6] = [
    "at:put: behind named fields, then at: with its index",
    "at:put: behind named fields, then at: with another index",
    "at:put: behind named fields, then size",
    "at:put: behind named fields, then a field pushed",
    "at:put: behind named fields, then a field answered by flag 6",
    "at:put: behind named fields, then a field stored",
];
const SAME_INDEX: usize = 0;
const OTHER_INDEX: usize = 1;
const SIZE: usize = 2;
pub const PUSHED: usize = 3;
pub const ANSWERED: usize = 4;
pub const STORED: usize = 5;

/// Values that no byte object takes.
pub const NO_BYTES: [&str; 3] = ["at:put: of a byte below 0", "at:put: of a byte above 255", "at:put: of a byte that is no integer"];

/// How a method came to be found.
#[derive(Clone, Copy, PartialEq)]
pub enum By {
    Begin,
    Special,
    Send,
    Super,
}

/// A call of one of the three.
pub struct Access<'a> {
    pub number: u16,
    pub by: By,
    /// The class that holds the method.
    pub home: u16,
    pub receiver: u16,
    pub arguments: &'a [u16],
}

#[derive(Default)]
pub struct Accesses {
    /// By primitive, receiver and what was shown.
    pub shown: [[[u64; SHOWN.len()]; RECEIVERS.len()]; NAMES.len()],
    pub others: [[u64; OTHERS.len()]; NAMES.len()],
    /// The object with named fields that was put into last, and the index. It is for one image alone.
    pub put: Option<(u16, u16)>,
}

impl Counts {
    /// Counts a call that is about to be made.
    pub fn access(&mut self, objects: &Objects, access: &Access) {
        let primitive = (access.number - 60) as usize;
        self.array_used(access.receiver, primitive);
        let found = objects.get(access.receiver).and_then(|object| Some((object, objects.class(object.class)?)));
        match found {
            Some((object, class)) if [1, 2].contains(&class.form) => {
                let receiver = match (class.form, class.fields) {
                    (2, _) => 0,
                    (_, 0) => 1,
                    (_, 1) => 2,
                    (_, 255) => 4,
                    _ => 3,
                };
                let shown = shown(objects, access, object, class);
                for (count, shown) in self.accesses.shown[primitive][receiver].iter_mut().zip(shown) {
                    *count += shown as u64;
                }
                self.values(access, object, class);
            }
            other => self.accesses.others[primitive][without_elements(other)] += 1,
        }
    }

    /// What is stored, and what comes after it.
    fn values(&mut self, access: &Access, object: &Object, class: Class) {
        let count = object.size as i32 - class.fields as i32;
        let within = |index: u16| count <= 16_383 && is_integer(index) && (1..=count).contains(&integer(index));
        match (access.number, access.arguments, self.accesses.put) {
            (60, [index], Some((put, at))) if put == access.receiver => self.event(THEN[if *index == at { SAME_INDEX } else { OTHER_INDEX }]),
            (62, _, Some((put, _))) if put == access.receiver => self.event(THEN[SIZE]),
            (61, [index, value], _) if within(*index) && class.form == 2 => {
                let (is_integer, value) = (is_integer(*value), integer(*value));
                self.events_met(NO_BYTES, [is_integer && value < 0, is_integer && value > 255, !is_integer]);
            }
            (61, [index, _], _) if within(*index) && class.fields > 0 => self.accesses.put = Some((access.receiver, *index)),
            _ => {}
        }
    }

    /// A field of a receiver is used in one of these ways.
    pub fn field(&mut self, receiver: u16, then: usize) {
        if self.accesses.put.map_or(false, |(object, _)| object == receiver) {
            self.event(THEN[then]);
        }
        self.message_used(receiver, then - PUSHED);
    }
}

fn without_elements(receiver: Option<(&Object, Class)>) -> usize {
    match receiver.map(|(object, class)| (object.kind, class.fields)) {
        None => 5,
        Some((FIELDS, 0)) => 0,
        Some((FIELDS, _)) => 1,
        Some((kind, _)) => kind as usize,
    }
}

/// Those of `SHOWN` that a call shows.
fn shown(objects: &Objects, access: &Access, object: &Object, class: Class) -> [bool; SHOWN.len()] {
    let (size, count) = (object.size as i64, object.size as i64 - class.fields as i64);
    let fields_of = |word: u16| objects.class(word).map_or(0, |class| class.fields);
    let above = fields_of(class.superclass);
    let index = access.arguments.first();
    let number = index.filter(|index| is_integer(**index)).map(|index| integer(*index) as i64);
    let is = |wanted: i64| number == Some(wanted);
    let lies = |first: i64, last: i64| number.map_or(false, |number| first <= number && number <= last);
    [
        count == 0,
        count == 1,
        count > 1,
        count == 16_383,
        count == 16_384,
        access.by == By::Begin,
        access.by == By::Special,
        access.by == By::Send,
        access.by == By::Super,
        fields_of(access.home) < class.fields,
        0 < above && above < class.fields,
        lies(-16_384, -1),
        is(0),
        is(1) && count > 1,
        lies(2, count - 1),
        is(count) && count > 1,
        is(count + 1),
        lies(count + 2, size),
        is(size) && class.fields > 0,
        is(size + 1),
        lies(size + 2, 16_383),
        index.is_some() && number.is_none(),
    ]
}
