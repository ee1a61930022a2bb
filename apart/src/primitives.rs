//! Primitives. One that fails changes nothing.

use crate::objects::*;
use crate::words::*;

/// Words that contents and bodies have.
#[derive(Clone, Copy)]
pub struct Room {
    pub contents: usize,
    pub bodies: usize,
}

fn arguments_of(number: u16) -> Option<usize> {
    match number {
        1..=17 | 60 | 71 | 110 => Some(1),
        61 => Some(2),
        62 | 70 | 111 => Some(0),
        _ => None,
    }
}

/// The answer of a primitive, if it succeeds.
pub fn primitive(objects: &mut Objects, room: Room, number: u16, receiver: u16, arguments: &[u16]) -> Option<u16> {
    if arguments_of(number) != Some(arguments.len()) {
        return None;
    }
    match number {
        1..=17 => arithmetic(number, receiver, arguments[0]),
        60 => at(objects, receiver, arguments[0]),
        61 => at_put(objects, receiver, arguments[0], arguments[1]),
        62 => size(objects, receiver),
        70 => new(objects, room, receiver),
        71 => new_sized(objects, room, receiver, arguments[0]),
        110 => Some(boolean(receiver == arguments[0])),
        _ => Some(objects.class_of(receiver)),
    }
}

/// Primitives 1 to 17, on two integers.
pub fn arithmetic(number: u16, receiver: u16, argument: u16) -> Option<u16> {
    if !is_integer(receiver) || !is_integer(argument) {
        return None;
    }
    let (a, b) = (integer(receiver) as i64, integer(argument) as i64);
    if (10..=13).contains(&number) && b == 0 {
        return None;
    }
    match number {
        1 => word(a + b),
        2 => word(a - b),
        3 => Some(boolean(a < b)),
        4 => Some(boolean(a > b)),
        5 => Some(boolean(a <= b)),
        6 => Some(boolean(a >= b)),
        7 => Some(boolean(a == b)),
        8 => Some(boolean(a != b)),
        9 => word(a * b),
        10 if a % b != 0 => None,
        10 => word(a / b),
        11 => word(a - b * floored(a, b)),
        12 => word(floored(a, b)),
        13 => word(a / b),
        14 => word(a & b),
        15 => word(a | b),
        16 => word(a ^ b),
        17 => shift(a, b),
        _ => None,
    }
}

/// The quotient rounded down. Rust's `/` goes toward zero.
fn floored(a: i64, b: i64) -> i64 {
    let quotient = a / b;
    if a % b != 0 && (a < 0) != (b < 0) {
        quotient - 1
    } else {
        quotient
    }
}

/// n × 2^k rounded down. 15 places either way take every integer out of range, or to 0 or -1.
fn shift(n: i64, k: i64) -> Option<u16> {
    if k >= 0 {
        word(n << k.min(15))
    } else {
        word(n >> (-k).min(15))
    }
}

/// The largest number of elements that an integer can say.
pub const MOST_ELEMENTS: usize = 16_383;

/// Where the elements of an object lie in its body, and how many there are: words behind the F named fields, or bytes, which have no fields before them.
#[derive(Clone, Copy, Debug, PartialEq)]
pub struct Elements {
    pub start: usize,
    pub count: usize,
}

/// The elements of an object of form 1 or 2.
pub fn elements(objects: &Objects, receiver: u16) -> Option<Elements> {
    let object = objects.get(receiver)?;
    let class = objects.class(object.class)?;
    let start = match class.form {
        1 => class.fields,
        2 => 0,
        _ => return None,
    };
    Some(Elements { start, count: object.size as usize - start })
}

/// The same, where an integer can say how many there are.
fn countable(objects: &Objects, receiver: u16) -> Option<Elements> {
    elements(objects, receiver).filter(|elements| elements.count <= MOST_ELEMENTS)
}

/// The place in the body, from 0, of the element that an index from 1 to their number names.
fn place(objects: &Objects, receiver: u16, index: u16) -> Option<usize> {
    let Elements { start, count } = countable(objects, receiver)?;
    if is_integer(index) && 1 <= integer(index) && integer(index) as usize <= count {
        Some(start + integer(index) as usize - 1)
    } else {
        None
    }
}

fn at(objects: &Objects, receiver: u16, index: u16) -> Option<u16> {
    let place = place(objects, receiver, index)?;
    let object = objects.get(receiver)?;
    if object.kind == BYTES {
        word(object.byte(place) as i64)
    } else {
        Some(object.body[place])
    }
}

fn at_put(objects: &mut Objects, receiver: u16, index: u16, stored: u16) -> Option<u16> {
    let place = place(objects, receiver, index)?;
    let object = objects.get_mut(receiver)?;
    if object.kind == BYTES {
        if !is_integer(stored) || !(0..=255).contains(&integer(stored)) {
            return None;
        }
        object.put_byte(place, integer(stored) as u8);
    } else {
        object.body[place] = stored;
    }
    Some(stored)
}

fn size(objects: &Objects, receiver: u16) -> Option<u16> {
    word(countable(objects, receiver)?.count as i64)
}

fn new(objects: &mut Objects, room: Room, receiver: u16) -> Option<u16> {
    let class = objects.class(receiver)?;
    if class.form != 0 {
        return None;
    }
    append(objects, room, receiver, FIELDS, class.fields)
}

fn new_sized(objects: &mut Objects, room: Room, receiver: u16, argument: u16) -> Option<u16> {
    let class = objects.class(receiver)?;
    if !is_integer(argument) || integer(argument) < 0 {
        return None;
    }
    let asked = integer(argument) as usize;
    match class.form {
        1 => append(objects, room, receiver, FIELDS, class.fields + asked),
        2 => append(objects, room, receiver, BYTES, asked),
        _ => None,
    }
}

/// A new object behind the others, of nils or zero bytes.
fn append(objects: &mut Objects, room: Room, class: u16, kind: u16, size: usize) -> Option<u16> {
    let words = body_words(kind, size as u16);
    if lacking(objects, room, 1, words).contains(&true) {
        return None;
    }
    let filler = if kind == BYTES { 0 } else { NIL };
    Some(put_last(objects, class, kind, size, vec![filler; words]))
}

fn put_last(objects: &mut Objects, class: u16, kind: u16, size: usize, body: Vec<u16>) -> u16 {
    let start = objects.body_total() as u16;
    objects.list.push(Object { class, kind, start, size: size as u16, body });
    pointer(objects.list.len())
}

/// What can be too little for more objects: the number of objects, that of body words, the lent contents and the lent bodies.
pub const ROOMS: usize = 4;

/// Those of them that are, for so many objects with so many words.
pub fn lacking(objects: &Objects, room: Room, more: usize, words: usize) -> [bool; ROOMS] {
    let (n, b) = (objects.list.len() + more, objects.body_total() + words);
    [n > MOST_OBJECTS, b > MOST_BODY_WORDS, room.contents < 4 * n, room.bodies < b]
}

/// The words of a message, its selector and the array of its arguments.
pub const MESSAGE_WORDS: usize = 2;

/// A message for a send with this selector and these arguments, and before it the array of them; nothing where one of the two finds no room.
pub fn message(objects: &mut Objects, room: Room, selector: u16, arguments: &[u16]) -> Option<u16> {
    if lacking(objects, room, 2, arguments.len() + MESSAGE_WORDS).contains(&true) {
        return None;
    }
    let array = put_last(objects, ARRAY_CLASS, FIELDS, arguments.len(), arguments.to_vec());
    Some(put_last(objects, MESSAGE_CLASS, FIELDS, MESSAGE_WORDS, vec![selector, array]))
}

#[cfg(test)]
mod tests {
    use super::*;

    fn on(number: u16, a: i64, b: i64) -> Option<i32> {
        let answer = arithmetic(number, word(a).unwrap(), word(b).unwrap())?;
        Some(integer(answer))
    }

    #[test]
    fn worked_by_hand() {
        assert_eq!(on(1, 16_383, 1), None);
        assert_eq!((on(12, -7, 2), on(11, -7, 2), on(13, -7, 2)), (Some(-4), Some(1), Some(-3)));
        for number in [10, 12, 13] {
            assert_eq!(on(number, -16_384, -1), None);
        }
        assert_eq!(on(11, -16_384, -1), Some(0));
        assert_eq!((on(17, 1, 13), on(17, 1, 14)), (Some(8_192), None));
        assert_eq!((on(17, -1, -16_384), on(17, 0, 16_383), on(17, -16_384, 0)), (Some(-1), Some(0), Some(-16_384)));
    }

    /// nil, then a class of this form and F, below a class of form 1 with as many fields less one, and an object of it, which is object 4.
    fn one(fields: usize, form: i64, kind: u16, size: usize, body: Vec<u16>) -> Objects {
        let class = |superclass: u16, fields: usize, form: i64| vec![superclass, NIL, word(fields as i64).unwrap(), word(form).unwrap()];
        let made = |class: u16, kind: u16, size: usize, body: Vec<u16>| Object { class, kind, start: 0, size: size as u16, body };
        let classes = [class(6, fields, form), class(NIL, fields.saturating_sub(1), 1)].map(|body| made(4, CLASS, 4, body));
        let [class, above] = classes;
        Objects { list: vec![made(6, FIELDS, 0, vec![]), class, above, made(4, kind, size, body)] }
    }

    /// An object of form 1 with these words.
    fn words(fields: usize, body: &[u16]) -> Objects {
        one(fields, 1, FIELDS, body.len(), body.to_vec())
    }

    const ROOM: Room = Room { contents: 8_188, bodies: 24_000 };
    const RECEIVER: u16 = 8;

    fn size_of(objects: &Objects) -> Option<i32> {
        size(objects, RECEIVER).map(integer)
    }

    /// at: with these indices.
    fn ats<const K: usize>(objects: &Objects, indices: [i64; K]) -> [Option<u16>; K] {
        indices.map(|index| at(objects, RECEIVER, word(index).unwrap()))
    }

    #[test]
    fn elements_come_behind_named_fields() {
        // Two named fields, 101 and 103, and then three elements.
        let five = words(2, &[101, 103, 105, 107, 109]);
        assert_eq!(elements(&five, RECEIVER), Some(Elements { start: 2, count: 3 }));
        assert_eq!(size_of(&five), Some(3));
        assert_eq!(ats(&five, [-1, 0, 1, 2, 3, 4, 5, 6]), [None, None, Some(105), Some(107), Some(109), None, None, None]);
        assert_eq!([NIL, RECEIVER].map(|index| at(&five, RECEIVER, index)), [None, None]);
        // No named fields, one, and as many as there can be.
        let all = words(0, &[101, 103]);
        assert_eq!((size_of(&all), ats(&all, [0, 1, 2, 3])), (Some(2), [None, Some(101), Some(103), None]));
        let one = words(1, &[101, 103]);
        assert_eq!((size_of(&one), ats(&one, [0, 1, 2, 3])), (Some(1), [None, Some(103), None, None]));
        let mut body = vec![NIL; 255];
        body.extend([101, 103]);
        let most = words(255, &body);
        assert_eq!((size_of(&most), ats(&most, [0, 1, 2, 3, 256, 257])), (Some(2), [None, Some(101), Some(103), None, None, None]));
    }

    #[test]
    fn only_named_fields() {
        for fields in [0, 1, 2, 255] {
            let none = words(fields, &vec![101; fields]);
            assert_eq!((size_of(&none), ats(&none, [0, 1, fields as i64])), (Some(0), [None, None, None]));
        }
    }

    #[test]
    fn stores_leave_named_fields() {
        let mut five = words(2, &[101, 103, 105, 107, 109]);
        let mut put = |index: i64, stored: u16| at_put(&mut five, RECEIVER, word(index).unwrap(), stored);
        assert_eq!([0, 4, 5].map(|index| put(index, NIL)), [None, None, None]);
        assert_eq!((put(1, 201), put(3, RECEIVER)), (Some(201), Some(RECEIVER)));
        assert_eq!(five.get(RECEIVER).unwrap().body, [101, 103, 201, 107, RECEIVER]);
    }

    /// 16,383 elements are the most; the named fields do not count.
    #[test]
    fn most_elements() {
        for fields in [0, 1, 100, 255] {
            let last = |objects: &Objects| ats(objects, [1, 16_383]);
            let most = words(fields, &vec![101; fields + 16_383]);
            assert_eq!((size_of(&most), last(&most)), (Some(16_383), [Some(101), Some(101)]));
            let mut more = words(fields, &vec![101; fields + 16_384]);
            assert_eq!((size_of(&more), last(&more), at_put(&mut more, RECEIVER, 3, 3)), (None, [None, None], None));
        }
        assert_eq!(size_of(&words(100, &[101; 16_400])), Some(16_300));
    }

    #[test]
    fn bytes_have_no_named_fields() {
        let mut three = one(0, 2, BYTES, 3, vec![1 << 8 | 2, 3 << 8]);
        assert_eq!((size_of(&three), ats(&three, [0, 1, 2, 3, 4])), (Some(3), [None, Some(3), Some(5), Some(7), None]));
        let mut put = |index: i64, stored: i64| at_put(&mut three, RECEIVER, word(index).unwrap(), word(stored).unwrap()).map(integer);
        assert_eq!((put(3, 255), put(3, 256), put(1, -1), put(4, 0)), (Some(255), None, None, None));
        assert_eq!(three.get(RECEIVER).unwrap().body, [1 << 8 | 2, 255 << 8]);
        assert_eq!(size_of(&one(0, 2, BYTES, 16_383, vec![0; 8_192])), Some(16_383));
        assert_eq!(size_of(&one(0, 2, BYTES, 16_384, vec![0; 8_192])), None);
    }

    #[test]
    fn other_receivers_have_no_elements() {
        let fields = one(2, 0, FIELDS, 2, vec![101, 103]);
        assert_eq!((size_of(&fields), ats(&fields, [0, 1, 2])), (None, [None, None, None]));
        // A class, and an integer.
        for receiver in [4, 5] {
            assert_eq!((size(&fields, receiver), at(&fields, receiver, 3)), (None, None));
        }
    }

    /// new: gives the elements that it is asked for behind the named fields, and these are they.
    #[test]
    fn new_has_as_many_elements_as_asked() {
        let mut objects = words(2, &[101, 103]);
        for asked in [0, 1, 7] {
            let made = new_sized(&mut objects, ROOM, 4, word(asked).unwrap()).unwrap();
            assert_eq!((objects.get(made).unwrap().size as i64, size(&objects, made)), (2 + asked, word(asked)));
        }
    }
}
