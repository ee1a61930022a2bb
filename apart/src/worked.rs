//! The scope paper's worked image, made by hand, and others like it.

use crate::calls::*;
use crate::counts::Counts;
use crate::machine::*;
use crate::objects::*;
use crate::play::*;
use crate::primitives::Room;
use crate::refusal::*;
use crate::words::*;

/// An entry as class, kind, size, and the body.
type Entry = (u16, u16, u16, Vec<u16>);

/// Method 11 has these words and runs on integers. Another, for nil and what else is of class 7, is object 14, in a dictionary that is object 13.
fn image(receiver: u16, method: &[u16], other: Option<&[u16]>) -> Vec<u8> {
    written(receiver, &objects(method, other))
}

fn objects(method: &[u16], other: Option<&[u16]>) -> Vec<Entry> {
    let class = |form: i64, dictionary: u16| vec![NIL, dictionary, word(0).unwrap(), word(form).unwrap()];
    let code = |words: &[u16]| (12, METHOD, 2 * words.len() as u16, words.to_vec());
    let mut objects = vec![
        (14, FIELDS, 0, vec![]),
        (14, FIELDS, 0, vec![]),
        (14, FIELDS, 0, vec![]),
        (12, CLASS, 4, class(3, 18)),
        (12, LIST, 32, vec![NIL; 32]),
        (12, CLASS, 4, class(3, 16)),
        (12, CLASS, 4, class(0, if other.is_some() { 26 } else { 16 })),
        (12, LIST, 0, vec![]),
        (12, LIST, 2, vec![20, 22]),
        (24, BYTES, 1, vec![97 << 8]),
        code(method),
        (12, CLASS, 4, class(2, 16)),
    ];
    if let Some(other) = other {
        objects.extend([(12, LIST, 2, vec![20, 28]), code(other)]);
    }
    objects
}

fn written(receiver: u16, objects: &[Entry]) -> Vec<u8> {
    of_edition(1, receiver, objects)
}

fn of_edition(edition: u16, receiver: u16, objects: &[Entry]) -> Vec<u8> {
    let bodies: Vec<u16> = objects.iter().flat_map(|object| object.3.clone()).collect();
    let mut words = vec![edition, objects.len() as u16, bodies.len() as u16, receiver, 20];
    let mut start = 0;
    for (class, kind, size, body) in objects {
        words.extend([*class, *kind, start, *size]);
        start += body.len() as u16;
    }
    words.extend(bodies);
    words.iter().flat_map(|word| word.to_be_bytes()).collect()
}

/// Load, and then these calls, on a stack of so many words.
fn loaded<T>(image: &[u8], length: usize, calls: impl FnOnce(&mut Lent, &mut Counts) -> Result<T, Refusal>) -> Result<T, Refusal> {
    let (mut contents, mut bodies, mut stack, mut cache) = (vec![0; 8_188], vec![0; 24_000], vec![0; length], vec![0; CACHE_WORDS]);
    let mut registers = [0; 8];
    let mut lent = Lent { contents: &mut contents, bodies: &mut bodies, stack: &mut stack, cache: &mut cache, registers: &mut registers };
    load(image, &mut lent)?;
    calls(&mut lent, &mut Counts::default())
}

/// What a run leaves and gives: phase, count, value, reach, dictionaries.
type Left = (u16, u32, u16, u32, u64);

fn left(lent: &Lent, ran: &Ran) -> Left {
    (lent.registers[PHASE], ran.count, lent.registers[VALUE], ran.reach, ran.dictionaries)
}

/// Load, begin the start words, and these runs while they are not refused.
fn ran(image: &[u8], length: usize, grants: &[u32]) -> Result<Vec<Left>, Refusal> {
    loaded(image, length, |lent, counts| {
        let [_, _, receiver, selector, ..] = *lent.registers;
        begin(lent, receiver, selector, &[], counts)?;
        grants.iter().map(|n| run(lent, *n, counts).map(|ran| left(lent, &ran))).collect()
    })
}

/// On 1,024 words, 1,000 bytecodes in one run.
fn played(image: &[u8]) -> Result<Left, Refusal> {
    ran(image, 1_024, &[1_000]).map(|runs| runs[0])
}

/// Code with a header and a home, and the selector as the only literal where there is one.
const ADDING: [u16; 4] = [1, 8, 112 << 8 | 119, 176 << 8 | 124];

#[test]
fn adds() {
    assert_eq!(image(81, &ADDING, None).len(), 10 + 8 * 12 + 2 * 55);
    assert_eq!(played(&image(81, &ADDING, None)), Ok((2, 4, 85, 18, 0)));
}

#[test]
fn sum_out_of_range_is_sent() {
    assert_eq!(played(&image(32_767, &ADDING, None)), Ok((3, 2, 0, 18, 0)));
}

#[test]
fn empty_input_is_refused() {
    assert_eq!(played(&[]).unwrap_err().number, 1);
}

#[test]
fn jump_to_itself_is_sound() {
    assert_eq!(played(&image(81, &[1, 8, 163 << 8 | 254], None)), Ok((1, 1_000, 0, 18, 0)));
}

/// Two bytecodes for each frame, but the last send halts, and is not counted. 56 frames of 18 words fit, 26 of 38.
#[test]
fn frame_that_does_not_fit_never_stood() {
    let sends_itself = |header: u16| image(81, &[header, 8, 20, 112 << 8 | 208, 124 << 8], None);
    assert_eq!(played(&sends_itself(3)), Ok((5, 111, 0, 1_008, 55)));
    assert_eq!(played(&sends_itself(131)), Ok((5, 51, 0, 988, 25)));
    for length in [1_008, 1_025] {
        assert_eq!(ran(&sends_itself(3), length, &[1_000]), Ok(vec![(5, 111, 0, 1_008, 55)]));
    }
    assert_eq!(ran(&sends_itself(3), 1_026, &[1_000]), Ok(vec![(5, 113, 0, 1_026, 56)]));
    assert_eq!(ran(&sends_itself(131), 18, &[0]).unwrap_err().number, 13);
}

/// Sends itself to the integer one less, down to 0: eight bytecodes and the return for each frame, five for that of 0.
fn down(header: u16) -> Vec<u8> {
    image(5, &[header, 8, 20, 112 << 8 | 117, 182 << 8 | 152, 120 << 8 | 112, 118 << 8 | 177, 208 << 8 | 124], None)
}

#[test]
fn frames_that_returned_count() {
    assert_eq!(played(&down(3)), Ok((2, 23, 1, 54, 2)));
    assert_eq!(played(&down(131)), Ok((2, 23, 1, 114, 2)));
    // One bytecode less, and only the first frame stands.
    assert_eq!(ran(&down(3), 1_024, &[22]), Ok(vec![(1, 22, 0, 54, 2)]));
}

/// Two frames that stand one after the other need the room of the larger: a small method sends twice to nil, whose method is large.
#[test]
fn frames_at_the_same_place_count_once() {
    let twice = image(81, &[3, 8, 20, 115 << 8 | 208, 135 << 8 | 115, 208 << 8 | 124], Some(&[129, 14, 120 << 8]));
    assert_eq!(played(&twice), Ok((2, 8, 2, 56, 2)));
}

/// Each run counts the frames that it finds and the sends that it makes, and no run those of the runs before it.
#[test]
fn largest_reach_of_the_parts_is_that_of_the_whole() {
    let parts =
        [(0, 0, 18, 0), (7, 7, 18, 0), (1, 1, 36, 1), (12, 12, 54, 1), (0, 0, 54, 0), (1, 1, 54, 0), (0, 0, 36, 0), (1, 1, 36, 0), (0, 0, 18, 0)];
    let mut expected: Vec<Left> = parts.iter().map(|(_, count, reach, dictionaries)| (1, *count, 0, *reach, *dictionaries)).collect();
    expected.push((2, 1, 1, 18, 0));
    let grants: Vec<u32> = parts.iter().map(|part| part.0).chain([100]).collect();
    assert_eq!(ran(&down(3), 1_024, &grants), Ok(expected));
}

/// Eight large frames for 7 to 0, of which the last sends to nil; then 3,624 small ones: 304 and 65,232 words, the most that there can be.
#[test]
fn reach_has_more_than_16_bits() {
    let large = [131, 8, 20, 112 << 8 | 117, 182 << 8 | 154, 115 << 8 | 208, 124 << 8 | 112, 118 << 8 | 177, 208 << 8 | 124];
    let image = image(15, &large, Some(&[3, 14, 20, 112 << 8 | 208, 124 << 8]));
    let count = 7 * 8 + 6 + 3_623 * 2 + 1;
    // All but the first frame were sent.
    let sent = 7 + 3_624;
    for length in [MOST_STACK, MOST_STACK + 100] {
        assert_eq!(ran(&image, length, &[10_000]), Ok(vec![(5, count, 0, 65_536, sent)]));
        assert_eq!(ran(&image, length, &[count, 0, 1]), Ok(vec![(1, count, 0, 65_536, sent), (1, 0, 0, 65_536, 0), (5, 0, 0, 65_536, 0)]));
    }
    assert_eq!(ran(&image, MOST_STACK - 1, &[10_000]), Ok(vec![(5, count - 2, 0, 65_518, sent - 1)]));
    let mut answers = [7; 2 * ANSWER_WORDS];
    assert_eq!(loaded(&image, MOST_STACK, |lent, counts| play(lent, &[0, 15, 20, 0, 1, 1, 0], &mut answers, counts)), Ok(2));
    assert_eq!(answers[ANSWER_WORDS..], [0, 5, count, 0, 65_536, 0, sent as u32]);
}

#[test]
fn refusal_says_where() {
    let refusal = played(&image(81, &[1, 8, 112 << 8 | 135, 135 << 8 | 124], None)).unwrap_err();
    assert_eq!((refusal.number, refusal.place), (7, Place::Code(11, 2)));
    assert_eq!(refusal.to_string(), "refused 7: method 11, code position 2: fewer operands than needed");
}

/// The adder with more classes: the integers' class is below the last of them, each below the one before, and the first below a word.
fn below(first: u16, count: usize) -> Vec<Entry> {
    let mut objects = objects(&ADDING, None);
    let mut above = first;
    for _ in 0..count {
        objects.push((12, CLASS, 4, vec![above, 16, 1, 1]));
        above = pointer(objects.len());
    }
    objects[3].3[0] = above;
    objects
}

fn number(objects: &[Entry]) -> u32 {
    played(&written(81, objects)).map_or_else(|refusal| refusal.number, |_| 0)
}

#[test]
fn chains_of_up_to_24_classes() {
    assert_eq!([21, 22, 23, 24, 25].map(|count| number(&below(NIL, count))), [0, 0, 0, 14, 14]);
    // The word 14 names class 7, so these have one more.
    assert_eq!([21, 22, 23, 24, 25].map(|count| number(&below(14, count))), [0, 0, 14, 14, 14]);
}

/// Object 13 is the first of the added classes, object 4 the lowest.
#[test]
fn circles_are_too_long() {
    for (first, count) in [(8, 0), (8, 1), (8, 23), (8, 30), (26, 1), (26, 5), (28, 5)] {
        assert_eq!(number(&below(first, count)), 14);
    }
}

/// An integer, false and the method end a chain, and are a fault of 6 where it is not too long.
#[test]
fn chains_end_at_what_is_no_class() {
    for first in [7, 4, 22] {
        assert_eq!([1, 23, 24].map(|count| number(&below(first, count))), [6, 6, 14]);
    }
}

#[test]
fn chains_come_between_words_and_classes() {
    for count in [23, 24] {
        let mut half_a_pair = below(NIL, count);
        half_a_pair[7].2 = 1;
        half_a_pair[7].3 = vec![20];
        assert_eq!(number(&half_a_pair), if count == 23 { 6 } else { 14 });
        let mut invalid = below(NIL, count);
        invalid[4].3[0] = 0;
        assert_eq!(number(&invalid), 5);
    }
}

/// The words of a refused image are zero, the rest as before; a state with such a chain is not right.
#[test]
fn what_a_chain_leaves() {
    let image = written(81, &below(NIL, 24));
    let (mut contents, mut bodies, mut cache) = (vec![7; 8_188], vec![7; 24_000], vec![7; CACHE_WORDS]);
    let mut registers = [7; 8];
    let mut lent = Lent { contents: &mut contents, bodies: &mut bodies, stack: &mut [], cache: &mut cache, registers: &mut registers };
    assert_eq!(load(&image, &mut lent).unwrap_err().number, 14);
    let (n, b) = (12 + 24, 55 + 4 * 24);
    assert_eq!(registers, [0; 8]);
    for (words, zero) in [(&contents, 4 * n), (&bodies, b), (&cache, 0)] {
        assert!(words[..zero].iter().all(|word| *word == 0) && words[zero..].iter().all(|word| *word == 7));
    }
    let spoiled = loaded(&written(81, &below(NIL, 23)), 1_024, |lent, _| {
        // The first of the added classes, behind the 55 words of the adder, gets the class of nil as its superclass.
        check(lent)?;
        lent.bodies[55] = 14;
        check(lent)
    });
    assert_eq!(spoiled.unwrap_err().number, 11);
}

/// Object 1 is nil, then come classes, each below the next, and then their dictionaries, with these selectors. What the methods are does not matter here.
fn classes(dictionaries: &[&[u16]]) -> Objects {
    let object = |kind: u16, body: Vec<u16>| Object { class: 4, kind, start: 0, size: body.len() as u16, body };
    let (nil, count) = (object(FIELDS, vec![]), dictionaries.len());
    let above = |index: usize| if index + 1 < count { pointer(index + 3) } else { NIL };
    let class = |index: usize| object(CLASS, vec![above(index), pointer(index + 2 + count), 1, 1]);
    let dictionary = |selectors: &&[u16]| object(LIST, selectors.iter().flat_map(|selector| [*selector, 100]).collect());
    Objects { list: [nil].into_iter().chain((0..count).map(class)).chain(dictionaries.iter().map(dictionary)).collect() }
}

#[test]
fn pairs_of_one_dictionary() {
    let three = classes(&[&[20, 24, 30]]);
    assert_eq!([18, 20, 22, 24, 30, 32].map(|selector| three.pairs_read(4, selector)), [1, 1, 2, 2, 3, 3]);
    // Words that name no selector.
    assert_eq!([0, NIL, 19, 21, 31, 32_768, 65_535].map(|word| three.pairs_read(4, word)), [1, 1, 1, 2, 3, 3, 3]);
    assert_eq!([18, 20, 22].map(|selector| classes(&[&[20]]).pairs_read(4, selector)), [1, 1, 1]);
    assert_eq!([0, 20, 65_535].map(|word| classes(&[&[]]).pairs_read(4, word)), [0, 0, 0]);
}

#[test]
fn dictionaries_along_a_chain() {
    let four = classes(&[&[20, 24, 30], &[], &[18, 22], &[22, 30, 40]]);
    let found = |class: u16, selector: u16| four.lookup(class, selector).map(|found| (found.method, found.dictionaries));
    assert_eq!([20, 24, 30].map(|selector| found(4, selector)), [Some((100, 1)); 3]);
    assert_eq!([18, 22, 40].map(|selector| found(4, selector)), [Some((100, 3)), Some((100, 3)), Some((100, 4))]);
    // From each class on, and from what is no class.
    assert_eq!([4, 6, 8, 10, NIL, 0, 5].map(|class| found(class, 30)), [1, 3, 2, 1, 0, 0, 0].map(|read| (read > 0).then_some((100, read))));
    // Not found: all that there are.
    assert_eq!([4, 6, 8, 10, NIL, 0, 5].map(|class| four.dictionaries_read(class, 42)), [4, 3, 2, 1, 0, 0, 0]);
    assert_eq!([20, 22, 40].map(|selector| four.dictionaries_read(4, selector)), [1, 3, 4]);
    let mut selectors = [&[20][..]; MOST_CHAIN];
    selectors[MOST_CHAIN - 1] = &[20, 30];
    let longest = classes(&selectors);
    assert_eq!([20, 30, 40].map(|word| longest.dictionaries_read(4, word)), [1, 24, 24]);
    assert_eq!(longest.lookup(4, 30), Some(Found { method: 100, dictionaries: 24 }));
    // Two classes with one dictionary.
    let mut shared = four.clone();
    shared.list[1].body[1] = shared.list[2].body[1];
    assert_eq!([20, 22, 40].map(|selector| shared.dictionaries_read(4, selector)), [4, 3, 4]);
}

#[test]
fn pairs_along_a_chain() {
    let four = classes(&[&[20, 24, 30], &[], &[18, 22], &[22, 30, 40]]);
    // Found in the first class, where those above do not count, also under a selector that they have.
    assert_eq!([20, 24, 30].map(|selector| four.pairs_read(4, selector)), [1, 2, 3]);
    // Found above: 2 + 0 + 2, 1 + 0 + 1, and 3 + 0 + 2 + 3.
    assert_eq!([22, 18, 40].map(|selector| four.pairs_read(4, selector)), [4, 2, 8]);
    // Not found: 1 + 0 + 1 + 1, 3 + 0 + 2 + 2, and all of them.
    assert_eq!([16, 26, 42].map(|selector| four.pairs_read(4, selector)), [3, 7, 8]);
    // 24, which the first has, from each class on, and from what is no class.
    assert_eq!([4, 6, 8, 10, NIL, 0, 5].map(|word| four.pairs_read(word, 24)), [2, 4, 4, 2, 0, 0, 0]);
    assert_eq!([4, 6, 8, 10, NIL].map(|word| four.pairs_along(word)), [8, 5, 5, 3, 0]);
    let longest = classes(&[&[20, 30][..]; MOST_CHAIN]);
    assert_eq!([10, 20, 25, 30, 35].map(|word| longest.pairs_read(4, word)), [24, 1, 48, 2, 48]);
    assert_eq!(longest.pairs_along(4), 48);
}

/// Object 18 is sent object 10; it has a field, and its class 19 is the lowest of a chain, with so many above it. Class 19 has the handler, method 14; the last
/// class has method 15 under object 13; those between share the empty dictionary 8. Both methods get their home here, as word 1.
fn climbing(above: usize, handler: &[u16], method: &[u16]) -> Vec<Entry> {
    let (lowest, last) = (38, pointer(19 + above));
    let code = |words: &[u16], home: u16| {
        let words = [&[words[0], home], &words[2..]].concat();
        (12, METHOD, 2 * words.len() as u16, words)
    };
    let mut objects = objects(&ADDING, None);
    let own: &[u16] = if above == 0 { &[20, 28, 26, 30] } else { &[20, 28] };
    objects.extend([
        (24, BYTES, 1, vec![98 << 8]),
        code(handler, lowest),
        code(method, last),
        (12, LIST, own.len() as u16, own.to_vec()),
        (12, LIST, 2, vec![26, 30]),
        (lowest, FIELDS, 1, vec![word(77).unwrap()]),
    ]);
    for index in 0..=above {
        let (superclass, dictionary) = if index == above { (NIL, 34) } else { (pointer(20 + index), 16) };
        objects.push((12, CLASS, 4, vec![superclass, if index == 0 { 32 } else { dictionary }, word(1).unwrap(), 1]));
    }
    objects
}

/// Method 15 in each of its kinds: a frame, flags 5 and 6, class, which answers, and size, which fails; with what the handler leaves.
fn kinds() -> [(Vec<u16>, (u32, u16)); 5] {
    let primitive = |number: u16| vec![7 << 13 | 5, 0, number << 1 | 1, NIL, 120 << 8];
    [
        (vec![1, 0, 120 << 8], (4, 36)),
        (vec![5 << 13 | 1, 0], (3, 36)),
        (vec![6 << 13 | 1, 0], (3, 155)),
        (primitive(111), (3, 38)),
        (primitive(62), (4, 36)),
    ]
}

/// Sends object 13 to self: by 208, 131, 132, and by a special send, whose selector it has to be.
const SENDS: [[u16; 5]; 4] =
    [[3, 0, 26, 112 << 8 | 208, 124 << 8], [3, 0, 26, 112 << 8 | 131, 124], [3, 0, 26, 112 << 8 | 132, 0], [3, 0, 26, 112 << 8 | 207, 124 << 8]];

/// The methods of class 19 itself are one dictionary away, and so on up to 24.
#[test]
fn dictionaries_of_a_send() {
    for (above, dictionaries) in [(0, 1), (1, 2), (2, 3), (22, 23), (23, 24)] {
        for ((method, (count, value)), sends) in kinds().iter().flat_map(|kind| SENDS.map(|sends| (kind, sends))) {
            // 132 has two bytes, so its return is in a word more.
            let sends = if sends[4] == 0 { [&sends[..], &[124 << 8]].concat() } else { sends.to_vec() };
            let mut objects = climbing(above, &sends, method);
            objects[4].3[31] = 26;
            let reach = if *count == 4 { 36 } else { 18 };
            assert_eq!(played(&written(36, &objects)), Ok((2, *count, *value, reach, dictionaries)));
        }
    }
}

/// Super sends start above class 19.
#[test]
fn dictionaries_of_a_super_send() {
    for (above, dictionaries) in [(1, 1), (2, 2), (22, 22), (23, 23)] {
        for ((method, (count, value)), code) in
            kinds().iter().flat_map(|kind| [[112 << 8 | 133, 124, 0], [112 << 8 | 134, 0, 124 << 8]].map(|code| (kind, code)))
        {
            let reach = if *count == 4 { 36 } else { 18 };
            let handler = [&[3, 0, 26][..], &code].concat();
            assert_eq!(played(&written(36, &climbing(above, &handler, method))), Ok((2, *count, *value, reach, dictionaries)));
        }
    }
}

/// self + self, which is sent since self is no integer.
#[test]
fn dictionaries_of_arithmetic_that_fails() {
    for above in [0, 5, 23] {
        let mut objects = climbing(above, &[1, 0, 112 << 8 | 112, 176 << 8 | 124], &[1 << 13 | 1 << 8 | 1, 0, 120 << 8]);
        objects[4].3[0] = 26;
        assert_eq!(played(&written(36, &objects)), Ok((2, 5, 36, 36, 1 + above as u64)));
    }
}

/// A send that is made, and then one that halts: for want of stack, and since nobody implements nil.
#[test]
fn halted_send_has_no_dictionaries() {
    let handler = |second: u16| [5, 0, 26, second, 112 << 8 | 208, 209 << 8 | 124];
    let answers_self = [5 << 13 | 1, 0];
    for (second, phase) in [(20, 5), (NIL, 3)] {
        assert_eq!(ran(&written(36, &climbing(6, &handler(second), &answers_self)), 18, &[9]), Ok(vec![(phase, 2, 0, 18, 7)]));
        // The same in parts: push self, the send, and nothing.
        let parts = ran(&written(36, &climbing(6, &handler(second), &answers_self)), 18, &[1, 1, 1]);
        assert_eq!(parts, Ok(vec![(1, 1, 0, 18, 0), (1, 1, 0, 18, 7), (phase, 0, 0, 18, 0)]));
    }
}

/// The entry of words 26 and 38, whose common bit is 2, is entry 1. A second run hits it and reads as many; check holds its number to lookup.
#[test]
fn dictionaries_in_the_cache() {
    let image = written(36, &climbing(2, &SENDS[0], &kinds()[0].0));
    let (mut words, mut sums) = (vec![], vec![]);
    let checked = loaded(&image, 1_024, |lent, counts| {
        for _ in 0..2 {
            begin(lent, 36, 20, &[], counts)?;
            assert!(lent.cache[..4] == [0; 4] && lent.cache[8..].iter().all(|word| *word == 0));
            sums.push(run(lent, 9, counts)?.dictionaries);
        }
        words = lent.cache[4..8].to_vec();
        let numbers = [0, 1, 2, 3, 4, 24, 259, 65_535].map(|number| {
            lent.cache[7] = number;
            check(lent).map_or_else(|refusal| refusal.number, |()| 0)
        });
        assert_eq!(numbers, [11, 11, 11, 0, 11, 11, 11, 11]);
        let alone = [1, 3, 65_535].map(|number| {
            lent.cache[4..8].copy_from_slice(&[0, 0, 0, number]);
            check(lent).map_or_else(|refusal| refusal.number, |()| 0)
        });
        assert_eq!(alone, [11; 3]);
        lent.cache[7] = 0;
        check(lent)
    });
    assert_eq!((checked, words, sums), (Ok(()), vec![26, 38, 30, 3], vec![3, 3]));
}

/// Neither the length that the cache had when entries were of three words, nor those beside the right one.
#[test]
fn cache_has_256_words() {
    assert_eq!(CACHE_WORDS, 256);
    for (length, number) in [(0, 3), (192, 3), (255, 3), (256, 0), (257, 3)] {
        let (mut contents, mut bodies, mut cache, mut registers) = (vec![0; 48], vec![0; 55], vec![0; length], [0; 8]);
        let mut lent = Lent { contents: &mut contents, bodies: &mut bodies, stack: &mut [], cache: &mut cache, registers: &mut registers };
        let loaded = load(&image(81, &ADDING, None), &mut lent);
        assert_eq!(loaded.map_or_else(|refusal| refusal.number, |()| 0), number);
    }
}

/// The sum has two words in an answer, the high one first; it goes on past 32 bits, and begin adds nothing.
#[test]
fn sum_of_more_than_32_bits() {
    let ran = Ran { count: 3, reach: 18, dictionaries: 5 << 32 | 7 };
    assert_eq!(ran_answer(FINISHED, 85, &ran), [0, 2, 3, 85, 18, 5, 7]);
    let image = written(36, &climbing(23, &SENDS[0], &kinds()[1].0));
    let sum = loaded(&image, 1_024, |lent, counts| {
        begin(lent, 36, 20, &[], counts)?;
        let (world, frames) = opened(lent)?;
        let room = Room { contents: lent.contents.len(), bodies: lent.bodies.len() };
        let dictionaries = u32::MAX as u64;
        let mut machine = Machine { world, frames, stack: lent.stack, cache: lent.cache, room, dictionaries, counts };
        let (ran, left) = steps(&mut machine, 2, &mut Unwatched);
        assert_eq!(left, [RUNNING, 0, 0]);
        Ok(ran.dictionaries)
    });
    assert_eq!(sum, Ok((1 << 32) + 23));
}

/// 40 + 2 in two runs, with refused calls around them; the last begin lacks a word.
#[test]
fn list_is_played() {
    let calls: [(&[u16], [u32; ANSWER_WORDS]); 8] = [
        (&[1, 0, 9], [12, 0, 0, 0, 0, 0, 0]),
        (&[0, 81, 20, 0], [0, 0, 0, 0, 0, 0, 0]),
        (&[1, 0, 3], [0, 1, 3, 0, 18, 0, 0]),
        (&[0, 81, 20, 0], [12, 0, 0, 0, 0, 0, 0]),
        (&[1, 1, 0], [0, 2, 1, 85, 18, 0, 0]),
        (&[3], [0, 0, 0, 0, 0, 0, 0]),
        (&[0, 81, 20, 1, 5], [10, 0, 0, 0, 0, 0, 0]),
        (&[2], [0, 0, 0, 0, 0, 0, 0]),
    ];
    let list = [&calls.map(|(words, _)| words).concat()[..], &[0, 81, 20]].concat();
    let expected = calls.map(|(_, answer)| answer).concat();
    const ROOM: usize = 10 * ANSWER_WORDS;
    for room in 0..ROOM {
        let mut answers = [7; ROOM];
        let played =
            loaded(&image(81, &ADDING, None), 1_024, |lent, counts| Ok((play(lent, &list, &mut answers[..room], counts)?, lent.registers[PHASE])));
        let made = (room / ANSWER_WORDS).min(calls.len());
        assert_eq!(played, Ok((made as u32, [0, 0, 1, 1, 1, 2, 2, 2, 0][made])));
        let (written, behind) = answers.split_at(ANSWER_WORDS * made);
        assert_eq!(written, &expected[..written.len()]);
        assert!(behind.iter().all(|word| *word == 7));
    }
}

/// The handler `down` in parts: reach and dictionaries of each run stand with it alone.
#[test]
fn reach_is_listed() {
    let list = [0, 5, 20, 0, 1, 0, 16, 1, 0, 6, 1, 0, 0, 2, 1, 0, 1];
    let mut answers = [7; 6 * ANSWER_WORDS];
    assert_eq!(loaded(&down(131), 1_024, |lent, counts| play(lent, &list, &mut answers, counts)), Ok(6));
    let runs = [[0, 1, 16, 0, 114, 0, 2], [0, 1, 6, 0, 114, 0, 0], [0, 1, 0, 0, 38, 0, 0]];
    assert_eq!(answers[..], [[0; ANSWER_WORDS], runs[0], runs[1], runs[2], [0; ANSWER_WORDS], [12, 0, 0, 0, 0, 0, 0]].concat());
}

#[test]
fn spoiled_state_refuses_the_list() {
    let mut answers = [7; ANSWER_WORDS];
    let played = loaded(&image(81, &ADDING, None), 1_024, |lent, counts| {
        lent.registers[PHASE] = 6;
        play(lent, &[2], &mut answers, counts)
    });
    assert_eq!((played.unwrap_err().number, answers), (11, [7; ANSWER_WORDS]));
}

/// N and B of the next image.
const N: usize = 16;
const B: usize = 71;

/// Integers have a method 15 under object 10, with these words, and a method 16 under object 6. Their class is below class 9, that of nil, which may have
/// another under object 6. Class 11 is that of classes, 14 that of bytes.
fn messages(method: &[u16], under_6: &[u16], above: Option<&[u16]>) -> Vec<Entry> {
    let class = |above: u16, dictionary: u16, fields: i64, form: i64| vec![above, dictionary, word(fields).unwrap(), word(form).unwrap()];
    let code = |words: &[u16]| (22, METHOD, 2 * words.len() as u16, words.to_vec());
    let mut objects = vec![
        (18, FIELDS, 0, vec![]),
        (18, FIELDS, 0, vec![]),
        (18, FIELDS, 0, vec![]),
        (22, CLASS, 4, class(18, 26, 0, 3)),
        (22, LIST, 32, vec![NIL; 32]),
        (28, BYTES, 1, vec![100 << 8]),
        (22, CLASS, 4, class(18, 24, 2, 0)),
        (22, CLASS, 4, class(18, 24, 0, 1)),
        (22, CLASS, 4, class(NIL, if above.is_some() { 34 } else { 24 }, 0, 0)),
        (28, BYTES, 1, vec![97 << 8]),
        (22, CLASS, 4, class(NIL, 24, 0, 3)),
        (22, LIST, 0, vec![]),
        (22, LIST, 4, vec![12, 32, 20, 30]),
        (22, CLASS, 4, class(NIL, 24, 0, 2)),
        code(method),
        code(under_6),
    ];
    if let Some(above) = above {
        objects.extend([(22, LIST, 2, vec![12, 36]), code(above)]);
    }
    objects
}

/// Self is sent the integers 1 and 2 under the literal, which is nil: nobody implements it.
const SENDS_NIL: [u16; 6] = [3, 8, NIL, 112 << 8 | 118, 119 << 8 | 240, 124 << 8];
/// Answers the message.
const ANSWERS: [u16; 3] = [1 << 13 | 1 << 8 | 1, 8, 16 << 8 | 124];
/// As this one, with a primitive, which is tried first.
fn primitive(number: u16) -> [u16; 5] {
    [7 << 13 | 1 << 8 | 5, 8, 1 << 9 | number << 1 | 1, NIL, 16 << 8 | 124]
}

/// What a handler leaves: of contents and bodies what is behind the image, and of the cache what is filled.
struct Messaged {
    left: Left,
    registers: Registers,
    contents: Vec<u16>,
    bodies: Vec<u16>,
    cache: Vec<u16>,
}

/// The start words begun and run, with so long contents, bodies and stack.
fn messaged(edition: u16, objects: &[Entry], lengths: [usize; 3]) -> Messaged {
    let image = of_edition(edition, 41, objects);
    let (n, b) = (objects.len(), objects.iter().map(|object| object.3.len()).sum::<usize>());
    let (mut contents, mut bodies, mut stack, mut cache) = (vec![0; lengths[0]], vec![0; lengths[1]], vec![0; lengths[2]], vec![0; CACHE_WORDS]);
    let mut registers = [0; 8];
    let mut lent = Lent { contents: &mut contents, bodies: &mut bodies, stack: &mut stack, cache: &mut cache, registers: &mut registers };
    load(&image, &mut lent).unwrap();
    let mut counts = Counts::default();
    begin(&mut lent, 41, 20, &[], &mut counts).unwrap();
    let ran = run(&mut lent, 1_000, &mut counts).unwrap();
    check(&lent).unwrap();
    let left = left(&lent, &ran);
    let cache = cache.chunks(ENTRY_WORDS).filter(|entry| entry[0] != 0).flatten().copied().collect();
    Messaged { left, registers, contents: contents[4 * n..].to_vec(), bodies: bodies[b..].to_vec(), cache }
}

const LONG: [usize; 3] = [8_188, 24_000, 1_024];

#[test]
fn failed_send_makes_array_and_message() {
    let objects = messages(&SENDS_NIL, &ANSWERS, None);
    assert_eq!((objects.len(), objects.iter().map(|object| object.3.len()).sum()), (N, B));
    let made = messaged(2, &objects, LONG);
    // push self, 1 and 2, the send, push the message, both returns. Of the lookups that of object 6 alone counts.
    assert_eq!(made.left, (2, 7, 36, 36, 1));
    assert_eq!(made.registers, [18, 75, 41, 20, 2, 0, 36, 2]);
    assert_eq!(made.contents[..8], [16, 0, 71, 2, 14, 0, 73, 2]);
    assert_eq!(made.bodies[..4], [3, 5, NIL, 34]);
    assert_eq!(made.cache, [12, 8, 32, 1]);
    // The same objects in edition 1.
    let earlier = messaged(1, &objects, LONG);
    assert_eq!((earlier.left, earlier.registers), ((3, 3, 0, 18, 0), [16, 71, 41, 20, 3, 0, 0, 1]));
    assert_eq!(earlier.cache, []);
}

/// What the two objects need, and a word less of each; a halt makes neither.
#[test]
fn objects_find_room_or_not() {
    let objects = messages(&SENDS_NIL, &ANSWERS, None);
    let [contents, bodies] = [4 * (N + 2), B + 4];
    assert_eq!(messaged(2, &objects, [contents, bodies, 36]).left, (2, 7, 36, 36, 1));
    for (lengths, left) in [
        ([contents - 1, bodies, 36], (3, 3, 0, 18, 0)),
        ([contents, bodies - 1, 36], (3, 3, 0, 18, 0)),
        ([contents, bodies, 35], (5, 3, 0, 18, 0)),
        // Room for the objects is asked for before the frame.
        ([contents, bodies - 1, 35], (3, 3, 0, 18, 0)),
    ] {
        let halted = messaged(2, &objects, lengths);
        assert_eq!((halted.left, halted.registers[0], halted.registers[1], &halted.cache[..]), (left, 16, 71, &[][..]));
        assert!(halted.contents.iter().chain(&halted.bodies).all(|word| *word == 0));
    }
}

#[test]
fn most_objects_and_body_words() {
    for (more, phase) in [(2_045 - N, 2), (2_046 - N, 3), (2_047 - N, 3)] {
        let mut objects = messages(&SENDS_NIL, &ANSWERS, None);
        objects.extend((0..more).map(|_| (28, BYTES, 0, vec![])));
        assert_eq!(messaged(2, &objects, [9_000, 24_000, 1_024]).left.0, phase);
    }
    for (more, phase) in [(24_000 - B - 4, 2), (24_000 - B - 3, 3), (24_000 - B, 3)] {
        let mut objects = messages(&SENDS_NIL, &ANSWERS, None);
        objects.push((28, BYTES, 2 * more as u16, vec![0; more]));
        assert_eq!(messaged(2, &objects, [9_000, 24_100, 1_024]).left.0, phase);
    }
}

/// == answers false without a frame, and the objects stay; the others fail on a message.
#[test]
fn primitives_under_object_6() {
    let made = messaged(2, &messages(&SENDS_NIL, &primitive(110), None), LONG);
    assert_eq!((made.left, made.registers[0], made.registers[1]), ((2, 5, FALSE, 18, 1), 18, 71 + 2 + 4));
    assert_eq!(made.cache, [12, 8, 32, 1]);
    for number in [0, 1, 7, 17, 60, 61, 62, 70, 71, 111, 255] {
        assert_eq!(messaged(2, &messages(&SENDS_NIL, &primitive(number), None), LONG).left, (2, 7, 36, 36, 1));
    }
}

/// Super sends of integers start at class 9, and so does the lookup of object 6.
#[test]
fn object_6_is_sought_where_the_failed_lookup_started() {
    let sends_super = [3, 8, NIL, 112 << 8 | 133, 0 << 8 | 124];
    let above = [1 << 13 | 3 << 8 | 129, 18, 17 << 8 | 124];
    // The second temporary is nil. Of the five bytecodes two are in a large frame.
    let made = messaged(2, &messages(&sends_super, &ANSWERS, Some(&above)), LONG);
    assert_eq!((made.left, made.cache), ((2, 5, NIL, 18 + 38, 1), vec![12, 18, 36, 1]));
    assert_eq!((&made.contents[..8], &made.bodies[..2]), (&[16, 0, 75, 0, 14, 0, 75, 2][..], &[NIL, 38][..]));
    // Not found there.
    assert_eq!(messaged(2, &messages(&sends_super, &ANSWERS, None), LONG).left, (3, 1, 0, 18, 0));
}

/// Integers have no method under object 6 of their own: two dictionaries are read for it, as were before for the selector that nobody implements.
#[test]
fn object_6_further_up() {
    let above = [1 << 13 | 1 << 8 | 1, 18, 16 << 8 | 124];
    let mut objects = messages(&SENDS_NIL, &ANSWERS, Some(&above));
    objects[12] = (22, LIST, 2, vec![20, 30]);
    let made = messaged(2, &objects, LONG);
    assert_eq!((made.left.4, made.cache), (2, vec![12, 8, 36, 2]));
}

fn edition_2(objects: &[Entry]) -> u32 {
    loaded(&of_edition(2, 41, objects), 1_024, |_, _| Ok(())).map_or_else(|refusal| refusal.number, |_| 0)
}

#[test]
fn objects_6_to_8_and_methods_under_6() {
    let right = messages(&SENDS_NIL, &ANSWERS, None);
    assert_eq!(edition_2(&right), 0);
    for edition in [0, 3, 256, 65_535] {
        assert_eq!(loaded(&of_edition(edition, 41, &right), 1_024, |_, _| Ok(())).unwrap_err().number, 2);
    }
    for (n, number) in [(7, 2), (8, 5)] {
        assert_eq!(edition_2(&vec![(0, FIELDS, 0, vec![]); n]), number);
    }
    let changed = |change: &dyn Fn(&mut Vec<Entry>)| {
        let mut objects = right.clone();
        change(&mut objects);
        (edition_2(&objects), loaded(&of_edition(1, 41, &objects), 1_024, |_, _| Ok(())).map_or_else(|refusal| refusal.number, |_| 0))
    };
    // Another form or F, and an object that is no class.
    assert_eq!(changed(&|objects| objects[6].3[2] = 7), (6, 0));
    assert_eq!(changed(&|objects| objects[6].3[3] = 3), (6, 0));
    assert_eq!(changed(&|objects| objects[6] = (22, LIST, 0, vec![])), (6, 0));
    assert_eq!(changed(&|objects| objects[7].3[2] = 3), (6, 0));
    assert_eq!(changed(&|objects| objects[7].3[3] = 1), (6, 0));
    assert_eq!(changed(&|objects| objects[7] = (28, BYTES, 0, vec![])), (6, 0));
    // Object 6 is a list, and in no dictionary.
    assert_eq!(changed(&|objects| (objects[5], objects[12]) = ((22, LIST, 0, vec![]), (22, LIST, 2, vec![20, 30]))), (6, 0));
    // Flags 0, 2 and 5 under object 6, and flag 7 with another count.
    let header = |flag: u16, temporaries: u16| flag << 13 | temporaries << 8 | 1;
    for method in [header(0, 1), header(2, 2), header(5, 1)] {
        assert_eq!(changed(&|objects| objects[15].3[0] = method), (7, 0));
    }
    assert_eq!(changed(&|objects| objects[15] = (22, METHOD, 10, vec![header(7, 2) | 4, 8, 2 << 9 | 1, NIL, 16 << 8 | 124])), (7, 0));
}

/// The edition of a state can be another, where its objects suit that one.
#[test]
fn states_have_an_edition() {
    for (edition, expected) in [(0, 11), (1, 0), (2, 0), (3, 11), (65_535, 11)] {
        for first in [1, 2] {
            let checked = loaded(&of_edition(first, 41, &messages(&SENDS_NIL, &ANSWERS, None)), 1_024, |lent, _| {
                lent.registers[EDITION] = edition;
                check(lent)
            });
            assert_eq!(checked.map_or_else(|refusal| refusal.number, |_| 0), expected);
        }
    }
    // Objects 6 to 8 of the adder are none for messages.
    let adder = loaded(&image(81, &ADDING, None), 1_024, |lent, _| {
        lent.registers[EDITION] = 2;
        check(lent)
    });
    assert_eq!(adder.unwrap_err().number, 11);
}
