//! Images with something wrong in them: a rule broken by design, or a word, byte or length changed at random.

use crate::chains;
use crate::draft::*;
use crate::messages;
use crate::random::Random;
use apart::objects::*;
use apart::words::*;

/// A word in place of another: near it, valid, invalid or anything.
pub fn other_word(random: &mut Random, old: u16, n: usize) -> u16 {
    match random.below(10) {
        0 => old.wrapping_add(1),
        1 => old.wrapping_add(2),
        2 => old.wrapping_sub(1),
        3 => old.wrapping_sub(2),
        4 => old ^ (1 << random.below(16)),
        5 => pointer(n + 1),
        6 => 0,
        7 => random.word(),
        8 => word(random.from(0, 5) as i64).unwrap(),
        _ => pointer(random.from(1, n)),
    }
}

pub fn damaged(random: &mut Random, draft: &Draft) -> Vec<u8> {
    let mut draft = draft.clone();
    let by_design = random.percent(60);
    if by_design {
        spoil_draft(random, &mut draft);
    }
    let mut image = draft.image();
    if !by_design || random.percent(15) {
        spoil_image(random, &mut image, draft.objects.len());
    }
    image
}

fn of_kind(random: &mut Random, draft: &Draft, kind: u16) -> usize {
    let able: Vec<usize> = (0..draft.objects.len()).filter(|index| draft.objects[*index].kind == kind).collect();
    random.pick(&able)
}

fn spoil_draft(random: &mut Random, draft: &mut Draft) {
    let n = draft.objects.len();
    match random.below(17) {
        0..=2 => spoil_class(random, draft),
        3..=6 => spoil_method(random, draft),
        7 => spoil_dictionary(random, draft),
        8 => spoil_first(random, draft),
        9 => {
            let word = draft.receiver;
            draft.receiver = other_word(random, word, n);
            if random.percent(50) {
                draft.receiver = word;
                draft.selector = other_word(random, draft.selector, n);
            }
        }
        10 => spoil_size(random, draft),
        11 | 12 => {
            chains::spoil(random, draft);
            // Other rules with it.
            match random.below(10) {
                0 => spoil_word(random, draft),
                1..=3 => spoil_draft(random, draft),
                _ => {}
            }
        }
        13 | 14 if messages::is_able(draft) => messages::swap(random, draft),
        15 if messages::is_able(draft) => messages::other_count(random, draft),
        15 => draft.edition = random.pick(&[0, 1, 2, 3, 3, 4, 256, 65_535]),
        _ => {
            let index = random.below(n);
            let made = &mut draft.objects[index];
            match random.below(3) {
                0 => made.class = other_word(random, made.class, n),
                1 => made.kind = random.below(6) as u16,
                _ if !made.body.is_empty() => {
                    let at = random.below(made.body.len());
                    made.body[at] = other_word(random, made.body[at], n);
                }
                _ => made.class = 0,
            }
        }
    }
}

/// An invalid word in fields, a class or a list.
fn spoil_word(random: &mut Random, draft: &mut Draft) {
    let invalid = random.pick(&[0, pointer(draft.objects.len() + 1)]);
    let mut bodies: Vec<&mut Made> = draft.objects.iter_mut().filter(|made| [FIELDS, CLASS, LIST].contains(&made.kind) && made.size > 0).collect();
    let index = random.below(bodies.len());
    let at = random.below(bodies[index].size);
    bodies[index].body[at] = invalid;
}

fn spoil_class(random: &mut Random, draft: &mut Draft) {
    let n = draft.objects.len();
    let index = of_kind(random, draft, CLASS);
    let list = pointer(1 + of_kind(random, draft, LIST));
    let class = pointer(1 + of_kind(random, draft, CLASS));
    let body = &mut draft.objects[index].body;
    match random.below(7) {
        0 => body[0] = class,
        1 => body[1] = list,
        2 => body[2] = word(random.pick(&[0, 1, 2, 3, 255, 256, -1])).unwrap(),
        3 => body[3] = word(random.pick(&[0, 1, 2, 3, 4, -1])).unwrap(),
        4 => body[0] = NIL,
        _ => {
            let at = random.below(4);
            body[at] = other_word(random, body[at], n);
        }
    }
}

fn spoil_method(random: &mut Random, draft: &mut Draft) {
    let n = draft.objects.len();
    let index = of_kind(random, draft, METHOD);
    let class = pointer(1 + of_kind(random, draft, CLASS));
    let made = &mut draft.objects[index];
    if made.body.len() < 2 {
        return;
    }
    let literals = ((made.body[0] >> 1) & 63) as usize;
    match random.below(8) {
        0 => made.body[0] ^= 1 << random.below(16),
        1 => made.body[1] = class,
        2 | 3 if literals > 0 => {
            let at = (2 + random.below(literals)).min(made.body.len() - 1);
            made.body[at] = other_word(random, made.body[at], n);
        }
        4 => {
            let at = random.below(2);
            made.body[at] = other_word(random, made.body[at], n);
        }
        _ => {
            // A byte of the code.
            let at = random.from((2 + literals).min(made.body.len() - 1), made.body.len() - 1);
            let byte = random.byte() as u16;
            made.body[at] = if random.percent(50) { made.body[at] & 0x00FF | byte << 8 } else { made.body[at] & 0xFF00 | byte };
        }
    }
}

fn spoil_dictionary(random: &mut Random, draft: &mut Draft) {
    let class = of_kind(random, draft, CLASS);
    let list = draft.objects[class].body[1] as usize / 2 - 1;
    let selector = draft.selector;
    let method = pointer(1 + of_kind(random, draft, METHOD));
    let made = &mut draft.objects[list];
    if made.body.len() < 4 {
        made.body.push(selector);
        made.size = made.body.len();
        return;
    }
    let at = 2 * random.below(made.body.len() / 2 - 1);
    match random.below(4) {
        0 => made.body.swap(at, at + 2),
        1 => made.body[at] = made.body[at + 2],
        2 => made.body[at + 1] = method,
        _ => made.body.swap(at + 1, at + 3),
    }
}

fn spoil_first(random: &mut Random, draft: &mut Draft) {
    let n = draft.objects.len();
    let bytes = draft.objects[draft.selector as usize / 2 - 1].class;
    match random.below(5) {
        // nil, false or true become byte objects that fit their class.
        0 => draft.put_bytes(pointer(random.from(1, 3)), bytes, &[1, 2]),
        1 => {
            let word = draft.objects[3].class;
            draft.put(INTEGER_CLASS, word, LIST, vec![]);
        }
        2 => {
            draft.objects[4].body.pop();
            draft.objects[4].size -= 1;
        }
        3 => draft.objects[3].body[3] = word(random.from(0, 3) as i64).unwrap(),
        _ => {
            let at = random.below(32);
            draft.objects[4].body[at] = other_word(random, draft.objects[4].body[at], n);
        }
    }
}

/// Another size, with the words to it or without.
fn spoil_size(random: &mut Random, draft: &mut Draft) {
    let index = random.below(draft.objects.len());
    let made = &mut draft.objects[index];
    let unit = if made.kind == BYTES || made.kind == METHOD { 2 } else { 1 };
    match random.below(5) {
        0 => {
            made.body.push(NIL);
            made.size += unit;
        }
        1 if made.size >= unit => {
            made.body.pop();
            made.size -= unit;
        }
        2 => made.size += 1,
        3 if made.size > 0 => made.size -= 1,
        _ if made.size % 2 == 1 && unit == 2 => *made.body.last_mut().unwrap() |= 1,
        _ => {
            made.body.clear();
            made.size = 0;
        }
    }
}

fn put(image: &mut [u8], word: usize, value: u16) {
    image[2 * word..2 * word + 2].copy_from_slice(&value.to_be_bytes());
}

fn get(image: &[u8], word: usize) -> u16 {
    u16::from_be_bytes([image[2 * word], image[2 * word + 1]])
}

fn change(random: &mut Random, image: &mut [u8], word: usize, n: usize) {
    let old = get(image, word);
    put(image, word, other_word(random, old, n));
}

fn spoil_image(random: &mut Random, image: &mut Vec<u8>, n: usize) {
    let words = image.len() / 2;
    match random.below(12) {
        0 => image.truncate(random.below(12)),
        1 => image.truncate(image.len() - random.from(1, 9)),
        2 => image.extend((0..random.from(1, 9)).map(|_| 0)),
        3 => {
            let at = random.below(5);
            change(random, image, at, n);
        }
        // More bodies than the objects have, and a header that says so.
        4 => {
            let more = random.from(1, 3);
            let total = get(image, 2) + more as u16;
            put(image, 2, total);
            image.extend((0..2 * more).map(|_| 0));
        }
        5 => header_out_of_range(random, image),
        6..=8 => {
            let at = 5 + random.below(4 * n);
            change(random, image, at, n);
        }
        9 | 10 => {
            let at = random.below(words);
            change(random, image, at, n);
        }
        _ => {
            let at = random.below(image.len());
            image[at] = random.byte();
        }
    }
}

/// N, B or the edition out of range, with the length that the header tells.
fn header_out_of_range(random: &mut Random, image: &mut Vec<u8>) {
    match random.below(4) {
        0 => put(image, 0, random.pick(&[0, 1, 2, 3, 3, 256, 512])),
        1 => put(image, 1, random.pick(&[0, 1, 4, 5, 7, 7, 8, 8, 2_047, 2_048, 65_535])),
        _ => put(image, 2, random.pick(&[0, 24_000, 24_001, 65_535])),
    }
    image.resize(10 + 8 * get(image, 1) as usize + 2 * get(image, 2) as usize, 0);
}

/// Makes an image nearly as full as one can be: in objects, in words, or with an object too large to index.
pub fn fill(random: &mut Random, draft: &mut Draft) {
    let is_indexed = |index: &usize| draft.objects[*index].kind == CLASS && draft.objects[*index].body[3] == word(1).unwrap();
    let indexed: Vec<usize> = (0..draft.objects.len()).filter(is_indexed).collect();
    let bytes = draft.objects[draft.selector as usize / 2 - 1].class;
    let used: usize = draft.objects.iter().map(|made| made.body.len()).sum();
    let slack = random.below(6);
    match random.below(3) {
        0 => {
            let count = MOST_OBJECTS - draft.objects.len() - slack;
            draft.objects.extend((0..count).map(|_| Made { class: bytes, kind: BYTES, size: 0, body: vec![] }));
        }
        1 => {
            let words = MOST_BODY_WORDS - used - slack;
            draft.objects.push(Made { class: bytes, kind: BYTES, size: 2 * words, body: vec![0; words] });
        }
        _ => {
            // 16,383 and 16,384 elements lie on both sides of what an integer can hold.
            let count = random.from(16_382, 16_385);
            if indexed.is_empty() || random.percent(50) {
                draft.objects.push(Made { class: bytes, kind: BYTES, size: count, body: vec![0; (count + 1) / 2] });
            } else {
                let class = random.pick(&indexed);
                let words = (integer(draft.objects[class].body[2]) as usize + count).min(MOST_BODY_WORDS - used);
                draft.objects.push(Made { class: pointer(class + 1), kind: FIELDS, size: words, body: vec![NIL; words] });
            }
        }
    }
}
