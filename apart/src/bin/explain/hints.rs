//! Words that stand low byte first, where that can be told.

use apart::image::Image;
use apart::objects::*;
use apart::refusal::{Place, Refusal};
use apart::rules;

/// What looks byte-swapped in a refused image.
pub fn byte_order(first: &Refusal, bytes: &[u8], image: &Image) -> Option<String> {
    match (first.number, first.place) {
        (1 | 2, _) => header(bytes),
        (4, Place::Body(number, index)) => bodies(image).or_else(|| padding(image.word(number, index)?)),
        (4, _) => entries(image),
        _ => bodies(image),
    }
}

/// An edition's number has a zero high half.
fn header(bytes: &[u8]) -> Option<String> {
    let edition = match bytes.get(..2)? {
        [low, 0] if (1..=LAST_EDITION).contains(&u16::from(*low)) => u16::from(*low),
        _ => return None,
    };
    let swapped = |index: usize| bytes.get(2 * index..2 * index + 2).map(|pair| u16::from_le_bytes([pair[0], pair[1]]) as usize);
    let (n, b) = (swapped(1)?, swapped(2)?);
    if rules::ranges(edition, n, b).is_err() {
        let other = 256 * edition;
        return Some(format!("the edition looks byte-swapped: {other} is {edition} read low byte first; words stand high byte first"));
    }
    let length = 10 + 8 * n + 2 * b;
    let other = if bytes.len() == length { String::new() } else { format!(" (it has {})", bytes.len()) };
    let header = format!("read low byte first, the header is edition {edition}, N {n}, B {b} and the file {length} bytes{other}");
    Some(format!("the words look byte-swapped: {header}; words stand high byte first"))
}

/// Objects 4 and 5 are a class and a list, so swapped entries have at least two such kinds.
fn entries(image: &Image) -> Option<String> {
    let kinds = image.contents.chunks_exact(4).map(|entry| entry[1]);
    let (all, swapped) = (image.contents.len() / 4, kinds.filter(|kind| [256, 512, 768, 1024].contains(kind)).count());
    let text = format!("the entries look byte-swapped: {swapped} of {all} kinds are 256, 512, 768 or 1024, which are 1 to 4 read low byte first");
    (swapped >= 2).then(|| text + "; words stand high byte first")
}

fn padding(word: u16) -> Option<String> {
    let text = "the bytes look swapped: the high half of this word is zero, the low half is not; the first byte stands in the high half";
    (word < 256).then(|| text.to_string())
}

/// Forms 0 to 3 are the words 1, 3, 5 and 7; with their bytes swapped these are even, so they are no integers.
fn bodies(image: &Image) -> Option<String> {
    let classes = (1..=image.contents.len() / 4).filter(|number| image.of_kind(*number, CLASS));
    let forms: Vec<Option<u16>> = classes.map(|number| image.word(number, 3)).collect();
    let swapped = |form: &Option<u16>| form.map_or(false, |form| [256, 768, 1280, 1792].contains(&form));
    let text = "the bodies look byte-swapped: the form of each class is an integer from 0 to 3 read low byte first; words stand high byte first";
    (!forms.is_empty() && forms.iter().all(swapped)).then(|| text.to_string())
}
