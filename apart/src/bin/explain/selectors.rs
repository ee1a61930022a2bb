//! Selectors with equal bytes. Lookup compares objects, so to the machine they are different; to a reader they look the same.

use apart::code::{decode, Instruction, CLASS_OF, IDENTITY};
use apart::image::Image;
use apart::listing::{sent, walk};
use apart::objects::*;
use apart::rules::Header;
use apart::words::DOES_NOT_UNDERSTAND;
use std::collections::BTreeMap;

const MOST_USES: usize = 4;
const MOST_WARNINGS: usize = 10;

/// By the selector's number, who uses it.
struct Uses<'a> {
    image: &'a Image,
    found: BTreeMap<usize, Vec<String>>,
}

impl Uses<'_> {
    fn add(&mut self, selector: u16, user: String) {
        let number = selector as usize / 2;
        if selector % 2 == 0 && self.image.of_kind(number, BYTES) {
            self.found.entry(number).or_default().push(user);
        }
    }
}

fn uses<'a>(header: &Header, image: &'a Image) -> Uses<'a> {
    let mut uses = Uses { image, found: BTreeMap::new() };
    uses.add(header.selector, "start selector".to_string());
    if header.edition >= WITH_MESSAGES {
        uses.add(DOES_NOT_UNDERSTAND, "failed sends send it".to_string());
    }
    for number in 1..=header.n {
        for (class, selector) in image.places.get(&number).into_iter().flatten() {
            uses.add(2 * *selector as u16, format!("method {number} of class {class} is under it"));
        }
    }
    for special in (0..32).filter(|special| ![IDENTITY, CLASS_OF].contains(special)) {
        if let Some(selector) = image.word(5, special) {
            uses.add(selector, format!("bytecode {} sends it", 176 + special));
        }
    }
    for number in 1..=header.n {
        let method = match image.method(number) {
            Some(method) if method.flag != 5 && method.flag != 6 => method,
            _ => continue,
        };
        for position in walk(&method.code).into_keys().filter_map(|position| usize::try_from(position).ok()) {
            let instruction = match decode(&method.code, position) {
                Some((instruction @ (Instruction::Send { .. } | Instruction::SuperSend { .. }), _)) => instruction,
                _ => continue,
            };
            if let Some((selector, _)) = sent(image, &method, instruction) {
                uses.add(selector, format!("{} sends it at {position}", image.object_name(number)));
            }
        }
    }
    uses
}

/// A warning for each group of selectors with equal bytes.
pub fn warnings(header: &Header, image: &Image) -> String {
    let uses = uses(header, image).found;
    let mut groups: BTreeMap<Vec<u8>, Vec<usize>> = BTreeMap::new();
    for number in uses.keys() {
        groups.entry(image.bytes(*number)).or_default().push(*number);
    }
    let mut groups: Vec<Vec<usize>> = groups.into_values().filter(|group| group.len() > 1).collect();
    groups.sort();
    let mut out = String::new();
    for group in groups.iter().take(MOST_WARNINGS) {
        let names: Vec<String> = group.iter().map(|number| image.object_name(*number)).collect();
        out += &format!("warning: selectors with equal bytes: {}; a method under one is not found under another\n", names.join(", "));
        for number in group {
            let (users, left) = (&uses[number], uses[number].len().saturating_sub(MOST_USES));
            let more = if left > 0 { format!(", and {left} more") } else { String::new() };
            out += &format!("  object {number}: {}{more}\n", users[..users.len() - left].join(", "));
        }
    }
    if groups.len() > MOST_WARNINGS {
        out += &format!("warning: {} more groups of selectors with equal bytes\n", groups.len() - MOST_WARNINGS);
    }
    out
}
