//! The words of an image as they stand, and names for what they hold. Nothing here trusts the image: what cannot be read is said to be so.

use crate::objects::*;
use crate::words::*;
use std::collections::HashMap;

pub const KINDS: [&str; 5] = ["fields", "bytes", "class", "list", "method"];
pub const FORMS: [&str; 4] = ["fields", "indexed", "bytes", "code"];
/// No right image has as many pairs in its dictionaries.
const MOST_PAIRS: usize = MOST_BODY_WORDS / 2;

#[derive(Default)]
pub struct Image {
    pub edition: u16,
    pub contents: Vec<u16>,
    pub bodies: Vec<u16>,
    /// The classes and selectors, by number, that a method stands under.
    pub places: HashMap<usize, Vec<(usize, usize)>>,
    /// The first class that names a list as its dictionary.
    pub owners: HashMap<usize, usize>,
    /// Names from elsewhere, by number: an image has none.
    pub given: HashMap<usize, String>,
}

fn object_number(word: u16) -> Option<usize> {
    (!is_integer(word) && word != 0).then_some(word as usize / 2)
}

/// The first 16 of these; dots stand for the others.
fn shortened(texts: impl Iterator<Item = String>, between: &str) -> String {
    let mut texts: Vec<String> = texts.take(17).collect();
    if texts.len() > 16 {
        texts[16] = "...".to_string();
    }
    texts.join(between)
}

impl Image {
    /// Of the bytes after the header.
    pub fn new(edition: u16, n: usize, bytes: &[u8]) -> Image {
        let words: Vec<u16> = bytes.chunks_exact(2).map(|pair| u16::from_be_bytes([pair[0], pair[1]])).collect();
        let (contents, bodies) = words.split_at(words.len().min(4 * n));
        let mut image = Image { edition, contents: contents.to_vec(), bodies: bodies.to_vec(), ..Image::default() };
        let mut pairs = 0;
        for class in 1..=n {
            let list = match image.of_kind(class, CLASS).then(|| image.word(class, 1)).flatten().and_then(object_number) {
                Some(list) => list,
                None => continue,
            };
            image.owners.entry(list).or_insert(class);
            let length = if image.of_kind(list, LIST) { image.length(list) } else { 0 };
            for at in (0..length).step_by(2) {
                let pair = (image.word(list, at).and_then(object_number), image.word(list, at + 1).and_then(object_number));
                pairs += 1;
                if pairs > MOST_PAIRS {
                    return image;
                }
                if let (Some(selector), Some(method)) = pair {
                    image.places.entry(method).or_default().push((class, selector));
                }
            }
        }
        image
    }

    /// Class, kind, start and size.
    pub fn entry(&self, number: usize) -> Option<[u16; 4]> {
        let at = 4 * number.checked_sub(1)?;
        self.contents.get(at..at + 4)?.try_into().ok()
    }

    pub fn of_kind(&self, number: usize, kind: u16) -> bool {
        self.entry(number).map_or(false, |entry| entry[1] == kind)
    }

    /// Words of the body, as the entry tells.
    pub fn length(&self, number: usize) -> usize {
        self.entry(number).map_or(0, |entry| body_words(entry[1], entry[3]))
    }

    pub fn word(&self, number: usize, index: usize) -> Option<u16> {
        let start = self.entry(number)?[2] as usize;
        (index < self.length(number)).then(|| self.bodies.get(start + index).copied())?
    }

    /// The bytes of the body that are there.
    pub fn bytes(&self, number: usize) -> Vec<u8> {
        let size = self.entry(number).map_or(0, |entry| entry[3] as usize);
        let words = (0..self.length(number)).map_while(|index| self.word(number, index));
        words.flat_map(u16::to_be_bytes).take(size).collect()
    }

    /// A byte object: its text if that can be printed.
    pub fn text(&self, number: usize) -> String {
        let bytes = self.bytes(number);
        if !self.of_kind(number, BYTES) || bytes.is_empty() || bytes.len() > 60 || !bytes.iter().all(|byte| (33..127).contains(byte)) {
            return format!("object {number}");
        }
        bytes.iter().map(|byte| *byte as char).collect()
    }

    /// A method by class and selector.
    pub fn method_name(&self, number: usize) -> String {
        let names = self.places.get(&number).into_iter().flatten().take(4);
        let names: Vec<String> = names.map(|(class, selector)| format!("{}>>{}", self.class_name(*class), self.text(*selector))).collect();
        if names.is_empty() {
            "in no dictionary".to_string()
        } else {
            names.join(", ")
        }
    }

    /// A class where it stands for another object.
    pub fn class_name(&self, number: usize) -> String {
        self.given.get(&number).cloned().unwrap_or(format!("class {number}"))
    }

    pub fn object_name(&self, number: usize) -> String {
        if let Some(name) = self.given.get(&number) {
            return format!("{name} ({} {number})", if self.of_kind(number, CLASS) { "class" } else { "object" });
        }
        match (number, self.entry(number)) {
            (1..=3, Some(_)) => ["nil", "false", "true"][number - 1].to_string(),
            (4, Some(_)) => "class 4 (of integers)".to_string(),
            (5, Some(_)) => "list 5 (special selectors)".to_string(),
            (_, None) => format!("object {number}, which is not there"),
            (7 | 8, Some([_, CLASS, ..])) if self.edition >= WITH_MESSAGES => format!("class {number} (of {})", ["messages", "arrays"][number - 7]),
            (_, Some([_, CLASS, ..])) => format!("class {number}"),
            (_, Some([_, METHOD, ..])) => format!("method {number} ({})", self.method_name(number)),
            (_, Some([_, LIST, ..])) => match self.owners.get(&number) {
                Some(class) => format!("list {number} (dictionary of class {class})"),
                None => format!("list {number}"),
            },
            (_, Some([_, BYTES, ..])) if self.text(number) != format!("object {number}") => format!("#{} (object {number})", self.text(number)),
            (_, Some([_, BYTES, ..])) => format!("bytes {number}"),
            (_, Some([class, ..])) => match object_number(class) {
                Some(class) => format!("object {number} of {}", self.class_name(class)),
                None => format!("object {number}"),
            },
        }
    }

    /// What a word stands for.
    pub fn name(&self, word: u16) -> String {
        match object_number(word) {
            None if word == 0 => "invalid word 0".to_string(),
            None => integer(word).to_string(),
            Some(number) if self.entry(number).is_none() => format!("invalid word {word}"),
            Some(number) => self.object_name(number),
        }
    }

    /// A word as it stands and what it stands for.
    pub fn found(&self, word: u16) -> String {
        match self.name(word) {
            name if is_integer(word) => format!("word {word}, the integer {name}"),
            name if name.starts_with("invalid") => name,
            name => format!("word {word}, {name}"),
        }
    }

    /// What a word of a body is for.
    pub fn role(&self, number: usize, index: usize) -> String {
        let kind = self.entry(number).map_or(FIELDS, |entry| entry[1]);
        match kind {
            CLASS if index < 4 => ["superclass", "dictionary", "F, the number of fields", "form"][index].to_string(),
            LIST if number == 5 => format!("selector of bytecode {}", 176 + index),
            LIST if self.owners.contains_key(&number) => format!("{} of pair {}", ["selector", "method"][index % 2], index / 2),
            METHOD if index < 2 => ["header", "home"][index].to_string(),
            METHOD if self.method(number).map_or(false, |method| index - 2 < method.literals.len()) => format!("literal {}", index - 2),
            METHOD | BYTES => format!("bytes {} and {}", 2 * index, 2 * index + 1),
            FIELDS => match self.fields_before_elements(number) {
                Some(fields) if index >= fields => format!("element {}", index - fields + 1),
                _ => format!("field {index}"),
            },
            _ => format!("word {index}"),
        }
    }

    /// Entry and body in one line, the body shortened.
    pub fn shown(&self, number: usize) -> String {
        let [class, kind, start, size] = match self.entry(number) {
            Some(entry) => entry,
            None => return self.object_name(number),
        };
        let kind_name = KINDS.get(kind as usize).unwrap_or(&"none");
        let body = match (kind, self.fields_before_elements(number)) {
            (BYTES | METHOD, _) => shortened(self.bytes(number).iter().map(u8::to_string), " "),
            (_, Some(fields)) if 0 < fields && fields <= self.length(number) => self.fields_and_elements(number, fields),
            _ => self.names_from(number, 0, self.length(number)),
        };
        let name = if kind == FIELDS && number > 5 || kind > METHOD { format!("object {number}") } else { self.object_name(number) };
        let role = if number == 6 && kind == BYTES && self.edition >= WITH_MESSAGES { ", sent with a message where a send fails" } else { "" };
        let colon = if body.is_empty() { "" } else { ": " };
        format!("{name}{role}: class {}, kind {kind} ({kind_name}), start {start}, size {size}{colon}{body}", self.class_shown(class))
    }

    /// F of the class, where the object has form 1.
    fn fields_before_elements(&self, number: usize) -> Option<usize> {
        let class = object_number(self.entry(number)?[0]).filter(|class| self.of_kind(*class, CLASS) && self.of_kind(number, FIELDS))?;
        let (fields, form) = (self.word(class, 2)?, self.word(class, 3)?);
        (word(1) == Some(form) && is_integer(fields) && (0..=255).contains(&integer(fields))).then(|| integer(fields) as usize)
    }

    /// The words of a body from one up to another, shortened.
    fn names_from(&self, number: usize, first: usize, end: usize) -> String {
        shortened((first..end).map_while(|index| self.word(number, index)).map(|word| self.name(word)), ", ")
    }

    /// A body whose first words are named fields.
    fn fields_and_elements(&self, number: usize, fields: usize) -> String {
        let size = self.length(number);
        let named = format!("{} {}", if fields == 1 { "field" } else { "fields" }, self.names_from(number, 0, fields));
        match (size - fields, self.names_from(number, fields, size)) {
            (0, _) => format!("{named}; no elements"),
            (1, element) => format!("{named}; element 1: {element}"),
            (count, elements) => format!("{named}; elements 1 to {count}: {elements}"),
        }
    }

    /// A class with what decides on its instances.
    fn class_shown(&self, word: u16) -> String {
        let number = match object_number(word).filter(|number| self.of_kind(*number, CLASS)) {
            Some(number) => number,
            None => return self.name(word),
        };
        let (fields, form) = match (self.word(number, 2), self.word(number, 3)) {
            (Some(fields), Some(form)) => (fields, form),
            _ => return number.to_string(),
        };
        format!("{number} (form {}, F {})", self.name(form), self.name(fields))
    }

    /// The classes of a chain, each once, and the superclass word of the last: one that names no class, or one of these where the chain goes round.
    fn chain(&self, number: usize) -> (Vec<usize>, u16) {
        let (mut classes, mut at) = (vec![], number);
        loop {
            classes.push(at);
            let word = self.word(at, 0).unwrap_or(0);
            match object_number(word).filter(|above| self.of_kind(*above, CLASS) && !classes.contains(above)) {
                Some(above) => at = above,
                None => return (classes, word),
            }
        }
    }

    /// The chain of a class in one line; where it has more than `most` classes, a few of the first and the last of them.
    pub fn chain_shown(&self, number: usize, most: usize) -> String {
        let (classes, behind) = self.chain(number);
        let name = |class: &usize| self.given.get(class).cloned().unwrap_or(class.to_string());
        let mut names: Vec<String> = classes.iter().map(name).collect();
        if classes.len() > most {
            let few = most.min(8) / 2;
            names.splice(few..classes.len() - few, [format!("... {} more ...", classes.len() - 2 * few)]);
        }
        let counted = |count: usize| if count == 1 { "1 class".to_string() } else { format!("{count} classes") };
        let (end, count) = match classes.iter().position(|class| object_number(behind) == Some(*class)) {
            Some(first) => (name(&classes[first]), format!("a circle of {}", counted(classes.len() - first))),
            None if behind == NIL => ("nil".to_string(), counted(classes.len())),
            None => (self.found(behind), counted(classes.len())),
        };
        format!("{} > {end}: {count}", names.join(" > "))
    }

    /// A method taken apart as far as it can be.
    pub fn method(&self, number: usize) -> Option<Method> {
        let header = self.word(number, 0).filter(|_| self.of_kind(number, METHOD))?;
        let count = (header >> 1 & 63) as usize;
        let literals: Vec<u16> = (2..2 + count).map_while(|index| self.word(number, index)).collect();
        let flag = header >> 13;
        let extension = if count >= 2 { literals.get(count - 2).copied().unwrap_or(0) } else { 0 };
        let (arguments, primitive) = match flag {
            0..=4 => (flag as usize, 0),
            7 => ((extension >> 9) as usize, extension >> 1 & 255),
            _ => (0, 0),
        };
        let code = self.bytes(number).into_iter().skip(4 + 2 * count).collect();
        let (temporaries, large, home) = ((header >> 8 & 31) as usize, header >> 7 & 1 == 1, self.word(number, 1)?);
        Some(Method { flag, temporaries, large, home, literals, arguments, primitive, code, table: None })
    }
}
