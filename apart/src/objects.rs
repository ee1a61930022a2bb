//! Objects as structs, each with its own body.

use crate::words::*;

pub const FIELDS: u16 = 0;
pub const BYTES: u16 = 1;
pub const CLASS: u16 = 2;
pub const LIST: u16 = 3;
pub const METHOD: u16 = 4;

pub const LAST_EDITION: u16 = 2;
/// From this edition on a send that fails makes a message and sends object 6.
pub const WITH_MESSAGES: u16 = 2;

pub const MOST_OBJECTS: usize = 2_047;
pub const MOST_BODY_WORDS: usize = 24_000;
/// Classes in a chain, the first one counted.
pub const MOST_CHAIN: usize = 24;

#[derive(Clone)]
pub struct Object {
    pub class: u16,
    pub kind: u16,
    pub start: u16,
    /// In bytes for byte objects and methods, else in words.
    pub size: u16,
    pub body: Vec<u16>,
}

impl Object {
    /// Bytes lie two to a word, the high one first.
    pub fn byte(&self, index: usize) -> u8 {
        let word = self.body[index / 2];
        if index % 2 == 0 {
            (word >> 8) as u8
        } else {
            word as u8
        }
    }

    pub fn put_byte(&mut self, index: usize, byte: u8) {
        let word = self.body[index / 2];
        self.body[index / 2] = if index % 2 == 0 { (word & 0x00FF) | ((byte as u16) << 8) } else { (word & 0xFF00) | byte as u16 };
    }
}

/// Words of a body with this kind and size.
pub fn body_words(kind: u16, size: u16) -> usize {
    let size = size as usize;
    if kind == BYTES || kind == METHOD {
        (size + 1) / 2
    } else {
        size
    }
}

/// The four words of a class.
#[derive(Clone, Copy)]
pub struct Class {
    pub superclass: u16,
    pub dictionary: u16,
    pub fields: usize,
    pub form: i32,
}

/// A method taken apart, with its depth table where its code has one.
pub struct Method {
    pub flag: u16,
    pub temporaries: usize,
    pub large: bool,
    pub home: u16,
    pub literals: Vec<u16>,
    pub arguments: usize,
    pub primitive: u16,
    pub code: Vec<u8>,
    pub table: Option<Vec<Option<usize>>>,
}

impl Method {
    /// Words for temporaries and operands.
    pub fn room(&self) -> usize {
        if self.large {
            32
        } else {
            12
        }
    }
}

/// What a lookup found.
#[derive(Clone, Copy, Debug, PartialEq)]
pub struct Found {
    pub method: u16,
    /// How many the walk read: those of the class where it started, of the class that holds the method, and of all between. Two classes can have the same.
    pub dictionaries: usize,
}

#[derive(Clone, Default)]
pub struct Objects {
    /// Object 1 first.
    pub list: Vec<Object>,
}

impl Objects {
    pub fn valid(&self, word: u16) -> bool {
        is_integer(word) || (word != 0 && (word / 2) as usize <= self.list.len())
    }

    /// The object that a word names.
    pub fn get(&self, word: u16) -> Option<&Object> {
        if is_integer(word) || !self.valid(word) {
            None
        } else {
            Some(&self.list[(word / 2) as usize - 1])
        }
    }

    pub fn get_mut(&mut self, word: u16) -> Option<&mut Object> {
        if is_integer(word) || !self.valid(word) {
            None
        } else {
            Some(&mut self.list[(word / 2) as usize - 1])
        }
    }

    pub fn has_kind(&self, word: u16, kind: u16) -> bool {
        self.get(word).map_or(false, |object| object.kind == kind)
    }

    pub fn class_of(&self, word: u16) -> u16 {
        match self.get(word) {
            Some(object) => object.class,
            None => INTEGER_CLASS,
        }
    }

    /// The class that a word names; its body has four words.
    pub fn class(&self, word: u16) -> Option<Class> {
        let object = self.get(word)?;
        if object.kind != CLASS {
            return None;
        }
        Some(Class {
            superclass: object.body[0],
            dictionary: object.body[1],
            fields: if is_integer(object.body[2]) { integer(object.body[2]).max(0) as usize } else { 0 },
            form: integer(object.body[3]),
        })
    }

    /// The method under a selector in one class's own dictionary.
    fn own(&self, class: &Class, selector: u16) -> Option<u16> {
        let dictionary = &self.get(class.dictionary)?.body;
        dictionary.chunks(2).find(|pair| pair[0] == selector).map(|pair| pair[1])
    }

    /// The words of a class and of those above it, up to the first superclass word that names no class. In a circle it has no end.
    pub fn chain(&self, class: u16) -> impl Iterator<Item = u16> + '_ {
        let named = move |word: u16| self.has_kind(word, CLASS).then_some(word);
        std::iter::successors(named(class), move |word| named(self.class(*word)?.superclass))
    }

    /// Lookup, from a class on.
    pub fn lookup(&self, class: u16, selector: u16) -> Option<Found> {
        let mut dictionaries = 0;
        self.chain(class).take(MOST_CHAIN).find_map(|word| {
            dictionaries += 1;
            let method = self.own(&self.class(word)?, selector)?;
            Some(Found { method, dictionaries })
        })
    }

    /// The selectors of one class's own dictionary, one for each pair.
    pub fn selectors(&self, class: u16) -> Vec<u16> {
        let dictionary = self.class(class).and_then(|class| self.get(class.dictionary));
        dictionary.map_or(vec![], |dictionary| dictionary.body.chunks(2).map(|pair| pair[0]).collect())
    }

    /// How many pairs a lookup reads. Of a dictionary those up to and with the first selector not below the one sought, or all; the dictionaries are those up
    /// to and with the one that holds the method, or all of the chain.
    pub fn pairs_read(&self, class: u16, selector: u16) -> usize {
        let mut read = 0;
        for word in self.chain(class).take(MOST_CHAIN) {
            let selectors = self.selectors(word);
            read += match selectors.iter().position(|other| *other >= selector) {
                Some(index) => index + 1,
                None => selectors.len(),
            };
            if selectors.contains(&selector) {
                break;
            }
        }
        read
    }

    /// How many dictionaries a lookup reads; where nothing is found, all of the chain.
    pub fn dictionaries_read(&self, class: u16, selector: u16) -> usize {
        match self.lookup(class, selector) {
            Some(found) => found.dictionaries,
            None => self.chain(class).take(MOST_CHAIN).count(),
        }
    }

    /// Whether two of the first classes of a chain have the same dictionary, so that a lookup reads it twice.
    pub fn reads_twice(&self, class: u16, dictionaries: usize) -> bool {
        let read: Vec<u16> = self.chain(class).take(dictionaries).filter_map(|word| Some(self.class(word)?.dictionary)).collect();
        (1..read.len()).any(|index| read[..index].contains(&read[index]))
    }

    /// All pairs along the chain of a class: no lookup from there reads more.
    pub fn pairs_along(&self, class: u16) -> usize {
        self.chain(class).take(MOST_CHAIN).map(|word| self.selectors(word).len()).sum()
    }

    /// Whether a class is in the chain of a receiver's class.
    pub fn in_chain(&self, receiver: u16, sought: u16) -> bool {
        self.chain(self.class_of(receiver)).take(MOST_CHAIN).any(|word| word == sought)
    }

    pub fn body_total(&self) -> usize {
        self.list.iter().map(|object| object.body.len()).sum()
    }

    /// The words of contents and of bodies.
    pub fn flat(&self, contents: &mut [u16], bodies: &mut [u16]) {
        let mut at = 0;
        for (index, object) in self.list.iter().enumerate() {
            let entry = [object.class, object.kind, object.start, object.size];
            contents[4 * index..4 * index + 4].copy_from_slice(&entry);
            bodies[at..at + object.body.len()].copy_from_slice(&object.body);
            at += object.body.len();
        }
    }
}
