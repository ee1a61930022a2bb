//! A refused call: its number, and where the reason was found.

use std::collections::HashSet;
use std::fmt;

#[derive(Clone, Copy, Debug, PartialEq, Eq, Hash)]
pub enum Place {
    /// The image as a whole.
    Image,
    /// A word of the header, from 0.
    HeaderWord(usize),
    /// An object's entry and the word of it: class, kind, start, size.
    Entry(usize, usize),
    /// An object and the word of its body.
    Body(usize, usize),
    /// A method and the position in its code.
    Code(usize, usize),
    /// A buffer that is lent.
    Buffer(&'static str),
    /// An entry of the cache.
    Cache(usize),
    /// A register.
    Register(usize),
    /// A frame's base and the word of it.
    FrameWord(usize, usize),
    /// What begin is given.
    Message,
}

#[derive(Clone, Copy, Debug, PartialEq)]
pub struct Refusal {
    pub number: u32,
    pub place: Place,
    pub why: &'static str,
}

pub fn refuse<T>(number: u32, place: Place, why: &'static str) -> Result<T, Refusal> {
    Err(Refusal { number, place, why })
}

/// The faults of one number in the order in which they are found, one for each place: a second one there mostly follows from the first.
#[derive(Debug)]
pub struct Faults {
    number: u32,
    pub list: Vec<Refusal>,
    places: HashSet<Place>,
}

impl Faults {
    pub fn new(number: u32) -> Faults {
        Faults { number, list: vec![], places: HashSet::new() }
    }

    pub fn add(&mut self, place: Place, why: &'static str) {
        if self.places.insert(place) {
            self.list.push(Refusal { number: self.number, place, why });
        }
    }

    /// Adds a fault unless this is so; answers whether it is.
    pub fn ask(&mut self, truth: bool, place: Place, why: &'static str) -> bool {
        if !truth {
            self.add(place, why);
        }
        truth
    }

    /// What was judged, if there is no fault.
    pub fn none<T>(self, judged: T) -> Result<T, Faults> {
        if self.list.is_empty() {
            Ok(judged)
        } else {
            Err(self)
        }
    }
}

/// A call is refused by the first fault.
impl From<Faults> for Refusal {
    fn from(faults: Faults) -> Refusal {
        faults.list[0]
    }
}

impl From<Refusal> for Faults {
    fn from(refusal: Refusal) -> Faults {
        let mut faults = Faults::new(refusal.number);
        faults.add(refusal.place, refusal.why);
        faults
    }
}

impl fmt::Display for Place {
    fn fmt(&self, out: &mut fmt::Formatter) -> fmt::Result {
        match self {
            Place::Image => write!(out, "image"),
            Place::HeaderWord(word) => write!(out, "header word {word}"),
            Place::Entry(object, word) => write!(out, "object {object}, {}", ["class", "kind", "start", "size"][*word]),
            Place::Body(object, word) => write!(out, "object {object}, body word {word}"),
            Place::Code(object, position) => write!(out, "method {object}, code position {position}"),
            Place::Buffer(name) => write!(out, "{name}"),
            Place::Cache(entry) => write!(out, "cache entry {entry}"),
            Place::Register(register) => write!(out, "register {register}"),
            Place::FrameWord(base, word) => write!(out, "frame at {base}, word {word}"),
            Place::Message => write!(out, "message"),
        }
    }
}

impl fmt::Display for Refusal {
    fn fmt(&self, out: &mut fmt::Formatter) -> fmt::Result {
        write!(out, "refused {}: {}: {}", self.number, self.place, self.why)
    }
}
