//! Names of objects, both ways: what a word is called, and the word that a text means.

use apart::image::Image;
use apart::objects::*;
use apart::words::*;
use std::collections::HashMap;

pub struct Names {
    pub image: Image,
    /// Of a file of names.
    words: HashMap<String, u16>,
}

impl Names {
    /// Of an image that was loaded; `file` has lines such as `OBJECT_crate = 52,`.
    pub fn new(edition: u16, objects: &Objects, file: &str) -> Names {
        let mut words = HashMap::new();
        for line in file.lines() {
            let (name, word) = match line.split_once('=') {
                Some((name, word)) => (name.trim(), word.trim().trim_end_matches(',')),
                None => continue,
            };
            let name = name.strip_prefix("OBJECT_").or_else(|| name.strip_prefix("CLASS_"));
            if let (Some(name), Ok(word)) = (name, word.parse::<u16>()) {
                words.insert(name.to_string(), word);
            }
        }
        let (mut contents, mut bodies) = (vec![0; 4 * objects.list.len()], vec![0; objects.body_total()]);
        objects.flat(&mut contents, &mut bodies);
        let bytes: Vec<u8> = contents.iter().chain(&bodies).flat_map(|word| word.to_be_bytes()).collect();
        let mut image = Image::new(edition, objects.list.len(), &bytes);
        // What nil, false and true are called is known.
        let given = words.iter().filter(|(_, word)| !is_integer(**word) && **word > TRUE);
        image.given = given.map(|(name, word)| (*word as usize / 2, name.clone())).collect();
        Names { image, words }
    }

    /// Takes over what handlers wrote. Classes and methods stay as they were loaded.
    pub fn refresh(&mut self, objects: &Objects) {
        self.image.contents.resize(4 * objects.list.len(), 0);
        self.image.bodies.resize(objects.body_total(), 0);
        objects.flat(&mut self.image.contents, &mut self.image.bodies);
    }

    pub fn name(&self, word: u16) -> String {
        self.image.name(word)
    }

    pub fn list(&self, words: &[u16]) -> String {
        let names: Vec<String> = words.iter().map(|word| self.name(*word)).collect();
        names.join(", ")
    }

    /// A method by class and selector alone.
    pub fn method(&self, word: u16) -> String {
        self.image.method_name(word as usize / 2)
    }

    /// What the object's bytes are a text of.
    fn of_text(&self, text: &str) -> Result<u16, String> {
        let objects = 1..=self.image.contents.len() / 4;
        let found: Vec<usize> = objects.filter(|number| self.image.of_kind(*number, BYTES) && self.image.bytes(*number) == text.as_bytes()).collect();
        match found[..] {
            [number] => Ok(pointer(number)),
            [] => Err(format!("no object of the image has the bytes '{text}'")),
            _ => {
                let numbers: Vec<String> = found.iter().map(|number| format!("object:{number}")).collect();
                Err(format!("several objects have the bytes '{text}': {}", numbers.join(", ")))
            }
        }
    }

    /// object:12 and word:24; none where the text has another form.
    fn of_number(text: &str) -> Option<Result<u16, String>> {
        let digits = |rest: &str| !rest.is_empty() && rest.bytes().all(|byte| byte.is_ascii_digit());
        let (rest, most) = match (text.strip_prefix("object:"), text.strip_prefix("word:")) {
            (Some(rest), _) => (rest, 32_767),
            (_, Some(rest)) => (rest, 65_535),
            _ => return None,
        };
        if !digits(rest) {
            return None;
        }
        Some(match rest.parse::<u32>().ok().filter(|number| *number <= most) {
            Some(number) if most == 32_767 => Ok(pointer(number as usize)),
            Some(number) => Ok(number as u16),
            None => Err(format!("'{text}' is above {most}")),
        })
    }

    pub fn selector(&self, text: &str) -> Result<u16, String> {
        match (Names::of_number(text), text.strip_prefix('#')) {
            (Some(found), _) => found,
            (None, Some(bytes)) if !bytes.is_empty() => self.of_text(bytes),
            _ => self.of_text(text),
        }
    }

    pub fn value(&self, text: &str) -> Result<u16, String> {
        let digits = text.strip_prefix('-').unwrap_or(text);
        if !digits.is_empty() && digits.bytes().all(|byte| byte.is_ascii_digit()) {
            return text.parse().ok().and_then(word).ok_or(format!("'{text}' is no integer from -16384 to 16383"));
        }
        match (text, text.strip_prefix('#')) {
            ("nil", _) => return Ok(NIL),
            ("false", _) => return Ok(FALSE),
            ("true", _) => return Ok(TRUE),
            (_, Some(bytes)) => return self.of_text(bytes),
            _ => {}
        }
        if let Some(found) = Names::of_number(text) {
            return found;
        }
        let known = if self.words.is_empty() { "; names come from --names" } else { "" };
        self.words.get(text).copied().ok_or(format!("nothing is called '{text}'{known}"))
    }
}
