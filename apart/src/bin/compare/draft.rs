//! Images under construction: objects with bodies, numbered from 1, whose starts are computed when the image is written.

use apart::objects::*;
use apart::words::pointer;

#[derive(Clone, Default)]
pub struct Made {
    pub class: u16,
    pub kind: u16,
    /// In bytes for byte objects and methods, else in words.
    pub size: usize,
    pub body: Vec<u16>,
}

#[derive(Clone, Default)]
pub struct Draft {
    pub edition: u16,
    pub objects: Vec<Made>,
    pub receiver: u16,
    pub selector: u16,
}

/// Bytes as words, an odd last half-word zero.
pub fn packed(bytes: &[u8]) -> Vec<u16> {
    bytes.chunks(2).map(|pair| (pair[0] as u16) << 8 | pair.get(1).copied().unwrap_or(0) as u16).collect()
}

impl Draft {
    pub fn put(&mut self, pointer: u16, class: u16, kind: u16, body: Vec<u16>) {
        let size = if kind == BYTES || kind == METHOD { 2 * body.len() } else { body.len() };
        self.objects[pointer as usize / 2 - 1] = Made { class, kind, size, body };
    }

    /// Another object, behind the others; its pointer.
    pub fn add(&mut self, class: u16, kind: u16, body: Vec<u16>) -> u16 {
        self.objects.push(Made::default());
        let own = pointer(self.objects.len());
        self.put(own, class, kind, body);
        own
    }

    pub fn put_bytes(&mut self, pointer: u16, class: u16, bytes: &[u8]) {
        self.objects[pointer as usize / 2 - 1] = Made { class, kind: BYTES, size: bytes.len(), body: packed(bytes) };
    }

    /// A method's words, then its code.
    pub fn put_method(&mut self, pointer: u16, class: u16, words: Vec<u16>, code: &[u8]) {
        let size = 2 * words.len() + code.len();
        let mut body = words;
        body.extend(packed(code));
        self.objects[pointer as usize / 2 - 1] = Made { class, kind: METHOD, size, body };
    }

    pub fn image(&self) -> Vec<u8> {
        let total: usize = self.objects.iter().map(|made| made.body.len()).sum();
        let mut words = vec![self.edition, self.objects.len() as u16, total as u16, self.receiver, self.selector];
        let mut start = 0;
        for made in &self.objects {
            words.extend([made.class, made.kind, start as u16, made.size as u16]);
            start += made.body.len();
        }
        for made in &self.objects {
            words.extend(&made.body);
        }
        words.iter().flat_map(|word| word.to_be_bytes()).collect()
    }
}
