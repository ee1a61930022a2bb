//! Words: odd ones are integers, even ones name objects.

pub const NIL: u16 = 2;
pub const FALSE: u16 = 4;
pub const TRUE: u16 = 6;
pub const INTEGER_CLASS: u16 = 8;
/// The list of selectors for the special sends.
pub const SPECIALS: u16 = 10;
// In editions that send messages as objects: the selector doesNotUnderstand:, and the classes of messages and arrays.
pub const DOES_NOT_UNDERSTAND: u16 = 12;
pub const MESSAGE_CLASS: u16 = 14;
pub const ARRAY_CLASS: u16 = 16;

pub fn is_integer(word: u16) -> bool {
    word % 2 == 1
}

/// The integer that an odd word holds.
pub fn integer(word: u16) -> i32 {
    let half = (word / 2) as i32;
    if half >= 16_384 {
        half - 32_768
    } else {
        half
    }
}

/// The word of an integer, where one exists.
pub fn word(integer: i64) -> Option<u16> {
    if (-16_384..=16_383).contains(&integer) {
        Some(((2 * integer + 1) & 0xFFFF) as u16)
    } else {
        None
    }
}

pub fn boolean(truth: bool) -> u16 {
    if truth {
        TRUE
    } else {
        FALSE
    }
}

pub fn pointer(object: usize) -> u16 {
    2 * object as u16
}

#[cfg(test)]
mod tests {
    use super::*;

    #[test]
    fn worked_by_hand() {
        assert_eq!(word(-1), Some(65_535));
        assert_eq!(word(-16_384), Some(32_769));
        assert_eq!(word(16_384), None);
        for n in -16_384..=16_383 {
            assert_eq!(integer(word(n).unwrap()) as i64, n);
        }
    }
}
