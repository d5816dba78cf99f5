//! The parts of a 12-bit word: its bits, its fields and the six-bit halves.

/// The greatest good word. 01, what the simulator covers: "a word is good if at most 4,095".
pub const GREATEST_WORD: u16 = 4_095;

/// 01, opening: "Bits count from 0 at the left of a 12-bit word".
/// A place beyond 11 names no bit, and what is not there is off.
pub fn bit(word: u16, place: u16) -> bool {
    place <= 11 && (word >> (11 - place)) & 1 == 1
}

/// The word that has the one bit at this place, for setting it. Nothing for a place beyond 11.
pub fn bit_mask(place: u16) -> u16 {
    if place <= 11 {
        1 << (11 - place)
    } else {
        0
    }
}

/// The number that stands in the bits `first` to `last`, both included.
pub fn field(word: u16, first: u16, last: u16) -> u16 {
    if first > last || last > 11 {
        return 0;
    }
    let width = last - first + 1;
    (word >> (11 - last)) & ((1 << width) - 1)
}

/// The number that at most five octal digits say.
pub fn octal(digits: &[u8]) -> Option<u16> {
    if digits.len() > 5 {
        return None;
    }
    digits.iter().try_fold(0, |number, digit| match digit {
        b'0'..=b'7' => Some(number * 8 + u16::from(digit - b'0')),
        _ => None,
    })
}

#[cfg(test)]
mod tests {
    use super::*;

    #[test]
    fn bits_count_from_the_left() {
        assert!(bit(0o4000, 0));
        assert!(bit(0o0001, 11));
        assert!(!bit(0o4000, 11));
        assert!(!bit(0o7777, 12));
        assert_eq!(bit_mask(0), 0o4000);
        assert_eq!(bit_mask(11), 1);
        assert_eq!(bit_mask(12), 0);
    }

    #[test]
    fn fields_are_the_numbers_between() {
        assert_eq!(field(0o1234, 0, 2), 1);
        assert_eq!(field(0o1234, 3, 5), 2);
        assert_eq!(field(0o1234, 0, 11), 0o1234);
        assert_eq!(field(0o1234, 9, 8), 0);
        assert_eq!(field(0o1234, 3, 12), 0);
    }

    #[test]
    fn octal_digits_say_a_number() {
        assert_eq!(octal(b"77777"), Some(0o77777));
        assert_eq!(octal(b"0012"), Some(0o12));
        assert_eq!(octal(b"8"), None);
        assert_eq!(octal(b"1 "), None);
        assert_eq!(octal(b"000000"), None);
    }
}
