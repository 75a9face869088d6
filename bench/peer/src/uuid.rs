//! Identifiers.

use std::fmt;

#[derive(Clone, Copy, PartialEq, Eq, Hash)]
pub struct Uuid(pub u128);

impl Uuid {
    /// Reads the four forms: with hyphens, without, after `urn:uuid:` in letters of either case, and in braces.
    pub fn parse(text: &str) -> Option<Uuid> {
        if text.len() == 32 {
            return digits(text.bytes());
        }
        let bare = match text.len() {
            45 if text.get(..9)?.eq_ignore_ascii_case("urn:uuid:") => &text[9..],
            38 => text.strip_prefix('{')?.strip_suffix('}')?,
            _ => text,
        };
        let has_form = bare.len() == 36 && bare.bytes().enumerate().all(|(at, byte)| is_hyphen(at) == (byte == b'-'));
        has_form.then(|| digits(bare.bytes().filter(|byte| *byte != b'-')))?
    }
}

/// Whether a hyphen stands at this place of the first form.
fn is_hyphen(at: usize) -> bool {
    matches!(at, 8 | 13 | 18 | 23)
}

fn digits(bytes: impl Iterator<Item = u8>) -> Option<Uuid> {
    let mut value = 0;
    for byte in bytes {
        value = value << 4 | u128::from(char::from(byte).to_digit(16)?);
    }
    Some(Uuid(value))
}

impl fmt::Display for Uuid {
    fn fmt(&self, f: &mut fmt::Formatter) -> fmt::Result {
        let mut text = [b'-'; 36];
        let places = (0..36).filter(|at| !is_hyphen(*at));
        let bytes = self.0.to_be_bytes();
        let halves = bytes.iter().flat_map(|byte| [byte >> 4, byte & 15]);
        for (at, half) in places.zip(halves) {
            text[at] = b"0123456789abcdef"[usize::from(half)];
        }
        f.write_str(std::str::from_utf8(&text).expect("digits are text"))
    }
}
