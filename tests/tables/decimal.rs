//! How the texts of numbers compare, digit by digit.
use std::cmp::Ordering;

// The most digits that a text of the pools has.
const ROOM: usize = 64;

// A number that is 0.d1d2d3.. times ten to the power `scale`, where d1 and the last digit aren't zero, or zero without digits.
#[derive(Clone, Copy)]
struct Decimal {
    negative: bool,
    digits: [u8; ROOM],
    len: usize,
    scale: i64,
}

impl Decimal {
    // Writes a digit after the others. Zeros before the first other digit aren't kept.
    fn push(&mut self, digit: u8, is_whole: bool) {
        let leads = self.len == 0 && digit == 0;
        if is_whole && !leads {
            self.scale = self.scale.saturating_add(1);
        }
        if !is_whole && leads {
            self.scale = self.scale.saturating_sub(1);
        }
        if let Some(place) = self.digits.get_mut(self.len)
            && !leads
        {
            *place = digit;
            self.len = self.len.saturating_add(1);
        }
    }

    fn digit(&self, at: usize) -> u8 {
        if at < self.len {
            self.digits.get(at).copied().unwrap_or(0)
        } else {
            0
        }
    }

    // -1, 0 or 1.
    fn sign(&self) -> i8 {
        if self.len == 0 {
            0
        } else if self.negative {
            -1
        } else {
            1
        }
    }

    // How two sizes compare, neither of which is zero.
    fn compare_size(&self, other: &Decimal) -> Ordering {
        if self.scale != other.scale {
            return self.scale.cmp(&other.scale);
        }
        for at in 0..ROOM {
            if self.digit(at) != other.digit(at) {
                return self.digit(at).cmp(&other.digit(at));
            }
        }
        Ordering::Equal
    }
}

// The number of the text after an `e`.
fn exponent(text: &[u8]) -> i64 {
    let mut size = 0i64;
    for byte in text {
        if byte.is_ascii_digit() {
            size = size
                .saturating_mul(10)
                .saturating_add(i64::from(byte.saturating_sub(b'0')));
        }
    }
    if text.first() == Some(&b'-') {
        size.saturating_neg()
    } else {
        size
    }
}

fn read(text: &str) -> Decimal {
    let mut number = Decimal {
        negative: false,
        digits: [0; ROOM],
        len: 0,
        scale: 0,
    };
    let mut is_whole = true;
    let mut rest = text.as_bytes();
    while let Some((byte, behind)) = rest.split_first() {
        rest = behind;
        match *byte {
            b'-' => number.negative = true,
            b'.' => is_whole = false,
            b'e' | b'E' => {
                number.scale = number.scale.saturating_add(exponent(rest));
                break;
            }
            digit if digit.is_ascii_digit() => number.push(digit.saturating_sub(b'0'), is_whole),
            _ => {}
        }
    }
    number
}

/// How the numbers of two texts compare.
pub fn compare_numbers(text: &str, other: &str) -> Ordering {
    let (number, other) = (read(text), read(other));
    match (number.sign(), other.sign()) {
        (1, 1) => number.compare_size(&other),
        (-1, -1) => other.compare_size(&number),
        (sign, other) => sign.cmp(&other),
    }
}
