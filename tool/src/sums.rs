//! SHA-256 of bytes, as `sha256sum` prints it.

use sha2::{Digest, Sha256};
use std::fmt;

#[derive(Clone, Copy, PartialEq, Eq)]
pub struct Sum([u8; 32]);

pub fn sum(bytes: &[u8]) -> Sum {
    Sum(Sha256::digest(bytes).into())
}

impl Sum {
    /// The sum that 64 small hex digits name.
    pub fn of_digits(digits: &[u8]) -> Option<Sum> {
        let value = |digit: u8| match digit {
            b'0'..=b'9' => Some(digit - b'0'),
            b'a'..=b'f' => Some(digit - b'a' + 10),
            _ => None,
        };
        let digits: [u8; 64] = digits.try_into().ok()?;
        let mut sum = [0; 32];
        for (byte, pair) in sum.iter_mut().zip(digits.chunks_exact(2)) {
            *byte = value(pair[0])? * 16 + value(pair[1])?;
        }
        Some(Sum(sum))
    }
}

impl fmt::Display for Sum {
    fn fmt(&self, f: &mut fmt::Formatter) -> fmt::Result {
        self.0.iter().try_for_each(|byte| write!(f, "{byte:02x}"))
    }
}

#[cfg(test)]
mod tests {
    use super::*;

    /// The example of FIPS 180-2, B.1.
    #[test]
    fn known_sum() {
        let digits = "ba7816bf8f01cfea414140de5dae2223b00361a396177a9cb410ff61f20015ad";
        assert_eq!(sum(b"abc").to_string(), digits);
        assert!(Sum::of_digits(digits.as_bytes()) == Some(sum(b"abc")));
        assert!(Sum::of_digits(digits.to_uppercase().as_bytes()).is_none());
        assert!(Sum::of_digits(&digits.as_bytes()[1..]).is_none());
    }
}
