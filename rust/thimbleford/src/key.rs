//! Keys, and the two token programs'.

use alloc::{string::String, vec, vec::Vec};
use core::{error::Error, fmt, str::FromStr};

/// A key of 32 bytes: an account's, a mint's or a program's.
///
/// It is printed and read in base 58, as people write keys.
///
/// ```
/// use thimbleford::{Key, KeyError, SPL_TOKEN};
///
/// let text = "TokenkegQfeZyiNwAJbNbGKPFXCWuBvf9Ss623VQ5DA";
/// assert_eq!(SPL_TOKEN.to_string(), text);
/// assert_eq!(text.parse(), Ok(SPL_TOKEN));
/// assert_eq!("Tokenkeg".parse::<Key>(), Err(KeyError::WrongLength));
/// ```
#[derive(Clone, Copy, PartialEq, Eq, Hash, PartialOrd, Ord)]
pub struct Key(pub [u8; 32]);

/// The SPL Token program.
pub const SPL_TOKEN: Key = Key([
    6, 221, 246, 225, 215, 101, 161, 147, 217, 203, 225, 70, 206, 235, 121, 172, 28, 180, 133, 237,
    95, 91, 55, 145, 58, 140, 245, 133, 126, 255, 0, 169,
]);

/// The program that the judge takes for Token-2022, by the published code's key.
///
/// It is not the address that Token-2022 is known by,
/// `TokenzQdBNbLqP5VEhdkAS6EPFLC1PHnBqCXEpPxuEb`: the two part at the ninth byte.
/// What lies under that address is a token account neither here nor by the published
/// code, so no token rule sees it (docs/OPERATING.md, 'Token-2022').
pub const TOKEN_2022: Key = Key([
    6, 221, 246, 225, 238, 117, 143, 222, 170, 164, 12, 4, 223, 116, 174, 240, 70, 137, 163, 89,
    77, 149, 128, 12, 61, 73, 196, 253, 210, 164, 82, 159,
]);

/// The digits of base 58: letters and digits without those that look alike.
const DIGITS: &[u8; 58] = b"123456789ABCDEFGHJKLMNPQRSTUVWXYZabcdefghijkmnopqrstuvwxyz";

impl From<[u8; 32]> for Key {
    fn from(bytes: [u8; 32]) -> Self {
        Self(bytes)
    }
}

impl AsRef<[u8]> for Key {
    fn as_ref(&self) -> &[u8] {
        &self.0
    }
}

impl fmt::Display for Key {
    fn fmt(&self, f: &mut fmt::Formatter<'_>) -> fmt::Result {
        f.pad(&digits(&self.0))
    }
}

impl fmt::Debug for Key {
    /// As it is printed: 32 numbers say nothing to a reader.
    fn fmt(&self, f: &mut fmt::Formatter<'_>) -> fmt::Result {
        fmt::Display::fmt(self, f)
    }
}

impl FromStr for Key {
    type Err = KeyError;

    fn from_str(text: &str) -> Result<Self, KeyError> {
        // The longest text of 32 bytes has 44 digits; a longer one is not worth its time.
        if text.chars().nth(44).is_some() {
            return Err(KeyError::WrongLength);
        }
        let key = bytes(text)?.try_into();
        key.map(Self).map_err(|_| KeyError::WrongLength)
    }
}

/// The bytes in base 58: a leading zero byte is a leading `1`.
fn digits(bytes: &[u8]) -> String {
    // Values of the digits, the lowest first.
    let mut values: Vec<u8> = vec![];
    for byte in bytes {
        add(&mut values, 256, 58, u32::from(*byte));
    }
    let zeros = bytes.iter().take_while(|byte| **byte == 0).map(|_| 0);
    let values = zeros.chain(values.into_iter().rev());
    values
        .map(|value| char::from(DIGITS[usize::from(value)]))
        .collect()
}

/// The bytes of a text in base 58.
fn bytes(text: &str) -> Result<Vec<u8>, KeyError> {
    let mut bytes: Vec<u8> = vec![];
    for (at, digit) in text.chars().enumerate() {
        let value = DIGITS.iter().position(|known| char::from(*known) == digit);
        let value = value.ok_or(KeyError::NoDigit { at, digit })?;
        add(&mut bytes, 58, 256, value as u32);
    }
    let zeros = text
        .bytes()
        .take_while(|digit| *digit == DIGITS[0])
        .map(|_| 0);
    Ok(zeros.chain(bytes.into_iter().rev()).collect())
}

/// Multiplies a number and adds to it, where the number is a row of places of a
/// base, the lowest first and the highest above 0.
fn add(places: &mut Vec<u8>, factor: u32, base: u32, more: u32) {
    let mut carry = more;
    for place in places.iter_mut() {
        carry += u32::from(*place) * factor;
        *place = (carry % base) as u8;
        carry /= base;
    }
    while carry > 0 {
        places.push((carry % base) as u8);
        carry /= base;
    }
}

/// Why a text is no key.
#[derive(Clone, Copy, Debug, PartialEq, Eq)]
#[non_exhaustive]
pub enum KeyError {
    /// A character that is no digit of base 58.
    NoDigit {
        /// Its place in the text, from 0.
        at: usize,
        /// The character.
        digit: char,
    },
    /// The text of more or fewer bytes than 32.
    WrongLength,
}

impl fmt::Display for KeyError {
    fn fmt(&self, f: &mut fmt::Formatter<'_>) -> fmt::Result {
        match self {
            Self::NoDigit { at, digit } => {
                write!(f, "{digit:?} at place {at} is no digit of base 58")
            }
            Self::WrongLength => write!(f, "the text of more or fewer than 32 bytes"),
        }
    }
}

impl Error for KeyError {}

#[cfg(test)]
mod tests {
    use alloc::{format, string::ToString};

    use super::*;

    #[test]
    fn keys_are_written_as_people_write_them() {
        let written = [
            (SPL_TOKEN, "TokenkegQfeZyiNwAJbNbGKPFXCWuBvf9Ss623VQ5DA"),
            (TOKEN_2022, "TokenzQdBNpgq44kG8oLscgMTyhhq6hKNHzULKyipez"),
            (Key([0; 32]), "11111111111111111111111111111111"),
            (
                Key([255; 32]),
                "JEKNVnkbo3jma5nREBBJCDoXFVeKkD56V3xKrvRmWxFG",
            ),
        ];
        for (key, text) in written {
            assert_eq!(key.to_string(), text);
            assert_eq!(format!("{key:?}"), text);
            assert_eq!(text.parse(), Ok(key));
        }
    }

    #[test]
    fn every_key_comes_back() {
        for place in 0..32 {
            for value in [1, 57, 58, 255] {
                let mut key = Key([0; 32]);
                key.0[place] = value;
                assert_eq!(key.to_string().parse(), Ok(key));
            }
        }
    }

    #[test]
    fn other_texts_are_no_keys() {
        let text = TOKEN_2022.to_string();
        let wrong = [
            &text[1..],
            "",
            "1",
            &format!("1{text}"),
            &"z".repeat(44),
            &"1".repeat(10_000),
        ];
        for text in wrong {
            assert_eq!(text.parse::<Key>(), Err(KeyError::WrongLength), "{text}");
        }
        for digit in ['0', 'O', 'I', 'l', '+', 'é'] {
            let text = text.replacen('z', &digit.to_string(), 1);
            let error = text.parse::<Key>().unwrap_err();
            assert_eq!(error, KeyError::NoDigit { at: 5, digit });
            let said = format!("{digit:?} at place 5 is no digit of base 58");
            assert_eq!(error.to_string(), said);
        }
    }
}
