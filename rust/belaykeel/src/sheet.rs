//! A sheet's bytes.

use crate::raw::{self, SHEET_BYTES, SHEET_NUMBERS};
use crate::refusal::Refusal;

/// A sheet in bytes. They may be malformed: each call judges them.
#[derive(Clone, Debug, PartialEq, Eq)]
pub struct Sheet {
    bytes: Vec<u8>,
}

impl Sheet {
    /// Keeps the bytes as they are.
    pub fn from_bytes(bytes: impl Into<Vec<u8>>) -> Sheet {
        Sheet { bytes: bytes.into() }
    }

    /// Writes a list of numbers as a sheet. A list with a rule of kind 2 is refused; a sheet with one is read, and used in calls.
    ///
    /// ```
    /// use belaykeel::{Refusal, Sheet};
    /// let sheet = Sheet::write(&[1, 1, 300, 24, 0]).unwrap();
    /// assert_eq!(sheet.as_bytes(), [0x01, 0x01, 0xAC, 0x02, 0x18, 0x00]);
    /// assert_eq!(Sheet::write(&[25]), Err(Refusal::OutOfRange));
    /// assert_eq!(Sheet::write(&[2, 1, 300, 1, 200, 24, 1, 0, 1, 2, 100]), Err(Refusal::Retired));
    /// ```
    pub fn write(numbers: &[u32]) -> Result<Sheet, Refusal> {
        let mut bytes = vec![0; SHEET_BYTES];
        let answer = raw::write(numbers, &mut bytes);
        Refusal::check(answer.number)?;
        bytes.truncate(answer.length);
        Ok(Sheet { bytes })
    }

    /// Reads the sheet to its list of numbers.
    ///
    /// ```
    /// use belaykeel::{Refusal, Sheet};
    /// let sheet = Sheet::from_bytes([0x01, 0x01, 0xAC, 0x02, 0x18, 0x00]);
    /// assert_eq!(sheet.read(), Ok(vec![1, 1, 300, 24, 0]));
    /// assert_eq!(Sheet::from_bytes([0x80, 0x00]).read(), Err(Refusal::IllFormed));
    /// ```
    pub fn read(&self) -> Result<Vec<u32>, Refusal> {
        let mut numbers = vec![0; SHEET_NUMBERS];
        let answer = raw::read(&self.bytes, &mut numbers);
        Refusal::check(answer.number)?;
        numbers.truncate(answer.length);
        Ok(numbers)
    }

    /// The bytes.
    pub fn as_bytes(&self) -> &[u8] {
        &self.bytes
    }

    /// The first number, which is the count of fields on a sheet that a call accepts; at most 24.
    pub(crate) fn fields(&self) -> usize {
        self.bytes.first().map_or(0, |&first| usize::from(first).min(raw::OFFERS_WORDS))
    }
}
