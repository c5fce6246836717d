//! Sheets read and written in plain Rust, with one grammar for bytes and for lists of numbers. A refusal is the number of its cause.

use crate::{Domains, MOST, MOST_TRIPLES, WHOLE_REACH};
use belaykeel::raw::{Answer, LARGEST_SETTING, SHEET_NUMBERS};

/// What is known of a sheet beside its list of numbers.
#[derive(Clone, Copy, Debug)]
pub struct Outline {
    pub fields: usize,
    /// For each field the mask of its settings; zeros past the last field.
    pub full: Domains,
}

/// Where the numbers of a sheet come from.
trait Source {
    fn next(&mut self) -> Result<u32, u32>;
    fn ended(&self) -> bool;
}

/// Numbers in groups of seven bits, read by a plain loop.
struct Bytes<'a>(&'a [u8]);

impl Source for Bytes<'_> {
    #[inline(always)]
    fn next(&mut self) -> Result<u32, u32> {
        let mut number = 0;
        for (group, &byte) in self.0.iter().take(4).enumerate() {
            number |= u32::from(byte & 0x7F) << (7 * group);
            if byte < 0x80 {
                self.0 = &self.0[group + 1..];
                return if byte > 0 || group == 0 { Ok(number) } else { Err(2) };
            }
        }
        Err(if self.0.len() < 4 { 1 } else { 2 })
    }

    fn ended(&self) -> bool {
        self.0.is_empty()
    }
}

/// The same, read four bytes at a time where there are as many.
struct Words<'a>(Bytes<'a>);

impl Words<'_> {
    #[inline(always)]
    fn taken(&mut self, groups: usize, well_formed: bool, number: u32) -> Result<u32, u32> {
        self.0 .0 = &self.0 .0[groups..];
        if well_formed {
            Ok(number)
        } else {
            Err(2)
        }
    }
}

impl Source for Words<'_> {
    #[inline(always)]
    fn next(&mut self) -> Result<u32, u32> {
        let Some(bytes) = self.0 .0.first_chunk() else {
            return self.0.next();
        };
        let word = u32::from_le_bytes(*bytes);
        if word & 0x80 == 0 {
            return self.taken(1, true, word & 0x7F);
        }
        let two = word & 0x7F | word >> 1 & 0x3F80;
        if word & 0x8000 == 0 {
            return self.taken(2, word & 0x7F00 != 0, two);
        }
        let three = two | word >> 2 & 0x1F_C000;
        if word & 0x80_0000 == 0 {
            return self.taken(3, word & 0x7F_0000 != 0, three);
        }
        self.taken(4, (1 << 24..1 << 31).contains(&word), three | word >> 3 & 0xFE0_0000)
    }

    fn ended(&self) -> bool {
        self.0.ended()
    }
}

/// A list of numbers.
struct List<'a>(&'a [u32]);

impl Source for List<'_> {
    #[inline(always)]
    fn next(&mut self) -> Result<u32, u32> {
        let (&first, rest) = self.0.split_first().ok_or(1u32)?;
        self.0 = rest;
        Ok(first)
    }

    fn ended(&self) -> bool {
        self.0.is_empty()
    }
}

/// The grammar of a sheet. Each number that is in its range is handed on. A sheet that is to be written has no rule of kind 2.
struct Grammar<S, E> {
    source: S,
    each: E,
    writes: bool,
}

impl<S: Source, E: FnMut(u32)> Grammar<S, E> {
    /// The next number, which is from `least` to `most`.
    #[inline(always)]
    fn take(&mut self, least: u32, most: u32) -> Result<u32, u32> {
        let number = self.source.next()?;
        if number < least || number > most {
            return Err(3);
        }
        (self.each)(number);
        Ok(number)
    }

    /// The settings of a field: their mask.
    fn settings(&mut self) -> Result<u32, u32> {
        let count = self.take(1, MOST as u32)?;
        let mut least = 0;
        for _ in 0..count {
            let setting = self.take(0, LARGEST_SETTING)?;
            if setting < least {
                return Err(4);
            }
            least = setting + 1;
        }
        Ok((1 << count) - 1)
    }

    /// A rule whose pair of fields is at least `least`, where a pair is one number. What the next pair is at least.
    fn rule(&mut self, outline: &Outline, least: u32) -> Result<u32, u32> {
        let last_field = outline.fields as u32 - 1;
        let i = self.take(0, last_field)?;
        let j = self.take(0, last_field)?;
        let pair = i * MOST as u32 + j;
        if i >= j || pair < least {
            return Err(4);
        }
        let kind = self.take(0, 5)?;
        if kind == 2 && self.writes {
            return Err(20);
        }
        if kind > 0 {
            self.take(0, LARGEST_SETTING)?;
        } else {
            let most = outline.full[j as usize];
            for _ in 0..outline.full[i as usize].count_ones() {
                self.take(0, most)?;
            }
        }
        Ok(pair + 1)
    }

    /// A triple whose fields are at least `least`, where three fields are one number. What the next are at least.
    fn triple(&mut self, fields: usize, least: u32) -> Result<u32, u32> {
        let last_field = fields as u32 - 1;
        let i = self.take(0, last_field)?;
        let j = self.take(0, last_field)?;
        if i >= j {
            return Err(4);
        }
        let k = self.take(0, last_field)?;
        let three = (i * MOST as u32 + j) * MOST as u32 + k;
        if j >= k || three < least {
            return Err(4);
        }
        self.take(0, LARGEST_SETTING)?;
        Ok(three + 1)
    }

    /// What follows the rules: nothing, or a count and so many triples.
    fn triples(&mut self, fields: usize) -> Result<(), u32> {
        if self.source.ended() {
            return Ok(());
        }
        let mut least = 0;
        for _ in 0..self.take(1, MOST_TRIPLES)? {
            least = self.triple(fields, least)?;
        }
        if self.source.ended() {
            Ok(())
        } else {
            Err(5)
        }
    }

    fn sheet(&mut self) -> Result<Outline, u32> {
        let fields = self.take(1, MOST as u32)? as usize;
        let mut outline = Outline { fields, full: [0; MOST] };
        for full in &mut outline.full[..fields] {
            *full = self.settings()?;
        }
        self.take(1, WHOLE_REACH)?;
        let mut least = 0;
        for _ in 0..self.take(0, 276)? {
            least = self.rule(&outline, least)?;
        }
        self.triples(fields)?;
        Ok(outline)
    }
}

/// Checks a whole sheet and hands each of its numbers on.
#[inline(always)]
fn check(source: impl Source, each: impl FnMut(u32)) -> Result<Outline, u32> {
    Grammar { source, each, writes: false }.sheet()
}

/// The outline of a list of numbers, where it is a sheet.
pub fn outline(numbers: &[u32]) -> Result<Outline, u32> {
    check(List(numbers), |_| ())
}

/// Reads a sheet's bytes in one pass, four at a time, to the front of a list with room for the longest sheet, and puts a 0 after it, where
/// a sheet that ends after its rules has no count of triples. A refused sheet may leave a part of itself there.
pub fn read_at_once(sheet: &[u8], numbers: &mut [u32]) -> Result<Outline, u32> {
    assert!(numbers.len() >= SHEET_NUMBERS);
    let mut length = 0;
    let outline = check(Words(Bytes(sheet)), |number| {
        numbers[length] = number;
        length += 1;
    })?;
    numbers[length..].iter_mut().take(1).for_each(|word| *word = 0);
    Ok(outline)
}

fn refused(number: u32) -> Answer {
    Answer { number, length: 0 }
}

/// Reads a sheet's bytes as the library does: all are checked before a number is written.
pub fn read(sheet: &[u8], output: &mut [u32]) -> Answer {
    let mut length = 0;
    if let Err(number) = check(Bytes(sheet), |_| length += 1) {
        return refused(number);
    }
    if output.len() < length {
        return refused(6);
    }
    decode(sheet, &mut output[..length]).expect("the numbers that were checked");
    Answer { number: 0, length }
}

/// The first numbers of some bytes, as many as the output has room for, with no check of the sheet.
pub fn decode(sheet: &[u8], output: &mut [u32]) -> Result<(), u32> {
    let mut bytes = Bytes(sheet);
    for number in output {
        *number = bytes.next()?;
    }
    Ok(())
}

/// Writes a list of numbers as a sheet's bytes: all are checked before a byte is written.
pub fn write(numbers: &[u32], output: &mut [u8]) -> Answer {
    let mut length = 0;
    let mut grammar = Grammar { source: List(numbers), each: |number| length += groups(number), writes: true };
    if let Err(number) = grammar.sheet() {
        return refused(number);
    }
    if output.len() < length {
        return refused(6);
    }
    let mut places = output.iter_mut();
    let mut put = |byte: u32| *places.next().expect("room for every group") = byte as u8;
    for &number in numbers {
        let mut rest = number;
        while rest >= 0x80 {
            put(rest | 0x80);
            rest >>= 7;
        }
        put(rest);
    }
    Answer { number: 0, length }
}

/// How many groups of seven bits a number needs.
fn groups(number: u32) -> usize {
    (number | 1).ilog2() as usize / 7 + 1
}
