//! A sheet from its bytes or its list of numbers, and back, with refusals 1 to 6, and 20 for a list.

use crate::sheet::{Rule, Sheet, Triple};
use crate::{LARGEST_SETTING, MOST_TRIPLES};

/// Where a sheet's numbers come from: bytes to read, or a list to write, which has no rule of kind 2.
enum Source<'a> {
    Bytes(&'a [u8]),
    Numbers(&'a [u32]),
}

impl Source<'_> {
    fn ended(&self) -> bool {
        match self {
            Source::Bytes(bytes) => bytes.is_empty(),
            Source::Numbers(numbers) => numbers.is_empty(),
        }
    }

    /// The next number, or 1 or 2.
    fn next(&mut self) -> Result<u32, u32> {
        match self {
            Source::Bytes(bytes) => next_in_groups(bytes),
            Source::Numbers(numbers) => {
                let (&first, rest) = numbers.split_first().ok_or(1u32)?;
                *numbers = rest;
                Ok(first)
            }
        }
    }
}

/// Groups of seven bits, lowest first, the top bit set on all but the last; at most four, and the fewest possible.
fn next_in_groups(bytes: &mut &[u8]) -> Result<u32, u32> {
    let mut number = 0;
    for group in 0..4 {
        let (&byte, rest) = bytes.split_first().ok_or(1u32)?;
        *bytes = rest;
        number += u32::from(byte % 128) << (7 * group);
        if byte < 128 {
            return if byte == 0 && group > 0 { Err(2) } else { Ok(number) };
        }
    }
    Err(2)
}

/// Reads number after number and keeps what was read.
struct Reader<'a> {
    source: Source<'a>,
    numbers: Vec<u32>,
}

impl Reader<'_> {
    fn number(&mut self, least: u32, most: u32) -> Result<u32, u32> {
        let number = self.source.next()?;
        if number < least || number > most {
            return Err(3);
        }
        self.numbers.push(number);
        Ok(number)
    }

    fn settings(&mut self) -> Result<Vec<u32>, u32> {
        let mut settings: Vec<u32> = vec![];
        for _ in 0..self.number(1, 24)? {
            let setting = self.number(0, LARGEST_SETTING)?;
            if settings.last().is_some_and(|&last| last >= setting) {
                return Err(4);
            }
            settings.push(setting);
        }
        Ok(settings)
    }

    /// One of so many fields.
    fn field(&mut self, fields: usize) -> Result<usize, u32> {
        self.number(0, fields as u32 - 1).map(|field| field as usize)
    }

    fn rule(&mut self, settings: &[Vec<u32>], last: Option<(usize, usize)>) -> Result<Rule, u32> {
        let i = self.field(settings.len())?;
        let j = self.field(settings.len())?;
        if i >= j || last.is_some_and(|last| last >= (i, j)) {
            return Err(4);
        }
        let kind = self.number(0, 5)?;
        if kind == 2 && matches!(self.source, Source::Numbers(_)) {
            return Err(20);
        }
        let mut numbers = vec![];
        if kind == 0 {
            for _ in 0..settings[i].len() {
                numbers.push(self.number(0, (1 << settings[j].len()) - 1)?);
            }
        } else {
            numbers.push(self.number(0, LARGEST_SETTING)?);
        }
        Ok(Rule { i, j, kind, numbers })
    }

    /// A triple of so many fields; the one before it has the fields `last`.
    fn triple(&mut self, fields: usize, last: Option<[usize; 3]>) -> Result<Triple, u32> {
        let i = self.field(fields)?;
        let j = self.field(fields)?;
        if i >= j {
            return Err(4);
        }
        let k = self.field(fields)?;
        if j >= k || last.is_some_and(|last| last >= [i, j, k]) {
            return Err(4);
        }
        let c = self.number(0, LARGEST_SETTING)?;
        Ok(Triple { i, j, k, c })
    }

    /// The triples: none where the sheet ends after the rules, else a count and so many.
    fn triples(&mut self, fields: usize) -> Result<Vec<Triple>, u32> {
        let mut triples: Vec<Triple> = vec![];
        if self.source.ended() {
            return Ok(triples);
        }
        for _ in 0..self.number(1, MOST_TRIPLES)? {
            let last = triples.last().map(Triple::fields);
            triples.push(self.triple(fields, last)?);
        }
        Ok(triples)
    }

    fn sheet(&mut self) -> Result<Sheet, u32> {
        let mut settings = vec![];
        for _ in 0..self.number(1, 24)? {
            settings.push(self.settings()?);
        }
        let reach = self.number(1, 24)?;
        let mut rules: Vec<Rule> = vec![];
        for _ in 0..self.number(0, 276)? {
            let last = rules.last().map(|rule| (rule.i, rule.j));
            rules.push(self.rule(&settings, last)?);
        }
        let triples = self.triples(settings.len())?;
        if !self.source.ended() {
            return Err(5);
        }
        Ok(Sheet { settings, reach, rules, triples })
    }
}

fn whole(source: Source) -> Result<(Sheet, Vec<u32>), u32> {
    let mut reader = Reader { source, numbers: vec![] };
    let sheet = reader.sheet()?;
    Ok((sheet, reader.numbers))
}

/// The sheet of these bytes, or its refusal, 1 to 5.
pub fn sheet(bytes: &[u8]) -> Result<Sheet, u32> {
    whole(Source::Bytes(bytes)).map(|(sheet, _)| sheet)
}

/// A list of numbers in groups of seven bits. Numbers that need more than four groups are no sheet's.
pub fn groups(numbers: &[u32]) -> Vec<u8> {
    let mut bytes = vec![];
    for &number in numbers {
        let mut rest = number;
        while rest >= 128 {
            bytes.push((rest % 128 + 128) as u8);
            rest /= 128;
        }
        bytes.push(rest as u8);
    }
    bytes
}

/// The number list of a sheet's bytes for an output with this room, or the refusal.
pub fn read(bytes: &[u8], room: usize) -> Result<Vec<u32>, u32> {
    let (_, numbers) = whole(Source::Bytes(bytes))?;
    if numbers.len() > room {
        Err(6)
    } else {
        Ok(numbers)
    }
}

/// The bytes of a sheet's number list for an output with this room, or the refusal.
pub fn write(numbers: &[u32], room: usize) -> Result<Vec<u8>, u32> {
    whole(Source::Numbers(numbers))?;
    let bytes = groups(numbers);
    if bytes.len() > room {
        Err(6)
    } else {
        Ok(bytes)
    }
}
