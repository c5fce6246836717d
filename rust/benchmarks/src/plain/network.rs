//! The network of a sheet, read from its list of numbers.

use super::triple_tables::Triples;
use crate::{MOST, WHOLE_REACH};
use belaykeel::raw::ENCODER_TOLERANCE;

/// A rule between the fields i and j.
pub struct Rule<'a> {
    pub i: usize,
    pub j: usize,
    kind: u32,
    numbers: &'a [u32],
    first: &'a [u32],
    second: &'a [u32],
}

impl Rule<'_> {
    /// For each position of i the positions of j allowed beside it; zeros past the last.
    pub fn forward(&self) -> [u32; MOST] {
        let mut rows = [0; MOST];
        if self.kind == 0 {
            rows[..self.numbers.len()].copy_from_slice(self.numbers);
            return rows;
        }
        for (row, &p) in rows.iter_mut().zip(self.first) {
            for (u, &q) in self.second.iter().enumerate() {
                *row |= u32::from(allowed(self.kind, self.numbers[0], p, q)) << u;
            }
        }
        rows
    }

    /// For each position of j the positions of i allowed beside it; zeros past the last.
    pub fn turned(&self, forward: &[u32; MOST]) -> [u32; MOST] {
        if self.first.len() <= 8 && self.second.len() <= 8 {
            transposed_8(forward)
        } else {
            transposed(forward)
        }
    }
}

/// What the kinds 1 to 5 allow, with p the setting of i and q that of j.
fn allowed(kind: u32, c: u32, p: u32, q: u32) -> bool {
    match kind {
        1 => p >= q + c,
        2 => q >= p + c,
        3 => p.abs_diff(q) >= c,
        4 => p.abs_diff(q) <= c,
        _ => p.abs_diff(q).abs_diff(c) <= ENCODER_TOLERANCE,
    }
}

/// Transposes a matrix of bits: blocks of 16, of 8, .. are exchanged across the diagonal.
fn transposed(rows: &[u32; MOST]) -> [u32; MOST] {
    let mut square = [0; 32];
    square[..MOST].copy_from_slice(rows);
    exchange::<16>(&mut square, 0x0000_FFFF);
    exchange::<8>(&mut square, 0x00FF_00FF);
    exchange::<4>(&mut square, 0x0F0F_0F0F);
    exchange::<2>(&mut square, 0x3333_3333);
    exchange::<1>(&mut square, 0x5555_5555);
    let mut columns = [0; MOST];
    columns.copy_from_slice(&square[..MOST]);
    columns
}

#[inline(always)]
fn exchange<const SIZE: usize>(square: &mut [u32; 32], mask: u32) {
    for rows in square.chunks_exact_mut(2 * SIZE) {
        let (low, high) = rows.split_at_mut(SIZE);
        for (x, y) in low.iter_mut().zip(high) {
            let differ = ((*x >> SIZE) ^ *y) & mask;
            *x ^= differ << SIZE;
            *y ^= differ;
        }
    }
}

/// The same for at most 8 rows of at most 8 bits, in one word.
fn transposed_8(rows: &[u32; MOST]) -> [u32; MOST] {
    let mut square = (0..8).fold(0, |square, v| square | u64::from(rows[v]) << (8 * v));
    for (shift, mask) in [(7, 0x00AA_00AA_00AA_00AA), (14, 0x0000_CCCC_0000_CCCC), (28, 0x0000_0000_F0F0_F0F0)] {
        let differ = (square ^ (square >> shift)) & mask;
        square ^= differ ^ (differ << shift);
    }
    let mut columns = [0; MOST];
    for (u, column) in columns[..8].iter_mut().enumerate() {
        *column = (square >> (8 * u)) as u32 & 255;
    }
    columns
}

/// What the engines know of a sheet beside the tables of its rules.
#[derive(Default)]
pub struct Network {
    pub fields: usize,
    /// For each field the fields that a rule joins to it.
    pub joined: [u32; MOST],
    /// For each field its neighbourhood.
    pub hood: [u32; MOST],
    /// Whether the reach makes every neighbourhood the whole sheet.
    pub whole: bool,
    pub triples: Triples,
}

impl Network {
    /// Reads an accepted list of numbers, and hands each of its rules on.
    pub fn read(&mut self, numbers: &[u32], mut each: impl FnMut(&Rule)) {
        let fields = numbers[0] as usize;
        let mut settings: [&[u32]; MOST] = [&[]; MOST];
        let mut rest = &numbers[1..];
        for list in &mut settings[..fields] {
            (*list, rest) = rest[1..].split_at(rest[0] as usize);
        }
        let (reach, rules) = (rest[0], rest[1]);
        rest = &rest[2..];
        self.joined = [0; MOST];
        for _ in 0..rules {
            let (i, j, kind) = (rest[0] as usize, rest[1] as usize, rest[2]);
            let count = if kind == 0 { settings[i].len() } else { 1 };
            let (numbers, after) = rest[3..].split_at(count);
            rest = after;
            self.joined[i] |= 1 << j;
            self.joined[j] |= 1 << i;
            each(&Rule { i, j, kind, numbers, first: settings[i], second: settings[j] });
        }
        self.triples.load(&settings, rest);
        let beside = self.triples.beside();
        let near = std::array::from_fn(|f| self.joined[f] | beside[f]);
        self.fields = fields;
        self.hood = neighbourhoods(fields, &near, reach);
        self.whole = reach >= WHOLE_REACH;
    }

    /// The mask of every field.
    pub fn all(&self) -> u32 {
        (1 << self.fields) - 1
    }
}

/// The most settings that a field of the sheet has.
pub fn most_settings(numbers: &[u32]) -> usize {
    let mut place = 1;
    let counts = (0..numbers[0]).map(|_| {
        let count = numbers[place] as usize;
        place += 1 + count;
        count
    });
    counts.max().unwrap_or(0)
}

/// The neighbourhoods of fields that have these beside them.
fn neighbourhoods(fields: usize, near: &[u32; MOST], reach: u32) -> [u32; MOST] {
    let mut hood = [0; MOST];
    for (f, within) in hood[..fields].iter_mut().enumerate() {
        *within = if reach >= WHOLE_REACH { (1 << fields) - 1 } else { fields_within(near, reach, f) };
    }
    hood
}

/// The fields at most `reach` steps away from f.
fn fields_within(near: &[u32; MOST], reach: u32, f: usize) -> u32 {
    let mut within = 1 << f;
    let mut frontier = within;
    for _ in 0..reach {
        frontier = members(frontier).fold(0, |next, g| next | near[g]) & !within;
        if frontier == 0 {
            break;
        }
        within |= frontier;
    }
    within
}

/// The positions of the ones of a mask, rising.
#[inline(always)]
pub fn members(mut mask: u32) -> impl Iterator<Item = usize> {
    std::iter::from_fn(move || {
        if mask == 0 {
            return None;
        }
        let place = mask.trailing_zeros() as usize;
        mask &= mask - 1;
        Some(place)
    })
}
