//! Masks of selected fields, good ones and bad ones of every sort.

use crate::Random;
use belaykeel::Selection;

/// What a mask selects of a sheet.
#[derive(Clone, Copy, Debug, PartialEq, Eq, PartialOrd, Ord)]
pub enum Extent {
    /// Every field.
    All,
    /// One field, where there are more.
    One,
    /// More than one field, but not all.
    Several,
    /// No field.
    Empty,
    /// Bits beyond the sheet: only the one just past its fields.
    JustPast,
    /// Bits farther beyond the sheet.
    FarPast,
    /// Every bit of the word.
    Ones,
}

impl Extent {
    /// What open accepts.
    pub const GOOD: [Extent; 3] = [Extent::All, Extent::One, Extent::Several];
    /// What it refuses.
    pub const BAD: [Extent; 4] = [Extent::Empty, Extent::JustPast, Extent::FarPast, Extent::Ones];

    /// What a mask selects of a sheet with so many fields.
    pub fn of(selected: u32, fields: usize) -> Extent {
        match selected & !all(fields) {
            _ if selected == u32::MAX => Extent::Ones,
            0 if selected == 0 => Extent::Empty,
            0 if selected == all(fields) => Extent::All,
            0 if selected.is_power_of_two() => Extent::One,
            0 => Extent::Several,
            past if past == 1 << fields => Extent::JustPast,
            _ => Extent::FarPast,
        }
    }
}

/// The mask of so many fields.
pub fn all(fields: usize) -> u32 {
    (1 << fields) - 1
}

/// The fields of a mask, rising.
pub fn fields(selected: u32) -> impl Iterator<Item = u32> {
    (0..u32::BITS).filter(move |field| selected >> field & 1 == 1)
}

/// A mask that a sheet with so many fields accepts.
pub fn good(random: &mut Random, fields: usize) -> u32 {
    match random.below(5) {
        0 | 1 => all(fields),
        2 => 1 << random.below(fields),
        _ => random.from(1, all(fields) as usize) as u32,
    }
}

/// A mask that it refuses.
pub fn bad(random: &mut Random, fields: usize) -> u32 {
    let inside = random.word() as u32 & random.pick(&[0, all(fields)]);
    match random.below(4) {
        0 => 0,
        1 => inside | 1 << fields,
        2 => inside | 1 << random.from(fields + 1, 31),
        _ => u32::MAX,
    }
}

/// Mostly a good mask.
pub fn any(random: &mut Random, fields: usize) -> u32 {
    if random.one_in(8) {
        bad(random, fields)
    } else {
        good(random, fields)
    }
}

/// The wrapper's selection for a mask.
pub fn selection(selected: u32, sheet_fields: usize) -> Selection {
    if selected == all(sheet_fields) {
        Selection::All
    } else {
        Selection::Fields(fields(selected).collect())
    }
}
