//! A lent space between guard words, so that a write past either end is seen.

use crate::library::Space;
use crate::Random;
use public_calls::Sort;

/// What a space holds before a call.
#[derive(Clone, Copy, Debug, PartialEq, Eq)]
pub enum Fill {
    /// What the call before left.
    Left,
    /// This word at every place.
    Word(u32),
    /// Random words from this seed.
    Noise(u64),
}

/// A word of a lent space.
pub trait Word: Copy + Default + PartialEq + Into<u32> {
    /// A guard word.
    const MARK: Self;

    /// The low bits of a word.
    fn of(word: u32) -> Self;
}

impl Word for u32 {
    const MARK: u32 = 0xA5C3_0F1E;

    fn of(word: u32) -> u32 {
        word
    }
}

impl Word for u8 {
    const MARK: u8 = 0xA5;

    fn of(word: u32) -> u8 {
        word as u8
    }
}

const GUARD: usize = 16;

/// Words with guards before and after those that are lent.
#[derive(Default)]
pub struct Guarded<W> {
    words: Vec<W>,
}

impl<W: Word> Guarded<W> {
    /// Makes the space this long and fills it.
    pub fn prepare(&mut self, length: usize, fill: Fill) {
        self.words.resize(length + 2 * GUARD, W::MARK);
        let end = self.words.len() - GUARD;
        self.words[..GUARD].fill(W::MARK);
        self.words[end..].fill(W::MARK);
        match fill {
            Fill::Left => (),
            Fill::Word(word) => self.lent().fill(W::of(word)),
            Fill::Noise(seed) => {
                let mut random = Random(seed);
                for pair in self.lent().chunks_mut(2) {
                    let word = random.word();
                    pair.iter_mut().zip([word as u32, (word >> 32) as u32]).for_each(|(place, half)| *place = W::of(half));
                }
            }
        }
    }

    pub fn lent(&mut self) -> &mut [W] {
        let end = self.words.len() - GUARD;
        &mut self.words[GUARD..end]
    }

    pub fn guards_whole(&self) -> bool {
        let end = self.words.len() - GUARD;
        self.words[..GUARD].iter().chain(&self.words[end..]).all(|&word| word == W::MARK)
    }
}

/// A guarded space of either sort of word.
pub enum GuardedSpace {
    Bytes(Guarded<u8>),
    Words(Guarded<u32>),
}

impl GuardedSpace {
    /// A space for a parameter of this sort.
    pub fn of(sort: Sort) -> GuardedSpace {
        match sort {
            Sort::WrittenBytes => GuardedSpace::Bytes(Guarded::default()),
            _ => GuardedSpace::Words(Guarded::default()),
        }
    }

    pub fn prepare(&mut self, length: usize, fill: Fill) {
        match self {
            GuardedSpace::Bytes(bytes) => bytes.prepare(length, fill),
            GuardedSpace::Words(words) => words.prepare(length, fill),
        }
    }

    pub fn lent(&mut self) -> Space<'_> {
        match self {
            GuardedSpace::Bytes(bytes) => Space::Bytes(bytes.lent()),
            GuardedSpace::Words(words) => Space::Words(words.lent()),
        }
    }

    /// What the space holds, as words of 32 bits.
    pub fn held(&mut self) -> Vec<u32> {
        match self {
            GuardedSpace::Bytes(bytes) => bytes.lent().iter().map(|&byte| byte.into()).collect(),
            GuardedSpace::Words(words) => words.lent().to_vec(),
        }
    }

    pub fn guards_whole(&self) -> bool {
        match self {
            GuardedSpace::Bytes(bytes) => bytes.guards_whole(),
            GuardedSpace::Words(words) => words.guards_whole(),
        }
    }
}
