//! The proved library, the plain readers and the plain writer agree: on sheets made at random, damaged, cut short and followed by more, and
//! with outputs of any length.

use belaykeel::raw::{self, Answer, SHEET_NUMBERS};
use benchmarks::plain::read_write;
use harness::random_triples::damage_triples;
use harness::shapes::{self, Size};
use harness::sheets::{damage_bytes, damage_numbers, largest, numbers, strings};
use random::Random;
use solver::reading::groups;
use std::fmt::Debug;

/// Makes a call of the library and the plain one, with an output of this length. The number of both.
fn same<G: Debug + ?Sized, W: Clone + PartialEq + Debug>(
    given: &G,
    mut output: Vec<W>,
    proved: fn(&G, &mut [W]) -> Answer,
    plain: fn(&G, &mut [W]) -> Answer,
) -> u32 {
    let mut other = output.clone();
    let answer = proved(given, &mut output);
    assert_eq!(answer, plain(given, &mut other), "{given:?}");
    assert_eq!(output, other, "{given:?}");
    answer.number
}

fn same_read(bytes: &[u8], room: usize) -> u32 {
    let (mut proved, mut plain) = (vec![0; SHEET_NUMBERS], vec![0; SHEET_NUMBERS]);
    let answer = raw::read(bytes, &mut proved);
    assert_eq!(answer.number, read_write::read_at_once(bytes, &mut plain).err().unwrap_or(0), "{bytes:02x?}");
    assert_eq!(proved[..answer.length], plain[..answer.length], "{bytes:02x?}");
    same(bytes, vec![7; room], raw::read, read_write::read)
}

fn same_write(numbers: &[u32], room: usize) -> u32 {
    same(numbers, vec![7; room], raw::write, read_write::write)
}

#[test]
fn agree_on_random_sheets() {
    let mut random = Random(1);
    let (mut read, mut written) = ([0; 7], [0; 21]);
    for _ in 0..200_000 {
        let sheet = shapes::sheet(&mut random, Size::Small);
        let mut numbers = numbers(&sheet);
        match random.below(4) {
            0 => (),
            1 => damage_triples(&mut random, &sheet, &mut numbers),
            _ => damage_numbers(&mut random, &mut numbers),
        }
        let room = random.below(2 * numbers.len() + 2);
        written[same_write(&numbers, 2 * room) as usize] += 1;
        let mut bytes = groups(&numbers);
        if random.one_in(2) {
            damage_bytes(&mut random, &mut bytes);
        }
        read[same_read(&bytes, room) as usize] += 1;
    }
    println!("read {read:?}, written {written:?}");
    assert!(read.iter().all(|&times| times > 1000), "{read:?}");
    assert!([0, 1, 3, 4, 5, 6, 20].iter().all(|&number| written[number] > 1000), "{written:?}");
}

#[test]
fn agree_on_short_strings_of_bytes() {
    for end in (0..4).flat_map(strings) {
        for start in [&[][..], &[1, 1, 0, 24], &[4, 1, 0, 1, 0, 1, 0, 1, 0, 24, 0], &[3, 1, 0, 1, 0, 1, 0, 24, 0, 1, 0, 1]] {
            same_read(&[start, &end].concat(), 14);
        }
    }
}

#[test]
fn the_largest_sheet() {
    let numbers = largest();
    let bytes = groups(&numbers);
    assert_eq!((numbers.len(), bytes.len()), (8184, 29273));
    assert_eq!((same_read(&bytes, 8184), same_read(&bytes, 8183)), (0, 6));
    assert_eq!((same_write(&numbers, 29273), same_write(&numbers, 29272)), (0, 6));
}
