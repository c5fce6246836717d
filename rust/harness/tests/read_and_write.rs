//! Reading and writing against the solver: random, damaged and cut sheets, outputs of any length, and short strings of bytes of every sort.

use harness::case::{Case, Given, Step};
use harness::drive::{environment, report, Failure};
use harness::linked::Linked;
use harness::random_triples::{damage_triples, front};
use harness::runner::Runner;
use harness::shapes::{self, Size};
use harness::sheets::{damage_bytes, damage_numbers, largest, numbers, strings};
use harness::Random;
use public_calls::Call;
use solver::reading;

/// Makes a call with an output of this length, and compares all that it does. A failing one is made small and printed.
fn same(call: Call, sheet: &[u8], room: usize) -> u32 {
    let mut given = Given::plain(call, vec![]);
    given.lengths.insert("output", room);
    let case = Case { sheet: sheet.to_vec(), session: Box::default(), steps: vec![Step::Call(given)] };
    let result = Runner::new(&mut Linked, &case.sheet, &case.session).step(&case.steps[0]);
    match result {
        Ok(number) => number.expect("a call"),
        Err(differs) => panic!("{}", report(&|| Box::new(Linked), Failure { case, differs })),
    }
}

fn same_read(bytes: &[u8], room: usize) -> u32 {
    same(Call::Read, bytes, room)
}

fn same_write(numbers: &[u32], room: usize) -> u32 {
    same(Call::Write(numbers.to_vec()), &[], room)
}

/// Room for as much as is needed, one less, or any.
fn room(random: &mut Random, needed: usize) -> usize {
    match random.below(4) {
        0 => needed,
        1 => needed.saturating_sub(1),
        2 => needed + random.below(5),
        _ => random.below(needed + 1),
    }
}

#[test]
fn random_sheets() {
    let seed = environment("BELAYKEEL_SEED", 1);
    println!("BELAYKEEL_SEED={seed}");
    let mut random = Random(seed);
    let (mut read, mut in_triples, mut written) = ([0u64; 7], [0u64; 7], [0u64; 21]);
    let (mut before_kind_2, mut after_kind_2) = (0, 0);
    for _ in 0..(environment("BELAYKEEL_CALLS", 200_000) / 4).max(20_000) {
        let size = if random.one_in(50) { Size::Long } else { Size::Small };
        let sheet = shapes::sheet(&mut random, size);
        let (whole, front) = (numbers(&sheet), front(&sheet));
        let mut numbers = whole.clone();
        match random.below(4) {
            0 => damage_numbers(&mut random, &mut numbers),
            1 => damage_triples(&mut random, &sheet, &mut numbers),
            _ => (),
        }
        let mut bytes = reading::groups(&numbers);
        let number = same_write(&numbers, room(&mut random, bytes.len()));
        written[number as usize] += 1;
        before_kind_2 += u64::from((1..=5).contains(&number) && sheet.rules.iter().any(|rule| rule.kind == 2));
        after_kind_2 += u64::from(number == 20 && reading::sheet(&bytes).is_err());
        if random.one_in(2) {
            damage_bytes(&mut random, &mut bytes);
        }
        let number = same_read(&bytes, room(&mut random, numbers.len()));
        read[number as usize] += 1;
        in_triples[number as usize] += u64::from(bytes.starts_with(&reading::groups(&whole[..front])));
    }
    println!("read {read:?}, in triples {in_triples:?}, written {written:?}");
    println!("faults before kind 2 {before_kind_2} and after it {after_kind_2}");
    assert!(read.iter().chain(&in_triples).all(|&count| count > 0), "{read:?} {in_triples:?}");
    assert!([0, 1, 3, 4, 5, 6, 20].iter().all(|&number| written[number] > 0), "{written:?}");
    assert!(before_kind_2 > 0 && after_kind_2 > 0);
}

/// A sheet of five fields with the first of three triples.
const THREE_OF_FIVE: [u8; 18] = [5, 1, 0, 1, 0, 1, 0, 1, 0, 1, 0, 24, 0, 3, 1, 2, 3, 0];

#[test]
fn short_strings_of_bytes() {
    let starts: [&[u8]; 5] = [&[], &[1, 1], &[1, 1, 0, 24], &[1, 1, 0, 24, 0], &[3, 1, 0, 1, 0, 2, 0, 9, 24, 2, 0, 1, 4, 9]];
    let with_triples: [&[u8]; 3] = [&[3, 1, 0, 1, 0, 1, 0, 24, 0], &[4, 1, 0, 1, 0, 1, 0, 1, 0, 24, 0, 2, 0, 1, 3, 9], &THREE_OF_FIVE];
    for end in (0..5).flat_map(strings) {
        for start in starts.into_iter().chain(with_triples) {
            same_read(&[start, &end].concat(), 30);
        }
    }
}

#[test]
fn the_largest_sheet() {
    let numbers = largest();
    let mut bytes = reading::groups(&numbers);
    assert_eq!((numbers.len(), bytes.len()), (8_184, 29_273));
    assert_eq!((same_read(&bytes, 8_184), same_read(&bytes, 8_183)), (0, 6));
    assert_eq!((same_write(&numbers, 29_273), same_write(&numbers, 29_272)), (0, 6));
    assert_eq!((same_read(&bytes[..29_080], 8_055), same_write(&numbers[..8_055], 29_080)), (0, 0));
    for at in (0..bytes.len()).step_by(487).chain(29_079..bytes.len()) {
        same_read(&bytes[..at], 9_000);
    }
    bytes.push(0);
    assert_eq!(same_read(&bytes, 9_000), 5);
    assert_eq!(same_write(&[numbers, vec![0]].concat(), 30_000), 5);
}
