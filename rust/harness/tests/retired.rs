//! The retired kind: a sheet with a rule of kind 2 is read and used as before, and the writer refuses its list of numbers by 20, where no
//! number before that kind is at fault.

use belaykeel::{raw, Engine, Order, Refusal, Selection, Session, Sheet, WorkSpaces};
use harness::shapes::{self, Size};
use harness::sheets::numbers;
use harness::Random;
use solver::reading::groups;
use solver::Network;

/// The place of the first kind 2 in a sheet's list of numbers.
fn place_of_retired(sheet: &solver::Sheet) -> Option<usize> {
    let first = sheet.rules.iter().position(|rule| rule.kind == 2)?;
    let front = solver::Sheet { rules: sheet.rules[..first].to_vec(), triples: vec![], ..sheet.clone() };
    Some(numbers(&front).len() + 2)
}

/// What writing answers. A written list fills the output with its groups; a refusal has the length 0 and leaves the output as it was.
fn write(list: &[u32]) -> u32 {
    let bytes = groups(list);
    let mut output = vec![0xA7; bytes.len()];
    let answer = raw::write(list, &mut output);
    let (length, expected) = if answer.number == 0 { (bytes.len(), bytes) } else { (0, vec![0xA7; bytes.len()]) };
    assert_eq!((answer.length, output), (length, expected), "{list:?}");
    answer.number
}

/// What writing answers where the number at this place is another.
fn write_with(list: &[u32], at: usize, number: u32) -> u32 {
    write(&[&list[..at], &[number], &list[at + 1..]].concat())
}

/// The sheet is read to its list, and each engine opens it with the offers of the definitions.
fn read_and_used(sheet: &solver::Sheet, list: &[u32], spaces: &mut WorkSpaces) {
    let bytes = Sheet::from_bytes(groups(list));
    assert_eq!(bytes.read(), Ok(list.to_vec()));
    let network = Network::of(sheet);
    let offers = network.offers(network.full, sheet.all_fields())[..sheet.fields()].to_vec();
    let expected = if offers.contains(&0) { Err(Refusal::WipedOut) } else { Ok(offers) };
    for engine in Engine::ALL {
        let opened = Session::default().open(&bytes, engine, &Order::Rising, &Selection::All, spaces);
        assert_eq!(opened.map(|offers| offers.masks().to_vec()), expected, "{list:?}, {engine:?}");
    }
}

#[test]
fn read_used_and_refused_by_the_writer() {
    let mut random = Random(9);
    let mut spaces = WorkSpaces::new();
    let mut sheets = 0;
    while sheets < 500 {
        let sheet = shapes::sheet(&mut random, Size::Small);
        let Some(place) = place_of_retired(&sheet) else { continue };
        sheets += 1;
        let list = numbers(&sheet);
        read_and_used(&sheet, &list, &mut spaces);
        assert_eq!(write(&list), 20);
        assert_eq!(write(&[&list[..], &[0]].concat()), 20);
        for at in 0..list.len() {
            let (ended, out_of_range) = if at <= place { (1, 3) } else { (20, 20) };
            assert_eq!((write(&list[..at]), write_with(&list, at, u32::MAX)), (ended, out_of_range), "{list:?}, {at}");
        }
        assert!((6..10).all(|kind| write_with(&list, place, kind) == 3));
    }
}

#[test]
fn other_kinds_are_written() {
    let mut random = Random(10);
    for _ in 0..2_000 {
        let mut sheet = shapes::sheet(&mut random, Size::Small);
        for rule in sheet.rules.iter_mut().filter(|rule| rule.kind == 2) {
            rule.kind = random.pick(&[1, 3, 4, 5]);
        }
        assert_eq!(write(&numbers(&sheet)), 0);
    }
}
