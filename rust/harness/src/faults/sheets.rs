//! Faults in reading a sheet's bytes, by any call that is given them.

use super::groups::{ill_formed, in_fewest, numbers, right, split};
use super::making::sheet;
use super::Fault;
use super::How::{Number, ReadAs, SheetNumber};
use crate::sheets::widest;
use public_calls::Call;
use solver::reading::{self, groups};
use solver::Sheet;

pub static ROWS: &[Fault] = &[
    Fault {
        name: "lower_limit",
        promise: "2.2",
        says: "Settings and c are read up to 65,535 only.",
        how: SheetNumber(|number, bytes| if number == 0 && wide(bytes) { 3 } else { number }),
    },
    Fault { name: "higher_limit", promise: "2.2", says: "1,000,001 is read, as 1,000,000.", how: ReadAs(3, one_less) },
    Fault {
        name: "zero_group_read",
        promise: "2.1",
        says: "A number is read although its last group is 0 and is not its only one.",
        how: ReadAs(2, in_fewest),
    },
    Fault {
        name: "four_groups_refused",
        promise: "2.1",
        says: "A number of four groups is refused by 2.",
        how: SheetNumber(|number, bytes| if number != 6 && four_groups(bytes) { 2 } else { number }),
    },
    Fault {
        name: "rule_fields_turned",
        promise: "2.3",
        says: "A rule whose i is above its j is read, with the two exchanged.",
        how: ReadAs(4, rule_turned),
    },
    Fault {
        name: "order_at_second",
        promise: "2.4",
        says: "The order of the triples is judged at j, as far as i and j decide it.",
        how: SheetNumber(|number, bytes| if matches!(number, 1 | 3) && falls_at_second(bytes) { 4 } else { number }),
    },
    Fault { name: "zero_triples", promise: "2.5", says: "A count of 0 triples is read.", how: ReadAs(3, without_zero) },
    Fault { name: "surplus_read", promise: "2.5", says: "What follows the last triple is not looked at.", how: ReadAs(5, without_surplus) },
    Fault {
        name: "long_sheet_refused",
        promise: "2.6",
        says: "A sheet of more than 128 bytes is refused by 5.",
        how: SheetNumber(|number, bytes| if number == 0 && bytes.len() > 128 { 5 } else { number }),
    },
    Fault {
        name: "groups_first",
        promise: "2.7",
        says: "The groups of every number are judged before the first number is.",
        how: SheetNumber(|number, bytes| if matches!(number, 1 | 3..=5) && split(bytes).any(ill_formed) { 2 } else { number }),
    },
    Fault {
        name: "last_number_missing",
        promise: "9.1",
        says: "A sheet whose last number is missing is read, with 0 for it.",
        how: ReadAs(1, with_last),
    },
    Fault {
        name: "range_before_groups",
        promise: "9.3",
        says: "A number that is out of its range and ends with a group of 0 is refused by 3.",
        how: SheetNumber(|number, bytes| if number == 2 && out_of_range(bytes) { 3 } else { number }),
    },
    Fault {
        name: "ends_with_fourth_group",
        promise: "9.3",
        says: "A fourth group that announces another is 1 where the bytes end with it.",
        how: SheetNumber(|number, bytes| if number == 2 && ends_with_fourth_group(bytes) { 1 } else { number }),
    },
    Fault {
        name: "read_refuses_kind_2",
        promise: "3.3",
        says: "Reading refuses a sheet with a rule of kind 2, by 20.",
        how: Number(|number, call, lent| match call {
            Call::Read if number == 0 && sheet(lent).rules.iter().any(|rule| rule.kind == 2) => 20,
            _ => number,
        }),
    },
];

/// Whether a setting or a number c of a sheet is past 65,535.
fn wide(bytes: &[u8]) -> bool {
    let widest = widest(&reading::sheet(bytes).expect("the call was accepted"));
    widest.into_iter().any(|number| number > 65_535)
}

/// The bytes of a sheet with 1,000,000 in each place of 1,000,001.
fn one_less(sheet: &[u8]) -> Vec<u8> {
    let mut bytes = sheet.to_vec();
    for place in 0..sheet.len() {
        let begins = place == 0 || sheet[place - 1] < 128;
        if begins && sheet[place..].starts_with(&[0xC1, 0x84, 0x3D]) {
            bytes[place] = 0xC0;
        }
    }
    bytes
}

/// Whether the first number of four groups or more comes before any fault.
fn four_groups(bytes: &[u8]) -> bool {
    let front: usize = split(bytes).map(<[u8]>::len).take_while(|groups| *groups < 4).sum();
    front < bytes.len() && reading::sheet(&bytes[..front]) == Err(1)
}

/// The bytes of a sheet with the fields of a rule exchanged, where the number at fault is j of that rule.
fn rule_turned(bytes: &[u8]) -> Vec<u8> {
    let mut turned = numbers(bytes);
    let j = right(&turned);
    if j > 0 && j < turned.len() {
        turned.swap(j - 1, j);
    }
    let in_rules = |sheet: &Sheet| {
        let before = 3 + sheet.settings.iter().map(|settings| settings.len() + 1).sum::<usize>();
        let after = before + sheet.rules.iter().map(|rule| rule.numbers.len() + 3).sum::<usize>();
        (before..after).contains(&j)
    };
    match reading::sheet(&groups(&turned)) {
        Ok(sheet) if in_rules(&sheet) => groups(&turned),
        _ => bytes.to_vec(),
    }
}

/// Whether the first fault of a sheet is at k of a triple whose i and j come before those of the last one.
fn falls_at_second(bytes: &[u8]) -> bool {
    let numbers = numbers(bytes);
    let refusal = |length: usize| reading::sheet(&groups(&numbers[..length])).err();
    let front = (0..=numbers.len()).find(|&length| refusal(length).is_none());
    let whole = (0..=numbers.len()).rev().find(|&length| refusal(length) == Some(1));
    match front.zip(whole) {
        Some((front, whole)) if whole > front + 6 && (whole - front) % 4 == 3 => numbers[whole - 2..whole] < numbers[whole - 6..whole - 4],
        _ => false,
    }
}

/// The bytes of a sheet without the 0 that follows its rules, where that is all that follows them.
fn without_zero(bytes: &[u8]) -> Vec<u8> {
    match bytes.split_last() {
        Some((0, front)) if reading::sheet(front).is_ok_and(|sheet| sheet.triples.is_empty()) => front.to_vec(),
        _ => bytes.to_vec(),
    }
}

/// The bytes of a sheet without what follows it.
fn without_surplus(bytes: &[u8]) -> Vec<u8> {
    let length = (0..bytes.len()).rev().find(|&length| reading::sheet(&bytes[..length]).is_ok());
    bytes[..length.unwrap_or(bytes.len())].to_vec()
}

/// The bytes of a sheet with a 0 after them, where that makes them whole.
fn with_last(bytes: &[u8]) -> Vec<u8> {
    let whole = [bytes, &[0]].concat();
    if reading::sheet(&whole).is_ok() {
        whole
    } else {
        bytes.to_vec()
    }
}

/// Whether the first ill-formed number, which is the first at fault, is out of its range too.
fn out_of_range(bytes: &[u8]) -> bool {
    let before = split(bytes).take_while(|number| !ill_formed(number)).count();
    let front: Vec<u8> = split(bytes).take(before + 1).flatten().copied().collect();
    reading::sheet(&in_fewest(&front)) == Err(3)
}

/// Whether the number at fault is the last one and its last byte announces another.
fn ends_with_fourth_group(bytes: &[u8]) -> bool {
    bytes.split_last().is_some_and(|(last, front)| *last >= 128 && reading::sheet(front) == Err(1))
}
