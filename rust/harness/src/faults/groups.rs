//! The numbers of some bytes, also where these are no sheet.

use solver::reading;

/// The bytes number by number; of the last one there may be a part only.
pub fn split(bytes: &[u8]) -> impl Iterator<Item = &[u8]> {
    bytes.split_inclusive(|byte| *byte < 128)
}

/// Whether 2 is the cause against a number.
pub fn ill_formed(number: &[u8]) -> bool {
    number.len() > 1 && number.ends_with(&[0]) || number.iter().take_while(|byte| **byte >= 128).count() > 3
}

/// The numbers of some bytes, up to the first that has no fourth group to end with.
pub fn numbers(bytes: &[u8]) -> Vec<u32> {
    let value = |number: &[u8]| number.iter().rev().fold(0, |value, byte| value * 128 + u32::from(byte % 128));
    split(bytes).take_while(|number| number.len() < 5 && number.last().is_some_and(|byte| *byte < 128)).map(value).collect()
}

/// The bytes of a number of at most four groups without its last groups of 0.
fn fewest(number: &[u8]) -> Vec<u8> {
    let mut bytes = number.to_vec();
    while (2..=4).contains(&bytes.len()) && bytes.ends_with(&[0]) {
        bytes.pop();
        bytes.last_mut().into_iter().for_each(|byte| *byte %= 128);
    }
    bytes
}

/// The bytes with each number of at most four groups in as few as can be.
pub fn in_fewest(bytes: &[u8]) -> Vec<u8> {
    split(bytes).flat_map(fewest).collect()
}

/// How many numbers of a list are right, up to the first that is at fault.
pub fn right(numbers: &[u32]) -> usize {
    let stops = |length: &usize| reading::sheet(&reading::groups(&numbers[..*length])) == Err(1);
    (0..=numbers.len()).rev().find(stops).unwrap_or(0)
}
