//! Faults of the calls that read a sheet's bytes to numbers and write numbers as bytes.

use super::groups::{numbers, right};
use super::making::answer;
use super::remembering::Memory;
use super::Fault;
use super::How::{Accepted, Instead, Makes, Number, Refused};
use crate::library::{Answer, Lent, Library, Space};
use crate::linked::Linked;
use public_calls::Call;
use solver::reading::{self, groups};

pub static ROWS: &[Fault] = &[
    Fault {
        name: "read_writes_on_refusal",
        promise: "9.1",
        says: "Reading writes its output although it refuses.",
        how: Refused(|_, call, lent| {
            if *call == Call::Read {
                touch(lent, 0);
            }
        }),
    },
    Fault {
        name: "write_writes_on_refusal",
        promise: "9.1",
        says: "Writing writes its output although it refuses.",
        how: Refused(|_, call, lent| {
            if matches!(call, Call::Write(_)) {
                touch(lent, 0);
            }
        }),
    },
    Fault {
        name: "read_writes_past",
        promise: "11.2",
        says: "Reading writes the place after what it has read.",
        how: Accepted(|_, call, lent| {
            if *call == Call::Read {
                touch(lent, needed(call, lent.sheet));
            }
        }),
    },
    Fault {
        name: "write_writes_past",
        promise: "11.2",
        says: "Writing writes the place after its bytes.",
        how: Accepted(|_, call, lent| {
            if matches!(call, Call::Write(_)) {
                touch(lent, needed(call, lent.sheet));
            }
        }),
    },
    Fault {
        name: "exact_output_refused",
        promise: "11.2",
        says: "An output of just as many places as are needed is refused by 6.",
        how: Number(|number, call, lent| {
            let exact = |lent: &mut Lent| room(lent) == needed(call, lent.sheet);
            if number == 0 && call.row().has("output") && exact(lent) {
                6
            } else {
                number
            }
        }),
    },
    Fault {
        name: "read_length_on_refusal",
        promise: "11.1",
        says: "Reading tells a length although it refuses.",
        how: Makes(|_, call, lent| with_length(call, lent, *call == Call::Read, |number, length| length.max(number.into()))),
    },
    Fault {
        name: "write_length_on_refusal",
        promise: "11.1",
        says: "Writing tells a length although it refuses.",
        how: Makes(|_, call, lent| with_length(call, lent, matches!(call, Call::Write(_)), |number, length| length.max(number.into()))),
    },
    Fault {
        name: "read_length_one_more",
        promise: "11.1",
        says: "Reading tells one number more than there are.",
        how: Makes(|_, call, lent| with_length(call, lent, *call == Call::Read, |number, length| length + u64::from(number == 0))),
    },
    Fault {
        name: "write_length_one_more",
        promise: "11.1",
        says: "Writing tells one byte more than there are.",
        how: Makes(|_, call, lent| {
            with_length(call, lent, matches!(call, Call::Write(_)), |number, length| length + u64::from(number == 0))
        }),
    },
    Fault {
        name: "read_16_bits",
        promise: "11.1",
        says: "Reading writes the low 16 bits of the numbers.",
        how: Accepted(|_, call, lent| {
            if *call == Call::Read {
                let length = needed(call, lent.sheet);
                lent.own("output").words()[..length].iter_mut().for_each(|number| *number %= 1 << 16);
            }
        }),
    },
    Fault {
        name: "read_6_first",
        promise: "9.4",
        says: "Reading gives 6 where the numbers before a fault are too many for the output.",
        how: Number(|number, call, lent| match call {
            Call::Read if (1..=5).contains(&number) && room(lent) < right(&numbers(lent.sheet)) => 6,
            _ => number,
        }),
    },
    Fault {
        name: "write_6_first",
        promise: "9.4",
        says: "Writing gives 6 where the numbers before a fault are too many for the output.",
        how: Number(|number, call, lent| match call {
            Call::Write(numbers) if (1..=5).contains(&number) && room(lent) < groups(&numbers[..right(numbers)]).len() => 6,
            _ => number,
        }),
    },
    Fault {
        name: "write_more_groups",
        promise: "2.1",
        says: "Writing adds a group of 0 to the first number where the output has a place for it.",
        how: Makes(more_groups),
    },
    Fault { name: "write_takes_kind_2", promise: "11.3", says: "Writing takes a rule of kind 2.", how: Instead(20, takes_kind_2) },
    Fault {
        name: "write_20_for_earlier",
        promise: "11.3",
        says: "Writing gives 20 although a number before the kind is at fault.",
        how: Number(|number, call, _| match call {
            Call::Write(numbers) if matches!(number, 3 | 4) && mended_is_20(numbers) => 20,
            _ => number,
        }),
    },
    Fault {
        name: "write_20_last",
        promise: "11.3",
        says: "Writing gives a later fault although a rule of kind 2 comes first.",
        how: Number(|number, call, _| match call {
            Call::Write(numbers) if number == 20 => match reading::sheet(&groups(numbers)) {
                Err(2) => 3,
                later => later.err().unwrap_or(20),
            },
            _ => number,
        }),
    },
    Fault {
        name: "write_20_for_kind_6",
        promise: "9.3",
        says: "Writing gives 20 for a kind that is out of its range.",
        how: Number(|number, call, _| match call {
            Call::Write(numbers) if number == 3 && kind_at_fault(numbers) => 20,
            _ => number,
        }),
    },
];

/// Alters a place of the output, where there is one.
fn touch(lent: &mut Lent, place: usize) {
    match lent.own("output") {
        Space::Bytes(bytes) => bytes.iter_mut().skip(place).take(1).for_each(|byte| *byte ^= 1),
        Space::Words(words) => words.iter_mut().skip(place).take(1).for_each(|word| *word ^= 1),
    }
}

/// How many places the output has.
fn room(lent: &mut Lent) -> usize {
    match lent.own("output") {
        Space::Bytes(bytes) => bytes.len(),
        Space::Words(words) => words.len(),
    }
}

/// How many places of the output an accepted call writes.
fn needed(call: &Call, sheet: &[u8]) -> usize {
    match call {
        Call::Write(numbers) => groups(numbers).len(),
        _ => reading::read(sheet, usize::MAX).map_or(0, |numbers| numbers.len()),
    }
}

/// Makes a call, and where it holds tells another length, by the number and the length.
fn with_length(call: &Call, lent: &mut Lent, holds: bool, length: fn(u32, u64) -> u64) -> Answer {
    let mut answered = Linked.call(call, lent);
    if holds {
        answered.others.iter_mut().for_each(|other| *other = length(answered.number, *other));
    }
    answered
}

/// The refusal of a list of numbers where the one at this place is replaced.
fn refusal_with(numbers: &[u32], place: usize, number: u32) -> Option<u32> {
    let mut replaced = numbers.to_vec();
    *replaced.get_mut(place)? = number;
    reading::write(&replaced, usize::MAX).err()
}

/// Whether the first number at fault is a kind.
fn kind_at_fault(numbers: &[u32]) -> bool {
    let place = right(numbers);
    refusal_with(numbers, place, 2) == Some(20) && refusal_with(numbers, place, 6) == Some(3)
}

/// Whether 20 refuses a list where the first number at fault is made right, by another number than 2.
fn mended_is_20(numbers: &[u32]) -> bool {
    let place = right(numbers);
    (0..24).any(|number| number != 2 && refusal_with(numbers, place, number) == Some(20))
}

/// Writes these bytes to the output, where it has room for them.
fn put(bytes: &[u8], lent: &mut Lent) -> Option<Answer> {
    lent.own("output").bytes().get_mut(..bytes.len())?.copy_from_slice(bytes);
    Some(Answer { number: 0, others: vec![bytes.len() as u64] })
}

fn more_groups(_: &mut Memory, call: &Call, lent: &mut Lent) -> Answer {
    let answered = Linked.call(call, lent);
    match call {
        Call::Write(numbers) if answered.number == 0 => {
            let mut bytes = groups(numbers);
            bytes[0] += 128;
            bytes.insert(1, 0);
            put(&bytes, lent).unwrap_or(answered)
        }
        _ => answered,
    }
}

/// Writes a list that 20 refuses, where it has no other fault.
fn takes_kind_2(call: &Call, lent: &mut Lent) -> Answer {
    let written = match call {
        Call::Write(numbers) if reading::sheet(&groups(numbers)).is_ok() => put(&groups(numbers), lent),
        _ => None,
    };
    written.unwrap_or_else(|| answer(call, 20))
}
