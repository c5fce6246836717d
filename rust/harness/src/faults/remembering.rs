//! Faults of a library that remembers what it showed.

use super::making::sheet;
use super::Fault;
use super::How::Makes;
use crate::library::{Answer, Lent, Library};
use crate::linked::Linked;
use public_calls::Call;
use std::collections::BTreeMap;

pub static ROWS: &[Fault] = &[
    Fault { name: "restores", promise: "7.3", says: "A withdrawal restores what its decision removed.", how: Makes(restores) },
    Fault {
        name: "records_only",
        promise: "7.3",
        says: "Decisions are recorded only; the offers stay those of open.",
        how: Makes(records_only),
    },
];

/// What a faulty library remembers.
#[derive(Default)]
pub struct Memory {
    /// The offers shown last.
    shown: Vec<u32>,
    /// What each call of a decision removed.
    removed: BTreeMap<(bool, u32, u32), Vec<u32>>,
}

/// Makes a call, lets some masks of an accepted one be altered by what was shown last, and remembers them.
fn remembering(memory: &mut Memory, call: &Call, lent: &mut Lent, alter: fn(&mut Memory, &Call, &mut [u32])) -> Answer {
    let answered = Linked.call(call, lent);
    if answered.number == 0 && call.row().has("offers") {
        let n = sheet(lent).fields();
        alter(memory, call, &mut lent.offers[..n]);
        memory.shown = lent.offers[..n].to_vec();
    }
    answered
}

fn records_only(memory: &mut Memory, call: &Call, lent: &mut Lent) -> Answer {
    remembering(memory, call, lent, |memory, call, masks| {
        if memory.shown.len() == masks.len() && !matches!(call, Call::Open(_)) {
            masks.copy_from_slice(&memory.shown);
        }
    })
}

fn restores(memory: &mut Memory, call: &Call, lent: &mut Lent) -> Answer {
    remembering(memory, call, lent, |Memory { shown, removed }, call, masks| match *call {
        Call::Open(_) => removed.clear(),
        Call::Choose(f, v) | Call::Strike(f, v) => {
            let gone = masks.iter().zip(shown).map(|(mask, shown)| *shown & !mask).collect();
            removed.insert((matches!(call, Call::Choose(..)), f, v), gone);
        }
        Call::WithdrawChoice(f, v) | Call::WithdrawStrike(f, v) => {
            let gone = removed.remove(&(matches!(call, Call::WithdrawChoice(..)), f, v)).unwrap_or_default();
            for (place, gone) in gone.into_iter().enumerate().take(masks.len().min(shown.len())) {
                masks[place] = shown[place] | gone;
            }
        }
        _ => (),
    })
}
