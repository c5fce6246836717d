//! Random steps: a call with a fresh engine, order and spaces, now and then with something wrong.

use crate::case::{enough, setting, with_number, with_setting, Given, Step};
use crate::forge;
use crate::random_triples::with_surplus;
use crate::selections::{any, bad, good};
use crate::shapes::another;
use crate::sheets::{bytes, damage_list, damage_numbers, damaged, numbers};
use crate::spaces::Fill;
use crate::Random;
use belaykeel::Session;
use public_calls::{Call, Name};
use solver::reading::groups;
use solver::Sheet;

/// How the calls of a sequence are drawn.
#[derive(Clone, Debug)]
pub struct Habits {
    /// How often each call is made, as shares of their sum.
    pub weights: Vec<(Name, usize)>,
    /// Something is wrong one time in this many.
    pub wrong: usize,
    /// The session is forged one time in this many.
    pub forged: usize,
    /// Another sheet is put in force one time in this many.
    pub exchanged: usize,
}

/// Strikes that are made and withdrawn, with hardly anything else.
const STRIKING: &[(Name, usize)] =
    &[(Name::Choose, 1), (Name::Strike, 20), (Name::WithdrawChoice, 1), (Name::WithdrawStrike, 20), (Name::Back, 1)];
/// More steps back than forward.
const GOING_BACK: &[(Name, usize)] = &[
    (Name::Show, 1),
    (Name::Choose, 5),
    (Name::Strike, 10),
    (Name::WithdrawChoice, 5),
    (Name::WithdrawStrike, 8),
    (Name::Back, 25),
    (Name::CoilOn, 1),
];
/// Decisions that are seldom withdrawn.
const DECIDING: &[(Name, usize)] = &[
    (Name::Open, 1),
    (Name::Show, 4),
    (Name::Choose, 2),
    (Name::Strike, 20),
    (Name::WithdrawChoice, 1),
    (Name::WithdrawStrike, 3),
    (Name::Back, 4),
    (Name::CoilOn, 1),
];
/// Often opened afresh.
const OPENING: &[(Name, usize)] = &[
    (Name::Open, 8),
    (Name::Show, 4),
    (Name::Choose, 4),
    (Name::Strike, 8),
    (Name::WithdrawChoice, 2),
    (Name::WithdrawStrike, 3),
    (Name::Back, 4),
    (Name::CoilOn, 3),
];
/// Sheets that are read and written.
const READING: &[(Name, usize)] = &[(Name::Open, 1), (Name::Read, 10), (Name::Write, 10)];
/// Every call.
const MIXED: &[(Name, usize)] = &[
    (Name::Open, 1),
    (Name::Show, 3),
    (Name::Choose, 10),
    (Name::Strike, 12),
    (Name::WithdrawChoice, 8),
    (Name::WithdrawStrike, 8),
    (Name::Back, 6),
    (Name::CoilOn, 2),
    (Name::Read, 2),
    (Name::Write, 2),
];

impl Habits {
    /// The habits of one sequence.
    pub fn draw(random: &mut Random, forging: bool) -> Habits {
        let mut weights = random.pick(&[STRIKING, GOING_BACK, DECIDING, OPENING, READING, MIXED, MIXED, MIXED]).to_vec();
        if forging {
            weights.extend([(Name::Show, 10), (Name::CoilOn, 3)]);
        }
        let wrong = random.pick(&[3, 8, 20, 1000]);
        let forged = if forging { random.pick(&[2, 4, 12, 40]) } else { usize::MAX };
        let exchanged = if forging { random.pick(&[20, 1000]) } else { usize::MAX };
        Habits { weights, wrong, forged, exchanged }
    }
}

/// The next step on a session.
pub fn next(random: &mut Random, habits: &Habits, sheet: &Sheet, session: &Session) -> Step {
    if random.one_in(habits.forged) {
        return Step::Session(forge::forged(random, sheet));
    }
    if random.one_in(habits.exchanged) {
        return Step::Sheet(bytes(&another(random, sheet)));
    }
    let shares: Vec<usize> = habits.weights.iter().map(|(_, share)| *share).collect();
    let name = habits.weights[random.weighted(&shares)].0;
    let call = call(random, name, sheet, session);
    let mut given = valid(random, sheet, call);
    if given.call == Call::Read && random.one_in(3) {
        spoil_sheet(random, sheet, &mut given);
    }
    if random.one_in(habits.wrong) {
        for _ in 0..random.pick(&[1, 1, 2, 2, 3]) {
            spoil(random, sheet, &mut given);
        }
    }
    Step::Call(given)
}

/// A valid open.
pub fn opening(random: &mut Random, sheet: &Sheet) -> Step {
    let selected = good(random, sheet.fields());
    Step::Call(valid(random, sheet, Call::Open(selected)))
}

/// A call of this name.
fn call(random: &mut Random, name: Name, sheet: &Sheet, session: &Session) -> Call {
    let (field, position) = forge::setting(random, sheet);
    match name {
        Name::Open => Call::Open(any(random, sheet.fields())),
        Name::Show => Call::Show,
        Name::Choose => Call::Choose(field, position),
        Name::Strike => Call::Strike(field, position),
        Name::WithdrawChoice => {
            let (field, position) = in_force(random, &session.choices).unwrap_or((field, position));
            Call::WithdrawChoice(field, position)
        }
        Name::WithdrawStrike => {
            let (field, position) = in_force(random, &session.strikes).unwrap_or((field, position));
            Call::WithdrawStrike(field, position)
        }
        Name::Back => Call::Back,
        Name::CoilOn => Call::CoilOn,
        Name::Read => Call::Read,
        Name::Write => Call::Write(list(random, sheet)),
    }
}

/// The list of a sheet's numbers, often damaged.
fn list(random: &mut Random, sheet: &Sheet) -> Vec<u32> {
    let mut list = numbers(sheet);
    if random.one_in(2) {
        damage_list(random, sheet, &mut list);
    }
    list
}

/// Mostly a setting that these masks hold.
fn in_force(random: &mut Random, masks: &[u32]) -> Option<(u32, u32)> {
    if random.one_in(8) {
        return None;
    }
    let bits = |f: u32| (0..32).filter(move |v| masks[f as usize] >> v & 1 == 1).map(move |v| (f, v));
    let held: Vec<(u32, u32)> = (0..24).flat_map(bits).collect();
    (!held.is_empty()).then(|| random.pick(&held))
}

/// The call with a valid engine and order and spaces that are long enough.
fn valid(random: &mut Random, sheet: &Sheet, call: Call) -> Given {
    let mut given = Given::plain(call, random.order(sheet.fields()));
    given.engine = random.from(1, 3) as u32;
    for (space, length) in &mut given.lengths {
        *length = needed(&given.call, sheet, space) + random.pick(&[0, 0, 0, 0, 0, 1, 8, 5000]);
    }
    given.fill = match random.below(8) {
        0 => Fill::Noise(random.word()),
        1 => Fill::Word(random.pick(&[0, 1, 2, 24, 0x00FF_FFFF, u32::MAX])),
        _ => Fill::Left,
    };
    given
}

/// The least length of a space that is enough for a call.
pub fn needed(call: &Call, sheet: &Sheet, space: &str) -> usize {
    match call {
        Call::Read => numbers(sheet).len(),
        Call::Write(numbers) => groups(numbers).len(),
        _ => enough(space),
    }
}

/// Makes one argument wrong, or at least unusual: one that a stage of the call's causes is about.
fn spoil(random: &mut Random, sheet: &Sheet, given: &mut Given) {
    let by_arguments = |stage: &&&[u32]| stage.iter().any(|number| [1, 6, 7, 9, 18].contains(number));
    let stages: Vec<&[u32]> = given.call.row().stages.iter().filter(by_arguments).copied().collect();
    match random.pick(&stages)[0] {
        1 => spoil_sheet(random, sheet, given),
        6 => spoil_spaces(random, sheet, given),
        7 if setting(&given.call).is_some() && random.below(3) > 0 => {
            let (field, position) = off_sheet(random, sheet);
            given.call = with_setting(&given.call, field, position);
        }
        7 => given.engine = random.pick(&[0, 4, 5, 257, 258, u32::MAX]),
        9 => spoil_order(random, &mut given.order),
        _ => given.call = with_number(&given.call, "selected", bad(random, sheet.fields())),
    }
}

/// Gives other bytes than the sheet in force: damaged ones, with something after them, or another sheet.
fn spoil_sheet(random: &mut Random, sheet: &Sheet, given: &mut Given) {
    if let Call::Write(numbers) = &mut given.call {
        return damage_numbers(random, numbers);
    }
    given.sheet = Some(match random.below(8) {
        0 => bytes(&another(random, sheet)),
        1 => groups(&with_surplus(sheet)),
        _ => damaged(random, sheet),
    });
}

/// Makes one of the lent spaces too short, or all by one.
fn spoil_spaces(random: &mut Random, sheet: &Sheet, given: &mut Given) {
    let spaces: Vec<&str> = given.lengths.keys().copied().collect();
    let spoiled = if random.one_in(4) { spaces } else { vec![random.pick(&spaces)] };
    let all = spoiled.len() > 1;
    for space in spoiled {
        let least = needed(&given.call, sheet, space);
        let shorter = [least.saturating_sub(1), least.saturating_sub(2), 1, 0, random.below(least + 1)];
        let length = if all { shorter[0] } else { random.pick(&shorter) };
        given.lengths.entry(space).and_modify(|held| *held = length);
    }
}

fn off_sheet(random: &mut Random, sheet: &Sheet) -> (u32, u32) {
    let (field, position) = forge::setting(random, sheet);
    let n = sheet.fields() as u32;
    let d = sheet.settings[field as usize].len() as u32;
    let far = [24, 25, 31, 32, 64, 255, 256, 257, 1 << 16, 1 << 31, u32::MAX];
    match random.below(4) {
        0 => (n, position),
        1 => (field, d),
        2 => (random.pick(&far), position),
        _ => (field, random.pick(&far)),
    }
}

fn spoil_order(random: &mut Random, order: &mut Vec<u8>) {
    let n = order.len() as u8;
    if n == 0 {
        return order.push(0);
    }
    let at = random.below(order.len());
    match random.below(7) {
        0 => drop(order.pop()),
        1 => order.push(n),
        2 => order.push(order[at]),
        3 => order[at] = n,
        4 => order[at] = random.pick(&[24, 31, 32, 64, 128, 255]),
        5 => order[at] = order[0],
        _ => order.resize(random.pick(&[0, 24, 25, 256, 300]), 0),
    }
}
