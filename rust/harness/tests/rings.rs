//! Rings that have no complete set-up: wiped out exactly where the reach sees the whole ring. Every count of fields with every reach.

use belaykeel::{Engine, Order, Refusal, Selection, Session, Sheet, WorkSpaces};
use harness::shapes::ring;
use harness::sheets::bytes;
use harness::Random;
use solver::Rule;

/// Two settings in each field; neighbours differ, but in an even ring those of the first rule agree.
fn odd_ring(fields: usize, reach: u32) -> Sheet {
    let rule = |(place, (i, j))| {
        let (kind, c) = if place == 0 && fields.is_multiple_of(2) { (4, 0) } else { (3, 1) };
        Rule { i, j, kind, numbers: vec![c] }
    };
    let rules = ring(fields).into_iter().enumerate().map(rule).collect();
    let sheet = solver::Sheet { settings: vec![vec![1, 2]; fields], reach, rules, triples: vec![] };
    Sheet::from_bytes(bytes(&sheet))
}

/// The masks of an open with every field selected.
fn opened(sheet: &Sheet, engine: Engine, order: &Order, spaces: &mut WorkSpaces) -> Result<Vec<u32>, Refusal> {
    Session::default().open(sheet, engine, order, &Selection::All, spaces).map(|offers| offers.masks().to_vec())
}

#[test]
fn wiped_out_where_the_reach_sees_the_ring() {
    let mut random = Random(3);
    let mut spaces = WorkSpaces::new();
    for fields in 3..=24 {
        for reach in 1..=24 {
            let sheet = odd_ring(fields, reach);
            let order = Order::Listed(random.order(fields));
            let seen = reach == 24 || 2 * reach as usize + 1 >= fields;
            for engine in Engine::ALL {
                let answer = opened(&sheet, engine, &order, &mut spaces);
                let expected = if seen { Err(Refusal::WipedOut) } else { Ok(vec![3; fields]) };
                assert_eq!(answer, expected, "{fields} fields, reach {reach}, {engine:?}");
            }
        }
    }
}

/// A chain in which each field is above the one before: of d settings, field f keeps the d - n + 1 from position f on.
#[test]
fn chains_of_every_length_and_width() {
    let mut spaces = WorkSpaces::new();
    for fields in 1..=24 {
        for d in 1..=24usize {
            let rules = (1..fields).map(|j| Rule { i: j - 1, j, kind: 2, numbers: vec![1] }).collect();
            let settings = vec![(0..d as u32).collect(); fields];
            let sheet = Sheet::from_bytes(bytes(&solver::Sheet { settings, reach: 24, rules, triples: vec![] }));
            for engine in Engine::ALL {
                let answer = opened(&sheet, engine, &Order::Rising, &mut spaces);
                let masks = |room: usize| (0..fields).map(|f| ((1 << room) - 1) << f).collect();
                let expected = (d + 1).checked_sub(fields).filter(|&room| room > 0).map(masks).ok_or(Refusal::WipedOut);
                assert_eq!(answer, expected, "{fields} fields, {d} settings, {engine:?}");
            }
        }
    }
}
