//! The wrapper's methods give what the raw calls give, and its refusals have the scope paper's numbers.

use belaykeel::{Engine, Order, Refusal, Selection, Session, Sheet, WorkSpaces};
use harness::drive::{sequences, Plan};
use harness::shapes::Size;
use harness::wrapped::Wrapped;
use public_calls::Name;
use std::collections::BTreeSet;

/// Every call is accepted through the wrapper, and refused by every number but those that the wrapper's types exclude.
#[test]
fn sequences_through_the_wrapper() {
    for forging in [false, true] {
        let plan = Plan { size: Size::Small, forging, damaged: false };
        let tally = sequences(&|| Box::new(Wrapped::default()), plan, 50, 10_000);
        assert_eq!(tally.missing(Name::ALL, |number| number == 0), [], "{tally}");
    }
}

#[test]
fn refusals_by_number() {
    let numbers: Vec<u32> = Refusal::ALL.into_iter().map(Refusal::number).collect();
    assert!(numbers.into_iter().eq((1..=15).chain([18, 20])));
    assert!(Refusal::ALL.into_iter().all(|refusal| Refusal::from_number(refusal.number()) == Some(refusal)));
    assert_eq!((Refusal::from_number(0), Refusal::from_number(16)), (None, None));
    let sentences: BTreeSet<String> = Refusal::ALL.into_iter().map(|refusal| refusal.to_string()).collect();
    assert_eq!(sentences.len(), Refusal::ALL.len());
    assert!(sentences.iter().all(|sentence| sentence.ends_with('.')));
}

#[test]
fn positions_and_past_events() {
    let sheet = Sheet::write(&[2, 3, 100, 200, 300, 3, 100, 200, 300, 24, 1, 0, 1, 1, 100]).expect("a sheet");
    let mut spaces = WorkSpaces::default();
    let mut session = Session::default();
    let offers = session.open(&sheet, Engine::default(), &Order::default(), &Selection::default(), &mut spaces).expect("the offers");
    assert!(offers.positions(0).eq([1, 2]) && offers.positions(1).eq([0, 1]) && offers.positions(2).eq([]));
    assert!(offers.has(0, 2) && !offers.has(0, 0) && !offers.has(7, 0) && !offers.has(0, 40));
    session.strike(&sheet, Engine::Sac2, &Order::Listed(vec![1, 0]), 0, 2, &mut spaces).expect("the offers");
    let events: Vec<(u32, u32, u32)> = session.past_events().iter().map(|event| (event.kind, event.field, event.position)).collect();
    assert_eq!(events, [(2, 0, 2)]);
    session.count = u32::MAX;
    assert_eq!(session.past_events().len(), 64);
    assert_eq!(session.show(&sheet, Engine::Sac1, &Order::Rising, &mut spaces), Err(Refusal::Malformed));
}

/// A field beyond the sheet is refused, also where it is past the bits of a mask; so is a list without fields.
#[test]
fn selections_by_name() {
    let sheet = Sheet::write(&[2, 3, 100, 200, 300, 3, 100, 200, 300, 24, 1, 0, 1, 1, 100]).expect("a sheet");
    let (mut session, mut spaces) = (Session::default(), WorkSpaces::new());
    assert_eq!(session.show(&sheet, Engine::Sac1, &Order::Rising, &mut spaces), Err(Refusal::Malformed));
    for (fields, selected) in [(vec![0], 1), (vec![1], 2), (vec![1, 0], 3), (vec![1, 1], 2)] {
        session.open(&sheet, Engine::Sac1, &Order::Rising, &Selection::Fields(fields), &mut spaces).expect("the offers");
        assert_eq!(session.selected, selected);
    }
    assert!(session.selected_fields().eq([1]));
    for fields in [vec![], vec![2], vec![0, 2], vec![0, 24], vec![31], vec![32], vec![0, 32], vec![33], vec![1, 64], vec![u32::MAX]] {
        let refused = session.open(&sheet, Engine::Sac1, &Order::Rising, &Selection::Fields(fields), &mut spaces);
        assert_eq!((refused, session.selected), (Err(Refusal::NoSelection), 2));
    }
    session.open(&sheet, Engine::Sac1, &Order::Rising, &Selection::All, &mut spaces).expect("the offers");
    assert!(session.selected_fields().eq([0, 1]));
    for bytes in [&[][..], &[0], &[25], &[0x83, 0x00], &[255]] {
        let (sheet, selection) = (Sheet::from_bytes(bytes), Selection::All);
        let refused = session.open(&sheet, Engine::Sac1, &Order::Rising, &selection, &mut spaces).expect_err("a refusal");
        assert!(refused.number() <= 3, "{refused:?}");
    }
}
