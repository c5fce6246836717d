//! Random sequences of calls, each compared with the solver. BELAYKEEL_CALLS sets how many calls there are, BELAYKEEL_SEED where they
//! start. A plan makes as many calls as its coverage needs, also where fewer are asked for.

use harness::drive::{sequences, Plan};
use harness::linked::Linked;
use harness::selections::Extent;
use harness::shapes::Size;
use harness::tally::Tally;
use public_calls::Name;

/// Runs this share of all calls, in parts of a thousand, and at least so many. None gives 8, and at least this share is accepted, in parts
/// of a hundred.
fn share(size: Size, forging: bool, damaged: bool, thousandths: u64, least: u64, accepted: u64) -> Tally {
    let tally = sequences(&|| Box::new(Linked), Plan { size, forging, damaged }, thousandths, least);
    assert_eq!(tally.number(8), 0, "{tally}");
    assert!(100 * tally.number(0) >= accepted * tally.calls(), "too few accepted: {tally}");
    tally
}

/// Every call gave 0 and every number of its row, but for these.
fn given_by_every_call(tally: &Tally, but: &[u32]) {
    assert_eq!(tally.missing(Name::ALL, |number| !but.contains(&number)), [], "{tally}");
}

/// Settings and c went up to the largest, and sheets had no triple, few and the most.
fn all_sheets(tally: &Tally) {
    assert_eq!(tally.widest, [1_000_000; 3], "{tally}");
    assert!([0, 1, 2, 32].iter().all(|count| tally.triples.contains(count)), "{tally}");
}

/// Each engine was accepted with every sort of good mask, open was given masks of every sort, and put other masks in the place of good
/// ones.
fn all_selected(tally: &Tally) {
    let accepted = tally.selected.iter().all(|selected| selected.keys().eq(&Extent::GOOD));
    let opened = tally.opened.keys().eq(Extent::GOOD.iter().chain(&Extent::BAD));
    assert!(accepted && opened && tally.reselected > 0, "{tally}");
}

/// Without forged sessions hardly any call but a decision is wiped out, or finds the session malformed.
#[test]
fn calls_on_small_sheets() {
    let tally = share(Size::Small, false, false, 500, 50_000, 45);
    given_by_every_call(&tally, &[14, 15]);
    assert!(tally.number(14) > 0, "{tally}");
    all_sheets(&tally);
    all_selected(&tally);
}

#[test]
fn forged_sessions() {
    let tally = share(Size::Small, true, false, 250, 50_000, 20);
    given_by_every_call(&tally, &[]);
    all_sheets(&tally);
    all_selected(&tally);
    assert!(tally.held.keys().eq(Extent::GOOD.iter().chain(&Extent::BAD)), "{tally}");
}

#[test]
fn calls_on_long_sheets() {
    let tally = share(Size::Long, false, false, 150, 30_000, 45);
    let numbers = Name::ALL.iter().flat_map(|name| name.row().numbers());
    assert!(numbers.into_iter().all(|number| tally.number(number) > 0), "{tally}");
    all_sheets(&tally);
    all_selected(&tally);
    let counts = (tally.fields.len(), tally.settings.len(), tally.reaches.len(), tally.kinds.len());
    assert_eq!(counts, (24, 24, 24, 6), "{tally}");
    assert!(tally.accepted.iter().flatten().all(|&count| count > 0), "{tally}");
}

#[test]
fn forged_sessions_on_long_sheets() {
    share(Size::Long, true, false, 30, 6_000, 20);
}

#[test]
fn calls_on_damaged_sheets() {
    let tally = share(Size::Small, false, true, 50, 10_000, 5);
    given_by_every_call(&tally, &[7, 9, 10, 11, 12, 13, 14, 15, 18, 20]);
    all_sheets(&tally);
}

#[test]
fn calls_on_large_sheets() {
    share(Size::Large, false, false, 19, 1_000, 40);
}

#[test]
fn calls_on_full_sheets() {
    share(Size::Full, false, false, 1, 100, 25);
}
