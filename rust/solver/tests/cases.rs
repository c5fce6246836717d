//! The worked cases of the scope paper and of the later requests.

use public_calls::Call;
use solver::reading::{groups, read, sheet};
use solver::session::{SELECTED, WORDS};
use solver::{Arguments, Effect, Network, State};

const SHEET_D: [u8; 19] =
    [0x02, 0x03, 0x64, 0xC8, 0x01, 0xAC, 0x02, 0x03, 0x64, 0xC8, 0x01, 0xAC, 0x02, 0x18, 0x01, 0x00, 0x01, 0x01, 0x64];

/// Engine 1, rising order, and spaces that are just long enough.
fn plain<'a>(sheet: &'a [u8], order: &'a [u8]) -> Arguments<'a> {
    Arguments { sheet, engine: 1, order, lengths: [("offers", 24), ("rows", 13_248), ("memory", 13_824)].into() }
}

/// What the calls do in turn, from a session of 0s.
fn effects(sheet: &[u8], calls: &[Call]) -> Vec<Effect> {
    let order: Vec<u8> = (0..sheet[0]).collect();
    let mut state = State::new(sheet, &[0; WORDS]);
    let mut make = |call: &Call| {
        let effect = state.effect(call, &plain(sheet, &order));
        state = effect.state.clone();
        effect
    };
    calls.iter().map(&mut make).collect()
}

/// What the calls give in turn: the masks or the number.
fn answers(sheet: &[u8], calls: &[Call]) -> Vec<Result<Vec<u32>, u32>> {
    let given = |mut effect: Effect| if effect.number == 0 { Ok(effect.written.remove(0).1) } else { Err(effect.number) };
    effects(sheet, calls).into_iter().map(given).collect()
}

/// What the last call gives after an open with every field selected; without a call, what that open gives.
fn last(sheet: &[u8], calls: &[Call]) -> Result<Vec<u32>, u32> {
    let open = Call::Open((1 << sheet[0]) - 1);
    answers(sheet, &[&[open], calls].concat()).pop().expect("a call")
}

/// What an open with these fields selected gives.
fn opened(sheet: &[u8], selected: u32) -> Result<Vec<u32>, u32> {
    answers(sheet, &[Call::Open(selected)]).remove(0)
}

/// Fields {1, 2} with a distance of at least 1 for each of these pairs.
fn unequal(fields: u32, reach: u32, pairs: &[(u32, u32)]) -> Vec<u8> {
    let mut numbers = vec![fields];
    (0..fields).for_each(|_| numbers.extend([2, 1, 2]));
    numbers.extend([reach, pairs.len() as u32]);
    pairs.iter().for_each(|&(i, j)| numbers.extend([i, j, 3, 1]));
    groups(&numbers)
}

#[test]
fn sheet_d() {
    use Call::{Choose, Strike, WithdrawStrike};
    assert_eq!(last(&SHEET_D, &[]), Ok(vec![6, 3]));
    assert_eq!(last(&SHEET_D, &[Strike(0, 2)]), Ok(vec![2, 1]));
    assert_eq!(last(&SHEET_D, &[Strike(0, 2), Choose(1, 1)]), Err(14));
    assert_eq!(last(&SHEET_D, &[Strike(0, 2), Choose(1, 0), WithdrawStrike(0, 2)]), Ok(vec![6, 1]));
    assert_eq!(last(&SHEET_D, &[Choose(0, 0)]), Err(14));
    assert_eq!(last(&SHEET_D, &[Strike(0, 0)]), Ok(vec![6, 3]));
    assert_eq!(last(&SHEET_D, &[Strike(0, 0), Strike(0, 0)]), Err(10));
}

#[test]
fn rings_and_triangles() {
    let triangle = [(0, 1), (0, 2), (1, 2)];
    let ring = [(0, 1), (0, 4), (1, 2), (2, 3), (3, 4)];
    assert_eq!(last(&[0x01, 0x01, 0xAC, 0x02, 0x18, 0x00], &[]), Ok(vec![1]));
    assert_eq!(last(&unequal(3, 1, &triangle), &[]), Err(14));
    assert_eq!(last(&unequal(3, 24, &triangle), &[]), Err(14));
    assert_eq!(last(&unequal(4, 1, &triangle), &[]), Err(14));
    assert_eq!(last(&unequal(5, 1, &ring), &[]), Ok(vec![3; 5]));
    assert_eq!(last(&unequal(5, 2, &ring), &[]), Err(14));
}

/// Settings and c near 65,536 and near 1,000,000, one rule of a kind with c.
#[test]
fn edger_widths() {
    let edges = |kind, c| groups(&[2, 3, 0, 65_536, 1_000_000, 2, 65_535, 999_999, 24, 1, 0, 1, kind, c]);
    assert_eq!(last(&edges(1, 1), &[]), Ok(vec![6, 3]));
    assert_eq!(last(&edges(1, 1_000_000), &[]), Err(14));
    assert_eq!(last(&edges(2, 1), &[]), Ok(vec![3, 3]));
    assert_eq!(last(&edges(3, 934_465), &[]), Ok(vec![5, 3]));
    assert_eq!(last(&edges(4, 1), &[]), Ok(vec![6, 3]));
    assert_eq!(last(&edges(4, 1_000_000), &[]), Ok(vec![7, 3]));
    assert_eq!(last(&edges(5, 999_999), &[]), Ok(vec![1, 2]));
    assert!((1..=5).all(|kind| last(&edges(kind, 1_000_001), &[]) == Err(3)));
}

/// Distances around 0, 100 and 1,000,000, with either setting the larger, under two rules of kind 5 with c.
#[test]
fn equal_within_the_encoder() {
    let far = [13, 0, 1, 2, 3, 4, 5, 97, 98, 102, 103, 999_997, 999_998, 1_000_000];
    let sheet = |c| groups(&[&[3][..], &far, &[1, 0], &far, &[24, 2, 0, 1, 5, c, 1, 2, 5, c]].concat());
    for (c, allowed) in [(0, 0x7), (1, 0xF), (2, 0x1F), (100, 0x180), (1_000_000, 0x1800)] {
        assert_eq!(last(&sheet(c), &[]), Ok(vec![allowed, 1, allowed]));
    }
}

#[test]
fn sixty_four_events() {
    let mut calls = vec![Call::Open(3)];
    for _ in 0..33 {
        calls.extend([Call::Strike(0, 0), Call::WithdrawStrike(0, 0)]);
    }
    let answers = answers(&SHEET_D, &calls);
    assert!(answers[..65].iter().all(Result::is_ok));
    assert_eq!(answers[65], Err(12));
}

#[test]
fn numbers_in_groups() {
    let refused = |bytes: &[u8]| sheet(bytes).expect_err("a refusal");
    assert_eq!(read(&groups(&[1, 1, 1_000_000, 24, 0]), 5), Ok(vec![1, 1, 1_000_000, 24, 0]));
    assert_eq!(refused(&groups(&[1, 1, 1_000_001, 24, 0])), 3);
    assert_eq!(refused(&[25]), 3);
    assert_eq!(refused(&[0x80, 0x00]), 2);
    assert_eq!(refused(&[0x80]), 1);
    assert_eq!(refused(&[0x80, 0x80, 0x80]), 1);
    assert_eq!(refused(&[0x80, 0x80, 0x80, 0x80]), 2);
    assert_eq!(refused(&[]), 1);
    assert_eq!(refused(&[2, 1, 0, 1, 0, 24, 1, 1, 1]), 4);
    assert_eq!(refused(&[1, 2, 5, 5]), 4);
    assert_eq!(refused(&[1, 1, 0, 24, 0, 0x80]), 1);
    assert_eq!(refused(&[3, 1, 0, 1, 0, 1, 0, 24, 0, 1, 0, 1, 2, 0, 0x80]), 5);
}

/// Two triangles of fields {1, 2}, {1, 2} and {1, 2, 3}, the fields of each unequal, and a field equal to the last of the first triangle.
/// Closing keeps everything. Tests leave the last field of a triangle only 3, and closing then leaves the equal field only 3. With one of
/// these two fields selected there are fewer offers than closing leaves, and more than with every field selected.
#[test]
fn some_fields_selected() {
    let fields = [2, 1, 2, 2, 1, 2, 3, 1, 2, 3];
    let unequal = |i: u32| [i, i + 1, 3, 1, i, i + 2, 3, 1, i + 1, i + 2, 3, 1];
    for reach in [1, 2, 24] {
        let rules = [&unequal(0)[..], &[2, 6, 4, 0], &unequal(3)].concat();
        let bytes = groups(&[&[7][..], &fields, &fields, &[3, 1, 2, 3, reach, 7], &rules].concat());
        let offered = |first, second| vec![3, 3, first, 3, 3, second, first];
        let network = Network::of(&sheet(&bytes).expect("a sheet"));
        assert_eq!(network.closing(network.full, &[0, 1, 2, 3, 4, 5, 6])[..7], offered(7, 7));
        assert_eq!(opened(&bytes, 0b000_0011), Ok(offered(7, 7)));
        assert_eq!(opened(&bytes, 0b000_0100), Ok(offered(4, 7)));
        assert_eq!(opened(&bytes, 0b010_0000), Ok(offered(7, 4)));
        assert_eq!(opened(&bytes, 0b010_0100), Ok(offered(4, 4)));
        assert_eq!(opened(&bytes, 0b111_1111), Ok(offered(4, 4)));
    }
}

/// The triangle that a test wipes out and closing does not, and a field with no rule: wiped out exactly where a field of the triangle is
/// selected.
#[test]
fn wiped_out_by_a_selected_field() {
    for reach in [1, 24] {
        let sheet = unequal(4, reach, &[(0, 1), (0, 2), (1, 2)]);
        assert_eq!(opened(&sheet, 0b1000), Ok(vec![3; 4]));
        assert!((1..16).filter(|&selected| selected != 0b1000).all(|selected| opened(&sheet, selected) == Err(14)));
    }
}

/// 18 at open, and a mask that stays: neither a refused open nor another call alters it.
#[test]
fn masks_at_open() {
    use Call::{Back, CoilOn, Open, Show, Strike};
    for selected in [0, 4, 7, 1 << 24, 1 << 31, u32::MAX] {
        assert_eq!(opened(&SHEET_D, selected), Err(18));
    }
    assert_eq!(answers(&SHEET_D, &[Show, Open(1), Show]), [Err(15), Ok(vec![6, 3]), Ok(vec![6, 3])]);
    let calls =
        [(Open(2), 2), (Strike(0, 2), 2), (Open(0), 2), (Open(4), 2), (CoilOn, 2), (Back, 2), (Show, 2), (Open(3), 3), (Open(1), 1)];
    let effects = effects(&SHEET_D, &calls.clone().map(|(call, _)| call));
    for ((call, selected), effect) in calls.into_iter().zip(effects) {
        assert_eq!((effect.number == 0, effect.state.session[SELECTED]), (![Open(0), Open(4), Back].contains(&call), selected), "{call:?}");
    }
}
