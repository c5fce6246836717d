//! The worked cases of the scope paper and of the later requests, through the wrapper, with every engine.

use belaykeel::{Engine, Refusal, Sheet};
use harness::answers::{answer, last};
use harness::sheets::{self, bytes};
use public_calls::Call;
use solver::reading::groups;

const SHEET_D: [u8; 19] =
    [0x02, 0x03, 0x64, 0xC8, 0x01, 0xAC, 0x02, 0x03, 0x64, 0xC8, 0x01, 0xAC, 0x02, 0x18, 0x01, 0x00, 0x01, 0x01, 0x64];

/// Fields {1, 2}, the fields of each pair unequal.
fn unequal(fields: usize, reach: u32, pairs: &[(usize, usize)]) -> Sheet {
    Sheet::from_bytes(bytes(&sheets::unequal(fields, reach, pairs)))
}

#[test]
fn sheet_d() {
    use Call::{Back, Choose, CoilOn, Show, Strike, WithdrawChoice, WithdrawStrike};
    let sheet = Sheet::from_bytes(SHEET_D);
    for engine in Engine::ALL {
        let last = |calls: &[Call]| last(&sheet, engine, calls);
        assert_eq!(last(&[]), Ok(vec![6, 3]));
        assert_eq!(last(&[Show]), Ok(vec![6, 3]));
        assert_eq!(last(&[Strike(0, 2)]), Ok(vec![2, 1]));
        assert_eq!(last(&[Strike(0, 2), Choose(1, 1)]), Err(14));
        assert_eq!(last(&[Strike(0, 2), Choose(1, 0), WithdrawStrike(0, 2)]), Ok(vec![6, 1]));
        assert_eq!(last(&[Strike(0, 2), Choose(1, 0), WithdrawStrike(0, 2), Back]), Ok(vec![2, 1]));
        assert_eq!(last(&[Strike(0, 2), Choose(1, 0), CoilOn, WithdrawChoice(1, 0)]), Ok(vec![2, 1]));
        assert_eq!(last(&[Choose(0, 0)]), Err(14));
        assert_eq!(last(&[Strike(0, 0)]), Ok(vec![6, 3]));
        assert_eq!(last(&[Strike(0, 0), Strike(0, 0)]), Err(10));
        assert_eq!(last(&[WithdrawStrike(0, 0)]), Err(11));
        assert_eq!(last(&[Strike(0, 0), CoilOn, Back]), Err(13));
        assert_eq!(last(&[Strike(2, 0)]), Err(7));
        assert_eq!(last(&[Strike(0, 3)]), Err(7));
    }
}

#[test]
fn triangles_and_rings() {
    let triangle = [(0, 1), (0, 2), (1, 2)];
    let ring = [(0, 1), (0, 4), (1, 2), (2, 3), (3, 4)];
    let one = Sheet::from_bytes([0x01, 0x01, 0xAC, 0x02, 0x18, 0x00]);
    for engine in Engine::ALL {
        assert_eq!(last(&one, engine, &[]), Ok(vec![1]));
        for reach in 1..=24 {
            let opened = |fields, pairs| last(&unequal(fields, reach, pairs), engine, &[]);
            assert_eq!((opened(3, &triangle), opened(4, &triangle)), (Err(14), Err(14)), "reach {reach}, {engine:?}");
            assert_eq!(opened(5, &ring), if reach == 1 { Ok(vec![3; 5]) } else { Err(14) }, "reach {reach}, {engine:?}");
        }
    }
}

/// Settings and c near 65,536 and near 1,000,000, one rule of a kind with c.
#[test]
fn edger_widths() {
    let edges = |kind, c| [2, 3, 0, 65_536, 1_000_000, 2, 65_535, 999_999, 24, 1, 0, 1, kind, c];
    for engine in Engine::ALL {
        let opened = |kind, c| last(&Sheet::from_bytes(groups(&edges(kind, c))), engine, &[]);
        assert_eq!(opened(1, 1), Ok(vec![6, 3]));
        assert_eq!(opened(1, 1_000_000), Err(14));
        assert_eq!(opened(2, 1), Ok(vec![3, 3]));
        assert_eq!(opened(3, 934_465), Ok(vec![5, 3]));
        assert_eq!(opened(4, 1), Ok(vec![6, 3]));
        assert_eq!(opened(4, 1_000_000), Ok(vec![7, 3]));
        assert_eq!(opened(5, 999_999), Ok(vec![1, 2]));
        assert!((1..=5).all(|kind| opened(kind, 1_000_001) == Err(3)));
    }
}

/// Distances around 0, 100 and 1,000,000, with either setting the larger, under two rules of kind 5 with c.
#[test]
fn equal_within_the_encoder() {
    let far = [13, 0, 1, 2, 3, 4, 5, 97, 98, 102, 103, 999_997, 999_998, 1_000_000];
    let sheet = |c| [&[3][..], &far, &[1, 0], &far, &[24, 2, 0, 1, 5, c, 1, 2, 5, c]].concat();
    for engine in Engine::ALL {
        for (c, allowed) in [(0, 0x7), (1, 0xF), (2, 0x1F), (100, 0x180), (1_000_000, 0x1800)] {
            let opened = last(&Sheet::from_bytes(groups(&sheet(c))), engine, &[]);
            assert_eq!(opened, Ok(vec![allowed, 1, allowed]));
        }
    }
}

/// Kind 2 is read, and refused by the writer where no number before it is at fault: also where the list ends after it or goes on wrongly.
#[test]
fn kind_2_is_read_and_not_written() {
    let list = |setting, kind| [2, 1, setting, 1, 0, 24, 1, 0, 1, kind, 5];
    assert_eq!(Sheet::from_bytes(groups(&list(0, 2))).read(), Ok(list(0, 2).to_vec()));
    assert_eq!(Sheet::write(&list(0, 2)), Err(Refusal::Retired));
    assert_eq!(Sheet::write(&list(0, 2)[..10]), Err(Refusal::Retired));
    assert_eq!(Sheet::write(&[&list(0, 2)[..10], &[1_000_001]].concat()), Err(Refusal::Retired));
    assert_eq!(Sheet::write(&[&list(0, 2)[..], &[0]].concat()), Err(Refusal::Retired));
    assert_eq!(Sheet::write(&list(0, 2)[..9]), Err(Refusal::EndsInside));
    assert_eq!(Sheet::write(&list(1_000_001, 2)), Err(Refusal::OutOfRange));
    assert_eq!(Sheet::write(&list(0, 6)), Err(Refusal::OutOfRange));
}

#[test]
fn sixty_four_events() {
    let sheet = Sheet::from_bytes(SHEET_D);
    for engine in Engine::ALL {
        let mut calls = vec![];
        for _ in 0..32 {
            calls.extend([Call::Strike(0, 0), Call::WithdrawStrike(0, 0)]);
        }
        assert_eq!(last(&sheet, engine, &calls), Ok(vec![6, 3]));
        calls.push(Call::Strike(0, 0));
        assert_eq!(last(&sheet, engine, &calls), Err(12));
    }
}

#[test]
fn ranges_and_groups() {
    let written = |numbers: &[u32]| Sheet::write(numbers).map(|sheet| sheet.read().expect("a sheet"));
    let one_field = |setting| [1, 1, setting, 24, 0];
    assert_eq!(written(&one_field(1_000_000)), Ok(one_field(1_000_000).to_vec()));
    assert_eq!(written(&one_field(1_000_001)), Err(Refusal::OutOfRange));
    for kind in [1, 3, 4, 5] {
        let one_rule = |c| [2, 1, 0, 1, 0, 24, 1, 0, 1, kind, c];
        assert_eq!(written(&one_rule(1_000_000)), Ok(one_rule(1_000_000).to_vec()));
        assert_eq!(written(&one_rule(1_000_001)), Err(Refusal::OutOfRange));
    }
    let fields = |n: u32| [vec![n], [1, 7].repeat(n as usize), vec![1, 0]].concat();
    assert_eq!(written(&fields(24)), Ok(fields(24)));
    assert_eq!(written(&fields(25)), Err(Refusal::OutOfRange));
    assert_eq!(Sheet::from_bytes([0x80, 0x00]).read(), Err(Refusal::IllFormed));
    assert_eq!(written(&[2, 1, 0, 1, 0, 24, 1, 1, 1, 5, 0]), Err(Refusal::OutOfOrder));
}

/// Two triangles of fields {1, 2}, {1, 2} and {1, 2, 3}, the fields of each unequal, and a field equal to the last of the first triangle.
/// Closing keeps everything. Tests leave the last field of a triangle only 3, and closing then leaves the equal field only 3.
#[test]
fn some_fields_selected() {
    let fields = [2, 1, 2, 2, 1, 2, 3, 1, 2, 3];
    let unequal = |i: u32| [i, i + 1, 3, 1, i, i + 2, 3, 1, i + 1, i + 2, 3, 1];
    for (engine, reach) in Engine::ALL.into_iter().flat_map(|engine| [1, 2, 24].map(|reach| (engine, reach))) {
        let rules = [&unequal(0)[..], &[2, 6, 4, 0], &unequal(3)].concat();
        let list = [&[7][..], &fields, &fields, &[3, 1, 2, 3, reach, 7], &rules].concat();
        let sheet = Sheet::write(&list).expect("a sheet");
        let opened = |selected| answer(&sheet, engine, &[Call::Open(selected)]);
        let offered = |first, second| Ok(vec![3, 3, first, 3, 3, second, first]);
        assert_eq!(opened(0b000_0011), offered(7, 7));
        assert_eq!(opened(0b000_0100), offered(4, 7));
        assert_eq!(opened(0b010_0000), offered(7, 4));
        assert_eq!(opened(0b010_0100), offered(4, 4));
        assert_eq!(opened(0b111_1111), offered(4, 4));
        assert!([0, 1 << 7, 1 << 8, 1 << 31, u32::MAX].iter().all(|&selected| opened(selected) == Err(18)));
    }
}

/// The triangle that tests wipe out and closing does not, and a field with no rule: wiped out exactly where a field of the triangle is
/// selected.
#[test]
fn wiped_out_by_a_selected_field() {
    for (engine, reach) in Engine::ALL.into_iter().flat_map(|engine| [1, 24].map(|reach| (engine, reach))) {
        let sheet = unequal(4, reach, &[(0, 1), (0, 2), (1, 2)]);
        for selected in 1..16 {
            let expected = if selected == 0b1000 { Ok(vec![3; 4]) } else { Err(14) };
            assert_eq!(answer(&sheet, engine, &[Call::Open(selected)]), expected, "{selected:b}, reach {reach}, {engine:?}");
        }
    }
}
