//! Worked cases of sheets with triples, through the wrapper, with every engine: request 12 of 02.

use belaykeel::{Engine, Refusal, Sheet};
use harness::answers::{answer, last};
use public_calls::Call;

/// Every engine at these reaches.
fn engines_at(reaches: &[u32]) -> Vec<(Engine, u32)> {
    Engine::ALL.into_iter().flat_map(|engine| reaches.iter().map(move |&reach| (engine, reach))).collect()
}

fn written(numbers: &[u32]) -> Sheet {
    Sheet::write(numbers).expect("a sheet")
}

/// Three passes whose reductions are in line, or differ by at most c. Closing alone drops the last setting of the last pass.
#[test]
fn an_even_draft() {
    use Call::{Choose, Strike};
    let page = |reach, c| written(&[3, 3, 1800, 2000, 2200, 2, 1500, 1600, 3, 1000, 1200, 1250, reach, 0, 1, 0, 1, 2, c]);
    for (engine, reach) in engines_at(&[1, 2, 24]) {
        let even = |calls: &[Call]| last(&page(reach, 0), engine, calls);
        assert_eq!(even(&[]), Ok(vec![7, 3, 3]));
        assert_eq!(even(&[Choose(1, 1)]), Ok(vec![6, 2, 3]));
        assert_eq!(even(&[Strike(0, 1)]), Ok(vec![5, 3, 3]));
        assert_eq!(even(&[Choose(1, 1), Choose(0, 0)]), Err(14));
        assert_eq!(even(&[Choose(2, 2)]), Err(14));
        let least = |c| last(&page(reach, c), engine, &[Choose(2, 2)]);
        assert_eq!((least(49), least(50)), (Err(14), Ok(vec![3, 3, 4])));
    }
}

/// p + r may be c above 2 q or c below it, and no more. The largest settings and numbers do not wrap.
#[test]
fn differences_on_both_sides() {
    let three = |[p, q, r]: [u32; 3], c| written(&[3, 1, p, 1, q, 1, r, 24, 0, 1, 0, 1, 2, c]);
    for engine in Engine::ALL {
        let opened = |three_settings, c| last(&three(three_settings, c), engine, &[]);
        for (settings, differ) in [([9, 5, 8], 7), ([1, 5, 2], 7), ([1_000_000, 0, 0], 1_000_000), ([0, 1_000_000, 1_000_000], 1_000_000)] {
            assert_eq!((opened(settings, differ), opened(settings, differ - 1)), (Ok(vec![1; 3]), Err(14)), "{settings:?}");
        }
        assert_eq!((opened([1_000_000, 0, 1_000_000], 1_000_000), opened([0, 1_000_000, 0], 1_000_000)), (Err(14), Err(14)));
        assert_eq!(opened([1_000_000; 3], 0), Ok(vec![1; 3]));
    }
}

/// Fields of settings 0 to 2, field 0 above or equal to 1 and 3, and fields 1, 2 and 3 in line. The setting 0 of field 0 needs that of
/// field 2, which is outside at reach 1: it supports there although it is struck, and does not from reach 2 on.
#[test]
fn a_struck_setting_outside_supports() {
    let field = [3, 0, 1, 2];
    let page = |reach| written(&[&[4][..], &field.repeat(4), &[reach, 2, 0, 1, 1, 0, 0, 3, 1, 0, 1, 1, 2, 3, 0]].concat());
    for (engine, reach) in engines_at(&[1, 2, 23, 24]) {
        let first = if reach == 1 { 7 } else { 6 };
        assert_eq!(last(&page(reach), engine, &[Call::Strike(2, 0)]), Ok(vec![first, 7, 6, 7]), "reach {reach}, {engine:?}");
        assert_eq!(last(&page(reach), engine, &[]), Ok(vec![7; 4]), "reach {reach}, {engine:?}");
        assert_eq!(last(&page(reach), engine, &[Call::Choose(2, 1)]), Ok(vec![first, 7, 2, 7]), "reach {reach}, {engine:?}");
    }
}

/// The same page where field 2 has no setting 0: the triple counts at reach 1 although field 2 is outside.
#[test]
fn a_triple_counts_with_a_field_outside() {
    let page = |reach| written(&[4, 3, 0, 1, 2, 3, 0, 1, 2, 2, 1, 2, 3, 0, 1, 2, reach, 2, 0, 1, 1, 0, 0, 3, 1, 0, 1, 1, 2, 3, 0]);
    for (engine, reach) in engines_at(&[1, 2, 24]) {
        assert_eq!(last(&page(reach), engine, &[]), Ok(vec![6, 7, 3, 7]), "reach {reach}, {engine:?}");
    }
}

/// Fields {1, 2} under triples with c 0 are equal, and the last two are unequal by a rule. A test of field 0 sees it where triples lead
/// there; a field with no rule and no triple sees nothing.
#[test]
fn neighbours_by_triples_alone() {
    let page = |reach: u32, fields: u32, end: &[u32]| written(&[&[fields][..], &[2, 1, 2].repeat(fields as usize), &[reach], end].concat());
    for (engine, reach) in engines_at(&[1, 2, 24]) {
        let three = page(reach, 4, &[1, 1, 2, 3, 1, 1, 0, 1, 2, 0]);
        let opened = |sheet, selected| answer(sheet, engine, &[Call::Open(selected)]);
        assert_eq!((opened(&three, 0b0001), opened(&three, 0b1000)), (Err(14), Ok(vec![3; 4])));
        let five = page(reach, 5, &[1, 3, 4, 3, 1, 2, 0, 1, 2, 0, 2, 3, 4, 0]);
        assert_eq!(opened(&five, 0b00001), if reach == 1 { Ok(vec![3; 5]) } else { Err(14) }, "reach {reach}, {engine:?}");
    }
}

/// What reading and writing answer to fields of one setting and these numbers after the reach; the same for both.
fn answers(fields: usize, end: &[u32]) -> Result<(), Refusal> {
    let numbers = [&[fields as u32][..], &[1, 5].repeat(fields), &[24], end].concat();
    let bytes = Sheet::from_bytes(solver::reading::groups(&numbers));
    let (read, written) = (bytes.read(), Sheet::write(&numbers));
    assert_eq!(read.as_ref().err(), written.as_ref().err(), "{end:?}");
    assert!(read.is_err() || read == Ok(numbers) && written == Ok(bytes), "{end:?}");
    read.map(|_| ())
}

#[test]
fn read_and_written() {
    use Refusal::{EndsInside, OutOfOrder, OutOfRange, Surplus};
    let triples = [0, 2, 0, 1, 2, 1_000_000, 0, 1, 3, 0];
    assert_eq!((answers(4, &triples[..1]), answers(4, &triples)), (Ok(()), Ok(())));
    assert!((2..10).all(|length| answers(4, &triples[..length]) == Err(EndsInside)));
    assert_eq!(answers(4, &[&triples[..], &[0]].concat()), Err(Surplus));
    let with = |at: usize, number: u32| answers(4, &[&triples[..at], &[number], &triples[at + 1..]].concat());
    assert!([(1, 0), (1, 33), (2, 4), (3, 4), (4, 4), (5, 1_000_001)].iter().all(|&(at, number)| with(at, number) == Err(OutOfRange)));
    assert!([(2, 1), (2, 3), (3, 0), (4, 1), (4, 0), (8, 2), (8, 1)].iter().all(|&(at, number)| with(at, number) == Err(OutOfOrder)));
    assert_eq!(answers(4, &[0, 0]), Err(OutOfRange));
    let falling = [0, 2, 1, 2, 3, 0, 0, 1, 2, 0];
    assert_eq!([8, 9, 10].map(|length| answers(4, &falling[..length])), [Err(EndsInside), Err(OutOfOrder), Err(OutOfOrder)]);
    assert_eq!((answers(4, &[0, 2, 1, 2, 3, 0, 0, 4]), answers(4, &[0, 2, 1, 2, 3, 0, 0, 1, 4])), (Err(OutOfRange), Err(OutOfRange)));
}
