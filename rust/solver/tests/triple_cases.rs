//! Request 12 of 02: worked cases of sheets with triples, and what holds of their offers.

mod hard;
mod small;

use hard::sheets;
use small::settings_of;
use solver::network::includes;
use solver::reading::{groups, read, sheet, write};
use solver::{Network, Set, Sheet, Triple};

/// What reading and writing answer to three fields, or four, and these numbers after the reach: 0 or the refusal, the same for both.
fn answers(fields: usize, end: &[u32]) -> u32 {
    let numbers = [&[fields as u32][..], &[1, 5].repeat(fields), &[24], end].concat();
    let bytes = groups(&numbers);
    let (read, written) = (read(&bytes, 99), write(&numbers, 99));
    assert_eq!(read.as_ref().err(), written.as_ref().err(), "{end:?}");
    assert!(read.is_err() || read == Ok(numbers) && written == Ok(bytes), "{end:?}");
    read.err().unwrap_or(0)
}

#[test]
fn counts_ranges_and_ends() {
    assert_eq!(answers(3, &[0]), 0);
    assert_eq!((answers(3, &[0, 0]), answers(3, &[0, 33]), answers(3, &[0, u32::MAX >> 4])), (3, 3, 3));
    for length in 1..5 {
        assert_eq!(answers(3, &[0, 1, 0, 1, 2, 9][..1 + length]), 1);
    }
    assert_eq!(answers(3, &[0, 1, 0, 1, 2, 9]), 0);
    assert_eq!(answers(3, &[0, 1, 0, 1, 2, 9, 0]), 5);
    assert_eq!(answers(3, &[0, 2, 0, 1, 2, 9]), 1);
    assert_eq!((answers(3, &[0, 1, 3]), answers(3, &[0, 1, 0, 3]), answers(3, &[0, 1, 0, 1, 3])), (3, 3, 3));
    assert_eq!((answers(3, &[0, 1, 0, 1, 2, 1_000_000]), answers(3, &[0, 1, 0, 1, 2, 1_000_001])), (0, 3));
    assert_eq!(answers(3, &[1, 0, 1, 1, 0, 1, 0, 1, 2, 9]), 0);
    assert_eq!(answers(3, &[1, 0, 1, 1, 0, 0]), 3);
}

/// i below j is judged at j; j below k and the order of the triples at k.
#[test]
fn order() {
    assert_eq!((answers(3, &[0, 1, 1, 1]), answers(3, &[0, 1, 2, 1])), (4, 4));
    assert_eq!((answers(3, &[0, 1, 0, 1, 1]), answers(3, &[0, 1, 0, 2, 1])), (4, 4));
    assert_eq!((answers(2, &[0, 1, 0, 1, 1]), answers(1, &[0, 1, 0, 0])), (4, 4));
    for (first, second) in [([0, 1, 2], [0, 1, 2]), ([0, 1, 3], [0, 1, 2]), ([0, 2, 3], [0, 1, 3]), ([1, 2, 3], [0, 2, 3])] {
        let list = [&[0, 2][..], &first, &[9], &second].concat();
        assert_eq!([6, 7, 8, 9].map(|length| answers(4, &list[..length])), [1, 1, 1, 4], "{first:?} {second:?}");
        assert_eq!(answers(4, &[&list[..8], &[4]].concat()), 3);
    }
    let every = [0, 4, 0, 1, 2, 9, 0, 1, 3, 0, 0, 2, 3, 1, 1, 2, 3, 7];
    assert_eq!(answers(4, &every), 0);
    let triples = [([0, 1, 2], 9), ([0, 1, 3], 0), ([0, 2, 3], 1), ([1, 2, 3], 7)].map(|([i, j, k], c)| Triple { i, j, k, c });
    assert_eq!(sheet(&groups(&[&[4, 1, 5, 1, 5, 1, 5, 1, 5, 24][..], &every].concat())).expect("a sheet").triples, triples);
}

/// The offers of the start set with these masks.
fn offers(sheet: &Sheet, start: &[u32], selected: u32) -> Vec<u32> {
    let network = Network::of(sheet);
    let mut set = network.full;
    set.iter_mut().zip(start).for_each(|(domain, start)| *domain &= start);
    network.offers(set, selected)[..sheet.fields()].to_vec()
}

/// Three passes with reductions in line: closing alone narrows them.
#[test]
fn an_even_draft() {
    let page = |c| {
        let settings = vec![vec![1800, 2000, 2200], vec![1500, 1600], vec![1000, 1200, 1250]];
        Sheet { settings, reach: 24, rules: vec![], triples: vec![Triple { i: 0, j: 1, k: 2, c }] }
    };
    let network = Network::of(&page(0));
    assert_eq!(network.closing(network.full, &[0, 1, 2])[..3], [7, 3, 3]);
    for reach in [1, 2, 24] {
        let page = |c| Sheet { reach, ..page(c) };
        assert_eq!(offers(&page(0), &[7, 3, 7], 7), [7, 3, 3]);
        assert_eq!(offers(&page(0), &[7, 2, 7], 7), [6, 2, 3]);
        assert_eq!(offers(&page(0), &[5, 3, 7], 7), [5, 3, 3]);
        assert_eq!((offers(&page(49), &[7, 3, 4], 7), offers(&page(50), &[7, 3, 4], 7)), (vec![0, 0, 0], vec![3, 3, 4]));
    }
}

/// The sum may be above or below twice the middle by c, and by no more; the largest settings and numbers do not wrap.
#[test]
fn differences_on_both_sides() {
    let allows = |[p, q, r]: [u32; 3], c| {
        let settings = vec![vec![p], vec![q], vec![r]];
        let sheet = Sheet { settings, reach: 24, rules: vec![], triples: vec![] };
        sheet.allows_three(&Triple { i: 0, j: 1, k: 2, c }, [0; 3])
    };
    for (three, differ) in [([9, 5, 8], 7), ([1, 5, 2], 7), ([1_000_000, 0, 0], 1_000_000), ([0, 1_000_000, 1_000_000], 1_000_000)] {
        assert_eq!((allows(three, differ), allows(three, differ - 1)), (true, false), "{three:?}");
    }
    assert!(!allows([1_000_000, 0, 1_000_000], 1_000_000) && !allows([0, 1_000_000, 0], 1_000_000));
    assert!(allows([1_000_000; 3], 0));
}

/// Fields of settings 0 to 2, field 0 above or equal to 1 and 3, and fields 1, 2 and 3 in line. The setting 0 of field 0 needs that of
/// field 2, which is outside at reach 1: it supports there although it is struck. Where it is not on the sheet it does not.
#[test]
fn a_triple_with_a_field_outside() {
    let page = |reach: u32, third: &[u32]| {
        let fields = [&[3, 0, 1, 2, 3, 0, 1, 2][..], third, &[3, 0, 1, 2]].concat();
        let numbers = [&[4][..], &fields, &[reach, 2, 0, 1, 1, 0, 0, 3, 1, 0, 1, 1, 2, 3, 0]].concat();
        sheet(&groups(&numbers)).expect("a sheet")
    };
    let all: &[u32] = &[3, 0, 1, 2];
    assert_eq!(offers(&page(1, all), &[7, 7, 6, 7], 15), [7, 7, 6, 7]);
    assert_eq!(offers(&page(2, all), &[7, 7, 6, 7], 15), [6, 7, 6, 7]);
    assert_eq!(offers(&page(24, all), &[7, 7, 6, 7], 15), [6, 7, 6, 7]);
    assert_eq!(offers(&page(24, all), &[7, 7, 7, 7], 15), [7, 7, 7, 7]);
    assert_eq!(offers(&page(1, &[2, 1, 2]), &[7, 7, 3, 7], 15), [6, 7, 3, 7]);
}

/// Fields {1, 2} under triples with c 0 are equal, and the last two are unequal by a rule. A test of field 0 sees it where triples lead
/// there.
#[test]
fn neighbours_by_triples_alone() {
    let page = |reach: u32, fields: usize, end: &[u32]| {
        let numbers = [&[fields as u32][..], &[2, 1, 2].repeat(fields), &[reach], end].concat();
        sheet(&groups(&numbers)).expect("a sheet")
    };
    for reach in [1, 2, 24] {
        let three = page(reach, 4, &[1, 1, 2, 3, 1, 1, 0, 1, 2, 0]);
        assert_eq!((offers(&three, &[3; 4], 1), offers(&three, &[3; 4], 8)), (vec![0, 0, 0, 3], vec![3; 4]));
        let five = page(reach, 5, &[1, 3, 4, 3, 1, 2, 0, 1, 2, 0, 2, 3, 4, 0]);
        assert_eq!(offers(&five, &[3; 5], 1), if reach == 1 { [3; 5] } else { [0; 5] });
    }
}

#[test]
fn a_larger_reach_offers_no_more() {
    let (mut fewer, mut with_triples) = (0, 0);
    for (sheet, _, set) in sheets(5, 12_000, 3) {
        let network = |reach: u32| Network::of(&Sheet { reach, ..sheet.clone() });
        let offers: Vec<Set> = [1, 2, 3, 24].map(|reach| network(reach).offers(set, sheet.all_fields())).into();
        assert!(offers.windows(2).all(|pair| includes(&pair[0], &pair[1])), "{sheet:?} {set:?}");
        fewer += usize::from(offers[0] != offers[3]);
        with_triples += usize::from(offers[0] != offers[3] && !sheet.triples.is_empty());
    }
    assert!(fewer > 100 && with_triples > 100, "{fewer} {with_triples}");
}

#[test]
fn one_triple_more_offers_no_more() {
    let (mut fewer, mut same) = (0, 0);
    for (sheet, network, set) in sheets(6, 4000, 3) {
        let mut without = sheet.clone();
        if without.triples.pop().is_none() {
            continue;
        }
        let [less, more] = [&network, &Network::of(&without)].map(|network| network.offers(set, sheet.all_fields()));
        assert!(includes(&more, &less), "{sheet:?} {set:?}");
        fewer += settings_of(&more).len() - settings_of(&less).len();
        same += settings_of(&less).len();
    }
    assert!(fewer > 1000 && same > 1000, "{fewer} {same}");
}
