//! The solver against the definitions taken word by word: every subset of a small set is looked at, from random start sets.

mod enumeration;
mod near;
mod small;
mod starts;

use enumeration::{closed_under, every_setting, subsets, Definitions};
use small::settings_of;
use solver::network::includes;
use solver::{Network, Rule, Sheet, Triple};
use starts::starts;

/// Every pair and every row of three settings below 8, with every c below 8. The enumeration takes what is allowed from the sheet.
#[test]
fn allowed_is_as_defined() {
    let numbers: Vec<u32> = (0..8).map(|v| 37 * v * v % 256).collect();
    let sheet = Sheet { settings: vec![(0..8).collect(); 3], reach: 24, rules: vec![], triples: vec![] };
    for code in 0..1 << 12 {
        let [p, q, r, c] = [0, 3, 6, 9].map(|place| code >> place & 7);
        let by_kind = |kind| sheet.allows(&Rule { i: 0, j: 1, kind, numbers: vec![c as u32] }, p as usize, q as usize);
        let by_mask = sheet.allows(&Rule { i: 0, j: 1, kind: 0, numbers: numbers.clone() }, p as usize, q as usize);
        let by_triple = sheet.allows_three(&Triple { i: 0, j: 1, k: 2, c: c as u32 }, [p, q, r].map(|position| position as usize));
        let distance = i32::abs(p - q);
        let defined = [p >= q + c, q >= p + c, distance >= c, distance <= c, i32::abs(distance - c) <= 2];
        assert_eq!([1, 2, 3, 4, 5].map(by_kind), defined, "{p} {q} {c}");
        assert_eq!(by_mask, numbers[p as usize] / (1 << q) % 2 == 1, "{p} {q}");
        assert_eq!(by_triple, i32::abs(p + r - 2 * q) <= c, "{p} {q} {r} {c}");
    }
}

#[test]
fn closing_is_the_largest_closed_subset() {
    let (mut thinned, mut emptied, mut narrowed) = (0, 0, 0);
    for (sheet, set) in starts(1, 1000) {
        let network = Network::of(&sheet);
        assert_eq!(network.full, every_setting(&sheet), "{sheet:?}");
        let every: Vec<usize> = (0..sheet.fields()).collect();
        let closed = network.closing(set, &every);
        assert_eq!(closed, Definitions::of(&sheet).closing(&set), "{sheet:?} {set:?}");
        thinned += usize::from(set != network.full);
        emptied += usize::from(network.wiped_out(&set));
        narrowed += usize::from(closed != set && !network.wiped_out(&closed));
    }
    assert!(thinned > 500 && emptied > 30 && narrowed > 100, "{thinned} {emptied} {narrowed}");
}

/// Some tests fail in a thinned set and pass in the full one. Triples with one, two or three fields in the neighbourhood exclude settings,
/// and some tests depend on whether a field outside may take struck settings.
#[test]
fn tests_are_as_defined() {
    let (mut thinned, mut fail_here, mut by_struck, mut exclude) = (0, 0, 0, [0; 4]);
    for (sheet, set) in starts(2, 1000) {
        let network = Network::of(&sheet);
        let definitions = Definitions::of(&sheet);
        let without_struck = Definitions::with_outside(&sheet, &set);
        for (f, v) in settings_of(&set) {
            let left = definitions.left(&set, f, v);
            assert_eq!(network.left(&set, f, v), left, "{sheet:?} {set:?} {f} {v}");
            thinned += usize::from(set != network.full);
            fail_here += usize::from(left.is_none() && definitions.left(&network.full, f, v).is_some());
            by_struck += usize::from(left != without_struck.left(&set, f, v));
            let near = &definitions.near[f];
            for triple in sheet.triples.iter().filter(|triple| !closed_under(&sheet, triple, &set, near, &network.full)) {
                exclude[triple.fields().iter().filter(|g| near.contains(g)).count()] += 1;
            }
        }
    }
    assert!(thinned > 1000 && fail_here > 300 && by_struck > 100, "{thinned} {fail_here} {by_struck}");
    assert!(exclude[1..].iter().all(|&count| count > 50), "{exclude:?}");
}

/// Request 2 of 02: in every smaller set that has all that a passed test left, the test passes and leaves just that. In others it may fail,
/// or leave less.
#[test]
fn what_a_test_left_is_left_again() {
    let (mut kept, mut less, mut failed) = (0, 0, 0);
    for (sheet, set) in starts(4, 200) {
        let network = Network::of(&sheet);
        let definitions = Definitions::of(&sheet);
        for (f, v) in settings_of(&set) {
            let Some(left) = definitions.left(&set, f, v) else { continue };
            for subset in subsets(&set).filter(|subset| subset[f] >> v & 1 == 1 && *subset != set) {
                let again = definitions.left(&subset, f, v);
                assert_eq!(network.left(&subset, f, v), again, "{sheet:?} {set:?} {f} {v} {subset:?}");
                let there = includes(&subset, &left);
                assert!(!there || again == Some(left), "{sheet:?} {set:?} {f} {v} {subset:?}");
                kept += usize::from(there);
                less += usize::from(again.is_some_and(|again| again != left));
                failed += usize::from(again.is_none());
            }
        }
    }
    assert!(kept > 1000 && less > 1000 && failed > 1000, "{kept} {less} {failed}");
}

/// With every field selected, the offers are the largest subset in which every setting passes its test. Some settings fail only after
/// others have failed.
#[test]
fn offers_are_the_largest_passing_subset() {
    let (mut thinned, mut kept, mut more_rounds, mut by_struck) = (0, 0, 0, 0);
    for (sheet, set) in starts(3, 1200) {
        let network = Network::of(&sheet);
        let definitions = Definitions::of(&sheet);
        let offers = network.offers(set, sheet.all_fields());
        assert_eq!(offers, definitions.offers(&set), "{sheet:?} {set:?}");
        let wiped_out = offers[..sheet.fields()].contains(&0);
        assert_eq!(network.wiped_out(&offers), wiped_out, "{sheet:?} {set:?}");
        thinned += usize::from(set != network.full);
        kept += usize::from(!wiped_out);
        more_rounds += usize::from(offers != definitions.tested_once(&set));
        let without_struck = Definitions::with_outside(&sheet, &set).offers_of_selections(&set);
        by_struck += usize::from(offers != without_struck(sheet.all_fields()));
    }
    assert!(thinned > 500 && kept > 500, "{thinned} {kept}");
    assert!(more_rounds > 50 && by_struck > 50, "{more_rounds} {by_struck}");
}

/// With any fields selected, the largest closed subset in which every setting of a selected field passes its test. Some selections offer
/// fewer settings than closing leaves, some more than all fields selected, and some both.
#[test]
fn offers_of_a_selection_are_the_largest_subset() {
    let (mut thinned, mut kept, mut by_struck) = (0, 0, 0);
    let (mut fewer, mut more, mut between) = (0, 0, 0);
    for (sheet, set) in starts(5, 1000) {
        let network = Network::of(&sheet);
        let definitions = Definitions::of(&sheet);
        let defined = definitions.offers_of_selections(&set);
        let without_struck = Definitions::with_outside(&sheet, &set).offers_of_selections(&set);
        let (closed, least) = (definitions.closing(&set), defined(sheet.all_fields()));
        for selected in 1..=sheet.all_fields() {
            let offers = network.offers(set, selected);
            assert_eq!(offers, defined(selected), "{sheet:?} {set:?} {selected:b}");
            thinned += usize::from(set != network.full);
            kept += usize::from(!network.wiped_out(&offers));
            fewer += usize::from(offers != closed);
            more += usize::from(offers != least);
            between += usize::from(offers != closed && offers != least);
            by_struck += usize::from(offers != without_struck(selected));
        }
    }
    assert!(thinned > 1000 && kept > 1000 && by_struck > 100, "{thinned} {kept} {by_struck}");
    assert!(fewer > 300 && more > 100 && between > 100, "{fewer} {more} {between}");
}
