//! What is said of selections, on random sheets with every mask, and with thinned start sets.

mod hard;
mod small;

use hard::sheets;
use small::settings_of;
use solver::network::includes;
use solver::{Network, Set, Sheet};

/// The offers before fields were selected: the largest subset in which every setting passes its test.
fn former_offers(network: &Network, mut set: Set) -> Set {
    loop {
        let failing: Vec<(usize, usize)> = settings_of(&set).into_iter().filter(|&(f, v)| !network.passes(&set, f, v)).collect();
        if failing.is_empty() {
            return set;
        }
        failing.into_iter().for_each(|(f, v)| set[f] &= !(1 << v));
    }
}

fn closing(network: &Network, set: Set) -> Set {
    let every: Vec<usize> = (0..network.fields()).collect();
    network.closing(set, &every)
}

/// Every complete set-up in a set: a position for each field.
fn complete(sheet: &Sheet, set: &Set) -> Vec<Vec<usize>> {
    let mut all = vec![vec![]];
    for domain in &set[..sheet.fields()] {
        let with = |setup: &Vec<usize>| (0..32).filter(|v| domain >> v & 1 == 1).map(|v| [&setup[..], &[v]].concat()).collect::<Vec<_>>();
        all = all.iter().flat_map(with).collect();
    }
    all.retain(|setup| sheet.complete(setup));
    all
}

#[test]
fn all_fields_selected_gives_the_former_offers() {
    let mut kept = 0;
    for (sheet, network, set) in sheets(1, 20_000, 3) {
        let offers = network.offers(set, sheet.all_fields());
        assert_eq!(offers, former_offers(&network, set), "{sheet:?} {set:?}");
        kept += usize::from(!network.wiped_out(&offers) && offers != set);
    }
    assert!(kept > 1000, "{kept}");
}

/// Every pair of selections, one of which includes the other.
#[test]
fn a_selection_that_includes_another_offers_no_more() {
    let (mut fewer, mut same) = (0, 0);
    for (sheet, network, set) in sheets(2, 3000, 3) {
        let all = sheet.all_fields();
        let offers: Vec<Set> = (0..=all).map(|selected| network.offers(set, selected)).collect();
        for (larger, smaller) in (0..=all).flat_map(|larger| (0..=all).map(move |smaller| (larger, smaller))) {
            if larger & smaller != smaller {
                continue;
            }
            let [less, more] = [larger, smaller].map(|selected| &offers[selected as usize]);
            assert!(includes(more, less), "{sheet:?} {set:?} {larger:b} {smaller:b}");
            if larger != smaller {
                *(if less == more { &mut same } else { &mut fewer }) += 1;
            }
        }
    }
    assert!(fewer > 5000 && same > 5000, "{fewer} {same}");
}

/// The offers are closed, nothing is offered that closing removes, and no field selected would leave what closing leaves. Some selections
/// offer fewer settings than closing leaves and more than all fields selected.
#[test]
fn offers_are_between_closing_and_all_fields_selected() {
    let mut between = 0;
    for (sheet, network, set) in sheets(3, 5000, 3) {
        let closed = closing(&network, set);
        let least = network.offers(set, sheet.all_fields());
        assert_eq!(network.offers(set, 0), closed, "{sheet:?} {set:?}");
        for selected in 1..=sheet.all_fields() {
            let offers = network.offers(set, selected);
            assert!(includes(&closed, &offers) && includes(&offers, &least), "{sheet:?} {set:?} {selected:b}");
            assert_eq!(closing(&network, offers), offers, "{sheet:?} {set:?} {selected:b}");
            assert_eq!(network.offers(offers, selected), offers, "{sheet:?} {set:?} {selected:b}");
            between += usize::from(offers != closed && offers != least);
        }
    }
    assert!(between > 500, "{between}");
}

/// Every complete set-up of the start set is in the offers, whatever is selected.
#[test]
fn complete_set_ups_are_offered() {
    let mut setups = 0;
    for (sheet, network, set) in sheets(4, 3000, 3) {
        let all = complete(&sheet, &set);
        for selected in 1..=sheet.all_fields() {
            let offers = network.offers(set, selected);
            assert!(all.iter().flat_map(|setup| setup.iter().enumerate()).all(|(f, v)| offers[f] >> v & 1 == 1), "{sheet:?} {set:?}");
        }
        setups += all.len();
    }
    assert!(setups > 1000, "{setups}");
}
