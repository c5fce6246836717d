//! Request 5 of 02: AC-4 in the order of its paper closes sheets without triples as the solver does, over every field, from cut sets over
//! neighbourhoods, and after removals. The settings that entered the list are those that closing removes, each entered once, and the counts
//! are right at the end.

mod figure2;
mod hard;
mod near;
mod small;

use figure2::{Ac4, Setting};
use hard::sheets;
use near::near;
use random::Random;
use small::settings_of;
use solver::{Network, Set, Sheet};
use std::collections::BTreeSet;

fn every(sheet: &Sheet) -> Vec<usize> {
    (0..sheet.fields()).collect()
}

/// The settings of a set that another does not have.
fn without(set: &Set, other: &Set) -> BTreeSet<Setting> {
    settings_of(set).into_iter().filter(|&(f, v)| other[f] >> v & 1 == 0).collect()
}

/// Empties the list. What entered it, with what was on it, is what `before` has and the closed set has not. One that ends as soon as a
/// field is empty is wiped out where the solver says so, and only there.
fn close(ac4: &mut Ac4, network: &Network, before: &Set, closed: &Set, within: &[usize]) {
    let mut ended_early = ac4.clone();
    ended_early.prune_until_wiped_out(within);
    ac4.prune_ac(within);
    assert_eq!(ac4.set(), *closed, "{ac4:?}");
    let entered: BTreeSet<Setting> = ac4.entered.iter().copied().collect();
    assert_eq!(entered, without(before, closed), "{ac4:?}");
    assert_eq!(entered.len(), ac4.entered.len(), "a setting entered twice: {ac4:?}");
    assert!(ac4.counts_are_right(), "{ac4:?}");
    assert_eq!([ac4.wiped_out(), ended_early.wiped_out()], [network.wiped_out(closed); 2]);
}

/// AC-4 after its start: counted, and closed over every field.
fn started<'a>(sheet: &'a Sheet, network: &Network, set: &Set) -> Ac4<'a> {
    let mut ac4 = Ac4::new(sheet, set);
    ac4.initialize_ac();
    close(&mut ac4, network, set, &network.closing(*set, &every(sheet)), &every(sheet));
    ac4
}

/// Closes a copy from one setting of a field over these fields.
fn tested<'a>(ac4: &Ac4<'a>, network: &Network, (f, v): Setting, within: &[usize]) -> Ac4<'a> {
    let before = ac4.set();
    let mut cut = before;
    cut[f] = 1 << v;
    let mut copy = ac4.cut((f, v));
    assert_eq!(copy.entered, without(&before, &cut).into_iter().collect::<Vec<Setting>>());
    close(&mut copy, network, &before, &network.closing(cut, within), within);
    copy
}

/// Removes a setting from D and closes again, over every field.
fn removed(ac4: &mut Ac4, sheet: &Sheet, network: &Network, (f, v): Setting) {
    let before = ac4.set();
    let mut cut = before;
    cut[f] &= !(1 << v);
    ac4.remove((f, v));
    close(ac4, network, &before, &network.closing(cut, &every(sheet)), &every(sheet));
}

#[test]
fn start_sets() {
    let (mut wiped, mut narrowed) = (0, 0);
    for (sheet, network, set) in sheets(1, 5000, 0) {
        let ac4 = started(&sheet, &network, &set);
        wiped += usize::from(ac4.wiped_out());
        narrowed += usize::from(!ac4.wiped_out() && ac4.set() != set);
    }
    assert!(wiped > 500 && narrowed > 500, "{wiped} {narrowed}");
}

/// Over the neighbourhood, where the solver's test is compared too, and over any fields with the cut one.
#[test]
fn cut_sets() {
    let mut random = Random(2);
    let (mut failed, mut narrowed, mut others) = (0, 0, 0);
    for (sheet, network, set) in sheets(2, 1000, 0) {
        let ac4 = started(&sheet, &network, &set);
        if ac4.wiped_out() {
            continue;
        }
        for (f, v) in settings_of(&ac4.set()) {
            let within = near(&sheet, f);
            let copy = tested(&ac4, &network, (f, v), &within);
            assert_eq!(!copy.wiped_out(), network.passes(&ac4.set(), f, v));
            failed += usize::from(copy.wiped_out());
            narrowed += usize::from(!copy.wiped_out() && copy.entered.iter().any(|&(g, _)| g != f));
            let any: Vec<usize> = (0..sheet.fields()).filter(|&g| g == f || random.one_in(2)).collect();
            others += usize::from(any != within);
            tested(&ac4, &network, (f, v), &any);
        }
    }
    assert!(failed > 500 && narrowed > 500 && others > 500, "{failed} {narrowed} {others}");
}

/// One after the other, with the counts that the last one left, until a field is empty.
#[test]
fn removals() {
    let mut random = Random(3);
    let (mut alone, mut followed, mut wiped) = (0, 0, 0);
    for (sheet, network, set) in sheets(3, 1000, 0) {
        let mut ac4 = started(&sheet, &network, &set);
        while !ac4.wiped_out() {
            let setting = random.pick(&settings_of(&ac4.set()));
            removed(&mut ac4, &sheet, &network, setting);
            *(if ac4.entered.len() == 1 { &mut alone } else { &mut followed }) += 1;
            wiped += usize::from(ac4.wiped_out());
        }
    }
    assert!(alone > 500 && followed > 500 && wiped > 500, "{alone} {followed} {wiped}");
}

/// SAC-1 with tests on copies and removals from D leaves the offers.
#[test]
fn offers() {
    let mut random = Random(4);
    let (mut wiped, mut tested_out) = (0, 0);
    for (sheet, network, set) in sheets(4, 1000, 0) {
        let selected = random.from(1, sheet.all_fields() as usize) as u32;
        let mut ac4 = started(&sheet, &network, &set);
        let mut last = None;
        while !ac4.wiped_out() && last != Some(ac4.set()) {
            last = Some(ac4.set());
            for (f, v) in settings_of(&ac4.set()).into_iter().filter(|(f, _)| selected >> f & 1 == 1) {
                let there = !ac4.wiped_out() && ac4.set()[f] >> v & 1 == 1;
                if there && tested(&ac4, &network, (f, v), &near(&sheet, f)).wiped_out() {
                    removed(&mut ac4, &sheet, &network, (f, v));
                    tested_out += 1;
                }
            }
        }
        let offers = network.offers(set, selected);
        assert!(if ac4.wiped_out() { network.wiped_out(&offers) } else { ac4.set() == offers }, "{sheet:?} {set:?} {selected:b}");
        wiped += usize::from(ac4.wiped_out());
    }
    assert!(wiped > 100 && tested_out > 100, "{wiped} {tested_out}");
}
