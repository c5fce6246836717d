//! The sample page of three passes: its bytes are those of its list of numbers, and its offers are those of the definitions.

use belaykeel::{Engine, Offers, Order, Refusal, Selection, Session, Sheet, WorkSpaces};
use harness::methods::sac2;
use harness::text::numbers;
use solver::reading::{groups, sheet};
use solver::{Network, Set};
use std::fmt::Write;
use std::fs;

fn sample(ending: &str) -> Vec<u8> {
    fs::read(format!("{}/../../samples/three-pass.{ending}", env!("CARGO_MANIFEST_DIR"))).expect("a sample")
}

/// The offers of an open.
fn opened(sheet: &Sheet, engine: Engine, selection: &Selection) -> Offers {
    let mut spaces = WorkSpaces::new();
    Session::default().open(sheet, engine, &Order::Rising, selection, &mut spaces).expect("the offers")
}

fn text(ending: &str) -> String {
    String::from_utf8(sample(ending)).expect("a text")
}

#[test]
fn bytes_of_the_list() {
    let list = numbers(&text("txt"));
    assert_eq!(Sheet::write(&list).expect("a sheet").as_bytes(), sample("bin"));
    assert_eq!(Sheet::from_bytes(sample("bin")).read(), Ok(list));
}

/// The masks of the roll pairs of passes 1 and 3 are those that kind 2 with c 1 allows: the page with that rule has the same offers.
#[test]
fn the_same_page_with_kind_2() {
    let list = numbers(&text("txt"));
    let place = list.windows(5).position(|part| part == [5, 7, 0, 14, 12]).expect("the masks");
    let list = [&list[..place], &[5, 7, 2, 1], &list[place + 5..]].concat();
    assert_eq!(Sheet::write(&list), Err(Refusal::Retired));
    let sheets = [Sheet::from_bytes(sample("bin")), Sheet::from_bytes(groups(&list))];
    for engine in Engine::ALL {
        assert_eq!(opened(&sheets[0], engine, &Selection::All), opened(&sheets[1], engine, &Selection::All));
    }
}

/// Closing the page takes settings from five fields, and the tests of single settings take more from four.
#[test]
fn offers_of_the_definitions() {
    let page = sheet(&sample("bin")).expect("a sheet");
    let network = Network::of(&page);
    let every: Vec<usize> = (0..page.fields()).collect();
    let [closed, offers] = [network.closing(network.full, &every), network.offers(network.full, page.all_fields())];
    for engine in Engine::ALL {
        assert_eq!(opened(&Sheet::from_bytes(sample("bin")), engine, &Selection::All).masks(), &offers[..page.fields()]);
    }
    let fewer = |less: &Set, more: &Set| every.iter().filter(|&&field| less[field].count_ones() < more[field].count_ones()).count();
    assert_eq!((fewer(&closed, &network.full), fewer(&offers, &closed)), (5, 4));
    let mut printed = String::new();
    for (field, settings) in page.settings.iter().enumerate() {
        let offered = settings.iter().enumerate().filter(|(position, _)| offers[field] >> position & 1 == 1);
        let line: String = offered.map(|(_, setting)| format!(" {setting}")).collect();
        writeln!(printed, "{field}:{line}").expect("a line");
    }
    assert_eq!(printed, text("out"));
}

/// With the roll pair of pass 3 alone selected the page is that with every field selected, after 5 tests of settings; SAC-1 makes 50. With
/// any other field alone it offers more.
#[test]
fn one_field_selected() {
    let page = sheet(&sample("bin")).expect("a sheet");
    let network = Network::of(&page);
    let every: Vec<usize> = (0..page.fields()).collect();
    let all = network.offers(network.full, page.all_fields());
    let fields: Vec<u8> = (0..8).collect();
    let tests = |selected: &[u8]| sac2(&network, network.closing(network.full, &every), selected, |_, _| false).tests;
    assert_eq!((tests(&[7]), tests(&fields)), (5, 50));
    for field in 0..8 {
        let offers = network.offers(network.full, 1 << field);
        assert_eq!(offers == all, field == 7);
        for engine in Engine::ALL {
            let opened = opened(&Sheet::from_bytes(sample("bin")), engine, &Selection::Fields(vec![field]));
            assert_eq!(opened.masks(), &offers[..page.fields()]);
        }
    }
}
