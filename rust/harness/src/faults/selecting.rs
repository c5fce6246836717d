//! Faults in using, judging, keeping and setting the mask of selected fields.

use super::counting::positions;
use super::making::{answer, sheet};
use super::offers::{closing_few, failing};
use super::page::{every, Page};
use super::Fault;
use super::How::{Accepted, Instead, Number, Offers, Refused};
use crate::library::{Answer, Lent, Library};
use crate::linked::Linked;
use public_calls::Call;
use solver::{Network, Set};

pub static ROWS: &[Fault] = &[
    Fault {
        name: "tests_all",
        promise: "5.6",
        says: "Fields that are not selected are tested too.",
        how: Offers(|page| page.offers(page.sheet.all_fields())),
    },
    Fault {
        name: "tests_none",
        promise: "5.6",
        says: "Nothing is tested where not every field is selected.",
        how: Offers(|page| (page.selected() != page.sheet.all_fields()).then_some(page.start)),
    },
    Fault {
        name: "tests_none_of_all",
        promise: "5.8",
        says: "Nothing is tested where every field is selected.",
        how: Offers(|page| (page.selected() == page.sheet.all_fields()).then_some(page.start)),
    },
    Fault {
        name: "tests_among_selected",
        promise: "5.6",
        says: "A test does not see the rules of fields that are not selected.",
        how: Offers(|page| Some(testing_among(page))),
    },
    Fault {
        name: "closes_selected",
        promise: "5.6",
        says: "After a removal only the selected fields are closed again.",
        how: Offers(|page| {
            Some(closing_few(&page.network, page.start, &page.visited, &positions(page.selected()).collect::<Vec<usize>>()))
        }),
    },
    Fault {
        name: "closes_nearby",
        promise: "5.6",
        says: "After a removal only the selected fields and those one rule away from one are closed again.",
        how: Offers(|page| Some(closing_few(&page.network, page.start, &page.visited, &nearby(page)))),
    },
    Fault {
        name: "puts_back_all",
        promise: "6.4",
        says: "Once a setting was removed, the queue puts back every field, selected or not.",
        how: Offers(puts_back_all),
    },
    Fault {
        name: "show_tests_all",
        promise: "7.3",
        says: "Show tests every field.",
        how: Offers(|page| if *page.call == Call::Show { page.offers(page.sheet.all_fields()) } else { None }),
    },
    Fault {
        name: "deciding_tests_all",
        promise: "7.3",
        says: "Choose and strike test every field.",
        how: Offers(|page| match page.call {
            Call::Choose(..) | Call::Strike(..) => page.offers(page.sheet.all_fields()),
            _ => None,
        }),
    },
    Fault {
        name: "coil_on_selects_all",
        promise: "7.5",
        says: "Coil-on selects every field.",
        how: Accepted(|_, call, lent| {
            if *call == Call::CoilOn {
                lent.session.selected = sheet(lent).all_fields();
            }
        }),
    },
    Fault {
        name: "open_leaves_mask",
        promise: "7.4",
        says: "Open leaves the mask of a session that has a good one.",
        how: Accepted(|before, call, lent| {
            if matches!(call, Call::Open(_)) && sheet(lent).selects(before.selected) {
                lent.session.selected = before.selected;
            }
        }),
    },
    Fault {
        name: "refused_open_sets_mask",
        promise: "7.5",
        says: "An open that 7, 9 or 14 refuses sets the mask.",
        how: Refused(|number, call, lent| {
            if let (7 | 9 | 14, Call::Open(selected)) = (number, call) {
                lent.session.selected = *selected;
            }
        }),
    },
    Fault {
        name: "selection_after_engine",
        promise: "9.2",
        says: "18 is tried after 7.",
        how: Number(|number, _, lent| if number == 18 && !(1..=3).contains(&lent.engine) { 7 } else { number }),
    },
    Fault {
        name: "empty_taken",
        promise: "9.1",
        says: "Open takes an empty mask for every field.",
        how: Instead(18, |call, lent| match call {
            Call::Open(0) => Linked.call(&Call::Open(sheet(lent).all_fields()), lent),
            _ => answer(call, 18),
        }),
    },
    Fault {
        name: "beyond_taken",
        promise: "9.1",
        says: "Open takes a mask that names a field beyond the sheet, and leaves that field out.",
        how: Instead(18, |call, lent| match *call {
            Call::Open(selected) if selected & sheet(lent).all_fields() != 0 => {
                Linked.call(&Call::Open(selected & sheet(lent).all_fields()), lent)
            }
            _ => answer(call, 18),
        }),
    },
    Fault {
        name: "mask_refused_by_15",
        promise: "9.1",
        says: "Open refuses a mask by 15.",
        how: Number(|number, _, _| if number == 18 { 15 } else { number }),
    },
    Fault {
        name: "empty_held",
        promise: "8.7",
        says: "A session with an empty mask is taken for well-formed.",
        how: Instead(15, |call, lent| match lent.session.selected {
            0 => with_mask(sheet(lent).all_fields(), call, lent),
            _ => answer(call, 15),
        }),
    },
    Fault {
        name: "beyond_held",
        promise: "8.7",
        says: "A session whose mask names a field beyond the sheet is taken for well-formed.",
        how: Instead(15, |call, lent| match lent.session.selected & sheet(lent).all_fields() {
            0 => answer(call, 15),
            selected => with_mask(selected, call, lent),
        }),
    },
];

/// Makes a call on a session with another mask, and puts the session's own mask back.
fn with_mask(selected: u32, call: &Call, lent: &mut Lent) -> Answer {
    let held = std::mem::replace(&mut lent.session.selected, selected);
    let answer = Linked.call(call, lent);
    lent.session.selected = held;
    answer
}

/// The selected fields, and those one rule away from one of them.
fn nearby(page: &Page) -> Vec<usize> {
    let near = |g: usize| positions(page.selected()).any(|f| f == g || page.network.joined(f, g));
    (0..page.network.fields()).filter(|&g| near(g)).collect()
}

/// Tests every field where a setting of a selected one fails.
fn puts_back_all(page: &Page) -> Option<Set> {
    let removes = page.offers(page.selected()) != Some(page.start);
    if page.engine == 3 && removes {
        page.offers(page.sheet.all_fields())
    } else {
        None
    }
}

/// Tests the selected fields until all of their settings pass, where a test sees the rules and triples of selected fields only.
fn testing_among(page: &Page) -> Set {
    let (mut set, mut seen, selected) = (page.start, page.sheet.clone(), page.selected());
    seen.rules.retain(|rule| selected >> rule.i & selected >> rule.j & 1 == 1);
    seen.triples.retain(|triple| triple.fields().iter().all(|f| selected >> f & 1 == 1));
    let seen = Network::of(&seen);
    loop {
        let before = set;
        for f in positions(selected) {
            failing(&set, f, |set, f, v| seen.passes(set, f, v)).into_iter().for_each(|v| set[f] &= !(1 << v));
        }
        set = page.network.closing(set, &every(&page.network));
        if set == before {
            return set;
        }
    }
}
