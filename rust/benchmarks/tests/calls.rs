//! The plain calls and the proved ones agree: on random sequences of calls with sheets, sessions and arguments that are often wrong, and on
//! the calls that are timed.

use belaykeel::Session;
use benchmarks::contestants::libraries;
use benchmarks::measure::agree;
use benchmarks::plain::calls::Plain;
use benchmarks::plain::methods;
use benchmarks::sheets::{Class, Series, Source, MILLS, REACHES};
use benchmarks::task::{Chosen, CALLS};
use harness::case::{Given, Step};
use harness::library::{Lent, Library};
use harness::linked::Linked;
use harness::shapes::Size;
use harness::sheets::{bytes, damaged};
use harness::steps::{next, opening, Habits};
use harness::tally::Tally;
use harness::{forge, taste};
use public_calls::Name;
use random::Random;

/// What a library leaves: the number, the session and the offers list.
fn left(library: &mut dyn Library, before: &Session, given: &Given, sheet: &[u8]) -> (u32, Session, Vec<u32>) {
    let mut session = before.clone();
    let mut offers = vec![0xA5C3_0F1E; given.length("offers")];
    let mut lent = Lent {
        session: &mut session,
        sheet: given.sheet.as_deref().unwrap_or(sheet),
        engine: given.engine,
        order: &given.order,
        offers: &mut offers,
        rows: &mut vec![0; given.length("rows")],
        memory: &mut vec![0; given.length("memory")],
        own: vec![],
    };
    let number = library.call(&given.call, &mut lent).number;
    (number, session, offers)
}

/// A sequence of calls that the seed decides; each is made by the proved library and a plain one.
fn sequence(plain: &mut dyn Library, seed: u64, tally: &mut Tally) {
    let mut random = Random(seed);
    let size = random.pick(&[Size::Small, Size::Small, Size::Long]);
    let sheet = taste::sheet(&mut random, size);
    tally.meet(&sheet);
    let given = if random.one_in(8) { damaged(&mut random, &sheet) } else { bytes(&sheet) };
    let forging = random.one_in(2);
    let habits = Habits::draw(&mut random, forging);
    let mut held = *forge::forged(&mut random, &sheet);
    for place in 0..random.pick(&[8, 20, 100]) {
        let step = if place == 0 { opening(&mut random, &sheet) } else { next(&mut random, &habits, &sheet, &held) };
        match step {
            Step::Session(session) => held = *session,
            Step::Call(call) if call.call.row().has("session") => {
                let proved = left(&mut Linked, &held, &call, &given);
                assert_eq!(left(plain, &held, &call, &given), proved, "seed {seed}: {call:?} on {held:?} of {given:?}");
                tally.add(&call, &given, held.selected, proved.0);
                held = proved.1;
            }
            Step::Call(_) | Step::Sheet(_) => (),
        }
    }
}

#[test]
fn random_calls() {
    let mut seeds = Random(1);
    let mut tally = Tally::default();
    let mut plains: Vec<Plain> = methods(24).into_iter().map(|(_, method)| Plain::new(method)).collect();
    for turn in 0..1000 {
        let which = turn % plains.len();
        sequence(&mut plains[which], seeds.word(), &mut tally);
    }
    println!("{tally}");
    let calls: Vec<Name> = Name::ALL.iter().copied().filter(|name| name.row().has("session")).collect();
    let missing = tally.missing(&calls, |_| true);
    assert_eq!(missing, [], "{tally}");
}

#[test]
fn timed_calls() {
    let class = Class { fields: 14, settings: 7, density: 0.5, tightness: 0.4, reach: 24 };
    let mut sources = MILLS.map(Source::Mill).to_vec();
    sources.extend([Source::Random(class), Source::Planted(class)]);
    for source in sources {
        let chosen = Chosen::new(Series::new(source, 1, REACHES), 2);
        for &reach in REACHES {
            let mut all = libraries(source.fields());
            for task in (0..CALLS.len()).flat_map(|call| chosen.tasks(call, reach)) {
                agree(&mut all, &task);
            }
        }
    }
}
