//! Random sequences of calls, and the report of a failing one.

use crate::case::{Case, Step};
use crate::forge;
use crate::library::Library;
use crate::runner::{run, Runner};
use crate::shapes::{self, Size};
use crate::sheets::{bytes, damaged};
use crate::shrink::shrink;
use crate::steps::{next, opening, Habits};
use crate::tally::Tally;
use crate::taste;
use crate::text::print;
use crate::Random;
use belaykeel::Session;
use solver::{reading, Sheet};

/// What the sequences of a run are like.
#[derive(Clone, Copy, Debug)]
pub struct Plan {
    pub size: Size,
    /// Sessions are forged.
    pub forging: bool,
    /// The sheet itself is damaged.
    pub damaged: bool,
}

/// Makes the library that a run is about; a faulty one has a state of its own.
pub type Maker<'m> = &'m dyn Fn() -> Box<dyn Library>;

/// A sequence that failed at its last step, and how.
#[derive(Debug)]
pub struct Failure {
    pub case: Case,
    pub differs: String,
}

/// A number from the environment, or this one.
pub fn environment(name: &str, otherwise: u64) -> u64 {
    std::env::var(name).map_or(otherwise, |value| value.parse().expect("a number in the environment"))
}

/// Runs a sequence that the seed decides.
pub fn sequence(maker: Maker, plan: Plan, seed: u64, tally: &mut Tally) -> Result<(), Failure> {
    let mut random = Random(seed);
    let mut sheet = if plan.damaged { shapes::sheet(&mut random, plan.size) } else { taste::sheet(&mut random, plan.size) };
    let given = if plan.damaged { damaged(&mut random, &sheet) } else { bytes(&sheet) };
    let session = start(&mut random, plan, &sheet);
    let habits = Habits::draw(&mut random, plan.forging);
    let mut library = maker();
    let mut runner = Runner::new(library.as_mut(), &given, &session);
    let mut steps = vec![];
    tally.meet(&sheet);
    for place in 0..length(&mut random, plan) {
        let first = place == 0 && !plan.forging;
        let step = if first { opening(&mut random, &sheet) } else { next(&mut random, &habits, &sheet, runner.session()) };
        let (held, in_force) = (runner.session().selected, runner.sheet().to_vec());
        let result = runner.step(&step);
        steps.push(step);
        match result {
            Err(differs) => return Err(Failure { case: Case { sheet: given, session, steps }, differs }),
            Ok(None) => (),
            Ok(Some(number)) => {
                if let Some(Step::Call(call)) = steps.last() {
                    tally.add(call, &in_force, held, number);
                }
                if place == 0 && number != 0 && !plan.damaged && random.below(8) > 0 {
                    break;
                }
            }
        }
        if runner.sheet() != in_force {
            sheet = reading::sheet(runner.sheet()).unwrap_or(sheet);
        }
    }
    Ok(())
}

fn start(random: &mut Random, plan: Plan, sheet: &Sheet) -> Box<Session> {
    match random.below(3) {
        0 if plan.forging => forge::opened(random, sheet),
        0 => Box::default(),
        1 if !plan.forging => forge::noise(random),
        _ => forge::forged(random, sheet),
    }
}

fn length(random: &mut Random, plan: Plan) -> usize {
    match plan.size {
        _ if plan.damaged => 4,
        Size::Small => random.pick(&[4, 20, 60, 160]),
        Size::Long => random.pick(&[4, 20, 60, 120]),
        Size::Large | Size::Full => 6,
    }
}

/// How many calls the random tests make together, where BELAYKEEL_CALLS does not say another number.
const CALLS: u64 = 200_000;

/// Runs sequences until there were this share of all calls, in parts of a thousand, and at least so many. A failing one is made small and
/// printed.
pub fn sequences(maker: Maker, plan: Plan, thousandths: u64, least: u64) -> Tally {
    let calls = least.max(environment("BELAYKEEL_CALLS", CALLS) * thousandths / 1000);
    let seed = environment("BELAYKEEL_SEED", 1);
    let mut seeds = Random(seed);
    let mut tally = Tally::default();
    while tally.calls() < calls {
        let own = seeds.word();
        if let Err(failure) = sequence(maker, plan, own, &mut tally) {
            panic!("BELAYKEEL_SEED={seed}, sequence {own} of {plan:?}:\n{}", report(maker, failure));
        }
    }
    println!("BELAYKEEL_SEED={seed} {plan:?}: {tally}");
    tally
}

/// The failing case made small, as text, and how it differs.
pub fn report(maker: Maker, failure: Failure) -> String {
    let small = shrink(failure.case, &|case| run(maker().as_mut(), case).is_err());
    let differs = match run(maker().as_mut(), &small) {
        Err((step, differs)) => format!("step {}: {differs}", step + 1),
        Ok(()) => format!("step ? is not seen again: {}", failure.differs),
    };
    format!("{}{differs}", print(&small))
}
