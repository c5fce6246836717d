//! What is timed: a job of the engines, or a call with its sheet, session and order and the decisions that lead to it.

use crate::plain::read_write::outline;
use crate::sheets::Series;
use crate::Domains;
use belaykeel::raw::{MEMORY_WORDS, OFFERS_WORDS, ROWS_WORDS};
use belaykeel::{Engine, Session};
use harness::library::{Lent, Library};
use harness::linked::Linked;
use harness::sheets::{bytes, numbers};
use public_calls::Call;
use random::Random;
use solver::Sheet;

/// A sheet's list of numbers to solve, with its start set, the order of its fields and the mask of those that are selected.
#[derive(Clone, Debug)]
pub struct Job {
    pub numbers: Vec<u32>,
    pub start: Domains,
    pub order: Vec<u8>,
    pub selected: u32,
}

impl Job {
    /// Starts with every setting, and visits every field, in rising order.
    pub fn new(sheet: &Sheet) -> Job {
        let numbers = numbers(sheet);
        let start = outline(&numbers).expect("a sheet").full;
        Job { numbers, start, order: rising(sheet), selected: sheet.all_fields() }
    }
}

fn rising(sheet: &Sheet) -> Vec<u8> {
    (0..sheet.fields() as u8).collect()
}

/// A call to be made on a session.
#[derive(Clone, Debug)]
pub struct Task {
    pub sheet: Vec<u8>,
    pub session: Session,
    pub call: Call,
    pub order: Vec<u8>,
    /// The number that the call must return.
    pub number: u32,
}

/// The spaces that a call is lent.
pub struct Spaces {
    pub offers: [u32; OFFERS_WORDS],
    rows: Vec<u32>,
    memory: Vec<u32>,
}

impl Default for Spaces {
    fn default() -> Spaces {
        Spaces { offers: [0; OFFERS_WORDS], rows: vec![0; ROWS_WORDS], memory: vec![0; MEMORY_WORDS] }
    }
}

impl Task {
    /// An open of a sheet with every field selected.
    pub fn open(sheet: &Sheet) -> Task {
        let call = Call::Open(sheet.all_fields());
        Task { sheet: bytes(sheet), session: Session::default(), call, order: rising(sheet), number: 0 }
    }

    /// What the call is lent and given besides its own values.
    pub fn lent<'a>(&'a self, engine: Engine, session: &'a mut Session, spaces: &'a mut Spaces) -> Lent<'a> {
        let Spaces { offers, rows, memory } = spaces;
        Lent { session, sheet: &self.sheet, engine: engine.number(), order: &self.order, offers, rows, memory, own: vec![] }
    }

    /// The same sheet and order with another session and call.
    fn with(&self, session: &Session, call: Call) -> Task {
        Task { session: session.clone(), call, ..self.clone() }
    }

    /// A call that is refused as soon as the sheet is read and all but the order is checked.
    pub fn without_order(&self) -> Task {
        let mut order = self.order.clone();
        order[0] = order[order.len() - 1];
        Task { order, number: 9, ..self.clone() }
    }

    /// A show that is refused as soon as the tables are built: two choices in a field leave nothing of it.
    pub fn with_two_choices(&self) -> Task {
        let mut session = Session { selected: (1 << self.order.len()) - 1, ..Session::default() };
        session.choices[0] = 3;
        Task { session, call: Call::Show, number: 14, ..self.clone() }
    }
}

/// The calls that are timed on a sheet, in this order.
pub const CALLS: [&str; 5] = ["open", "show", "choose", "withdraw_strike", "withdraw_choice"];

/// How many settings are tried for a decision.
const TRIES: usize = 60;

/// A session of a sheet.
struct Room {
    spaces: Spaces,
    task: Task,
}

impl Room {
    /// Makes a call on the session. Whether it is accepted.
    fn call(&mut self, call: &Call) -> bool {
        let mut session = self.task.session.clone();
        let accepted = Linked.call(call, &mut self.task.lent(Engine::Sac1, &mut session, &mut self.spaces)).number == 0;
        self.task.session = session;
        accepted
    }

    /// Makes a call of some offered setting that is accepted.
    fn decide(&mut self, random: &mut Random, call: fn(u32, u32) -> Call) -> Option<Call> {
        let fields = self.task.order.len();
        for _ in 0..TRIES {
            let (f, v) = (random.below(fields), random.below(24));
            let (domain, decision) = (self.spaces.offers[f], call(f as u32, v as u32));
            if domain.count_ones() > 1 && domain >> v & 1 == 1 && self.call(&decision) {
                return Some(decision);
            }
        }
        None
    }
}

/// The timed calls of a sheet, or nothing where it is wiped out or no decision is found. Two strikes and a choice are in force for show and
/// for the withdrawals, the two strikes for choose. The first strike is withdrawn, and the choice where it came first.
fn tasks(sheet: &Sheet, seed: u64) -> Option<Vec<Task>> {
    let mut random = Random(seed);
    let open = Task::open(sheet);
    let mut room = Room { spaces: Spaces::default(), task: open.clone() };
    let opened = room.call(&open.call);
    let first = opened.then(|| room.decide(&mut random, Call::Strike))??;
    let second = room.decide(&mut random, Call::Strike)?;
    let before = room.task.session.clone();
    let choice = room.decide(&mut random, Call::Choose)?;
    let after = room.task.session.clone();
    let (&Call::Strike(f, v), &Call::Choose(g, u)) = (&first, &choice) else {
        return None;
    };
    let reordered = [&open.call, &choice, &first, &second].into_iter().all(|call| room.call(call));
    assert!(reordered, "decisions that are accepted in one order are accepted in another");
    let calls = [(&after, Call::Show), (&before, choice), (&after, Call::WithdrawStrike(f, v))];
    let mut tasks = vec![open.with(&after, open.call.clone())];
    tasks.extend(calls.map(|(session, call)| open.with(session, call)));
    tasks.push(open.with(&room.task.session, Call::WithdrawChoice(g, u)));
    Some(tasks)
}

/// Sheets of a series, each with the calls to be timed.
pub struct Chosen {
    pub series: Series,
    sheets: Vec<(Sheet, Vec<Task>)>,
}

impl Chosen {
    /// The first sheets of the series on which all calls can be timed.
    pub fn new(series: Series, count: usize) -> Chosen {
        let found = (series.first_seed..series.first_seed + 100).filter_map(|seed| {
            let sheet = series.source.sheet(seed);
            let tasks = tasks(&sheet, seed)?;
            Some((sheet, tasks))
        });
        let sheets: Vec<_> = found.take(count).collect();
        assert_eq!(sheets.len(), count, "sheets of {series:?}");
        Chosen { series, sheets }
    }

    /// One of the timed calls, on every sheet, at a reach.
    pub fn tasks(&self, call: usize, reach: u32) -> Vec<Task> {
        let at_reach = |sheet: &Sheet| bytes(&Sheet { reach, ..sheet.clone() });
        self.sheets.iter().map(|(sheet, tasks)| Task { sheet: at_reach(sheet), ..tasks[call].clone() }).collect()
    }
}
