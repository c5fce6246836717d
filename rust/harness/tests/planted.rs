//! The comparison finds planted faults, and the case it prints is small and is the fault's own. Every promise that a fault can break has
//! one, and docs/TRACE.md cites each.

use harness::drive::{report, sequence, Failure, Plan};
use harness::faults::{all, counting, Fault, Planted, WITHOUT};
use harness::library::Library;
use harness::linked::Linked;
use harness::repository::text;
use harness::runner::run;
use harness::selections::good;
use harness::shapes::Size;
use harness::tally::Tally;
use harness::taste;
use harness::text::parse;
use harness::Random;
use solver::Network;
use std::collections::{BTreeMap, BTreeSet};
use std::sync::Mutex;

/// Within how many calls a fault is found.
const CALLS: u64 = 100_000;

/// The first failing sequence from a seed, and after how many calls it came.
fn first_failure(fault: &'static Fault, seed: u64) -> (u64, Failure) {
    let mut random = Random(seed);
    let mut tally = Tally::default();
    while tally.calls() < CALLS {
        let plan = Plan { size: Size::Small, forging: random.one_in(3), damaged: random.one_in(4) };
        if let Err(failure) = sequence(&|| Box::new(Planted::new(fault)), plan, random.word(), &mut tally) {
            return (tally.calls(), failure);
        }
    }
    panic!("{} is not found in {CALLS} calls from seed {seed}", fault.name);
}

/// Finds a fault from three seeds, and makes the case of the first small.
fn find(fault: &'static Fault) {
    let maker = || -> Box<dyn Library> { Box::new(Planted::new(fault)) };
    let found = [5, 6, 7].map(|seed| first_failure(fault, seed));
    let calls = found.each_ref().map(|(calls, _)| *calls);
    let [(_, failure), ..] = found;
    let text = report(&maker, failure);
    println!("{}, after {calls:?} calls:\n{text}\n", fault.name);
    let case = parse(&text);
    assert!(run(&mut Planted::new(fault), &case).is_err(), "the printed case is not the fault's: {text}");
    assert_eq!(run(&mut Linked, &case), Ok(()), "the printed case is not the fault's: {text}");
    assert!(case.steps.len() <= 4, "the case of {} is not small: {text}", fault.name);
}

/// On as many threads as the machine runs at once, each of which takes the next fault.
#[test]
fn planted_faults_are_found() {
    let threads = std::thread::available_parallelism().map_or(1, usize::from);
    let left = Mutex::new(all());
    let next = || left.lock().expect("no thread ended early").next();
    std::thread::scope(|scope| {
        for _ in 0..threads {
            scope.spawn(|| std::iter::from_fn(next).for_each(find));
        }
    });
}

/// Two faults that show themselves on few calls.
#[test]
fn rare_faults_are_found_from_any_seed() {
    for name in ["count_unread", "swapped"] {
        let fault = all().find(|fault| fault.name == name).expect("a fault of this name");
        let most = (100..140).map(|seed| first_failure(fault, seed).0).max();
        println!("{name} is found from each of 40 seeds, after at most {most:?} calls");
    }
}

/// The paragraphs of sections 2 to 9 and 11 of the scope: what a faulty library could break.
fn paragraphs() -> BTreeSet<String> {
    let scope = text("docs/SCOPE.md");
    let numbers = scope.lines().filter_map(|line| line.strip_prefix("**")?.split_once("**")).map(|(number, _)| number.to_string());
    let section = |number: &String| number.split_once('.').and_then(|(section, _)| section.parse::<u32>().ok()).unwrap_or(0);
    numbers.filter(|number| (2..=9).contains(&section(number)) || section(number) == 11).collect()
}

#[test]
fn every_promise_has_a_fault() {
    let (paragraphs, broken) = (paragraphs(), all().map(|fault| fault.promise).collect::<BTreeSet<&str>>());
    let without: BTreeSet<&str> = WITHOUT.iter().map(|(paragraph, _)| *paragraph).collect();
    for paragraph in &paragraphs {
        let (has, excused) = (broken.contains(&paragraph[..]), without.contains(&paragraph[..]));
        assert!(has != excused, "{paragraph}: a fault {has}, said to have none {excused}");
    }
    assert!(broken.iter().chain(&without).all(|paragraph| paragraphs.contains(*paragraph)), "{broken:?} {without:?}");
    let names: BTreeSet<&str> = all().map(|fault| fault.name).collect();
    assert_eq!(names.len(), all().count(), "two faults of one name");
}

/// The faults that the trace cites, by paragraph.
fn cited(trace: &str) -> BTreeMap<String, Vec<String>> {
    let mut cited: BTreeMap<String, Vec<String>> = BTreeMap::new();
    for entry in trace.split("\n- **").skip(1) {
        let (numbers, rest) = entry.split_once("**").expect("the number of a paragraph");
        let rest = rest.split("\n\n").next().unwrap_or(rest).split_whitespace().collect::<Vec<&str>>().join(" ");
        let lists = rest.split("*planted* (").skip(1).filter_map(|after| after.split(')').next());
        let names: Vec<String> = lists.flat_map(|list| list.split('`').skip(1).step_by(2)).map(str::to_string).collect();
        numbers.split(", ").for_each(|number| cited.entry(number.to_string()).or_default().extend(names.clone()));
    }
    cited
}

#[test]
fn the_trace_cites_every_fault() {
    let trace = text("docs/TRACE.md");
    let cited = cited(&trace);
    for fault in all() {
        let there = cited.get(fault.promise).is_some_and(|names| names.iter().any(|name| name == fault.name));
        assert!(there, "docs/TRACE.md does not cite {} at {}", fault.name, fault.promise);
    }
    let unknown: Vec<&String> = cited.values().flatten().filter(|name| all().all(|fault| fault.name != **name)).collect();
    assert!(unknown.is_empty(), "{unknown:?}");
    let count = format!("{} faults", all().count());
    assert!(trace.contains(&count), "docs/TRACE.md does not say that there are {count}");
}

/// Without a fault SAC-1 over AC-4 leaves the solver's offers, so what is found of it with a fault is the fault.
#[test]
fn counting_without_a_fault_is_right() {
    let mut random = Random(6);
    let mut kept = 0;
    for _ in 0..2000 {
        let sheet = taste::sheet(&mut random, Size::Small);
        let network = Network::of(&sheet);
        let (selected, order, thin) = (good(&mut random, sheet.fields()), random.order(sheet.fields()), random.one_in(2));
        let start = network.full.map(|domain| if thin { domain & (random.word() | random.word()) as u32 } else { domain });
        let visited: Vec<u8> = order.into_iter().filter(|f| selected >> f & 1 == 1).collect();
        let (offers, expected) = (counting::offers(&sheet, &network, start, &visited, None), network.offers(start, selected));
        assert_eq!(network.wiped_out(&offers), network.wiped_out(&expected), "{sheet:?} {start:?} {selected:b}");
        assert!(offers == expected || network.wiped_out(&expected), "{sheet:?} {start:?} {selected:b}");
        kept += usize::from(!network.wiped_out(&offers) && offers != start);
    }
    assert!(kept > 200, "{kept}");
}
