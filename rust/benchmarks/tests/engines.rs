//! The proved engines, the plain ones and the solver agree: on small random sheets with rules of every kind and triples, of all reaches,
//! with random orders, selections and start sets, and on larger ones without the solver.

use benchmarks::contestants::engines;
use benchmarks::measure::agree;
use benchmarks::role::{Role, BEFORE, PLAIN_SAC1};
use benchmarks::sheets::Class;
use benchmarks::task::Job;
use benchmarks::{Domains, Offers, WHOLE_REACH};
use harness::methods::sac2;
use harness::random_triples::with_triples;
use harness::selections::good;
use harness::shapes::Size;
use harness::sheets::unequal;
use harness::taste;
use random::Random;
use solver::network::includes;
use solver::{Network, Rule, Set, Sheet};

/// A start set: every setting, or some of them.
fn start(random: &mut Random, full: Domains) -> Domains {
    let thin = random.one_in(3);
    full.map(|domain| if thin { domain & (random.word() | random.word()) as u32 } else { domain })
}

fn random_job(random: &mut Random, sheet: &Sheet) -> Job {
    let job = Job::new(sheet);
    Job { start: start(random, job.start), order: random.order(sheet.fields()), selected: good(random, sheet.fields()), ..job }
}

/// What all engines answer, and the tests of SAC-1 and SAC-2. The tests do not depend on the way of closing. SAC-2 makes no more than the
/// queue, at any reach, and the queue no more than SAC-1.
fn solve(sheet: &Sheet, job: &Job) -> (Offers, [u64; 2]) {
    let mut all = engines(sheet.fields());
    let runs = agree(&mut all, job);
    let place = |role: Role| all.iter().position(|contestant| contestant.role == role).expect("a contestant of this role");
    let tests = |role: Role| runs[place(role)].tests;
    let (sac1, sac2, queue) = (PLAIN_SAC1.map(tests), tests(Role::Sac2), tests(Role::Queue));
    assert!(sac1.iter().all(|&count| count == sac1[0]), "{sac1:?}: {job:?}");
    assert_eq!(BEFORE.map(tests), [sac1[0], sac2, queue], "{job:?}");
    assert!(sac2 <= queue && queue <= sac1[0], "{sac2}, {queue}, {sac1:?}: {job:?}");
    (runs[0].answer, [sac1[0], sac2])
}

/// A small sheet with rules of kind 0, and triples half of the time, of a class where a setting often fails its test though it has support.
fn masked_sheet(random: &mut Random) -> Sheet {
    let (fields, settings) = (4 + random.below(4), 2 + random.below(3));
    let (density, tightness) = (random.pick(&[0.4, 0.7, 1.0]), random.pick(&[0.25, 0.35, 0.45, 0.55]));
    let sheet = Class { fields, settings, density, tightness, reach: random.pick(&[1, 2, 3, 24]) }.sheet(random.word());
    with_triples(random, sheet)
}

#[test]
fn agree_with_the_solver() {
    let mut random = Random(1);
    let (mut wiped, mut narrowed, mut untouched, mut between) = (0, 0, 0, 0);
    for round in 0..6000 {
        let sheet = if round % 2 == 0 { taste::sheet(&mut random, Size::Small) } else { masked_sheet(&mut random) };
        let job = random_job(&mut random, &sheet);
        let network = Network::of(&sheet);
        let expected = network.offers(job.start, job.selected);
        let (offers, _) = solve(&sheet, &job);
        assert_eq!(offers, (!network.wiped_out(&expected)).then_some(expected), "{job:?}");
        match offers {
            None => wiped += 1,
            Some(set) if set == job.start => untouched += 1,
            Some(_) => narrowed += 1,
        }
        let every: Vec<usize> = (0..sheet.fields()).collect();
        let (closed, least) = (network.closing(job.start, &every), network.offers(job.start, sheet.all_fields()));
        between += usize::from(expected != closed && expected != least);
    }
    println!("{wiped} wiped out, {narrowed} narrowed, {untouched} untouched, {between} between closing and all fields selected");
    assert!(wiped.min(narrowed).min(untouched) > 600 && between > 150, "{wiped} {narrowed} {untouched} {between}");
}

/// SAC-1 tests a setting in every pass. SAC-2 tests it again just where some of what its last test left in the neighbourhood has gone.
#[test]
fn tests_are_counted_as_defined() {
    let mut random = Random(3);
    let (mut at_short_reach, mut at_reach_24) = (0, 0);
    for _ in 0..4000 {
        let sheet = masked_sheet(&mut random);
        let job = random_job(&mut random, &sheet);
        let network = Network::of(&sheet);
        let every: Vec<usize> = (0..sheet.fields()).collect();
        let closed = network.closing(job.start, &every);
        let visited: Vec<u8> = job.order.iter().copied().filter(|f| job.selected >> f & 1 == 1).collect();
        let counted = |trusted: fn(&Set, &Set) -> bool| sac2(&network, closed, &visited, trusted).tests;
        let (_, tests) = solve(&sheet, &job);
        assert_eq!(tests, [counted(|_, _| false), counted(includes)], "{job:?}");
        let saves = if sheet.reach < WHOLE_REACH { &mut at_short_reach } else { &mut at_reach_24 };
        *saves += usize::from(tests[1] < tests[0]);
    }
    println!("SAC-2 saves tests on {at_short_reach} sheets at short reaches and on {at_reach_24} at reach 24");
    assert!(at_short_reach > 200 && at_reach_24 > 100, "{at_short_reach} {at_reach_24}");
}

#[test]
fn agree_on_larger_sheets() {
    let mut random = Random(2);
    for seed in 0..300 {
        let (fields, settings) = (7 + random.below(18), 2 + random.below(23));
        let density = random.pick(&[0.2, 0.5, 1.0]);
        let tightness = 0.1 + 0.7 * random.below(100) as f64 / 100.0;
        let reach = random.pick(&[1, 2, 3, 23, 24, 24]);
        let sheet = with_triples(&mut random, Class { fields, settings, density, tightness, reach }.sheet(seed));
        let job = random_job(&mut random, &sheet);
        solve(&sheet, &job);
    }
}

fn offers_of(sheet: &Sheet) -> Option<Vec<u32>> {
    solve(sheet, &Job::new(sheet)).0.map(|set| set[..sheet.fields()].to_vec())
}

#[test]
fn worked_cases() {
    let rule = Rule { i: 0, j: 1, kind: 1, numbers: vec![100] };
    let sheet_d = Sheet { settings: vec![vec![100, 200, 300]; 2], reach: 24, rules: vec![rule], triples: vec![] };
    assert_eq!(offers_of(&sheet_d), Some(vec![6, 3]));
    assert_eq!(offers_of(&Sheet { settings: vec![vec![300]], reach: 24, rules: vec![], triples: vec![] }), Some(vec![1]));
    let triangle = [(0, 1), (0, 2), (1, 2)];
    let ring = [(0, 1), (0, 4), (1, 2), (2, 3), (3, 4)];
    for reach in [1, 24] {
        assert_eq!(offers_of(&unequal(3, reach, &triangle)), None);
        assert_eq!(offers_of(&unequal(4, reach, &triangle)), None);
    }
    assert_eq!(offers_of(&unequal(5, 1, &ring)), Some(vec![3; 5]));
    assert_eq!(offers_of(&unequal(5, 2, &ring)), None);
}
