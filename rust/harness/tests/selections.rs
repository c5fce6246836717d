//! Selected fields: every mask of small sheets with every engine, masks that are refused, and the mask that the session keeps.

use belaykeel::{Engine, Order, Refusal, Selection, Session, Sheet, WorkSpaces};
use harness::case::{Case, Given, Step};
use harness::linked::Linked;
use harness::runner::Runner;
use harness::selections::{all, bad, fields, good, Extent};
use harness::shapes::Size;
use harness::sheets::bytes;
use harness::text::print;
use harness::{forge, taste, Random};
use public_calls::Call;
use solver::network::includes;
use solver::{Network, Set};

/// The offers that open gives, as a set; nothing where they are wiped out.
fn opened(sheet: &Sheet, engine: Engine, order: &Order, selected: u32, spaces: &mut WorkSpaces) -> Option<Set> {
    let selection = Selection::Fields(fields(selected).collect());
    match Session::default().open(sheet, engine, order, &selection, spaces) {
        Err(refusal) => {
            assert_eq!(refusal, Refusal::WipedOut);
            None
        }
        Ok(offers) => {
            let mut set = [0; solver::MOST];
            set[..offers.fields()].copy_from_slice(offers.masks());
            Some(set)
        }
    }
}

/// Every mask of a sheet with every engine: the offers are those of the definition. A selection that includes another offers no more, and
/// is wiped out where the other is.
#[test]
fn every_mask_of_small_sheets() {
    let mut random = Random(1);
    let mut spaces = WorkSpaces::new();
    let (mut partial, mut wiped) = (0, 0);
    for _ in 0..500 {
        let page = taste::sheet(&mut random, Size::Small);
        let (n, network) = (page.fields(), Network::of(&page));
        if n > 7 {
            continue;
        }
        let sheet = Sheet::from_bytes(bytes(&page));
        let sets: Vec<Set> = (0..=all(n)).map(|selected| network.offers(network.full, selected)).collect();
        for selected in 1..=all(n) {
            let set = sets[selected as usize];
            let expected = (!network.wiped_out(&set)).then_some(set);
            for engine in Engine::ALL {
                let order = Order::Listed(random.order(n));
                let offers = opened(&sheet, engine, &order, selected, &mut spaces);
                assert_eq!(offers, expected, "{page:?}, {selected:b}, {engine:?}");
            }
            let fewer = fields(selected).map(|field| &sets[(selected & !(1 << field)) as usize]);
            assert!(fewer.into_iter().all(|more| includes(more, &set)), "{page:?}, {selected:b}");
            partial += usize::from(set != sets[0] && set != sets[all(n) as usize]);
            wiped += usize::from(expected.is_none() && !network.wiped_out(&sets[0]));
        }
    }
    println!("{partial} masks between closing and all fields, {wiped} wiped out by tests");
    assert!(partial > 200 && wiped > 200, "{partial} {wiped}");
}

fn step(call: Call, n: usize) -> Step {
    Step::Call(Given::plain(call, (0..n as u8).collect()))
}

/// An open that is refused by 7 or 9 where its mask is good.
fn refused_open(random: &mut Random, n: usize) -> Step {
    let mut given = Given::plain(Call::Open(good(random, n)), (0..n as u8).collect());
    if random.one_in(2) {
        given.engine = 4;
    } else {
        given.order.push(0);
    }
    Step::Call(given)
}

/// Opens with good and bad masks, and other calls between them, accepted and refused. The runner compares the mask after every call. How
/// many opens with some fields only were accepted.
fn opened_again_and_again(seed: u64) -> usize {
    let mut random = Random(seed);
    let mut partial = 0;
    for _ in 0..1000 {
        let page = taste::sheet(&mut random, Size::Small);
        let n = page.fields();
        let (field, position) = forge::setting(&mut random, &page);
        let mut steps = vec![];
        for _ in 0..4 {
            steps.push(step(Call::Open(good(&mut random, n)), n));
            steps.push(step(Call::Strike(field, position), n));
            steps.push(step(Call::Open(bad(&mut random, n)), n));
            steps.push(refused_open(&mut random, n));
            steps.extend([Call::Show, Call::CoilOn, Call::Show, Call::Back].map(|call| step(call, n)));
            steps.extend([Call::WithdrawStrike(field, position), Call::Back, Call::Back].map(|call| step(call, n)));
        }
        let case = Case { sheet: bytes(&page), session: forge::noise(&mut random), steps };
        let mut library = Linked;
        let mut runner = Runner::new(&mut library, &case.sheet, &case.session);
        for step in &case.steps {
            let number = runner.step(step).unwrap_or_else(|difference| panic!("{difference:?}, {}", print(&case)));
            let opens = |given: &Given| matches!(given.call, Call::Open(selected) if selected != all(n));
            partial += usize::from(number == Some(0) && matches!(step, Step::Call(given) if opens(given)));
        }
    }
    partial
}

#[test]
fn kept_by_every_call_but_an_accepted_open() {
    std::thread::scope(|scope| {
        for seed in [2, 4] {
            scope.spawn(move || assert!(opened_again_and_again(seed) > 500, "accepted opens with some fields only, from seed {seed}"));
        }
    });
}

/// The number of a call on a session without decisions and events that has this mask.
fn number(sheet: &[u8], selected: u32, call: Call) -> u32 {
    let session = Session { selected, ..Session::default() };
    let mut library = Linked;
    let mut runner = Runner::new(&mut library, sheet, &session);
    runner.step(&step(call, sheet[0].into())).expect("what the ledger gives").expect("a number")
}

/// A session is malformed just where open would refuse its mask.
#[test]
fn sessions_with_any_mask() {
    let mut random = Random(3);
    for _ in 0..300 {
        let page = taste::sheet(&mut random, Size::Small);
        let (n, sheet) = (page.fields(), bytes(&page));
        let (f, v) = forge::setting(&mut random, &page);
        let deciding = [Call::Choose(f, v), Call::Strike(f, v), Call::WithdrawChoice(f, v), Call::WithdrawStrike(f, v)];
        for selected in [good(&mut random, n), all(n), 0, 1 << n, all(n) | 1 << n, 1 << 31, 1 | 1 << 24, u32::MAX] {
            let refused = Extent::BAD.contains(&Extent::of(selected, n));
            assert_eq!(number(&sheet, 0, Call::Open(selected)) == 18, refused, "{page:?}, {selected:b}");
            for call in deciding.iter().chain(&[Call::Show, Call::Back, Call::CoilOn]) {
                assert_eq!(number(&sheet, selected, call.clone()) == 15, refused, "{page:?}, {selected:b}, {call:?}");
            }
        }
    }
}
