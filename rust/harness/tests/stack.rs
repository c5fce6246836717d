//! The stack that a call needs: each call that runs an engine is made on a thread that has what the header says, and a little for itself;
//! and the least stack on which they run is measured and compared with the header.

use belaykeel::{Engine, Session};
use harness::case::enough;
use harness::library::{Lent, Library};
use harness::linked::Linked;
use harness::repository::lines;
use harness::shapes::every;
use harness::sheets::{bytes, most_triples};
use public_calls::Call;
use solver::{Rule, Sheet};
use std::process::{Command, Stdio};
use std::thread::Builder;

/// What header and wrapper say is enough for a call, in bytes.
const CALL: usize = 196_608;

/// About what the header says a call needs.
const NEEDED: usize = 163_000;

/// What the thread and the functions of the test need beside it: they use about half of this.
const THREAD: usize = 16_384;

/// 24 fields of 24 settings with a rule for each pair, but the first two have 2 settings, and all differ. So tests of these two settings in
/// the other fields fail. There are as many triples as may be, and they allow everything.
fn sheet() -> Vec<u8> {
    let settings = |f: usize| (0..if f < 2 { 2 } else { 24 }).collect();
    let rules = every(24).map(|(i, j)| Rule { i, j, kind: 3, numbers: vec![1] }).collect();
    bytes(&Sheet { settings: (0..24).map(settings).collect(), reach: 24, rules, triples: most_triples() })
}

/// Makes the calls in turn; each is accepted.
fn make(calls: &[Call], engine: Engine) {
    let (sheet, order): (Vec<u8>, Vec<u8>) = (sheet(), (0..24).collect());
    let [mut offers, mut rows, mut memory] = ["offers", "rows", "memory"].map(|space| vec![0; enough(space)]);
    let mut session = Box::new(Session::default());
    for call in calls {
        let (session, offers, rows, memory) = (&mut *session, &mut offers[..], &mut rows[..], &mut memory[..]);
        let mut lent = Lent { session, sheet: &sheet, engine: engine.number(), order: &order, offers, rows, memory, own: vec![] };
        assert_eq!(Linked.call(call, &mut lent).number, 0, "{call:?}");
    }
    assert!(offers[..2] == [3; 2] && offers[2..] == [0xFF_FFFC; 22], "{offers:x?}");
}

/// Makes every call that runs an engine, with each engine, on a thread with a stack of so many bytes.
fn on_a_stack_of(size: usize) {
    use Call::{Back, Choose, CoilOn, Open, Show, Strike, WithdrawChoice, WithdrawStrike};
    let decided = [Open(0xFF_FFFF), Strike(2, 5), Choose(3, 7), Show, WithdrawStrike(2, 5), WithdrawChoice(3, 7)];
    let calls = [&decided[..], &[Strike(2, 5), Back, CoilOn]].concat();
    for engine in Engine::ALL {
        let calls = calls.clone();
        let thread = Builder::new().stack_size(size).spawn(move || make(&calls, engine)).expect("a thread");
        thread.join().expect("every call is accepted");
    }
}

#[test]
fn calls_on_a_small_stack() {
    on_a_stack_of(CALL + THREAD);
}

/// Where a stack is too small the process ends: run by the test below, in a process of its own.
#[test]
#[ignore = "run by another test"]
fn on_the_stack_that_is_given() {
    on_a_stack_of(std::env::var("STACK").expect("a size").parse().expect("bytes"));
}

/// Whether the calls run on a stack of so many bytes.
fn is_enough(size: usize) -> bool {
    let mut child = Command::new(std::env::current_exe().expect("this program"));
    child.args(["--exact", "on_the_stack_that_is_given", "--ignored"]).env("STACK", size.to_string());
    child.stdout(Stdio::null()).stderr(Stdio::null()).status().expect("a process").success()
}

/// The least stack, in pages, on which the calls run is what the header says, and at most what the thread needs beside it.
#[test]
fn the_least_stack() {
    let (mut short, mut enough) = (16, (CALL + THREAD) / 4096);
    assert!(!is_enough(short * 4096) && is_enough(enough * 4096));
    while enough - short > 1 {
        let middle = (short + enough) / 2;
        *if is_enough(middle * 4096) { &mut enough } else { &mut short } = middle;
    }
    assert!((NEEDED..=NEEDED + THREAD).contains(&(enough * 4096)), "the calls need a stack of {} bytes", enough * 4096);
}

#[test]
fn header_and_wrapper_say_it() {
    let needed = format!("needs about {},{:03} bytes of stack", NEEDED / 1000, NEEDED % 1000);
    let enough = format!("{},{:03} bytes are enough", CALL / 1000, CALL % 1000);
    for file in ["include/belaykeel.h", "rust/belaykeel/src/raw.rs"] {
        let found = lines(file, |line| line.contains("bytes of stack"));
        assert!(found.len() == 1 && found[0].contains(&needed) && found[0].contains(&enough), "{file}: {needed}; {enough}");
    }
}
