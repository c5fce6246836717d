//! The order of causes: of each call none, each alone, each two of different stages, and one of every stage. The number is that of the
//! first stage in the table of the public calls, and the whole effect is the solver's.

use harness::causes::{causes, with_causes, Cause, CAUSES};
use harness::linked::Linked;
use harness::runner::Runner;
use harness::text::print;
use public_calls::Name;

/// Makes the call with these causes.
fn check(name: Name, causes: &[&Cause]) {
    let (case, expected) = with_causes(name, causes);
    let says: Vec<&str> = causes.iter().map(|cause| cause.says).collect();
    let mut library = Linked;
    let mut runner = Runner::new(&mut library, &case.sheet, &case.session);
    assert_eq!(runner.step(&case.steps[0]), Ok(Some(expected)), "{says:?}\n{}", print(&case));
}

/// For each stage the cause at this place among those of the stage, where it has fewer the last.
fn of_every_stage<'a>(name: Name, all: &[&'a Cause], place: usize) -> Vec<&'a Cause> {
    let of_stage = |stage: &&[u32]| all.iter().copied().filter(|cause| stage.contains(&cause.number)).collect::<Vec<_>>();
    name.row().stages.iter().map(of_stage).map(|stage| stage[place.min(stage.len() - 1)]).collect()
}

#[test]
fn first_cause_in_order() {
    for &name in Name::ALL {
        let all = causes(name);
        check(name, &[]);
        for (place, &cause) in all.iter().enumerate() {
            check(name, &[cause]);
            check(name, &of_every_stage(name, &all, place));
            for &other in all[..place].iter().filter(|other| name.row().stage(other.number) != name.row().stage(cause.number)) {
                check(name, &[cause, other]);
            }
        }
    }
}

/// Every number of every row has a cause, and every cause is one of some call.
#[test]
fn every_number_has_a_cause() {
    for &name in Name::ALL {
        let without = name.row().numbers().find(|&number| !causes(name).iter().any(|cause| cause.number == number));
        assert_eq!(without, None, "{name:?}");
    }
    for cause in CAUSES {
        assert!(Name::ALL.iter().any(|&name| causes(name).iter().any(|used| std::ptr::eq(*used, cause))), "{}", cause.says);
    }
}
