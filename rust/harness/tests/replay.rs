//! Replays a case that was printed: BELAYKEEL_REPLAY names a file with its text. Without it, two cases that are kept here.

use harness::linked::Linked;
use harness::runner::run;
use harness::text::{parse, print};

const KEPT: &str = "\
sheet x020364C801AC020364C801AC02180100010164
session choices 3:7 count 65 selected 5
open engine 1 order 0 1 selected 2 offers 24 rows 13248 memory 13824 fill word 0
strike engine 2 order 1 0 field 0 position 2 offers 25 rows 13248 memory 13824 fill noise 7
show sheet x8000 engine 0 order 1 1 offers 24 rows 0 memory 13824 fill left
session choices 0:1 events 0:1:0:0 count 1 selected 1
back engine 3 order 1 0 offers 24 rows 13248 memory 13825 fill left
sheet x0101AC021800
coil_on engine 1 order 0 offers 24 rows 13248 memory 13824 fill left
read output 5 fill left
write numbers 1 1 300 24 0 output 5 fill left
";

/// A sheet with a triple of its last three fields, of which one is outside the neighbourhood of field 0, and has its first setting struck.
const WITH_A_TRIPLE: &str = "\
sheet x0403000102030001020300010203000102010200010100000301000101020300
session strikes 2:1 selected 15
show engine 2 order 3 1 0 2 offers 24 rows 13248 memory 13824 fill word 0
show sheet x040105010501050105010002010203090001 engine 3 order 0 1 2 3 offers 24 rows 13248 memory 13824 fill left
";

#[test]
fn replay() {
    let texts = match std::env::var_os("BELAYKEEL_REPLAY") {
        Some(path) => vec![std::fs::read_to_string(path).expect("a file to replay")],
        None => [KEPT, WITH_A_TRIPLE].map(str::to_string).to_vec(),
    };
    for case in texts.iter().map(|text| parse(text)) {
        if let Err((step, differs)) = run(&mut Linked, &case) {
            panic!("{}step {}: {differs}", print(&case), step + 1);
        }
    }
}

#[test]
fn what_is_printed_is_read_again() {
    for text in [KEPT, WITH_A_TRIPLE] {
        assert_eq!(print(&parse(text)), text);
    }
}
