//! Sheets on which something happens: those that are not wiped out, and those on which a hasty engine would be wrong.

use crate::faults::offers::{one_pass, short_queue};
use crate::shapes::{self, Size};
use crate::Random;
use solver::{Network, Sheet};

/// A sheet of this size: any, one that is not wiped out, or one where testing each setting once or putting back too few fields is not
/// enough. The latter two are looked for among a few sheets, and may not be found.
pub fn sheet(random: &mut Random, size: Size) -> Sheet {
    let (tries, stubborn) = random.pick(&[(1, false), (4, false), (4, false), (24, true)]);
    let tries = match size {
        Size::Small => tries,
        Size::Long | Size::Large => tries.min(4),
        Size::Full => 1,
    };
    let mut sheet = shapes::sheet(random, size);
    for _ in 1..tries {
        if good(random, &sheet, stubborn) {
            break;
        }
        sheet = shapes::sheet(random, size);
    }
    sheet
}

fn good(random: &mut Random, sheet: &Sheet, stubborn: bool) -> bool {
    let network = Network::of(sheet);
    let offers = network.offers(network.full, sheet.all_fields());
    if network.wiped_out(&offers) {
        return false;
    }
    let every: Vec<usize> = (0..sheet.fields()).collect();
    let closed = network.closing(network.full, &every);
    let order = random.order(sheet.fields());
    let hasty = || one_pass(&network, closed, &order) != offers || short_queue(&network, closed, &order) != offers;
    !stubborn || closed != offers && hasty()
}
