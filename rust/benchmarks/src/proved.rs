//! The proved engines alone. The only file with unsafe code: the declaration of the library's function, and a wrapper that checks what it
//! asks.

use crate::measure::timed;
use crate::plain::read_write::outline;
use crate::task::Job;
use crate::{Offers, MOST};
use belaykeel::raw::{MEMORY_WORDS, ROWS_WORDS};
use belaykeel::Engine;

extern "C" {
    fn engines_offers(
        domains: *mut u32,
        engine: u32,
        order: *const u8,
        order_len: usize,
        selected: u32,
        length: usize,
        rows: *mut u32,
        rows_len: usize,
        memory: *mut u32,
        memory_len: usize,
    ) -> bool;
}

/// The lent work spaces.
pub struct Proved {
    rows: Vec<u32>,
    memory: Vec<u32>,
}

impl Default for Proved {
    fn default() -> Proved {
        Proved { rows: vec![0; ROWS_WORDS], memory: vec![0; MEMORY_WORDS] }
    }
}

impl Proved {
    /// The offers, and the microseconds that they took. The numbers are checked and put at the front of the memory before that.
    pub fn offers(&mut self, engine: Engine, job: &Job) -> (Offers, f64) {
        check(job);
        self.memory[..job.numbers.len()].copy_from_slice(&job.numbers);
        let (rows, memory, order) = (&mut self.rows, &mut self.memory, &job.order);
        let mut domains = job.start;
        // The list is accepted and stands at the front of the memory, the set is within it, the order has each field once, and the mask
        // selects some of them and no other.
        let (wiped, time) = timed(|| unsafe {
            engines_offers(
                domains.as_mut_ptr(),
                engine.number(),
                order.as_ptr(),
                order.len(),
                job.selected,
                job.numbers.len(),
                rows.as_mut_ptr(),
                rows.len(),
                memory.as_mut_ptr(),
                memory.len(),
            )
        });
        ((!wiped).then_some(domains), time)
    }
}

/// Panics where the job lacks something that the library asks for.
fn check(job: &Job) {
    let outline = outline(&job.numbers).unwrap_or_else(|number| panic!("refused with {number}: {job:?}"));
    let mut sorted = job.order.clone();
    sorted.sort_unstable();
    assert!(sorted.into_iter().map(usize::from).eq(0..outline.fields), "not an order: {job:?}");
    assert!((0..MOST).all(|f| job.start[f] & !outline.full[f] == 0), "not a set: {job:?}");
    assert!(job.selected != 0 && job.selected >> outline.fields == 0, "not a selection: {job:?}");
}
