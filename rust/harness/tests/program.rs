//! The program reads nothing into a full room: an event counter gives eight bytes at each read and refuses to give none.

use std::fs::File;
use std::os::fd::FromRawFd;
use std::os::raw::{c_int, c_uint};
use std::process::Command;

extern "C" {
    fn eventfd(count: c_uint, flags: c_int) -> c_int;
}

/// A read takes 1 from the counter.
const EFD_SEMAPHORE: c_int = 1;

#[test]
fn full_room() {
    // As many reads as fill the program's room of 32,768 bytes. The first number is 1, and the bytes after it are none of a sheet's.
    let counter = unsafe { File::from_raw_fd(eventfd(32768 / 8, EFD_SEMAPHORE)) };
    let program = concat!(env!("CARGO_MANIFEST_DIR"), "/../../crates/belaykeel_offers/out/belaykeel_offers");
    let output = Command::new(program).stdin(counter).output().expect(program);
    assert_eq!(String::from_utf8_lossy(&output.stdout), "refused 3\n");
    assert!(output.status.success() && output.stderr.is_empty());
}
