//! The library's calls as they are, on slices, with C's parameters in C's order: any sheet, order, engine and space can be lent, and each
//! call answers with its number. A call that gives offers needs about 163,000 bytes of stack; 196,608 bytes are enough.
//!
//! `sheet` has the sheet's bytes, `engine` is the engine's number, and `order` has every field of the sheet just once. An accepted call
//! writes the n masks of the offers to the front of `offers`. `rows` and `memory` are the work spaces: what they hold before a call affects
//! no answer; afterwards they may hold anything, and are as they were where 6 refuses.
//!
//! The only file with unsafe code. Every function is safe: the library takes any slices, and those lent here cannot overlap.

use crate::session::Session;
use core::mem::offset_of;

/// The least words of an offers list.
pub const OFFERS_WORDS: usize = 24;
/// The least words of the first work space.
pub const ROWS_WORDS: usize = 13_248;
/// The least words of the second work space.
pub const MEMORY_WORDS: usize = 13_824;
/// The largest setting, and the largest number c of a rule or triple, in micrometres.
pub const LARGEST_SETTING: u32 = 1_000_000;
/// How far the distance of a pair may be from c under kind 5, in micrometres.
pub const ENCODER_TOLERANCE: u32 = 2;
/// The most numbers of a sheet.
pub const SHEET_NUMBERS: usize = 8_184;
/// The most bytes of a sheet.
pub const SHEET_BYTES: usize = 29_273;

/// What reading and writing answer: 0 and a length, or the number of a refusal and 0.
#[repr(C)]
#[derive(Clone, Copy, Debug, PartialEq, Eq)]
pub struct Answer {
    /// 0 or the number of the refusal.
    pub number: u32,
    /// How many numbers were read or bytes written.
    pub length: usize,
}

// The library's layout of an answer, in bytes; examples/c/layout.c holds C callers to the same.
const _: () = {
    assert!(offset_of!(Answer, number) == 0);
    assert!(offset_of!(Answer, length) == 8);
    assert!(size_of::<Answer>() == 16);
};

/// The type of a parameter of a sort.
#[rustfmt::skip]
macro_rules! slice {
    (Session) => { &mut Session };
    (Number) => { u32 };
    (Sheet) => { &[u8] };
    (Bytes) => { &[u8] };
    (Words) => { &[u32] };
    (WrittenBytes) => { &mut [u8] };
    (WrittenWords) => { &mut [u32] };
    (Work) => { &mut [u32] };
}

/// Its type in C, without the length.
#[rustfmt::skip]
macro_rules! pointer {
    (Session) => { *mut Session };
    (Number) => { u32 };
    (Sheet) => { *const u8 };
    (Bytes) => { *const u8 };
    (Words) => { *const u32 };
    (WrittenBytes) => { *mut u8 };
    (WrittenWords) => { *mut u32 };
    (Work) => { *mut u32 };
}

/// What is passed to C, without the length.
#[rustfmt::skip]
macro_rules! passed {
    (Session, $session:ident) => { $session };
    (Number, $number:ident) => { $number };
    (Sheet, $sheet:ident) => { $sheet.as_ptr() };
    (Bytes, $bytes:ident) => { $bytes.as_ptr() };
    (Words, $words:ident) => { $words.as_ptr() };
    (WrittenBytes, $bytes:ident) => { $bytes.as_mut_ptr() };
    (WrittenWords, $words:ident) => { $words.as_mut_ptr() };
    (Work, $words:ident) => { $words.as_mut_ptr() };
}

/// Declares each call of the table, and its safe function on slices.
macro_rules! declare {
    ($(
        $(#[$about:meta])*
        $Call:ident $name:ident $symbol:ident
            ($($before:ident $($before_len:ident)? : $before_sort:ident),*)
            $({ $($value:ident $($value_len:ident)? : $sort:ident),* })?
            ($($after:ident $($after_len:ident)? : $after_sort:ident),*)
            -> $answer:ident { $($other:ident),* } refused by $([$($number:literal)*])*;
    )*) => {$(
        $(#[$about])*
        #[allow(clippy::too_many_arguments)]
        pub fn $name(
            $($before: slice!($before_sort),)*
            $($($value: slice!($sort),)*)?
            $($after: slice!($after_sort),)*
        ) -> $answer {
            extern "C" {
                fn $symbol(
                    $($before: pointer!($before_sort), $($before_len: usize,)?)*
                    $($($value: pointer!($sort), $($value_len: usize,)?)*)?
                    $($after: pointer!($after_sort), $($after_len: usize,)?)*
                ) -> $answer;
            }
            $($(let $before_len = $before.len();)?)*
            $($($(let $value_len = $value.len();)?)*)?
            $($(let $after_len = $after.len();)?)*
            // Each pointer comes from a slice with its length, and no two of the mutable ones overlap.
            unsafe {
                $symbol(
                    $(passed!($before_sort, $before), $($before_len,)?)*
                    $($(passed!($sort, $value), $($value_len,)?)*)?
                    $(passed!($after_sort, $after), $($after_len,)?)*
                )
            }
        }
    )*};
}

public_calls::table!(declare);
