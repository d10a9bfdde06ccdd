//! The archive's calls, as include/bridgecrumb.h declares them: the one module with unsafe code. The declarations are public for the tests alone, which
//! lend buffers of their own.
//!
//! What the archive asks of its caller holds for every function here, since its slices and arrays are
//! references. A slice's pointer reaches as many elements as the length beside it says, and an array's as many
//! as its type says. What is written is lent by `&mut`: it overlaps nothing else that is lent, and no other
//! thread has it. What is only read is lent by `&`: nobody writes it meanwhile. No pointer is kept. All
//! bytes and numbers are legal arguments, and any that the archive writes are legal values.

mod lending;

pub use lending::*;

use crate::Error;

#[allow(missing_docs)]
extern "C" {
    pub fn bridgecrumb_card_read(
        second: bool,
        card: *const u8,
        card_len: usize,
        counts: *mut usize,
        columns: *mut u16,
        wears: *mut u8,
    ) -> u64;
    pub fn bridgecrumb_card_write(
        second: bool,
        k: usize,
        m: usize,
        columns: *const u16,
        columns_len: usize,
        wears: *const u8,
        wears_len: usize,
        out: *mut u8,
        out_len: usize,
    ) -> u64;
    pub fn bridgecrumb_card_up(card: *const u8, card_len: usize, out: *mut u8, out_len: usize) -> u64;
    pub fn bridgecrumb_card_down(card: *const u8, card_len: usize, out: *mut u8, out_len: usize) -> u64;
    pub fn bridgecrumb_card_stepped(d: usize, m: usize, k: usize, out: *mut u8, out_len: usize) -> u64;
    pub fn bridgecrumb_alike(
        second: bool,
        card: *const u8,
        card_len: usize,
        other_second: bool,
        other: *const u8,
        other_len: usize,
    ) -> u64;
    pub fn bridgecrumb_encode(
        second: bool,
        card: *const u8,
        card_len: usize,
        strip_len: usize,
        stripe: *mut u8,
        stripe_len: usize,
    ) -> u64;
    pub fn bridgecrumb_verdict(second: bool, card: *const u8, card_len: usize, set: u32) -> u64;
    pub fn bridgecrumb_list(
        second: bool,
        card: *const u8,
        card_len: usize,
        out: *mut u32,
        out_len: usize,
        vector: *mut usize,
    ) -> u64;
    pub fn bridgecrumb_equations(
        second: bool,
        card: *const u8,
        card_len: usize,
        disk: usize,
        out: *mut u32,
        out_len: usize,
    ) -> u64;
    pub fn bridgecrumb_least_wear(second: bool, card: *const u8, card_len: usize, disk: usize, lost: u32) -> u64;
    pub fn bridgecrumb_rebuild(
        second: bool,
        card: *const u8,
        card_len: usize,
        strip_len: usize,
        lost: u32,
        stripe: *mut u8,
        stripe_len: usize,
    ) -> u64;
    pub fn bridgecrumb_partial_rebuild(
        second: bool,
        card: *const u8,
        card_len: usize,
        strip_len: usize,
        lost: u32,
        stripe: *mut u8,
        stripe_len: usize,
    ) -> u64;
    pub fn bridgecrumb_turn(
        second: bool,
        card: *const u8,
        card_len: usize,
        strip_len: usize,
        r: u32,
        stripe: *const u8,
        stripe_len: usize,
        out: *mut u8,
        out_len: usize,
    ) -> u64;
    pub fn bridgecrumb_turn_back(
        second: bool,
        card: *const u8,
        card_len: usize,
        strip_len: usize,
        r: u32,
        stripe: *const u8,
        stripe_len: usize,
        out: *mut u8,
        out_len: usize,
    ) -> u64;
    pub fn bridgecrumb_rebuild_turned(
        second: bool,
        card: *const u8,
        card_len: usize,
        strip_len: usize,
        r: u32,
        slots: u32,
        stripe: *mut u8,
        stripe_len: usize,
    ) -> u64;
    pub fn bridgecrumb_quick_repair(
        second: bool,
        card: *const u8,
        card_len: usize,
        strip_len: usize,
        lost: *const u32,
        count: usize,
        budget: usize,
        tray: *mut u8,
        tray_len: usize,
        left: *mut u32,
    ) -> u64;
    pub fn bridgecrumb_update(
        second: bool,
        card: *const u8,
        card_len: usize,
        strip_len: usize,
        stripe: *mut u8,
        stripe_len: usize,
        disk: usize,
        new_strip: *const u8,
        new_len: usize,
    ) -> u64;
    pub fn bridgecrumb_record_write(
        card: *const u8,
        card_len: usize,
        strip_len: usize,
        lost: u32,
        stripe: *const u8,
        stripe_len: usize,
        out: *mut u8,
        out_len: usize,
    ) -> u64;
    pub fn bridgecrumb_record_read(file: *const u8, file_len: usize, fields: *mut usize, columns: *mut u16) -> u64;
    pub fn bridgecrumb_record_body(file: *const u8, file_len: usize, disk: usize, place: *mut usize) -> u64;
}

/// Takes an answer apart: the refusal's number, 0 where the call was accepted, plus 256 times the value.
fn taken(answer: u64) -> Result<usize, Error> {
    let value = (answer >> 8) as usize;
    Err(match answer & 255 {
        0 => return Ok(value),
        1 => Error::CardShort,
        2 => Error::DataCount,
        3 => Error::ParityCount,
        4 => Error::CardLength,
        5 => Error::Column(value),
        6 => Error::StripLength,
        7 => Error::BufferLength,
        8 => Error::OutsideSet,
        9 => Error::NoDisk,
        10 => Error::ListShort(value),
        11 => Error::Fatal,
        12 => Error::Inconsistent,
        13 => Error::Mark,
        14 => Error::Contents,
        15 => Error::FileLength,
        16 => Error::NoRoom,
        17 => Error::StripeCount,
        18 => Error::ParityDisk,
        19 => Error::NewLength,
        20 => Error::Distance,
        21 => Error::Bounds,
        22 => Error::FirstByte,
        23 => Error::ZeroWear,
        24 => Error::Lossy,
        number => unreachable!("the archive has no refusal {number}"),
    })
}
