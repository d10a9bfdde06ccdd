//! The strip engine of a record cabinet: flat XOR erasure codes of up to 16 data and 16 parity disks.
//!
//! These are safe functions over `libbridgecrumb.a`, one for each call of the engine; the engine's code is
//! proved, this crate hands over slices and takes the answers apart. "Document 01" below is the paper that
//! says what the engine does, and document 02 the one that adds to it.
//!
//! - A *card* describes a code: the bytes k, m, then m columns of 2 bytes, low byte first. Bit i of column j
//!   is set when data disk i goes into parity disk k + j. The code has n = k + m disks: 0 to k - 1 are data,
//!   k to n - 1 parity. Every function checks the card it is given.
//! - A *set* of disks is a `u32`, bit i for disk i.
//! - A *stripe* is the strips of all disks in one buffer, disk i's at byte `i * strip_len`.
//! - A *turned stripe* is the same strips in slots, slot s at byte `s * strip_len`: stripe r has disk i's strip in slot
//!   (i + r) modulo n. A set of slots is a `u32` too, bit s for slot s.
//!
//! # Editions
//!
//! A card has one of two editions, and the caller names it by an [`Edition`]. Edition 1 is as above. Edition 2 is the byte
//! 0x02, then the same, then a wear of 1 to 255 for each of the n disks; in edition 1 every wear counts as 1. The card's
//! refusals are 1, 2, 3, 4, 5 for edition 1, and 1, 22, 2, 3, 4, 5, 23 for edition 2, in this order. Only the card reader, the
//! card writer, the converters and [`least_wear`] look at the wears beyond that. Records have edition 1.
//!
//! # What is wrong
//!
//! Every argument is legal: nothing panics and nothing is undefined, whatever bytes, numbers and lengths are
//! given. What is wrong is refused with an [`Error`], and a refused call leaves every lent buffer as it was.
//!
//! ```
//! use bridgecrumb::Edition;
//! // C7 and C8 of document 01: encode, lose three disks, rebuild them
//! let card = [4, 3, 7, 0, 11, 0, 13, 0];
//! let mut stripe = [0x11, 0x22, 0x44, 0x88, 0, 0, 0];
//! bridgecrumb::encode(Edition::First, &card, 1, &mut stripe)?;
//! assert_eq!(stripe[4..], [0x77, 0xBB, 0xDD]);
//! stripe[..3].fill(0);
//! assert_eq!(bridgecrumb::rebuild(Edition::First, &card, 1, 0b111, &mut stripe)?, 3);
//! assert_eq!(stripe, [0x11, 0x22, 0x44, 0x88, 0x77, 0xBB, 0xDD]);
//! # Ok::<(), bridgecrumb::Error>(())
//! ```
#![warn(missing_docs)]
#![deny(unsafe_code)]

#[cfg(not(target_pointer_width = "64"))]
compile_error!("the archive's lengths have 64 bits");

mod cards;
mod error;
#[allow(unsafe_code)]
#[doc(hidden)]
pub mod ffi;
mod records;
mod sets;
mod strips;
mod turns;

pub use cards::{alike, card_down, card_up, read_card, write_card, write_stepped_card, Card, Edition};
pub use error::Error;
pub use records::{body, read_record, write_record, Record};
pub use sets::{equations, least_wear, minimal_erasures, undetermined, Listing};
pub use strips::{encode, partial_rebuild, quick_repair, rebuild, update, Repair};
pub use turns::{rebuild_turned, turn, turn_back};
