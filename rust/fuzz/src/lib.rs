//! A libFuzzer target over the table of calls. An input chooses a row, where buffers stand, and the arguments. What guides the search are
//! the branches of this target and of the reference; the archive has none that are counted.

use calls::choice::Choice;
use calls::lent::{Lent, Place};
use calls::planted;
use calls::table::Row;
use std::cell::RefCell;

thread_local! {
    static LENT: RefCell<Option<(Lent, Vec<Row>)>> = RefCell::default();
}

/// # Safety
/// `bytes` has `count` bytes.
#[no_mangle]
pub unsafe extern "C" fn LLVMFuzzerTestOneInput(bytes: *const u8, count: usize) -> i32 {
    let bytes = if count == 0 { &[] } else { std::slice::from_raw_parts(bytes, count) };
    let mut choice = Choice::of_bytes(bytes);
    LENT.with(|lent| {
        let mut lent = lent.borrow_mut();
        let (lent, rows) = lent.get_or_insert_with(|| (Lent::new(), planted::table().to_vec()));
        let (row, place) = (rows[choice.below(rows.len())], Place::of_turn(choice.below(48)));
        let input = (row.any)(&mut choice);
        if choice.rare || !(row.heavy)(&input) {
            row.try_input(&input, lent, place);
        }
    });
    0
}
