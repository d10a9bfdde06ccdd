//! Every call of the archive beside a reference written from the documents alone, for tests and fuzzing.
//!
//! `table::TABLE` has a row for each call: arguments, good and bad; the call itself, as include/bridgecrumb.h declares it and
//! by its safe function; and the reference's answer. A new call is a row, a function of `reference` and its safe function.

pub mod cards;
pub mod choice;
pub mod editions;
pub mod input;
pub mod lent;
pub mod planted;
pub mod records;
pub mod reference;
mod rows;
pub mod stripes;
pub mod table;
pub mod tried;
pub mod whole;
