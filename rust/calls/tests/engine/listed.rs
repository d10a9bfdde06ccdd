//! What the engine lists for a card.

use bridgecrumb::{minimal_erasures, Edition::First, Listing};

/// The lister's answer for a good card of edition 1, and the entries that it writes.
pub fn listed(card: &[u8]) -> (Listing, Vec<u32>) {
    let mut list = vec![0; 1 << card[0]];
    let told = minimal_erasures(First, card, &mut list).expect("a good card, and room for all");
    list.truncate(told.count);
    (told, list)
}
