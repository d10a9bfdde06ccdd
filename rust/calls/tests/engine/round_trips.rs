//! The reader accepts only what the writer can write: an accepted file is what the engine writes from its own answers.

use bridgecrumb::{body, read_record, write_card, write_record, Edition::First};
use calls::choice::Choice;
use calls::records::any_file;

/// Whether it is accepted; then it is written again, with any bytes for lost strips.
fn written_again(choice: &mut Choice, file: &[u8]) -> bool {
    let record = match read_record(file) {
        Ok(record) => record,
        Err(_) => return false,
    };
    let mut card = vec![0; 2 + 2 * record.m];
    write_card(First, record.k, record.m, &record.columns[..record.m], &[], &mut card).expect("the card that was read");
    let mut stripe = Vec::new();
    for disk in 0..record.k + record.m {
        match body(file, disk) {
            Ok(strip) => stripe.extend(strip),
            Err(_) => stripe.extend(choice.bytes(record.strip_len)),
        }
    }
    let mut again = choice.bytes(file.len());
    assert_eq!(write_record(&card, record.strip_len, record.lost, &stripe, &mut again), Ok(file.len()), "{file:02x?}");
    assert_eq!(again, file);
    true
}

#[test]
fn accepted_files_are_written_again() {
    let mut choice = Choice::named("round trips");
    let accepted = (0..200_000).filter(|_| {
        let file = any_file(&mut choice).file;
        written_again(&mut choice, &file)
    });
    let accepted = accepted.count();
    assert!(accepted > 20_000, "{accepted} files accepted: the choice of files is poor");
    println!("round trips: {accepted} of 200000 files written again");
}
