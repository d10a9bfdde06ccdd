//! Document 02, request [10]: two editions of the card. What is read can be written again, the converter goes both ways, no bytes are a card of both
//! editions, and what a call answers and writes depends on k, m and the columns only.

use crate::worked::worked;
use bridgecrumb::{card_down, card_up, read_card, write_card, Error};
use calls::cards::{any_card, c1, card_of, card_of_size, every_card, good_card};
use calls::choice::Choice;
use calls::editions::{any_wears, with_wears, worn, EDITIONS};
use calls::input::{bytes_of, Input};
use calls::lent::{Lent, Place};
use calls::reference::{self, Card, Edition};
use calls::table::{Row, TABLE};

/// Whether the engine's reader accepts the card; then its writer makes the same bytes of what was read.
fn written_again(card: &Card) -> bool {
    let edition = card.edition.named();
    let said = match read_card(edition, card) {
        Ok(said) => said,
        Err(_) => return false,
    };
    let n = said.k + said.m;
    assert!(said.wears[..n].iter().all(|&wear| wear > 0) && said.wears[n..] == [0; 32][n..], "{card:?}");
    let wears = if card.edition == Edition::Second { &said.wears[..n] } else { &[] };
    let mut again = vec![0; card.len()];
    write_card(edition, said.k, said.m, &said.columns[..said.m], wears, &mut again).expect("what was read");
    assert_eq!(again, card.bytes);
    true
}

fn up(first: &[u8], n: usize) -> Vec<u8> {
    let mut second = vec![0; first.len() + 1 + n];
    card_up(first, &mut second).expect("a good card goes up");
    second
}

/// A good card of edition 1 goes up, with every wear 1, and down again to the same bytes, and then up again to the same. Both are written again, and so
/// is the card with these wears, which goes down only where all are 1.
fn both_ways(first: &Card, wears: &[u8]) {
    let (n, mut down) = (wears.len(), vec![0; first.len()]);
    let second = up(first, n);
    assert_eq!(second, with_wears(first, &vec![1; n]).bytes);
    card_down(&second, &mut down).expect("every wear is 1");
    assert_eq!(down, first.bytes);
    assert_eq!(up(&down, n), second);
    let (second, worn) = (Card::second(second), with_wears(first, wears));
    assert!(written_again(first) && written_again(&second) && written_again(&worn), "{first:?}, {wears:?}");
    let ones = wears.iter().all(|&wear| wear == 1);
    assert_eq!(card_down(&worn, &mut down), if ones { Ok(()) } else { Err(Error::Lossy) }, "{worn:?}");
    assert_eq!(down, first.bytes);
}

/// Of all cards of up to 7 disks: every wear any, one alone not 1, and all 1.
#[test]
fn small_cards_both_ways() {
    let mut choice = Choice::named("editions, small");
    for n in 2..=7 {
        for first in every_card(n) {
            let mut one_tired = vec![1; n];
            one_tired[choice.below(n)] = 1 + choice.below(255) as u8;
            both_ways(&first, &one_tired);
            both_ways(&first, &any_wears(&mut choice, n));
            both_ways(&first, &vec![1; n]);
        }
    }
}

/// Up to 16 + 16 disks; and each disk alone with each wear.
#[test]
fn any_cards_both_ways() {
    let mut choice = Choice::named("editions, any");
    for _ in 0..20_000 {
        let first = good_card(&mut choice, 16, 16);
        let n = usize::from(first[0] + first[1]);
        both_ways(&first, &any_wears(&mut choice, n));
    }
    let first = card_of(16, 16, &[0x8001; 16]);
    for (disk, wear) in (0..32).flat_map(|disk| (1..=255).map(move |wear| (disk, wear))) {
        let mut wears = [1; 32];
        wears[disk] = wear;
        both_ways(&first, &wears);
    }
}

/// Cards that may be damaged: what the reader accepts can be written.
#[test]
fn accepted_cards_are_written_again() {
    let mut choice = Choice::named("editions, accepted");
    let cards: Vec<Card> = (0..200_000).map(|_| any_card(&mut choice, 16)).collect();
    for edition in EDITIONS {
        let named: Vec<&Card> = cards.iter().filter(|card| card.edition == edition).collect();
        let accepted = named.iter().filter(|card| written_again(card)).count();
        assert!(accepted * 3 > named.len() && accepted * 20 < named.len() * 19, "{accepted} of {}", named.len());
    }
}

/// No bytes are a good card of both editions: all small cards, and those whose length is right in the other one too. Read as edition 1, a good card of
/// edition 2 has two data disks, and a column with a wear for its high byte. Read as edition 2, a good card of edition 1 has two data disks in truth, so
/// that the high bytes of its columns are 0, and one of them stands for a wear, or for the low byte of a column that is too large.
#[test]
fn of_one_edition_alone() {
    let mut choice = Choice::named("editions, one alone");
    let mut sizes = vec![(2, 4), (2, 7), (2, 10), (4, 1), (7, 2), (10, 3), (13, 4), (16, 5)];
    sizes.extend((0..60).map(|_| (1 + choice.below(16), 1 + choice.below(16))));
    let any = sizes.iter().cycle().take(20_000).map(|&(k, m)| card_of_size(&mut choice, k, m));
    let firsts: Vec<Card> = any.collect::<Vec<_>>().into_iter().chain((2..=7).flat_map(every_card)).collect();
    for first in firsts {
        let second = worn(&mut choice, &first);
        for card in [&first, &second] {
            assert!(read_card(card.edition.named(), card).is_ok(), "{card:?}");
        }
        assert!(read_card(bridgecrumb::Edition::Second, &first).is_err(), "{first:?}");
        assert!(read_card(bridgecrumb::Edition::First, &second).is_err(), "{second:?}");
    }
}

/// What the archive's call answers, and every buffer that it may write.
fn told(row: &Row, input: &Input, lent: &mut Lent) -> (u64, Vec<Vec<u8>>) {
    lent.begin(Place::End);
    let answer = (row.engine)(input, lent);
    (answer, lent.all_written())
}

/// Cards of any editions and with any wears that have one code give one answer and the same bytes, in every call but reader, writer and least wear,
/// refused ones too.
#[test]
fn one_code_one_answer() {
    let (mut lent, mut tried) = (Lent::new(), 0);
    let own = ["card_read", "card_write", "least_wear"];
    for row in TABLE.iter().filter(|row| row.editions.len() == 2 && !own.contains(&row.name)) {
        let mut choice = Choice::named(&format!("editions, one code, {}", row.name));
        for _ in 0..4_000 {
            choice.rare = choice.one_in(100);
            let mut input = (row.any)(&mut choice);
            if reference::read_card(&input.card).is_err() {
                continue;
            }
            let (first, other) = (Card::first(input.card.code_bytes().to_vec()), input.other.clone());
            input.card = first.clone();
            let wanted = told(row, &input, &mut lent);
            for _ in 0..3 {
                input.card = worn(&mut choice, &first);
                if reference::read_card(&other).is_ok() {
                    let first = Card::first(other.code_bytes().to_vec());
                    input.other = if choice.one_in(2) { worn(&mut choice, &first) } else { first };
                }
                assert!(told(row, &input, &mut lent) == wanted, "{}: {:?}, {:?}", row.name, input.card, input.other);
                tried += 1;
            }
        }
    }
    assert!(tried > 60_000, "{tried} calls: the choice of arguments is poor");
}

fn read(card: Card, answer: u64) {
    worked("card_read", Input { card, ..Input::default() }, answer, Vec::new());
}

/// C11's card in edition 2, and refusals in the document's order: 1, 22, 2, 3, 4, 5, 23.
#[test]
fn cards_by_hand() {
    let written = |wears: [u8; 3]| {
        let (mut columns, mut places) = (vec![3], wears.to_vec());
        columns.resize(16, 0);
        places.resize(32, 0);
        vec![bytes_of(&[2, 1], usize::to_le_bytes), bytes_of(&columns, u16::to_le_bytes), places]
    };
    let card = |bytes: &[u8]| Card::second(bytes.to_vec());
    let good = |wears: [u8; 3]| card(&[&[2, 2, 1, 3, 0], &wears[..]].concat());
    for wears in [[1, 1, 1], [7, 255, 1], [255, 255, 255]] {
        worked("card_read", Input { card: good(wears), ..Input::default() }, 0, written(wears));
    }
    (0..3).for_each(|len| read(card(&[9, 0, 0][..len]), 1));
    read(card(&[2, 0]), 1);
    read(card(&[1, 0, 0]), 22);
    (0..=255).filter(|&byte| byte != 2).for_each(|byte| read(card(&[byte, 2, 1, 3, 0, 1, 1, 1]), 22));
    read(card(&[2, 0, 0]), 2);
    read(card(&[2, 17, 1, 3, 0, 1, 1, 1]), 2);
    read(card(&[2, 2, 0]), 3);
    read(card(&[2, 2, 17, 3, 0, 1, 1, 1]), 3);
    read(card(&[2, 2, 1]), 4);
    read(card(&[2, 2, 1, 0, 0]), 4);
    read(card(&[2, 2, 1, 3, 0, 1, 1]), 4);
    read(card(&[2, 2, 1, 3, 0, 1, 1, 1, 1]), 4);
    read(card(&[2, 2, 1, 4, 0, 0, 0, 0]), 5);
    read(card(&[2, 2, 2, 1, 0, 0, 1, 0, 0, 0, 0]), 5 + 256);
    for disk in 0..3 {
        let mut wears = [1, 2, 3];
        wears[disk] = 0;
        read(good(wears), 23);
    }
    // each named as the other
    read(Card::first(good([1, 1, 1]).bytes), 4);
    read(Card::second(vec![2, 1, 3, 0]), 4);
    read(Card::second(c1().bytes), 22);
}

/// The writer, refusals 2, 3, 4, 5, 23, 7.
#[test]
fn writer_by_hand() {
    let write = |edition, columns: &[u16], wears: &[u8], out_len, answer, written: &[u8]| {
        let (card, columns, wears) = (Card { edition, bytes: Vec::new() }, columns.to_vec(), wears.to_vec());
        let input = Input { card, k: 2, m: 1, columns, wears, out_len, ..Input::default() };
        let written = if answer == 0 { vec![written.to_vec()] } else { Vec::new() };
        worked("card_write", input, answer, written);
    };
    let [first, second] = EDITIONS;
    write(first, &[3], &[], 4, 0, &[2, 1, 3, 0]);
    write(second, &[3], &[7, 1, 255], 8, 0, &[2, 2, 1, 3, 0, 7, 1, 255]);
    write(first, &[0], &[1, 1, 1], 8, 4, &[]);
    write(first, &[3], &[0], 4, 4, &[]);
    write(second, &[0], &[], 4, 4, &[]);
    write(second, &[0], &[0, 0], 0, 4, &[]);
    write(second, &[3], &[1, 1, 1, 1], 9, 4, &[]);
    write(second, &[], &[1, 1, 1], 8, 4, &[]);
    write(second, &[4], &[0, 0, 0], 0, 5, &[]);
    write(second, &[3], &[1, 0, 1], 0, 23, &[]);
    write(second, &[3], &[1, 1, 0], 8, 23, &[]);
    write(second, &[3], &[1, 1, 1], 4, 7, &[]);
    write(first, &[3], &[], 8, 7, &[]);
}

/// The converter: 7 after the card's refusals, and 24 last.
#[test]
fn converter_by_hand() {
    let convert = |name, bytes: &[u8], out_len, answer, written: &[u8]| {
        let input = Input { card: Card::first(bytes.to_vec()), out_len, ..Input::default() };
        let written = if answer == 0 { vec![written.to_vec()] } else { Vec::new() };
        worked(name, input, answer, written);
    };
    convert("card_up", &[2, 1, 3, 0], 8, 0, &[2, 2, 1, 3, 0, 1, 1, 1]);
    convert("card_up", &[2, 1, 3, 0], 4, 7, &[]);
    convert("card_up", &[2, 1, 4, 0], 4, 5, &[]);
    convert("card_up", &[2, 2, 1, 3, 0, 1, 1, 1], 8, 4, &[]);
    convert("card_down", &[2, 2, 1, 3, 0, 1, 1, 1], 4, 0, &[2, 1, 3, 0]);
    convert("card_down", &[2, 2, 1, 3, 0, 1, 2, 1], 5, 7, &[]);
    convert("card_down", &[2, 2, 1, 3, 0, 1, 2, 1], 4, 24, &[]);
    convert("card_down", &[2, 2, 1, 3, 0, 0, 2, 1], 5, 23, &[]);
    convert("card_down", &[3, 2, 1, 3, 0, 1, 2, 1], 5, 22, &[]);
    convert("card_down", &[2, 1, 3, 0], 4, 4, &[]);
}
