//! The reference's quick methods beside its literal ones.

use calls::cards::{card_of_size, every_card};
use calls::choice::Choice;
use calls::reference::{code, literal, quick, Code};

fn sorted(mut sets: Vec<u32>) -> Vec<u32> {
    sets.sort_unstable();
    sets
}

fn same_methods(code: &Code, choice: &mut Choice) {
    assert_eq!(sorted(literal::minimal_erasures(code)), sorted(quick::minimal_erasures(code)), "{code:?}");
    for disk in 0..code.n() {
        assert_eq!(
            sorted(literal::equations(code, disk)),
            sorted(quick::equations(code, disk)),
            "{code:?}, disk {disk}"
        );
    }
    for set in 0..=code.disks() {
        let undetermined = literal::undetermined(code, set);
        assert_eq!(undetermined != 0, literal::fatal(code, set), "{code:?}, set {set}");
        assert_eq!(undetermined, quick::undetermined(code, set), "{code:?}, set {set}");
        assert_eq!(undetermined, quick::undetermined_by_two_words(code, set), "{code:?}, set {set}");
        let agreeing = quick::Agreeing::new(code, set);
        for _ in 0..4 {
            let word = choice.below(code.held.len());
            let spoiled = if choice.one_in(2) { 1 << choice.below(code.n()) } else { 0 };
            let bits = (code.held[word] ^ spoiled) & !set;
            assert_eq!(literal::agreeing(code, set, bits), agreeing.words(bits), "{code:?}, set {set}");
        }
    }
}

#[test]
fn quick_methods_on_every_small_card() {
    let mut choice = Choice::named("methods, small");
    let cards: Vec<_> = (2..=6).flat_map(every_card).collect();
    for card in &cards {
        same_methods(&code(card).unwrap(), &mut choice);
    }
    println!("methods: {} small cards", cards.len());
}

#[test]
fn quick_methods_on_random_cards() {
    let mut choice = Choice::named("methods, random");
    for _ in 0..300 {
        let n = 7 + choice.below(3);
        let k = 1 + choice.below(n - 1);
        let card = card_of_size(&mut choice, k, n - k);
        same_methods(&code(&card).unwrap(), &mut choice);
    }
    println!("methods: 300 random cards of 7 to 9 disks");
}
