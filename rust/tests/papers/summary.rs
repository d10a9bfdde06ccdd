//! Document 002, Table II: "Summary of results for k = 15". The rows of the flat codes; MDS codes are not
//! flat, and replication is a code with one data disk.
use crate::codes::{choose, Code};
use crate::flat::{chain, combination, Combination};
use crate::plain::shortest_equations;

/// The columns "Stor. over.", "Small write", "Min. RE", "Read load" and "% fail at d" as printed.
struct Printed {
    storage: &'static str,
    write: &'static str,
    shortest: &'static str,
    load: &'static str,
    fail: &'static str,
}

/// The figure with as many places as the printed one.
fn like(figure: f64, printed: &str) -> String {
    let places = printed.split('.').nth(1).map_or(0, str::len);
    format!("{:.*}", places, figure)
}

/// Storage is n / k; a small write goes to as many parities as the data disk is in, on average (V-C); the
/// shortest equation's size is averaged over all disks (V-D), and its load spread over the other n - 1
/// (V-E); at the distance d a set that loses data is a minimal erasure, one of n choose d (V-F).
fn check(code: &Code, d: usize, printed: Printed) {
    let (k, n) = (code.k as f64, code.n() as f64);
    assert_eq!(like(n / k, printed.storage), printed.storage);
    let in_parities: u32 = code.columns.iter().map(|column| column.count_ones()).sum();
    assert_eq!(like(f64::from(in_parities) / k, printed.write), printed.write);

    let first: Vec<usize> = (0..code.n()).map(|disk| code.equations(disk)[0].count_ones() as usize).collect();
    assert_eq!(first, shortest_equations(code));
    let shortest = first.iter().sum::<usize>() as f64 / n;
    assert_eq!(like(shortest, printed.shortest), printed.shortest);
    assert_eq!(like(shortest / (n - 1.0), printed.load), printed.load);

    assert_eq!(code.distance(), d);
    let fail = 100.0 * code.vector()[d - 1] as f64 / choose(code.n(), d) as f64;
    assert_eq!(like(fail, printed.fail), printed.fail);
}

macro_rules! printed {
    ($storage:literal $write:literal $shortest:literal $load:literal $fail:literal) => {
        Printed { storage: $storage, write: $write, shortest: $shortest, load: $load, fail: $fail }
    };
}

#[test]
fn stepped_combination_codes() {
    check(&combination(Combination::Stepped, 3, 15), 3, printed!("1.33" "2.33" "6.45" "0.34" "3.8"));
    check(&combination(Combination::Stepped, 4, 15), 4, printed!("1.40" "3.00" "6.48" "0.32" "3.5"));
}

#[test]
fn hd_combination_codes() {
    check(&combination(Combination::Hd, 3, 15), 3, printed!("1.40" "2.00" "5.00" "0.25" "2.6"));
    check(&combination(Combination::Hd, 4, 15), 4, printed!("1.40" "3.00" "6.48" "0.32" "3.5"));
}

/// V-G: "the HDComb and StepComb constructions for this specific value of k are identical", with d = 4.
#[test]
fn with_d_4_both_combination_codes_are_one() {
    let [stepped, hd] = [Combination::Stepped, Combination::Hd].map(|kind| combination(kind, 4, 15));
    assert_eq!(stepped.columns, hd.columns);
}

/// Printed as the last figure of the chain with d = 4 is 1.1, ten times the true one. Erasures of 4 disks
/// are a data disk with its 3 parities, or two neighbours with the 2 parities that they don't share: 15
/// of each, 30 of the 27,405 sets of 4 disks. (Three data disks change an odd number of parities, which
/// is never 1, and no four change none.)
#[test]
fn chain_codes() {
    check(&chain(15, 3), 3, printed!("2.00" "2.00" "2.00" "0.069" "0.37"));
    check(&chain(15, 4), 4, printed!("2.00" "3.00" "3.00" "0.10" "0.11"));
    assert_eq!(chain(15, 4).vector()[3], 30);
}
