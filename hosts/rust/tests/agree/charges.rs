//! The proved charge beside another implementation of the same rule.

use crate::numbers::Numbers;
use crate::rules;
use futeq_host::charge;

const LARGEST: u64 = 320_000_000_000_000;
const DEAREST: u64 = 100_000_000;

fn agree(violated: u64, price: u64) -> Option<u64> {
    let wanted = rules::charge(violated, price);
    assert_eq!(
        charge(violated, price),
        wanted,
        "violated {violated}, price {price}"
    );
    wanted
}

#[test]
fn random_charges_agree() {
    let mut numbers = Numbers(3);
    let (mut refused, mut least, mut most, mut between) = (0, 0, 0, 0);
    for _ in 0..1_000_000 {
        let mut violated = numbers.about(1, LARGEST);
        let price = numbers.about(1, DEAREST);
        // Now and then a product near or between the two ends of a charge.
        if numbers.once_in(3) && price > 0 && price <= DEAREST {
            violated =
                numbers.within(400_000, 11_000_000) * 1_000_000 / price + numbers.within(0, 1);
        }
        match agree(violated, price) {
            None => refused += 1,
            Some(500_000) => least += 1,
            Some(10_000_000) => most += 1,
            Some(_) => between += 1,
        }
    }
    assert!(
        [refused, least, most, between]
            .iter()
            .all(|count| *count > 10_000),
        "{refused} {least} {most} {between}"
    );
}

#[test]
fn bounds_agree() {
    let quantities = [
        0,
        1,
        2,
        9_999,
        10_000,
        LARGEST - 1,
        LARGEST,
        LARGEST + 1,
        u64::MAX,
    ];
    let prices = [0, 1, 2, 1_234, DEAREST - 1, DEAREST, DEAREST + 1, u64::MAX];
    for violated in quantities {
        for price in prices {
            agree(violated, price);
        }
    }
}

/// Quantities at which the charge leaves the least and reaches the most.
#[test]
fn ends_of_the_charge_agree() {
    for price in [1, 3, 7, 1_000, 99_999, DEAREST] {
        for paise in [500_000, 500_001, 9_999_999, 10_000_000] {
            let violated = paise * 1_000_000 / price;
            for violated in violated.saturating_sub(2)..=violated + 2 {
                agree(violated, price);
            }
        }
    }
}

/// Products that would be small if 64 bits were all that they had.
#[test]
fn products_beyond_64_bits_agree() {
    let mut numbers = Numbers(4);
    let mut beyond = 0;
    for _ in 0..100_000 {
        let price = numbers.within(60_000, DEAREST);
        let times = numbers.within(1, 1_000);
        let violated = ((u128::from(times) << 64) / u128::from(price) + 1) as u64;
        beyond += usize::from(agree(violated, price) == Some(10_000_000));
    }
    assert!(beyond > 10_000, "{beyond}");
}

#[test]
fn known_charges() {
    assert_eq!(charge(1_000_000_000, 1_234), Some(1_234_000));
    assert_eq!(charge(1, 1), Some(500_000));
    assert_eq!(charge(LARGEST, DEAREST), Some(10_000_000));
    assert_eq!(charge(LARGEST + 1, DEAREST), None);
    assert_eq!(charge(0, 1_234), None);
    assert_eq!(charge(1_000_000_000, 0), None);
}
