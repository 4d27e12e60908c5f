//! The proved limit beside another implementation of the same rule.

use crate::numbers::Numbers;
use crate::rules::{self, Part};
use futeq_host::{limit, limit_of_bytes};

const LARGEST: u64 = 10_000_000_000;

fn bytes_of(days: &[u64]) -> Vec<u8> {
    days.iter().flat_map(|day| day.to_be_bytes()).collect()
}

fn agree(free_float: u64, bytes: &[u8]) -> Option<Part> {
    let wanted = rules::limit(free_float, bytes);
    let got = limit_of_bytes(free_float, bytes);
    assert_eq!(
        got,
        wanted.map(|(limit, _)| limit),
        "free float {free_float}, bytes {bytes:?}"
    );
    wanted.map(|(_, part)| part)
}

/// Days round the average at which 65 × average is between 10% and 15% of the free float, as far as days reach.
fn telling_days(numbers: &mut Numbers, free_float: u64, count: u64) -> Vec<u64> {
    let percent = numbers.within(8, 17);
    let average =
        (u128::from(free_float) * u128::from(percent) / 6_500).min(u128::from(LARGEST)) as u64;
    (0..count)
        .map(|_| (average + numbers.within(0, 2)).min(LARGEST))
        .collect()
}

fn some_days(numbers: &mut Numbers, free_float: u64) -> Vec<u64> {
    let count = match numbers.within(0, 19) {
        0 => 0,
        1 => 93,
        2 => 92,
        3 => numbers.within(94, 300),
        _ => numbers.within(1, 92),
    };
    match numbers.within(0, 3) {
        0 => (0..count)
            .map(|_| numbers.of_any_size(0, LARGEST))
            .collect(),
        1 => {
            let mut days: Vec<u64> = (0..count)
                .map(|_| numbers.of_any_size(0, LARGEST))
                .collect();
            if !days.is_empty() {
                let place = numbers.any() as usize % days.len();
                days[place] = numbers.about(0, LARGEST);
            }
            days
        }
        _ => telling_days(numbers, free_float, count),
    }
}

#[test]
fn random_days_agree() {
    let mut numbers = Numbers(1);
    let (mut refused, mut floors, mut ceilings, mut averages) = (0, 0, 0, 0);
    for _ in 0..400_000 {
        let free_float = numbers.about(10, 1_000_000_000_000);
        let days = some_days(&mut numbers, free_float);
        assert_eq!(
            limit(free_float, &days),
            limit_of_bytes(free_float, &bytes_of(&days))
        );
        match agree(free_float, &bytes_of(&days)) {
            None => refused += 1,
            Some(Part::Floor) => floors += 1,
            Some(Part::Ceiling) => ceilings += 1,
            Some(Part::Average) => averages += 1,
        }
    }
    assert!(
        [refused, floors, ceilings, averages]
            .iter()
            .all(|count| *count > 10_000),
        "{refused} {floors} {ceilings} {averages}"
    );
}

/// Bytes of good days, with some cut off, some added, some turned or one changed.
#[test]
fn damaged_bytes_agree() {
    let mut numbers = Numbers(2);
    let (mut odd, mut turned_tells) = (0, 0);
    for _ in 0..200_000 {
        let free_float = numbers.of_any_size(10, 1_000_000_000_000);
        let count = numbers.within(1, 92);
        let mut bytes = bytes_of(&telling_days(&mut numbers, free_float, count));
        match numbers.within(0, 3) {
            0 => bytes.truncate(bytes.len() - numbers.within(1, 8) as usize),
            1 => (0..numbers.within(1, 8)).for_each(|_| bytes.push(numbers.any() as u8)),
            2 => {
                let before = limit_of_bytes(free_float, &bytes);
                bytes.chunks_mut(8).for_each(<[u8]>::reverse);
                turned_tells += usize::from(limit_of_bytes(free_float, &bytes) != before);
            }
            _ => {
                let place = numbers.any() as usize % bytes.len();
                bytes[place] = numbers.any() as u8;
            }
        }
        odd += usize::from(bytes.len() % 8 != 0);
        agree(free_float, &bytes);
    }
    assert!(
        odd > 10_000 && turned_tells > 10_000,
        "{odd} {turned_tells}"
    );
}

#[test]
fn bounds_agree() {
    let floats = [
        0,
        1,
        9,
        10,
        11,
        99,
        100,
        999_999_999_999,
        1_000_000_000_000,
        1_000_000_000_001,
        u64::MAX,
    ];
    let counts = [0, 1, 2, 8, 91, 92, 93, 94, 184, 1_000];
    let largest = [
        0,
        1,
        255,
        256,
        LARGEST - 1,
        LARGEST,
        LARGEST + 1,
        1 << 40,
        u64::MAX,
    ];
    for free_float in floats {
        for count in counts {
            for day in largest {
                let all = vec![day; count];
                let mut one = vec![1; count];
                if let Some(last) = one.last_mut() {
                    *last = day;
                }
                for days in [all, one] {
                    assert_eq!(
                        limit(free_float, &days),
                        rules::limit(free_float, &bytes_of(&days)).map(|(limit, _)| limit)
                    );
                    agree(free_float, &bytes_of(&days));
                }
            }
        }
    }
}

/// Every length, so that each that is not whole days is refused.
#[test]
fn lengths_agree() {
    let bytes = bytes_of(&[7; 100]);
    for length in 0..=bytes.len() {
        let taken = agree(1_000, &bytes[..length]).is_some();
        assert_eq!(
            taken,
            length % 8 == 0 && (8..=92 * 8).contains(&length),
            "{length}"
        );
    }
}

#[test]
fn known_limits() {
    // 65 × 32 ÷ 3 is 693 and a third; with the average rounded first it would be 650.
    assert_eq!(limit(5_000, &[10, 11, 11]), Some(693));
    assert_eq!(limit(5_000, &[0]), Some(500));
    assert_eq!(limit(5_000, &[1_000]), Some(750));
    // Each of a day's bytes has its place.
    assert_eq!(
        limit_of_bytes(1_000_000, &[0, 0, 0, 0, 0, 0, 7, 8]),
        Some(65 * (7 * 256 + 8))
    );
    assert_eq!(limit_of_bytes(1_000_000, &[8, 7, 0, 0, 0, 0, 0, 0]), None);
    assert_eq!(limit_of_bytes(5_000, &[]), None);
}
