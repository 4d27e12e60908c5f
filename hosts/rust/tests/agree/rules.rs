//! The two rules once more, as docs/RULES.md says them, and nothing of the proved code.

/// What each day's bytes say, high byte first, or none where they are not whole days.
pub fn days_of(bytes: &[u8]) -> Option<Vec<u128>> {
    if bytes.len() % 8 != 0 {
        return None;
    }
    let mut days = vec![0u128; bytes.len() / 8];
    for (place, byte) in bytes.iter().enumerate() {
        let power = 7 - place % 8;
        days[place / 8] += u128::from(*byte) << (8 * power);
    }
    Some(days)
}

/// Which of the three fractions the limit is.
#[derive(Clone, Copy, PartialEq, Eq, Debug)]
pub enum Part {
    Floor,
    Ceiling,
    Average,
}

/// The limit and where it comes from: all three fractions over the one denominator 100 × days, rounded down at the end.
pub fn limit(free_float: u64, bytes: &[u8]) -> Option<(u64, Part)> {
    let days = days_of(bytes)?;
    let float = u128::from(free_float);
    let many = days.len() as u128;
    let in_range = (10..=10u128.pow(12)).contains(&float)
        && (1..=92).contains(&many)
        && !days.iter().any(|day| *day > 10u128.pow(10));
    if !in_range {
        return None;
    }
    let mut sum = 0;
    for day in &days {
        sum += day;
    }
    let (floor, ceiling, average) = (10 * float * many, 15 * float * many, 65 * sum * 100);
    let (top, part) = if average <= floor {
        (floor, Part::Floor)
    } else if average >= ceiling {
        (ceiling, Part::Ceiling)
    } else {
        (average, Part::Average)
    };
    Some(((top / (100 * many)) as u64, part))
}

/// The charge: violated quantity × price ÷ 10^6, rounded down, between 500,000 and 10,000,000 paise.
pub fn charge(violated: u64, price: u64) -> Option<u64> {
    let largest_net = 32 * 10u64.pow(9) * 10_000;
    if violated == 0 || violated > largest_net || price == 0 || price > 10u64.pow(8) {
        return None;
    }
    let product = u128::from(violated) * u128::from(price);
    if product < 500_000 * 1_000_000 {
        Some(500_000)
    } else if product > 10_000_000 * 1_000_000 {
        Some(10_000_000)
    } else {
        Some((product / 1_000_000) as u64)
    }
}
