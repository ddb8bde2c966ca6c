//! Medians and spreads of rounds.

/// The middle of some numbers and the range in which nine of ten lie.
#[derive(Debug, Clone, Copy, PartialEq)]
pub struct Spread {
    pub low: f64,
    pub median: f64,
    pub high: f64,
}

fn sorted(numbers: &[f64]) -> Vec<f64> {
    let mut sorted = numbers.to_vec();
    sorted.sort_by(f64::total_cmp);
    sorted
}

/// The number below which this share of the sorted ones lies, between two neighbours by weight.
fn at(sorted: &[f64], share: f64) -> f64 {
    let place = share * (sorted.len() - 1) as f64;
    let (below, above) = (
        sorted[place.floor() as usize],
        sorted[place.ceil() as usize],
    );
    below + (above - below) * place.fract()
}

pub fn median(numbers: &[f64]) -> f64 {
    at(&sorted(numbers), 0.5)
}

pub fn least(numbers: &[f64]) -> f64 {
    sorted(numbers)[0]
}

/// The ratios of rounds, each of two times taken in the same round.
pub fn ratio(above: &[f64], below: &[f64]) -> Spread {
    let each: Vec<f64> = above.iter().zip(below).map(|(a, b)| a / b).collect();
    let each = sorted(&each);
    Spread {
        low: at(&each, 0.05),
        median: at(&each, 0.5),
        high: at(&each, 0.95),
    }
}

#[cfg(test)]
mod tests {
    use super::*;

    #[test]
    fn medians_of_odd_and_even_counts() {
        assert_eq!(median(&[3.0, 1.0, 2.0]), 2.0);
        assert_eq!(median(&[4.0, 1.0, 2.0, 3.0]), 2.5);
        assert_eq!(median(&[7.0]), 7.0);
        assert_eq!(least(&[3.0, 1.0, 2.0]), 1.0);
    }

    #[test]
    fn spreads_leave_a_twentieth_on_each_side() {
        let all: Vec<f64> = (0..=100).map(f64::from).collect();
        let spread = ratio(&all, &[1.0; 101]);
        assert_eq!((spread.low, spread.median, spread.high), (5.0, 50.0, 95.0));
    }

    #[test]
    fn a_ratio_is_taken_round_by_round() {
        let spread = ratio(&[10.0, 40.0, 2.0], &[5.0, 20.0, 1.0]);
        assert_eq!((spread.low, spread.median, spread.high), (2.0, 2.0, 2.0));
    }
}
