//! Whole numbers of a given size, with what the exact length asks of them and no
//! more. The oracle has no dependencies, so that it builds without a network: hence
//! a type of its own.

use std::cmp::Ordering;

/// A whole number below 2^(64 N), as words of 64 bits, the least first.
#[derive(Clone, Copy, Debug, PartialEq, Eq)]
pub struct Whole<const N: usize>([u64; N]);

impl<const N: usize> Whole<N> {
    /// digits × 2^places.
    pub fn shifted(digits: u64, places: u32) -> Self {
        let moved = u128::from(digits) << (places % 64);
        let mut words = [0; N];
        for (place, part) in [moved as u64, (moved >> 64) as u64].into_iter().enumerate() {
            if part != 0 {
                words[places as usize / 64 + place] = part;
            }
        }
        Whole(words)
    }

    pub fn plus(&self, other: &Self) -> Self {
        let mut words = [0; N];
        let mut carry = 0;
        for (sum, (&a, &b)) in words.iter_mut().zip(self.0.iter().zip(&other.0)) {
            carry += u128::from(a) + u128::from(b);
            *sum = carry as u64;
            carry >>= 64;
        }
        assert_eq!(carry, 0, "the sum fits");
        Whole(words)
    }

    /// The square of a number that takes no more than half of the words.
    pub fn squared(&self) -> Self {
        let (low, high) = self.0.split_at(N / 2);
        assert!(high.iter().all(|&word| word == 0), "the square fits");
        let mut words = [0; N];
        for (place, &a) in low.iter().enumerate().filter(|(_, &a)| a != 0) {
            let mut carry = 0;
            for (word, &b) in words[place..].iter_mut().zip(low) {
                carry += u128::from(a) * u128::from(b) + u128::from(*word);
                *word = carry as u64;
                carry >>= 64;
            }
            words[place + N / 2] = carry as u64;
        }
        Whole(words)
    }
}

impl<const N: usize> Ord for Whole<N> {
    fn cmp(&self, other: &Self) -> Ordering {
        self.0.iter().rev().cmp(other.0.iter().rev())
    }
}

impl<const N: usize> PartialOrd for Whole<N> {
    fn partial_cmp(&self, other: &Self) -> Option<Ordering> {
        Some(self.cmp(other))
    }
}

#[cfg(test)]
mod tests {
    use super::Whole;

    fn of(number: u128) -> Whole<4> {
        let high = Whole::shifted((number >> 64) as u64, 64);
        high.plus(&Whole::shifted(number as u64, 0))
    }

    /// Beside the machine's 128 bits, with words near their bounds.
    #[test]
    fn sums_and_squares_of_two_words() {
        let words = [0, 1, 2, u64::MAX, u64::MAX >> 1, u64::MAX - 1, 1 << 32];
        for a in words {
            for b in words {
                let (x, y) = (u128::from(a) << 60 | 5, u128::from(b) << 61 | 1);
                assert_eq!(of(x).plus(&of(y)), of(x + y));
                assert_eq!(of(x).cmp(&of(y)), x.cmp(&y));
            }
            assert_eq!(of(a.into()).squared(), of(u128::from(a) * u128::from(a)));
        }
    }

    /// Carries through many words: (2^k - 1)^2 + 2^(k + 1) = 2^2k + 1.
    #[test]
    fn squares_of_many_words() {
        for k in [1, 63, 64, 65, 127, 128, 191, 1000, 2095] {
            let mut ones: Whole<68> = Whole::shifted(0, 0);
            for place in 0..k {
                ones = ones.plus(&Whole::shifted(1, place));
            }
            let sum = ones.squared().plus(&Whole::shifted(1, k + 1));
            assert_eq!(sum, Whole::shifted(1, 2 * k).plus(&Whole::shifted(1, 0)));
        }
    }

    #[test]
    #[should_panic(expected = "the square fits")]
    fn a_square_that_does_not_fit() {
        Whole::<4>::shifted(1, 128).squared();
    }
}
