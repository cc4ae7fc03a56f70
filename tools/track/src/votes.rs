//! Which of two models the blocks vote for, by what each leaves of them.

use crate::texture::GROUND;

/// A model beats another in a block if it leaves less than this share of what the other leaves.
const CLEARLY: f32 = 0.7;
/// Fewer votes than this count as none.
const LEAST_VOTES: usize = 4;
/// So does a smaller share of the blocks.
const LEAST_SHARE: f64 = 0.02;

/// The blocks that two models win, of all that both were judged by.
#[derive(Clone, Copy, Debug, PartialEq, Eq)]
pub(crate) struct Votes {
    /// Won by the one.
    pub(crate) one: usize,
    /// Won by the other.
    pub(crate) other: usize,
}

/// Counts the votes by what each model leaves of each block.
pub(crate) fn votes(one: &[f32], other: &[f32]) -> Votes {
    let count = |one: &[f32], other: &[f32]| {
        let won = one.iter().zip(other).filter(|(one, other)| *one + GROUND < CLEARLY * (*other + GROUND)).count();
        if won < LEAST_VOTES || (won as f64) < LEAST_SHARE * one.len() as f64 { 0 } else { won }
    };
    Votes { one: count(one, other), other: count(other, one) }
}

#[cfg(test)]
mod tests {
    use super::*;

    #[test]
    fn a_block_votes_where_the_difference_is_clear() {
        let (mut one, mut other) = (vec![100.0; 100], vec![100.0; 100]);
        assert_eq!(votes(&one, &other), Votes { one: 0, other: 0 });
        one[..5].fill(10.0);
        other[5..8].fill(10.0);
        assert_eq!(votes(&one, &other), Votes { one: 5, other: 0 });
        other[8..20].fill(70.0);
        assert_eq!(votes(&one, &other), Votes { one: 5, other: 0 });
        other[8..20].fill(60.0);
        assert_eq!(votes(&one, &other), Votes { one: 5, other: 15 });
        assert_eq!(votes(&[], &[]), Votes { one: 0, other: 0 });
    }

    #[test]
    fn a_small_share_counts_as_none() {
        let (one, mut other) = (vec![100.0; 1000], vec![100.0; 1000]);
        other[..19].fill(0.0);
        assert_eq!(votes(&one, &other).other, 0);
        other[..20].fill(0.0);
        assert_eq!(votes(&one, &other).other, 20);
    }
}
