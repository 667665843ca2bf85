//! The shortest part of a failing list that is found to fail still.

/// Takes out ever smaller pieces as long as the rest fails, and at last single things. Without any
/// one of its things the answer no longer fails.
pub fn shrink<T: Clone>(all: &[T], mut fails: impl FnMut(&[T]) -> bool) -> Vec<T> {
    let mut least = all.to_vec();
    let mut piece = least.len().div_ceil(2).max(1);
    loop {
        let before = least.len();
        least = without_pieces(least, piece, &mut fails);
        if piece == 1 && least.len() == before {
            return least;
        }
        piece = piece.div_ceil(2);
    }
}

/// The list without each piece of a length that it fails without.
fn without_pieces<T: Clone>(
    all: Vec<T>,
    piece: usize,
    fails: &mut impl FnMut(&[T]) -> bool,
) -> Vec<T> {
    let mut least = all;
    let mut at = 0;
    while at < least.len() {
        let behind = least.len().min(at + piece);
        let fewer = [&least[..at], &least[behind..]].concat();
        if fails(&fewer) {
            least = fewer;
        } else {
            at += piece;
        }
    }
    least
}

#[cfg(test)]
mod tests {
    use super::*;
    use crate::random::Random;

    /// Whether the needed numbers are in the list, in their order.
    fn holds_in_order(list: &[u32], needed: &[u32]) -> bool {
        let mut rest = list.iter();
        needed
            .iter()
            .all(|number| rest.any(|other| other == number))
    }

    #[test]
    fn three_of_a_thousand_are_found() {
        let all: Vec<u32> = (0..1000).collect();
        let mut tries = 0;
        let least = shrink(&all, |list| {
            tries += 1;
            holds_in_order(list, &[3, 500, 999])
        });
        assert_eq!(least, [3, 500, 999]);
        assert!(tries < 300, "{tries} tries are too many");
    }

    #[test]
    fn what_is_needed_wholly_stays() {
        let all: Vec<u32> = (0..9).collect();
        assert_eq!(shrink(&all, |list| list.len() == 9), all);
        assert_eq!(shrink(&all, |_| true), []);
        assert_eq!(shrink(&[7], |list| list == [7]), [7]);
    }

    #[test]
    fn any_needed_numbers_are_found_alone() {
        let mut random = Random::new(1);
        for _ in 0..200 {
            let all: Vec<u32> = (0..random.between(1, 60)).collect();
            let chosen = all.iter().filter(|_| random.chance(1, 8));
            let needed: Vec<u32> = chosen.copied().collect();
            let least = shrink(&all, |list| holds_in_order(list, &needed));
            assert_eq!(least, needed);
        }
    }

    /// Two may have to go together: then single ones can't be taken, and a longer list stays.
    #[test]
    fn without_any_one_thing_it_does_not_fail() {
        let all: Vec<u32> = (0..31).collect();
        let odd_sum = |list: &[u32]| list.iter().sum::<u32>() % 2 == 1 && list.contains(&4);
        let least = shrink(&all, odd_sum);
        assert!(odd_sum(&least));
        for at in 0..least.len() {
            let mut fewer = least.clone();
            fewer.remove(at);
            assert!(!odd_sum(&fewer), "{least:?} can lose {}", least[at]);
        }
    }
}
