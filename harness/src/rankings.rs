//! Ranks for openings: rankings of n lines, and ranks that are none.

use crate::rng::Rng;

/// Line numbers as ranks.
pub fn by_line(n: usize) -> Vec<u8> {
    (1..=n as u8).collect()
}

/// Line numbers as ranks, or any other ranking of n lines.
pub fn random(rng: &mut Rng, n: usize) -> Vec<u8> {
    let mut ranks = by_line(n);
    if !rng.once_in(4) {
        for at in (1..n).rev() {
            ranks.swap(at, rng.below(at + 1));
        }
    }
    ranks
}

/// All rankings of n lines.
pub fn all(n: usize) -> Vec<Vec<u8>> {
    if n == 0 {
        return vec![vec![]];
    }
    let with_last = |ranks: Vec<u8>| {
        (0..n).map(move |at| {
            let mut ranks = ranks.clone();
            ranks.insert(at, n as u8);
            ranks
        })
    };
    all(n - 1).into_iter().flat_map(with_last).collect()
}

/// A ranking spoilt in every way: too few and too many ranks, and at each place 0, n + 1, more, and another line's.
pub fn spoilt(ranks: &[u8]) -> Vec<Vec<u8>> {
    let n = ranks.len();
    let mut all = vec![vec![], ranks[1..].to_vec(), ranks[..n - 1].to_vec()];
    for more in [&[0][..], &[1], &[n as u8 + 1], &[0; 256]] {
        all.push([ranks, more].concat());
    }
    for at in 0..n {
        for rank in [0, n as u8 + 1, 15, ranks[(at + 1) % n]] {
            let mut spoilt = ranks.to_vec();
            spoilt[at] = rank;
            all.push(spoilt);
        }
    }
    all.retain(|spoilt| spoilt != ranks);
    all
}

/// Ranks that no n lines have.
pub fn wrong(rng: &mut Rng, n: usize) -> Vec<u8> {
    let all = spoilt(&random(rng, n));
    all[rng.below(all.len())].clone()
}

#[cfg(test)]
mod tests {
    use super::*;
    use crate::list::{is_ranking, Call};

    #[test]
    fn rankings() {
        assert_eq!(all(4).len(), 24);
        for n in 1..=5 {
            assert!(all(n).iter().all(|ranks| is_ranking(n, ranks)));
            assert!(all(n).iter().flat_map(|ranks| spoilt(ranks)).all(|spoilt| !is_ranking(n, &spoilt)));
        }
        let mut rng = Rng::new(5);
        for n in 1..=8 {
            assert!(is_ranking(n, &random(&mut rng, n)));
            let wrong = wrong(&mut rng, n);
            assert!(!is_ranking(n, &wrong));
            assert_eq!(Call::open(0, n as u8, 0, 0).ranked(&wrong).ranks(), wrong, "a call holds them");
        }
    }
}
