//! The ranks of lines 1 to n, which say who stays in a tie: what opening asks of them, and question 2 of the ones that an end stores.
//! Ranks that are 1 to n, each once, are n bits of one number.

use super::slip::{Rules, Slip};
use crate::limits::*;

/// Line l's rank at index l - 1, zeros past n.
pub type Ranks = [u8; LINES];

/// Of an opening: 1 if its question is answered with no, else 16 if the ranks are not such a set, else 0.
#[inline]
pub fn opening<R: Rules>(one: bool, n: u8, ranks: &[u8]) -> u8 {
    if !one && !R::slips(Slip::SixteenFirst) {
        1
    } else if !is_ranking::<R>(n, ranks) {
        16
    } else {
        !one as u8
    }
}

/// Question 16: exactly n ranks, 1 to n, each used once.
#[inline]
fn is_ranking<R: Rules>(n: u8, ranks: &[u8]) -> bool {
    let ranks = if R::slips(Slip::RanksCounted8) { &ranks[..ranks.len() % 256] } else { ranks };
    let ranks = if R::slips(Slip::RanksMany) { &ranks[..ranks.len().min(n as usize)] } else { ranks };
    let bits = ranks.iter().fold(0u64, |bits, &rank| bits | 1 << rank.min(63));
    let lowest = if R::slips(Slip::RankZero) { 0 } else { 1 };
    let highest = if R::slips(Slip::RankPastN) { n.min(61) + 1 } else { n.min(62) };
    (ranks.len() == n as usize || (R::slips(Slip::RanksFew) && ranks.len() < n as usize))
        && bits.trailing_zeros() >= lowest
        && bits >> highest >> 1 == 0
        && (bits.count_ones() as usize == ranks.len() || R::slips(Slip::RanksAlike))
}

/// The ranks as an end stores them.
#[inline]
pub fn stored(ranks: &[u8]) -> Ranks {
    let mut places = [0; LINES];
    places.iter_mut().zip(ranks).for_each(|(place, rank)| *place = *rank);
    places
}

/// Question 2 of stored ranks.
#[inline]
pub fn sound<R: Rules>(n: u8, ranks: &Ranks) -> bool {
    let (mut bits, mut unused) = (0u64, 0);
    for (at, &rank) in ranks.iter().enumerate() {
        let used = at < n as usize;
        bits |= (used as u64) << rank.min(63);
        unused |= if used { 0 } else { rank };
    }
    let all = (2 << n.min(62)) - 2;
    let alike = R::slips(Slip::SoundRanksAlike) && bits & !all == 0;
    (bits == all || alike || R::slips(Slip::SoundRanks)) && (unused == 0 || R::slips(Slip::SoundRanksZero))
}

/// The rank of a line.
#[inline]
pub fn of<R: Rules>(ranks: &Ranks, line: u8) -> u8 {
    if R::slips(Slip::CarriesLine) {
        line
    } else {
        ranks.get((line as usize).wrapping_sub(1)).copied().unwrap_or(0)
    }
}

#[cfg(test)]
mod tests {
    use super::*;
    use crate::plain::slip::Plain;

    /// Question 16 as the rule book words it, of all ranks 0 to 5 for up to four lines; stored ones with zeros behind them.
    #[test]
    fn all_small_ones() {
        for n in 1..=4u8 {
            for length in 0..=5 {
                for number in 0..6usize.pow(length) {
                    let ranks: Vec<u8> = (0..length).map(|at| (number / 6usize.pow(at) % 6) as u8).collect();
                    let once = (1..=n).all(|rank| ranks.iter().filter(|&&other| other == rank).count() == 1);
                    let right = ranks.len() == n as usize && once;
                    assert_eq!(opening::<Plain>(true, n, &ranks), if right { 0 } else { 16 }, "{n} {ranks:?}");
                    assert_eq!(opening::<Plain>(false, n, &ranks), 1);
                    let places = stored(&ranks);
                    let zeros = places[n as usize..].iter().all(|&rank| rank == 0);
                    let first = places[..n as usize].to_vec();
                    let sorted = (1..=n).all(|rank| first.contains(&rank));
                    assert_eq!(sound::<Plain>(n, &places), sorted && zeros, "{n} {places:?}");
                }
            }
        }
    }
}
