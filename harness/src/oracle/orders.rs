//! Two steps never change places: of any two origins that stood on one list, at any end and any moment of a run, the order in which they stood.

use crate::edit::{Edit, Origin, Place};
use std::collections::HashMap;

/// Of each two origins that stood together, the smaller one first: whether it stood in front.
#[derive(Default)]
pub struct Orders(HashMap<[Origin; 2], bool>);

impl Orders {
    /// An edit was applied, and the list is this one now. Only an insert puts a step beside others that it did not stand with before.
    pub fn applied(&mut self, edit: Edit, shown: &[Place]) -> Result<(), String> {
        let Edit::Insert(position, ..) = edit else {
            return Ok(());
        };
        let at = position as usize - 1;
        (0..shown.len()).filter(|&other| other != at).try_for_each(|other| self.stand(shown, at.min(other), at.max(other)))
    }

    /// Every two steps of a list.
    pub fn shown(&mut self, shown: &[Place]) -> Result<(), String> {
        (0..shown.len()).try_for_each(|second| (0..second).try_for_each(|first| self.stand(shown, first, second)))
    }

    fn stand(&mut self, shown: &[Place], first: usize, second: usize) -> Result<(), String> {
        let (front, behind) = (shown[first].origin, shown[second].origin);
        let pair = [front.min(behind), front.max(behind)];
        let before = front == pair[0];
        if *self.0.entry(pair).or_insert(before) != before {
            return Err(format!("{front:?} stands before {behind:?} in {shown:?}, and stood behind it on another list"));
        }
        Ok(())
    }
}

#[cfg(test)]
mod tests {
    use super::*;
    use crate::edit::opening;

    fn listed(numbers: &[u16]) -> Vec<Place> {
        numbers.iter().map(|&number| Place { item: 0, origin: (1, number) }).collect()
    }

    #[test]
    fn order_is_kept() {
        let mut orders = Orders::default();
        orders.shown(&opening(&[5, 6, 7])).unwrap();
        orders.shown(&listed(&[2, 1, 3])).unwrap();
        orders.shown(&listed(&[2, 3, 4])).unwrap();
        orders.applied(Edit::Insert(2, 0, 1), &listed(&[2, 5, 1])).unwrap();
        assert!(orders.applied(Edit::Insert(1, 0, 1), &listed(&[1, 5])).is_err());
        assert!(orders.shown(&listed(&[3, 1])).is_err());
        assert!(orders.shown(&listed(&[4, 1])).is_ok());
    }
}
