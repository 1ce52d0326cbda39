//! Edits and the places of a list as the rule book writes them, for the graph and the definition: the table of carrying, clause by clause,
//! with the move of each clause. Nothing here is shared with `plain`.

use crate::limits::*;

/// The maker's line and that maker's edit number.
pub type Origin = (u8, u16);

/// A place of a list.
#[derive(Clone, Copy, PartialEq, Eq, Debug)]
pub struct Place {
    pub item: u32,
    pub origin: Origin,
}

/// The list that a sheet opens with: line 0, and the place as number.
pub fn opening(items: &[u32]) -> Vec<Place> {
    items.iter().zip(1..).map(|(&item, number)| Place { item, origin: (0, number) }).collect()
}

/// An origin that a list holds twice.
pub fn twice(places: &[Place]) -> Option<Origin> {
    let mut there = [[false; EDITS as usize + 1]; LINES + 1];
    let again = |place: &&Place| std::mem::replace(&mut there[place.origin.0 as usize][place.origin.1 as usize], true);
    places.iter().find(again).map(|place| place.origin)
}

#[derive(Clone, Copy, PartialEq, Eq, Debug)]
pub enum Edit {
    Nothing,
    /// position
    Delete(u16),
    /// position, item, priority
    Insert(u16, u32, u8),
}

use Edit::*;

impl Edit {
    /// 0 for nothing.
    pub fn position(self) -> u16 {
        match self {
            Insert(p, _, _) | Delete(p) => p,
            Nothing => 0,
        }
    }
}

/// How a position moves past another edit: down one, not at all, up one, or the edit is gone.
#[derive(Clone, Copy, PartialEq, Eq, Debug)]
pub enum Move {
    Down,
    Still,
    Up,
    Gone,
}

use Move::*;

/// `a`'s form after `b`, and how its position moved.
pub fn transform(a: Edit, b: Edit) -> (Edit, Move) {
    match (a, b) {
        (Insert(p, x, r), Insert(q, _, s)) => {
            if p < q || (p == q && r <= s) {
                (a, Still)
            } else {
                (Insert(p + 1, x, r), Up)
            }
        }
        (Insert(p, x, r), Delete(q)) => {
            if p <= q {
                (a, Still)
            } else {
                (Insert(p - 1, x, r), Down)
            }
        }
        (Delete(p), Insert(q, _, _)) => {
            if p < q {
                (a, Still)
            } else {
                (Delete(p + 1), Up)
            }
        }
        (Delete(p), Delete(q)) => {
            if p < q {
                (a, Still)
            } else if p > q {
                (Delete(p - 1), Down)
            } else {
                (Nothing, Gone)
            }
        }
        (Nothing, _) | (_, Nothing) => (a, Still),
    }
}

/// The edit that takes `edit` back, made on that list by a client of that rank: of an insert the delete of that place, of a delete the insert of
/// the lost item.
pub fn inverse(edit: Edit, places: &[Place], rank: u8) -> Edit {
    match edit {
        Insert(p, _, _) => Delete(p),
        Delete(p) => Insert(p, places[p as usize - 1].item, rank),
        Nothing => Nothing,
    }
}

/// An edit as it arrived at an end, as it is applied there, and its moves in between.
#[derive(Clone, PartialEq, Eq, Debug)]
pub struct Carried {
    pub arrived: Edit,
    pub applied: Edit,
    pub moves: Vec<Move>,
}

impl Carried {
    /// Unless the edit is gone, its positions differ by its moves added up; one that is gone had a position and has none.
    pub fn adds_up(&self) -> bool {
        let count = |how: Move| self.moves.iter().filter(|&&moved| moved == how).count();
        let (arrived, applied) = (self.arrived.position() as usize, self.applied.position() as usize);
        match count(Gone) {
            0 => applied + count(Down) == arrived + count(Up),
            gone => gone == 1 && arrived > 0 && applied == 0,
        }
    }
}

/// Whether the edit fits the list.
pub fn fits(edit: Edit, places: &[Place]) -> bool {
    match edit {
        Insert(p, _, _) => 1 <= p && p as usize <= places.len() + 1,
        Delete(p) => 1 <= p && p as usize <= places.len(),
        Nothing => true,
    }
}

/// Applies an edit of that origin: carrying changed the edit, never its origin.
pub fn apply(edit: Edit, origin: Origin, places: &mut Vec<Place>) {
    match edit {
        Insert(p, item, _) => places.insert(p as usize - 1, Place { item, origin }),
        Delete(p) => {
            places.remove(p as usize - 1);
        }
        Nothing => {}
    }
}

#[cfg(test)]
mod tests {
    use super::*;

    #[test]
    fn marked_cases() {
        assert_eq!(transform(Insert(2, 7, 1), Insert(2, 8, 2)), (Insert(2, 7, 1), Still)); // P1
        assert_eq!(transform(Insert(2, 8, 2), Insert(2, 7, 1)), (Insert(3, 8, 2), Up)); // P2
        assert_eq!(transform(Insert(2, 7, 1), Delete(2)), (Insert(2, 7, 1), Still)); // P3
        assert_eq!(transform(Insert(3, 7, 1), Delete(2)), (Insert(2, 7, 1), Down)); // P4
        assert_eq!(transform(Delete(2), Insert(2, 7, 1)), (Delete(3), Up)); // P5
        assert_eq!(transform(Delete(1), Insert(2, 7, 1)), (Delete(1), Still)); // P6
        assert_eq!(transform(Delete(2), Delete(2)), (Nothing, Gone)); // P7
        assert_eq!(transform(Delete(3), Delete(2)), (Delete(2), Down)); // P8
        assert_eq!(transform(Nothing, Delete(2)), (Nothing, Still));
        assert_eq!(transform(Delete(2), Nothing), (Delete(2), Still));
    }

    /// Nothing, and every delete and insert at a few positions with three priorities.
    fn some() -> Vec<Edit> {
        let at = |p: u16| [vec![Delete(p)], (1..=3).map(|r| Insert(p, 70 + r as u32, r)).collect()].concat();
        [vec![Nothing], (1..=5).flat_map(at).collect()].concat()
    }

    /// Every edit past every two: the moves add up, and of wrong ones some do not.
    #[test]
    fn moves() {
        for a in some() {
            for b in some() {
                for c in some() {
                    let (once, first) = transform(a, b);
                    let (twice, second) = transform(once, c);
                    let carried = Carried { arrived: a, applied: twice, moves: vec![first, second] };
                    assert!(carried.adds_up(), "{carried:?}");
                }
            }
        }
        let carried = |arrived, applied, moves: &[Move]| Carried { arrived, applied, moves: moves.to_vec() };
        assert!(!carried(Delete(3), Delete(2), &[Up]).adds_up());
        assert!(!carried(Delete(3), Delete(3), &[Down]).adds_up());
        assert!(!carried(Delete(3), Delete(3), &[Gone]).adds_up());
        assert!(!carried(Nothing, Nothing, &[Gone]).adds_up());
        assert!(!carried(Delete(3), Nothing, &[Still]).adds_up());
    }

    #[test]
    fn origins() {
        let mut places = opening(&[7, 7, 8]);
        apply(Insert(2, 7, 3), (3, 1), &mut places);
        apply(Delete(1), (2, 1), &mut places);
        let place = |item, origin| Place { item, origin };
        assert_eq!(places, [place(7, (3, 1)), place(7, (0, 2)), place(8, (0, 3))]);
        assert_eq!(twice(&places), None);
        apply(Insert(4, 9, 3), (3, 1), &mut places);
        assert_eq!(twice(&places), Some((3, 1)));
    }

    /// An edit and its inverse leave the items as they were; so do the inverse and its own.
    #[test]
    fn inverses() {
        let items = |places: &[Place]| places.iter().map(|place| place.item).collect::<Vec<u32>>();
        for edit in some() {
            let mut places = opening(&[7, 8, 9, 10, 11]);
            let before = items(&places);
            let back = inverse(edit, &places, 2);
            apply(edit, (1, 1), &mut places);
            let (then, again) = (items(&places), inverse(back, &places, 2));
            apply(back, (1, 2), &mut places);
            assert_eq!(items(&places), before, "{edit:?}");
            apply(again, (1, 3), &mut places);
            assert_eq!(items(&places), then, "{edit:?}");
        }
    }

    /// The packed edits of `plain` carry and move as the table says.
    #[test]
    fn packed_edits_agree() {
        use crate::plain::edit::{Edit as Packed, Move as PackedMove, Moves};
        let pack = |edit| match edit {
            Nothing => Packed::NOTHING,
            Delete(p) => Packed::delete(p),
            Insert(p, x, r) => Packed::insert(p, x, r),
        };
        let pack_move = |how| match how {
            Down => PackedMove::Down,
            Still => PackedMove::Still,
            Up => PackedMove::Up,
            Gone => PackedMove::Gone,
        };
        for a in some() {
            for b in some() {
                let (form, how) = transform(a, b);
                assert_eq!((pack(form), pack_move(how)), pack(a).past(pack(b)), "{a:?} past {b:?}");
                for c in some() {
                    let ((last, then), mut moves) = (transform(form, c), Moves::default());
                    [how, then].into_iter().for_each(|how| moves.add(pack_move(how)));
                    assert_eq!(moves.from(a.position()), last.position(), "{a:?} past {b:?} and {c:?}");
                }
            }
        }
        let mut wrong = Moves::default();
        wrong.add(PackedMove::Up);
        assert_ne!(wrong.from(3), transform(Delete(3), Delete(1)).0.position());
    }
}
