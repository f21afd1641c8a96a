//! What a verdict is worked out in. Each thread keeps its own from its first verdict on: a verdict takes tables with anything in them, so nothing has to be
//! cleared between two, and where they are as large as a table is ever asked to be, nothing has to be known of a list before it is judged. A verdict on a
//! subgroup may ask for four times as much: who never asks for one does not keep that.

use std::cell::Cell;

/// The largest q that questions 11 and 12 let pass: 320 letters in the generators' normal forms, and 80 in the target's.
const LARGEST_SIDE: usize = 320 + 2 * 80 + 1;

/// The same with the inverses of the generators, which have at most 512 letters: half as many again as the generators, and half a letter more for each of 64.
const LARGEST_SIGNED_SIDE: usize = LARGEST_SIDE + 512;

/// The largest n that question 13 lets pass.
const LARGEST_BOUND: usize = 1000;

pub(crate) struct Room {
    pub first: Vec<u16>,
    pub second: Vec<u16>,
    pub witness: Vec<u8>,
}

thread_local! {
    static KEPT: Cell<Option<Room>> = const { Cell::new(None) };
}

impl Room {
    fn new(side: usize) -> Room {
        Room {
            first: vec![0; side * side],
            second: vec![0; side * side],
            witness: vec![0; LARGEST_BOUND],
        }
    }

    /// Lends this thread's room, with tables for any list.
    pub fn lend<T>(to: impl FnOnce(&mut Room) -> T) -> T {
        Room::lend_of(LARGEST_SIDE, to)
    }

    /// Lends this thread's room, with tables for any list and its inverses.
    pub fn lend_signed<T>(to: impl FnOnce(&mut Room) -> T) -> T {
        Room::lend_of(LARGEST_SIGNED_SIDE, to)
    }

    /// The room is taken out for as long as it is lent, and one who finds none there, or one that is too small, makes one: also while a thread ends, when it
    /// can keep nothing any more.
    fn lend_of<T>(side: usize, to: impl FnOnce(&mut Room) -> T) -> T {
        let kept = KEPT.try_with(Cell::take).ok().flatten();
        let large_enough = kept.filter(|room| room.first.len() >= side * side);
        let mut room = large_enough.unwrap_or_else(|| Room::new(side));
        let answer = to(&mut room);
        let _ = KEPT.try_with(|kept| kept.set(Some(room)));
        answer
    }
}

#[cfg(test)]
mod tests {
    use super::{Room, LARGEST_SIDE, LARGEST_SIGNED_SIDE};

    /// The lengths of the tables that are lent.
    fn lengths(room: &mut Room) -> [usize; 2] {
        [room.first.len(), room.second.len()]
    }

    /// The tables grow where a verdict on a subgroup is asked for, and are kept so.
    #[test]
    fn tables_grow_once() {
        let plain = [LARGEST_SIDE * LARGEST_SIDE; 2];
        let signed = [LARGEST_SIGNED_SIDE * LARGEST_SIGNED_SIDE; 2];
        assert_eq!(Room::lend(lengths), plain);
        assert_eq!(Room::lend_signed(lengths), signed);
        assert_eq!(Room::lend(lengths), signed);
        assert_eq!(
            std::thread::spawn(|| Room::lend(lengths)).join().unwrap(),
            plain
        );
    }
}
