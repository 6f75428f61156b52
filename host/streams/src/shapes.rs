//! How a set of ids lies among all ids: at random, or so that a search or a sort by their first bytes has a hard time.

use keeper_values::Id;

#[derive(Debug, Clone, Copy, PartialEq, Eq)]
pub enum Shape {
    Random,
    /// All have the same bytes from the first place to before the second.
    Shared(usize, usize),
    /// A first id and what is one more, two more .. at this byte of the number that an id is.
    Row(usize),
    /// 2^16 to 2^255. Beyond these 240 they come again, with other last two bytes.
    Powers,
}

const POWERS: usize = 240;

impl Shape {
    /// All but the random one, with their names.
    pub const HOSTILE: [(Self, &'static str); 7] = [
        (Self::Shared(0, 8), "equal first 8 bytes"),
        (Self::Shared(0, 2), "equal first 2 bytes"),
        (Self::Shared(0, 1), "equal first byte"),
        (Self::Shared(1, 2), "equal second byte"),
        (Self::Row(31), "row of step 1"),
        (Self::Row(7), "row of step 2^192"),
        (Self::Powers, "powers of two"),
    ];

    /// The id at an index of a set, from the set's first id and a random one. No two of a set are the same.
    pub fn id(self, first: &Id, index: usize, random: Id) -> Id {
        match self {
            Self::Random => random,
            Self::Shared(from, to) => {
                let mut id = random;
                id[from..to].copy_from_slice(&first[from..to]);
                id
            }
            Self::Row(byte) => more(*first, byte, index),
            Self::Powers => {
                let exponent = 16 + index % POWERS;
                let last = u16::from_be_bytes([first[30], first[31]]);
                let last = last.wrapping_add((index / POWERS) as u16);
                let mut id = [0; 32];
                id[31 - exponent / 8] = 1 << (exponent % 8);
                id[30..].copy_from_slice(&last.to_be_bytes());
                id
            }
        }
    }
}

/// The id so much greater at a byte, as a number with the first byte first.
fn more(mut id: Id, byte: usize, amount: usize) -> Id {
    let mut carried = amount;
    for place in id[..=byte].iter_mut().rev() {
        carried += usize::from(*place);
        *place = carried as u8;
        carried >>= 8;
    }
    id
}

#[cfg(test)]
mod tests {
    use super::*;
    use crate::rng::Rng;
    use std::collections::BTreeSet;

    fn drawn(shape: Shape) -> Vec<Id> {
        let mut rng = Rng::new(1);
        let mut random = || std::array::from_fn(|_| rng.draw() as u8);
        let first = random();
        let id = |index| shape.id(&first, index, random());
        (0..1_024).map(id).collect()
    }

    #[test]
    fn no_two_ids_of_a_shape_are_the_same() {
        for (shape, name) in Shape::HOSTILE {
            let ids: BTreeSet<Id> = drawn(shape).into_iter().collect();
            assert_eq!(ids.len(), 1_024, "{name}");
        }
    }

    #[test]
    fn ids_of_a_row_stand_a_step_apart() {
        for (byte, lower) in [(31, 32), (7, 8)] {
            let mut ids = drawn(Shape::Row(byte));
            ids.sort_unstable();
            for pair in ids.windows(2) {
                assert_eq!(pair[1], more(pair[0], byte, 1));
                assert_eq!(pair[0][lower..], pair[1][lower..]);
            }
        }
    }

    #[test]
    fn ids_share_the_bytes_that_they_are_to_share() {
        for (from, to) in [(0, 8), (0, 2), (0, 1), (1, 2)] {
            let ids = drawn(Shape::Shared(from, to));
            assert!(ids.iter().all(|id| id[from..to] == ids[0][from..to]));
        }
    }
}
