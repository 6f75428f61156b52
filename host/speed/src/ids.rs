//! Where ids come from: streams of numbers, the same in every run, and ids of a kind drawn from them.

use keeper_streams::rng::Rng;
use keeper_streams::shapes::Shape;
use keeper_values::Id;

#[derive(Debug, Clone, Copy, PartialEq, Eq)]
pub enum Kind {
    Of(Shape),
    /// Random, and lists hold them from the greatest down.
    Falling,
}

pub const RANDOM: Kind = Kind::Of(Shape::Random);

/// Every kind, with its name in the tables. Random ids come first.
pub fn kinds() -> Vec<(Kind, &'static str)> {
    let hostile = Shape::HOSTILE.map(|(shape, name)| (Kind::Of(shape), name));
    [(RANDOM, "random"), (Kind::Falling, "falling order")]
        .into_iter()
        .chain(hostile)
        .collect()
}

pub struct Ids {
    kind: Kind,
    rng: Rng,
}

impl Ids {
    /// Each name and number has a stream of its own.
    pub fn new(kind: Kind, name: &str, number: usize) -> Self {
        let mixed = |seed: u64, byte| (seed ^ u64::from(byte)).wrapping_mul(0x0000_0100_0000_01b3);
        let rng = Rng::new(name.bytes().fold(!(number as u64), mixed));
        Self { kind, rng }
    }

    fn random(&mut self) -> Id {
        let mut id = [0; 32];
        for word in id.chunks_exact_mut(8) {
            word.copy_from_slice(&self.rng.draw().to_be_bytes());
        }
        id
    }

    /// So many ids of the kind, no two the same, in no order. What a case has in all is drawn at once: it is one row.
    pub fn draw(&mut self, count: usize) -> Vec<Id> {
        let shape = match self.kind {
            Kind::Of(shape) => shape,
            Kind::Falling => Shape::Random,
        };
        let first = self.random();
        let mut ids: Vec<Id> = (0..count)
            .map(|index| shape.id(&first, index, self.random()))
            .collect();
        for index in (1..count).rev() {
            ids.swap(index, self.rng.index(index + 1));
        }
        ids
    }

    /// These ids as a list of a call holds them.
    pub fn listed(&self, ids: &[Id]) -> Vec<Id> {
        let mut ids = ids.to_vec();
        if self.kind == Kind::Falling {
            ids.sort_unstable_by(|one, other| other.cmp(one));
        }
        ids
    }
}
