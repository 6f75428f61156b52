//! Tables of a thousand ids that share their first bytes or stand in a row, through every step that searches or sorts.

use crate::build::{Build, CASES};
use crate::rng::Rng;
use crate::shapes::Shape;
use crate::Script;
use keeper_values::numbers::kinds;
use keeper_values::{Id, Place, Row, TypeId, View};

/// So many ids of a shape, in no order.
fn drawn(shape: Shape, count: usize) -> Vec<Id> {
    let mut rng = Rng::new(count as u64);
    let mut random = || std::array::from_fn(|_| rng.draw() as u8);
    let first = random();
    let mut ids: Vec<Id> = (0..count)
        .map(|index| shape.id(&first, index, random()))
        .collect();
    for index in (1..count).rev() {
        ids.swap(index, rng.index(index + 1));
    }
    ids
}

/// Three missing sections at each height from 1 on.
fn sections(ids: &[Id]) -> View {
    let place = |(type_id, id): (TypeId, &Id)| Place {
        type_id,
        id: *id,
        stored: false,
    };
    let row = |ids: &[Id]| Row::Present([102, 104, 108].into_iter().zip(ids).map(place).collect());
    View {
        first: 1,
        rows: ids.chunks_exact(3).map(row).collect(),
    }
}

pub fn scripts() -> Vec<Script> {
    let script = |(shape, name): (Shape, &str)| {
        let ids = drawn(shape, 1_300);
        let stored = |type_id: TypeId, ids: &[Id]| ids.iter().map(|id| (type_id, *id)).collect();
        Build::begun(&format!("ids of a shape: {name}"), CASES, 4)
            .call(kinds::ANNOUNCED, |c| {
                c.peer = 6;
                c.type_id = 102;
                c.ids = ids[..400].to_vec();
                c.stored = stored(102, &ids[50..150]);
            })
            .announce(4, 101, ids[300..700].to_vec())
            .announce(4, 104, ids[600..1_000].to_vec())
            // More than there is room for.
            .announce(4, 104, ids[900..].to_vec())
            .call(kinds::RECEIVED, |c| c.ids = ids[200..500].to_vec())
            .call(kinds::EVICTED, |c| c.ids = ids[400..600].to_vec())
            .at(10_000)
            .call(kinds::CHECK, |c| {
                c.peers = vec![6, 4];
                c.stored = stored(101, &ids[450..550]);
            })
            .call(kinds::RECEIVED, |c| c.ids = ids[500..].to_vec())
            .call(kinds::PROGRESS, |c| {
                c.height = 192;
                c.peers = vec![4];
                c.view = sections(&ids[100..676]);
            })
            .call(kinds::LOST_PEER, |c| {
                c.peer = 4;
                c.peers = vec![5];
            })
            .done()
    };
    Shape::HOSTILE.into_iter().map(script).collect()
}
