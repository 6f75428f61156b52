//! Types in the Rust are one byte. "Oracle streams are those with every type below 256" (F-6).

use keeper_values::{Call, Row, State, TypeId};

fn is_byte(type_id: TypeId) -> bool {
    type_id <= TypeId::from(u8::MAX)
}

/// The Rust's own form of a type; wider ones never come here.
#[cfg_attr(not(oracle), allow(dead_code))]
pub(crate) fn byte(type_id: TypeId) -> u8 {
    assert!(is_byte(type_id), "a type above 255 for the Rust");
    type_id as u8
}

/// Whether the Rust can hold this state.
pub fn holds(state: &State) -> bool {
    let mut pending = state.pending.values();
    pending.all(|request| is_byte(request.type_id))
}

/// Whether the Rust can be handed this call: its type, its stored pairs, its view.
pub fn takes(call: &Call) -> bool {
    let narrow = |row: &Row| match row {
        Row::Absent => true,
        Row::Present(places) => places.iter().all(|place| is_byte(place.type_id)),
    };
    is_byte(call.type_id)
        && call.stored.iter().all(|(type_id, _)| is_byte(*type_id))
        && call.view.rows.iter().all(narrow)
}
