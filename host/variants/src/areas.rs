//! Faults in refusals 1 to 3: the areas.

use crate::{variant, Variant};
use keeper_reference::{entries, image, Refusal, Rules, PLAIN};
use keeper_values::numbers::widths::{ID, RECORD};
use keeper_values::{Mode, COMMAND_BYTES, STATE_BYTES};

pub fn variants() -> Vec<Variant> {
    let two = |fault, rules| variant("refusal 2", fault, rules);
    vec![
        variant(
            "refusal 1",
            "takes a longer state area",
            Rules {
                state_length_fits: |length| length >= STATE_BYTES,
                ..PLAIN
            },
        ),
        two(
            "the mark is not looked at",
            Rules {
                mark_fits: |_| true,
                ..PLAIN
            },
        ),
        two(
            "the version is not looked at",
            Rules {
                version_fits: |_| true,
                ..PLAIN
            },
        ),
        two(
            "the marks may be set outside syncing",
            Rules {
                flags_fit: |area| area[6] <= 1 && area[7] <= 1,
                ..PLAIN
            },
        ),
        two(
            "a mark may be any byte in syncing",
            Rules {
                flags_fit: |area| area[5] == Mode::Syncing.number() || image::flags_fit(area),
                ..PLAIN
            },
        ),
        two(
            "pending and evicted are each held to 1,024",
            Rules {
                counts_fit: |area| {
                    let count = |at: usize| u16::from_be_bytes([area[at], area[at + 1]]);
                    count(68) <= 256 && count(70) <= 1_024 && count(72) <= 1_024
                },
                ..PLAIN
            },
        ),
        two(
            "clocks after the last clock are taken",
            Rules {
                clocks_fit: |_| true,
                ..PLAIN
            },
        ),
        two(
            "a clock equal to the last one is not taken",
            Rules {
                clocks_fit: |area| image::clocks_fit(area) && area[32..40] != area[8..16],
                ..PLAIN
            },
        ),
        two(
            "a peer may be stalled twice",
            Rules {
                stalled_once: |_| true,
                ..PLAIN
            },
        ),
        two(
            "the order of ids is not looked at",
            Rules {
                ids_rise: |_| true,
                ..PLAIN
            },
        ),
        two(
            "a stamp after the last clock is taken",
            Rules {
                stamps_fit: |_| true,
                ..PLAIN
            },
        ),
        two(
            "checks are not held to M",
            Rules {
                checks_fit: |_| true,
                ..PLAIN
            },
        ),
        two(
            "a sync peer is taken in seeking",
            Rules {
                unused_zero: |area| {
                    let mut area = area.to_vec();
                    area[48..56].fill(0);
                    image::unused_zero(&area)
                },
                ..PLAIN
            },
        ),
        two(
            "the header's unused bytes are not looked at",
            Rules {
                unused_zero: |area| {
                    let mut area = area.to_vec();
                    area[74..512].fill(0);
                    image::unused_zero(&area)
                },
                ..PLAIN
            },
        ),
        two(
            "bytes between pending and evicted are not looked at",
            Rules {
                unused_zero: |area| {
                    let count =
                        |at: usize| usize::from(u16::from_be_bytes([area[at], area[at + 1]]));
                    let mut area = area.to_vec();
                    let free = 2_560 + RECORD * count(70)..STATE_BYTES - ID * count(72);
                    area[free].fill(0);
                    image::unused_zero(&area)
                },
                ..PLAIN
            },
        ),
        variant(
            "refusal 3",
            "takes a command area of 65,535 bytes",
            Rules {
                commands_length_fits: |length| length + 1 >= COMMAND_BYTES,
                ..PLAIN
            },
        ),
        variant(
            "refusal 3",
            "takes a command area of 65,536 bytes only",
            Rules {
                commands_length_fits: |length| length == COMMAND_BYTES,
                ..PLAIN
            },
        ),
        variant(
            "order of refusals",
            "3 comes before 2",
            Rules {
                areas: |rules, state, commands| {
                    if state.len() == STATE_BYTES && commands.len() < COMMAND_BYTES {
                        return Err(Refusal(3));
                    }
                    entries::areas(rules, state, commands)
                },
                ..PLAIN
            },
        ),
    ]
}
