//! Faults in the versions of the image (F-6).

use crate::types::{records, HIGH};
use crate::{variant, Variant, VERSIONS};
use keeper_reference::{image, Rules, PLAIN};
use keeper_values::Mode;

/// The version that an area says.
fn version(area: &[u8]) -> u16 {
    u16::from_be_bytes([area[3], area[4]])
}

pub fn variants() -> Vec<Variant> {
    let fault = |fault, rules| variant(VERSIONS, fault, rules);
    let taken = |name, version_fits| {
        let rules = Rules {
            version_fits,
            ..PLAIN
        };
        fault(name, rules)
    };
    vec![
        taken("an image of version 1 is not taken", |area| {
            version(area) == 2
        }),
        taken("an image of version 0 is taken", |area| version(area) <= 2),
        taken("an image of version 3 is taken", |area| {
            matches!(version(area), 1..=3)
        }),
        taken("a version is known by its low byte", |area| {
            matches!(area[4], 1 | 2)
        }),
        fault(
            "in version 1 a type's high byte is not looked at",
            Rules {
                high_bytes_fit: |_| true,
                ..PLAIN
            },
        ),
        fault(
            "in version 2 a type's high byte is unused",
            Rules {
                high_bytes_fit: |area| records(area).all(|record| record[HIGH] == 0),
                ..PLAIN
            },
        ),
        fault(
            "an image of version 1 stays one",
            Rules {
                rewritten: |before, state| {
                    let mut area = image::write(state);
                    if state.mode != Mode::New {
                        area[3..5].copy_from_slice(&before[3..5]);
                    }
                    area
                },
                ..PLAIN
            },
        ),
        fault(
            "opening writes version 1",
            Rules {
                rewritten: |_, state| {
                    let mut area = image::write(state);
                    if state.mode == Mode::New {
                        area[4] = 1;
                    }
                    area
                },
                ..PLAIN
            },
        ),
    ]
}
