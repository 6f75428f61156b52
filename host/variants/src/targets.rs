//! Faults in the choice of a retry's target among stalled peers (F-8).

use crate::{variant, Variant, TARGETS};
use keeper_reference::{sync, Rules, PLAIN};

/// The Rust's choice as it was published.
pub const AS_PUBLISHED: Rules = Rules {
    retry_target: |_, peers, failed| sync::retry_target(&[], peers, failed),
    ..PLAIN
};

/// F-2's choice, which F-8 overrules.
pub const AS_IN_F2: Rules = Rules {
    retry_target: sync::former_target,
    ..PLAIN
};

pub fn variants() -> Vec<Variant> {
    let fault = |fault, rules| variant(TARGETS, fault, rules);
    vec![
        fault("a retry goes to a stalled peer", AS_PUBLISHED),
        fault(
            "where the failed peer alone has not stalled, a retry goes to it again",
            AS_IN_F2,
        ),
        fault(
            "where every other listed peer is stalled, a retry goes to the failed one",
            Rules {
                retry_target: |stalled, peers, failed| {
                    let fits = |peer: &&u64| **peer != failed && !stalled.contains(peer);
                    peers.iter().find(fits).copied().unwrap_or(failed)
                },
                ..PLAIN
            },
        ),
        fault(
            "where every other listed peer is stalled, a retry goes to the one that stalled first",
            Rules {
                retry_target: |stalled, peers, failed| {
                    let target = sync::retry_target(stalled, peers, failed);
                    let others = stalled.iter().filter(|peer| **peer != failed);
                    let mut listed = others.filter(|peer| peers.contains(peer));
                    let first = listed.next().filter(|_| stalled.contains(&target));
                    first.copied().unwrap_or(target)
                },
                ..PLAIN
            },
        ),
        fault(
            "a stalled peer is asked before one that has not stalled",
            Rules {
                retry_target: |stalled, peers, failed| {
                    let fits = |peer: &&u64| **peer != failed && stalled.contains(peer);
                    let target = peers.iter().find(fits).copied();
                    target.unwrap_or_else(|| sync::retry_target(&[], peers, failed))
                },
                ..PLAIN
            },
        ),
    ]
}

#[cfg(test)]
mod tests {
    use crate::{all, Variant};
    use keeper_reference::{Reference, Rules};
    use std::collections::BTreeSet;

    /// The targets that these rules choose.
    fn targets(rules: Rules) -> Vec<u64> {
        // Listed, stalled, failed.
        let inputs: [(&[u64], &[u64], u64); 6] = [
            (&[4, 5, 6], &[], 4),
            (&[4, 5, 6], &[4], 5),
            (&[5, 4], &[4], 5),
            (&[5, 4], &[5, 4], 5),
            (&[5, 6, 4], &[4, 6], 5),
            (&[4, 6], &[6], 5),
        ];
        let target = |(peers, stalled, failed)| (rules.retry_target)(stalled, peers, failed);
        inputs.map(target).into()
    }

    /// No faulty choice is the rule itself, and no two are the same.
    #[test]
    fn choices_differ() {
        let plain = targets(Reference::plain().rules);
        assert_eq!(plain, [5, 6, 4, 4, 6, 4]);
        let others = all().into_iter().filter_map(|variant: Variant| {
            let chosen = targets(variant.keeper.rules);
            (chosen != plain).then_some(chosen)
        });
        let others: Vec<Vec<u64>> = others.collect();
        // Two more stand under rule 6.
        assert_eq!(others.len(), super::variants().len() + 2);
        assert_eq!(others.iter().collect::<BTreeSet<_>>().len(), others.len());
    }
}
