//! Where a retry goes: F-8's rule on cases, and on every small input beside F-2's and the Rust's as it was published.

use keeper_reference::sync::{former_target, retry_target};

#[test]
fn targets() {
    // Listed, stalled, failed, target.
    let cases: [(&[u64], &[u64], u64, u64); 12] = [
        (&[4, 5, 6], &[4], 5, 6),
        (&[4, 5], &[4, 5], 4, 5),
        (&[4], &[4], 4, 4),
        (&[], &[], 9, 9),
        (&[], &[4, 9], 9, 9),
        (&[6, 4], &[4], 5, 6),
        (&[4, 6], &[4, 6], 5, 4),
        // Only the failed one has not stalled: F-2 asked it again.
        (&[4, 5], &[4], 5, 4),
        (&[5, 4], &[4], 5, 4),
        (&[5, 5, 4], &[4], 5, 4),
        (&[5, 6, 4], &[4, 6], 5, 6),
        (&[4, 5, 4], &[4, 7], 5, 4),
    ];
    for (listed, stalled, failed, target) in cases {
        let found = retry_target(stalled, listed, failed);
        let case = format!("{listed:?}, {stalled:?} stalled, {failed} failed");
        assert_eq!(found, target, "{case}");
    }
}

/// All lists of up to four of four peers, repeats included.
fn lists() -> Vec<Vec<u64>> {
    let mut lists = vec![vec![]];
    let mut from = 0;
    for _ in 0..4 {
        let longest = lists[from..].to_vec();
        from = lists.len();
        for list in longest {
            lists.extend([4, 5, 6, 7].map(|peer| [&list[..], &[peer]].concat()));
        }
    }
    assert_eq!(lists.len(), 1 + 4 + 16 + 64 + 256);
    lists
}

/// Each of these lists, with any of the peers stalled and any of them failed, one that is not listed too.
fn for_each_input(mut look: impl FnMut(&[u64], &[u64], u64)) {
    let known = [4, 5, 6, 7, 9];
    for listed in lists() {
        for marks in 0..1 << known.len() {
            let marked = (0..known.len()).filter(|place| marks >> place & 1 == 1);
            let stalled: Vec<u64> = marked.map(|place| known[place]).collect();
            for failed in known {
                look(&listed, &stalled, failed);
            }
        }
    }
}

/// F-8: "Old answers that change are exactly those where at least one listed peer isn't stalled, all such are the failed
/// peer, and a stalled other peer is listed: formerly the failed peer, now the first stalled other."
#[test]
fn the_answers_that_change_are_those_of_the_request() {
    let (mut changed, mut kept) = (0, 0);
    for_each_input(|listed, stalled, failed| {
        let parted = listed.iter().copied().partition(|p| stalled.contains(p));
        let (held, free): (Vec<u64>, Vec<u64>) = parted;
        let stalled_other = held.iter().find(|peer| **peer != failed);
        let only_failed = !free.is_empty() && free.iter().all(|peer| *peer == failed);
        let old = former_target(stalled, listed, failed);
        let new = retry_target(stalled, listed, failed);
        let case = format!("{listed:?}, {stalled:?} stalled, {failed} failed");
        match stalled_other {
            Some(other) if only_failed => {
                assert_eq!((old, new), (failed, *other), "{case}");
                changed += 1;
            }
            _ => {
                assert_eq!(old, new, "{case}");
                kept += 1;
            }
        }
    });
    assert!(changed > 1_000 && kept > 10_000, "{changed}, {kept}");
}

/// docs/DIFFERENCES.md, D-2.
#[test]
fn the_rust_asks_another_peer_exactly_there() {
    let mut changed = 0;
    for_each_input(|listed, stalled, failed| {
        let others = || listed.iter().filter(|peer| **peer != failed);
        let published = others().next().copied().unwrap_or(failed);
        let first_has_stalled = others().next().is_some_and(|p| stalled.contains(p));
        let one_has_not = others().any(|peer| !stalled.contains(peer));
        let differs = retry_target(stalled, listed, failed) != published;
        let case = format!("{listed:?}, {stalled:?} stalled, {failed} failed");
        assert_eq!(differs, first_has_stalled && one_has_not, "{case}");
        changed += u32::from(differs);
    });
    assert!(changed > 1_000, "{changed}");
}
