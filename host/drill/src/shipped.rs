//! The scenarios that come with the player, by name.

/// Name and text of each.
pub const SCENARIOS: [(&str, &str); 13] = [
    ("a-day", include_str!("../scenarios/a-day.drill")),
    (
        "reorg-eviction-lost-peer",
        include_str!("../scenarios/reorg-eviction-lost-peer.drill"),
    ),
    (
        "evicted-and-on-order",
        include_str!("../scenarios/evicted-and-on-order.drill"),
    ),
    ("shut-gate", include_str!("../scenarios/shut-gate.drill")),
    (
        "one-area-for-two-nodes",
        include_str!("../scenarios/one-area-for-two-nodes.drill"),
    ),
    (
        "two-graphs-of-one-mean",
        include_str!("../scenarios/two-graphs-of-one-mean.drill"),
    ),
    (
        "a-stalled-peer-passed-over",
        include_str!("../scenarios/a-stalled-peer-passed-over.drill"),
    ),
    (
        "a-peer-without-a-chain",
        include_str!("../scenarios/a-peer-without-a-chain.drill"),
    ),
    (
        "a-test-network",
        include_str!("../scenarios/a-test-network.drill"),
    ),
    (
        "one-block-ahead",
        include_str!("../scenarios/one-block-ahead.drill"),
    ),
    (
        "older-stamp",
        include_str!("../scenarios/older-stamp.drill"),
    ),
    (
        "no-check-behind-a-shut-gate",
        include_str!("../scenarios/no-check-behind-a-shut-gate.drill"),
    ),
    (
        "evicted-emptied-in-a-reorg",
        include_str!("../scenarios/evicted-emptied-in-a-reorg.drill"),
    ),
];

/// The text of a shipped scenario.
pub fn scenario(name: &str) -> Option<&'static str> {
    let found = SCENARIOS.iter().find(|(shipped, _)| *shipped == name);
    found.map(|(_, text)| *text)
}
