//! The words for what became of an id: a label and the reason.

use crate::fates::{Aim, Asked, Became, NotAsked, Retry};
use crate::scenario::{show_type, Names};
use crate::text::grouped;
use request_keeper::{Peer, Settings};

const UNEXPLAINED: &str = "for no reason that the player knows";

/// Whether a sentence is about one id or about several.
#[derive(Debug, Clone, Copy, PartialEq, Eq)]
pub enum Told {
    One,
    Several,
}

impl Told {
    pub fn of(ids: usize) -> Self {
        if ids == 1 {
            Self::One
        } else {
            Self::Several
        }
    }

    /// One of two forms of a word.
    fn form(self, one: &'static str, several: &'static str) -> &'static str {
        match self {
            Self::One => one,
            Self::Several => several,
        }
    }

    fn them(self) -> &'static str {
        self.form("it", "them")
    }

    fn they_were(self) -> &'static str {
        self.form("it was", "they were")
    }
}

/// The label of a fate and its sentence.
pub fn words(
    became: &Became,
    told: Told,
    settings: &Settings,
    names: &Names,
) -> (&'static str, String) {
    let name = |peer: &Peer| names.show_peer(*peer);
    let timeout = grouped(settings.timeout);
    match became {
        Became::Asked { of, why } => ("asked", asked(name(of), *why, told)),
        Became::NotAsked(why) => ("not asked", not_asked(*why, told, names)),
        Became::Waits { peer, age } => (
            "waits",
            format!(
                "{} ms old, below the timeout of {timeout}; on order from {}",
                grouped(*age),
                name(peer)
            ),
        ),
        Became::Retried(retry) => ("retried", retried(retry, told, settings, names)),
        Became::GivenUp { peer, age, checks } => (
            "given up",
            format!(
                "{} did not deliver in {} ms (timeout {timeout}); checks {checks}, and the limit is {}",
                name(peer),
                grouped(*age),
                settings.max_checks
            ),
        ),
        Became::Forgotten { peer, age } => (
            "forgotten",
            format!(
                "{} did not deliver in {} ms (timeout {timeout}); a transaction is not asked for twice",
                name(peer),
                grouped(*age)
            ),
        ),
        Became::Delivered { peer, age } => (
            "delivered",
            format!(
                "{} on order from {}, age {}",
                told.they_were(),
                name(peer),
                grouped(*age)
            ),
        ),
        Became::NotOnOrder => ("received", format!("{} not on order", told.they_were())),
        Became::Evicted { from } => {
            let was =
                from.map(|peer| format!("no longer on order from {}; ", names.show_peer(peer)));
            let was = was.unwrap_or_default();
            (
                "evicted",
                format!("{was}the next check asks for {} again", told.them()),
            )
        }
        Became::Purged { peer } => (
            "purged",
            format!("on order from {}; a reorg ends every request", name(peer)),
        ),
        Became::Orphaned { peer } => (
            "purged",
            format!("on order from {}, which is lost", name(peer)),
        ),
        Became::Left { peer } => (
            "stays",
            format!(
                "on order from {}, though that peer is lost: a check will find {} expired",
                name(peer),
                told.them()
            ),
        ),
    }
}

fn asked(of: String, why: Asked, told: Told) -> String {
    let them = told.them();
    match why {
        Asked::Announced => format!("of {of}, which announced {them}"),
        Asked::Needed => format!("of {of}, the sync peer: the node needs {them} for a reorg"),
        Asked::Missing => format!("of {of}, the first listed peer: missing in the window"),
        Asked::Orphan => format!("of {of}, the first listed peer, in place of the lost one"),
        Asked::Fresh => {
            let headers = told.form("a header", "headers");
            let were = told.they_were();
            format!("of {of}, the first listed peer, as {headers}: {were} evicted")
        }
    }
}

fn not_asked(why: NotAsked, told: Told, names: &Names) -> String {
    let unnoted = told.form("it is not noted for later", "they are not noted for later");
    match why {
        NotAsked::GateShut => format!("the gate is shut; {unnoted}"),
        NotAsked::NoPeer => format!("no peer is listed; {unnoted}"),
        NotAsked::Pending(peer) => format!("on order already, from {}", names.show_peer(peer)),
        NotAsked::Stored => "stored already".to_string(),
        NotAsked::Type(modifier_type) => {
            format!(
                "announcements of {} are not followed",
                show_type(modifier_type)
            )
        }
        NotAsked::Transaction => "a transaction is not asked for twice".to_string(),
        NotAsked::Unexplained => UNEXPLAINED.to_string(),
    }
}

/// Where a retry goes, and why there.
fn aimed(retry: &Retry, told: Told, names: &Names) -> String {
    let (from, to) = (names.show_peer(retry.from), names.show_peer(retry.to));
    let first_other = format!("now asked of {to}, the first listed peer other than {from}");
    match &retry.aim {
        Aim::GateShut => {
            let stay = told.form(
                "its clock starts anew, it stays",
                "their clocks start anew, they stay",
            );
            format!("the gate is shut: {stay} with {from}, nothing is sent")
        }
        Aim::Unstalled(passed) if passed.is_empty() => first_other,
        Aim::Unstalled(passed) => {
            let passed = names.show_peers(passed);
            format!("{first_other} that has not stalled (passed over: {passed})")
        }
        Aim::AllStalled(listed) => {
            let listed = names.show_peers(listed);
            format!("every listed peer has stalled ({listed}): {first_other}")
        }
        Aim::OthersStalled(others) => {
            let others = names.show_peers(others);
            format!(
                "every other listed peer has stalled ({others}), and {from}, which has not, has just failed: {first_other}"
            )
        }
        Aim::NoOther => format!("no other peer is listed: asked of {to} again"),
        Aim::NoPeer => format!("no peer is listed: asked of {to} again"),
        Aim::Unexplained => format!("asked of {to}, {UNEXPLAINED}"),
    }
}

fn retried(retry: &Retry, told: Told, settings: &Settings, names: &Names) -> String {
    format!(
        "{} did not deliver in {} ms (timeout {}); checks {}, the limit is {}; {}",
        names.show_peer(retry.from),
        grouped(retry.age),
        grouped(settings.timeout),
        retry.checks,
        settings.max_checks,
        aimed(retry, told, names)
    )
}
