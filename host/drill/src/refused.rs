//! Why a step was turned back, with the bound that it met: the refusal itself names only the place.

use crate::scenario::Wake;
use crate::standing::Standing;
use crate::text::{grouped, mode_word};
use crate::world::World;
use request_keeper::{Mode, Refusal};

// Document 01, "Lists" and "View".
const MOST_IDS: usize = 1_024;
const MOST_CONTINUATION_IDS: usize = 400;
const MOST_PEERS: usize = 128;
const MOST_SECTIONS: usize = 3;

/// The reason in numbers; `None` where the refusal's own words have them.
pub fn reason(
    refusal: Refusal,
    (clock, wake): (u64, &Wake),
    world: &World,
    before: &Standing,
) -> Option<String> {
    match refusal {
        Refusal::ClockWentBack => Some(format!(
            "the clock {} is before {}",
            grouped(clock),
            grouped(before.last_clock)
        )),
        Refusal::WrongStep => Some(wrong_step(wake, before.mode)),
        Refusal::Lists => long_list(wake),
        Refusal::Peers => longer("peers are listed", world.peers.len(), MOST_PEERS),
        Refusal::View => {
            let (height, sections) = world.rows_above(wake, before.downloaded, MOST_SECTIONS)?;
            longer(
                &format!("sections at height {height}"),
                sections,
                MOST_SECTIONS,
            )
        }
        Refusal::HeightOutsideView => {
            let rows = world.most_rows()?;
            Some(format!("the view is cut to {} rows", grouped(rows as u64)))
        }
        Refusal::TooManyTracked => Some(format!(
            "{} are pending and {} evicted before it",
            grouped(before.pending.len() as u64),
            grouped(before.evicted.len() as u64)
        )),
        _ => None,
    }
}

fn wrong_step(wake: &Wake, mode: Mode) -> String {
    match (mode, wake) {
        (Mode::Ended, _) => "the stream has ended: no step follows".to_string(),
        (Mode::Syncing, Wake::SendFailure) => {
            "send-failure comes right behind an entry that sent a sync info".to_string()
        }
        _ => format!("this is no step of the mode {}", mode_word(mode)),
    }
}

fn long_list(wake: &Wake) -> Option<String> {
    match wake {
        Wake::Announced(_, _, ids) | Wake::Received(ids) | Wake::Evicted(ids) => {
            longer("ids are handed in", ids.len(), MOST_IDS)
        }
        Wake::SyncInfo(_, Some(info)) => longer(
            "continuation ids are handed in",
            info.continuation.len(),
            MOST_CONTINUATION_IDS,
        ),
        _ => None,
    }
}

/// `None` if the bound is kept.
fn longer(what: &str, count: usize, most: usize) -> Option<String> {
    let (count_words, most_words) = (grouped(count as u64), grouped(most as u64));
    (count > most).then(|| format!("{count_words} {what}, and at most {most_words} are taken"))
}
