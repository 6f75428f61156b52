//! What was run: steps by kind and mode, refusals by number, differences.

use keeper_oracle::{Reason, Sent};
use keeper_values::numbers::kinds;
use keeper_values::{Call, Id, MapCall, Mode, Request, Row, State};
use std::collections::BTreeSet;
use std::fmt::{self, Display, Formatter};

const KINDS: usize = kinds::LAST as usize + 2;

/// What finished steps are counted for besides; the texts are the report's.
const MET: [&str; 9] = [
    "a send fails",
    "a batch of more than one run",
    "two batches or more",
    "128 peers listed",
    "a shut gate, and ids to ask for",
    "flags of the view that disagree with the pairs",
    "192 heights or more in the view",
    "1,000 or more pending and evicted",
    "a height of 2^32 - 1",
];

/// What finished checks with retries are counted for besides, where the gate is open and a peer is listed.
const AIMED: [&str; 6] = [
    "no listed peer stalled",
    "some of the listed peers stalled",
    "all listed peers stalled",
    "all listed peers but the failed one stalled: where F-8 parts from F-2",
    "a listed peer stalled, the failed one not listed",
    "a listed peer stalled, one listed twice",
];

/// The numbers that a call of the map may have.
const MAP_NUMBERS: [u32; 4] = [0, 12, 8, 9];

/// What finished calls of the map are counted for besides, by the run after them.
const MAP_MET: [&str; 4] = [
    "no height can be passed",
    "1 to 63 heights can be passed",
    "64 to 191 heights can be passed",
    "all 192 heights can be passed",
];

#[derive(Debug, Clone, Default)]
pub struct Report {
    finished: [[u64; 5]; KINDS],
    refused: [u64; 12],
    out_of_domain: [u64; 5],
    outcomes: [u64; 6],
    met: [u64; MET.len()],
    aimed: [u64; AIMED.len()],
    map: [[u64; MAP_NUMBERS.len()]; MapCall::NAMES.len()],
    map_met: [u64; MAP_MET.len()],
    pub streams: u64,
    pub questions: u64,
    pub differences: u64,
}

impl Report {
    pub fn step(&mut self, mode: Mode, kind: u8, number: u32) {
        match self.refused.get_mut(number as usize) {
            Some(count) if number != 0 => *count += 1,
            _ => {
                let row = usize::from(kind).min(KINDS - 1);
                self.finished[row][usize::from(mode.number())] += 1;
            }
        }
    }

    /// A finished step that the Rust agrees with.
    pub fn agreed(&mut self, call: &Call, after: &State, sends: &[Sent], outcome: u32) {
        if let Some(count) = self.outcomes.get_mut(outcome as usize) {
            *count += 1;
        }
        let last = sends
            .last()
            .map_or(0, |sent| usize::from(sent.command.batch));
        let disagree = call.view.rows.iter().any(|row| match row {
            Row::Absent => false,
            Row::Present(places) => places
                .iter()
                .any(|place| place.stored != call.stored.contains(&(place.type_id, place.id))),
        });
        let met = [
            sends.iter().any(|sent| sent.failed),
            sends.len() > last + 1,
            last > 0,
            call.peers.len() == 128,
            !call.gate && !call.ids.is_empty(),
            disagree,
            call.view.rows.len() >= 192,
            after.pending.len() + after.evicted.len() >= 1_000,
            call.height == u32::MAX,
        ];
        for (count, met) in self.met.iter_mut().zip(met) {
            *count += u64::from(met);
        }
    }

    /// A finished check that the Rust agrees with, by where its retries could go.
    pub fn agreed_check(&mut self, before: &State, call: &Call, after: &State) {
        // Only a retry has one check more.
        let retried = |(id, request): (&Id, &Request)| {
            let now = after.pending.get(id)?;
            (now.checks > request.checks).then_some(request.peer)
        };
        let failed: Vec<u64> = before.pending.iter().filter_map(retried).collect();
        let peers = &call.peers;
        if !call.gate || peers.is_empty() || failed.is_empty() {
            return;
        }
        let is_stalled = |peer: &u64| before.stalled.contains(peer);
        let (stalled, free): (Vec<u64>, Vec<u64>) = peers.iter().partition(|peer| is_stalled(peer));
        let only = |failed: &u64| free.iter().all(|peer| peer == failed);
        let once: BTreeSet<&u64> = peers.iter().collect();
        let some = !stalled.is_empty();
        let met = [
            !some,
            some && !free.is_empty(),
            free.is_empty(),
            some && !free.is_empty() && failed.iter().any(only),
            some && failed.iter().any(|failed| !peers.contains(failed)),
            some && once.len() < peers.len(),
        ];
        for (count, met) in self.aimed.iter_mut().zip(met) {
            *count += u64::from(met);
        }
    }

    /// A call of the map, with its number and how many heights can be passed after it.
    pub fn map_call(&mut self, call: &MapCall, number: u32, heights: u32) {
        let column = MAP_NUMBERS.iter().position(|known| *known == number);
        if let Some(column) = column {
            self.map[call.kind()][column] += 1;
        }
        if number == 0 {
            let met = match heights {
                0 => 0,
                1..=63 => 1,
                64..=191 => 2,
                _ => 3,
            };
            self.map_met[met] += 1;
        }
    }

    pub fn map_calls(&self) -> u64 {
        self.map.iter().flatten().sum()
    }

    pub fn out_of_domain(&mut self, reason: Reason) {
        self.out_of_domain[reason as usize] += 1;
    }

    pub fn steps(&self) -> u64 {
        self.finished.iter().flatten().sum::<u64>() + self.refused.iter().sum::<u64>()
    }
}

impl Report {
    fn maps(&self, out: &mut Formatter<'_>) -> fmt::Result {
        writeln!(out, "\n| map call | finished | 12 | 8 | 9 |")?;
        writeln!(out, "|---|---|---|---|---|")?;
        for (name, numbers) in MapCall::NAMES.iter().zip(self.map) {
            write!(out, "| {name} |")?;
            for count in numbers {
                match count {
                    0 => write!(out, " |")?,
                    count => write!(out, " {count} |")?,
                }
            }
            writeln!(out)?;
        }
        writeln!(out, "\n| after finished map calls | calls |")?;
        writeln!(out, "|---|---|")?;
        for (name, count) in MAP_MET.iter().zip(self.map_met) {
            writeln!(out, "| {name} | {count} |")?;
        }
        Ok(())
    }
}

impl Display for Report {
    fn fmt(&self, out: &mut Formatter<'_>) -> fmt::Result {
        writeln!(out, "| step | new | seeking | syncing | synced |")?;
        writeln!(out, "|---|---|---|---|---|")?;
        for kind in 1..=kinds::LAST {
            write!(out, "| {} {} |", kind, kinds::name(kind))?;
            for mode in &Mode::ALL[..4] {
                match self.finished[usize::from(kind)][usize::from(mode.number())] {
                    0 => write!(out, " |")?,
                    count => write!(out, " {count} |")?,
                }
            }
            writeln!(out)?;
        }
        writeln!(out, "\n| outcome | steps |")?;
        writeln!(out, "|---|---|")?;
        let names = "Continue,Synced,BehindPeer,sync peer gone,Stalled,end of stream";
        for (name, count) in names.split(',').zip(self.outcomes) {
            writeln!(out, "| {name} | {count} |")?;
        }
        writeln!(out, "\n| finished steps with | steps |")?;
        writeln!(out, "|---|---|")?;
        for (name, count) in MET.iter().zip(self.met) {
            writeln!(out, "| {name} | {count} |")?;
        }
        writeln!(out, "\n| checks with retries, gate open | checks |")?;
        writeln!(out, "|---|---|")?;
        for (name, count) in AIMED.iter().zip(self.aimed) {
            writeln!(out, "| {name} | {count} |")?;
        }
        writeln!(out, "\n| refusal | steps |")?;
        writeln!(out, "|---|---|")?;
        for (number, count) in self.refused.iter().enumerate().skip(1) {
            if *count > 0 {
                writeln!(out, "| {number} | {count} |")?;
            }
        }
        let [end, panic, place, headers, wide] = self.out_of_domain;
        writeln!(out, "\n| outside the oracle's domain | steps |")?;
        writeln!(out, "|---|---|")?;
        writeln!(
            out,
            "| end of stream in seeking without a fruitless pick (D-1) | {end} |"
        )?;
        writeln!(out, "| a sum of the Rust overflows | {panic} |")?;
        writeln!(out, "| no such place in the Rust | {place} |")?;
        writeln!(
            out,
            "| an empty header list from another peer than the sync peer (D-3) | {headers} |"
        )?;
        writeln!(
            out,
            "| a type above 255, pending or in the call (D-4) | {wide} |"
        )?;
        if self.map_calls() > 0 {
            self.maps(out)?;
        }
        writeln!(
            out,
            "\n{} streams, {} steps, {} questions, {} map calls, {} differences",
            self.streams,
            self.steps(),
            self.questions,
            self.map_calls(),
            self.differences
        )
    }
}
