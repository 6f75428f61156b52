//! F-1's map: streams of its calls on the reference and on other keepers beside it, byte for byte, and against an
//! account of their own: the rows as filled and the flags as changed since, judged by rule 5.

use crate::report::Report;
use keeper_reference::inputs::{row, view_fits, Inputs};
use keeper_reference::sync::advance_downloaded_height;
use keeper_reference::{Refusal, Run, PLAIN};
use keeper_streams::build::{syncing, CASES};
use keeper_streams::maps::{MapEvent, MapScript, RandomMap};
use keeper_values::numbers::limits::WINDOW;
use keeper_values::{Arguments, Keeper, MapCall, Row, State, View, MAP_BYTES};
use std::collections::BTreeMap;

/// What the calls since the last whole fill have said. It knows nothing of the map's bytes.
#[derive(Debug, Clone, PartialEq, Eq)]
pub struct Account {
    downloaded: u32,
    chain: u32,
    /// The heights of the window up to the chain height.
    rows: BTreeMap<u32, Row>,
}

/// The last height of the window that the chain has.
fn window_end(downloaded: u32, chain: u32) -> u32 {
    chain.min(downloaded.saturating_add(WINDOW))
}

/// The rows of these heights, from above the first to the last; none if the view lacks one.
fn rows(view: &[u8], above: u32, last: u32) -> Option<BTreeMap<u32, Row>> {
    let heights = u64::from(above) + 1..=u64::from(last);
    heights
        .map(|height| Some((height as u32, row(view, height as u32)?)))
        .collect()
}

impl Account {
    fn filled(downloaded: u32, chain: u32, view: &[u8]) -> Result<Self, u32> {
        if !view_fits(view) {
            return Err(8);
        }
        let rows = rows(view, downloaded, window_end(downloaded, chain)).ok_or(9_u32)?;
        Ok(Self {
            downloaded,
            chain,
            rows,
        })
    }

    fn changed(mut self, height: u32, place: u8, stored: bool) -> Result<Self, u32> {
        let Some(Row::Present(places)) = self.rows.get_mut(&height) else {
            return Err(12);
        };
        let place = places.get_mut(usize::from(place)).ok_or(12_u32)?;
        place.stored = stored;
        Ok(self)
    }

    fn slid(mut self, downloaded: u32, view: &[u8]) -> Result<Self, u32> {
        if downloaded < self.downloaded {
            return Err(12);
        }
        if !view_fits(view) {
            return Err(8);
        }
        // What the old window reached is not filled anew.
        let reached = self.downloaded.saturating_add(WINDOW).max(downloaded);
        let new = rows(view, reached, window_end(downloaded, self.chain)).ok_or(9_u32)?;
        self.rows.retain(|height, _| *height > downloaded);
        self.rows.extend(new);
        self.downloaded = downloaded;
        Ok(self)
    }

    /// The account after a call, or the number by which it is refused. There is none before a whole fill.
    fn after(account: Option<&Self>, call: &MapCall) -> Option<Result<Self, u32>> {
        let known = account.cloned();
        match call {
            MapCall::Fill {
                downloaded,
                chain,
                view,
            } => Some(Self::filled(*downloaded, *chain, view)),
            MapCall::Arrived { height, place } => Some(known?.changed(*height, *place, true)),
            MapCall::Pruned { height, place } => Some(known?.changed(*height, *place, false)),
            MapCall::Slide { downloaded, view } => Some(known?.slid(*downloaded, view)),
        }
    }

    /// How far rule 5 gets "from a view and a chain height limited to those heights".
    fn passed(&self) -> Result<u32, Refusal> {
        let view = View {
            first: self.downloaded.saturating_add(1),
            rows: self.rows.values().cloned().collect(),
        };
        let arguments = Arguments {
            height: window_end(self.downloaded, self.chain),
            view: view.to_bytes(),
            ..Arguments::default()
        };
        let mut run = Run {
            rules: &PLAIN,
            inputs: Inputs::read(&arguments),
            state: State {
                downloaded: self.downloaded,
                ..syncing(CASES, 0)
            },
            commands: Default::default(),
            counts: [0; 4],
        };
        advance_downloaded_height(&mut run)?;
        Ok(run.state.downloaded - self.downloaded)
    }
}

/// A map under each keeper, and the account.
pub struct MapTrial<'k> {
    keepers: Vec<&'k dyn Keeper>,
    /// The map of each keeper; all are the same.
    maps: Vec<Vec<u8>>,
    account: Option<Account>,
}

impl<'k> MapTrial<'k> {
    /// Zeros, which are no map.
    pub fn new(keepers: &[&'k dyn Keeper]) -> Self {
        Self {
            keepers: keepers.to_vec(),
            maps: vec![vec![0; MAP_BYTES]; keepers.len()],
            account: None,
        }
    }

    pub fn map(&self) -> &[u8] {
        &self.maps[0]
    }

    /// A map from elsewhere: nothing is known of how it came to be.
    pub fn put(&mut self, map: &[u8]) {
        self.maps.fill(map.to_vec());
        self.account = None;
    }

    /// What can be passed, the same under every keeper and the account's.
    pub fn passable(&self) -> Result<(u32, u32), String> {
        let answers: Vec<(u32, u32)> = self
            .keepers
            .iter()
            .zip(&self.maps)
            .map(|(keeper, map)| keeper.map_passable(map))
            .collect();
        if let Some(other) = answers.iter().find(|answer| **answer != answers[0]) {
            return Err(format!("passable: {:?} and beside {other:?}", answers[0]));
        }
        if let Some(account) = &self.account {
            let passed = account.passed().map(|heights| (0, heights));
            if passed != Ok(answers[0]) {
                return Err(format!("passable: {:?}, rule 5: {passed:?}", answers[0]));
            }
        }
        Ok(answers[0])
    }

    /// One call on every map; its number. A refusal leaves the map, and `passable` is asked after it.
    pub fn call(&mut self, call: &MapCall, report: &mut Report) -> Result<u32, String> {
        let before = self.maps[0].clone();
        let mut numbers = Vec::new();
        for (keeper, map) in self.keepers.iter().zip(&mut self.maps) {
            numbers.push(keeper.map_call(map, call));
        }
        let number = numbers[0];
        if let Some(other) = numbers.iter().find(|other| **other != number) {
            return Err(format!("number {number}, and beside {other}"));
        }
        if let Some(other) = self.maps.iter().find(|other| **other != self.maps[0]) {
            let at = self.maps[0].iter().zip(other).position(|(a, b)| a != b);
            return Err(format!("maps differ at byte {at:?}"));
        }
        if number != 0 && self.maps[0] != before {
            return Err(format!("refused as {number}, and the map is changed"));
        }
        let expected = if before.len() == MAP_BYTES {
            Account::after(self.account.as_ref(), call)
        } else {
            Some(Err(12))
        };
        match expected {
            Some(Ok(account)) if number == 0 => self.account = Some(account),
            Some(Err(refused)) if number == refused => {}
            Some(after) => return Err(format!("number {number}, the account: {after:?}")),
            None => {}
        }
        let (_, heights) = self.passable()?;
        report.map_call(call, number, heights);
        Ok(number)
    }
}

/// A directed stream: each number and each run is the one that it says.
pub fn try_script(
    keepers: &[&dyn Keeper],
    script: &MapScript,
    report: &mut Report,
) -> Result<(), String> {
    let mut trial = MapTrial::new(keepers);
    report.streams += 1;
    for (index, event) in script.events.iter().enumerate() {
        let named = |fault: String| format!("{}, event {index}: {fault}", script.name);
        match event {
            MapEvent::Area(bytes) => trial.put(bytes),
            MapEvent::Call(call, number) => {
                let given = trial.call(call, report).map_err(named)?;
                if given != *number {
                    return Err(named(format!("number {given}, not {number}")));
                }
            }
            MapEvent::Passable(number, heights) => {
                let given = trial.passable().map_err(named)?;
                if given != (*number, *heights) {
                    return Err(named(format!("{given:?}, not ({number}, {heights})")));
                }
            }
        }
    }
    Ok(())
}

/// A random stream.
pub fn try_random(keepers: &[&dyn Keeper], seed: u64, report: &mut Report) -> Result<(), String> {
    let mut random = RandomMap::new(seed);
    let mut trial = MapTrial::new(keepers);
    report.streams += 1;
    for index in 0..random.length {
        let call = random.next(trial.map());
        trial.call(&call, report).map_err(|fault| {
            let name = call.name();
            format!("map, seed {seed}, call {index}, {name}: {fault}")
        })?;
    }
    Ok(())
}
