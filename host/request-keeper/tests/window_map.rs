//! The typed map of the window against a plain account of it, on random calls, refused ones included; bytes that are no map;
//! and that what can be passed is what a step then passes.

mod account;

use account::{sections, Account, Height, Rows, WINDOW};
use request_keeper::{
    Refusal, RequestKeeper, Settings, Step, Surroundings, View, WindowMap, MAP_BYTES,
};

const MAX: u32 = u32::MAX;

/// Numbers from a seed (SplitMix64).
struct Draws(u64);

impl Draws {
    fn below(&mut self, limit: u64) -> u64 {
        self.0 = self.0.wrapping_add(0x9e37_79b9_7f4a_7c15);
        let mixed = (self.0 ^ self.0 >> 30).wrapping_mul(0xbf58_476d_1ce4_e5b9);
        let mixed = (mixed ^ mixed >> 27).wrapping_mul(0x94d0_49bb_1331_11eb);
        (mixed ^ mixed >> 31) % limit
    }

    fn among<T: Copy>(&mut self, all: &[T]) -> T {
        all[self.below(all.len() as u64) as usize]
    }

    /// A height of up to three sections; one of `rarity` is missing, and as rarely the header is absent.
    fn height(&mut self, rarity: u64) -> Height {
        let count = self.below(4);
        let present = self.below(rarity) > 0;
        present.then(|| (0..count).map(|_| self.below(rarity) > 0).collect())
    }

    fn heights(&mut self, count: u64) -> Vec<Height> {
        let rarity = self.among(&[2, 20, 400, 100_000]);
        (0..count).map(|_| self.height(rarity)).collect()
    }

    /// Rows for these heights, or nearly.
    fn rows(&mut self, first: u64, count: u64) -> Rows {
        let first = match self.below(6) {
            0 => first + 1,
            1 => first.saturating_sub(self.below(200)),
            _ => first,
        };
        let first = u32::try_from(first).unwrap_or(MAX);
        let count = match self.below(6) {
            0 => count.saturating_sub(1),
            1 => count + self.below(200),
            _ => count,
        };
        let room = u64::from(MAX - first) + 1;
        Rows {
            first,
            heights: self.heights(count.min(room)),
        }
    }

    fn chain_height(&mut self, downloaded: u32) -> u32 {
        let above = self.among(&[0, 3, 100, 191, 192, 193, 250, 1_000]);
        match self.below(8) {
            0 => downloaded.saturating_sub(above),
            _ => downloaded.saturating_add(above),
        }
    }
}

const BASES: [u32; 6] = [0, 400, 1 << 24, MAX - 250, MAX - 3, MAX];

/// A map and its account, and how often each number was answered.
struct Pair {
    map: WindowMap,
    account: Account,
    answered: [usize; 13],
}

impl Pair {
    fn new() -> Self {
        let rows = Rows {
            first: 1,
            heights: Vec::new(),
        };
        Self {
            map: WindowMap::filled(0, 0, &rows.view()).expect("no height is needed"),
            account: Account::filled(0, 0, &rows).expect("no height is needed"),
            answered: [0; 13],
        }
    }

    fn fill(&mut self, draws: &mut Draws) -> Result<(), Refusal> {
        let downloaded = draws.among(&BASES);
        let chain_height = draws.chain_height(downloaded);
        let rows = draws.rows(u64::from(downloaded) + 1, WINDOW);
        let expected = Account::filled(downloaded, chain_height, &rows);
        let filled = self.map.fill(downloaded, chain_height, &rows.view());
        assert_eq!(filled, expected.as_ref().map(|_| ()).map_err(|e| *e));
        if let Ok(account) = expected {
            self.account = account;
        }
        filled
    }

    fn change(&mut self, draws: &mut Draws) -> Result<(), Refusal> {
        let height = u64::from(self.account.downloaded) + draws.below(WINDOW + 2);
        let height = u32::try_from(height).unwrap_or(MAX);
        let place = draws.among(&[0, 1, 2, 3, 255]);
        let known = self.map.has_height(height);
        let stored = draws.below(3) > 0;
        let changed = match stored {
            true => self.map.arrived(height, place),
            false => self.map.pruned(height, place),
        };
        assert_eq!(changed, self.account.change(height, place, stored));
        assert!(known || changed.is_err());
        changed
    }

    fn slide(&mut self, draws: &mut Draws) -> Result<(), Refusal> {
        let by = draws.among(&[0, 0, 1, 1, 2, 63, 64, 65, 191, 192, 193, 500]);
        let below = self.account.downloaded;
        let downloaded = match draws.below(10) {
            0 => below.saturating_sub(by),
            _ => below.saturating_add(by),
        };
        let new = u64::from(by).min(WINDOW);
        let rows = draws.rows(u64::from(downloaded) + WINDOW - new + 1, new);
        let slid = self.map.slide(downloaded, &rows.view());
        assert_eq!(slid, self.account.slide(downloaded, &rows));
        slid
    }

    /// A call, and the map is what its account is: after a refusal, what both were before.
    fn call(&mut self, draws: &mut Draws) {
        let answer = match draws.below(20) {
            0 => self.fill(draws),
            1..=3 => self.slide(draws),
            _ => self.change(draws),
        };
        let number = answer.err().map_or(0, Refusal::number);
        self.answered[number as usize] += 1;
        assert!(self.map.as_bytes() == &self.account.bytes());
        assert_eq!(self.map.passable(), self.account.passable());
        assert_eq!(self.map.downloaded_height(), self.account.downloaded);
        assert_eq!(self.map.chain_height(), self.account.chain_height);
    }
}

#[test]
fn the_map_is_its_account() {
    let mut draws = Draws(1);
    let mut pair = Pair::new();
    let mut runs = [0; 4];
    for _ in 0..20_000 {
        pair.call(&mut draws);
        runs[pair.account.passable() as usize / 64] += 1;
    }
    // Nothing was left out: each answer, and runs that end in each word and behind the last.
    assert!([0, 9, 12].iter().all(|number| pair.answered[*number] > 100));
    assert!(runs.iter().all(|run| *run > 20), "{runs:?}");
}

#[test]
fn bytes_that_are_no_map_are_refused() {
    for length in [0, MAP_BYTES - 1, MAP_BYTES + 1] {
        let refusal = WindowMap::from_bytes(&vec![0; length]).err();
        assert_eq!(refusal, Some(Refusal::Map));
    }
    let mut draws = Draws(2);
    let mut kept = 0;
    for chain_height in [402, 500, 1_000] {
        let rows = Rows {
            first: 401,
            heights: draws.heights(WINDOW),
        };
        let map = WindowMap::filled(400, chain_height, &rows.view()).expect("all rows");
        let restored = WindowMap::from_bytes(map.as_bytes());
        assert!(restored == Ok(map.clone()));
        for at in 0..MAP_BYTES {
            for byte in 0..=255 {
                let mut bytes = *map.as_bytes();
                bytes[at] = byte;
                let restored = WindowMap::from_bytes(&bytes);
                let expected = Account::read(&bytes).ok_or(Refusal::Map);
                assert_eq!(restored.as_ref().err(), expected.as_ref().err(), "{at}");
                kept += usize::from(restored.is_ok_and(|map| map.as_bytes() == &bytes));
            }
        }
    }
    // Each byte's own value, another of a height that stays as complete as it was, other chain heights.
    assert!(kept > 3 * MAP_BYTES);
}

/// What views a map is filled from: every height, also behind the absent one, and no more than are needed.
#[test]
fn views_reach_as_far_as_a_map_is_filled() {
    let heights = |height| (height % 5 > 0).then(|| sections(&[true]));
    let shorter = |view: &View| {
        let mut shorter = View::from_height(first_of(view));
        for _ in 1..view.rows() {
            shorter.push_absent().expect("a row that was there");
        }
        shorter
    };
    for (downloaded, chain_height, rows) in [
        (400, 390, 0),
        (400, 400, 0),
        (400, 405, 5),
        (400, 592, 192),
        (400, 9_000, 192),
        (MAX - 3, MAX, 3),
        (MAX, MAX, 0),
    ] {
        let view = View::of_window(downloaded, chain_height, heights).expect("one section");
        assert_eq!(view.rows(), rows);
        assert!(WindowMap::filled(downloaded, chain_height, &view).is_ok());
        let refusal = WindowMap::filled(downloaded, chain_height, &shorter(&view)).err();
        assert_eq!(refusal, (rows > 0).then_some(Refusal::HeightOutsideView));
    }
    for (downloaded, chain_height, to, rows) in [
        (400, 9_000, 390, 0),
        (400, 9_000, 400, 0),
        (400, 9_000, 403, 3),
        (400, 594, 403, 2),
        (400, 592, 403, 0),
        (400, 9_000, 700, 192),
        (400, 705, 700, 5),
        (MAX - 400, MAX, MAX - 200, 192),
        (MAX - 400, MAX, MAX - 100, 100),
        (MAX - 3, MAX, MAX, 0),
    ] {
        let view = View::of_window(downloaded, chain_height, heights).expect("one section");
        let map = WindowMap::filled(downloaded, chain_height, &view).expect("filled");
        let view = View::of_new_heights(&map, to, heights).expect("one section");
        assert_eq!(view.rows(), rows, "{downloaded} to {to}");
        let down = (to < downloaded).then_some(Refusal::Map);
        assert_eq!(map.clone().slide(to, &view).err(), down);
        let short = (rows > 0).then_some(Refusal::HeightOutsideView);
        assert_eq!(map.clone().slide(to, &shorter(&view)).err(), down.or(short));
    }
    let four = |_| Some(sections(&[true; 4]));
    assert_eq!(View::of_window(0, 1, four), Err(Refusal::View));
}

fn first_of(view: &View) -> u32 {
    let (first, _) = view.as_bytes().split_first_chunk().expect("four bytes");
    u32::from_be_bytes(*first)
}

/// A start passes complete heights and does nothing else. It reads one row more than it passes, up to the chain height.
#[test]
fn what_can_be_passed_is_what_a_step_passes() {
    let mut draws = Draws(3);
    for _ in 0..500 {
        let downloaded = draws.among(&[0, 400, MAX - 250]);
        let chain_height = downloaded + draws.among(&[0, 3, 100, 192]);
        let mut store = draws.heights(WINDOW);
        let row = |store: &[Height], height: u32| {
            let stored = store[(height - downloaded - 1) as usize].as_deref();
            stored.map(sections)
        };
        let view = View::of_window(downloaded, chain_height, |height| row(&store, height));
        let mut map =
            WindowMap::filled(downloaded, chain_height, &view.expect("rows")).expect("filled");
        for _ in 0..draws.below(300) {
            let (index, place) = (draws.below(WINDOW) as usize, draws.below(3) as usize);
            let height = downloaded + 1 + index as u32;
            if map.arrived(height, place as u8).is_ok() {
                store[index].as_mut().expect("present")[place] = true;
            }
        }
        let passable = map.passable();
        let view = View::of_complete(downloaded, chain_height, |height| row(&store, height));
        let view = view.expect("rows");
        let more = u32::from(downloaded + passable < chain_height);
        assert_eq!(view.rows() as u32, passable + more);
        let mut keeper = RequestKeeper::open(Settings::default(), 0, downloaded).expect("opened");
        let now = Surroundings {
            chain_height,
            view: &view,
            ..Surroundings::at(0)
        };
        assert!(keeper.step(Step::Start, &now).is_ok());
        assert_eq!(keeper.downloaded_height(), downloaded + passable);
    }
}
