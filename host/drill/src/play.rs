//! Plays a scenario against the proved core.

use crate::fates::{fates, Facts, Fate};
use crate::reasons::reasons;
use crate::refused;
use crate::scenario::{Expectation, Names, Scenario, Wake, What};
use crate::sending::{sent, SendFate, Sending, Sent};
use crate::standing::Standing;
use crate::verdict::{judge, Verdict};
use crate::world::World;
use request_keeper::{Answer, Forecast, MeanAge, Refusal, RequestKeeper};
use request_keeper::{Settings, Surroundings, View};
use std::rc::Rc;

/// A scenario that was played.
#[derive(Debug)]
pub struct Played {
    pub title: String,
    pub names: Names,
    pub settings: Settings,
    pub open: (u64, u32),
    pub items: Vec<Item>,
}

#[derive(Debug)]
pub enum Item {
    /// A remark to the reader.
    Say(String),
    /// The surroundings were changed, in the scenario's words.
    Change(String),
    Moment(Box<Moment>),
}

/// A step that was played, and all that is known of it.
#[derive(Debug)]
pub struct Moment {
    pub line: usize,
    pub clock: u64,
    pub wake: Wake,
    /// The step in the scenario's words.
    pub text: String,
    pub gate_open: bool,
    pub chain_height: u32,
    pub before: Rc<Standing>,
    pub after: Rc<Standing>,
    /// What the core said of the step right before it.
    pub forecast: Result<Forecast, Refusal>,
    pub result: Result<Answer, Refusal>,
    /// Of what is pending after it, at its clock.
    pub mean_age: Result<MeanAge, Refusal>,
    pub sendings: Vec<Sending>,
    /// The sync info of an entry failed: send failure has to be the next step.
    pub entry_failed: bool,
    pub fates: Vec<Fate>,
    /// What explains the step as a whole.
    pub reasons: Vec<(&'static str, String)>,
    pub verdicts: Vec<Verdict>,
    /// Without this a refusal is not as expected.
    pub refusal_expected: bool,
}

impl Played {
    pub fn moments(&self) -> impl Iterator<Item = &Moment> {
        self.items.iter().filter_map(|item| match item {
            Item::Moment(moment) => Some(moment.as_ref()),
            Item::Say(_) | Item::Change(_) => None,
        })
    }

    pub fn verdicts(&self) -> impl Iterator<Item = &Verdict> {
        self.moments().flat_map(|moment| &moment.verdicts)
    }

    /// Whether every expectation holds, and no step was refused unexpectedly.
    pub fn as_expected(&self) -> bool {
        self.verdicts().all(Verdict::met)
    }
}

/// What the steps so far have left.
struct Past {
    standing: Rc<Standing>,
    /// What became of the last sync info; `None` if there was none since the opening.
    sync_info: Option<SendFate>,
}

impl Past {
    fn note(&mut self, moment: &Moment) {
        self.standing = Rc::clone(&moment.after);
        let mut sendings = moment.sendings.iter();
        let last = sendings.rfind(|sending| sending.what == Sent::SyncInfo);
        self.sync_info = last.map(|sending| sending.fate).or(self.sync_info);
    }
}

/// Plays a scenario from its opening to its last line.
pub fn play(scenario: &Scenario) -> Result<Played, Refusal> {
    let (clock, height) = scenario.open;
    let mut keeper = RequestKeeper::open(scenario.settings, clock, height)?;
    let mut world = World::opened(height);
    let mut past = Past {
        standing: Rc::new(Standing::of(&keeper)),
        sync_info: None,
    };
    let mut items = Vec::new();
    for line in &scenario.lines {
        match &line.what {
            What::Say(text) => items.push(Item::Say(text.clone())),
            What::Change(change) => {
                world.change(change);
                items.push(Item::Change(line.text.clone()));
            }
            What::At(clock, wake) => {
                let names = &scenario.names;
                let mut moment = step(&mut keeper, &world, (*clock, wake), &past, names);
                moment.line = line.number;
                moment.text = after_clock(&line.text);
                past.note(&moment);
                items.push(Item::Moment(Box::new(moment)));
            }
            What::Expect(expectation) => {
                if let Some(moment) = last_moment(&mut items) {
                    let verdict = judge(line, expectation, moment, &scenario.names);
                    moment.verdicts.push(verdict);
                    moment.refusal_expected |= matches!(expectation, Expectation::Refused(_));
                }
            }
        }
    }
    for item in &mut items {
        if let Item::Moment(moment) = item {
            Verdict::unexpected_refusal(moment);
        }
    }
    Ok(Played {
        title: scenario.title.clone(),
        names: scenario.names.clone(),
        settings: scenario.settings,
        open: scenario.open,
        items,
    })
}

/// `at CLOCK STEP..` without its first two words, blanks between the others made single.
fn after_clock(text: &str) -> String {
    let words: Vec<&str> = text.split_whitespace().skip(2).collect();
    words.join(" ")
}

fn last_moment(items: &mut [Item]) -> Option<&mut Moment> {
    items.iter_mut().rev().find_map(|item| match item {
        Item::Moment(moment) => Some(moment.as_mut()),
        Item::Say(_) | Item::Change(_) => None,
    })
}

/// The core's answer with what was sent, or its refusal; and whether send failure has to be the next step.
type Ran = Result<(Answer, Vec<Sending>, bool), Refusal>;

/// Asks for a step's forecast with what the world lends it, hands the step in with the same, and sends its commands.
fn run(
    keeper: &mut RequestKeeper,
    world: &World,
    clock: u64,
    wake: &Wake,
) -> (Result<Forecast, Refusal>, Ran) {
    let view = world.view(wake, keeper.downloaded_height());
    let none = View::EMPTY;
    let stored = match world.stored_pairs(wake, keeper) {
        Ok(stored) => stored,
        Err(refusal) => return (Err(refusal), Err(refusal)),
    };
    let now = Surroundings {
        clock,
        gate_open: world.gate_open,
        chain_height: world.chain_height,
        peers: &world.peers,
        stored: &stored,
        view: view.as_ref().unwrap_or(&none),
    };
    let forecast = keeper.forecast(wake.step(), &now);
    if let Err(malformed) = view {
        // The crate makes no such view, so the core can't refuse it: what comes before it in the order is asked for.
        let earlier = forecast.err();
        let first = earlier.filter(|refusal| refusal.number() < malformed.number());
        let refusal = first.unwrap_or(malformed);
        return (Err(refusal), Err(refusal));
    }
    let ran = keeper.step(wake.step(), &now).map(|finished| {
        let answer = finished.answer;
        let (sendings, entry_failed) = sent(finished, &world.fails);
        (answer, sendings, entry_failed)
    });
    (forecast, ran)
}

/// One step, and all that is to be known of it.
fn step(
    keeper: &mut RequestKeeper,
    world: &World,
    (clock, wake): (u64, &Wake),
    past: &Past,
    names: &Names,
) -> Moment {
    let before = &past.standing;
    let (forecast, ran) = run(keeper, world, clock, wake);
    let (result, sendings, entry_failed) = match ran {
        Ok((answer, sendings, entry_failed)) => (Ok(answer), sendings, entry_failed),
        Err(refusal) => (Err(refusal), Vec::new(), false),
    };
    let mut moment = Moment {
        line: 0,
        clock,
        wake: wake.clone(),
        text: String::new(),
        gate_open: world.gate_open,
        chain_height: world.chain_height,
        before: Rc::clone(before),
        after: Rc::clone(before),
        forecast,
        result,
        mean_age: keeper.mean_age(clock),
        sendings,
        entry_failed,
        fates: Vec::new(),
        reasons: Vec::new(),
        verdicts: Vec::new(),
        refusal_expected: false,
    };
    match result {
        Ok(answer) => {
            moment.after = Rc::new(Standing::of(keeper));
            let facts = Facts {
                clock,
                wake,
                world,
                before,
                after: &moment.after,
                sync_info: past.sync_info,
                answer: &answer,
                sendings: &moment.sendings,
            };
            moment.fates = fates(&facts);
            moment.reasons = reasons(&facts, keeper.settings(), names);
        }
        Err(refusal) => {
            let why = refused::reason(refusal, (clock, wake), world, before);
            moment.reasons.extend(why.map(|why| ("why", why)));
        }
    }
    moment
}
