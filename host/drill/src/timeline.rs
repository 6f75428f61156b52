//! A played scenario as text: clock, step, outcome, why, what was sent, what is pending.

use crate::fate_words::{words, Told};
use crate::fates::{Became, Fate};
use crate::play::{Item, Moment, Played};
use crate::scenario::show_type;
use crate::text::{forecast, grouped, mean_age, mode_word, sending};
use request_keeper::{Id, PendingRequest};

/// Lines are broken at blanks to stay within this.
const WIDTH: usize = 116;
const CLOCK: usize = 10;
const LABEL: usize = 11;
/// Where the outcome stands.
const OUTCOME: usize = 60;
/// How far behind it mode and height stand.
const PLACE: usize = 13;

/// Lines that each step has on demand.
#[derive(Debug, Clone, Copy, PartialEq, Eq, Default)]
pub struct OnDemand {
    /// What was foretold of it.
    pub forecast: bool,
    /// The mean age of what is pending after it.
    pub mean_age: bool,
}

/// The whole timeline.
pub fn timeline(played: &Played) -> String {
    timeline_with(played, OnDemand::default())
}

/// The whole timeline with lines on demand.
pub fn timeline_with(played: &Played, on_demand: OnDemand) -> String {
    let mut text = Text {
        on_demand,
        ..Text::default()
    };
    text.head(played);
    for item in &played.items {
        match item {
            Item::Say(words) => text.aside("|", words),
            Item::Change(words) => text.aside("~", words),
            Item::Moment(moment) => text.moment(moment, played),
        }
    }
    text.lines.push(String::new());
    text.lines.push(summary(played));
    text.lines.join("\n") + "\n"
}

/// The last line: how many steps and expectations there were, and which were not met.
pub fn summary(played: &Played) -> String {
    let steps = played.moments().count();
    let refused = played
        .moments()
        .filter(|moment| moment.result.is_err())
        .count();
    let refused = if refused > 0 {
        format!(" ({refused} refused)")
    } else {
        String::new()
    };
    let expected = played.verdicts().count();
    let wrong: Vec<String> = played
        .verdicts()
        .filter(|verdict| !verdict.met())
        .map(|verdict| verdict.line.to_string())
        .collect();
    let steps = format!("{}{refused}", counted(steps, "step"));
    let expectations = counted(expected, "expectation");
    match wrong.as_slice() {
        [] => format!("{steps}, {expectations}: all met"),
        [line] => format!("{steps}, {expectations}: 1 NOT MET, in line {line}"),
        lines => format!(
            "{steps}, {expectations}: {} NOT MET, in lines {}",
            lines.len(),
            lines.join(", ")
        ),
    }
}

/// The last line, and the expectations that are not met.
pub fn unmet(played: &Played) -> String {
    let mut text = Text::default();
    text.lines.push(summary(played));
    for moment in played.moments() {
        text.not_met(moment);
    }
    text.lines.join("\n")
}

fn counted(count: usize, what: &str) -> String {
    let many = if count == 1 { "" } else { "s" };
    format!("{count} {what}{many}")
}

#[derive(Default)]
struct Text {
    lines: Vec<String>,
    on_demand: OnDemand,
    /// Whether the last lines were remarks or changes.
    aside: bool,
}

impl Text {
    fn head(&mut self, played: &Played) {
        let settings = &played.settings;
        if !played.title.is_empty() {
            self.lines.push(played.title.clone());
            self.lines.push("=".repeat(played.title.chars().count()));
        }
        self.lines.push(format!(
            "timeout {} ms, max_checks {}, min_sync_send_interval {} ms, stall_timeout {} ms",
            grouped(settings.timeout),
            grouped(settings.max_checks),
            grouped(settings.min_sync_send_interval),
            grouped(settings.stall_timeout)
        ));
        let (clock, height) = played.open;
        self.lines.push(format!(
            "opened at clock {} with all blocks up to height {height}",
            grouped(clock)
        ));
    }

    /// A remark or a change of the surroundings, before the next step.
    fn aside(&mut self, mark: &str, words: &str) {
        if !self.aside {
            self.lines.push(String::new());
        }
        self.aside = true;
        self.wrapped(&format!("  {mark} "), "    ", words);
    }

    /// Text with a head before its first line and a margin before the others.
    fn wrapped(&mut self, head: &str, margin: &str, words: &str) {
        let mut line = head.to_string();
        let mut empty = true;
        for word in words.split(' ') {
            let full = line.chars().count() + 1 + word.chars().count() > WIDTH;
            if full && !empty {
                self.lines.push(line.trim_end().to_string());
                line = margin.to_string();
                empty = true;
            }
            if !empty {
                line.push(' ');
            }
            line.push_str(word);
            empty = false;
        }
        self.lines.push(line.trim_end().to_string());
    }

    fn entry(&mut self, label: &str, words: &str) {
        let margin = " ".repeat(CLOCK + 2);
        let head = format!("{margin}{label:<LABEL$}");
        self.wrapped(&head, &" ".repeat(CLOCK + 2 + LABEL), words);
    }

    fn moment(&mut self, moment: &Moment, played: &Played) {
        if !self.aside {
            self.lines.push(String::new());
        }
        self.aside = false;
        let step = format!("{:>CLOCK$}  {}", grouped(moment.clock), moment.text);
        let outcome = match &moment.result {
            Ok(answer) => format!("{:?}", answer.outcome),
            Err(refusal) => format!("REFUSED {}", refusal.number()),
        };
        let place = place(moment, played);
        self.lines
            .push(format!("{step:<OUTCOME$} {outcome:<PLACE$} {place}"));
        if self.on_demand.forecast {
            self.entry("forecast", &forecast(&moment.forecast));
        }
        if let Err(refusal) = &moment.result {
            self.entry("refused", &format!("{refusal}; nothing has changed"));
            for (label, why) in &moment.reasons {
                self.entry(label, why);
            }
        } else {
            self.told(moment, played);
        }
        if self.on_demand.mean_age {
            self.entry("mean age", &mean_age(&moment.mean_age));
        }
        self.verdicts(moment);
    }

    fn told(&mut self, moment: &Moment, played: &Played) {
        let names = &played.names;
        let explain = |reasons: &[(&'static str, String)], first: bool, text: &mut Self| {
            for (label, why) in reasons {
                if (*label == "why") == first {
                    text.entry(label, why);
                }
            }
        };
        explain(&moment.reasons, true, self);
        for (became, ids) in same_fates(&moment.fates) {
            let told = Told::of(ids.len());
            let (label, why) = words(became, told, &played.settings, names);
            self.entry(label, &format!("{}: {why}", names.show_ids(&ids)));
        }
        explain(&moment.reasons, false, self);
        for each in &moment.sendings {
            self.entry("sent", &sending(each, names));
        }
        if moment.entry_failed {
            self.entry(
                "next",
                "the entry's sync info failed: a shell hands in send-failure next",
            );
        }
        self.standing(moment, played);
    }

    /// What is on order with its age, the evicted list, the stalled peers.
    fn standing(&mut self, moment: &Moment, played: &Played) {
        let names = &played.names;
        let after = &moment.after;
        for (number, (request, ids)) in same_requests(after.pending.values()).iter().enumerate() {
            let label = if number == 0 { "pending" } else { "" };
            let age = moment.clock.saturating_sub(request.stamp);
            let words = format!(
                "{}: {} from {}, age {}, checks {}",
                names.show_ids(ids),
                show_type(request.modifier_type),
                names.show_peer(request.peer),
                grouped(age),
                request.checks
            );
            self.entry(label, &words);
        }
        if after.pending.is_empty() && !moment.before.pending.is_empty() {
            self.entry("pending", "none");
        }
        if !after.evicted.is_empty() {
            self.entry(
                "evicted",
                &format!("{} (for the next check)", names.show_ids(&after.evicted)),
            );
        }
        if !after.stalled.is_empty() {
            self.entry("stalled", &names.show_peers(&after.stalled));
        }
    }

    fn verdicts(&mut self, moment: &Moment) {
        let met = moment
            .verdicts
            .iter()
            .filter(|verdict| verdict.met())
            .count();
        if met > 0 {
            self.entry("expected", &format!("{met} met"));
        }
        self.not_met(moment);
    }

    fn not_met(&mut self, moment: &Moment) {
        for verdict in &moment.verdicts {
            if let Some(found) = &verdict.found {
                let words = format!(
                    "line {}: {}; found: {found}",
                    verdict.line, verdict.expected
                );
                self.entry("NOT MET", &words);
            }
        }
    }
}

/// Mode and downloaded height after a step.
fn place(moment: &Moment, played: &Played) -> String {
    let after = &moment.after;
    let mode = mode_word(after.mode);
    let with = after
        .sync_peer
        .map(|peer| format!(" with {}", played.names.show_peer(peer)));
    format!(
        "{mode}{}, downloaded {}",
        with.unwrap_or_default(),
        after.downloaded
    )
}

/// Ids that shared a fate.
fn same_fates(fates: &[Fate]) -> Vec<(&Became, Vec<Id>)> {
    let mut groups: Vec<(&Became, Vec<Id>)> = Vec::new();
    for fate in fates {
        match groups
            .iter_mut()
            .find(|(became, _)| **became == fate.became)
        {
            Some((_, ids)) => ids.push(fate.id),
            None => groups.push((&fate.became, vec![fate.id])),
        }
    }
    groups
}

/// Requests that differ by their ids alone.
fn same_requests<'a>(
    requests: impl Iterator<Item = &'a PendingRequest>,
) -> Vec<(PendingRequest, Vec<Id>)> {
    let alike = |one: &PendingRequest, other: &PendingRequest| {
        PendingRequest {
            id: other.id,
            ..*one
        } == *other
    };
    let mut groups: Vec<(PendingRequest, Vec<Id>)> = Vec::new();
    for request in requests {
        match groups.iter_mut().find(|(first, _)| alike(first, request)) {
            Some((_, ids)) => ids.push(request.id),
            None => groups.push((*request, vec![request.id])),
        }
    }
    groups
}
