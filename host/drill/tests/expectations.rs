//! Each expectation can be met and can fail; the explanations account for the counts of the core's answers.

use drill::fates::{Aim, Became};
use drill::play::{play, Played};
use drill::scenario::read;
use drill::timeline;
use std::collections::HashSet;
use std::mem::discriminant;

/// Two peers, a block on order from north, an expired check at 11,300.
const STORY: &str = "\
setting max_checks 2
peer north 4
peer south 5
ids h t
open 0 400
chain 401
header 401 block:b
peers north south
at 0 start
at 1000 pick
at 1300 sync-info north tip 401
";

fn played(text: &str) -> Played {
    play(&read(text).expect("well formed")).expect("opened")
}

/// The story with one expectation at its end.
fn with(expectation: &str) -> Played {
    played(&format!("{STORY}at 11300 check\nexpect {expectation}\n"))
}

#[test]
fn each_kind_is_met_or_not() {
    let pairs = [
        ("outcome Continue", "outcome Stalled"),
        ("mode synced", "mode syncing"),
        ("sync-peer north", "sync-peer none"),
        ("downloaded 400", "downloaded 401"),
        ("known-tip 401", "known-tip 400"),
        ("pending b", "pending b h"),
        (
            "request b peer south type block stamp 11300 age 0 checks 1",
            "request b peer north",
        ),
        ("request b", "request h"),
        ("evicted none", "evicted h"),
        ("stalled none", "stalled north"),
        ("sent south block b", "sent north block b"),
        ("sends 1", "nothing sent"),
        ("failed 0", "failed 1"),
        ("dropped 0", "dropped 2"),
        ("retried 1", "retried 0"),
        ("fresh 0", "fresh 1"),
        ("abandoned 0", "abandoned 1"),
        ("forgotten 0", "forgotten 1"),
        ("outcome continue", "refused 9"),
        ("forecast finished", "forecast refused 9"),
        (
            "forecast finished outcome Continue",
            "forecast finished outcome Stalled",
        ),
        ("forecast finished pending 1", "forecast finished pending 0"),
        ("forecast finished evicted 0", "forecast finished evicted 1"),
        (
            "forecast finished commands 1",
            "forecast finished commands 2",
        ),
        ("forecast finished bytes 49", "forecast finished bytes 17"),
        (
            "forecast finished outcome Continue pending 1 evicted 0 commands 1 bytes 49",
            "forecast finished pending 1 bytes 48",
        ),
    ];
    for (met, unmet) in pairs {
        assert!(with(met).as_expected(), "{met}");
        let played = with(unmet);
        assert!(!played.as_expected(), "{unmet}");
        let told = timeline::timeline(&played);
        assert!(
            told.contains(&format!("line 13: expect {unmet}; found: ")),
            "{told}"
        );
        assert!(told.ends_with("1 NOT MET, in line 13\n"), "{told}");
    }
}

#[test]
fn a_refusal_has_to_be_expected() {
    let refused = format!("{STORY}at 500 check\n");
    assert!(!played(&refused).as_expected());
    assert!(played(&format!("{refused}expect refused 4\n")).as_expected());
    assert!(!played(&format!("{refused}expect refused 5\n")).as_expected());
    let short = format!(
        "{STORY}view 0\nat 2000 section-tick\nexpect refused 9\nview whole\nat 2000 section-tick\n"
    );
    assert!(played(&short).as_expected());
}

/// Lines are named in the order of the file, the step's own before those of its expectations.
#[test]
fn unmet_lines_are_named_in_order() {
    let text = format!("{STORY}at 500 check\nexpect mode new\nexpect downloaded 7\n");
    let told = timeline::timeline(&played(&text));
    assert!(told.ends_with("3 NOT MET, in lines 12, 13, 14\n"), "{told}");
    let places = ["line 12: ", "line 13: ", "line 14: "].map(|line| told.find(line));
    assert!(places.is_sorted() && places[0].is_some(), "{told}");
}

#[test]
fn several_ids_are_told_as_several() {
    let story = "ids h i j\nopen 0 400\npeers 4 5\nat 0 start\nat 1000 pick\n\
                 at 1000 announced 4 header h i j\nat 1100 received h i\nat 1200 received h i\nat 1300 received j\n";
    let told = timeline::timeline(&played(story));
    for sentence in [
        "h i j: of 4, which announced them",
        "h i: they were on order from 4",
        "h i: they were not on order",
        "j: it was on order from 4",
    ] {
        assert!(told.contains(sentence), "{sentence} is not in\n{told}");
    }
    let evicted = "ids h i\nopen 0 400\npeers 4\nat 0 start\nat 1000 pick\nat 1000 evicted h i\nat 1100 check\n";
    let told = timeline::timeline(&played(evicted));
    assert!(
        told.contains("h i: the next check asks for them again"),
        "{told}"
    );
    assert!(told.contains("as headers: they were evicted"), "{told}");
}

/// Three peers. North has stalled, and south is the sync peer.
const STALLED: &str = "\
setting stall_timeout 15000
peer north 4
peer south 5
peer west 6
ids h i
open 0 0
peers north south west
at 0 start
at 1000 pick
at 21000 scheduled-tick
at 21200 pick
";

/// The timeline of these lines after the story, its words parted by one blank.
fn told_after_a_stall(lines: &str) -> String {
    let told = timeline::timeline(&played(&format!("{STALLED}{lines}")));
    told.split_whitespace().collect::<Vec<_>>().join(" ")
}

/// Why a retry goes where it goes, up to the entry that follows.
#[test]
fn the_target_of_a_retry_is_explained() {
    let cases = [
        (
            "north",
            "peers north south west",
            "now asked of south, the first listed peer other than north sent to south: ",
        ),
        (
            "south",
            "peers south west north",
            "now asked of west, the first listed peer other than south sent to west: ",
        ),
        (
            "south",
            "peers north south west",
            "now asked of west, the first listed peer other than south that has not stalled (passed over: north) \
             sent to west: ",
        ),
        (
            "south",
            "peers north",
            "every listed peer has stalled (north): now asked of north, the first listed peer other than south \
             sent to north: ",
        ),
        (
            "south",
            "peers north south",
            "every other listed peer has stalled (north), and south, which has not, has just failed: now asked of \
             north, the first listed peer other than south sent to north: ",
        ),
        (
            "north",
            "peers north",
            "no other peer is listed: asked of north again sent to north: ",
        ),
        (
            "south",
            "peers none",
            "no peer is listed: asked of south again sent to south: ",
        ),
        (
            "south",
            "peers north south west\ngate shut",
            "the gate is shut: its clock starts anew, it stays with south, nothing is sent pending h: ",
        ),
    ];
    for (failed, around, expected) in cases {
        let lines = format!("at 22000 announced {failed} header h\n{around}\nat 32000 check\n");
        let told = told_after_a_stall(&lines);
        let expected = format!("the limit is 100; {expected}");
        assert!(told.contains(&expected), "{expected} is not in\n{told}");
    }
}

/// South stalls too: both are passed over, in the order in which they are listed.
#[test]
fn all_who_are_passed_over_are_named() {
    let stalls = "at 41200 scheduled-tick\nat 41400 pick\nexpect stalled north south\npeers south 7 north west\n";
    let lines = format!("{stalls}at 42000 announced 7 header h i\nat 52000 check\n");
    let told = told_after_a_stall(&lines);
    let expected = "h i: 7 did not deliver in 10,000 ms (timeout 10,000); checks 1, the limit is 100; now asked of west, \
                    the first listed peer other than 7 that has not stalled (passed over: south north) sent to west: ";
    assert!(told.contains(expected), "{told}");
    assert!(told.ends_with("all met"), "{told}");
}

/// A pick within the interval of the opening sends nothing, though no sync info has gone out; at the interval it does.
#[test]
fn what_keeps_a_sync_info_back_is_told_as_it_is() {
    let pick = |clock: u32, rest: &str| {
        let text = format!("open 1000 0\npeers 4\nat 1000 start\nat {clock} pick\n{rest}");
        timeline::timeline(&played(&text))
    };
    let early = pick(1_199, "expect nothing sent\n");
    let words =
        "no sync info: none has gone out yet, and the opening was 199 ms ago, below the interval";
    assert!(
        early.contains(words) && early.contains("all met"),
        "{early}"
    );
    let late = pick(1_200, "expect sent 4 sync-info\nat 1250 progress\n");
    assert!(late.contains("all met"), "{late}");
    assert!(
        late.contains("the last one went out 50 ms ago, below the"),
        "{late}"
    );
    let failed = pick(1_199, "fails 4\nat 1300 progress\nat 1310 scheduled-tick\n");
    assert!(
        failed.contains("the last one failed 10 ms ago, below the"),
        "{failed}"
    );
}

/// A refusal by a bound comes with the bound and what was handed in.
#[test]
fn refusals_name_the_bound() {
    let ids = "ids x0001..x1025\n";
    let list = "x0001..x1025";
    let peers: Vec<String> = (1..=129).map(|peer| peer.to_string()).collect();
    let peers = format!(
        "peers {}\nat 2000 check\nexpect refused 7\n",
        peers.join(" ")
    );
    let cases = [
        (
            format!("at 2000 announced 4 header {list}\nexpect refused 6\n"),
            "1,025 ids are handed in, and at most 1,024 are taken",
        ),
        (
            "at 2000 sync-info 4 no-tip continues x0001..x0401\nexpect refused 6\n".to_string(),
            "401 continuation ids are handed in, and at most 400 are taken",
        ),
        (peers, "129 peers are listed, and at most 128 are taken"),
        (
            "chain 401\nheader 401 block:a proofs:b extension:c header:d\nat 2000 check\nexpect refused 8\n".to_string(),
            "4 sections at height 401, and at most 3 are taken",
        ),
        (
            "chain 401\nview 0\nat 2000 progress\nexpect refused 9\n".to_string(),
            "the view is cut to 0 rows",
        ),
        (
            "at 500 check\nexpect refused 4\n".to_string(),
            "the clock 500 is before 1,000",
        ),
        (
            "at 2000 pick\nexpect refused 5\n".to_string(),
            "this is no step of the mode syncing",
        ),
    ];
    for (lines, expected) in cases {
        let text = format!("{ids}open 0 400\npeers 4\nat 0 start\nat 1000 pick\n{lines}");
        let told = timeline::timeline(&played(&text));
        assert!(
            told.contains(expected) && told.contains("all met"),
            "{told}"
        );
    }
}

#[test]
fn a_failed_send_drops_the_rest_of_its_batch() {
    let text = "peer north 4\nids x001..x801\nopen 0 0\npeers north\nat 0 start\nat 1000 pick\nfails north\n\
                at 2000 announced north header x001..x801\nexpect failed 1\nexpect dropped 2\nexpect sends 0\n";
    assert!(played(text).as_expected());
    let entry = "peer north 4\nopen 0 0\npeers north\nfails north\nat 0 start\nat 1000 pick\nat 1000 send-failure\n\
                 expect outcome SyncPeerGone\nexpect mode seeking\n";
    let played = played(entry);
    assert!(played.as_expected());
    assert!(timeline::timeline(&played).contains("a shell hands in send-failure next"));
}

#[test]
fn every_step_can_be_written() {
    let text = format!(
        "{STORY}at 2000 needed header h\nat 2000 reorg 400\nat 2000 announced south transaction t\n\
         at 2000 announced south 7 t\nat 3000 sync-info south no-tip continues h\nat 4000 sync-info south unparsed\n\
         at 4000 message\nat 4000 lost south\nat 4000 received h\nat 4000 evicted t h\nat 4000 progress\nat 4000 check\n\
         at 4000 scheduled-tick\nat 4000 section-tick\nat 4000 send-failure\nexpect refused 5\nat +5 end-of-stream\n\
         expect outcome EndOfStream\nat +5 end-of-stream\nexpect mode ended\n"
    );
    let played = played(&text);
    assert!(played.as_expected(), "{}", timeline::timeline(&played));
}

/// A small generator, so that the test is the same every time.
struct Dice(u64);

impl Dice {
    fn throw(&mut self, sides: u64) -> u64 {
        self.0 = self
            .0
            .wrapping_mul(6_364_136_223_846_793_005)
            .wrapping_add(1);
        (self.0 >> 33) % sides
    }
}

/// A scenario of random steps around checks.
fn random(seed: u64) -> String {
    let mut dice = Dice(seed);
    let mut text = String::from(
        "setting timeout 100\nsetting max_checks 2\nsetting stall_timeout 200\nids a b c d\nopen 0 0\nchain 2\n\
         header 1 block:e\nheader 2 extension:f\npeers 1 2\nat 0 start\nat 300 pick\n",
    );
    let mut clock = 300;
    for _ in 0..60 {
        clock += dice.throw(60);
        let id = ["a", "b", "c", "d", "e", "f"][dice.throw(6) as usize];
        let peer = 1 + dice.throw(3);
        text += &match dice.throw(11) {
            0 => format!("gate {}\n", ["open", "shut"][dice.throw(2) as usize]),
            1 => format!(
                "peers {}\n",
                ["none", "1", "2 1", "3 1 2"][dice.throw(4) as usize]
            ),
            2 => format!("{} {id}\n", ["stored", "unstored"][dice.throw(2) as usize]),
            3 => format!("at {clock} announced {peer} header {id}\n"),
            4 => format!("at {clock} announced {peer} transaction {id}\n"),
            5 => format!("at {clock} evicted {id} a\n"),
            6 => format!("at {clock} progress\n"),
            7 => format!("at {clock} scheduled-tick\nat {clock} pick\n"),
            _ => format!("at {clock} check\n"),
        };
    }
    text
}

#[test]
fn the_explanations_account_for_the_counts_of_every_check() {
    let mut checks = 0;
    let (mut aims, mut passed_over) = (HashSet::new(), 0);
    for seed in 0..200 {
        let text = random(seed);
        let played = played(&text);
        for moment in played.moments().filter(|moment| moment.text == "check") {
            // Refused after a stall, as long as nobody is listed.
            let Ok(answer) = moment.result else {
                continue;
            };
            let count = |is: fn(&Became) -> bool| {
                moment.fates.iter().filter(|fate| is(&fate.became)).count() as u32
            };
            let told = [
                count(|became| matches!(became, Became::Retried(_))),
                count(|became| matches!(became, Became::GivenUp { .. })),
                count(|became| matches!(became, Became::Forgotten { .. })),
            ];
            let counted = [answer.retried, answer.abandoned, answer.forgotten];
            assert_eq!(told, counted, "line {} of\n{text}", moment.line);
            checks += 1;
            for fate in &moment.fates {
                if let Became::Retried(retry) = &fate.became {
                    aims.insert(discriminant(&retry.aim));
                    passed_over += match &retry.aim {
                        Aim::Unstalled(passed) => passed.len(),
                        _ => 0,
                    };
                }
            }
        }
        let told = timeline::timeline(&played);
        assert!(!told.contains("no reason that the player knows"), "{told}");
    }
    assert!(checks > 1_000);
    assert_eq!(aims.len(), 6, "each reason that there can be");
    assert!(passed_over > 10, "{passed_over}");
}
