//! What the drawing shows, and that it can be read.

use super::canvas::Canvas;
use super::heads::outcome_look;
use super::sheet::Sheet;
use super::Drawing;
use crate::play::{play, Played};
use crate::scenario::read;
use crate::shipped::SCENARIOS;
use request_keeper::Outcome;

fn played(text: &str) -> Played {
    play(&read(text).expect("well formed")).expect("opened")
}

/// No text of a page lies over another or leaves the page.
fn assert_readable(name: &str, played: &Played) {
    let drawing = Drawing::of(played).expect("not too long");
    for page in 0..drawing.pages() {
        let mut canvas = Canvas::default();
        let sheet = Sheet::of(&drawing, page).expect("a page");
        let (width, height) = sheet.draw(&mut canvas);
        let boxes = &canvas.boxes;
        for (number, one) in boxes.iter().enumerate() {
            assert!(
                one.left >= 0.0 && one.right <= width && one.bottom <= height && one.top >= 0.0,
                "{name}: {one:?} on {width} x {height}"
            );
            for other in boxes.iter().skip(number + 1) {
                let apart = one.right <= other.left
                    || other.right <= one.left
                    || one.bottom <= other.top
                    || other.bottom <= one.top;
                assert!(apart, "{name}: {one:?} and {other:?}");
            }
        }
    }
}

#[test]
fn no_text_covers_another() {
    for (name, text) in SCENARIOS {
        assert_readable(name, &played(text));
    }
}

/// Even the longest word for a step stands whole above steps that are as close as can be.
#[test]
fn the_words_of_steps_are_not_cut() {
    let text = "open 0 0\npeers 4\nat 0 start\nat 1000 pick\nat 1000 announced 4 header none\n\
                at 1000 scheduled-tick\nat 1000 section-tick\nat 1000 end-of-stream\n";
    let svg = Drawing::of(&played(text)).expect("not too long").svg(0);
    for word in [
        "announced",
        "scheduled-tick",
        "section-tick",
        "end-of-stream",
        "EndOfStream",
    ] {
        assert!(svg.contains(&format!(">{word}</text>")), "{word}");
    }
}

#[test]
fn bad_news_does_not_look_like_good_news() {
    let good = outcome_look(Outcome::Synced);
    for bad in [Outcome::BehindPeer, Outcome::SyncPeerGone, Outcome::Stalled] {
        let look = outcome_look(bad);
        assert!(look.1 && look.0 != good.0, "{bad:?}");
    }
    assert!(!good.1 && !outcome_look(Outcome::Continue).1);
}

/// The text within the group of a class and a name.
fn group<'s>(svg: &'s str, class: &str, name: &str) -> &'s str {
    let head = format!("<g class=\"{class}\" data-name=\"{name}\">");
    let (_, rest) = svg
        .split_once(&head)
        .unwrap_or_else(|| panic!("no {class} {name}"));
    let mut depth = 1;
    for (at, _) in rest.match_indices('<') {
        let tag = rest.get(at..).unwrap_or_default();
        depth += i32::from(tag.starts_with("<g ")) - i32::from(tag.starts_with("</g>"));
        if depth == 0 {
            return rest.get(..at).unwrap_or_default();
        }
    }
    panic!("{class} {name} has no end");
}

/// Left and right end, height and width of the lines.
fn lines(svg: &str) -> Vec<[f64; 4]> {
    let number = |line: &str, name: &str| -> f64 {
        let (_, value) = line
            .split_once(&format!(" {name}=\""))
            .expect("an attribute");
        let (value, _) = value.split_once('"').expect("its end");
        value.parse().expect("a number")
    };
    let lines = svg.lines().filter(|line| line.starts_with("<line"));
    let ends = ["x1", "x2", "y1", "stroke-width"];
    lines
        .map(|line| ends.map(|end| number(line, end)))
        .collect()
}

/// An id that is evicted and then asked for again before the check is in the list and on order: both bars stand.
#[test]
fn the_bar_of_the_evicted_list_stands_beside_that_of_the_order() {
    let played = played(
        "ids h\nopen 0 0\npeers 4\nat 0 start\nat 1000 pick\nat 2000 evicted h\nat 3000 announced 4 header h\n\
         expect evicted h\nexpect pending h\nat 4000 reorg 0\nexpect evicted h\nexpect pending none\nat 5000 check\n",
    );
    assert!(played.as_expected());
    let drawing = Drawing::of(&played).expect("not too long");
    let svg = drawing.svg(0);
    let sheet = Sheet::of(&drawing, 0).expect("a page");
    let at = |step: usize| sheet.columns[step].x;
    let lane = group(&svg, "lane", "h");
    let evicted = lines(group(lane, "evicted", "h"));
    let &[[from, to, below, _]] = evicted.as_slice() else {
        panic!("{evicted:?}");
    };
    assert!(
        (from - at(2)).abs() < 0.1 && (to - at(5)).abs() < 0.1,
        "{evicted:?}"
    );
    let bars: Vec<[f64; 4]> = lines(lane)
        .into_iter()
        .filter(|line| line[3] == 5.0)
        .collect();
    let [[first, last, above, _], [again, ..]] = bars.as_slice() else {
        panic!("{bars:?}");
    };
    assert!(
        (first - at(3)).abs() < 0.1 && (last - at(4)).abs() < 0.1 && (again - at(5)).abs() < 0.1
    );
    assert!(below - above >= 5.0, "one covers the other");
}

#[test]
fn every_remark_stands_on_a_note() {
    let mut found = 0;
    for (name, text) in SCENARIOS {
        let played = played(&format!("{text}say The end, with no step behind it.\n"));
        assert_readable(name, &played);
        let svg = Drawing::of(&played).expect("not too long").svg(0);
        let notes = svg.split("<g class=\"note\"").skip(1).map(|note| {
            let (note, _) = note.split_once("</g>").expect("its end");
            let texts = note.split("<text").skip(1).filter_map(|text| {
                let (_, text) = text.split_once('>')?;
                text.split_once('<').map(|(text, _)| text.to_string())
            });
            texts.collect::<Vec<_>>().join(" ")
        });
        let notes = notes.collect::<Vec<_>>().join("\n");
        let said = text.lines().filter_map(|line| line.strip_prefix("say "));
        for said in said.chain(["The end, with no step behind it."]) {
            assert!(notes.contains(said), "{name}: {said} is not in\n{notes}");
            found += 1;
        }
    }
    assert!(found > 30);
}

/// Each height that the node comes to is written in the lane of heights.
#[test]
fn the_downloaded_height_has_its_lane() {
    let (_, text) = SCENARIOS[1];
    let svg = Drawing::of(&played(text)).expect("not too long").svg(0);
    let lane = group(&svg, "height", "downloaded height");
    let numbers: Vec<&str> = ["400", "401", "402"]
        .into_iter()
        .filter(|height| lane.contains(&format!(">{height}<")))
        .collect();
    assert_eq!(numbers, ["400", "401", "402"]);
    assert!(lane.contains(">chain 402<"));
}

/// Long names, great numbers, steps that go back, refusals, expectations that fail, remarks everywhere.
#[test]
fn crowded_drawings_can_be_read() {
    let name = "a-name-of-thirty-two-letters-000";
    let mut text = format!(
        "title {}\nids {name} b c\nopen 0 4294967290\nchain 4294967295\nheader 4294967291..4294967293 absent\npeers 4 5 6\n\
         at 0 start\nat 18446744073709000000 pick\n",
        "A title that is far too long for any page ".repeat(9)
    );
    for step in 0..80 {
        text += &format!("say {}\n", "Words and words. ".repeat(1 + step % 7));
        text += &format!(
            "at +{} announced {} header {name} b c\n",
            step * step * 37,
            4 + step % 3
        );
        text += "expect mode ended\nat 5 check\nat +18446744073709000000 evicted b\ngate shut\nat +7 received b\n";
        text += "at +3 scheduled-tick\ngate open\n";
    }
    let played = played(&text);
    let drawing = Drawing::of(&played).expect("not too long");
    assert!(drawing.pages() > 5);
    assert_readable("crowded", &played);
}

/// However many steps and ids, a page can be hung up; what would be a heap of pages is refused.
#[test]
fn pages_are_bounded() {
    let head = "ids x0001..x1000\nopen 0 0\npeers 4\nat 0 start\nat 1000 pick\nat 1000 announced 4 header x0001..x";
    let long = played(&format!("{head}0003\n{}", "at +5000 check\n".repeat(1_897)));
    let wide = played(&format!("{head}1000\n"));
    for (name, played) in [("long", &long), ("wide", &wide)] {
        let drawing = Drawing::of(played).expect("not too long");
        assert!(drawing.pages() > 1, "{name}");
        let last = drawing.pages() - 1;
        for page in [0, 1, last] {
            let mut canvas = Canvas::default();
            let (width, height) = Sheet::of(&drawing, page).expect("a page").draw(&mut canvas);
            assert!(
                width < 4_000.0 && height < 4_000.0,
                "{name}: {width} x {height}"
            );
            assert!(drawing.svg(page).len() < 1_000_000, "{name}");
        }
        assert!(drawing.svg(last + 1).is_empty());
    }
    let both = played(&format!("{head}1000\n{}", "at +5000 check\n".repeat(300)));
    let refused = Drawing::of(&both).err().expect("too long");
    assert!(
        refused.to_string().contains("and at most 100 are drawn"),
        "{refused}"
    );
}
