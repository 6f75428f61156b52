//! What differs, in words, and where document 01 or 02 speaks of it.

use crate::hint::hint;
use crate::names::refusal;
use crate::rows::{Field, Row};
use crate::value::Value;

#[derive(Debug, Clone, PartialEq, Eq)]
pub struct Difference {
    pub words: String,
    pub hint: Option<String>,
}

fn side(value: Option<&Value>, other: Option<&Value>, field: Field) -> String {
    let Some(value) = value else {
        return "nothing".to_string();
    };
    let text = value.beside(other);
    match (field, text.parse()) {
        (Field::Number, Ok(number)) => format!("{number} ({})", refusal(number)),
        _ => text,
    }
}

fn difference(row: &Row, kind: Option<u8>) -> Difference {
    let (yours, core) = (row.yours.as_ref(), row.core.as_ref());
    let part = yours.zip(core).and_then(|(yours, core)| yours.part(core));
    let words = match part {
        Some((part, yours, core)) => {
            format!("{part} of {}: yours {yours}, the core's {core}", row.name)
        }
        None => format!(
            "{}: yours {}, the core's {}",
            row.name,
            side(yours, core, row.field),
            side(core, yours, row.field)
        ),
    };
    let hint = hint(kind, row.field, part.map(|part| part.0));
    Difference { words, hint }
}

/// All that differs, the first first. Where one is refused and the other not, only that.
pub fn differences(rows: &[Row], kind: Option<u8>) -> Vec<Difference> {
    let differing = rows.iter().filter(|row| row.yours != row.core);
    let numbers = rows
        .first()
        .filter(|row| row.yours != row.core && row.field == Field::Number);
    match numbers {
        Some(row) => vec![difference(row, kind)],
        None => differing.map(|row| difference(row, kind)).collect(),
    }
}

#[cfg(test)]
mod tests {
    use super::differences;
    use crate::names::Names;
    use crate::rows::rows;
    use keeper_streams::text::Line;
    use keeper_values::numbers::kinds;

    /// The answer to a check that retries an id: to this peer, which may be another than the one noted, and with this stamp.
    fn answer(target: u64, noted: u64, stamp: u64) -> Vec<Line> {
        let id = format!("{:064x}", 1);
        let lines = [
            "= 0 0 1 0 0 0 1 0 48".to_string(),
            format!("> 1 102 0 {target} 1 {id}"),
            format!(". 2 4 1 0 0 1 0 0 0 0 - - {id}{noted:016x}0066{stamp:016x}00000001"),
        ];
        lines
            .map(|line| Line::read(&line).expect("of the form"))
            .into()
    }

    const F_8: &str = "document 02, F-8: \"Take the first listed peer neither failed nor stalled; else the first listed peer \
                       other than the failed one; else the failed one\"";

    /// It shows in the command first, and where that is right, in the peer noted for the id.
    #[test]
    fn a_wrong_target_is_met_with_its_rule() {
        let core = answer(6, 6, 1);
        let cases = [
            (
                answer(5, 5, 1),
                "command 0: yours request type 102 to 5, ",
                "document 01, rule 6: ",
                true,
            ),
            (
                answer(6, 5, 1),
                "peer of pending id ..0001: yours 5, ",
                "document 02, F-8: ",
                true,
            ),
            (
                answer(6, 6, 0),
                "stamp of pending id ..0001: yours 0, ",
                "document 01, delivery.rs: ",
                false,
            ),
        ];
        for (yours, words, place, is_target) in cases {
            let rows = rows(&yours, &core, &Names::new(&[]));
            let all = differences(&rows, Some(kinds::CHECK));
            let first = all.first().expect("a difference");
            assert!(first.words.starts_with(words), "{first:?}");
            let hint = first.hint.as_deref().expect("a hint");
            assert!(hint.starts_with(place), "{hint}");
            assert_eq!(hint.contains(F_8), is_target, "{hint}");
        }
    }
}
