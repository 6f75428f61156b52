//! A field's value: compared whole, written short.

/// Entries of a list that are written out.
const LISTED: usize = 6;

#[derive(Debug, Clone, PartialEq, Eq)]
pub enum Value {
    Text(String),
    /// What stands before a list, and its entries.
    List(String, Vec<String>),
    /// Parts by name.
    Record(Vec<(&'static str, String)>),
}

/// Some entries from `from` on, and how many more there are; `none` for an empty list.
pub fn listed(entries: &[String], from: usize) -> String {
    if entries.is_empty() {
        return "none".to_string();
    }
    let shown = entries.get(from..).unwrap_or_default();
    let before = if from > 0 {
        format!("({from} before) ")
    } else {
        String::new()
    };
    let more = match shown.len().saturating_sub(LISTED) {
        0 => String::new(),
        more => format!(" and {more} more"),
    };
    format!(
        "{before}{}{more}",
        shown[..shown.len().min(LISTED)].join(" ")
    )
}

impl Value {
    /// Where two lists part, so that what differs is written out.
    fn parting(&self, other: Option<&Value>) -> usize {
        let (Value::List(_, one), Some(Value::List(_, two))) = (self, other) else {
            return 0;
        };
        let same = one.iter().zip(two).take_while(|(a, b)| a == b).count();
        let whole = same == one.len() && same == two.len();
        if whole || same < LISTED {
            0
        } else {
            same - 1
        }
    }

    /// Written beside the other answer's.
    pub fn beside(&self, other: Option<&Value>) -> String {
        match self {
            Value::Text(text) => text.clone(),
            Value::List(head, entries) => {
                let listed = listed(entries, self.parting(other));
                format!("{head}{listed}")
            }
            Value::Record(parts) => {
                let parts: Vec<String> = parts.iter().map(|(n, v)| format!("{n} {v}")).collect();
                parts.join(", ")
            }
        }
    }

    /// The first part of two records that differs: its name, this one's and the other's.
    pub fn part<'v>(&'v self, other: &'v Value) -> Option<(&'static str, &'v str, &'v str)> {
        let (Value::Record(one), Value::Record(two)) = (self, other) else {
            return None;
        };
        let mut parts = one.iter().zip(two);
        let (one, two) = parts.find(|(one, two)| one != two)?;
        Some((one.0, &one.1, &two.1))
    }
}

#[cfg(test)]
mod tests {
    use super::Value;

    #[test]
    fn what_differs_is_written_out() {
        let entries = |last: u32| (0..20).chain([last]).map(|n| n.to_string()).collect();
        let (one, two) = (
            Value::List("ids ".to_string(), entries(77)),
            Value::List("ids ".to_string(), entries(78)),
        );
        assert_eq!(one.beside(Some(&two)), "ids (19 before) 19 77");
        assert_eq!(two.beside(Some(&one)), "ids (19 before) 19 78");
        assert_eq!(one.beside(None), "ids 0 1 2 3 4 5 and 15 more");
    }
}
