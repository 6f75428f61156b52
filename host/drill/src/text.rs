//! Small pieces of text.

use crate::scenario::{show_type, Names};
use crate::sending::{SendFate, Sending, Sent};
use request_keeper::{Forecast, MeanAge, Mode, Refusal};

/// A number with its thousands parted: 10,000.
pub fn grouped(number: impl Into<u64>) -> String {
    let digits = number.into().to_string();
    let mut out = String::new();
    for (at, digit) in digits.chars().enumerate() {
        if at > 0 && (digits.len() - at) % 3 == 0 {
            out.push(',');
        }
        out.push(digit);
    }
    out
}

pub fn mode_word(mode: Mode) -> String {
    mode.to_string()
}

/// A message and whom it goes to.
pub fn sending(sending: &Sending, names: &Names) -> String {
    let what = match &sending.what {
        Sent::Request(modifier_type, ids) => {
            format!(
                "request {} {}",
                show_type(*modifier_type),
                names.show_ids(ids)
            )
        }
        Sent::Announcement(ids) => format!("announcement {}", names.show_ids(ids)),
        Sent::SyncInfo => "sync info".to_string(),
    };
    let fate = match sending.fate {
        SendFate::Sent => "",
        SendFate::Failed => " -- the send FAILED",
        SendFate::Dropped => " -- dropped: a send of its batch had failed",
    };
    format!("to {}: {what}{fate}", names.show_peer(sending.to))
}

/// What was foretold of a step, in the words of `expect forecast`.
pub fn forecast(forecast: &Result<Forecast, Refusal>) -> String {
    match forecast {
        Ok(forecast) => format!(
            "finished, outcome {:?}, pending {}, evicted {}, commands {}, bytes {}",
            forecast.outcome,
            grouped(forecast.pending),
            grouped(forecast.evicted),
            grouped(forecast.commands),
            grouped(forecast.command_bytes)
        ),
        Err(refusal) => refusal.to_string(),
    }
}

/// A mean age: 333 1/3 ms, 3 pending.
pub fn mean_age(mean: &Result<MeanAge, Refusal>) -> String {
    match mean {
        Ok(mean) if mean.count == 0 => "nothing pending".to_string(),
        Ok(mean) => {
            let count = grouped(mean.count);
            let part = match mean.remainder {
                0 => String::new(),
                remainder => format!(" {}/{count}", grouped(remainder)),
            };
            format!("{}{part} ms, {count} pending", grouped(mean.quotient))
        }
        Err(refusal) => refusal.to_string(),
    }
}
