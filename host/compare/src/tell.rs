//! Which streams tell a faulty variant from the plain rules.

use keeper_play::told_apart;
use keeper_streams::text::Line;
use keeper_variants::Variant;

/// A variant and the first recorded stream that tells it.
pub struct Told {
    pub variant: Variant,
    pub stream: Option<String>,
    /// How many of the streams tell it.
    pub streams: usize,
}

/// Cuts recorded lines into streams.
pub fn streams(lines: &[Line]) -> Vec<(&str, &[Line])> {
    let mut starts: Vec<usize> = Vec::new();
    for (index, line) in lines.iter().enumerate() {
        if matches!(line, Line::Stream(_)) {
            starts.push(index);
        }
    }
    starts.push(lines.len());
    let part = |pair: &[usize]| {
        let part = &lines[pair[0]..pair[1]];
        let name = match &part[0] {
            Line::Stream(name) => name.as_str(),
            _ => "",
        };
        (name, part)
    };
    starts.windows(2).map(part).collect()
}

/// Whether a recorded stream tells a variant. The map's rules play no part in a stream that never calls on one.
pub fn tells(variant: &Variant, lines: &[Line]) -> bool {
    let of_a_map = |line: &Line| matches!(line, Line::MapCall(_) | Line::Passable);
    (variant.place != keeper_variants::MAP || lines.iter().any(of_a_map))
        && told_apart(&variant.keeper, lines)
}

/// The variants that no recorded stream tells. A variant is played up to the first stream that does.
pub fn untold(variants: &[Variant], lines: &[Line]) -> Vec<Variant> {
    let streams = streams(lines);
    let told = |variant: &Variant| {
        let mut parts = streams.iter();
        parts.any(|(_, part)| tells(variant, part))
    };
    let untold = variants.iter().filter(|variant| !told(variant));
    untold.copied().collect()
}

/// Every variant against every recorded stream.
pub fn table(variants: &[Variant], lines: &[Line]) -> Vec<Told> {
    let streams = streams(lines);
    let told = |variant: &Variant| {
        let telling: Vec<&str> = streams
            .iter()
            .filter(|(_, part)| tells(variant, part))
            .map(|(name, _)| *name)
            .collect();
        Told {
            variant: *variant,
            stream: telling.first().map(|name| name.to_string()),
            streams: telling.len(),
        }
    };
    variants.iter().map(told).collect()
}
