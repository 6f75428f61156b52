//! Plain SVG elements, and where text stands.

use std::fmt::Write;

pub const TEXT: &str = "#1d2733";
pub const FAINT: &str = "#5d6b7a";
pub const LINE: &str = "#d5dbe2";
pub const GREEN: &str = "#2a8540";
pub const RED: &str = "#c02626";
pub const AMBER: &str = "#b87400";
pub const BACKGROUND: &str = "#ffffff";

/// How a line is drawn.
#[derive(Debug, Clone, Copy, PartialEq, Eq)]
pub enum Stroke {
    Solid,
    Dashed,
    Dotted,
}

/// The elements of a drawing so far.
#[derive(Debug, Default)]
pub struct Canvas {
    body: String,
    /// For the test that no text covers another.
    pub boxes: Vec<TextBox>,
}

#[derive(Debug, Clone, PartialEq)]
pub struct TextBox {
    pub left: f64,
    pub top: f64,
    pub right: f64,
    pub bottom: f64,
    pub text: String,
}

#[derive(Debug, Clone, Copy, PartialEq, Eq)]
pub enum Anchor {
    Start,
    Middle,
    End,
}

/// How a text looks.
#[derive(Debug, Clone, Copy)]
pub struct Font {
    pub size: f64,
    pub bold: bool,
    pub colour: &'static str,
    pub anchor: Anchor,
    /// Whether lines that run behind the text are kept off it.
    pub halo: bool,
}

impl Font {
    pub const fn new(size: f64, colour: &'static str, anchor: Anchor) -> Self {
        Self {
            size,
            bold: false,
            colour,
            anchor,
            halo: true,
        }
    }

    pub const fn bold(self) -> Self {
        Self { bold: true, ..self }
    }

    pub const fn coloured(self, colour: &'static str) -> Self {
        Self { colour, ..self }
    }

    pub const fn on_colour(self) -> Self {
        Self {
            halo: false,
            ..self
        }
    }

    /// An estimate that wide fonts stay within.
    pub fn width(&self, text: &str) -> f64 {
        let letter = if self.bold { 0.68 } else { 0.61 };
        text.chars().count() as f64 * letter * self.size
    }

    /// The text, cut where it would be wider.
    pub fn fitted(&self, text: &str, width: f64) -> String {
        if self.width(text) <= width {
            return text.to_string();
        }
        let mut cut = String::new();
        for letter in text.chars() {
            let longer = format!("{cut}{letter}\u{2026}");
            if self.width(&longer) > width {
                break;
            }
            cut.push(letter);
        }
        format!("{}\u{2026}", cut.trim_end())
    }
}

impl Font {
    /// The text in lines that are no wider; a word that is wider alone is cut.
    pub fn wrapped(&self, text: &str, width: f64) -> Vec<String> {
        let mut lines: Vec<String> = Vec::new();
        for word in text.split_whitespace() {
            let word = self.fitted(word, width);
            match lines.last_mut() {
                Some(line) if self.width(&format!("{line} {word}")) <= width => {
                    line.push(' ');
                    line.push_str(&word);
                }
                _ => lines.push(word),
            }
        }
        lines
    }
}

/// Text within an element or an attribute.
pub fn escaped(text: &str) -> String {
    let mut out = String::new();
    for letter in text.chars() {
        match letter {
            '&' => out.push_str("&amp;"),
            '<' => out.push_str("&lt;"),
            '>' => out.push_str("&gt;"),
            '"' => out.push_str("&quot;"),
            // XML has no other control characters.
            '\n' | '\t' => out.push(letter),
            letter if letter.is_control() => out.push('\u{fffd}'),
            letter => out.push(letter),
        }
    }
    out
}

impl Canvas {
    fn put(&mut self, element: std::fmt::Arguments<'_>) {
        // A string takes all that is written to it.
        let _ = self.body.write_fmt(element);
        self.body.push('\n');
    }

    pub fn open(&mut self, class: &str, name: &str) {
        let name = escaped(name);
        self.put(format_args!("<g class=\"{class}\" data-name=\"{name}\">"));
    }

    pub fn close(&mut self) {
        self.put(format_args!("</g>"));
    }

    /// What a viewer shows when the pointer rests on the group.
    pub fn hint(&mut self, text: &str) {
        self.put(format_args!("<title>{}</title>", escaped(text)));
    }

    pub fn text(&mut self, x: f64, y: f64, font: Font, text: &str) {
        if text.is_empty() {
            return;
        }
        let width = font.width(text);
        let left = match font.anchor {
            Anchor::Start => x,
            Anchor::Middle => x - width / 2.0,
            Anchor::End => x - width,
        };
        self.boxes.push(TextBox {
            left,
            top: y - 0.8 * font.size,
            right: left + width,
            bottom: y + 0.22 * font.size,
            text: text.to_string(),
        });
        let anchor = match font.anchor {
            Anchor::Start => "start",
            Anchor::Middle => "middle",
            Anchor::End => "end",
        };
        let weight = if font.bold {
            " font-weight=\"bold\""
        } else {
            ""
        };
        let halo = if font.halo {
            format!(" stroke=\"{BACKGROUND}\" stroke-width=\"3\" paint-order=\"stroke\"")
        } else {
            String::new()
        };
        self.put(format_args!(
            "<text x=\"{x:.1}\" y=\"{y:.1}\" font-size=\"{}\" fill=\"{}\" text-anchor=\"{anchor}\"{weight}{halo}>{}</text>",
            font.size,
            font.colour,
            escaped(text)
        ));
    }

    pub fn line(
        &mut self,
        from: (f64, f64),
        to: (f64, f64),
        width: f64,
        colour: &str,
        stroke: Stroke,
    ) {
        let dashes = match stroke {
            Stroke::Solid => "",
            Stroke::Dashed => " stroke-dasharray=\"5 4\"",
            Stroke::Dotted => " stroke-dasharray=\"0.1 6\" stroke-linecap=\"round\"",
        };
        self.put(format_args!(
            "<line x1=\"{:.1}\" y1=\"{:.1}\" x2=\"{:.1}\" y2=\"{:.1}\" stroke=\"{colour}\" stroke-width=\"{width}\"{dashes}/>",
            from.0, from.1, to.0, to.1
        ));
    }

    pub fn rectangle(&mut self, x: f64, y: f64, width: f64, height: f64, fill: &str) {
        self.put(format_args!(
            "<rect x=\"{x:.1}\" y=\"{y:.1}\" width=\"{width:.1}\" height=\"{height:.1}\" fill=\"{fill}\"/>"
        ));
    }

    /// A rectangle with round corners.
    pub fn rounded(&mut self, x: f64, y: f64, width: f64, height: f64, fill: &str) {
        self.put(format_args!(
            "<rect x=\"{x:.1}\" y=\"{y:.1}\" width=\"{width:.1}\" height=\"{height:.1}\" rx=\"6\" fill=\"{fill}\"/>"
        ));
    }

    pub fn circle(&mut self, x: f64, y: f64, radius: f64, fill: &str, stroke: &str) {
        self.put(format_args!(
            "<circle cx=\"{x:.1}\" cy=\"{y:.1}\" r=\"{radius}\" fill=\"{fill}\" stroke=\"{stroke}\" stroke-width=\"2\"/>"
        ));
    }

    /// A path with its points given relative to a place.
    pub fn path(&mut self, x: f64, y: f64, points: &[(f64, f64)], fill: &str, stroke: &str) {
        let mut data = String::new();
        for (number, (dx, dy)) in points.iter().enumerate() {
            let letter = if number == 0 { 'M' } else { 'L' };
            let _ = write!(data, "{letter}{:.1} {:.1} ", x + dx, y + dy);
        }
        if fill != "none" {
            data.push('Z');
        }
        self.put(format_args!(
            "<path d=\"{}\" fill=\"{fill}\" stroke=\"{stroke}\" stroke-width=\"2\" stroke-linecap=\"round\" \
             stroke-linejoin=\"round\"/>",
            data.trim_end()
        ));
    }

    /// A thin open path, its points relative to a place.
    pub fn thin_path(&mut self, x: f64, y: f64, points: &[(f64, f64)], stroke: &str) {
        let mut data = String::new();
        for (dx, dy) in points {
            let _ = write!(data, "{:.1},{:.1} ", x + dx, y + dy);
        }
        self.put(format_args!(
            "<polyline points=\"{}\" fill=\"none\" stroke=\"{stroke}\" stroke-width=\"1\"/>",
            data.trim_end()
        ));
    }

    /// The whole file.
    pub fn finished(&self, width: f64, height: f64) -> String {
        format!(
            "<?xml version=\"1.0\" encoding=\"UTF-8\"?>\n\
             <svg xmlns=\"http://www.w3.org/2000/svg\" width=\"{width:.0}\" height=\"{height:.0}\" \
             viewBox=\"0 0 {width:.0} {height:.0}\" font-family=\"DejaVu Sans, Verdana, Arial, sans-serif\">\n\
             <rect width=\"100%\" height=\"100%\" fill=\"{BACKGROUND}\"/>\n{}</svg>\n",
            self.body
        )
    }
}
