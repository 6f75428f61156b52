//! `drill`: plays scenarios. Arguments and files here, all else in the library.

use drill::drawing::Drawing;
use drill::play::{play, Played};
use drill::timeline::OnDemand;
use drill::{scenario, shipped, timeline};
use std::io::{ErrorKind, Write};
use std::path::{Path, PathBuf};
use std::process::ExitCode;
use std::{env, fs};

const USAGE: &str = "\
drill FILE..            plays scenarios against the proved request keeper and tells what happened and why
drill NAME..            the same with a scenario that comes with the player
drill --list            the names of those, with their titles
drill --judge COMMAND.. holds a pupil's keeper, started by COMMAND, against the proved one; docs/JUDGE.md

  --svg                 also draws it, into FILE with the ending .svg
  --svg OUT.svg         also draws it, into OUT.svg
  --forecast            also shows what the core says of each step right before it
  --mean-age            also shows the mean age of what is pending after each step
  --quiet               prints only the last line of each timeline, and the expectations that are not met
  --help                this text
  --version             the version

A long drawing is cut into pages, OUT-1.svg and so on. The format of a scenario is described in docs/DRILL.md.

Exit status: 0 all expectations hold, 1 one does not, 2 a scenario or the arguments can't be read, or a drawing can't be
made, or something can't be written.
";

/// What the arguments ask for.
#[derive(Debug, Default, PartialEq, Eq)]
struct Asked {
    files: Vec<String>,
    /// Whether to draw, and where to.
    svg: Option<Option<PathBuf>>,
    /// What to show besides.
    on_demand: OnDemand,
    quiet: bool,
    list: bool,
    help: bool,
    version: bool,
}

/// Reads the arguments, or gives all that is wrong with them. A word after `--svg` is its file if it ends in `.svg`.
fn asked(words: impl Iterator<Item = String>) -> Result<Asked, Vec<String>> {
    let mut asked = Asked::default();
    let mut faults = Vec::new();
    let mut words = words.peekable();
    while let Some(word) = words.next() {
        match word.as_str() {
            "--help" | "-h" => asked.help = true,
            "--version" | "-V" => asked.version = true,
            "--list" => asked.list = true,
            "--forecast" => asked.on_demand.forecast = true,
            "--mean-age" => asked.on_demand.mean_age = true,
            "--quiet" => asked.quiet = true,
            "--svg" => {
                let out = words.next_if(|word| word.ends_with(".svg"));
                asked.svg = Some(out.map(PathBuf::from));
            }
            "--judge" => faults.push("--judge has to be the first argument".to_string()),
            option if option.starts_with('-') => {
                faults.push(format!("there is no option {option}"))
            }
            _ => asked.files.push(word),
        }
    }
    let plays = !(asked.help || asked.version || asked.list);
    if plays && asked.files.is_empty() && faults.is_empty() {
        faults.push("a scenario's file or name was expected".to_string());
    }
    if plays && asked.files.len() > 1 && matches!(asked.svg, Some(Some(_))) {
        faults.push("one OUT.svg can't take several drawings: leave it out".to_string());
    }
    if faults.is_empty() {
        Ok(asked)
    } else {
        Err(faults)
    }
}

/// A scenario's text: a file, or one that is shipped.
fn text_of(file: &str) -> Result<String, String> {
    match fs::read(file) {
        Ok(bytes) if bytes.starts_with(&[0xff, 0xfe]) || bytes.starts_with(&[0xfe, 0xff]) => Err(
            format!("{file}:1: this file is UTF-16 text: save it as UTF-8"),
        ),
        Ok(bytes) => String::from_utf8(bytes).map_err(|error| {
            let good = error.utf8_error().valid_up_to();
            let line = 1 + error
                .as_bytes()
                .iter()
                .take(good)
                .filter(|byte| **byte == b'\n')
                .count();
            format!("{file}:{line}: this line is not UTF-8 text")
        }),
        Err(error) => shipped::scenario(file).map(str::to_string).ok_or_else(|| {
            format!("{file}: {error}; `drill --list` names the scenarios that are shipped")
        }),
    }
}

fn played(file: &str) -> Result<Played, String> {
    let text = text_of(file)?;
    let scenario =
        scenario::read(&text).map_err(|fault| format!("{file}:{}: {}", fault.line, fault.what))?;
    play(&scenario).map_err(|refusal| format!("{file}: {refusal}"))
}

/// Where the drawing goes: as asked, or beside the scenario.
fn drawing_file(file: &str, out: Option<&PathBuf>) -> PathBuf {
    match out {
        Some(out) => out.clone(),
        None => Path::new(file).with_extension("svg"),
    }
}

/// Prints. A reader who has gone away is no fault, any other failed write is.
fn print(text: &str) -> Result<(), String> {
    let mut out = std::io::stdout().lock();
    let printed = out.write_all(text.as_bytes()).and_then(|()| out.flush());
    match printed {
        Err(error) if error.kind() != ErrorKind::BrokenPipe => {
            Err(format!("standard output: {error}"))
        }
        _ => Ok(()),
    }
}

fn complain(fault: &str) {
    let _ = writeln!(std::io::stderr().lock(), "drill: {fault}");
}

/// Draws what was played; what is to be said of it.
fn draw(played: &Played, out: &Path) -> Result<String, String> {
    let drawing = Drawing::of(played).map_err(|fault| fault.to_string())?;
    let files = page_files(out, drawing.pages());
    for (page, file) in files.iter().enumerate() {
        fs::write(file, drawing.svg(page))
            .map_err(|error| format!("{}: {error}", file.display()))?;
    }
    Ok(match files.as_slice() {
        [first, .., last] => format!(
            "drawn: {} to {}, {} pages\n",
            first.display(),
            last.display(),
            files.len()
        ),
        _ => format!("drawn: {}\n", out.display()),
    })
}

/// One file a page: OUT.svg, or OUT-1.svg and so on.
fn page_files(out: &Path, pages: usize) -> Vec<PathBuf> {
    if pages < 2 {
        return vec![out.to_path_buf()];
    }
    let width = pages.to_string().len();
    let stem = out.file_stem().unwrap_or_default().to_string_lossy();
    let file = |page| out.with_file_name(format!("{stem}-{page:0width$}.svg"));
    (1..=pages).map(file).collect()
}

/// Plays one scenario; the exit status that it asks for. An error is one of printing.
fn drill(file: &str, asked: &Asked) -> Result<u8, String> {
    let played = match played(file) {
        Ok(played) => played,
        Err(fault) => {
            complain(&fault);
            return Ok(2);
        }
    };
    if asked.quiet {
        print(&format!("{file}: {}\n", timeline::unmet(&played)))?;
    } else {
        print(&timeline::timeline_with(&played, asked.on_demand))?;
    }
    if let Some(out) = &asked.svg {
        match draw(&played, &drawing_file(file, out.as_ref())) {
            Ok(drawn) => print(&drawn)?,
            Err(fault) => {
                complain(&format!("{file}: {fault}"));
                return Ok(2);
            }
        }
    }
    Ok(u8::from(!played.as_expected()))
}

/// Plays all scenarios that are asked for; the exit status.
fn drills(asked: &Asked) -> Result<u8, String> {
    let mut status = 0;
    for (number, file) in asked.files.iter().enumerate() {
        if number > 0 && !asked.quiet {
            print("\n")?;
        }
        status = status.max(drill(file, asked)?);
    }
    Ok(status)
}

fn list() -> Result<(), String> {
    for (name, text) in shipped::SCENARIOS {
        let title = scenario::read(text).map(|scenario| scenario.title);
        print(&format!("{name:<30} {}\n", title.unwrap_or_default()))?;
    }
    Ok(())
}

/// Does what is asked for; the exit status.
fn carry_out(asked: &Asked) -> Result<u8, String> {
    if asked.help {
        print(USAGE)?;
    } else if asked.version {
        print(concat!("drill ", env!("CARGO_PKG_VERSION"), "\n"))?;
    } else if asked.list {
        list()?;
    } else {
        return drills(asked);
    }
    Ok(0)
}

fn main() -> ExitCode {
    let words = env::args_os().map(|word| word.to_string_lossy().into_owned());
    let words: Vec<String> = words.skip(1).collect();
    if let Some(("--judge", rest)) = words
        .split_first()
        .map(|(first, rest)| (first.as_str(), rest))
    {
        return ExitCode::from(keeper_judge::run("drill --judge", rest));
    }
    let status = match asked(words.into_iter()) {
        Ok(asked) => carry_out(&asked).unwrap_or_else(|fault| {
            complain(&fault);
            2
        }),
        Err(faults) => {
            for fault in faults {
                complain(&format!("{fault}; `drill --help` tells what there is"));
            }
            2
        }
    };
    ExitCode::from(status)
}
