//! Times the leaf functions against what Rust's library does, and prints the ratios.
//!
//! `leaf-speed` prints the table; `leaf-speed --check` also exits with 1 where a ratio passes its limit.
//!
//! A figure is the best of many short runs, ours and Rust's in turn, on the same bytes: what else runs on the machine can
//! only make a run slower, so the best is the one least disturbed. Both sides keep within 2 % from one start to the next
//! on a machine with nothing else to do; a limit is passed where the best of five attempts is still 5 % above it.

mod leaf;

use leaf::{Area, AREA};
use std::hint::black_box;
use std::process::ExitCode;
use std::time::Instant;

/// How far above its limit a ratio may come: twice what both sides differ by from one start to the next.
const MARGIN: f64 = 1.05;
const ATTEMPTS: usize = 5;
const ROUNDS: usize = 300;

const IDS: usize = 1_024;
const PAIRS: u32 = IDS as u32 - 1;

struct Bytes {
    source: Box<Area>,
    target: Box<Area>,
    /// Neighbours differ in the first byte.
    first: Vec<[u8; 32]>,
    /// Neighbours differ in the last byte alone.
    last: Vec<[u8; 32]>,
}

type Run = fn(&mut Bytes);

/// One line of the table: `ours` against `theirs`, each `calls` times in a run, `each` operations to a call.
struct Race {
    what: &'static str,
    against: &'static str,
    limit: Option<f64>,
    calls: u32,
    each: u32,
    ours: Run,
    theirs: Run,
}

#[derive(Clone, Copy)]
struct Best {
    ours: f64,
    theirs: f64,
}

impl Best {
    fn ratio(self) -> f64 {
        self.ours / self.theirs
    }
}

impl Race {
    fn run(&self, bytes: &mut Bytes) -> Best {
        let mut best = Best {
            ours: f64::MAX,
            theirs: f64::MAX,
        };
        for _ in 0..ROUNDS {
            best.ours = best.ours.min(self.time(self.ours, bytes));
            best.theirs = best.theirs.min(self.time(self.theirs, bytes));
        }
        best
    }

    /// Nanoseconds for one operation.
    fn time(&self, run: Run, bytes: &mut Bytes) -> f64 {
        let start = Instant::now();
        for _ in 0..self.calls {
            run(bytes);
        }
        start.elapsed().as_nanos() as f64 / f64::from(self.calls * self.each)
    }

    fn passes_limit(&self, best: Best) -> bool {
        self.limit
            .is_some_and(|limit| best.ratio() > limit * MARGIN)
    }
}

fn memcpy(bytes: &mut Bytes) {
    black_box(&mut bytes.target.0[..]).copy_from_slice(black_box(&bytes.source.0[..]));
}

fn rust_ids_before(ids: &[[u8; 32]]) -> usize {
    ids.windows(2).filter(|pair| pair[0] < pair[1]).count()
}

fn rust_ids_same(ids: &[[u8; 32]]) -> usize {
    ids.windows(2).filter(|pair| pair[0] == pair[1]).count()
}

fn rust_read_u64(s: &[u8]) -> u64 {
    s.chunks_exact(8).fold(0, |all, word| {
        let mut bytes = [0; 8];
        bytes.copy_from_slice(word);
        all ^ u64::from_be_bytes(bytes)
    })
}

fn area(what: &'static str, ours: Run) -> Race {
    Race {
        what,
        against: "memcpy",
        limit: Some(1.5),
        calls: 20,
        each: 1,
        ours,
        theirs: memcpy,
    }
}

fn ids(
    what: &'static str,
    against: &'static str,
    limit: Option<f64>,
    ours: Run,
    theirs: Run,
) -> Race {
    Race {
        what,
        against,
        limit,
        calls: 10,
        each: PAIRS,
        ours,
        theirs,
    }
}

fn races() -> Vec<Race> {
    let before_first: Run = |b| {
        black_box(leaf::ids_before(black_box(&b.first)));
    };
    let before_last: Run = |b| {
        black_box(leaf::ids_before(black_box(&b.last)));
    };
    let rust_first: Run = |b| {
        black_box(rust_ids_before(black_box(&b.first)));
    };
    let rust_last: Run = |b| {
        black_box(rust_ids_before(black_box(&b.last)));
    };
    vec![
        area("copy", |b| {
            black_box(leaf::copy(
                black_box(&b.source.0),
                black_box(&mut b.target.0),
            ));
        }),
        area("copy_prefix", |b| {
            black_box(leaf::copy_prefix(
                black_box(&b.source.0),
                black_box(AREA),
                black_box(&mut b.target.0),
            ));
        }),
        area("scratch", |b| {
            leaf::scratch(black_box(&b.source.0), black_box(&mut b.target))
        }),
        area("fill_zero", |b| leaf::fill_zero(black_box(&mut b.target.0))),
        area("is_zero", |b| {
            black_box(leaf::is_zero(black_box(&b.source.0)));
        }),
        ids(
            "run_before, first byte differs",
            "[u8; 32] <",
            Some(1.3),
            before_first,
            rust_first,
        ),
        ids(
            "run_before, last byte differs",
            "[u8; 32] <",
            Some(1.3),
            before_last,
            rust_last,
        ),
        ids(
            "run_before, last byte differs",
            "first byte differs",
            Some(1.1),
            before_last,
            before_first,
        ),
        ids(
            "run_before, each an exported call",
            "[u8; 32] <",
            None,
            |b| {
                let ids = black_box(&b.first);
                black_box(
                    ids.windows(2)
                        .filter(|pair| leaf::run_before(&pair[0], 0, &pair[1], 0, 32))
                        .count(),
                );
            },
            rust_first,
        ),
        ids(
            "run_same, last byte differs",
            "[u8; 32] ==",
            None,
            |b| {
                black_box(leaf::ids_same(black_box(&b.last)));
            },
            |b| {
                black_box(rust_ids_same(black_box(&b.last)));
            },
        ),
        Race {
            what: "read_u64",
            against: "from_be_bytes",
            limit: Some(1.3),
            calls: 20,
            each: (AREA / 8) as u32,
            ours: |b| {
                black_box(leaf::read_u64(black_box(&b.source.0)));
            },
            theirs: |b| {
                black_box(rust_read_u64(black_box(&b.source.0)));
            },
        },
    ]
}

/// A stream of numbers that is the same in every run (xorshift).
struct Numbers(u64);

impl Numbers {
    fn next(&mut self) -> u64 {
        self.0 ^= self.0 << 13;
        self.0 ^= self.0 >> 7;
        self.0 ^= self.0 << 17;
        self.0
    }

    fn fill(&mut self, s: &mut [u8]) {
        s.fill_with(|| self.next() as u8);
    }
}

fn bytes(numbers: &mut Numbers) -> Bytes {
    let mut first = vec![[0; 32]; IDS];
    let mut last = vec![[7; 32]; IDS];
    for k in 0..IDS {
        numbers.fill(&mut first[k]);
        last[k][31] = numbers.next() as u8;
        if k > 0 {
            first[k][0] = other_than(first[k - 1][0], first[k][0]);
            last[k][31] = other_than(last[k - 1][31], last[k][31]);
        }
    }
    let zero = Box::new(Area([0; AREA]));
    Bytes {
        source: zero.clone(),
        target: zero,
        first,
        last,
    }
}

fn other_than(before: u8, byte: u8) -> u8 {
    if byte == before {
        byte.wrapping_add(1)
    } else {
        byte
    }
}

/// The answers are Rust's, on numbers that are drawn: what is timed is what is meant.
fn agree(numbers: &mut Numbers) {
    let mut source = Box::new(Area([0; AREA]));
    let mut target = source.clone();
    assert!(leaf::is_zero(&source.0));
    numbers.fill(&mut source.0);
    assert!(!leaf::is_zero(&source.0));
    assert!(leaf::copy_prefix(&source.0, 1_000, &mut target.0));
    assert!(target.0[..1_000] == source.0[..1_000] && leaf::is_zero(&target.0[1_000..]));
    assert!(leaf::copy(&source.0, &mut target.0) && target.0 == source.0);
    leaf::fill_zero(&mut target.0);
    assert!(leaf::is_zero(&target.0));
    leaf::scratch(&source.0, &mut target);
    assert!(target.0 == source.0);
    assert_eq!(leaf::read_u64(&source.0), rust_read_u64(&source.0));

    for _ in 0..10_000 {
        let size = (numbers.next() % 80) as usize;
        let (p, q) = (
            (numbers.next() % 100) as usize,
            (numbers.next() % 100) as usize,
        );
        let mut s = vec![7; 180];
        let mut t = s.clone();
        if size > 0 {
            s[p + (numbers.next() % size as u64) as usize] = numbers.next() as u8;
            t[q + (numbers.next() % size as u64) as usize] = numbers.next() as u8;
        }
        let (a, b) = (&s[p..p + size], &t[q..q + size]);
        assert_eq!(leaf::run_before(&s, p, &t, q, size), a < b);
        assert_eq!(leaf::run_same(&s, p, &t, q, size), a == b);
    }

    let (mut bytes, n) = ([0; 8], numbers.next());
    leaf::write_u64(&mut bytes, n);
    assert_eq!(bytes, n.to_be_bytes());
    assert_eq!(leaf::read_u16(&bytes), (n >> 48) as u16);
    assert_eq!(leaf::read_u32(&bytes), (n >> 32) as u32);
    leaf::write_u32(&mut bytes, n as u32);
    assert_eq!(bytes[..4], (n as u32).to_be_bytes());
    leaf::write_u16(&mut bytes, n as u16);
    assert_eq!(bytes[..2], (n as u16).to_be_bytes());
}

fn main() -> ExitCode {
    let check = std::env::args().any(|word| word == "--check");
    let mut numbers = Numbers(88_172_645_463_325_252);
    agree(&mut numbers);
    let mut bytes = bytes(&mut numbers);
    assert_eq!(
        leaf::ids_before(&bytes.first),
        rust_ids_before(&bytes.first)
    );
    assert_eq!(leaf::ids_before(&bytes.last), rust_ids_before(&bytes.last));
    assert_eq!(leaf::ids_same(&bytes.last), 0);

    println!(
        "{:<34} {:>9}   {:<20} {:>9}   {:>5}   limit",
        "leaf", "ns", "against", "ns", "ratio"
    );
    let mut failed = false;
    for race in races() {
        let mut best = race.run(&mut bytes);
        for _ in 1..ATTEMPTS {
            if race.passes_limit(best) {
                let again = race.run(&mut bytes);
                best = Best {
                    ours: best.ours.min(again.ours),
                    theirs: best.theirs.min(again.theirs),
                };
            }
        }
        let limit = race
            .limit
            .map_or(String::from("none"), |limit| format!("{limit:.1}"));
        let verdict = if race.passes_limit(best) {
            "  OVER"
        } else {
            ""
        };
        println!(
            "{:<34} {:>9.2}   {:<20} {:>9.2}   {:>5.2}   {limit}{verdict}",
            race.what,
            best.ours,
            race.against,
            best.theirs,
            best.ratio()
        );
        failed |= race.passes_limit(best);
    }
    if check && failed {
        return ExitCode::FAILURE;
    }
    ExitCode::SUCCESS
}
