//! Takes the published Rust as it is, makes the changes that documents 01 and 02 allow on a copy in the build folder,
//! and stops if the source is not the one that the driver was written for.

use std::path::{Path, PathBuf};
use std::{env, fs};

/// Where the source stands beside the project, from this crate's folder.
const BESIDE: &str = "../../../shared/docs/src";

/// A file of the source: its checksum as published (commit 9c1541183d), the texts that the driver leans on, each
/// standing exactly once, and the texts that are replaced.
struct Source {
    name: &'static str,
    checksum: u64,
    leans_on: &'static [&'static str],
    replaced: &'static [(&'static str, &'static str)],
    probed: bool,
}

const SOURCES: [Source; 3] = [
    Source {
        name: "delivery",
        checksum: 0x95f8_d40b_05d3_bbc3,
        leans_on: &[
            "struct PendingRequest {",
            "pub fn check_timeouts(&mut self) -> CheckResult {",
            "pub fn with_config(timeout: Duration, max_checks: u32) -> Self {",
        ],
        replaced: &[(
            "use std::collections::HashMap;",
            "use std::collections::BTreeMap as HashMap;",
        )],
        probed: true,
    },
    Source {
        name: "state",
        checksum: 0x7bbe_fc6a_932e_3261,
        leans_on: &[
            // Functions, by which a call into a stand-in is placed.
            "async fn run_inner(&mut self) {",
            "async fn pick_sync_peer(&mut self) -> bool {",
            "async fn sync_from_peer(&mut self) -> SyncOutcome {",
            "async fn request_announced(",
            "async fn advance_downloaded_height(&mut self) {",
            "async fn handle_event(",
            "async fn handle_delivery_check(",
            "async fn synced(&mut self) {",
            "async fn request_next_sections(&mut self) {",
            "async fn send_sync_info(",
            // Timers, armed by these texts.
            "_ = tokio::time::sleep(until_delivery) => {",
            "_ = tokio::time::sleep(until_next) => {",
            "_ = sweep_ticker.tick() => {",
            "_ = ticker.tick() => {",
            "_ = delivery_ticker.tick() => {",
            "_ = section_ticker.tick() => {",
            // Records from which the way taken is read.
            "\"starting header sync\"",
            "\"peer reports no more headers\"",
            "\"caught up with peer\"",
            "\"peer is ahead, resuming sync\"",
            "\"sync peer disconnected\"",
            "\"sync stalled, rotating peer\"",
            "\"no outbound peers, returning to idle\"",
            "\"progress → second batch SyncInfo\"",
        ],
        replaced: &[
            (
                "use std::collections::{HashMap, HashSet};",
                "use std::collections::{BTreeMap as HashMap, BTreeSet as HashSet};",
            ),
            // F-8: of the unstalled peers, and then of all listed ones, the first other than the failed one; else that.
            (
                "            for retry in &result.retries {
                let target = peers
                    .iter()
",
                "            let unstalled = peers.iter().filter(|p| !self.stalled_peers.contains(*p));
            let in_order: Vec<PeerId> = unstalled.chain(&peers).copied().collect();
            for retry in &result.retries {
                let target = in_order
                    .iter()
",
            ),
        ],
        probed: true,
    },
    Source {
        name: "traits",
        checksum: 0x757c_307f_bb8f_5184,
        leans_on: &[
            "pub trait SyncStore {",
            "pub trait SyncTransport {",
            "pub trait SyncChain {",
        ],
        replaced: &[],
        probed: false,
    },
];

/// FNV-1a, 64 bits.
fn checksum(text: &str) -> u64 {
    text.bytes().fold(0xcbf2_9ce4_8422_2325, |sum, byte| {
        (sum ^ u64::from(byte)).wrapping_mul(0x0000_0100_0000_01b3)
    })
}

fn once(source: &Source, text: &str, searched: &str) {
    let found = text.matches(searched).count();
    assert!(
        found == 1,
        "{}.rs: {searched:?} stands {found} times, not once: the source has changed",
        source.name
    );
}

/// The copy that is compiled, after all checks.
fn copied(source: &Source, text: &str, manifest: &Path) -> String {
    assert!(
        checksum(text) == source.checksum,
        "{}.rs is not the published one: its checksum is {:#018x}",
        source.name,
        checksum(text)
    );
    for searched in source.leans_on {
        once(source, text, searched);
    }
    let mut copy = text.to_string();
    for (old, new) in source.replaced {
        once(source, text, old);
        copy = copy.replacen(old, new, 1);
    }
    if source.probed {
        let probe = manifest
            .join("src/probe")
            .join(format!("{}.rs", source.name));
        copy.push_str(&format!("\n#[path = {probe:?}]\npub mod probe;\n"));
    }
    copy
}

/// The functions of state.rs with the lines on which they begin, so that a caller's line names its function.
fn functions(text: &str) -> String {
    let mut table = String::from("pub const FUNCTIONS: &[(u32, &str)] = &[\n");
    for (index, line) in text.lines().enumerate() {
        let words = line.trim_start();
        let start = ["pub async fn ", "async fn ", "pub fn ", "fn "]
            .iter()
            .find_map(|prefix| words.strip_prefix(prefix));
        if let Some(name) = start.and_then(|rest| rest.split(['(', '<']).next()) {
            table.push_str(&format!("    ({}, {name:?}),\n", index + 1));
        }
    }
    table + "];\n"
}

fn main() {
    println!("cargo::rustc-check-cfg=cfg(oracle)");
    println!("cargo::rerun-if-env-changed=KEEPER_RUST_SRC");
    println!("cargo::rerun-if-changed=build.rs");
    let manifest = PathBuf::from(env::var_os("CARGO_MANIFEST_DIR").expect("set by cargo"));
    let out = PathBuf::from(env::var_os("OUT_DIR").expect("set by cargo"));
    let root = match env::var_os("KEEPER_RUST_SRC") {
        Some(named) => PathBuf::from(named),
        None => manifest.join(BESIDE),
    };
    let folder = root.join("sync/src");
    println!("cargo::rerun-if-changed={}", folder.display());
    if !folder.is_dir() {
        return;
    }
    let mut modules = String::new();
    for source in &SOURCES {
        let path = folder.join(format!("{}.rs", source.name));
        println!("cargo::rerun-if-changed={}", path.display());
        let text = fs::read_to_string(&path).expect("the source can be read");
        let copy = out.join(format!("{}.rs", source.name));
        let changed = copied(source, &text, &manifest);
        if source.name == "state" {
            modules.push_str(&functions(&changed));
        }
        fs::write(&copy, changed).expect("the build folder can be written");
        modules.push_str(&format!(
            "#[allow(warnings, clippy::all)]\n#[path = {copy:?}]\nmod {};\n",
            source.name
        ));
        if source.name == "delivery" {
            // With its own maps, to be timed.
            let as_published = out.join("delivery_as_published.rs");
            fs::write(&as_published, text).expect("the build folder can be written");
            modules.push_str(&format!(
                "#[allow(warnings, clippy::all)]\n#[path = {as_published:?}]\nmod delivery_as_published;\n"
            ));
        }
    }
    fs::write(out.join("modules.rs"), modules).expect("the build folder can be written");
    println!("cargo::rustc-cfg=oracle");
}
