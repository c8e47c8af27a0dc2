//! Writes the stored cases: `cases OUTDIR` makes OUTDIR/stdin (the cases) and
//! OUTDIR/stdout (a line for each). The set is fixed: written-out cases first,
//! a module for each part of document 01 and for,
//! of document 02, then some of a fixed range of seeds.
//! `cases` alone lists the groups with the lines of OUTDIR/stdout they make.

mod bench;
mod calls;
mod check;
mod claim;
mod closing;
mod copies;
mod editions;
mod extents;
mod formatting;
mod listing;
mod maps;
mod mending;
mod order;
mod parents;
mod pieces;
mod place;
mod reach;
mod record;
mod release;
mod reserved;
mod runs;
mod seeds;
mod stretches;
mod zones;

use std::collections::{BTreeMap, BTreeSet};
use std::path::Path;
use std::{env, fs, process};

use calls::{Cases, Group};
use reference::case::{Call, Case, CALLS};
use reference::generate::Sizes;
use reference::geometry::LARGEST_MAP;

/// The largest map, list and stretch of a stored case. The map is the largest
/// that is not of an E+ disc.
const SIZES: Sizes = Sizes {
    map: LARGEST_MAP,
    list: 4_096,
    image: 16_384,
};
/// All cases together stay below this many bytes, and are at most so many.
const MOST_BYTES: usize = 7_500_000;
const MOST_CASES: usize = 3_000;

const MODULES: [(&str, &[Group]); 21] = [
    ("bench", bench::GROUPS),
    ("record", record::GROUPS),
    ("check", check::GROUPS),
    ("order", order::GROUPS),
    ("listing", listing::GROUPS),
    ("reach", reach::GROUPS),
    ("release", release::GROUPS),
    ("place", place::GROUPS),
    ("claim", claim::GROUPS),
    ("runs", runs::GROUPS),
    ("closing", closing::GROUPS),
    ("stretches", stretches::GROUPS),
    ("zones", zones::GROUPS),
    ("reserved", reserved::GROUPS),
    ("editions", editions::GROUPS),
    ("extents", extents::GROUPS),
    ("copies", copies::GROUPS),
    ("parents", parents::GROUPS),
    ("pieces", pieces::GROUPS),
    ("mending", mending::GROUPS),
    ("formatting", formatting::GROUPS),
];

/// The module that takes cases from seeds, and its functions.
const SEEDS: &str = "seeds";
type OfSeeds = fn(&Sizes) -> Vec<Case>;
const OF_SEEDS: [(&str, OfSeeds); 2] = [
    ("from_seeds", seeds::from_seeds),
    ("mends_from_seeds", seeds::mends_from_seeds),
];

/// A group's place among the cases: its module and function, its first case,
/// counted from 1 as lines are, and how many it has.
struct Entry {
    module: &'static str,
    group: &'static str,
    first: usize,
    count: usize,
}

/// All cases in their order, and where each group's are.
fn all() -> (Vec<Case>, Vec<Entry>) {
    let mut cases = Cases(Vec::new());
    let mut index = Vec::new();
    for (module, groups) in MODULES {
        for (group, write_out) in groups {
            let before = cases.0.len();
            write_out(&mut cases);
            index.push(Entry {
                module,
                group,
                first: before + 1,
                count: cases.0.len() - before,
            });
        }
    }
    let mut cases = cases.0;
    for (group, of_seeds) in OF_SEEDS {
        let before = cases.len();
        cases.extend(of_seeds(&SIZES));
        index.push(Entry {
            module: SEEDS,
            group,
            first: before + 1,
            count: cases.len() - before,
        });
    }
    (cases, index)
}

/// The stored bytes and the text of all cases. They keep their limits, no two
/// are equal, and each call has an accepted case and each of its refusals.
fn stored(cases: &[Case]) -> (Vec<u8>, String) {
    let mut bytes = Vec::new();
    let mut text = String::new();
    let mut reached: BTreeMap<u32, usize> = BTreeMap::new();
    let mut answers: BTreeSet<(Call, u32)> = BTreeSet::new();
    let mut seen: BTreeMap<Vec<u8>, usize> = BTreeMap::new();
    let mut repeated = Vec::new();
    for (index, case) in cases.iter().enumerate() {
        assert!(case.map.len() <= SIZES.map);
        assert!(case.list.len() <= SIZES.list);
        assert!(case.image.len() <= SIZES.image);
        let outcome = case.run();
        *reached.entry(outcome.number).or_insert(0) += 1;
        answers.insert((case.call, outcome.number));
        bytes.extend_from_slice(&case.bytes());
        text += &case.line(&outcome);
        text += "\n";
        if let Some(before) = seen.insert(case.bytes(), index + 1) {
            repeated.push((before, index + 1));
        }
    }
    assert!(repeated.is_empty(), "cases that are equal: {repeated:?}");
    assert!(cases.len() <= MOST_CASES, "{} cases", cases.len());
    assert!(bytes.len() < MOST_BYTES, "{} bytes", bytes.len());
    for number in (0..=17).filter(|number| *number != 14) {
        let count = reached.get(&number).copied().unwrap_or(0);
        assert!(count >= 2, "refusal {number}: {count} cases");
    }
    for call in CALLS {
        for number in [vec![0], call.refusals()].concat() {
            assert!(answers.contains(&(call, number)), "{call:?} {number}");
        }
    }
    (bytes, text)
}

fn main() {
    let arguments: Vec<String> = env::args().collect();
    let (cases, index) = all();
    let (bytes, text) = stored(&cases);
    match arguments.len() {
        1 => {
            for entry in &index {
                let last = entry.first + entry.count - 1;
                println!(
                    "{:>3}-{:<3} cases/{}.rs: {}",
                    entry.first, last, entry.module, entry.group
                );
            }
        }
        2 => {
            let write = |name: &str, contents: &[u8]| {
                let path = Path::new(&arguments[1]).join(name);
                if let Err(error) = fs::write(&path, contents) {
                    eprintln!("{}: {error}", path.display());
                    process::exit(1);
                }
            };
            write("stdin", &bytes);
            write("stdout", text.as_bytes());
        }
        _ => {
            eprintln!("usage: cases [OUTDIR]");
            process::exit(2);
        }
    }
    let of_seeds = index.iter().filter(|entry| entry.module == SEEDS);
    let from_seeds: usize = of_seeds.map(|entry| entry.count).sum();
    println!(
        "{} cases ({} written out), {} bytes",
        cases.len(),
        cases.len() - from_seeds,
        bytes.len()
    );
}
