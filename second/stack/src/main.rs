//! Measures the stack that each of the product's calls needs, prints it as a
//! Markdown table, and fails where a call needs more than the header says, or
//! the header says more than is aimed at.
//!
//! The calls are made on maps with the most fragments to a zone, and on those
//! that the generator makes, refused ones too. Discs are formatted from the smallest to the
//! largest there are.

mod maps;
mod painted;

use std::hint::black_box;
use std::process::ExitCode;

use maps::{subjects, Subject};
use painted::Painted;
use reference::case::{Case, Outcome, CALLS};
use reference::generate::{
    play, play_claims, play_copies, play_formats, play_mends, play_pieces, Sizes,
};
use reference::geometry::LARGEST_MAP;

const HEADER: &str = include_str!("../../../include/shoalswift.h");

/// No call should need more.
const AIM: usize = 32 * 1_024;

/// How many seeds of the generator are gone through.
const SEEDS: u64 = 300;

/// The most that a call needed, and on which map.
struct Row {
    name: &'static str,
    depth: usize,
    on: String,
}

impl Row {
    fn new(name: &'static str) -> Row {
        Row {
            name,
            depth: 0,
            on: String::new(),
        }
    }

    fn add(&mut self, depth: usize, on: &str) {
        if depth > self.depth {
            self.depth = depth;
            self.on = on.to_string();
        }
    }
}

/// The bytes that the header's table promises for a call.
fn promised(name: &str) -> Option<usize> {
    let function = format!("shoalswift_{name}");
    HEADER.lines().find_map(|line| {
        let mut words = line.strip_prefix(" *")?.split_whitespace();
        let (first, second) = (words.next()?, words.next()?);
        (first == function && words.next().is_none()).then(|| second.parse().ok())?
    })
}

/// Measures the geometry of a case's map and the case's own call.
fn measure(stack: &mut Painted, rows: &mut [Row], on: &str, case: &Case) {
    let depth = stack.depth(&mut || {
        black_box(product::geometry(&case.map));
    });
    rows[0].add(depth, on);
    let (mut map, mut list) = (case.map.clone(), case.list.clone());
    let mut image = case.image.clone();
    let depth = stack.depth(&mut || {
        black_box(product::call(case, &mut map, &mut list, &mut image));
    });
    rows[case.call as usize].add(depth, on);
}

/// The geometry's row, then one for each call, in the order of their numbers.
fn measured() -> Vec<Row> {
    let mut rows = vec![Row::new("geometry")];
    rows.extend(CALLS.map(|call| Row::new(call.name())));
    let mut stack = Painted::new();
    for Subject { on, case } in subjects() {
        measure(&mut stack, &mut rows, &on, &case);
    }
    let sizes = Sizes {
        map: LARGEST_MAP,
        list: 200_000,
        image: 65_536,
    };
    for seed in 0..SEEDS {
        let on = format!("seed {seed} of the generator");
        let mut visit = |case: &Case, _: &Outcome| measure(&mut stack, &mut rows, &on, case);
        play(seed, &sizes, &mut visit);
        play_claims(seed, &sizes, &mut visit);
        play_pieces(seed, &sizes, &mut visit);
        play_copies(seed, &sizes, &mut visit);
        play_mends(seed, &sizes, &mut visit);
        play_formats(seed, &sizes, &mut visit);
    }
    rows
}

fn main() -> ExitCode {
    let empty = Painted::new().depth(&mut || {});
    println!(
        "Bytes of stack below the frame that makes the call. The frame that hands the arguments over is counted \
         in; a call of nothing, measured in the same way, needs {empty}."
    );
    println!();
    println!("| call | measured | in the header | the most is needed on |");
    println!("|---|---:|---:|---|");
    let mut good = true;
    for row in measured() {
        let Row { name, depth, on } = row;
        let told = promised(name);
        let shown = told.map_or("none".to_string(), |bytes| bytes.to_string());
        println!("| `{name}` | {depth} | {shown} | {on} |");
        good &= told.is_some_and(|bytes| depth <= bytes && bytes <= AIM);
    }
    if !good {
        println!();
        println!("A call needs more than the header says, or the header says nothing, or more than {AIM}.");
        return ExitCode::FAILURE;
    }
    ExitCode::SUCCESS
}
