//! Measures the product's calls against those of the reference, on maps of
//! growing size, and prints the times as Markdown tables. The reference is
//! the yardstick: it is written to be plain, with lists on the heap.
//!
//! Another table is about the format of blank discs. A last one is about the sweep of free space alone, against two programs
//! that do nothing else.
//!
//! `--quick` makes one round, to see that all of it runs. `--before FILE.so`
//! measures an earlier build of the product too, but for its claims, its mender and its
//! format, and adds a table of the two.
//! `--sweeps` leaves out all tables but the last.

mod discs;
mod formats;
mod machine;
mod maps;
mod sides;
mod sweeps;
mod table;
mod timing;

use std::env;
use std::process::ExitCode;
use std::time::Duration;

use formats::print_formats;
use machine::machine;
use maps::{sizes, Size, NAMES};
use product::Calls;
use reference::case::Call;
use sides::{sides, Side};
use table::print_sweeps;
use timing::{agree, Lowest};

/// How much is measured. There are several passes over all calls, so that a
/// while in which the machine is busy does not spoil all rounds of one call.
struct Plan {
    passes: u32,
    /// For the rounds of one call on the maps of one size, in each pass.
    time: Duration,
}

const FULL: Plan = Plan {
    passes: 5,
    time: Duration::from_millis(250),
};

const QUICK: Plan = Plan {
    passes: 1,
    time: Duration::ZERO,
};

/// What the arguments ask for.
struct Wanted {
    plan: Plan,
    /// The earlier build, if one is named.
    before: Option<Calls>,
    only_sweeps: bool,
}

fn main() -> ExitCode {
    let wanted = match arguments() {
        Ok(wanted) => wanted,
        Err(reason) => {
            eprintln!("{reason}");
            return ExitCode::from(2);
        }
    };

    let calls = || print_calls(wanted.before, &wanted.plan) && print_formats(&wanted.plan);
    let good = (wanted.only_sweeps || calls()) && print_sweeps(wanted.before, &wanted.plan);
    if good {
        ExitCode::SUCCESS
    } else {
        ExitCode::FAILURE
    }
}

/// Measures all calls and prints their tables; false where two sides differ.
fn print_calls(before: Option<Calls>, plan: &Plan) -> bool {
    let sizes = sizes();
    let sides: Vec<_> = sizes.iter().map(|size| sides_of(before, size)).collect();
    for (size, sides) in sizes.iter().zip(&sides) {
        for ((name, cases), sides) in NAMES.iter().zip(&size.cases).zip(sides) {
            if !cases.iter().all(|case| agree(sides, case)) {
                println!("{} zones, {name}: the answers differ", size.zones);
                return false;
            }
        }
    }

    let times = measure(&sides, &sizes, plan);
    print_how(&times, plan);
    print_ratios(&sizes, &times);
    print_growth(&sizes, &times);
    if before.is_some() {
        print_change(&sizes, &times);
    }
    println!();
    true
}

/// All who make the calls of a size, for each name. An earlier build is none of them
/// where it refuses the maps with 2, as one from before R-4 of document 02 does those
/// of 255 zones, and one from before R-12 those of E+ discs. It makes no claims, which
/// had other signatures before R-6 and before R-8, and mends nothing, as there was no
/// mender before R-9.
fn sides_of(before: Option<Calls>, size: &Size) -> Vec<Vec<Side>> {
    let knows = |calls: &Calls| {
        let check = &size.cases[0][0];
        let answer = calls.call(check, &mut check.map.clone(), &mut [], &mut []);
        answer.number != 2
    };
    let before = before.filter(knows);
    let of_name = |call: Call| sides(before.filter(|_| call != Call::Claim && !call.mends()));
    let calls = size.cases.iter().map(|cases| cases[0].call);
    calls.map(of_name).collect()
}

/// Reads the arguments.
fn arguments() -> Result<Wanted, String> {
    let mut wanted = Wanted {
        plan: FULL,
        before: None,
        only_sweeps: false,
    };
    let mut words = env::args().skip(1);
    while let Some(word) = words.next() {
        match word.as_str() {
            "--quick" => wanted.plan = QUICK,
            "--sweeps" => wanted.only_sweeps = true,
            "--before" => {
                let file = words.next().ok_or("--before is followed by no file")?;
                // SAFETY: whoever names the file takes a build that has the
                // signatures of today, as the README asks.
                wanted.before = Some(unsafe { Calls::open(&file) }?);
            }
            _ => {
                let known = "the arguments known are --quick, --sweeps and --before FILE.so";
                return Err(known.to_string());
            }
        }
    }
    Ok(wanted)
}

/// The lowest times by size and name. Each has its own sides.
fn measure(sides: &[Vec<Vec<Side>>], sizes: &[Size], plan: &Plan) -> Vec<Vec<Lowest>> {
    let mut times: Vec<Vec<Lowest>> = Vec::new();
    for (size, sides) in sizes.iter().zip(sides) {
        let lowest = |sides: &Vec<Side>| Lowest::new(sides.len(), size.maps());
        times.push(sides.iter().map(lowest).collect());
    }
    for _ in 0..plan.passes {
        for ((size, sides), row) in sizes.iter().zip(sides).zip(&mut times) {
            for ((cases, sides), lowest) in size.cases.iter().zip(sides).zip(row) {
                lowest.add(sides, cases, plan.time);
            }
        }
    }
    times
}

/// Says how the figures were taken and on what.
fn print_how(times: &[Vec<Lowest>], plan: &Plan) {
    let rounds = || times.iter().flatten().map(|lowest| lowest.rounds);
    println!(
        "Lowest time of {} to {} rounds (passes over all calls: {}). A round makes the call on each map of a \
         size, by the product and then by the reference, each on a fresh copy of the same input; only the \
         call is timed. A figure is the mean over the maps of each one's lowest time. Small maps are several, \
         with 96 to 127 zones together; of 127, of 255 and of 1,000 zones there is one. Both sides gave the \
         same answers and bytes before.",
        rounds().min().unwrap_or(0),
        rounds().max().unwrap_or(0),
        plan.passes
    );
    println!();
    println!(
        "Blocks of 1,024 bytes, idlen 15, 1,024 bytes a map bit, 4,128 bits a zone; the last two rows have \
         blocks of 256 bytes and 2,016 bits a zone: the most zones of version 0, and an E+ disc with idlen 19. \
         The object listed, released and placed has two pieces in every zone. sweep_free has a window of \
         1 MiB. The claim's only hole is the last of the disc, and its parent is zone 0, or in `near` the last \
         zone; ids begin anew in each zone, and in `packed` they go up from 3 without a gap. In `split` the map \
         has no hole of more than 32 bits, and half of what is free is claimed, in pieces all over the disc. \
         mend and mend_positions have a map whose holes are all cut into fragments as short as can be, with every \
         zone check and a cross check wrong, and room for as many positions as the map has bytes."
    );
    println!();
    println!("{} The reference has overflow checks.", machine());
    println!();
}

/// The head of a table whose last columns are calls.
fn print_head(first: &[&str], names: &[&str]) {
    let names = [first, names].concat();
    println!("| {} |", names.join(" | "));
    println!("|{}", "---:|".repeat(names.len()));
}

fn print_ratio(time: f64, other: f64) {
    print!(" {time:.1} / {other:.1} = {:.2} |", time / other);
}

fn print_ratios(sizes: &[Size], times: &[Vec<Lowest>]) {
    println!("Microseconds: product / reference = ratio.");
    println!();
    print_head(&["zones", "map bytes"], &NAMES);
    for (size, row) in sizes.iter().zip(times) {
        print!("| {} | {} |", size.zones, size.map_bytes);
        for lowest in row {
            print_ratio(
                lowest.product_microseconds(),
                lowest.reference_microseconds(),
            );
        }
        println!();
    }
    println!();
}

fn print_growth(sizes: &[Size], times: &[Vec<Lowest>]) {
    println!(
        "The product's microseconds a zone: even down a column where time grows with the map. The last two \
         rows' blocks are a quarter as long, with about half as many fragments."
    );
    println!();
    print_head(&["zones", "fragments a zone", "used %"], &NAMES);
    for (size, row) in sizes.iter().zip(times) {
        let fragments = size.fragments / size.maps() / size.zones;
        let used = size.used_percent();
        print!("| {} | {fragments} | {used} |", size.zones);
        for lowest in row {
            print!(
                " {:.2} |",
                lowest.product_microseconds() / size.zones as f64
            );
        }
        println!();
    }
}

fn print_change(sizes: &[Size], times: &[Vec<Lowest>]) {
    println!();
    println!(
        "Microseconds: after / before = ratio; after is the product, before the earlier build, which was called \
         in the same rounds and gave the same answers and bytes. Maps that it refuses with 2, as more than 127 \
         zones and E+ discs were once, are left out, and so are claims, which had no parent zone and no list \
         once, and the mender, which was not there."
    );
    println!();
    let mut names = NAMES.to_vec();
    names.retain(|name| !name.starts_with("claim") && !name.starts_with("mend"));
    print_head(&["zones"], &names);
    for (size, row) in sizes.iter().zip(times) {
        if !row[0].has_before() {
            continue;
        }
        print!("| {} |", size.zones);
        for lowest in row.iter().filter(|lowest| lowest.has_before()) {
            print_ratio(lowest.product_microseconds(), lowest.before_microseconds());
        }
        println!();
    }
}
