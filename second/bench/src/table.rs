//! The table of the sweeps, and how it was taken.

use product::Calls;

use crate::discs::{rows, Row};
use crate::machine::machine;
use crate::sweeps::{measure, Means, Measured};
use crate::Plan;

/// The highest ratios wanted, to simple, to fast, and to check and memset.
const AIMS: [f64; 3] = [1.1, 1.5, 1.1];

/// Measures and prints the table; false where two sides differ.
pub fn print_sweeps(before: Option<Calls>, plan: &Plan) -> bool {
    let rows = rows();
    match measure(&rows, before, plan) {
        Ok(measured) => {
            print_how(&measured, plan);
            print_what();
            print_table(&rows, &measured.means);
            print_highest(&rows, &measured.means);
            true
        }
        Err(row) => {
            println!("{}: the sweeps differ", title(row));
            false
        }
    }
}

fn title(row: &Row) -> String {
    match row.calls {
        1 => format!("{}, 1 call", row.name),
        calls => format!("{}, {calls} calls", row.name),
    }
}

fn print_how(measured: &Measured, plan: &Plan) {
    let rounds = || measured.rounds.iter();
    println!(
        "The sweep of free space, check of the map and count included (R-2 of document 02). Lowest time of {} to \
         {} rounds (passes over all rows: {}). A round makes the sweeps of all maps of a row by one side after the other; \
         before each the image is filled with 0 and then the map copied, and only the sweep is timed. A figure \
         is the mean over the maps of a row of each one's lowest time, less the {} ns that reading the clock takes. \
         A row has 127 floppies or 16 hard discs, with other ids and, where it leaves them open, other lengths. \
         All sides gave the reference's numbers, counts and image bytes before.",
        rounds().min().unwrap_or(&0),
        rounds().max().unwrap_or(&0),
        plan.passes,
        measured.idle.as_nanos()
    );
    println!();
    println!(
        "{} All are release builds; simple and fast have no overflow checks.",
        machine()
    );
    println!();
}

fn print_what() {
    let [simple, fast, check_and_fill] = AIMS;
    println!(
        "simple and fast are two Rust programs for this sweep alone. simple is written plainly: it reads bit by \
         bit and walks the map twice, to check and to write. fast reads words and walks the map once. Check and \
         memset are the product's check of the map and a `fill` of the free bytes, which were found beforehand. \
         The floppies have blocks of 1,024 bytes, idlen 15, 128 bytes a map bit and 6,400 map bits; all 819,200 \
         bytes are swept in one call, or in 13 of at most 65,536 bytes, whose times together are shown. The hard \
         discs are made as those of 127 zones for the other calls, with a window of 1 MiB in the middle."
    );
    println!();
    println!(
        "Aims: at most {simple} times simple and {fast} times fast in every row, and at most {check_and_fill} times \
         check and memset where memset alone takes more than half of the time of those two."
    );
    println!();
    println!("Microseconds, and the product's as a multiple.");
    println!();
}

fn print_table(rows: &[Row], means: &[Means]) {
    let mut heads = vec![
        "disc",
        "calls",
        "fragments",
        "free bytes",
        "product",
        "simple",
        "product / simple",
        "fast",
        "product / fast",
        "check and memset",
        "product / check and memset",
        "memset alone",
    ];
    if means.iter().any(|means| means.before.is_some()) {
        heads.extend(["before", "after / before"]);
    }
    println!("| {} |", heads.join(" | "));
    println!("|:---|{}", "---:|".repeat(heads.len() - 1));
    for (row, means) in rows.iter().zip(means) {
        print_row(row, means);
    }
    println!();
}

fn print_row(row: &Row, means: &Means) {
    let product = means.product;
    print!("| {} | {} | {} |", row.name, row.calls, row.fragments);
    print!(" {} | {product:.2} |", row.free_bytes);
    for other in [means.simple, means.fast, means.check_and_fill] {
        print!(" {other:.2} | {:.2} |", product / other);
    }
    print!(" {:.2} |", means.fill);
    if let Some(before) = means.before {
        print!(" {before:.2} | {:.2} |", product / before);
    }
    println!();
}

/// The highest ratio of each kind, to be held against the aims.
fn print_highest(rows: &[Row], means: &[Means]) {
    let writing = |means: &Means| means.fill > means.check_and_fill / 2.0;
    let to_simple = means.iter().map(|means| means.product / means.simple);
    let to_fast = means.iter().map(|means| means.product / means.fast);
    let to_check_and_fill = means
        .iter()
        .filter(|means| writing(means))
        .map(|means| means.product / means.check_and_fill);
    let counted: Vec<String> = rows
        .iter()
        .zip(means)
        .filter(|(_, means)| writing(means))
        .map(|(row, _)| title(row))
        .collect();
    println!(
        "Highest ratio: {:.2} to simple, {:.2} to fast, {:.2} to check and memset. The rows that count for the last \
         are: {}.",
        to_simple.fold(0.0, f64::max),
        to_fast.fold(0.0, f64::max),
        to_check_and_fill.fold(0.0, f64::max),
        counted.join("; ")
    );
}
