//! The format of blank discs (R-13 of document 02), which has a table of its own, as it
//! does not start from a map.

use std::slice;

use reference::case::{Call, Case};

use crate::sides::{sides, Side};
use crate::timing::{agree, Lowest};
use crate::Plan;

/// Mbytes of 1,048,576 bytes.
const MBYTE: u64 = 1 << 20;

/// A disc that is formatted: its name, log2secsize and capacity. All have an idlen of 15.
const DISCS: [(&str, u32, u64); 5] = [
    ("800K", 10, 800 * 1_024),
    ("124 Mbytes", 8, 124 * MBYTE),
    ("124 Mbytes", 10, 124 * MBYTE),
    ("999 Mbytes", 8, 999 * MBYTE),
    ("999 Mbytes", 10, 999 * MBYTE),
];

const IDLEN: u32 = 15;

/// Measures and prints the table; false where the two differ.
pub fn print_formats(plan: &Plan) -> bool {
    let cases = DISCS.map(|(_, log2secsize, capacity)| case(log2secsize, capacity));
    let sides = sides(None);
    for ((name, ..), case) in DISCS.iter().zip(&cases) {
        if !agree(&sides, case) {
            println!("format of {name}: the answers differ");
            return false;
        }
    }
    let times = measure(&sides, &cases, plan);
    print_how(&times);
    println!("| disc | block bytes | zones | map bytes | format |");
    println!("|:---|---:|---:|---:|---:|");
    for (((name, log2secsize, _), case), lowest) in DISCS.iter().zip(&cases).zip(&times) {
        let (block, bytes) = (1 << log2secsize, case.map.len());
        let product = lowest.product_microseconds();
        let reference = lowest.reference_microseconds();
        println!(
            "| {name} | {block} | {} | {bytes} | {product:.1} / {reference:.1} = {:.2} |",
            bytes / block,
            product / reference
        );
    }
    println!();
    true
}

fn print_how(times: &[Lowest]) {
    let rounds = || times.iter().map(|lowest| lowest.rounds);
    println!(
        "The format of a blank disc, in a buffer of bytes 255, with idlen 15: lowest time of {} to {} rounds, taken as \
         above. At the limits of 124 and 999 Mbytes there are about 510,000 map bits, whichever the block. An earlier \
         build is not measured, as the call was not there. Microseconds: product / reference = ratio.",
        rounds().min().unwrap_or(0),
        rounds().max().unwrap_or(0)
    );
    println!();
}

/// The format of a disc, in a buffer as long as its map.
fn case(log2secsize: u32, capacity: u64) -> Case {
    let of = |call, buffer: &[u8]| Case::formatting(call, log2secsize, capacity, IDLEN, buffer);
    let length = of(Call::FormatLength, &[]).run().values[0];
    of(Call::Format, &vec![0xFF; length as usize])
}

/// The lowest times of each disc.
fn measure(sides: &[Side], cases: &[Case], plan: &Plan) -> Vec<Lowest> {
    let mut times: Vec<Lowest> = cases.iter().map(|_| Lowest::new(sides.len(), 1)).collect();
    for _ in 0..plan.passes {
        for (case, lowest) in cases.iter().zip(&mut times) {
            lowest.add(sides, slice::from_ref(case), plan.time);
        }
    }
    times
}
